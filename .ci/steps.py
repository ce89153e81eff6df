"""The steps of the gate. docs/TESTING.md has what each shows: the first sentence of its head comment.

Limits are in processor seconds, of a command with all that it begins: they don't depend on how busy the machine is."""
import re
from dataclasses import dataclass

from trusted import PROGRAMS

PROOF = "rt ci"


@dataclass(frozen=True)
class Step:
    """A command of the gate, where a check or a measurement stands for the command that starts it, and its limit. It waits for the programs
    that it names, or for `after`: crates, or all of `rt ci`. One that takes less than a twentieth of a processor for `idle` seconds hangs."""

    command: str
    limit: int = 900
    after: tuple[str, ...] = ()
    idle: int = 180

    def words(self) -> list[str]:
        words = self.command.split()
        return ["checks/check", *words] if words[0].startswith(("checks/", "bench/")) else words

    def needs(self) -> set[str]:
        """The crates that must be proved before it begins, or `rt ci`."""
        return {*self.after, *re.findall(r"crates/(\w+)/out/", self.command)}


class Sweep(Step):
    """A step over what was built: it waits for both programs, since it may compare them."""

    def needs(self) -> set[str]:
        return {*PROGRAMS, *super().needs()}


class Trial(Step):
    """A step that tries wrong bodies of a crate, once that is proved."""


# Every crate is proved, from nothing except what the toolchain keeps of earlier runs on the machine.
PROVING = Step(".ci/time-and-memory rt ci", limit=40_000, idle=1_800)

# What the repository says of itself. None of this needs a proof or a built program.
OWN = [
    Step(".ci/believed"),
    Step(".ci/believed-test"),
    Step(".ci/promises"),
    Step(".ci/promises --test"),
    Step(".ci/testing"),
    Step(".ci/testing --test"),
    Step(".ci/theorem"),
    Step("docs/index"),
    Step("docs/index --test"),
    Step(".ci/no-own-memory"),
    Step(".ci/wrong-test"),
    Step(".ci/gate-test"),
    Step(".ci/release-test"),
    Step(".ci/typed --where-it-can", idle=400),  # packages may take their time
    Step("checks/pictures"),
    Step("checks/recipes"),
    Step("checks/recipes --test"),
    Step(".ci/wrong --check --due"),
    Step(".ci/assumed proof.log", after=(PROOF,)),
]

# What the built programs do, in the copy in which they were built.
BUILT = [
    Sweep("checks/run crates/cicsedf/out/cicsedf"),
    Sweep("checks/run crates/cicslook/out/cicslook --looks"),
    Sweep("checks/run crates/cicslook/out/cicslook"),
    Sweep("checks/line-by-line crates/cicsedf/out/cicsedf"),
    Sweep("checks/line-by-line crates/cicslook/out/cicslook --looks"),
    Sweep("checks/documents crates/cicsedf/out/cicsedf crates/cicslook/out/cicslook"),
    Sweep("docs/index --commands"),
    Sweep("checks/same-test crates/cicsedf/out/cicsedf"),
    Sweep("checks/refuse-memory crates/cicsedf/out/cicsedf", 1_500),
    Sweep("checks/refuse-memory crates/cicslook/out/cicslook --looks"),
    Sweep("checks/refused-events crates/tool_region/out/tool_region"),
    Sweep("checks/event-lists crates/tool_region/out/tool_region"),
    Sweep("checks/refuse-places", 900, after=("tool_machine",)),
    Sweep("checks/refuse-tests", 900, after=(PROOF,)),
    Sweep("checks/failing-devices crates/cicsedf/out/cicsedf"),
    Sweep("checks/statements crates/cicslook/out/cicslook"),
    Sweep("checks/translations crates/cicsedf/out/cicsedf"),
    Sweep("checks/scripts crates/cicsedf/out/cicsedf"),
    Sweep("checks/scripts crates/cicslook/out/cicslook --looks"),
    Sweep("checks/statuses crates/cicsedf/out/cicsedf crates/cicslook/out/cicslook"),
    Sweep("checks/hostile crates/cicsedf/out/cicsedf"),
    Sweep("checks/hostile-images crates/tool_region/out/tool_region"),
    Sweep("checks/edf-anywhere crates/cicsedf/out/cicsedf"),
    Sweep("checks/edf-keys crates/cicsedf/out/cicsedf"),
    Sweep("checks/looks-anywhere crates/cicslook/out/cicslook"),
    Sweep("checks/watch crates/cicslook/out/cicslook"),
    Sweep("checks/faulty-sources crates/cicsedf/out/cicsedf crates/cicslook/out/cicslook"),
    Sweep("checks/interleaved crates/cicsedf/out/cicsedf"),
    Sweep("checks/orders crates/cicsedf/out/cicsedf crates/cicslook/out/cicslook"),
    Sweep("checks/choices crates/cicsedf/out/cicsedf crates/cicslook/out/cicslook"),
    Sweep("checks/choices crates/cicsedf/out/cicsedf crates/cicslook/out/cicslook --test"),
    Sweep("checks/pairs crates/cicsedf/out/cicsedf"),
    Sweep("checks/hostile-lines crates/cicsedf/out/cicsedf"),
    Sweep("checks/sizes crates/cicsedf/out/cicsedf"),
    Sweep("checks/sizes crates/cicslook/out/cicslook --looks"),
    Sweep("bench/instructions crates/tool_machine/out/tool_machine crates/cicslook/out/cicslook"),
    Sweep("bench/turns crates/cicsedf/out/cicsedf crates/cicslook/out/cicslook"),
    Sweep("companions/test companions crates/cicsedf/out/cicsedf", 1_800),
    Sweep("companions/test film crates/cicsedf/out/cicsedf"),
    Sweep("companions/test terminals crates/cicsedf/out/cicsedf"),
    Sweep("companions/test conversation crates/cicsedf/out/cicsedf"),
    Sweep("companions/test exact crates/cicsedf/out/cicsedf"),
    Sweep("companions/test stand_in crates/cicsedf/out/cicsedf"),
]
