"""What the gate took when it was last measured: the two tables of .ci/MEASURED.md, and what follows from them for a run that begins."""
import os
import re
from dataclasses import dataclass, field

from repository import Repository, text_of, write

HELD = 4.5  # GB, of which a proof that has one job holds less
NOTED = os.path.join(os.path.dirname(os.path.realpath(__file__)), "MEASURED.md")
CRATES = re.compile(r"^\| Crate \| Proof, s \|.*\n(?:\|.*\n)+processor seconds: (\d+).*\n", re.M)
STEPS = re.compile(r"^\| Step \| Processor, s \|.*\n(?:\|.*\n)+", re.M)
ROW = re.compile(r"^\| (\w+) \| (\d+) \| (\d+) \| ([\d.]+) \|$", re.M)
STEP = re.compile(r"^\| `([^`]+)` \| (\d+) \|", re.M)


@dataclass(frozen=True)
class Cost:
    """What a crate took: processor seconds, and the most memory that it held, in GB. A crate that isn't in the table counts as a dear one."""

    proof: int = 300
    tests: int = 0
    memory: float = 4.0


@dataclass(frozen=True)
class Measured:
    """What crates and steps took: processor seconds of all of `rt ci`, and of each step beside it but trials of wrong bodies."""

    crates: dict[str, Cost] = field(default_factory=dict)
    whole: int = 0
    steps: dict[str, int] = field(default_factory=dict)

    def of(self, crate: str) -> Cost:
        return self.crates.get(crate, Cost())

    def chain(self, repository: Repository, crate: str) -> int:
        """The seconds of the longest chain of crates that are proved one after the other, up to this one."""
        below = [self.chain(repository, it) for it in repository.libraries[crate] if it in repository.libraries]
        return self.of(crate).proof + max(below, default=0)

    def minutes(self, seconds: int, chain: int, processors: int) -> int:
        """How long so many processor seconds take by the clock, where that chain of them can't be cut."""
        return round(max(seconds / processors, chain) / 60)


def read(page: str) -> Measured:
    crates, steps = CRATES.search(page), STEPS.search(page)
    costs = {name: Cost(int(proof), int(tests), float(memory)) for name, proof, tests, memory in ROW.findall(crates[0] if crates else "")}
    return Measured(costs, int(crates[1]) if crates else 0, {name: int(seconds) for name, seconds in STEP.findall(steps[0] if steps else "")})


def noted(path: str = NOTED) -> Measured:
    return read(text_of(path)) if os.path.exists(path) else Measured()


def note(log: str, path: str = NOTED) -> list[str]:
    """Puts the last table of each kind of a run's log in place of the one that is noted; what can't be noted: a table that the log
    lacks, or one of a run that proved nothing of some crate, since that was kept."""
    said, page, lacking = text_of(log, "replace"), text_of(path), []
    for kind, table in (("crates", CRATES), ("steps", STEPS)):
        found = [it[0] for it in table.finditer(said)]
        kept = [name for name, cost in read(found[-1]).crates.items() if not cost.proof] if found else []
        if not found:
            lacking.append(f"it has no table of {kind}")
        elif kept:
            lacking.append(f"it isn't of a run from nothing: {', '.join(kept)} were kept")
        else:
            page = table.sub(found[-1].replace("\\", r"\\"), page)
    write(path, page)
    return lacking


def available() -> float:
    """The memory that is free, in GB."""
    found = re.search(r"^MemAvailable:\s+(\d+) kB", text_of("/proc/meminfo"), re.M)
    return int(found[1]) * 1024 / 1e9 if found else 0.0


def processors() -> int:
    return len(os.sched_getaffinity(0))


def one_job_each() -> dict[str, str]:
    """The setting by which `rt ci` gives each proof one job, as many proofs at once as processors and memory allow. Without it a proof
    that begins gets the processors that are idle then: each of its jobs loads all for itself, and a longer chain waits for them."""
    return {"RT_JOBS": str(max(1, min(processors(), int(available() / HELD))))}
