"""Which lines of programs are changed between two versions, and which of those no key ran.

A changed line that isn't run itself, as a constant, a field, EQU or USING, counts as run where every line that uses it was, by XREF; a datum
also needs that these lines take its bytes by its own name, since by an address nobody knows whether they came to it.
"""
import difflib
from collections.abc import Iterator, Sequence
from dataclasses import dataclass, field, replace
from functools import cached_property
from itertools import zip_longest

from cics.child import Child
from cics.cover.asking import covered_in, looks_of
from cics.cover.users import base_of, sections_of, takes
from cics.looks import InUse, LiteralUsed, Used, numbers_in
from cics.scripts import Action
from cics.statements import Statement, statements_of

SILENT = ("TITLE", "PRINT", "EJECT", "SPACE")  # statements that make nothing
DATA = ("DS", "DC", "EQU", "DSECT")  # those that are used by their names
NOWHERE, UNREAD = "used nowhere", "perhaps never read"


@dataclass(frozen=True)
class Uses:
    """What XREF says of a source: which lines use what a line defines, and literals; and from where to where each USING is in use."""

    users: dict[int, list[int]] = field(default_factory=dict)
    of_literals: list[int] = field(default_factory=list)
    in_use: list[range] = field(default_factory=list)


@dataclass(frozen=True)
class Ran:
    """What the keys ran of a source: how often each line with a statement that is run; and which lines use what others define."""

    name: str
    lines: list[str]
    runs: dict[int, int] = field(default_factory=dict)
    uses: Uses = field(default_factory=Uses)

    @cached_property
    def statements(self) -> list[Statement]:
        return [one for one in statements_of(self.lines, "") if not one.is_comment and one.operation not in SILENT]

    @cached_property
    def numbers(self) -> list[int]:
        return [one.origin.number for one in self.statements]

    def count_run(self) -> int:
        return sum(count > 0 for count in self.runs.values())

    def plus(self, other: "Ran") -> "Ran":
        """What was run of the source here and there."""
        return replace(self, runs={line: count + other.runs.get(line, 0) for line, count in self.runs.items()})

    def texts(self) -> list[tuple[str, str, str]]:
        """The statements without their remarks."""
        return [(one.name, one.operation, one.operand) for one in self.statements]

    def definition(self, at: int) -> int | None:
        """The place of the statement that has the name of one among data: its own, or that of the one above it."""
        while at >= 0 and self.numbers[at] not in self.runs:
            if self.statements[at].name:
                return at
            at -= 1
        return None

    def users_of(self, at: int) -> list[int]:
        """The places of the statements that use what a statement defines."""
        if self.statements[at].operation == "USING":
            lines = self.users_of_base(at)
        else:
            definition = self.definition(at)
            lines = {*self.uses.users.get(self.numbers[definition], [])} if definition is not None else set()
        return [self.numbers.index(line) for line in sorted(lines) if line in self.numbers]

    def users_of_base(self, at: int) -> set[int]:
        """The lines that use names of a USING's section, or literals of the control section, where it is in use."""
        section, sections = base_of(self.statements[at], self.statements), sections_of(self.statements)
        is_dummy = any(one.name == section and one.operation == "DSECT" for one in self.statements)
        used = {line for defined, lines in self.uses.users.items() if sections.get(defined) == section for line in lines}
        used |= set() if is_dummy else {*self.uses.of_literals}
        return {line for line in used if line in self.runs and any(line in lines for lines in self.uses.in_use if lines.start == self.numbers[at])}

    def missed(self, at: int, seen: frozenset[int] = frozenset()) -> set[int]:
        """The lines that would have to be run for a statement to count as run, and weren't: its own, or those of all that use it."""
        number, operation = self.numbers[at], self.statements[at].operation
        if number in self.runs:
            return set() if self.runs[number] else {number}
        users = {*self.users_of(at)} - seen
        if operation not in (*DATA, "USING") or operation == "USING" and not users:
            return set() if self.count_run() else {number}
        return {line for user in users for line in self.missed(user, seen | users | {at})}

    def why_not(self, at: int) -> str | None:
        """Why a statement doesn't count as run: none where it does, and nothing where it is one that is run itself and wasn't."""
        missed, operation = self.missed(at), self.statements[at].operation
        if operation not in (*DATA, "USING") or missed == {self.numbers[at]}:
            return "" if missed else None
        if missed:
            return f"used on {', '.join(map(str, sorted(missed)))}"
        if operation in DATA and not self.users_of(at):
            return NOWHERE
        return UNREAD if operation == "DC" and not self.is_taken(at) else None

    def is_taken(self, at: int) -> bool:
        """Whether all that use a datum take its bytes by its own name."""
        name = self.statements[at].name
        return name != "" and all(takes(self.statements[user], [name]) for user in self.users_of(at))


def uses_in(lines: Sequence[str]) -> dict[int, list[int]]:
    """The lines that use what each line defines, by XREF."""
    return {one.line: numbers_in(one.users) for one in Used.all_in(lines)}


def uses_by(lines: Sequence[str]) -> Uses:
    """What XREF writes of a source."""
    literals = [number for one in LiteralUsed.all_in(lines) for number in numbers_in(one.users)]
    in_use = [range(one.first, one.last + 1) for one in InUse.all_in(lines)]
    return Uses(uses_in(lines), literals, in_use)


def ran_of(child: Child, steps: Sequence[Action]) -> list[Ran]:
    """What was run of each source."""
    found = []
    for name, lines in sources_of(steps).items():
        looked, uses = child.ask_each([looks_of(name), [f"XREF {name}"]])
        covered = covered_in(looked, name, lines, "", 0)
        runs = {line.place.line: line.runs or 0 for line in covered.statements()} if covered else {}
        found.append(Ran(name, lines, runs, uses_by(uses)))
    return found


def sources_of(steps: Sequence[Action]) -> dict[str, list[str]]:
    return {step.words[1]: step.block for step in steps if step.word == "SOURCE"}


def images_of(steps: Sequence[Action]) -> dict[str, list[str]]:
    return {step.words[1]: step.lines for step in steps if step.word == "IMAGE"}


@dataclass(frozen=True)
class Changed:
    """A changed line: how it is called, and why it doesn't count as run; none where it does, and nothing where it says that by itself."""

    place: str
    why: str | None

    def __str__(self) -> str:
        return f"{self.place} ({self.why})" if self.why else self.place


def changed_in(old: Ran, new: Ran) -> Iterator[Changed]:
    """The changed lines of a source, by the new one's numbers; one that is only in the old one by that. One line in the place of another was run
    where both were."""
    for word, first, last, begin, end in difflib.SequenceMatcher(None, old.texts(), new.texts(), autojunk=False).get_opcodes():
        if word == "equal":
            continue
        for before, after in zip_longest(range(first, last), range(begin, end)):
            why = None if after is None else new.why_not(after)
            if why is None and before is not None:
                why = old.why_not(before)
                why = why and (f"old: {why}" if after is not None else why)
            yield Changed(f"old {old.numbers[before]}" if after is None else f"{new.numbers[after]}", why)


def changes_of(old: Sequence[Ran], new: Sequence[Ran]) -> dict[str, list[Changed]]:
    """The changed lines of all programs, by their names; none of a program that is the same."""
    befores, afters = ({one.name: one for one in side} for side in (old, new))
    found = {name: [*changed_in(befores.get(name, Ran(name, [])), afters.get(name, Ran(name, [])))] for name in dict.fromkeys([*befores, *afters])}
    return {name: changed for name, changed in found.items() if changed}


@dataclass(frozen=True)
class Standing:
    """What "the same" stands on: the changed lines, which of them no key ran, and lines that tell it."""

    changed: int
    never: list[str]
    said: str
    lines: list[str]

    def is_all_run(self) -> bool:
        return not self.never


def counts_of(old: Sequence[Ran], new: Sequence[Ran], names: Sequence[str]) -> list[str]:
    """How many statements were run of the old and of the new source of programs."""
    befores, afters = ({one.name: one for one in side} for side in (old, new))
    sides = [(name, befores.get(name, Ran(name, [])), afters.get(name, Ran(name, []))) for name in names]
    return [f"{name}: {before.count_run()} of {len(before.runs)} statements of the old source were run, {after.count_run()} of {len(after.runs)} of the new"
            for name, before, after in sides]


def said_of(changed: int, never: Sequence[str]) -> str:
    if not changed:
        return "no line is changed"
    if changed == 1:
        return f"the one changed line was never run: {never[0]}" if never else "the one changed line was run"
    if not never:
        return f"all {changed} changed lines were run"
    return f"of {changed} changed lines {len(never)} {'was' if len(never) == 1 else 'were'} never run: {', '.join(never)}"


def standing_of(old: Sequence[Ran], new: Sequence[Ran], images: Sequence[str]) -> Standing:
    """What is known of the changed lines; a changed image has no lines, and whether it was run isn't known."""
    changes = changes_of(old, new)
    is_one = len(changes) + len(images) == 1
    never = [f"{one}" if is_one else f"{name} {one}" for name, changed in changes.items() for one in changed if one.why is not None]
    never += [f"the image {name}" for name in images]
    count = sum(map(len, changes.values())) + len(images)
    return Standing(count, never, said_of(count, never), counts_of(old, new, [*changes] or [one.name for one in new]))


def standing(runs: Sequence[Sequence[Ran] | None], steps: Sequence[Sequence[Action]]) -> Standing:
    """What "the same" of two scripts stands on, by what each ran; where that isn't counted, all changed lines may never have been run."""
    befores, afters = map(images_of, steps)
    images = [name for name in dict.fromkeys([*befores, *afters]) if befores.get(name) != afters.get(name)]
    counted = [ran for ran in runs if ran is not None]
    if len(counted) == 2:
        return standing_of(counted[0], counted[1], images)
    old, new = ([Ran(name, lines) for name, lines in sources_of(side).items()] for side in steps)
    count = sum(map(len, changes_of(old, new).values())) + len(images)
    if not count:
        return Standing(0, [], said_of(0, []), [])
    return Standing(count, ["unknown"], f"{count} changed line{'s' if count > 1 else ''}, and cicsedf doesn't count what was run", [])
