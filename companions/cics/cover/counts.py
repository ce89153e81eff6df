"""How often the lines of programs were run, and which ways their conditional branches went; of several scripts added."""
from collections.abc import Iterator
from dataclasses import dataclass, field, replace

from cics.origins import Place


@dataclass(frozen=True)
class Branch:
    """How often a conditional branch was taken, and how often not. Of one that went both ways in a script no more is known than that."""

    taken: int = 0
    passed: int = 0

    def plus(self, other: "Branch") -> "Branch":
        return Branch(self.taken + other.taken, self.passed + other.passed)

    def goes_both_ways(self) -> bool:
        return self.taken > 0 and self.passed > 0

    def way(self) -> str:
        """The one way that it went; empty where it wasn't run, or went both."""
        if self.goes_both_ways() or not self.taken + self.passed:
            return ""
        return "always taken" if self.taken else "never taken"


@dataclass(frozen=True)
class Line:
    """A line of a source: where it stands, by which number it is called, and, where a statement that is run begins there, how often it was."""

    place: Place
    number: str
    text: str
    runs: int | None = None
    branch: Branch | None = None

    def is_never_run(self) -> bool:
        return self.runs == 0

    def plus(self, other: "Line") -> "Line":
        """The line as two scripts ran it."""
        runs = None if self.runs is None else self.runs + (other.runs or 0)
        branch = self.branch.plus(other.branch) if self.branch and other.branch else self.branch or other.branch
        return replace(self, runs=runs, branch=branch)


@dataclass
class Covered:
    """What was run of a program, by scripts."""

    name: str
    lines: list[Line]
    scripts: list[str] = field(default_factory=list)

    def source(self) -> tuple[str, ...]:
        return tuple(line.text for line in self.lines)

    def add(self, other: "Covered") -> None:
        """Adds what other scripts ran of the same source."""
        self.lines = [old.plus(new) for old, new in zip(self.lines, other.lines)]
        self.scripts += other.scripts

    def statements(self) -> list[Line]:
        return [line for line in self.lines if line.runs is not None]

    def count_run(self) -> int:
        return sum(not line.is_never_run() for line in self.statements())

    def branches(self) -> list[Line]:
        return [line for line in self.lines if line.branch]

    def count_both(self) -> int:
        return sum(line.branch is not None and line.branch.goes_both_ways() for line in self.lines)

    def one_way(self) -> list[Line]:
        return [line for line in self.lines if line.branch and line.branch.way()]

    def never(self) -> Iterator[list[Line]]:
        """The lines that were never run, those that follow each other together."""
        found: list[Line] = []
        for line in self.lines:
            if found and not (line.is_never_run() and line.place.file == found[-1].place.file and line.place.line == found[-1].place.line + 1):
                yield found
                found = []
            found += [line] if line.is_never_run() else []
        if found:
            yield found

    def is_below(self, percent: float) -> bool:
        """Whether less than so much of its statements was run."""
        return 100 * self.count_run() < percent * len(self.statements())


@dataclass
class Coverage:
    """What scripts ran: of each source its program, and which scripts don't count, with why."""

    programs: list[Covered] = field(default_factory=list)
    faults: dict[str, str] = field(default_factory=dict)

    def add(self, found: list[Covered]) -> None:
        for one in found:
            known = next((it for it in self.programs if (it.name, it.source()) == (one.name, one.source())), None)
            if known:
                known.add(one)
            else:
                self.programs.append(one)

    def merge(self, other: "Coverage") -> None:
        self.add(other.programs)
        self.faults |= other.faults

    def of_name(self, name: str) -> list[Covered]:
        return [one for one in self.programs if one.name == name]

    def conflict(self) -> str | None:
        """That scripts have different sources of a program; none where they haven't."""
        for one in self.programs:
            others = self.of_name(one.name)
            if len(others) > 1:
                return f"{one.name}: {' and '.join(it.scripts[0] for it in others)} have different sources of it, whose lines can't be added"
        return None

    def title(self, one: Covered) -> str:
        """A program's name, and where there are other sources of it a script that has this one."""
        return one.name if len(self.of_name(one.name)) == 1 else f"{one.name} of {one.scripts[0]}"
