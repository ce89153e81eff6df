"""What was run, told: as lines, as an object of JSON, and in lcov's format."""
from collections.abc import Iterator, Sequence
from itertools import groupby

from cics.child import encoded, text_of
from cics.cover.counts import Branch, Coverage, Covered, Line
from cics.files import Mark
from cics.origins import Place

LCOV = Mark("cics-cover", "TN:cics_cover_")


def counted(count: int, what: str, several: str) -> str:
    return f"{count} {what if count == 1 else several}"


def percent(run: int, count: int) -> str:
    """How much of all was run, never more than that is."""
    return f"{1000 * run // count / 10:g} %" if count else "none"


def ran_of(programs: Sequence[Covered]) -> str:
    """How many statements and branches there are, and how many were run both ways."""
    run, count = sum(one.count_run() for one in programs), sum(len(one.statements()) for one in programs)
    both, branches = sum(one.count_both() for one in programs), sum(len(one.branches()) for one in programs)
    ways = f"{both} of {counted(branches, 'branch', 'branches')} both ways"
    return f"{run} of {counted(count, 'statement', 'statements')} run, {percent(run, count)}; {ways}"


def range_of(lines: Sequence[Line]) -> str:
    return lines[0].number if len(lines) == 1 else f"{lines[0].number}-{lines[-1].number}"


def never_of(one: Covered) -> list[str]:
    return [range_of(lines) for lines in one.never()]


def text_in(line: Line) -> str:
    return " ".join(line.text[:71].split())


def way_of(line: Line) -> str:
    """That a branch went one way only, and how often."""
    branch = line.branch or Branch()
    return f"line {line.number} was {branch.way()}, {counted(branch.taken + branch.passed, 'time', 'times')}: {text_in(line)}"


def lines_of_program(title: str, one: Covered) -> Iterator[str]:
    yield f"{title}: {ran_of([one])}"
    if never := never_of(one):
        yield f"  never run: {', '.join(never)}"
    yield from (f"  {way_of(line)}" for line in one.one_way())


def report_of(coverage: Coverage) -> list[str]:
    """The lines on each program, and where there are several on all."""
    programs = coverage.programs
    lines = [line for one in programs for line in lines_of_program(coverage.title(one), one)]
    return lines + ([f"{len(programs)} programs: {ran_of(programs)}"] if len(programs) > 1 else [])


def line_data(line: Line) -> dict[str, object]:
    branch = {"taken": line.branch.taken, "passed": line.branch.passed} if line.branch else {}
    return {"line": line.number, "at": f"{line.place.file}:{line.place.line}", "runs": line.runs, **branch, "text": text_in(line)}


def program_data(one: Covered) -> dict[str, object]:
    return {"program": one.name, "scripts": one.scripts, "statements": len(one.statements()), "run": one.count_run(),
            "branches": len(one.branches()), "both": one.count_both(), "never": never_of(one), "lines": [line_data(line) for line in one.statements()]}


def data_of(coverage: Coverage) -> dict[str, object]:
    return {"programs": [program_data(one) for one in coverage.programs], "faults": coverage.faults}


def branch_data(place: Place, branch: Branch) -> list[str]:
    """The two ways of a branch; one that was never run has a hyphen for each."""
    was_run = branch.taken + branch.passed > 0
    return [f"BRDA:{place.line},0,{at},{count if was_run else '-'}" for at, count in enumerate((branch.taken, branch.passed))]


def record_of(file: str, lines: Sequence[Line]) -> list[str]:
    """The record of a file in lcov's format."""
    branches = [line.branch for line in lines if line.branch]
    ways = [way for line in lines if line.branch for way in branch_data(line.place, line.branch)]
    counts = [f"DA:{line.place.line},{line.runs}" for line in lines]
    hit = sum((branch.taken > 0) + (branch.passed > 0) for branch in branches)
    return ["TN:", f"SF:{file}", *ways, f"BRF:{2 * len(branches)}", f"BRH:{hit}", *counts, f"LF:{len(counts)}",
            f"LH:{sum(not line.is_never_run() for line in lines)}", "end_of_record"]


def lcov_of(coverage: Coverage) -> bytes:
    """All of it in lcov's format: a record of each program's source, or of each file that it comes from. The first record's test is named by
    the mark."""
    found = []
    for one in coverage.programs:
        lines = sorted(one.statements(), key=lambda line: (line.place.file, line.place.line))
        for file, of_file in groupby(lines, key=lambda line: line.place.file):
            found += record_of(file, [*of_file])
    return LCOV.marked(encoded(text_of(found[1:])))
