"""The page of what was run: each program's source with its counts in the margin, without anything from elsewhere."""
import os
from collections.abc import Iterator

from cics.cover.counts import Coverage, Covered, Line
from cics.cover.report import ran_of, range_of
from cics.pages import Markup, assembled, joined, markup

MAKER = "cics-cover"
FOLDER = os.path.dirname(os.path.abspath(__file__))


def count_of(line: Line) -> str:
    return "" if line.runs is None else "never" if line.is_never_run() else f"{line.runs}"


def row_of(line: Line, anchor: str) -> Markup:
    """A row of a source: the line's number, how often it was run, which way alone its branch went, and its text."""
    way = line.branch.way() if line.branch else ""
    kind = Markup(" class=never" if line.is_never_run() else " class=way" if way else "")
    return markup('<tr{} id="{}-{}"><td class=number>{}<td class=count>{}<td class=said>{}<td>{}', kind, anchor, line.number, line.number,
                  count_of(line), way, line.text)


def places_of(one: Covered) -> Iterator[tuple[Line, str]]:
    """The places at which something was missed, each with what is said of it: lines never run, and branches that went one way."""
    found = [(lines[0], f"{range_of(lines)} never run") for lines in one.never()]
    found += [(line, f"{line.number} {line.branch.way()}") for line in one.one_way() if line.branch]
    yield from sorted(found, key=lambda it: one.lines.index(it[0]))


def section_of(coverage: Coverage, one: Covered, at: int) -> Markup:
    anchor = f"p{at}"
    missed = joined([markup('<li><a class=missed href="#{}-{}">{}</a>', anchor, line.number, said) for line, said in places_of(one)])
    rows = joined([row_of(line, anchor) for line in one.lines], "\n")
    return markup("<section><h2>{}</h2>\n<p>{}\n<ul>{}</ul>\n<table><thead><tr><th>Line<th>Runs<th>Branch<th>Statement<tbody>\n{}\n</table></section>",
                  coverage.title(one), ran_of([one]), missed, rows)


def page_of(coverage: Coverage) -> str:
    """The page."""
    sections = joined([section_of(coverage, one, at) for at, one in enumerate(coverage.programs)], "\n")
    faults = joined([markup("<p class=fault>{}: {}", script, why) for script, why in coverage.faults.items()])
    said = markup("{}", ran_of(coverage.programs))
    return assembled(MAKER, FOLDER, {"SAID": said, "SECTIONS": joined([faults, sections])}, has_common=False)
