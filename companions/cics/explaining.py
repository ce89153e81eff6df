"""What the manual's pages say of each kind of fault: when a line has it, and what to look for, or to write instead."""
import difflib
import functools
import os
import re
from collections.abc import Iterator
from dataclasses import dataclass

from cics.child import TOP
from cics.cli import MISUSED, Failure
from cics.files import read_own
from cics.from_cics import plain

NOTE, OF_NOTES = "note", "LOOKS-SOURCES.md"
PAGES = ("ASSEMBLER.md", "TRANSLATOR.md", "SCRIPT.md")  # those that have tables of faults
KIND = re.compile(r"[A-Z][a-z]+(?:[A-Z][a-z]+)*")
WHEN = ("When", "First pass", "Second pass", "Meaning")
LOOK_FOR = ("Look for", "Usual causes")
SECTIONS = {"BadOperand": "BadOperand", "BadLine": "BadLine (what makes a line bad)"}  # headings under which all rows are of a kind
NO_LINE = "a line of a script that is none of those that a script may have there"
ACCEPTED = "what is accepted, and most likely not meant"
BAD_LOOK = "Bad looks"  # of LOOKS, whose first text is of BadLook


@dataclass(frozen=True)
class Row:
    """A row of a table: where it is, and its cells by the table's heads."""

    page: str
    heading: str
    cells: dict[str, str]

    def kinds(self) -> list[str]:
        names = next((self.cells[head] for head in ("Fault", "Refusal") if head in self.cells), "")
        return [name for name in names.split(", ") if KIND.fullmatch(name)]

    def of(self, heads: tuple[str, ...]) -> list[str]:
        return [self.cells[head] for head in heads if self.cells.get(head)]


@functools.cache
def page_lines(name: str) -> list[str]:
    path = os.path.join(TOP, "docs", name)
    try:
        return read_own(path).splitlines()
    except OSError as why:
        raise Failure(f"docs/{name}: {why.strerror}; the manual's pages say what a fault means") from None


def cells_of(line: str) -> list[str]:
    return [plain(cell) for cell in re.split(r"(?<!\\)\|", line.strip().strip("|"))]


def rows_of(page: str) -> Iterator[Row]:
    """The rows of all tables of a page."""
    heading, heads = "", list[str]()
    lines = page_lines(page)
    for line, following in zip(lines, [*lines[1:], ""]):
        if line.startswith("#"):
            heading = line.lstrip("# ")
        if not line.startswith("|"):
            heads = []
        elif following.startswith("|---"):
            heads = cells_of(line)
        elif heads and not line.startswith("|---"):
            yield Row(page, heading, dict(zip(heads, cells_of(line))))


@functools.cache
def rows() -> list[Row]:
    return [row for page in PAGES for row in rows_of(page)]


@functools.cache
def kinds() -> list[str]:
    """The kinds of which the pages say something."""
    return list(dict.fromkeys([*(kind for row in rows() for kind in row.kinds() if row.of(WHEN)), *SECTIONS, "BadLook", NOTE]))


def kind_of(word: str) -> str:
    """The kind that a word names, in whatever letters."""
    found = next((kind for kind in kinds() if kind.lower() == word.lower()), None)
    if found is None:
        near = difflib.get_close_matches(word.lower(), [kind.lower() for kind in kinds()], 1)
        meant = f"{next(kind for kind in kinds() if kind.lower() == near[0])}?" if near else f"there is {', '.join(kinds())}"
        raise Failure(f"--explain {word}: no such fault; {meant}", MISUSED)
    return found


def whens(kind: str) -> list[str]:
    """When a line has a fault; of several passes each."""
    return [when for row in rows() if kind in row.kinds() for when in row.of(WHEN)]


def paragraph(page: str, heading: str) -> str:
    """The first text under a heading."""
    lines = page_lines(page)
    begin = lines.index(f"## {heading}") + 1
    end = next(at for at in range(begin + 1, len(lines)) if not lines[at].strip())
    return plain(" ".join(lines[begin:end])).strip()


def explained(word: str) -> list[str]:
    """What a kind means, and what to write instead, in lines."""
    kind = kind_of(word)
    if kind == "BadLook":
        return [f"BadLook: {paragraph('LOOKS.md', BAD_LOOK)}", "", f'docs/LOOKS.md, "{BAD_LOOK}"']
    if kind == NOTE:
        notes = [row.cells for row in rows_of(OF_NOTES) if "Note" in row.cells]
        lines = [f"  {cells['Note']}: {cells['Of']}" + (f"\n    -> {cells['Instead']}" if cells["Instead"] else "") for cells in notes]
        return [f"note: {ACCEPTED}", "", *"\n".join(lines).split("\n"), "", f'docs/{OF_NOTES}, "FAULTS name"']
    lines = [f"{kind}: {'; or: '.join(whens(kind)) or NO_LINE}"]
    looks = [look for row in rows() if kind in row.kinds() for look in row.of(LOOK_FOR) if not look.endswith(" below")]
    lines += ["", *(f"Look for: {look}" for look in looks)] if looks else []
    places = dict.fromkeys((row.page, row.heading) for row in rows() if kind in row.kinds() and row.of(WHEN + LOOK_FOR))
    if kind in SECTIONS:
        under = [row for row in rows() if row.heading == SECTIONS[kind]]
        lines += ["", *(line for row in under for line in map("".join, zip(("  ", "    -> "), row.cells.values())))]
        places.update(dict.fromkeys((row.page, row.heading) for row in under))
    return [*lines, "", *(f'docs/{page}, "{heading}"' for page, heading in places)]
