"""What docs/FROM-CICS.md says to write instead of what isn't there."""
import functools
import os
import re
from dataclasses import dataclass

from cics.files import read_own

PAGE = os.path.join(os.path.dirname(os.path.abspath(__file__)), "../../docs/FROM-CICS.md")


@dataclass(frozen=True)
class Row:
    """A row of a table of the page: its heading, what is missing, and what to write."""

    heading: str
    missing: str
    write: str

    def names(self) -> list[str]:
        return self.missing.split(", ")

    def has(self, word: str) -> bool:
        """Whether a word, or several as they stand, is in the row's first cell."""
        return re.search(rf"(?<![\w@#$]){re.escape(word)}(?![\w@#$])", self.missing) is not None


@functools.cache
def rows() -> list[Row]:
    """All rows; none where the page isn't there."""
    try:
        lines = read_own(PAGE).splitlines()
    except OSError:
        return []
    found, heading = [], ""
    for line in lines:
        if line.startswith("## "):
            heading = line.removeprefix("## ")
        cells = [plain(cell) for cell in line.split(" | ")]
        if line.startswith("| ") and len(cells) >= 3 and cells[0] != "Missing":
            found.append(Row(heading, cells[0], cells[-1]))
    return found


def plain(cell: str) -> str:
    """A cell without marks of tables, of code, of bold letters, and of links."""
    return re.sub(r"\[([^]]*)\]\([^)]*\)", r"\1", cell.strip("| ").replace("`", "").replace("**", ""))


def advice(heading: str, *words: str) -> str:
    """What the page says to write instead of the first of these words that it has under a heading; empty without one."""
    under = [row for row in rows() if row.heading == heading]
    named = [row for word in words for row in under if word in row.names()]
    found = [*named, *(row for word in words for row in under if row.has(word))]
    if not found:
        return ""
    write = found[0].write.replace(" below", " of that page")
    return f"; write: {write} (docs/FROM-CICS.md, {heading}: {found[0].missing})"
