"""What the programs write: lines of a transcript, and of looks."""
from collections.abc import Sequence

ROWS = 24
CWA = ("001000", 512)  # the common work area: its address, and how many bytes it has
RESTS = ("Idle", "Waiting")  # a turn that did nothing
RUN_ENDS = (*RESTS, "Held", "Ended", "Abended", "NoSuchTerminal")  # turns after which RUN does no more
LOOK = "> "  # how a line of a look begins


def is_of_page(line: str) -> bool:
    """Whether a line is one of a page."""
    return line[:2].isdigit() and line[2:3] == "|"


def without_looks(lines: Sequence[str]) -> list[str]:
    return [line for line in lines if not line.startswith(LOOK)]


def of_look(lines: Sequence[str]) -> list[str]:
    """The lines of a look, without what they begin with."""
    return [line.removeprefix(LOOK) for line in lines]


def reply_of(line: str) -> str:
    """What an event is answered: the word after the terminal's name."""
    return "".join(line.split(" ")[2:3])


def rows_of(page: Sequence[str]) -> list[str]:
    """The rows of a page, of the lines of an answer after the first."""
    rows = [""] * ROWS
    for line in page[1:]:
        rows[int(line[:2]) - 1] = line[3:]
    return rows
