"""How many stand-ins sources have, by the comments at their heads, and which sources are programs that stand for something."""
import re
from collections.abc import Iterable, Sequence

MADE, COUNTED = "*STAND-IN OF ", re.compile(r"^\*STAND-INS: (\d+) \(")
HEAD = 20  # lines in which the comment is looked for


def is_made(lines: Sequence[str]) -> bool:
    """Whether a source is a program that was made to stand for a mapset, or for files."""
    return any(line.startswith(MADE) for line in lines[:HEAD])


def count_in(sources: Iterable[Sequence[str]]) -> int:
    """How many statements of sources have something that stands for them."""
    found = (COUNTED.match(line) for lines in sources for line in lines[:HEAD])
    return sum(int(one[1]) for one in found if one)


def said(count: int) -> list[str]:
    """The line that says so; none without any."""
    return [f"STAND-INS: {count}"] if count else []
