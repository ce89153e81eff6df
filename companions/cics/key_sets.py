"""KEY lines of a block of CHOICES: a set, as `{00101|ABCDE}`, stands for one of its alternatives, and a `#` in it for each digit."""
import itertools
import re
from collections.abc import Iterator

MOST_LINES, MOST_KEYS = 256, 10_000  # KEY lines of a block, and keys that all of them may stand for
SETS = re.compile(r"\{([^{}]*)\}")
DIGITS = "0123456789"


def alternatives(inside: str) -> list[str]:
    """What a set stands for, by what is between its braces."""
    found: list[str] = []
    for one in inside.split("|"):
        first, *others = one.split("#")
        for digits in itertools.product(DIGITS, repeat=len(others)):
            found.append(first + "".join(map(str.__add__, digits, others)))
    return found


def is_spoilt(line: str) -> bool:
    """Whether a line has a `{` without a `}` after it, before the next `{`."""
    return "{" in SETS.sub("", line)


def count_of(line: str) -> int:
    """How many keys a KEY line stands for."""
    count = 1
    for inside in SETS.findall(line):
        count *= sum(10 ** one.count("#") for one in inside.split("|"))
    return count


def expanded(line: str) -> Iterator[str]:
    """The keys that a KEY line stands for: one for each way to choose an alternative of each set, the first set being the slowest."""
    pieces = SETS.split(line)  # texts outside of sets, and between them what is in the braces
    for chosen in itertools.product(*map(alternatives, pieces[1::2])):
        yield pieces[0] + "".join(map(str.__add__, chosen, pieces[2::2]))
