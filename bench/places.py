"""Has tool_machine place sources of each kind of 1,250 to 10,000 lines, and prints the user CPU of placing one once,
in milliseconds, with the growth for twice as many. No part of the gate."""
from collections.abc import Callable

from bench.sizes import SIZES, equates, head, labels, row
from checks.assembling import line_of
from checks.common import Check
from checks.examples import text_of
from checks.measuring import taken, well

LINES_IN_ALL = 200_000
Kind = Callable[[int], list[str]]


def literals(count: int) -> list[str]:
    return [line_of("", "L", f"1,=F'{k}'") for k in range(count)]


def sections(count: int) -> list[str]:
    return [text for k in range(count // 2) for text in (line_of(f"D{k}", "DSECT"), line_of(f"F{k}", "DS", "F"))]


def items(count: int) -> list[str]:
    """One DS over all lines."""
    text = ",".join(["F"] * (28 * count))
    rows = [text[k : k + 56] for k in range(0, len(text), 56)]
    return [f"{'' if k else '         DS':15}{row:56}{'X' if k + 1 < len(rows) else ' '}" for k, row in enumerate(rows)]


def pools(count: int) -> list[str]:
    return [text for pool in range(count // 50) for text in [*(line_of("", "L", f"1,=F'{pool * 100 + k}'") for k in range(49)), line_of("", "LTORG")]]


def once(program: str, kind: Kind, count: int) -> tuple[float, str]:
    """The milliseconds of placing a source once, and what the program says of it."""
    lines, turns = [line_of("P", "CSECT"), *kind(count - 2), line_of("", "END")], max(2, LINES_IN_ALL // count)
    few, many = (well("places", taken([program], text_of(["MEASURE pass1", str(times), *lines]))) for times in (0, turns))
    return (many.user - few.user) / turns * 1000, many.ended.lines()[-1]


def main(words: list[str]) -> int:
    program = Check(__name__, __doc__, words, "tool_machine").program()
    head("")
    for kind in (labels, literals, sections, items, pools, equates):
        found = [once(program, kind, count) for count in SIZES]
        row(kind, [milliseconds for milliseconds, _ in found], found[-1][1])
    return 0
