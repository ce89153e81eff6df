"""Has cicsedf assemble sources of five kinds of 1,250 to 10,000 lines, some hundred thousand lines in one run. What is
made of one of each is compared before with what must be (by cicslook, as `checks/statements` does it). Prints the user CPU of
one source, read, translated and assembled, in milliseconds, with the growth for twice as many lines, and the peak memory of a run with one
source of the longest. No part of the gate."""
from collections.abc import Callable

from bench import sizes
from bench.sizes import SIZES
from checks.assembling import line_of
from checks.common import Check
from checks.examples import text_of
from checks.measuring import Taken, failing, taken, well
from checks.statements import Source, differences

LINES_IN_ALL = 200_000


def made(lines: list[str], text: str, places: str, words: list[int] | None = None) -> Source:
    """A source of these lines in a section with twelve bases, and what they must be assembled to."""
    head = [line_of("P", "CSECT"), line_of("", "USING", "P,12,11,10,9,8,7,6,5,4,3,2,1")]
    return Source("made", [*head, *lines, line_of("", "END")], bytes.fromhex(text), words or [], 0, places)


def placed(count: int) -> str:
    """That so many lines from the third on are listed, four bytes apart."""
    return " ".join(f"{3 + k}:{4 * k:06X}" for k in range(count))


def address(offset: int) -> str:
    """Base register and displacement of an offset: register 12 is at the start, and each lower one 4,096 bytes on."""
    return f"{12 - offset // 4096:X}{offset % 4096:03X}"


def instructions(count: int) -> Source:
    """Instructions with an implied address, and every other one with a literal."""
    pool = (4 * count + 7) // 8 * 8
    lines, text, literals = [], "", dict[int, int]()
    for k in range(count):
        if k % 2:
            literal = k % 500
            at = pool + 4 * literals.setdefault(literal, len(literals))
            lines.append(line_of("", "L", f"1,=F'{literal}'"))
            text += "5810" + address(at)
        else:
            lines.append(line_of("", "ST", f"1,P+{k * 4 % 4096}"))
            text += "5010" + address(k * 4 % 4096)
    return made(lines, text + "00" * (pool - 4 * count) + "".join(f"{literal:08X}" for literal in literals), placed(count))


def labels(count: int) -> Source:
    return made([line_of(f"L{k}", "DC", f"F'{k}'") for k in range(count)], "".join(f"{k:08X}" for k in range(count)), placed(count))


def forward(count: int) -> Source:
    half = count // 2
    text = "".join(f"{4 * (half + k):08X}" for k in range(half)) + "00000000" * (count - half)
    return made(sizes.forward(count), text, placed(count), [4 * k for k in range(half)])


def with_a_word(lines: list[str]) -> Source:
    """Lines that make no text, and a word."""
    return made([*lines, line_of("", "DC", "F'0'")], "00000000", f"{len(lines) + 3}:000000")


def comments(count: int) -> Source:
    return with_a_word(sizes.comments(count - 1))


def equates(count: int) -> Source:
    return with_a_word(sizes.equates(count - 1))


def used(program: str, source: Source, times: int) -> Taken:
    """What a run with so many of a source takes. Only the first program is defined."""
    it = well("assemble", taken([program], text_of(["SOURCE P", *source.lines, "/*"]) * times))
    due = [f"PROGRAM P AT 010000 LENGTH {len(source.text):06X}", *["PROGRAM P REFUSED Duplicate"] * (times - 1)]
    if it.ended.lines() != due:
        raise failing("assemble", it.ended.lines()[-1])
    return it


def once(program: str, looks: str, kind: Callable[[int], Source], count: int) -> tuple[float, int]:
    """The milliseconds of one source, and the peak memory of a run with one."""
    source, times = kind(count - 3), LINES_IN_ALL // count
    for what in differences(looks, source):
        raise failing("assemble", what)
    return min(used(program, source, times).user for _ in range(3)) / times * 1000, used(program, source, 1).peak


def main(words: list[str]) -> int:
    check = Check(__name__, __doc__, words, "cicsedf", "cicslook")
    sizes.head("            KiB")
    for kind in (instructions, labels, forward, comments, equates):
        found = [once(check.program(), check.program(1), kind, count) for count in SIZES]
        sizes.row(kind, [milliseconds for milliseconds, _ in found], f"{found[-1][1]:>7,}")
    return 0
