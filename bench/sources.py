"""Runs scripts with large sources, and prints the time and peak memory of each, and the growth with twice as many lines. They have one
SOURCE block of 1,250, 2,500, 5,000 and 10,000 lines of some kinds, with LIST and DISASM, by `cicsedf`, and by `cicslook` blocks of 1,248 to
9,990 lines: FAULTS, of which none or all but a few are faulty, and SOURCE with SYMBOLS or XREF after it. No part of the gate."""
from collections.abc import Callable

from bench.sizes import SIZES, comments, forward
from cics.cli import say
from checks.assembling import line_of
from checks.common import Check
from checks.examples import text_of
from checks.measuring import growth, taken

KEPT = (1_248, 2_497, 4_995, 9_990)  # lines that are kept of a source
LOOKS: list[list[str]] = [[], ["SYMBOLS P"], ["XREF P"]]  # after SOURCE
Kind = Callable[[int], list[str]]


def code(count: int) -> list[str]:
    """Instructions with an implied address or a literal, below a section of its own base."""
    return [line_of("", "L", f"1,=F'{k % 500}'") if k % 2 else line_of("", "ST", "1,80(0,13)") for k in range(count)]


def constants(count: int) -> list[str]:
    return [line_of(f"C{k}", "DC", f"F'{k}'") for k in range(count)]


def commands(count: int) -> list[str]:
    """EXEC statements, each over two lines; their text would be longer than an image, so they stand in the first tenth."""
    one = [line_of("", "EXEC", "CICS WRITEQ TS QUEUE('Q')").ljust(71) + "X", " " * 15 + "FROM(0(5)) LENGTH(=H'4')"]
    some = count // 20
    return one * some + comments(count - 2 * some)


def unknown(count: int) -> list[str]:
    """Faulty lines of the first pass."""
    return [line_of(f"N{k}", "AP", "4(2,13),8(2,13)") for k in range(count)]


def undefined(count: int) -> list[str]:
    """Faulty lines of the second pass."""
    return [line_of("", "LA", f"1,N{k}") for k in range(count)]


def wordless(count: int) -> list[str]:
    """Faulty EXEC statements."""
    return [line_of("", "EXEC", "CICS WRITE")] * count


def uses(count: int) -> list[str]:
    """Statements that each use one name, a few literals, and names of every line before; a register's use ends and begins anew."""
    some = count // 4
    found = []
    for k in range(some):
        found += [line_of("", "L", f"1,=F'{k % 500}'"), line_of(f"C{k}", "DC", f"A(C{k - 1})") if k else line_of("C0", "DS", "A")]
        found += [line_of("", "USING", "P,1"), line_of("", "DROP", "1")]
    return found + comments(count - 4 * some)


def script(kind: Kind, count: int, first: str, looks: list[str]) -> bytes:
    bases = "P,12,11,10,9,8,7,6,5,4,2" if kind is uses else "P,12,11,10,9,8,7,6,5,4,2,1"
    front = [first, line_of("P", "CSECT"), line_of("", "USING", bases)]
    return text_of([*front, *kind(count - 4), line_of("", "LTORG"), line_of("", "END"), "/*", *looks])


def measure(program: str, kind: Kind, counts: tuple[int, ...], first: str, *looks: str) -> None:
    """Prints a row for each count of lines."""
    runs = [min((taken([program], script(kind, count, first, list(looks))) for _ in range(3)), key=lambda it: it.user) for count in counts]
    for count, it, more in zip(counts, runs, ["", *growth([it.user for it in runs])]):
        what = [first, *looks][-1].split()[0]
        say(f"| {what} | {kind.__name__} | {count:,} | {it.ended.status} | {it.peak:,} | {it.user:.2f} | {it.seconds:.3f} | {more} |")


def main(words: list[str]) -> int:
    check = Check(__name__, __doc__, words, "cicsedf", "cicslook")
    cicsedf, cicslook = check.program(), check.program(1)
    say("| Block | Lines of | Lines | Status | Peak, KiB | CPU, s | Seconds | Growth |\n|---|---|---|---|---|---|---|---|")
    for kind in (code, constants, forward, comments, commands):
        measure(cicsedf, kind, SIZES, "SOURCE P LIST DISASM")
    for kind in (code, constants, unknown, undefined, wordless):
        measure(cicslook, kind, KEPT, "FAULTS P")
    for kind in (code, constants, forward, uses):
        for looks in LOOKS:
            measure(cicslook, kind, KEPT, "SOURCE P", *looks)
    return 0
