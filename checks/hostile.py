"""Runs each leading part of a source, and the longest images. Each prefix of a source that ends before the last letter of END is NoEnd at
the line after its last; images have 65,536 bytes, and one more. The scripts are made here, since there are many, or they are long."""
from collections import Counter
from collections.abc import Iterator
from functools import partial

from cics.child import Ended, run
from checks.common import Case, Check, Counts, require

SOURCE = """P        CSECT
         USING P,15
         MVC   8(2,13),=C'AB'
         L     1,=F'1'
         LH    2,=H'2'
         A     1,=F'1'
         END"""
FIRST = "IMAGE B 80\n07FE\n/*\n"
FIRST_PLACED = "PROGRAM B AT 010000 LENGTH 000002\n"


def tried(program: str, script: str, due: Ended) -> Counts:
    ended = run([program], script.encode())
    require(ended == due, str(ended))
    return Counter()


def no_end(prefix: str) -> tuple[str, Ended]:
    """A block of these lines has no END: its fault is at the line of the block's end."""
    block = prefix if prefix == "" or prefix.endswith("\n") else prefix + "\n"
    line = 2 + block.count("\n")
    return f"SOURCE P\n{block}/*\n", Ended(1, b"", f"cicsedf: line {line}: NoEnd\n".encode())


def image(size: int, reply: str) -> Iterator[tuple[str, str, Ended]]:
    """An image of a size in bytes, alone and after a first one, is answered so."""
    digits = "".join("07FE" * 16 + "\n" for _ in range(size // 32)) + "00" * (size % 32) + "\n"
    for what, front, placed, at in (("alone", "", "", "010000"), ("after another", FIRST, FIRST_PLACED, "010010")):
        out = f"{placed}PROGRAM A {reply.format(at)}\n".encode()
        yield f"an image of {size:,}, {what}", f"{front}IMAGE A 80\n{digits}/*\n", Ended(0, out, b"")


def scripts() -> Iterator[tuple[str, str, Ended]]:
    """Each script, what it is and how it ends."""
    for length in range(len(SOURCE)):
        yield f"a prefix of {length}", *no_end(SOURCE[:length])
    yield "the whole source", f"SOURCE P\n{SOURCE}\n/*\n", Ended(0, b"PROGRAM P AT 010000 LENGTH 000020\n", b"")
    for size, reply in ((65_535, "AT {} LENGTH 00FFFF"), (65_536, "AT {} LENGTH 010000"), (65_537, "REFUSED BadLength")):
        yield from image(size, reply)


def main(words: list[str]) -> int:
    check = Check(__name__, __doc__, words, "cicsedf")
    return check.report([Case(what, partial(tried, check.program(), *made)) for what, *made in scripts()])
