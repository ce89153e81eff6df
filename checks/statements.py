"""Has `cicslook` assemble 1,503 statements and 300 whole sources, and compares what it makes with what GNU as
makes (`checks/statements.vectors`). A vector of a statement is a line: its bytes in hexadecimal digits, and the statement, which stands in a
control section by itself. One of a source begins with a line `SOURCE` with its number, and ends with `/*`; then come its text, the offsets of
its relocated words, that of its entry, and the numbers of the lines that are listed with an offset, each with that.
"""
import os
import re
from collections import Counter
from collections.abc import Iterator
from functools import partial
from typing import NamedTuple

from cics.child import TOP, Ended, read, run
from checks.common import Case, Check, Counts, Wrong, require
from checks.examples import text_of

VECTORS = os.path.join(TOP, "checks/statements.vectors")
FIRST = 0x010000  # where the first program is loaded
MOST = 4096  # bytes that one line STORAGE shows
CSECT, END = "P        CSECT", "         END"
SHOWN = re.compile(r"> [0-9A-F]{6}  ([0-9A-F -]{35})")


class Source(NamedTuple):
    """A source, and what must be made of it: its text, the offsets of relocated words and of its entry, and its listed lines."""

    name: str
    lines: list[str]
    text: bytes
    words: list[int]
    entry: int
    places: str

    def loaded(self) -> bytes:
        """The text as it is in storage, at the first program's place."""
        text = bytearray(self.text)
        for at in self.words:
            text[at : at + 4] = ((int.from_bytes(text[at : at + 4], "big") + FIRST) % (1 << 32)).to_bytes(4, "big")
        return bytes(text)


def source_of(name: str, lines: list[str], made: list[str]) -> Source:
    """A source by the four lines after it."""
    (_, text), (_, *words), (_, entry), (_, _, places) = made[0].split(" "), made[1].split(" "), made[2].split(" "), made[3].partition(" ")
    return Source(name, lines, bytes.fromhex(text), [int(word, 16) for word in words if word != "-"], int(entry, 16), places)


def vectors() -> tuple[list[tuple[str, str]], list[Source]]:
    """Each statement with its bytes, and each source."""
    lines = iter(read(VECTORS).decode().splitlines())
    statements, sources = list[tuple[str, str]](), list[Source]()
    for line in lines:
        if line.startswith("SOURCE "):
            body = list(iter(lines.__next__, "/*"))
            sources.append(source_of(line, body, [next(lines) for _ in range(4)]))
        else:
            digits, _, statement = line.partition(" ")
            statements.append((digits, statement))
    return statements, sources


def listed(number: int, line: str, digits: str = "") -> str:
    """A line of a listing, with its object code at offset 0."""
    return f"{'000000' if digits else '':6} {digits:<16} {number:05} {line}"


def statements_tried(program: str, statements: list[tuple[str, str]]) -> Counts:
    """Each statement alone in a source, which is listed: the transcript must have its bytes. The first source's program is defined."""
    asked, due = list[str](), list[str]()
    for digits, statement in statements:
        operation, _, operand = statement.partition(" ")
        line = f"         {operation:<5} {operand}"
        asked += ["SOURCE P LIST", CSECT, line, END, "/*"]
        is_first = not due
        due += [listed(1, CSECT), listed(2, line, digits), listed(3, END)]
        due.append(f"PROGRAM P AT {FIRST:06X} LENGTH {len(digits) // 2:06X}" if is_first else "PROGRAM P REFUSED Duplicate")
    ended = run([program], text_of(asked))
    wrong = [f"{one!r} is written, not {other!r}" for one, other in zip(ended.lines(), due) if one != other]
    if wrong:
        raise Wrong(*wrong)
    require(ended == Ended(0, text_of(due), b""), str(ended))
    return Counter({"statements": len(statements)})


def shown(program: str, source: Source) -> Ended:
    """What is shown of a source: its listing, its program, and its storage."""
    spans = [f"STORAGE {FIRST + at:06X} {min(MOST, len(source.text) - at)}" for at in range(0, len(source.text), MOST)]
    return run([program], text_of(["SOURCE P LIST", *source.lines, "/*", "PROGRAMS", *spans]))


def differences(program: str, source: Source) -> Iterator[str]:
    """What is made otherwise than it must be."""
    ended = shown(program, source)
    if not ended.is_well():
        yield str(ended)
    lines = ended.lines()
    listing = enumerate(lines[: len(source.lines)], 1)
    places = " ".join(f"{number}:{line[:6]}" for number, line in listing if not line.startswith(" "))
    if places != source.places:
        yield f"the lines listed with an offset are {places}"
    found = "".join(match[1] for line in lines if (match := SHOWN.match(line)))
    if found.replace(" ", "").rstrip("-") != source.loaded().hex().upper():
        yield f"its text is loaded as {found}"
    defined = f"> PROGRAM P AT {FIRST:06X} LENGTH {len(source.text):06X} ENTRY {FIRST + source.entry:06X} "
    if not any(line.startswith(defined) for line in lines):
        yield f"no line begins with {defined}"


def source_tried(program: str, source: Source) -> Counts:
    if wrong := list(differences(program, source)):
        raise Wrong(*wrong)
    return Counter({"sources": 1})


def main(words: list[str]) -> int:
    check = Check(__name__, __doc__, words, "cicslook")
    statements, sources = vectors()
    program = check.program()
    alone = Case("statements", partial(statements_tried, program, statements))
    whole = [Case(source.name, partial(source_tried, program, source)) for source in sources]
    return check.report([alone, *whole], {"statements": 1_503, "sources": 300})
