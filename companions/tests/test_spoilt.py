"""Drawn spoilt inputs: none gives a traceback. Of sources that are spoilt cics-adapt writes what it leaves as it is when it is run again,
and the same statements with the old text kept; of the result cics-check tells faults; and what is in a file of test data, whatever its
bytes are, is in the queue, each character by its code and any other byte as it is."""
import glob
import os
import random
import re
import tempfile
from collections.abc import Callable, Iterable
from dataclasses import dataclass
from functools import partial

from cics.adapting import adapted
from cics.assembler_files import encoded, sources_of_lines
from cics.child import TOP, read, run
from cics.cli import Failure
from cics.faults import faults_of
from cics.key_runs import loading_lines
from cics.queues import Given, loaders_of, statement_lines
from cics.sources import SourceText, source_of
from cics.texts import CODED
from tests.test_rewriting import CASES, HEAD, TAIL
from tests.case import CICSLOOK, TestCase

SOURCES, CHECKED, FILES = 400, 40, 12  # how many are drawn of each
FOLDER = os.path.join(TOP, "examples/adapt")
BYTES = b"()',*+-/=&.L0159XCFYASPDVB \n\t$@#a\xe9\x00X"
WORDS = [b"(", b"''", b"EXEC", b"CICS", b"ORG", b" DS ", b" DC ", b"EQU", b"LENGTH(80)", b"INITIMG(", b"DFHRESP(", b"L'", b"COPY", b"  END "]
MANY = 3000
HUGE = {  # operands that are longer, or deeper, than any that somebody writes
    "parentheses": ("LA", f"1,{'(' * MANY}1{')' * MANY}"), "signs": ("LA", f"1,{'-' * MANY}1"), "terms": ("LA", f"1,{'1*1+' * MANY}1"),
    "digits": ("LA", f"1,({'9' * 2 * MANY})"), "a product": ("LA", f"1,{'999999999*' * MANY}2"), "a factor": ("DC", f"({'9' * 2 * MANY})X'00'"),
    "a duplication": ("DC", f"{'9' * 2 * MANY}A(1,2)"), "a length": ("DC", f"AL{'9' * 2 * MANY}(*-T)"), "items": ("DC", ",".join(["Y(1)"] * MANY)),
    "copies": ("DC", "4294967295A(1,2)"), "a text without an end": ("DC", f"C'{'A' * MANY}"), "options": ("EXEC", f"CICS SEND TEXT {'A(B) ' * MANY}"),
    "an argument": ("EXEC", f"CICS SEND TEXT FROM({'(' * MANY})"), "a remark": ("EXEC", f"CICS RETURN   {'A ' * MANY}")}
QUEUE, ROW = "DATA", re.compile(r"> [0-9A-F]{4} ([0-9A-F ]{35}) .*")


@dataclass(frozen=True)
class Drawing:
    """Draws: what is drawn by the same seed is the same."""

    draw: random.Random

    def piece(self, data: bytes) -> bytes:
        """What is put into some bytes: a byte, a word, or a piece of themselves."""
        at = self.draw.randrange(len(data) + 1)
        return self.draw.choice([bytes([self.draw.choice(BYTES)]), self.draw.choice(WORDS), data[at : at + self.draw.choice([3, 10, 80])]])

    def spoilt_once(self, data: bytes) -> bytes:
        at, kind = self.draw.randrange(len(data) + 1), self.draw.randrange(4)
        if kind == 0:
            return data[:at] + data[at + self.draw.choice([1, 2, 5, 40]) :]
        if kind == 1:
            return data[:at] + self.piece(data) + data[at:]
        if kind == 2:
            return data[:at] + self.piece(data) + data[at + 1 :]
        lines = data.split(b"\n")
        one, other = self.draw.randrange(len(lines)), self.draw.randrange(len(lines))
        lines[one], lines[other] = lines[other], lines[one]
        return b"\n".join(lines)

    def spoilt(self, data: bytes) -> bytes:
        for _ in range(self.draw.choice([1, 1, 2, 3, 8, 30])):
            data = self.spoilt_once(data)
        return data

    def line(self) -> bytes:
        """A line of test data: characters, or bytes of any kind but a line feed; one that begins with = is given by two of them."""
        allowed = self.draw.choice(["ABC 019'&=.,", "".join(sorted(CODED)), "".join(chr(code) for code in range(256) if code not in (10, 13))])
        text = "".join(self.draw.choice(allowed) for _ in range(self.draw.choice([1, 2, 40, 71, 300])))
        return (f"={text}" if text.startswith("=") else text).encode("latin-1")


def given_sources() -> list[bytes]:
    """What is spoilt: programs as shops have them, and statements of each rewriting."""
    cases = [[*HEAD, *case.old, *TAIL] for case in CASES]
    return [read(path) for path in sorted(glob.glob(f"{FOLDER}/*.asm"))] + [encoded(lines) for lines in cases]


def statements_in(lines: list[str]) -> list[str]:
    return [line for line in lines if not line.startswith("*")]


def failure_of_source(data: bytes) -> str | None:
    folders = [f"{FOLDER}/copy"]
    try:
        source = source_of(data, "OLD.asm")
    except Failure:
        return None
    result = adapted(source, "OLD.asm", folders)
    lines = result.lines()
    "\n".join(result.log.lines())
    if adapted(SourceText(lines), "OLD.asm", folders).lines() != lines:
        return "a second time it changes something"
    kept = adapted(source, "OLD.asm", folders, is_kept=True).lines()
    return None if statements_in(kept) == statements_in(lines) else "with the old text kept the statements are others"


def caught(what: str, failure: Callable[[], str | None]) -> list[str]:
    """A failure, or any exception as one."""
    try:
        found = failure()
    except Exception as why:  # whatever it is, a user would see a traceback
        found = f"{type(why).__name__}: {why}"
    return [f"{what}: {found}"] if found else []


def failure_of_check(data: bytes) -> str | None:
    """A source whose lines can't be those of a block is refused by a line."""
    try:
        lines = [line for line in source_of(data, "OLD.asm").lines if line != "/*"]
        for fault in faults_of(sources_of_lines("OLD.asm", lines), CICSLOOK):
            if not 1 <= fault.line <= len(lines) + 1:
                return f"a fault of line {fault.line}: {fault}"
    except Failure:
        return None
    return None


# ---- test data


def bytes_of(line: bytes) -> bytes:
    """The bytes of an item that a line is."""
    text = line.decode("latin-1")
    text = text[1:] if text.startswith("==") else text
    return b"".join(one.encode("cp037") if one in CODED else one.encode("latin-1") for one in text)


def items_in(transcript: list[str]) -> list[bytes]:
    """The items that QUEUE name k shows, one after the other."""
    found: list[bytes] = []
    for line in transcript:
        if re.match(r"> QUEUE .* ITEM \d+ LENGTH", line):
            found.append(b"")
        elif (row := ROW.fullmatch(line)) and found:
            found[-1] += bytes.fromhex(row[1].replace(" ", ""))
    return found


def failure_of_data(lines: list[bytes]) -> str | None:
    with tempfile.NamedTemporaryFile() as file:
        file.write(b"".join(line + b"\n" for line in lines))
        file.flush()
        loaders = loaders_of([Given(QUEUE, file.name)])
    looks = [f"QUEUE {QUEUE} {number}" for number in range(1, len(lines) + 1)]
    ended = run([CICSLOOK], encoded(["TERMINAL T001", *loading_lines(loaders, "T001"), *looks]))
    if not ended.is_well():
        return str(ended)
    found, due = items_in(ended.lines()), [bytes_of(line) for line in lines]
    return None if found == due else f"{len(found)} items, where {len(due)} are due, or other bytes"


class SpoiltTest(TestCase):
    def drawn(self, seeds: Iterable[int | str], failure_of: Callable[[bytes], str | None]) -> None:
        given = given_sources()
        drawings = {seed: Drawing(random.Random(seed)) for seed in seeds}
        data = {seed: drawing.spoilt(drawing.draw.choice(given)) for seed, drawing in drawings.items()}
        self.none_of([failure for seed, one in data.items() for failure in caught(f"what is drawn by {seed}", partial(failure_of, one))])

    def test_sources(self) -> None:
        self.drawn(range(SOURCES), failure_of_source)

    def test_huge(self) -> None:
        for what, (operation, operand) in HUGE.items():
            data = encoded([*HEAD, *statement_lines("T", operation, operand), *TAIL])
            self.none_of(caught(what, partial(failure_of_source, data)))

    def test_checks(self) -> None:
        self.drawn([f"checked {seed}" for seed in range(CHECKED)], failure_of_check)

    def test_data(self) -> None:
        for seed in range(FILES):
            drawing = Drawing(random.Random(f"data {seed}"))
            lines = [drawing.line() for _ in range(drawing.draw.choice([1, 5, 40]))]
            self.none_of(caught(f"the test data drawn by {seed}", partial(failure_of_data, lines)))
