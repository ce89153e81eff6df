"""The source of a program, as the film needs it: its statements, which line has the byte at an offset, and the fields of its DFHEISTG
and of the DSECT by which it addresses the CWA."""
from __future__ import annotations

import bisect
import re
from collections.abc import Iterator
from dataclasses import dataclass, field
from functools import cached_property
from typing import NamedTuple

from cics.looks import StatementRun, Symbol

LISTED = re.compile(r"([0-9A-F]{6}| {6}) ([0-9A-F ]{16}) ([0-9]{5}) (.*)")
STATEMENT = re.compile(r"(\S*)\s+(\S+)\s*(.*)")
LOADED = re.compile(r"PROGRAM (\S+) AT ([0-9A-F]{6}) LENGTH ([0-9A-F]{6})")
TYPE = re.compile(r"[0-9]*([A-Z])")
CWA = re.compile(r"\bADDRESS\b.*\bCWA\((\w+)\)")
STORAGE, HEAD = "DFHEISTG", 80  # bytes of it that every program has
NOT_RUN = {"DS", "DC", "EQU", "USING", "DROP", "LTORG", "CSECT", "DSECT", "START", "ORG", "END", "COPY", "DFHREGS", "PRINT", "TITLE", "EJECT", "SPACE"}
GOES_ON = re.compile(r"(?:BCTR|BALR) \w+,R?0 ")  # what begins with B and is no branch


@dataclass
class Field:
    """A field of a DSECT: its offset and length in bytes, and the letter of its type."""

    name: str
    offset: int
    length: int
    type: str


class Statement(NamedTuple):
    line: int
    name: str
    operation: str
    operands: str  # and remarks; of an EXEC all of it


@dataclass
class Source:
    """A program that a SOURCE block defined, or an image: then it has no lines."""

    name: str
    at: int
    length: int
    lines: list[str] = field(default_factory=list)
    first: int = 0  # the script's line of its first line
    places: list[tuple[int, int]] = field(default_factory=list)  # offsets that have bytes, each with its line
    fields: list[Field] = field(default_factory=list)
    cwa: list[Field] = field(default_factory=list)
    types: dict[str, str] = field(default_factory=dict)  # of each field of a DSECT the letter of its type
    runs: dict[int, int] = field(default_factory=dict)  # of each line with a statement the event that ran it first; 0: none; -1: not known
    origins: list[str] = field(default_factory=list)  # where each line comes from, where it was adapted

    def line_of(self, address: int) -> int | None:
        """The line of the statement that has the byte at an address."""
        offset = address - self.at
        if not self.places or not 0 <= offset < self.length:
            return None
        at = bisect.bisect(self.places, (offset, 1 << 30)) - 1
        return self.places[at][1] if at >= 0 else None

    def note_runs(self, lines: list[str], number: int) -> None:
        """Notes that the statements which COVERED has as run, and that weren't before, were run by an event."""
        for one in StatementRun.all_in(lines):
            self.runs[one.line] = self.runs.get(one.line) or (number if one.runs else 0)

    def statements(self) -> Iterator[Statement]:
        """All statements; a line goes on in the next one where its column 72 isn't blank."""
        text, first = "", 0
        for line, card in enumerate(self.lines, 1):
            if not text and card.startswith("*"):
                continue
            first = first if text else line
            text += card[15:71] if text else card[:71]
            if card[71:72] in ("", " "):
                found, text = STATEMENT.match(text), ""
                if found:
                    yield Statement(first, *found.groups())

    @cached_property
    def instructions(self) -> list[Statement]:
        return [it for it in self.statements() if it.operation not in NOT_RUN]

    @cached_property
    def labels(self) -> dict[str | int, int]:
        """Which of the instructions has a name, or a line."""
        found: dict[str | int, int] = {it.name: at for at, it in enumerate(self.instructions) if it.name}
        return found | {it.line: at for at, it in enumerate(self.instructions)}

    @cached_property
    def offsets(self) -> dict[int, int]:
        """The first offset of each line that has bytes."""
        return {line: offset for offset, line in reversed(self.places)}

    def is_within(self, address: int) -> bool:
        """Whether an address is after the first byte of its line's statement: there an EXEC goes on when its command is done."""
        return self.offsets.get(self.line_of(address) or 0, address) < address - self.at

    def path(self, first: int, last: int | None, is_done: bool) -> list[int]:
        """The lines that surely run from the statement of a line on, up to a command, the one of another line, or a branch that may go
        two ways; the command of the first line may be done already."""
        found: dict[int, None] = {}
        at = self.labels.get(first)
        while at is not None and at < len(self.instructions):
            it = self.instructions[at]
            if it.line in found or found and it.line == last:
                break
            found[it.line] = None
            is_command = it.operation in ("EX", "EXEC") and not (is_done and len(found) == 1)
            is_branch = it.operation.startswith("B") and not GOES_ON.match(f"{it.operation} {it.operands} ")
            if it.operation == "B":
                at = self.labels.get(it.operands.split(" ")[0])
            else:
                at = None if is_command or is_branch else at + 1
        return [*found]


def source_of(block: list[str], line: int, answer: list[str]) -> Source | None:
    """The program of a block at a line of the script, by what was written for it with LIST."""
    found = LOADED.fullmatch(answer[-1]) if answer else None
    if not found:
        return None
    source = Source(found[1], int(found[2], 16), int(found[3], 16))
    if block[0].startswith("SOURCE"):
        source.lines = [it.removesuffix("\r") for it in block[1:-1]]
        source.first = line + 1
        listed = [it for it in map(LISTED.fullmatch, answer[:-1]) if it]
        source.places = sorted((int(it[1], 16), int(it[3])) for it in listed if it[1].strip() and it[2].strip())
    return source


def cwa_section(source: Source) -> str | None:
    """The DSECT that is based on the register into which ADDRESS puts the CWA's address, or L from where ADDRESS puts it."""
    bases: set[str] = set()
    for it in source.statements():
        operands = [re.sub(r"^R(?=\d)", "", word) for word in it.operands.split(" ")[0].split(",")]
        addressed = CWA.search(it.operands) if it.operation == "EXEC" else None
        if addressed:
            bases.add(re.sub(r"^R(?=\d)", "", addressed[1]))
        elif it.operation == "L" and operands[1:] and operands[1] in bases:
            bases.add(operands[0])
        elif it.operation == "USING" and operands[1:] and operands[1] in bases:
            return operands[0]
    return None


def with_fields(source: Source, symbols: list[str]) -> None:
    """Puts in the fields of its DFHEISTG, but for those of its head, and of the CWA's DSECT, by what SYMBOLS writes."""
    section = cwa_section(source)
    for found in Symbol.all_in(symbols):
        if found.name == found.section or found.line > len(source.lines) or found.section == STORAGE and found.value < HEAD:
            continue
        words = source.lines[found.line - 1][:71].split()
        letter = TYPE.match(words[2]) if len(words) > 2 and words[1] in ("DS", "DC") else None
        source.types[found.name] = letter[1] if letter else "X"
        for name, fields in ((STORAGE, source.fields), (section, source.cwa)):
            if found.section == name:
                fields.append(Field(found.name, found.value, found.length, source.types[found.name]))
    for fields in (source.fields, source.cwa):
        fields.sort(key=lambda it: (it.offset, -it.length))
