"""The lines of looks, each kind as a type (docs/LOOKS.md). No other module takes such a line apart."""
from __future__ import annotations

import re
from collections.abc import Iterable, Sequence
from dataclasses import dataclass, fields
from functools import cache
from typing import Any, ClassVar, NewType, Self

from cics.transcripts import LOOK, of_look

Address = NewType("Address", int)  # an address, or a length that is written as one: six hexadecimal digits


@cache
def form_of(form: str) -> re.Pattern[str]:
    return re.compile(form)


def value_of(kind: str, text: str | None) -> object:
    """What a part of a line stands for, by the type of its field."""
    if text is None:
        return None
    if kind.startswith("Address"):
        return int(text, 16)
    return int(text) if kind.startswith("int") else text


@dataclass(frozen=True)
class Row:
    """A line of a look. FORM is how its kind is written, with a group for each field."""

    FORM: ClassVar[str]

    @classmethod
    def read(cls, line: str) -> Self | None:
        """The line; None where it is of another kind."""
        found = form_of(cls.FORM).fullmatch(line.removeprefix(LOOK))
        if found is None:
            return None
        values: dict[str, Any] = {one.name: value_of(str(one.type), found[one.name]) for one in fields(cls)}
        return cls(**values)

    @classmethod
    def all_in(cls, lines: Iterable[str]) -> list[Self]:
        return [row for row in map(cls.read, lines) if row is not None]


# ---- tasks
@dataclass(frozen=True)
class Level(Row):
    """TASK: a level, its program, where it goes on after its last command, and its working storage."""

    FORM = (r"LEVEL \d\d PROGRAM (?P<program>\S+) R14 (?P<back>[0-9A-F]{6}) .*DFHEISTG (?P<storage>[0-9A-F]{6}) "
            r"LENGTH (?P<length>[0-9A-F]{6}) .*")
    program: str
    back: Address
    storage: Address
    length: Address


@dataclass(frozen=True)
class Next(Row):
    """TASK: the next instruction's address."""

    FORM = r"CC \d NEXT (?P<address>[0-9A-F]{6}) .*"
    address: Address


@dataclass(frozen=True)
class Doing(Row):
    """TASKS: a task, and what it does or waits for."""

    FORM = r"(?P<terminal>\S+) .*TASK \d{7} LEVEL \d\d (?P<doing>.*)"
    terminal: str
    doing: str


@dataclass(frozen=True)
class Registers(Row):
    """TASK, AHEAD: four registers, as eight digits each."""

    FORM = r"R\d\d (?P<words>[0-9A-F]{8}(?: [0-9A-F]{8}){3})"
    words: str


@dataclass(frozen=True)
class Kept(Row):
    """TERMINALS: how many bytes of a COMMAREA are kept for a terminal."""

    FORM = r"TERMINAL (?P<terminal>\S+) NEXT (?:'[^']*'|X'[0-9A-F]+') COMMAREA (?P<length>\d+) .*"
    terminal: str
    length: int


# ---- storage and queues
@dataclass(frozen=True)
class Area(Row):
    """AREAS: an area of a task, and what it is: DFHEISTG with its level's number, GETMAIN or OTHER."""

    FORM = (r"AREA (?P<address>[0-9A-F]{6}) LENGTH (?P<length>[0-9A-F]{6}) (?:DFHEISTG (?P<level>\d+)|(?P<kind>GETMAIN|OTHER)) "
            r"OWNER .*")
    address: Address
    length: Address
    level: int | None
    kind: str | None


@dataclass(frozen=True)
class Queue(Row):
    """QUEUES, QUEUE: a queue by its name, in characters or in digits; its items and their bytes."""

    FORM = r"QUEUE (?:'(?P<name>.*)'|X'(?P<digits>[0-9A-F]{16})') ITEMS (?P<items>\d+) BYTES (?P<bytes>\d+) READ \d+"
    name: str | None
    digits: str | None
    items: int
    bytes: int

    @property
    def shown(self) -> str:
        """Its name as a look writes it."""
        return f"X'{self.digits}'" if self.name is None else f"'{self.name}'"

    @property
    def code(self) -> str:
        """Its name by the digits of its eight bytes, which QUEUE takes too."""
        return self.digits or (self.name or "").ljust(8).encode("cp037").hex().upper()


@dataclass(frozen=True)
class Item(Row):
    """QUEUE: an item's number, its length, and its first bytes."""

    FORM = r"ITEM (?P<number>\d+) LENGTH (?P<length>\d+)(?: (?P<text>.*))?"
    number: int
    length: int
    text: str | None


@dataclass(frozen=True)
class WholeItem(Row):
    """QUEUE with a number: of which queue an item is, as a look writes its name."""

    FORM = r"QUEUE (?P<shown>'.*'|X'[0-9A-F]{16}') ITEM (?P<number>\d+) LENGTH \d+"
    shown: str
    number: int


# ---- sources
@dataclass(frozen=True)
class Symbol(Row):
    """SYMBOLS: a symbol."""

    FORM = (r"SYMBOL '(?P<name>.+)' VALUE (?P<value>[0-9A-F]{6}) SECTION '(?P<section>.+)' LENGTH (?P<length>\d+) "
            r"LINE (?P<line>\d+)(?: AT \S+)?")
    name: str
    value: Address
    section: str
    length: int
    line: int


@dataclass(frozen=True)
class Named(Row):
    """FIELDS, SYMBOLS: a name."""

    FORM = r"(?:FIELD \S+|SYMBOL) '(?P<name>[^']*)' .*"
    name: str


def numbers_in(text: str) -> list[int]:
    """The lines that a line of XREF names, those that store too."""
    return [int(number.rstrip("*")) for number in text.split()]


@dataclass(frozen=True)
class Used(Row):
    """XREF: the line that defines a symbol, and the lines that use it."""

    FORM = r"XREF '.+' LINE (?P<line>\d+)(?: .*)? USED (?P<users>[\d* ]+)"
    line: int
    users: str


@dataclass(frozen=True)
class LiteralUsed(Row):
    """XREF: the lines that use a literal."""

    FORM = r"XREF LITERAL .* USED (?P<users>[\d* ]+)"
    users: str


@dataclass(frozen=True)
class InUse(Row):
    """XREF: from which line to which a USING is in use."""

    FORM = r"XREF USING \d+ FROM (?P<first>\d+) TO (?P<last>\d+) .*"
    first: int
    last: int


@dataclass(frozen=True)
class Fault(Row):
    """FAULTS: a fault's line and column, its kind, perhaps what is missing, and the text; or NOTE and what it says."""

    FORM = (r"(?P<line>\d+):(?P<column>\d+) "
            r"(?P<kind>NOTE|MissingOption (?P<missing>[A-Z]+(?: OR [A-Z]+)*)|[A-Z][A-Za-z]+)(?P<text>.*)")
    line: int
    column: int
    kind: str
    missing: str | None
    text: str


# ---- turns
@dataclass(frozen=True)
class Instruction(Row):
    """AHEAD: an instruction of a program with a source."""

    FORM = r"INSTRUCTION [0-9A-F]{6} (?P<program>[^ +]+)\+[0-9A-F]{6} \S+ LINE (?P<line>\d+)(?: .*)?"
    program: str
    line: int


@dataclass(frozen=True)
class Arrived(Row):
    """AHEAD AT: the condition code with which a turn comes to a line."""

    FORM = r"AHEAD \S+ AT \S+ LINE (?P<line>\d+) CC (?P<code>\d)"
    line: int
    code: int


@dataclass(frozen=True)
class Covered(Row):
    """COVERED: how many statements of a program were run."""

    FORM = r"COVERED \S+ STATEMENTS (?P<run>\d+) OF .*"
    run: int


@dataclass(frozen=True)
class StatementRun(Row):
    """COVERED LINES: how often a statement was run, or hyphens where it never was; and its text."""

    FORM = r"(?P<line>\d{5}) +(?P<count>\d+|-----)(?: (?P<text>.*))?"
    line: int
    count: str
    text: str | None

    @property
    def runs(self) -> int:
        return 0 if self.count.startswith("-") else int(self.count)


@dataclass(frozen=True)
class OneWay(Row):
    """COVERED LINES: a branch that went one way only, and how often."""

    FORM = r"BRANCH (?P<line>\d{5}) (?P<way>NOT TAKEN|ALWAYS) (?P<count>\d+)(?: .*)?"
    line: int
    way: str
    count: int


# Where a program is: at a level's last command; at the command that abended; at the next instruction.
PLACES = [re.compile(r"^LEVEL (\d\d) PROGRAM (?P<program>\S+) R14 .*\nLEVEL \1 COMMAND LINE (?P<line>\d+)", re.M),
          re.compile(r"^COMMAND .* LIST [0-9A-F]{6} LINE (?P<line>\d+).*\n(?:(?!R14 ).*\n)*?R14 \S+ (?P<program>[^ +]+)\+", re.M),
          re.compile(r"\bNEXT \S+ (?P<program>[^ +]+)\+\S+ LINE (?P<line>\d+)")]


def place_in(lines: Sequence[str]) -> tuple[str, int] | None:
    """The program and the line at which it is, by a look at a task or its abend: of the last command, or else of the next instruction."""
    text = "\n".join(of_look(lines))
    found = next((places[-1] for places in (list(form.finditer(text)) for form in PLACES) if places), None)
    return (found["program"], int(found["line"])) if found else None
