"""What a source compares with what an operator types: keys with EIBAID, texts and numbers at places of the input, and tables.

This is read off the statements, and no program is run for it: an input is where RECEIVE INTO puts it, and what MVC or PACK makes of it.
"""
import itertools
import re
from collections.abc import Iterable, Iterator
from dataclasses import dataclass, field
from functools import cached_property

from cics.constants import item_of
from cics.exact.aids import CODES, command_in
from cics.expressions import Chain, Kind, Value, leftmost, read_expression
from cics.layout import AIDS, Layout
from cics.statements import Statement, statements_of
from cics.texts import CODED, cut, is_decimal

KEYS = {code: name for name, code in CODES.items()}  # the name of the key that sends a byte
ORDERING = ("BH", "BL", "BNH", "BNL", "BP", "BM", "BNP", "BNM")  # branches after a compare with a limit
MOST_ENTRIES = 12  # of a table
MOST_LENGTH = 40  # characters of a text that is proposed
OF_AID = re.compile(r"EIBAID(?:[-(].*)?")
OPERAND = re.compile(r"(?P<place>[^()]*)(?:\((?P<inside>[^()]*)\))?")


@dataclass(frozen=True)
class Place:
    """Bytes of a section: the chain of places that they are of, and from which offset on."""

    chain: Chain
    offset: int


@dataclass(frozen=True)
class Area:
    """Bytes in which the input, or a part of it, comes to stand."""

    place: Place
    length: int
    at: int  # the place of the input that its first byte has, from 0

    def input_at(self, place: Place) -> int | None:
        """The place of the input that a byte has."""
        is_inside = place.chain == self.place.chain and 0 <= place.offset - self.place.offset < self.length
        return self.at + place.offset - self.place.offset if is_inside else None


@dataclass(frozen=True)
class Compared:
    """A text at a place of the input that a line compares with it."""

    line: int
    at: int
    text: str


@dataclass
class Found:
    """What a source compares: each key with the line that does it, and texts."""

    aids: dict[str, int] = field(default_factory=dict)
    texts: list[Compared] = field(default_factory=list)
    numbers: list[tuple[int, int]] = field(default_factory=list)  # of inputs that are packed: the place in the input, and how many digits
    has_input: bool = False


def item_codes(text: str) -> list[int | None]:
    """The bytes of an item of DC; None for each that isn't known here."""
    item = item_of(text)
    if item is None or not item.value or item.duplication and not is_decimal(item.duplication) or item.modifier and not is_decimal(item.modifier):
        return []
    value = item.value[1:-1]
    codes: list[int | None] = []
    if item.kind == "C":
        codes = [*value.replace("''", "'").replace("&&", "&").encode("cp037", errors="replace")]
    elif item.kind == "X" and re.fullmatch("[0-9A-F]+", value):
        codes = [*bytes.fromhex(value.zfill(len(value) + len(value) % 2))]
    length = int(item.modifier) if item.modifier else len(codes)
    blank = 0x40 if item.kind == "C" else None
    codes = (codes + [blank] * length)[:length]
    return codes * min(int(item.duplication or 1), 100)


def text_of(codes: list[int | None]) -> str | None:
    """The characters of bytes; none where one isn't known or has none."""
    if not codes or None in codes:
        return None
    text = bytes(one for one in codes if one is not None).decode("cp037")
    return text if all(one in CODED for one in text) else None


def number_of(text: str) -> int | None:
    """The number of a literal, or of an item of DC, of type F, H or P."""
    item = item_of(text.removeprefix("="))
    value = item.value[1:-1] if item and item.kind in "FHP" else ""
    return int(value) if re.fullmatch("[0-9]{1,9}", value) else None


def byte_of(text: str) -> int | None:
    """The byte of an immediate operand."""
    if text in AIDS:
        return AIDS[text]
    found = re.fullmatch(r"(?:C'(?P<character>.)'|X'(?P<digits>[0-9A-F]{1,2})'|(?P<number>[0-9]{1,3}))", text)
    if found is None:
        return None
    if found["character"]:
        return found["character"].encode("cp037", errors="replace")[0]
    return int(found["digits"], 16) if found["digits"] else int(found["number"]) & 0xFF


class Reading:
    """A source, as far as it says where its input goes."""

    def __init__(self, lines: list[str]) -> None:
        self.code = [one for one in statements_of(lines, "") if not one.is_comment]
        self.layout = Layout(self.code)
        self.areas: list[Area] = []
        self.packed: list[tuple[int, int]] = []
        self.find_inputs()

    def find_inputs(self) -> None:
        """Finds where the input goes; twice, since a copy may stand above what it is made of."""
        for one in [*self.code, *self.code]:
            if one.operation == "EXEC":
                self.receive(one)
            elif one.operation in ("MVC", "PACK"):
                self.copy(one)

    def receive(self, statement: Statement) -> None:
        command = command_in(statement)
        into = command.option("INTO") if command and command.name == "RECEIVE" else None
        place = self.place(into.argument) if into and into.argument else None
        if place and into and into.argument:
            self.add(Area(place, self.layout.length(into.argument) or 1, 0))

    def add(self, area: Area) -> None:
        if area not in self.areas:
            self.areas.append(area)

    def copy(self, statement: Statement) -> None:
        """MVC or PACK of an input."""
        operands = cut(statement.operand)
        if len(operands) != 2:
            return
        at = self.input_of(operands[1])
        length = self.length(operands[1] if statement.operation == "PACK" else operands[0])
        place = self.place(operands[0])
        if at is None or length is None or place is None:
            return
        if statement.operation == "MVC":
            self.add(Area(place, length, at))
        elif (at, length) not in self.packed:
            self.packed.append((at, length))

    def place(self, operand: str) -> Place | None:
        """The bytes of an operand that is named by a symbol."""
        found = OPERAND.fullmatch(operand)
        value = self.layout.evaluated(found["place"], None) if found else None
        return place_of(value)

    def input_of(self, operand: str) -> int | None:
        """The place of the input that an operand has."""
        place = self.place(operand)
        return next((at for area in self.areas if place and (at := area.input_at(place)) is not None), None)

    def length(self, operand: str) -> int | None:
        """The length of an operand, as it is given, or by its symbol, or of a literal."""
        if operand.startswith("="):
            return len(item_codes(operand[1:])) or None
        found = OPERAND.fullmatch(operand)
        if found is None:
            return None
        words = cut(found["inside"]) if found["inside"] else []
        if words and words[0] and (len(words) > 1 or self.place(operand)):  # with a base alone it isn't a length
            return self.layout.number(words[0], None)
        read = read_expression(found["place"])
        term = leftmost(read.expression) if read else None
        return self.layout.length(term.text) if term and term.kind is Kind.SYMBOL else None

    @cached_property
    def memory(self) -> dict[Place, int | None]:
        """The bytes of constants."""
        found: dict[Place, int | None] = {}
        for one in self.code:
            placed = self.layout.placed.get(one.origin.order) if one.operation == "DC" else None
            for item, value in zip(cut(one.operand), placed.items) if placed else []:
                if begin := place_of(value):
                    found |= {Place(begin.chain, begin.offset + at): code for at, code in enumerate(item_codes(item))}
        return found

    def bytes_at(self, place: Place, length: int) -> list[int | None]:
        return [self.memory.get(Place(place.chain, place.offset + at)) for at in range(length)]

    def constant(self, operand: str, length: int) -> str | None:
        """The text of an operand that is a literal or a constant."""
        if operand.startswith("="):
            return text_of((item_codes(operand[1:]) + [0x40] * length)[:length])
        place = self.place(operand)
        return text_of(self.bytes_at(place, length)) if place else None


def place_of(value: Value | None) -> Place | None:
    """The place that a value is, where it is one."""
    if value is None or [*value.places.values()] != [1]:
        return None
    chain, = value.places
    return Place(chain, value.number)


class Search(Reading):
    """A source, and what it compares with its input, from the first statement to the last."""

    def __init__(self, lines: list[str]) -> None:
        super().__init__(lines)
        self.layout.bases.clear()  # each USING is come to again
        self.found = Found(numbers=self.packed, has_input=bool(self.areas))
        for one, following in itertools.zip_longest(self.code, self.code[1:]):
            self.look(one, following.operation if following else "")

    def look(self, one: Statement, after: str) -> None:
        """Looks at a statement, and at the operation after it."""
        operands, line = cut(one.operand), one.origin.number
        if one.operation in ("USING", "DROP"):
            self.layout.use(one)
        elif one.operation == "CLI" and len(operands) == 2:
            self.byte(line, *operands)
        elif one.operation == "CLC" and len(operands) == 2:
            self.texts(line, *operands, is_limit=after in ORDERING)
        elif one.operation in ("C", "CH", "CP") and len(operands) == 2:
            self.number(line, operands[1], is_limit=after in ORDERING)

    def add_text(self, line: int, at: int, text: str) -> None:
        if len(text) <= MOST_LENGTH:
            self.found.texts.append(Compared(line, at, text))

    def byte(self, line: int, operand: str, immediate: str) -> None:
        """CLI: with EIBAID, or with a byte of the input."""
        code = byte_of(immediate)
        if code is None:
            return
        if OF_AID.fullmatch(operand):
            self.found.aids.setdefault(KEYS.get(code, "ENTER"), line)
            return
        at, text = self.input_of(operand), text_of([code])
        if at is not None and text is not None:
            self.add_text(line, at, text)

    def texts(self, line: int, first: str, second: str, *, is_limit: bool) -> None:
        """CLC: a constant, or the entries of a table."""
        length = self.length(first)
        for one, other in ((first, second), (second, first)):
            at = self.input_of(one)
            if at is None or not length:
                continue
            text = self.constant(other, length)
            for found in [text] if text is not None else self.entries(other, length):
                self.limits(line, at, found) if is_limit and is_decimal(found) else self.add_text(line, at, found)

    def limits(self, line: int, at: int, text: str) -> None:
        """The text of a number, and of those beside it that have as many digits."""
        for number in (int(text) - 1, int(text), int(text) + 1):
            if 0 <= number < 10 ** len(text):
                self.add_text(line, at, f"{number:0{len(text)}}")

    def number(self, line: int, operand: str, *, is_limit: bool) -> None:
        """C, CH and CP with a constant: where an input becomes a number, it may be this one."""
        number = number_of(operand) if operand.startswith("=") else self.defined_number(operand)
        if number is None or not is_limit:
            return
        for at, digits in self.packed:
            if number < 10**digits:
                self.limits(line, at, f"{number:0{digits}}")

    def defined_number(self, name: str) -> int | None:
        """The number of a constant with a name."""
        found = next((one for one in self.code if one.operation == "DC" and one.name == name), None)
        return number_of(found.operand) if found else None

    # ---- tables

    def based(self, operand: str) -> tuple[int, int] | None:
        """The register and the displacement by which an operand is addressed, that of a DSECT by USING."""
        found = OPERAND.fullmatch(operand)
        if found is None:
            return None
        displacement = self.layout.number(found["place"], None)
        if displacement is not None and found["inside"]:
            register = self.layout.number(cut(found["inside"])[-1], None)
            return None if register is None else (register, displacement)
        place = self.place(operand)
        if place is None:
            return None
        bases = {register: self.place(base) for register, base in self.layout.bases.items()}
        return next(((register, place.offset - base.offset) for register, base in bases.items()
                     if base and base.chain == place.chain and base.offset <= place.offset and register not in (3, 11, 13)), None)

    def loaded(self, register: int) -> Iterator[Place]:
        """The tables whose addresses are loaded into a register."""
        for one in self.code:
            operands = cut(one.operand)
            if one.operation not in ("LA", "L") or len(operands) != 2 or self.layout.number(operands[0], None) != register:
                continue
            name = operands[1].removeprefix("=A(").removesuffix(")") if one.operation == "L" else operands[1]
            place = self.place(name)
            if place and place in self.memory:
                yield place

    def step(self, register: int) -> int | None:
        """How far a register goes on from entry to entry."""
        for one in self.code:
            operands = cut(one.operand)
            if one.operation not in ("LA", "AH", "A") or len(operands) != 2 or self.layout.number(operands[0], None) != register:
                continue
            if one.operation != "LA":
                number = number_of(operands[1]) if operands[1].startswith("=") else self.defined_number(operands[1])
            else:
                found = OPERAND.fullmatch(operands[1])
                inside = [self.layout.number(word, None) for word in cut(found["inside"])] if found and found["inside"] else []
                number = self.layout.number(found["place"], None) if found and register in inside else None
            if number:
                return number
        return None

    def entries(self, operand: str, length: int) -> list[str]:
        """The texts of a table that is searched: those at an operand's place in each entry."""
        based = self.based(operand)
        if based is None:
            return []
        register, displacement = based
        return [*dict.fromkeys(self.in_tables(self.loaded(register), displacement, length, self.step(register)))]

    def in_tables(self, tables: Iterable[Place], displacement: int, length: int, step: int | None) -> Iterator[str]:
        for table in tables:
            for number in range(MOST_ENTRIES if step else 1):
                text = text_of(self.bytes_at(Place(table.chain, table.offset + displacement + number * (step or 0)), length))
                if text is None:
                    break
                yield text


def compared_in(lines: list[str]) -> Found:
    """What a source compares with what is typed."""
    return Search(lines).found
