"""A 3270's buffer of the tests' own, and what BMS does with it: SEND MAP, SEND CONTROL and RECEIVE MAP, by the definitions of their options."""
from dataclasses import dataclass, field

SIZE = 1920
PROTECTED, MODIFIED, DARK = 0x20, 0x01, 0x0C
CLEAR, NO_DATA = "CLEAR", ("CLEAR", "PA1", "PA2")


class Refused(Exception):
    """What no keyboard can do."""


class MapFail(Exception):
    """There is nothing to be mapped."""


@dataclass(frozen=True)
class MapField:
    """A field of a map as the tests draw it; `initial` is what INITIAL has."""

    name: str
    position: int
    length: int
    attribute: int
    has_cursor: bool
    initial: str | None
    is_right: bool
    fill: str


@dataclass(frozen=True)
class Value:
    """What a program has in a named field of a symbolic map: the length, the attribute, and the text's bytes."""

    length: int
    attribute: int
    text: bytes


Cell = tuple[str, int] | None  # an attribute ("A", bits), a character ("C", code), or a null


@dataclass
class Buffer:
    cells: list[Cell] = field(default_factory=lambda: [None] * SIZE)
    cursor: int = 0
    is_formatted: bool = False

    def erase(self) -> None:
        self.cells, self.cursor, self.is_formatted = [None] * SIZE, 0, False

    def attributes(self) -> list[int]:
        return [at for at, cell in enumerate(self.cells) if cell and cell[0] == "A"]

    def extent(self, at: int) -> range:
        """The places of the field whose attribute is here, up to the next one or the screen's end."""
        end = next((other for other in self.attributes() if other > at), SIZE)
        return range(at + 1, end)

    def bits(self, at: int) -> int | None:
        cell = self.cells[at]
        return cell[1] if cell and cell[0] == "A" else None

    def control(self, options: set[str]) -> None:
        if "ERASE" in options:
            self.erase()
        if "ERASEAUP" in options:
            unprotected = [at for at in self.attributes() if not (self.bits(at) or 0) & PROTECTED]
            for at in unprotected:
                self.cells[at] = ("A", (self.bits(at) or 0) & ~MODIFIED)
                for place in self.extent(at):
                    self.cells[place] = None
            if unprotected:
                self.cursor = unprotected[0] + 1
        if "FRSET" in options:
            for at in self.attributes():
                self.cells[at] = ("A", (self.bits(at) or 0) & ~MODIFIED)

    def send(self, fields: list[MapField], values: dict[str, Value], options: set[str], cursor: int | None) -> None:
        """A map, merged with a program's values."""
        self.control(options)
        initial = [one.position + 1 for one in fields if one.has_cursor]
        if "DATAONLY" not in options and initial:
            self.cursor = initial[-1]
        if cursor is not None:
            self.cursor = cursor
        ordered = sorted(fields, key=lambda one: one.position)
        if "CURSOR" in options and cursor is None and "MAPONLY" not in options:
            asked = [one.position + 1 for one in ordered if one.name and values[one.name].length == -1]
            self.cursor = asked[0] if asked else self.cursor
        for one in ordered:
            self.put(one, values.get(one.name) if one.name and "MAPONLY" not in options else None, is_data="DATAONLY" in options)
        self.is_formatted = True

    def put(self, one: MapField, value: Value | None, *, is_data: bool) -> None:
        attribute: int | None = None if is_data else one.attribute
        initial = (one.initial or "").ljust(one.length if one.initial is not None else 0).encode("cp037").ljust(one.length, b"\0")
        text: bytes | None = None if is_data else initial
        if value and value.attribute:
            attribute = value.attribute & 0x3D
        if value and value.text[:1] not in (b"", b"\0"):
            text = value.text
        if attribute is not None:
            self.cells[one.position] = ("A", attribute)
        for at, code in enumerate(text or b""):
            self.cells[one.position + 1 + at] = ("C", code) if code >= 0x40 else None

    def type_into(self, position: int, text: str) -> None:
        """An operator erases the field whose attribute is here, and types into it."""
        bits = self.bits(position)
        if bits is None or bits & PROTECTED or len(text) > len(self.extent(position)):
            raise Refused
        self.cells[position] = ("A", bits | MODIFIED)
        for place in self.extent(position):
            self.cells[place] = None
        for at, character in enumerate(text):
            self.cells[position + 1 + at] = ("C", character.encode("cp037")[0])

    def receive(self, fields: list[MapField], key: str, typed: list[tuple[int, str]]) -> dict[str, Value]:
        """What a program gets of the named fields, after an operator typed into the fields at these places and pressed a key."""
        if key == CLEAR:
            self.erase()
        if key in NO_DATA or not self.is_formatted:
            raise MapFail
        for position, text in typed:
            self.type_into(position, text)
        if not any((self.bits(at) or 0) & MODIFIED for at in self.attributes()):
            raise MapFail
        return {one.name: self.mapped(one) for one in fields if one.name}

    def mapped(self, one: MapField) -> Value:
        if not (self.bits(one.position) or 0) & MODIFIED:
            return Value(0, 0, bytes(one.length))
        codes = bytes(cell[1] for at in self.extent(one.position) if (cell := self.cells[at]))[: one.length]
        if not codes:
            return Value(0, 0x80, bytes(one.length))
        filler = one.fill.encode("cp037")
        return Value(len(codes), 0, codes.rjust(one.length, filler) if one.is_right else codes.ljust(one.length, filler))

    def shown(self) -> list[str]:
        """The rows that are seen: without attributes, and without what is dark."""
        attributes = self.attributes()
        now = (self.bits(attributes[-1]) or 0) if attributes else 0
        text = ""
        for cell in self.cells:
            now = cell[1] if cell and cell[0] == "A" else now
            is_seen = cell is not None and cell[0] == "C" and now & DARK != DARK
            text += bytes([cell[1]]).decode("cp037") if cell and is_seen else " "
        return [text[at : at + 80].rstrip() for at in range(0, SIZE, 80)]

    def image(self) -> bytes:
        """The buffer as the stand-in keeps it: an attribute's bits, a character's code, 02 for a null."""
        return bytes(cell[1] if cell else 2 for cell in self.cells)
