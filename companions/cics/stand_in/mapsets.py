"""Mapsets: maps with their fields, and where each of these stands in the symbolic map."""
import os
from dataclasses import dataclass, field
from enum import Enum

from cics.statements import Origin

ROWS, COLUMNS = 24, 80
SIZE = ROWS * COLUMNS
PREFIX = 12  # bytes in front of a map's fields, with TIOAPFX=YES
LONGEST = 256  # characters of a field

# The bits of an attribute.
PROTECTED, NUMERIC, BRIGHT, DARK, DETECTABLE, MODIFIED = 0x20, 0x10, 0x08, 0x0C, 0x04, 0x01
EXTENDED = {"COLOR": "C", "PS": "P", "HILIGHT": "H", "VALIDN": "V", "OUTLINE": "U", "SOSI": "M", "TRANSP": "T"}
OF_EXTATT = ("COLOR", "PS", "HILIGHT", "VALIDN")


class Justified(Enum):
    """To which side what is typed goes."""

    LEFT = "LEFT"
    RIGHT = "RIGHT"


@dataclass(frozen=True)
class Text:
    """What stands in a field at first: characters, or the bytes of XINIT."""

    characters: str = ""
    bytes: str = ""  # in hexadecimal digits

    def length(self) -> int:
        return max(len(self.characters), len(self.bytes) // 2)

    def constants(self, length: int) -> str:
        """Its constant of a field's length, filled with blanks."""
        if self.bytes:
            return f"X'{self.bytes.ljust(2 * length, '.').replace('..', '40')[: 2 * length]}'"
        doubled = self.characters[:length].replace("'", "''").replace("&", "&&")
        return f"CL{length}'{doubled}'"


@dataclass
class Field:
    """A field of a map. `position` is that of its attribute on the screen, from 0. `offset` is where its length stands in the symbolic map,
    0 for one without a name. `parts` are the fields of a group, with their places in it."""

    origin: Origin
    name: str
    position: int
    length: int
    attribute: int
    has_cursor: bool
    initial: Text | None
    justified: Justified
    fill: str
    occurs: int = 1
    colour: str = ""
    offset: int = 0
    parts: list["Part"] = field(default_factory=list)

    def positions(self) -> list[int]:
        """The position of each of its occurrences, one after the other."""
        return [self.position + at * (self.length + 1) for at in range(self.occurs)]


@dataclass(frozen=True)
class Part:
    """A field of a group: its place in the group's text."""

    name: str
    begin: int
    length: int
    initial: Text | None


@dataclass
class Map:
    """A map: its fields in the order in which they were written, and how many bytes its symbolic map has."""

    origin: Origin
    name: str
    fields: list[Field]
    controls: list[str]
    extended: list[str]
    has_prefix: bool
    line: int = 1
    column: int = 1
    rows: int = ROWS
    columns: int = COLUMNS
    colour: str = ""  # that of fields which have none of their own
    length: int = 0

    def by_position(self) -> list[Field]:
        return sorted(self.fields, key=lambda one: one.position)

    def named(self) -> list[Field]:
        return [one for one in self.fields if one.name]

    def cursor(self) -> int | None:
        """Where IC puts the cursor: the last one that has it."""
        found = [one.position + 1 for one in self.fields if one.has_cursor]
        return found[-1] if found else None


@dataclass
class Mapset:
    """A mapset: where it was read, and its maps."""

    path: str
    name: str
    maps: list[Map]
    is_overlaid: bool

    def file_name(self) -> str:
        """The name of its file, by which COPY may call it, too."""
        return os.path.splitext(os.path.basename(self.path))[0].upper()

    def map(self, name: str) -> Map | None:
        return next((one for one in self.maps if one.name == name), None)


def lay_out(of_map: Map) -> None:
    """Gives each field its place in the symbolic map."""
    at = PREFIX if of_map.has_prefix else 0
    for one in of_map.named():
        one.offset = at
        at += one.occurs * (3 + len(of_map.extended) + one.length)
    of_map.length = at
