"""Maps at a terminal: the buffer that the program of a mapset keeps, as a screen with fields, and what is typed into them as a key's text."""
import re
from collections.abc import Hashable, Mapping, Sequence
from dataclasses import dataclass, field

from cics.stand_in.counts import is_made
from cics.terminals.data_stream import (BASIC, BRIGHT, CHARACTERS, CODES, COLUMNS, FOREGROUND, INSERT_CURSOR, ROWS, SET_ADDRESS, SIX_BITS, SIZE,
                                        START_COLOURED_FIELD, START_FIELD, Attribute, Painting, address, position_of)
from cics.terminals.data_stream import ERASE_WRITE, MODIFIED, RESTORE, RESTORE_WITH_ALARM

FIELD = re.compile(r"\*FIELD (?P<map>\S+) (?P<name>\S+) (?P<position>\d+) (?P<length>\d+) (?P<colour>\S+)")
BYTES = re.compile(r"[0-9A-F]{4} ((?:[0-9A-F]+ +)+)'")
CURSOR_FIELD = "EIBCPOSN DS "  # of a program that looks at the cursor's place
HEAD, NULL, PROTECTED, DARK = 24, 0x02, 0x20, 0x0C  # of a kept buffer: the map's name, the cursor and others in front; a null's byte
COLOURS = {"BLUE": 0xF1, "RED": 0xF2, "PINK": 0xF3, "GREEN": 0xF4, "TURQUOISE": 0xF5, "YELLOW": 0xF6, "NEUTRAL": 0xF7}


@dataclass(frozen=True)
class Place:
    """A field of a map: its name, empty without one, and its colour."""

    name: str
    colour: int | None


@dataclass
class Maps:
    """The fields of all maps of the programs that stand for mapsets, by map and by the positions of their attributes; and whether a program
    looks at the cursor's place."""

    places: dict[str, dict[int, Place]] = field(default_factory=dict)
    has_cursor: bool = False

    def __bool__(self) -> bool:
        return bool(self.places)

    def field(self, position: int, shown: str) -> Place | None:
        """The field here: of the map that was sent last, else of any."""
        named = [self.places[shown], *self.places.values()] if shown in self.places else list(self.places.values())
        return next((found[position] for found in named if position in found), None)


def maps_of(sources: Mapping[str, Sequence[str]]) -> Maps:
    """What the sources of a region say of maps."""
    maps = Maps(has_cursor=any(line.startswith(CURSOR_FIELD) for lines in sources.values() for line in lines))
    for lines in sources.values():
        for found in filter(None, map(FIELD.match, lines if is_made(lines) else [])):
            name = "" if found["name"] == "-" else found["name"]
            maps.places.setdefault(found["map"], {})[int(found["position"])] = Place(name, COLOURS.get(found["colour"]))
    return maps


class MapPainting(Painting):
    """A screen with a map's fields."""

    def __init__(self, item: bytes, maps: Maps, message: str = "") -> None:
        self.buffer = bytearray(item[HEAD : HEAD + SIZE])
        super().__init__(rows_of_buffer(self.buffer), range(0))
        if message:
            self.put_message(message)
        self.shown = "".join(CHARACTERS.get(code, "") for code in item[:8]).strip()
        self.maps = maps
        positions = [at for at, code in enumerate(self.buffer) if is_attribute(code)]
        for at, following in zip(positions, [*positions[1:], SIZE]):
            self.attributes[at] = Attribute(self.buffer[at] & ~MODIFIED)
            if not self.buffer[at] & PROTECTED:
                place = maps.field(at, self.shown)
                self.fields[at + 1] = following - at - 1, place.name if place else ""
        self.cursor = int.from_bytes(item[8:10], "big") % SIZE

    def put_message(self, message: str) -> None:
        """A message in the last row, in place of what is there."""
        begin = (ROWS - 1) * COLUMNS
        text = f"{message[: COLUMNS - 1]}".ljust(COLUMNS - 1)
        self.buffer[begin:] = bytes([BRIGHT.bits, *(CODES.get(character, CODES["."]) for character in text)])

    def orders(self, alarm: bool = False, has_colours: bool = False) -> bytes:
        """What is sent to the screen: all of it, nulls as nulls."""
        out = bytearray([ERASE_WRITE, RESTORE_WITH_ALARM if alarm else RESTORE]) + SET_ADDRESS + address(0)
        for at, code in enumerate(self.buffer):
            if at in self.attributes:
                out += self.attribute_order(at, has_colours)
            else:
                out.append(0 if code == NULL else code if code in CHARACTERS else CODES["."])
        for position, codes in self.typed_over:
            out += SET_ADDRESS + address(position) + codes
        return bytes(out + SET_ADDRESS + address(self.cursor) + INSERT_CURSOR)

    def attribute_order(self, at: int, has_colours: bool) -> bytes:
        place = self.maps.field(at, self.shown)
        code = SIX_BITS[self.attributes[at].bits]
        if has_colours and place and place.colour:
            return START_COLOURED_FIELD + bytes([2, BASIC, code, FOREGROUND, place.colour])
        return START_FIELD + bytes([code])

    def key_text(self, texts: Mapping[Hashable, str], record: bytes) -> str:
        """What was typed as a key carries it: NAME=value;NAME=value; and the cursor's place, where a program looks at it."""
        typed = [f"{name}={text.replace(';', ';;')}" for name, text in texts.items() if name]
        has_place = self.maps.has_cursor and len(record) >= 3
        return ";".join([*typed, *([f"@={position_of(record[1:3])}"] if has_place else [])])


def is_attribute(code: int) -> bool:
    return code < 0x40 and code != NULL


def rows_of_buffer(buffer: Sequence[int]) -> list[str]:
    """The rows that are seen: attributes and nulls as blanks, and what is dark."""
    attributes = [code for code in buffer if is_attribute(code)]
    now, text = attributes[-1] if attributes else 0, ""
    for code in buffer:
        now = code if is_attribute(code) else now
        text += " " if code < 0x40 or now & DARK == DARK else CHARACTERS.get(code, ".")
    return [text[at : at + COLUMNS] for at in range(0, SIZE, COLUMNS)]


def mapped(look: Sequence[str], rows: Sequence[str], maps: Maps, message: str) -> MapPainting | None:
    """The screen with a map's fields, where a buffer is kept, and is what the screen shows."""
    item = bytes.fromhex("".join(found[1].replace(" ", "") for found in map(BYTES.match, look) if found))
    if len(item) < HEAD + SIZE or not any(map(is_attribute, item[HEAD : HEAD + SIZE])):
        return None
    seen = [row.rstrip() for row in rows_of_buffer(item[HEAD : HEAD + SIZE])]
    return MapPainting(item, maps, message) if seen == [row.rstrip() for row in rows] else None
