"""The 3270 data stream: pages painted on a screen, and what comes back of it (Introduction to the 3270, GA27-2739).
A screen has 24 rows of 80 columns. A position is counted from 0 in it, and a row too."""
from collections.abc import Hashable, Sequence
from typing import NamedTuple

ROWS, COLUMNS, SIZE = 24, 80, 24 * 80
BLANK = ("",) * ROWS  # a page without text

# The region's characters, by the code of the first of each run.
RUNS = {0x40: " ", 0x4B: ".<(+|", 0x50: "&", 0x5A: "!$*);", 0x60: "-/", 0x6B: ",%_>?", 0x7A: ":#@'=\"", 0x81: "abcdefghi",
        0x91: "jklmnopqr", 0xA2: "stuvwxyz", 0xC1: "ABCDEFGHI", 0xD1: "JKLMNOPQR", 0xE2: "STUVWXYZ", 0xF0: "0123456789"}
CHARACTERS = {first + at: character for first, run in RUNS.items() for at, character in enumerate(run)}
CODES = {character: code for code, character in CHARACTERS.items()}
# The code of each six bits of an address, or of an attribute.
SIX_BITS = bytes.fromhex("40C1C2C3C4C5C6C7C8C94A4B4C4D4E4F50D1D2D3D4D5D6D7D8D95A5B5C5D5E5F"
                         "6061E2E3E4E5E6E7E8E96A6B6C6D6E6FF0F1F2F3F4F5F6F7F8F97A7B7C7D7E7F")
# The keys that mean something, by their attention identifiers. Those from PF14 on are the companion's own.
AIDS = {0x7D: "ENTER", 0x6D: "CLEAR", 0x6C: "PA1", 0x6E: "PA2", 0x7A: "PF10", 0x7B: "PF11", 0x7C: "PF12", 0xC2: "PF14",
        0xC7: "PF19", 0xC8: "PF20", 0x4C: "PF24"}
AIDS.update({0xF0 + number: f"PF{number}" for number in range(1, 10)})

ERASE_WRITE, RESTORE, RESTORE_WITH_ALARM = 0xF5, 0xC3, 0xC7
SET_ADDRESS, START_FIELD, START_COLOURED_FIELD, INSERT_CURSOR = b"\x11", b"\x1D", b"\x29", b"\x13"
BASIC, FOREGROUND, GREEN = 0xC0, 0x42, 0xF4  # of a field with a colour: its attribute, its colour
MODIFIED = 0x01  # the bit of an attribute whose field is sent
CHANGED = "THE SCREEN HAS CHANGED: TYPE IT AGAIN"
TEXT = "text"  # the use of the field in which the operator's text is typed

class Attribute(NamedTuple):
    """What a field is: its six bits, and whether it is green on every screen that has colours."""
    bits: int
    is_green: bool = False

    def order(self, has_colours: bool) -> bytes:
        code = SIX_BITS[self.bits]
        if self.is_green and has_colours:
            return START_COLOURED_FIELD + bytes([2, BASIC, code, FOREGROUND, GREEN])
        return START_FIELD + bytes([code])

PROTECTED, PAGE, BRIGHT = Attribute(0x30), Attribute(0x30, is_green=True), Attribute(0x38)
INPUT, ALTERED = Attribute(0x00), Attribute(0x08)

class Refused(Exception):
    """What was typed isn't given to the region; the text says why."""

class Uncoded(Refused):
    """It has a character without a code, and is painted as it was typed."""

def decoded(data: bytes) -> str:
    """The characters typed; a null is none."""
    for code in data:
        if code and code not in CHARACTERS:
            raise Uncoded(f"A CHARACTER HAS NO CODE HERE: X'{code:02X}'")
    return "".join(CHARACTERS[code] for code in data if code)

def address(position: int) -> bytes:
    return bytes([SIX_BITS[position >> 6], SIX_BITS[position & 63]])

def position_of(data: bytes) -> int:
    """The position that an address means, in its twelve bits or in fourteen."""
    if len(data) < 2:
        raise Refused(CHANGED)
    if data[0] < 0x40:
        return data[0] << 8 | data[1]
    return (data[0] & 63) << 6 | data[1] & 63

def fields_of(data: bytes) -> list[tuple[int, bytes]]:
    """The modified fields of a formatted screen: the first position of each, and its codes."""
    found, at = [], 0
    while at < len(data):
        end = data.find(SET_ADDRESS, at + 3)
        end = end if end >= 0 else len(data)
        found.append((position_of(data[at + 1 : at + 3]), data[at + 3 : end]))
        at = end
    return found

def free_rows(rows: Sequence[str]) -> range:
    """The rows below the last one that is used."""
    return range(max((at + 1 for at, row in enumerate(rows) if row.strip()), default=0), ROWS)

class Painting:
    """A page as it is painted: its characters, its attributes by their positions, and its fields by their first positions.
    Of the free rows the last one has the message, and the others are for the operator's text. Without a message the page is not
    formatted where no row is used, or none is free: all of the screen is for the text, and what differs from the page is typed.
    """

    def __init__(self, rows: Sequence[str], free: range, message: str = "", attribute: Attribute = PAGE) -> None:
        self.characters = [row.ljust(COLUMNS) for row in rows]
        self.attributes: dict[int, Attribute] = {}
        self.fields: dict[int, tuple[int, Hashable]] = {}  # how long each is, and what for
        self.typed_over: list[tuple[int, bytes]] = []  # codes as they came, by their first positions
        self.cursor, self.attribute = 0, attribute
        if message or len(free) not in (0, ROWS):
            self.lay_out(free, message)

    def lay_out(self, free: range, message: str) -> None:
        last = free[-1] if free else ROWS - 1
        end = last * COLUMNS + COLUMNS - 1
        self.attributes[end] = self.attribute  # of what follows: at the screen's end, of its beginning
        if message:
            end = last * COLUMNS
            self.attributes[end] = BRIGHT
            self.characters[last] = f" {message[:COLUMNS - 2]}".ljust(COLUMNS)
        start = free.start * COLUMNS
        opens_above = free.start and self.characters[free.start - 1].endswith(" ")
        opening = start - 1 if opens_above else start
        if opening + 1 < end:
            self.open(opening, end, TEXT)
            self.cursor = opening + 1

    def open(self, opening: int, end: int, use: Hashable, attribute: Attribute = INPUT) -> None:
        """A field between two attributes; the one after it protects what follows, unless there is one already."""
        self.attributes[opening] = attribute
        self.attributes.setdefault(end, PROTECTED)
        self.fields[opening + 1] = end - opening - 1, use

    def is_full(self) -> bool:
        """Whether all characters are painted, blanks too: of an unformatted page that isn't blank."""
        return not self.attributes and any(row.strip() for row in self.characters)

    def orders(self, alarm: bool = False, has_colours: bool = False) -> bytes:
        """What is sent to the screen."""
        out = bytearray([ERASE_WRITE, RESTORE_WITH_ALARM if alarm else RESTORE])
        for at, row in enumerate(self.characters):
            text = row if self.is_full() else row.rstrip()
            if text:  # of which a period stands for what has no code
                out += SET_ADDRESS + address(at * COLUMNS) + bytes(CODES.get(character, CODES["."]) for character in text)
        for position, attribute in sorted(self.attributes.items()):
            out += SET_ADDRESS + address(position) + attribute.order(has_colours)
        for position, codes in self.typed_over:
            out += SET_ADDRESS + address(position) + codes
        return bytes(out + SET_ADDRESS + address(self.cursor) + INSERT_CURSOR)

    def put_cursor(self, record: bytes) -> None:
        """The cursor stays where the operator left it."""
        if len(record) >= 3 and position_of(record[1:3]) < SIZE:
            self.cursor = position_of(record[1:3])

    def retype(self, record: bytes) -> None:
        """Paints what was typed, where there is room for it, as if it were typed again. An order among it is a blank."""
        data, first = record[3:], min(self.fields, default=0)
        for position, codes in fields_of(data) if data.startswith(SET_ADDRESS) else [(first, data)]:
            field = self.fields.get(position)
            room = field[0] if field else 0 if self.fields else SIZE - (COLUMNS if self.attributes else 0) - position
            shown = bytes(max(code, CODES[" "]) for code in codes[: max(room, 0)])
            self.typed_over += [(position, shown)] if shown else []
            if field:
                attribute = self.attributes[position - 1]
                self.attributes[position - 1] = attribute._replace(bits=attribute.bits | MODIFIED)
        self.put_cursor(record)

    def typed(self, record: bytes) -> dict[Hashable, str]:
        """What was typed, by the uses of the fields that were modified."""
        data = record[3:]
        if not data:
            return {}
        if bool(self.attributes) != data.startswith(SET_ADDRESS):
            raise Refused(CHANGED)
        fields, texts = self.fields if self.attributes else {0: (SIZE, TEXT)}, {}
        for position, codes in fields_of(data) if self.attributes else [(0, data)]:
            field, text = fields.get(position), decoded(codes)
            if field is None or len(text) > field[0]:
                raise Refused(CHANGED)
            texts[field[1]] = self.difference(text) if self.is_full() else text
        return texts

    def difference(self, typed: str) -> str:
        """Of a full page, what is typed from the first character that differs to the last."""
        page = "".join(self.characters)
        if len(typed) != SIZE:
            raise Refused("A FULL SCREEN MAY BE TYPED OVER, NOT DELETED")
        differs = [at for at in range(SIZE) if typed[at] != page[at]]
        return typed[differs[0] : differs[-1] + 1] if differs else ""
