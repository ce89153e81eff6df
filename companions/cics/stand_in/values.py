"""Values of a record's fields, as they are written in data: each by its field's type, as bytes."""
import re

from cics.constants import Item, is_lone_mark, item_of
from cics.texts import CODED, is_decimal

MOST_DIGITS, MOST_PACKED, MOST_BINARY, MOST_CONSTANT = 40, 16, 8, 32_000  # digits of a number; bytes of P, of F and H, and of a constant
DECIMAL = re.compile(r" *([+-]?)([0-9]*)\.?([0-9]*) *")
NUMBER = re.compile(r" *[+-]?[0-9]+ *")
HEXADECIMAL = re.compile(r" *[0-9A-Fa-f]+ *")
UNITS = {"F": 4, "H": 2}  # of these a constant without a length stands at a multiple of its own
IN_CONSTANTS = "CXPFH"
BLANK = b"\x40"


class Odd(Exception):
    """Why a text is refused, and at which of its characters, from 0."""

    def __init__(self, at: int, why: str) -> None:
        super().__init__(why)
        self.at = at


def coded(text: str) -> bytes:
    """Characters by their codes."""
    for at, character in enumerate(text):
        if character not in CODED:
            raise Odd(at, f"{character!r} has no code here")
    return text.encode("cp037")


def text_bytes(text: str, length: int) -> bytes:
    if len(text) > length:
        raise Odd(length, f"{len(text)} characters, where there are {length} bytes")
    return coded(text).ljust(length, BLANK)


def packed(text: str, length: int) -> bytes:
    """A packed decimal; a point is ignored."""
    found = DECIMAL.fullmatch(text)
    digits = found[2] + found[3] if found else ""
    if found is None or not digits:
        raise Odd(0, f"{shown(text)} is no decimal")
    kept = digits.lstrip("0")
    if len(kept) > 2 * length - 1:
        raise Odd(0, f"{shown(text)} has {len(kept)} digits, where P of {length} bytes has {2 * length - 1}")
    return bytes.fromhex(kept.rjust(2 * length - 1, "0") + ("D" if found[1] == "-" else "C"))


def binary(text: str, length: int) -> bytes:
    if not NUMBER.fullmatch(text) or len(text) > MOST_DIGITS:
        raise Odd(0, f"{shown(text)} is no whole number")
    number, most = int(text), 1 << (8 * length - 1)
    if not -most <= number < most:
        raise Odd(0, f"{number} isn't from {-most} to {most - 1}, as {length} bytes are")
    return number.to_bytes(length, "big", signed=True)


def digits_bytes(text: str, length: int) -> bytes:
    """Hexadecimal digits, with zeros in front."""
    if not HEXADECIMAL.fullmatch(text):
        raise Odd(0, f"{shown(text)}: no hexadecimal digits")
    digits = text.strip(" ")
    if len(digits) > 2 * length:
        raise Odd(0, f"{shown(text)} has {len(digits)} hexadecimal digits, where {length} bytes have {2 * length}")
    return bytes.fromhex(digits.rjust(2 * length, "0"))


def shown(text: str) -> str:
    """A text as it is told, cut where it is long."""
    return repr(text if len(text) <= MOST_DIGITS else f"{text[:MOST_DIGITS]}..")


def value_bytes(text: str, kind: str, length: int) -> bytes:
    """A value by its type: text of C, a decimal of P, a number of F and H, hexadecimal digits of others."""
    if kind == "C":
        return text_bytes(text, length)
    if kind == "P":
        return packed(text, length)
    return binary(text, length) if kind in "FH" else digits_bytes(text, length)


def empty_bytes(kind: str, length: int) -> bytes:
    """What stands in a field for which nothing is given: blanks, or zero."""
    if kind == "C":
        return BLANK * length
    return packed("0", length) if kind == "P" else bytes(length)


def cell_bytes(text: str, kind: str, length: int) -> bytes:
    """A value in a row. One of no text may be empty, which is zero, or as the assembler writes it, as P'-12.50'."""
    if kind == "C":
        return text_bytes(text, length)
    if not text.strip(" "):
        return empty_bytes(kind, length)
    found = re.fullmatch(rf" *({kind}')([^']*)' *", text)
    if found is None:
        return value_bytes(text, kind, length)
    try:
        return value_bytes(found[2], kind, length)
    except Odd as why:
        raise Odd(found.start(2) + why.at, str(why)) from None


def constant_bytes(text: str, place: int) -> bytes:
    """The bytes of a constant, as CL5'A1000' or PL4'125', that stands at a place of a record."""
    item = item_of(text)
    if item is None or item.kind not in IN_CONSTANTS or not item.value or not all(is_decimal(part or "1") for part in (item.duplication, item.modifier)):
        raise Odd(0, f"{shown(text)}: no constant; after = write constants, as CL5'A1000',PL4'125'")
    if is_lone_mark(item.value[1:-1]):
        raise Odd(0, f"{shown(text)}: an ampersand or apostrophe alone; write: two of them")
    inside = item.value[1:-1].replace("''", "'").replace("&&", "&")
    length, copies = length_of(item, inside, text), int(item.duplication or "1")
    if length * copies > MOST_CONSTANT:
        raise Odd(0, f"{shown(text)} has {length * copies} bytes, where a record has at most {MOST_CONSTANT}")
    if item.kind in UNITS and not item.modifier and place % UNITS[item.kind]:
        unit = UNITS[item.kind]
        raise Odd(0, f"{shown(text)} stands at byte {place}, no multiple of {unit}; write: X'{'00' * (-place % unit)}' in front, or a length, {item.kind}L{unit}")
    try:
        return value_bytes(inside, item.kind, length) * copies
    except Odd as why:
        raise Odd(len(text) - len(item.value) + 1 + why.at if item.kind == "C" else 0, str(why)) from None


def length_of(item: Item, inside: str, text: str) -> int:
    """A constant's length: its modifier, or what its value has."""
    digits = len(inside.lstrip("+-").replace(".", ""))
    usual = {"C": len(inside), "X": (len(inside) + 1) // 2, "P": digits // 2 + 1, "F": UNITS["F"], "H": UNITS["H"]}[item.kind]
    length = int(item.modifier) if item.modifier else usual
    most = {"P": MOST_PACKED, "F": MOST_BINARY, "H": MOST_BINARY}.get(item.kind, MOST_CONSTANT)
    if not 1 <= length <= most:
        raise Odd(0, f"{shown(text)}: a constant of {item.kind} has 1 to {most} bytes")
    return length
