"""ORG that goes back over constants, to put others into them: all their bytes, as they are at the end."""
from dataclasses import dataclass

from cics.constants import Item, item_of, size_of
from cics.expressions import Chain, Value, whole, value_of
from cics.layout import Placed
from cics.program import Program
from cics.statements import Statement, new_statement
from cics.texts import CODED, cut

MOST, LEAST_RUN, PIECE = 4096, 8, 128  # bytes of a table; bytes of a run that is written as one; bytes of an item


class NotLaidOut(Exception):
    """Why what an ORG lays over other bytes can't be rewritten."""


@dataclass(frozen=True)
class Name:
    """A name within the bytes: its offset and its length attribute."""

    text: str
    offset: int
    length: int


@dataclass(frozen=True)
class Patched:
    """The statements from `begin` to `end`, and what they become."""

    begin: int
    end: int
    statements: list[Statement]


def item_bytes(item: Item, here: Value, program: Program) -> bytes:
    """An item's bytes, with the place of its first copy."""
    layout = program.layout
    copies = layout.number(item.duplication, here) if item.duplication else 1
    modifier = layout.number(item.modifier, here) if item.modifier else None
    if copies is None or item.modifier and modifier is None or not item.value:
        raise NotLaidOut("a constant's bytes aren't all known before")
    size = size_of(item, modifier)
    length = size.copy // max(len(item.values()), 1)
    if size.copy * copies > MOST:
        raise NotLaidOut("it has too many bytes")
    found = b""
    for copy in range(copies):
        for number, value in enumerate(item.values()):
            place = here.plus(Value(size.copy * copy + length * number), 1)
            found += value_bytes(item.kind, value, size.first if modifier is None and item.kind in "XBP" else length, place, program)
    return found


def value_bytes(kind: str, value: str, length: int, here: Value, program: Program) -> bytes:
    if kind == "C":
        text = value.replace("''", "'").replace("&&", "&")
        if not set(text) <= CODED:
            raise NotLaidOut("a character has no code")
        return text.encode("cp037").ljust(length, b"\x40")[:length]
    if kind in "XB" and value:
        return int(value, 16 if kind == "X" else 2).to_bytes(MOST, "big")[-length:]
    if kind in "FH" and value.lstrip("+-").isdigit():
        return int(int(value) % 256**length).to_bytes(length, "big")
    if kind == "P" and value.lstrip("+-").isdigit():
        digits = value.lstrip("+-") + ("D" if value.startswith("-") else "C")
        return bytes.fromhex(digits.rjust(2 * length, "0")[-2 * length :])
    expression = whole(value) if kind in "AY" else None
    number = value_of(expression, program.layout, here) if expression else None
    if number is None or not number.is_number():
        raise NotLaidOut("a constant's bytes aren't all known before")
    return int(number.number % 256**length).to_bytes(length, "big")


def place_of(statement: Statement, chain: Chain, program: Program) -> Placed:
    placed = program.layout.placed.get(statement.origin.order)
    if placed is None or placed.begin.places != {chain: 1} or placed.end.places != {chain: 1}:
        raise NotLaidOut("its places aren't all known before")
    return placed


def first_of(statements: list[Statement], at: int, target: int, chain: Chain, program: Program) -> int:
    """The first constant that has bytes after the place to which ORG goes back."""
    first = at
    for number in range(at - 1, -1, -1):
        one = statements[number]
        if one.is_comment:
            continue
        if one.operation not in ("DC", "DS", "EQU") or place_of(one, chain, program).end.number <= target:
            break
        first = number
    if first == at or place_of(statements[first], chain, program).begin.number > target:
        raise NotLaidOut("it doesn't go back over constants alone")
    return first


def patched_at(statements: list[Statement], at: int, program: Program) -> Patched:
    """The constants over which the ORG of this number goes back, and those that are put into them."""
    placed = program.layout.placed.get(statements[at].origin.order)
    if placed is None or len(placed.begin.places) != 1:
        raise NotLaidOut("the place to which it goes back isn't known before")
    chain, = placed.begin.places
    end = at
    while end < len(statements) and (statements[end].is_comment or statements[end].operation in ("DC", "DS", "ORG", "EQU")):
        end += 1
        if is_last(statements[end - 1]) and not goes_back(statements, end):
            break
    target = min(place_of(one, chain, program).begin.number for one in statements[at:end] if one.operation == "ORG" and not is_last(one))
    begin = first_of(statements, at, target, chain, program)
    return Patched(begin, end, put_together(statements[begin:end], chain, program))


def is_last(statement: Statement) -> bool:
    """Whether an ORG goes on after all that was."""
    return statement.operation == "ORG" and statement.operand in ("", ",")


def goes_back(statements: list[Statement], at: int) -> bool:
    """Whether the next statement is one more ORG that goes back."""
    following = next((one for one in statements[at:] if not one.is_comment), None)
    return following is not None and following.operation == "ORG" and not is_last(following)


def put_together(statements: list[Statement], chain: Chain, program: Program) -> list[Statement]:
    first = next(one for one in statements if one.operation == "DC" or one.operation == "DS")
    origin = place_of(first, chain, program).begin.number
    data = bytearray()
    names: list[Name] = []
    comments: list[Statement] = []
    for one in statements:
        comments.append(one if one.is_comment else one.made_comment())
        if one.is_comment or one.operation == "ORG":
            continue
        if one.operation == "EQU":
            raise NotLaidOut("EQU stands in it")
        placed = place_of(one, chain, program)
        if one.name:
            names.append(Name(one.name, placed.items[0].number - origin, program.layout.new_length(one.name) or 1))
        for text, place in zip(cut(one.operand), placed.items):
            item = item_of(text)
            if item is None:
                raise NotLaidOut("a constant can't be read")
            laid = bytes() if one.operation == "DS" else item_bytes(item, place, program)
            begin = place.number - origin
            data += bytes(max(0, begin + len(laid) - len(data)))
            data[begin : begin + len(laid)] = laid
        data += bytes(max(0, placed.end.number - origin - len(data)))
    near = first
    return [*comments, *constants(bytes(data), sorted(names, key=lambda name: name.offset), near)]


def constants(data: bytes, names: list[Name], near: Statement) -> list[Statement]:
    """Bytes as constants, with each name in front of its own."""
    made: list[Statement] = []
    cuts = sorted({0, len(data), *(name.offset for name in names)})
    for begin, end in zip(cuts, cuts[1:]):
        made += [new_statement(near, "DS", f"0XL{name.length}", name.text) for name in names if name.offset == begin]
        made += [new_statement(near, "DC", operand) for operand in operands(data[begin:end])]
    return made + [new_statement(near, "DS", f"0XL{name.length}", name.text) for name in names if name.offset == len(data)]


def operands(data: bytes) -> list[str]:
    """Items for bytes: a run of one byte by a duplication."""
    found: list[str] = []
    at = begin = 0
    while at < len(data):
        run = next((end for end in range(at, len(data)) if data[end] != data[at]), len(data)) - at
        if run >= LEAST_RUN:
            found += [*hexadecimal(data[begin:at]), f"{run}X'{data[at]:02X}'"]
            begin = at + run
        at += run
    return [*found, *hexadecimal(data[begin:])]


def hexadecimal(data: bytes) -> list[str]:
    return [f"X'{data[at : at + PIECE].hex().upper()}'" for at in range(0, len(data), PIECE)]
