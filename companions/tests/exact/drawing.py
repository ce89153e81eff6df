"""Cases of instructions that the region hasn't: drawn registers, storage and condition code, the same ones for the same number each time."""
import hashlib
from collections.abc import Callable, Sequence
from dataclasses import dataclass, field
from typing import TypeVar

SMALL, LARGE = 96, 576  # bytes of storage of a case
KEPT = (3, 13)  # registers that no case uses: the program's base, and that of its working storage
BASES = (2, 4, 5, 6, 7, 8, 9, 10, 11, 12, 14, 15)
WORD = 2**32
One = TypeVar("One")


class Draw:
    """Drawn numbers, which depend on a name alone."""

    def __init__(self, name: str) -> None:
        self.name, self.count, self.left = name, 0, b""

    def bytes(self, count: int) -> bytes:
        while len(self.left) < count:
            self.left += hashlib.sha256(f"{self.name} {self.count}".encode()).digest()
            self.count += 1
        found, self.left = self.left[:count], self.left[count:]
        return found

    def below(self, limit: int) -> int:
        return int.from_bytes(self.bytes(8), "big") % limit

    def between(self, low: int, high: int) -> int:
        return low + self.below(high - low + 1)

    def of(self, several: Sequence[One]) -> One:
        return several[self.below(len(several))]

    def once_in(self, count: int) -> bool:
        return self.below(count) == 0


@dataclass
class Case:
    """A case: the statement, the bytes that the processor's manual has for it, registers, those of them that hold places in the storage,
    the code, and the storage. `target`: the statement's last operand is a branch address, which `text` leaves out."""

    operation: str
    text: str
    code: bytes
    registers: list[int]
    places: set[int]
    condition: int
    storage: bytearray
    has_target: bool = False


@dataclass
class Drawn:
    """A case in the making."""

    draw: Draw
    size: int = SMALL
    registers: list[int] = field(default_factory=list)
    places: set[int] = field(default_factory=set)
    storage: bytearray = field(default_factory=bytearray)
    used: set[int] = field(default_factory=set)

    def start(self) -> None:
        self.registers = [int.from_bytes(self.draw.bytes(4), "big") for _ in range(16)]
        self.storage = bytearray(self.draw.bytes(self.size))

    def base(self, place: int) -> tuple[int, int]:
        """A register and a displacement for a place in the storage."""
        register = self.draw.of([one for one in BASES if one not in self.used])
        self.used.add(register)
        displacement = min(self.draw.of((0, 1, 7, place)), place)
        self.registers[register] = place - displacement
        self.places.add(register)
        return register, displacement

    def put(self, place: int, data: bytes) -> None:
        self.storage[place : place + len(data)] = data

    def case(self, operation: str, text: str, code: bytes, *, has_target: bool = False) -> Case:
        return Case(operation, text, code, self.registers, self.places, self.draw.below(4), self.storage, has_target)


def address(register: int, displacement: int) -> bytes:
    return (register * 4096 + displacement).to_bytes(2, "big")


def packed_number(draw: Draw, length: int, *, zero_bytes: int = 0) -> bytes:
    """A packed field: mostly a number of so many bytes, of any sign; at times with a digit or a sign that is none."""
    digits = 2 * length - 1
    room = max(digits - 2 * zero_bytes, 0)
    count = draw.of((0, 1, room, draw.between(0, room), draw.between(0, room)))
    text = "".join(draw.of("0123456789") for _ in range(count)) if not draw.once_in(6) else "9" * count
    sign = draw.of("CCDDCDFABE")
    nibbles = list((text.rjust(digits, "0") + sign)[-2 * length :])
    if draw.once_in(10):
        nibbles[draw.below(len(nibbles))] = draw.of("0123456789ABCDEF")
    return bytes.fromhex("".join(nibbles))


Form = Callable[[Drawn, str], Case]
CODES = {"AP": 0xFA, "SP": 0xFB, "ZAP": 0xF8, "CP": 0xF9, "MP": 0xFC, "DP": 0xFD, "SRP": 0xF0, "MVO": 0xF1, "ED": 0xDE, "EDMK": 0xDF,
         "OC": 0xD6, "NC": 0xD4, "MVN": 0xD1, "MVZ": 0xD3, "MVCIN": 0xE8, "XI": 0x97, "TS": 0x93, "N": 0x54, "O": 0x56, "X": 0x57, "NR": 0x14,
         "OR": 0x16, "MH": 0x4C, "CLM": 0xBD, "LPR": 0x10, "LNR": 0x11, "AL": 0x5E, "ALR": 0x1E, "SL": 0x5F, "SLR": 0x1F, "BXLE": 0x87,
         "BXH": 0x86, "SLDL": 0x8D, "SRDL": 0x8C, "SLDA": 0x8F, "MVCL": 0x0E, "CLCL": 0x0F, "CS": 0xBA, "CDS": 0xBB}


def two_lengths(drawn: Drawn, operation: str, first: int, second: int, at: int, other: int) -> Case:
    one, two = drawn.base(at), drawn.base(other)
    code = bytes([CODES[operation], (first - 1) * 16 + second - 1]) + address(*one) + address(*two)
    return drawn.case(operation, f"{one[1]}({first},{one[0]}),{two[1]}({second},{two[0]})", code)


def one_length(drawn: Drawn, operation: str, length: int, at: int, other: int) -> Case:
    one, two = drawn.base(at), drawn.base(other)
    code = bytes([CODES[operation], length - 1]) + address(*one) + address(*two)
    return drawn.case(operation, f"{one[1]}({length},{one[0]}),{two[1]}({two[0]})", code)


def with_register(drawn: Drawn, operation: str, first: int, second: int, one: tuple[int, int]) -> Case:
    """An instruction with two registers, or a register and a mask, and a place."""
    return drawn.case(operation, f"{first},{second},{one[1]}({one[0]})", bytes([CODES[operation], first * 16 + second]) + address(*one))


def shift_by(drawn: Drawn, amount: int, others: tuple[int, ...]) -> tuple[int, int, str]:
    """A register, or none, and a displacement, which are an amount together, and the operand."""
    draw = drawn.draw
    register = draw.of((0, *others))
    part = draw.between(0, amount) if register else amount
    if register:
        drawn.registers[register] = draw.below(1024) * 64 + amount - part
    return register, part, f"{part}({register})" if register else str(part)


def places_for(drawn: Drawn, first: int, second: int) -> tuple[int, int]:
    """Two places for operands, which overlap at times."""
    at = drawn.draw.between(8, drawn.size // 2 - first)
    if drawn.draw.once_in(8):
        return at, max(0, min(at + drawn.draw.between(-second, first), drawn.size - second))
    return at, drawn.draw.between(drawn.size // 2, drawn.size - second)


def packed(drawn: Drawn, operation: str) -> Case:
    draw = drawn.draw
    short = draw.once_in(2)
    first, second = (draw.between(1, 4 if short else 16) for _ in range(2))
    at, other = places_for(drawn, first, second)
    drawn.put(at, packed_number(draw, first))
    drawn.put(other, packed_number(draw, second))
    if operation == "MVO" and draw.once_in(2):
        drawn.put(at, draw.bytes(first))
    return two_lengths(drawn, operation, first, second, at, other)


def product(drawn: Drawn, operation: str) -> Case:
    draw = drawn.draw
    second = draw.between(1, 8)
    first = draw.between(second + 1, 16)
    at, other = places_for(drawn, first, second)
    drawn.put(at, packed_number(draw, first, zero_bytes=0 if draw.once_in(8) else second))
    drawn.put(other, packed_number(draw, second))
    return two_lengths(drawn, operation, first, second, at, other)


def shifted(drawn: Drawn, operation: str) -> Case:
    draw = drawn.draw
    first, added, amount = draw.between(1, 16), draw.below(10), draw.of((draw.below(64), draw.below(8), 64 - draw.below(8) - 1))
    at = draw.between(0, drawn.size - first)
    drawn.put(at, packed_number(draw, first))
    one = drawn.base(at)
    register, part, second = shift_by(drawn, amount, (draw.of([number for number in BASES if number not in drawn.used]),))
    code = bytes([CODES[operation], (first - 1) * 16 + added]) + address(*one) + address(register, part)
    return drawn.case(operation, f"{one[1]}({first},{one[0]}),{second},{added}", code)


def edited(drawn: Drawn, operation: str) -> Case:
    draw = drawn.draw
    length = draw.between(2, 20)
    fill = draw.of((0x40, 0x5C, 0x40, 0x20, 0xF0))
    pattern = bytes([fill, *(draw.of((0x20, 0x20, 0x20, 0x20, 0x21, 0x22, 0x6B, 0x4B, 0x60, 0x40)) for _ in range(length - 1))])
    at, other = draw.between(0, 8), draw.between(40, 48)
    drawn.put(at, pattern)
    source = b"".join(packed_number(draw, draw.between(1, 5)) for _ in range(12))
    drawn.put(other, source[: drawn.size - other])
    if operation == "EDMK":
        drawn.used.add(1)
        drawn.places.add(1)
        drawn.registers[1] = draw.below(64)
    return one_length(drawn, operation, length, at, other)


def bytes_of(drawn: Drawn, operation: str) -> Case:
    draw = drawn.draw
    length = draw.of((1, 2, 3, 256, draw.between(1, 256), draw.between(1, 20)))
    at, other = places_for(drawn, length, length)
    if operation == "MVCIN":
        other = min(other + length - 1, drawn.size - 1)
    if draw.once_in(4):
        drawn.put(at, bytes(length))
    if draw.once_in(3):
        drawn.put(other, bytes(min(length, drawn.size - other)))
    if draw.once_in(6) and operation != "MVCIN":
        other = at
    return one_length(drawn, operation, length, at, other)


def immediate(drawn: Drawn, operation: str) -> Case:
    draw = drawn.draw
    at = draw.below(drawn.size)
    one, byte = drawn.base(at), draw.of((0, 0x80, 255, draw.below(256), drawn.storage[at]))
    second = f",{byte}" if operation == "XI" else ""
    return drawn.case(operation, f"{one[1]}({one[0]}){second}", bytes([CODES[operation], byte if second else 0]) + address(*one))


def special_word(draw: Draw, other: int) -> int:
    return draw.of((draw.below(WORD), draw.below(WORD), 0, 1, WORD - 1, 2**31, 2**31 - 1, other, WORD - other, draw.below(70000))) % WORD


def word(drawn: Drawn, operation: str) -> Case:
    """A register and a word or halfword, with or without an index."""
    draw = drawn.draw
    length = 2 if operation == "MH" else 4
    at = draw.between(8, drawn.size - length)
    one = drawn.base(at)
    register = draw.of([number for number in range(16) if number not in (*KEPT, *(() if draw.once_in(4) else drawn.used))])
    index = draw.of((0, 0, *(number for number in BASES if number not in drawn.used | {register})))
    base, displacement = one
    if index:
        part = draw.between(0, drawn.registers[base])
        drawn.registers[base] -= part
        drawn.registers[index] = part
    if register not in drawn.used:
        drawn.registers[register] = special_word(draw, int.from_bytes(drawn.storage[at : at + length], "big"))
    drawn.put(at, special_word(draw, 0 if register in drawn.places else drawn.registers[register]).to_bytes(4, "big")[-length:])
    code = bytes([CODES[operation], register * 16 + index]) + address(base, displacement)
    return drawn.case(operation, f"{register},{displacement}({index},{base})", code)


def registers(drawn: Drawn, operation: str) -> Case:
    draw = drawn.draw
    first, second = (draw.of([number for number in range(16) if number not in KEPT]) for _ in range(2))
    drawn.registers[first] = special_word(draw, 5)
    drawn.registers[second] = special_word(draw, drawn.registers[first])
    return drawn.case(operation, f"{first},{second}", bytes([CODES[operation], first * 16 + second]))


def masked(drawn: Drawn, operation: str) -> Case:
    draw = drawn.draw
    at, mask = draw.between(0, drawn.size - 4), draw.between(1, 15)
    one = drawn.base(at)
    register = draw.of([number for number in range(16) if number not in (*KEPT, *drawn.used)])
    taken = bytes(byte for bit, byte in zip((8, 4, 2, 1), drawn.registers[register].to_bytes(4, "big")) if mask & bit)
    if draw.once_in(2):
        drawn.put(at, taken)
    return with_register(drawn, operation, register, mask, one)


def branched(drawn: Drawn, operation: str) -> Case:
    draw = drawn.draw
    first, third = (draw.of([number for number in range(16) if number not in (*KEPT, 12)]) for _ in range(2))
    limit = draw.below(2000)
    drawn.registers[third | 1] = limit if third | 1 not in KEPT else drawn.registers[third | 1]
    drawn.registers[third] = draw.of((1, 4, WORD - 1, 0, draw.below(WORD)))
    drawn.registers[first] = (limit + draw.of((0, 1, WORD - 1, WORD - 4, draw.below(WORD)))) % WORD
    if third | 1 in KEPT:
        return branched(drawn, operation)
    return drawn.case(operation, f"{first},{third}", bytes([CODES[operation], first * 16 + third]), has_target=True)


def pair_shifted(drawn: Drawn, operation: str) -> Case:
    draw = drawn.draw
    first, amount = draw.of((0, 4, 6, 8, 10, 14)), draw.below(64)
    drawn.registers[first] = special_word(draw, 3)
    drawn.registers[first + 1] = special_word(draw, 7)
    if draw.once_in(2):
        drawn.registers[first] = draw.of((0, WORD - 1, draw.below(16), WORD - draw.below(16) - 1))
    register, part, second = shift_by(drawn, amount, tuple(number for number in BASES if number not in (first, first + 1)))
    return drawn.case(operation, f"{first},{second}", bytes([CODES[operation], first * 16]) + address(register, part))


def long_of(drawn: Drawn, operation: str) -> Case:
    draw = drawn.draw
    first, second = draw.of((0, 4, 6, 8, 10, 14)), draw.of((0, 4, 6, 8, 10, 14))
    if first == second:
        return long_of(drawn, operation)
    lengths = [draw.of((0, 1, draw.below(250), draw.below(30), 256)) for _ in range(2)]
    if draw.once_in(3):
        lengths[1] = lengths[0]
    at, other = draw.between(0, 255), draw.between(0, drawn.size - 260)
    if draw.once_in(2):
        at, other = draw.between(0, 20), draw.between(290, 310)
    if operation == "CLCL" and not draw.once_in(4):
        drawn.put(other, bytes(drawn.storage[at : at + 260]))
        if draw.once_in(2) and lengths[1]:
            drawn.storage[min(other + draw.below(lengths[1]), drawn.size - 1)] ^= draw.between(1, 255)
    padding = draw.of((0x40, 0, drawn.storage[min(at + lengths[1], drawn.size - 1)]))
    for register, place, length, byte in ((first, at, lengths[0], draw.below(256)), (second, other, lengths[1], padding)):
        drawn.registers[register] = place
        drawn.places.add(register)
        drawn.registers[register + 1] = byte * 2**24 + length
    if padding and draw.once_in(4):
        drawn.put(at, bytes([padding]) * 100)
    return drawn.case(operation, f"{first},{second}", bytes([CODES[operation], first * 16 + second]))


def swapped(drawn: Drawn, operation: str) -> Case:
    draw = drawn.draw
    at = 4 * draw.between(2, 20) + (draw.between(1, 3) if draw.once_in(8) else 0)
    one = drawn.base(at)
    first, third = (draw.of([number for number in range(16) if number not in (*KEPT, *drawn.used)]) for _ in range(2))
    if draw.once_in(2):
        drawn.put(at, drawn.registers[first].to_bytes(4, "big"))
    return with_register(drawn, operation, first, third, one)


def swapped_double(drawn: Drawn, operation: str) -> Case:
    draw = drawn.draw
    at = 8 * draw.between(1, 10) + (draw.between(1, 7) if draw.once_in(8) else 0)
    one = drawn.base(at)
    pairs = [number for number in (0, 4, 6, 8, 10, 14) if not {number, number + 1} & drawn.used]
    first, third = draw.of(pairs), draw.of(pairs)
    word = b"".join(drawn.registers[number].to_bytes(4, "big") for number in (first, first + 1))
    if draw.once_in(2):
        drawn.put(at, word)
    elif draw.once_in(2):
        drawn.put(at, draw.of((word[:4] + drawn.storage[at + 4 : at + 8], drawn.storage[at : at + 4] + word[4:])))
    return with_register(drawn, operation, first, third, one)


FORMS: dict[str, Form] = {"AP": packed, "SP": packed, "ZAP": packed, "CP": packed, "MVO": packed, "MP": product, "DP": product, "SRP": shifted,
                          "ED": edited, "EDMK": edited, "OC": bytes_of, "NC": bytes_of, "MVN": bytes_of, "MVZ": bytes_of, "MVCIN": bytes_of,
                          "XI": immediate, "TS": immediate, "N": word, "O": word, "X": word, "AL": word, "SL": word, "MH": word,
                          "NR": registers, "OR": registers, "LPR": registers, "LNR": registers, "ALR": registers, "SLR": registers,
                          "CLM": masked, "BXLE": branched, "BXH": branched, "SLDL": pair_shifted, "SRDL": pair_shifted, "SLDA": pair_shifted,
                          "MVCL": long_of, "CLCL": long_of, "CS": swapped, "CDS": swapped_double}
WITH_LARGE = {"OC", "NC", "MVN", "MVZ", "MVCIN", "MVCL", "CLCL"}


def case_of(operation: str, number: int) -> Case:
    """The case of a number."""
    drawn = Drawn(Draw(f"{operation} {number}"), LARGE if operation in WITH_LARGE else SMALL)
    drawn.start()
    return FORMS[operation](drawn, operation)
