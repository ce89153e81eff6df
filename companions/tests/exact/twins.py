"""Instructions that the region hasn't, each over operands that are known, with its twin: an instruction of the region, of the same length, that
has the same effect on these operands."""
from collections.abc import Callable
from dataclasses import dataclass, field

from tests.exact.drawing import WORD, Draw

AREA = 32  # bytes of each of the fields W1 to W4
PAD, LOW, HIGH = 0x40, 0x41, 0x3F  # the byte W9, and immediate bytes to which it compares low and high
BYTEWISE = "bytewise"  # each byte of the result depends on the bytes at its place alone, so that a shorter length does less of the same


@dataclass(frozen=True)
class Twin:
    """`old` and `native`: an operation and operands. `setup` makes the operands, for both. `worker`: a routine that `native` calls by BALR 2,10.
    `is_code_same`: also the condition code is the same. `hidden`: registers in which the two differ, as by the code in a link."""

    old: str
    native: str
    length: int
    setup: list[str]
    worker: list[str] = field(default_factory=list)
    is_code_same: bool = True
    hidden: frozenset[int] = frozenset()
    traits: frozenset[str] = frozenset()

    def operation(self) -> str:
        return self.old.split()[0]


def put(name: str, data: bytes) -> str:
    return f"         MVC   {name}({len(data)}),=X'{data.hex().upper()}'"


def load(register: int, value: int) -> str:
    return f"         L     {register},=X'{value % WORD:08X}'"


def packed(value: int, length: int) -> bytes:
    return bytes.fromhex(f"{abs(value):0{2 * length - 1}d}{'D' if value < 0 else 'C'}")


def combined(one: bytes, other: bytes) -> bytes:
    """What XC makes the one of, where it is the other."""
    return bytes(left ^ right for left, right in zip(one, other))


# ---- six bytes


def logical(draw: Draw, operation: str) -> Twin:
    length = draw.of((1, 2, 3, 4, 6, 8, 16))
    one, other = draw.bytes(length), draw.bytes(length)
    if draw.once_in(4):
        one, other = (bytes(length), bytes(length)) if operation == "OC" else (one, bytes(length))
    result = bytes(left | right if operation == "OC" else left & right for left, right in zip(one, other))
    second = draw.of(("W2", f"=X'{other.hex().upper()}'"))
    setup = [put("W1", one), put("W2", other), put("W4", combined(one, result))]
    return Twin(f"{operation} W1({length}),{second}", f"XC W1({length}),W4", length=6, setup=setup, traits=frozenset({BYTEWISE}))


def moved(draw: Draw, operation: str) -> Twin:
    length = draw.of((1, 2, 4, 7, 16))
    one, other = draw.bytes(length), draw.bytes(length)
    if operation == "MVCIN":
        result, second = other[::-1], f"W2+{length - 1}" if length > 1 else "W2"
    else:
        mask = 0xF0 if operation == "MVZ" else 0x0F
        result, second = bytes(left & ~mask | right & mask for left, right in zip(one, other)), "W2"
    setup = [put("W1", one), put("W2", other), put("W4", result)]
    return Twin(f"{operation} W1({length}),{second}", f"MVC W1({length}),W4", 6, setup, traits=frozenset({BYTEWISE} if operation != "MVCIN" else ()))


def half_moved(draw: Draw, operation: str) -> Twin:
    length, other = draw.between(2, 8), draw.between(1, 6)
    first, second = draw.bytes(length), draw.bytes(other)
    digits = (second.hex().rjust(2 * length, "0")[-2 * length + 1 :] if other >= length else second.hex().rjust(2 * length - 1, "0")) + first.hex()[-1]
    setup = [put("W1", first), put("W2", second), put("W4", bytes.fromhex(digits[-2 * length :]))]
    return Twin(f"{operation} W1({length}),W2({other})", f"MVC W1({length}),W4", 6, setup)


def by_result(old: str, first: bytes, second: bytes, result: bytes, *, is_less: bool) -> Twin:
    """A packed field that gets a result: a result less than zero has the code that XC has for bytes that aren't all zeros."""
    length = len(first)
    made = combined(first, result) if is_less else result
    setup = [put("W1", first), put("W2", second), put("W4", made)]
    return Twin(old, f"{'XC' if is_less else 'MVC'} W1({length}),W4", 6, setup, is_code_same=is_less)


def summed(draw: Draw, operation: str) -> Twin:
    length, other = draw.between(2, 6), draw.between(1, 4)
    other = min(length, other)
    room = 10 ** (2 * other - 1) // 2
    first, second = draw.between(-room, room), draw.between(1 - room, room - 1)
    if draw.once_in(2) and operation != "ZAP":
        first = -abs(first)
        second = -abs(second) if operation == "AP" else abs(second)
    total = {"AP": first + second, "SP": first - second, "ZAP": second}[operation]
    return by_result(f"{operation} W1({length}),W2({other})", packed(first, length), packed(second, other), packed(total, length), is_less=total < 0)


def compared(draw: Draw, operation: str) -> Twin:
    length, other = draw.between(1, 5), draw.between(1, 5)
    room = 10 ** (2 * min(length, other) - 1)
    first, second = draw.between(1 - room, room - 1), draw.between(1 - room, room - 1)
    if draw.once_in(4):
        second = first
    least = min(length, other)
    one = packed(first, length)[:least]
    changed = [one[0] + (1 if first < second else -1 if first > second else 0)] if least else []
    if changed and not 0 <= changed[0] <= 255:
        return compared(draw, operation)
    both = bytes([*changed, *packed(first, length)[1:]])
    setup = [put("W1", packed(first, length)), put("W2", packed(second, other)), put("W4", both)]
    return Twin(f"{operation} W1({length}),W2({other})", f"CLC W1({length}),W4", 6, setup)


def multiplied(draw: Draw, operation: str) -> Twin:
    length, other = draw.between(5, 8), draw.between(1, 2)
    first, second = draw.between(-9999, 9999), draw.between(1, 10 ** (2 * other - 1) - 1) * draw.of((1, -1))
    if operation == "MP":
        result = packed(first * second, length)
    else:
        sign = -1 if (first < 0) != (second < 0) else 1
        quotient, rest = packed(0, 1), abs(first) % abs(second) * (-1 if first < 0 else 1)
        quotient = signed_packed(abs(first) // abs(second), length - other, is_minus=sign < 0)
        result = quotient + signed_packed(abs(rest), other, is_minus=first < 0)
    setup = [put("W1", packed(first, length)), put("W2", packed(second, other)), put("W4", result)]
    return Twin(f"{operation} W1({length}),W2({other})", f"MVC W1({length}),W4", 6, setup)


def signed_packed(value: int, length: int, *, is_minus: bool) -> bytes:
    """A packed field in which a zero may be minus."""
    return packed(value, length)[:-1] + bytes([packed(value, length)[-1] & 0xF0 | (0x0D if is_minus else 0x0C)])


def shifted_packed(draw: Draw, operation: str) -> Twin:
    value, amount = draw.between(-99999, 99999), draw.of((1, 2, 3, -1, -2))
    round_by = draw.of((0, 5))
    size = abs(value) * 10**amount if amount > 0 else (abs(value) + round_by * 10 ** (-amount - 1)) // 10**-amount
    result = -size if value < 0 else size
    first = packed(value, 6)
    return by_result(f"{operation} W1(6),{amount % 64},{round_by}", first, b"\0", packed(result, 6), is_less=result < 0)


def edited(draw: Draw, operation: str) -> Twin:
    """Of zero, nothing but fill bytes are left, and no register is changed."""
    digits = draw.of((3, 5, 7))
    value = 0 if operation == "EDMK" else draw.of((0, draw.below(10**digits), 7))
    pattern = bytes([PAD, *([0x20] * digits)])
    text = str(value) if value else ""
    result = bytes([PAD] * (digits + 1 - len(text))) + bytes(0xF0 + int(one) for one in text)
    setup = [put("W1", pattern), put("W2", packed(value, (digits + 1) // 2)), put("W4", result)]
    return Twin(f"{operation} W1({digits + 1}),W2", f"MVC W1({digits + 1}),W4", 6, setup, is_code_same=False)


# ---- four bytes


def negative(value: int) -> bool:
    return value >= WORD // 2


def word_result(old: str, first: int, second: bytes, result: int, *, is_exact: bool) -> Twin:
    """A register that gets a result. `is_exact`: its code is that of ICM."""
    setup = [load(4, first), put("W1", second), put("W4", result.to_bytes(4, "big"))]
    return Twin(old, "ICM 4,15,W4" if is_exact else "L 4,W4", 4, setup, is_code_same=is_exact)


def logical_word(draw: Draw, operation: str) -> Twin:
    first, second = draw.below(WORD), draw.below(WORD)
    if operation == "N" and draw.once_in(3):
        second = ~first % WORD
    result = {"N": first & second, "O": first | second, "X": first ^ second}[operation]
    return word_result(f"{operation} 4,W1", first, second.to_bytes(4, "big"), result, is_exact=result == 0 or negative(result))


def logical_sum(draw: Draw, operation: str) -> Twin:
    first, second = draw.below(WORD), draw.below(WORD)
    total = first + second if operation == "AL" else first - second
    code = (1 if total % WORD else 0) + (2 if (total >= WORD if operation == "AL" else total >= 0) else 0)
    result = total % WORD
    is_exact = code == 0 or code == 1 and negative(result)
    return word_result(f"{operation} 4,W1", first, second.to_bytes(4, "big"), result, is_exact=is_exact)


def product_of_half(draw: Draw, operation: str) -> Twin:
    first, second = draw.below(WORD), draw.between(-(2**15), 2**15 - 1)
    signed = first - WORD if negative(first) else first
    setup = [load(4, first), put("W1", (second % 65536).to_bytes(2, "big")), put("W4", (signed * second % WORD).to_bytes(4, "big"))]
    return Twin(f"{operation} 4,W1", "L 4,W4", 4, setup)


def under_mask(draw: Draw, operation: str) -> Twin:
    """CLM of some bytes, and CL of a word that has the same code."""
    mask, value = draw.between(1, 15), draw.between(1, WORD - 2)
    taken = bytes(byte for bit, byte in zip((8, 4, 2, 1), value.to_bytes(4, "big")) if mask & bit)
    other = draw.of((taken, draw.bytes(len(taken))))
    word = value + (1 if taken < other else -1 if taken > other else 0)
    setup = [load(4, value), put("W1", other), put("W4", word.to_bytes(4, "big"))]
    return Twin(f"{operation} 4,{mask},W1", "CL 4,W4", 4, setup)


def swapped(draw: Draw, operation: str) -> Twin:
    held, new = draw.below(WORD // 2) + WORD // 2, draw.below(WORD)
    is_equal = draw.once_in(2)
    first = held if is_equal else held ^ 1
    if operation == "CS":
        setup = [load(4, first), load(5, new), put("W1", held.to_bytes(4, "big"))]
        return Twin("CS 4,5,W1", "ST 5,W1" if is_equal else "ICM 4,15,W1", 4, setup, is_code_same=not is_equal)
    low, other = draw.below(WORD), draw.below(WORD)
    setup = [load(4, first), load(5, low), load(8, new), load(9, other), put("W1", held.to_bytes(4, "big") + low.to_bytes(4, "big"))]
    return Twin("CDS 4,8,W1", "STM 8,9,W1" if is_equal else "LM 4,5,W1", 4, setup, is_code_same=False)


def tested(draw: Draw, operation: str) -> Twin:
    byte = draw.of((0xFF, 0xFF, 0, 0x7F, 0x80))
    return Twin("TS W1", "OI W1,255" if byte == 0xFF else "MVI W1,255", 4, [put("W1", bytes([byte]))], is_code_same=byte == 0xFF)


def exclusive(draw: Draw, operation: str) -> Twin:
    byte, mask = draw.below(256), draw.below(256)
    byte = byte & ~mask if draw.once_in(2) else byte | mask
    return Twin(f"XI W1,{mask}", f"OI W1,{mask}" if byte & mask == 0 else f"NI W1,{255 - mask}", 4, [put("W1", bytes([byte]))])


def pair_shifted(draw: Draw, operation: str) -> Twin:
    amount, value = draw.below(64), draw.below(WORD * WORD)
    setup = [load(4, value // WORD), load(5, value)]
    if operation == "SLDA":
        return Twin("SLDA 4,0", "SRDA 4,0", 4, setup)
    result = value << amount if operation == "SLDL" else value >> amount
    setup.append(put("W4", (result % (WORD * WORD)).to_bytes(8, "big")))
    return Twin(f"{operation} 4,{amount}", "LM 4,5,W4", 4, setup)


def counted(draw: Draw, operation: str) -> Twin:
    """BXH and BXLE that don't branch."""
    if operation == "BXH":
        return Twin("BXH 4,8,SUBR", "BCT 4,SUBR", 4, [load(4, 1), load(8, -1), load(9, 0)])
    return Twin("BXLE 4,8,SUBR", "LA 4,1(,4)", 4, [load(4, draw.between(5, 99)), load(8, 1), load(9, 3)])


def linked(draw: Draw, operation: str) -> Twin:
    if operation == "BASR":
        return Twin("BASR 8,9", "BALR 8,9", 2, ["         LA    9,SUBR"], hidden=frozenset({8, 9}))
    return Twin("BAS 8,SUBR", "BAL 8,SUBR", 4, [], hidden=frozenset({8}))


# ---- two bytes


def logical_registers(draw: Draw, operation: str) -> Twin:
    first, second = draw.below(WORD), draw.below(WORD)
    if operation == "OR":
        second &= ~first
        return Twin("OR 4,5", "XR 4,5", 2, [load(4, first), load(5, second)])
    first = first | 2**31 if draw.once_in(2) else 0
    return Twin("NR 4,5", "LTR 4,4", 2, [load(4, first), load(5, -1)])


def summed_registers(draw: Draw, operation: str) -> Twin:
    if operation == "ALR":
        first, second = draw.of(((draw.between(1, 99), 2**31), (2**31, 2**31 + draw.between(1, 99)), (0, 0)))
        return Twin("ALR 4,5", "AR 4,5", 2, [load(4, first), load(5, second)])
    first = draw.below(99)
    return Twin("SLR 4,5", "SR 4,5", 2, [load(4, first), load(5, first + draw.between(1, 99))])


def signed(draw: Draw, operation: str) -> Twin:
    value = draw.of((0, draw.below(WORD), draw.below(WORD), 2**31))
    is_changed = negative(value) if operation == "LPR" else value != 0 and not negative(value)
    return Twin(f"{operation} 4,5", "LCR 4,5" if is_changed else "LTR 4,5", 2, [load(5, value)])


def long_fields(draw: Draw, operation: str) -> Twin:
    """MVCL and CLCL, and a routine that does the same, or CR of the lengths where there is nothing to do."""
    one, other = (draw.of((0, draw.below(20), draw.between(1, 20))) for _ in range(2))
    first, second = draw.bytes(one), draw.bytes(other)
    if operation == "CLCL" and not draw.once_in(3):
        second = (first + bytes([PAD] * AREA))[:other]
    setup = [put(name, data) for name, data in (("W1", first), ("W2", second)) if data]
    setup += ["         LA    4,W1", "         LA    8,W2", load(5, one), load(9, other if one == 0 and operation == "MVCL" else PAD << 24 | other)]
    if one == 0 and (operation == "MVCL" or other == 0) and draw.once_in(2):
        setup[-1] = load(9, other)
        return Twin(f"{operation} 4,8", "CR 5,9", 2, setup)
    worker, extra = (moved_long if operation == "MVCL" else compared_long)(first, second, 0 if setup[-1] == load(9, other) else PAD)
    return Twin(f"{operation} 4,8", "BALR 2,10", 2, [*setup, *extra, "         LA    10,#WORK"], [*worker, "         BR    2"])


def code_of(number: int) -> str:
    """What gives a code, of W9."""
    return f"         CLI   W9,{(PAD, LOW, HIGH)[number]}"


def after(one: int, length: int, other: int, rest: int) -> tuple[list[str], str]:
    """What gives registers as they are after MVCL or CLCL, by how far the operands were used and what is left of their lengths; and what puts
    the lengths into W3, so that the routine needs no base of the program."""
    left = put("W3", length.to_bytes(4, "big") + rest.to_bytes(4, "big"))
    return [f"         LA    4,W1+{one}", "         L     5,W3", f"         LA    8,W2+{other}", "         L     9,W3+4"], left


def moved_long(first: bytes, second: bytes, padding: int) -> tuple[list[str], list[str]]:
    length, used = len(first), min(len(first), len(second))
    result = (second + bytes([padding] * AREA))[:length]
    move = [f"         MVC   W1({length}),W4"] if length else []
    code = 0 if length == len(second) else 1 if length < len(second) else 2
    registers, left = after(length, 0, used, padding << 24 | len(second) - used)
    return [*move, *registers, code_of(code)], [left, *([put("W4", result)] if length else [])]


def compared_long(first: bytes, second: bytes, padding: int) -> tuple[list[str], list[str]]:
    most = max(len(first), len(second))
    one, other = ((data + bytes([padding] * AREA))[:most] for data in (first, second))
    place = next((at for at in range(most) if one[at] != other[at]), most)
    code = 0 if one == other else 1 if one < other else 2
    used = [min(place, len(data)) for data in (first, second)]
    registers, left = after(used[0], len(first) - used[0], used[1], padding << 24 | len(second) - used[1])
    return [*registers, code_of(code)], [left]


FORMS: dict[str, Callable[[Draw, str], Twin]] = {
    **dict.fromkeys(("OC", "NC"), logical), **dict.fromkeys(("MVZ", "MVN", "MVCIN"), moved), "MVO": half_moved,
    **dict.fromkeys(("AP", "SP", "ZAP"), summed), "CP": compared, **dict.fromkeys(("MP", "DP"), multiplied), "SRP": shifted_packed,
    **dict.fromkeys(("ED", "EDMK"), edited), **dict.fromkeys("NOX", logical_word), **dict.fromkeys(("AL", "SL"), logical_sum), "MH": product_of_half,
    "CLM": under_mask, **dict.fromkeys(("CS", "CDS"), swapped), "TS": tested, "XI": exclusive, **dict.fromkeys(("SLDL", "SRDL", "SLDA"), pair_shifted),
    **dict.fromkeys(("BXH", "BXLE"), counted), **dict.fromkeys(("BAS", "BASR"), linked), **dict.fromkeys(("NR", "OR"), logical_registers),
    **dict.fromkeys(("ALR", "SLR"), summed_registers), **dict.fromkeys(("LPR", "LNR"), signed), **dict.fromkeys(("MVCL", "CLCL"), long_fields)}
LENGTHS = {**dict.fromkeys(FORMS, 4), **dict.fromkeys("OC NC MVZ MVN MVCIN MVO AP SP ZAP CP MP DP SRP ED EDMK".split(), 6),
           **dict.fromkeys("BASR NR OR ALR SLR LPR LNR MVCL CLCL".split(), 2)}


def twin_of(operation: str, draw: Draw) -> Twin:
    return FORMS[operation](draw, operation)
