"""Mapsets, and commands with them, drawn; the program that gives the commands, and the keys that come."""
import random
from dataclasses import dataclass, field

from cics.queues import statement_lines
from tests.stand_in.buffer import Buffer, MapFail, MapField, Refused, Value

WORDS = {0x20: "PROT", 0x30: "ASKIP", 0x00: "UNPROT", 0x10: "NUM"}
DISPLAYS = {0x00: "NORM", 0x08: "BRT", 0x0C: "DRK"}
LETTERS = "ABCDEFGHIJ 0123456789"
PIECE = 100  # bytes of a constant
FILLED = b"\xAA"


@dataclass(frozen=True)
class DrawnMap:
    name: str
    fields: list[MapField]
    controls: list[str]

    def named(self) -> list[MapField]:
        return [one for one in self.fields if one.name]

    def size(self) -> int:
        return 12 + sum(3 + one.length for one in self.named())

    def area(self, values: dict[str, Value]) -> bytes:
        """The symbolic map with these values."""
        parts = [value.length.to_bytes(2, "big",
                                       signed=True) + bytes([value.attribute]) + value.text for value in (values[one.name] for one in self.named())]
        return bytes(12) + b"".join(parts)


@dataclass
class Op:
    """A command: what the program has for it, the key that comes, and what must come of it."""

    of_map: DrawnMap
    words: list[str]
    values: dict[str, Value] = field(default_factory=dict)
    key: str = ""
    resp: int = 0
    area: bytes = b""

    def waits(self) -> bool:
        """Whether it is a RECEIVE MAP, for which a key comes."""
        return self.words[0] == "RECEIVE"


@dataclass
class Drawn:
    """A mapset with commands, the buffer after them, and whether a key came that no keyboard gives."""

    name: str
    maps: list[DrawnMap]
    ops: list[Op]
    buffer: Buffer
    is_refused: bool = False
    shown: list[str] = field(default_factory=list)  # the screen after the last SEND


def drawn_map(draw: random.Random, name: str, letter: str) -> DrawnMap:
    fields, at = [], draw.choice([0, 0, 1, 79, 500])
    for number in range(draw.randint(2, 9)):
        length = draw.choice([1, 2, 5, 9, 20, 79, 160])
        at += draw.choice([0, 0, 1, 7, 40])
        if at + length >= 1920:
            break
        base, display = draw.choice(list(WORDS)), draw.choice([0, 0, 8, 12])
        text = "".join(draw.choice(LETTERS) for _ in range(draw.randint(0, length)))
        initial = text if text and draw.random() < 0.6 else None
        is_numeric = base == 0x10
        is_right = draw.random() < 0.5 if draw.random() < 0.3 else is_numeric
        fields.append(MapField(f"{letter}{number}" if draw.random() < 0.7 else "", at, length, base | display | (draw.random() < 0.2),
                               draw.random() < 0.2, initial, is_right, "0" if is_right else " "))
        at += 1 + length
    return DrawnMap(name, fields, draw.choice([[], ["FREEKB"], ["FREEKB", "FRSET"]]))


def macro(name: str, operation: str, operands: list[str]) -> list[str]:
    """A macro's call, an operand on each line; one that is longer goes on to column 71, and on the next line."""
    lines = [f"{name:<8} {operation} {operands[0]}" + ("," if len(operands) > 1 else "")]
    for at, operand in enumerate(operands[1:], 2):
        text = operand + ("," if at < len(operands) else "")
        lines += [" " * 15 + text[begin : begin + 56] for begin in range(0, len(text), 56)]
    return [f"{line:<71}*" for line in lines[:-1]] + lines[-1:]


def source_of(name: str, maps: list[DrawnMap]) -> list[str]:
    """The mapset's BMS source."""
    lines = macro(name, "DFHMSD", ["TYPE=MAP", "MODE=INOUT", "LANG=ASM", "STORAGE=AUTO", "TIOAPFX=YES"])
    for one in maps:
        lines += macro(one.name, "DFHMDI", ["SIZE=(24,80)", f"CTRL=({','.join(one.controls)})"] if one.controls else ["SIZE=(24,80)"])
        for each in one.fields:
            row, column = divmod(each.position, 80)
            words = [WORDS[each.attribute & 0x30], DISPLAYS[each.attribute & 0x0C], *(["FSET"] if each.attribute & 1 else []),
                     *(["IC"] if each.has_cursor else [])]
            operands = [f"POS=({row + 1},{column + 1})", f"LENGTH={each.length}", f"ATTRB=({','.join(words)})"]
            operands += [f"JUSTIFY={'RIGHT' if each.is_right else 'LEFT'}"] if each.is_right != (each.attribute & 0x30 == 0x10) else []
            if each.initial is not None:
                digits = each.initial.encode("cp037").hex().upper()
                operands.append(f"XINIT={digits}" if len(each.initial) % 3 == 0 else f"INITIAL='{each.initial}'")
            lines += macro(each.name, "DFHMDF", operands)
    return [*lines, "         DFHMSD TYPE=FINAL", "         END"]


def drawn_values(draw: random.Random, of_map: DrawnMap) -> dict[str, Value]:
    found = {}
    for one in of_map.named():
        text = bytes(draw.choice(LETTERS.encode("cp037") + b"\0") for _ in range(one.length)) if draw.random() < 0.6 else bytes(one.length)
        found[one.name] = Value(draw.choice([0, 0, -1, 3]), draw.choice([0, 0, 0xC8, 0xF0, 0x4C, 0xC1, 0x40, 0x61]), text)
    return found


def drawn_send(draw: random.Random, of_map: DrawnMap, buffer: Buffer) -> Op:
    words = ["SEND", draw.choice(["", "", "MAPONLY", "DATAONLY"]), *(word for word in ("ERASE", "ERASEAUP", "FRSET", "FREEKB",
                                                                                       "ALARM") if draw.random() < 0.25)]
    place = draw.randrange(1920) if draw.random() < 0.2 else None
    cursor = ["CURSOR" if place is None else f"CURSOR({place})"] if place is not None or draw.random() < 0.3 else []
    op = Op(of_map, [word for word in [*words, *cursor] if word], drawn_values(draw, of_map))
    options = set(words) | {"CURSOR"} if cursor else set(words)
    if not options & {"FRSET", "FREEKB", "ALARM"}:
        options |= set(of_map.controls)
    buffer.send(of_map.fields, op.values, options, place)
    return op


def drawn_control(draw: random.Random, of_map: DrawnMap, buffer: Buffer) -> Op:
    """A SEND CONTROL."""
    words = [word for word in ("ERASE", "ERASEAUP", "FRSET", "FREEKB") if draw.random() < 0.3] or ["FREEKB"]
    place = draw.randrange(1920) if draw.random() < 0.4 else None
    buffer.control(set(words))
    buffer.cursor = buffer.cursor if place is None else place
    return Op(of_map, ["SEND", "CONTROL", *words, *([f"CURSOR({place})"] if place is not None else [])])


def drawn_receive(draw: random.Random, maps: list[DrawnMap], of_map: DrawnMap, buffer: Buffer) -> tuple[Op, bool]:
    """A RECEIVE MAP; whether its key is one that no keyboard gives."""
    op = Op(of_map, ["RECEIVE"])
    key = draw.choice(["ENTER", "ENTER", "ENTER", "PF3", "PA1", "CLEAR"])
    fields = [one for each in maps for one in each.named()]
    typed = []
    for one in draw.sample(fields, min(len(fields), draw.randint(0, 3))):
        bits = buffer.bits(one.position)
        if bits is not None and not bits & 0x20 or draw.random() < 0.02:
            text = "".join(draw.choice(LETTERS + ";") for _ in range(draw.randint(0, min(one.length, 30))))
            typed.append((one, text))
    text = ";".join(f"{one.name}={value.replace(';', ';;')}" for one, value in typed)
    op.key = f"{key} {text}" if text and key not in ("PA1", "CLEAR") else key
    try:
        values = buffer.receive(of_map.fields, key, [(one.position, value) for one, value in typed])
        op.area = of_map.area(values)[12:]
    except MapFail:
        op.resp = 36
    except Refused:
        return op, True
    return op, False


def drawn(draw: random.Random, number: int, count: int) -> Drawn:
    """A mapset with commands."""
    maps = [drawn_map(draw, "MA", "A"), drawn_map(draw, "MB", "B")][: draw.choice([1, 2])]
    maps = [one for one in maps if one.named()] or [DrawnMap("MA", [MapField("A1", 81, 5, 0, False, None, False, " ")], [])]
    found = Drawn(f"SET{number}", maps, [], Buffer())
    for _ in range(count):
        of_map = draw.choice(maps)
        if draw.random() < 0.6 or not found.ops:
            makes = drawn_control if draw.random() < 0.15 else drawn_send
            found.ops.append(makes(draw, of_map, found.buffer))
            found.shown = found.buffer.shown()
            continue
        op, found.is_refused = drawn_receive(draw, maps, of_map, found.buffer)
        found.ops.append(op)
        if found.is_refused:
            break
    return found


def constants(data: bytes) -> list[str]:
    lines = []
    for at in range(0, len(data), PIECE):
        text = f"         DC    X'{data[at : at + PIECE].hex().upper()}'"
        pieces = [text[:71], *(" " * 15 + text[begin : begin + 56] for begin in range(71, len(text), 56))]
        lines += [f"{piece:<71}X" for piece in pieces[:-1]] + pieces[-1:]
    return lines


def program_of(one: Drawn, name: str) -> list[str]:
    """The program that gives the commands: what RECEIVE MAP leaves goes to a queue, and so does its response."""
    lines = [f"{name:<8} CSECT", "         L     9,=A(CODE)", "         USING CODE,9,10", "         LA    10,2048(,9)", "         LA    10,2048(,10)",
             "         B     CODE", "         LTORG", "CODE     DS    0H", "         EXEC  CICS RECEIVE INTO(AREA) LENGTH(RC) NOHANDLE"]
    data: list[str] = []
    for at, op in enumerate(one.ops):
        size, label = op.of_map.size(), f"D{at}"
        area = op.of_map.area(op.values) if op.values else FILLED * size
        lines += [f"         L     4,=A({label})", *[f"         MVC   AREA+{at}({min(256, size - at)}),{at}(4)" for at in range(0, size, 256)]]
        data += [f"{label:<8} DS    0C", *constants(area)]
        named = f"MAP('{op.of_map.name}') MAPSET('{one.name}')"
        if op.waits():
            lines += statement_lines("", "EXEC", f"CICS RECEIVE {named} INTO(AREA) RESP(RC)")
            lines += statement_lines("", "EXEC", f"CICS WRITEQ TS QUEUE('{name}') FROM(RC) LENGTH({size + 4})")
        else:
            is_control = op.words[1:2] == ["CONTROL"]
            lines += statement_lines("", "EXEC", " ".join(["CICS SEND", *([] if is_control else [named, "FROM(AREA)"]), *op.words[1:]]))
    return [*lines, "         EXEC  CICS RETURN", "         LTORG", *data, "DFHEISTG DSECT", "         DS    0F", "RC       DS    F",
            f"AREA     DS    {max(op.of_map.size() for op in one.ops)}C", "         END"]
