"""A second assembler, for the checks of this folder: of a source without faults it gives the listing, the disassembly and the
text that are due.

It knows what these sources say and no more, and asks them to be in columns: name in column 1, operation in 10, operand from
16, without remarks. An EXEC statement becomes the written statements before.
"""
import re
from typing import NamedTuple

RR = {"BALR": 0x05, "LCR": 0x13, "XR": 0x17, "LR": 0x18, "AR": 0x1A, "SR": 0x1B}
RX = {"STH": 0x40, "LA": 0x41, "BCT": 0x46, "BC": 0x47, "LH": 0x48, "CH": 0x49, "ST": 0x50, "L": 0x58, "C": 0x59}
SHIFTS = {"SRL": 0x88, "SLL": 0x89}
SI, SS = {"MVI": 0x92, "CLI": 0x95, "OI": 0x96}, {"MVC": 0xD2, "CLC": 0xD5}
BRANCHES = {"B": 15, "BNE": 7, "BE": 8}
ALIGNED = {"F": 4, "A": 4, "V": 4, "H": 2}

# function, and the options in order: bit of option byte 1, name, and whether it has an argument
Option = tuple[int, str, bool]
COMMANDS: dict[str, tuple[int, list[Option]]] = {
    "RECEIVE": (0x0402, [(0x80, "INTO", True), (0x40, "LENGTH", True)]),
    "WRITEQ TS": (0x0A02, [(0x80, "QUEUE", True), (0x40, "FROM", True), (0x20, "LENGTH", True), (0x10, "MAIN", False),
                           (0x04, "NOSUSPEND", False), (0x02, "ITEM", True), (0x01, "REWRITE", False)]),
    "READQ TS": (0x0A04, [(0x80, "QUEUE", True), (0x40, "INTO", True), (0x20, "LENGTH", True), (0x10, "ITEM", True),
                          (0x08, "NEXT", False), (0x04, "SET", True), (0x02, "NUMITEMS", True)]),
    "GETMAIN": (0x0C02, [(0x80, "SET", True), (0x40, "LENGTH", True), (0x20, "INITIMG", True), (0x10, "NOSUSPEND", False)]),
    "LINK": (0x0E02, [(0x80, "PROGRAM", True), (0x40, "COMMAREA", True), (0x20, "LENGTH", True)]),
    "XCTL": (0x0E04, [(0x80, "PROGRAM", True), (0x40, "COMMAREA", True), (0x20, "LENGTH", True)]),
    "RETURN": (0x0E08, [(0x80, "TRANSID", True), (0x40, "COMMAREA", True), (0x20, "LENGTH", True)]),
    "ABEND": (0x0E0C, [(0x80, "ABCODE", True)]),
    "ENQ": (0x1204, [(0x80, "RESOURCE", True), (0x40, "LENGTH", True), (0x20, "NOSUSPEND", False)]),
    "DEQ": (0x1206, [(0x80, "RESOURCE", True), (0x40, "LENGTH", True)]),
    "SUSPEND": (0x1208, []),
    "SEND TEXT": (0x1806, [(0x80, "FROM", True), (0x40, "LENGTH", True), (0x20, "ERASE", False)]),
}
CONDITIONS = {"ERROR": 1, "INVREQ": 16, "NOSPACE": 18, "LENGERR": 22, "ITEMERR": 26, "PGMIDERR": 27, "NOSTG": 42}
CONDITIONS |= {"QIDERR": 44, "ENQBUSY": 55}
HEAD = [("DFHEIPL", "18F"), ("DFHEITP", "F"), ("DFHEICAP", "A")]
EIB = [("EIBTIME", 4), ("EIBDATE", 4), ("EIBTRNID", 4), ("EIBTASKN", 4), ("EIBTRMID", 4), ("", 4), ("EIBCALEN", 2), ("EIBAID", 1)]
EIB += [("EIBFN", 2), ("EIBRCODE", 6), ("", 16), ("EIBRSRCE", 8), ("", 17), ("EIBRESP", 4), ("", 8)]


def line_of(name: str, operation: str, operand: str = "") -> str:
    return f"{name:<8} {operation:<5} {operand}".rstrip()


def continued(name: str, operation: str, operand: str) -> list[str]:
    """The lines of a statement whose operand is as long as it likes."""
    pieces = [operand[at : at + 56] for at in range(0, len(operand), 56)]
    first, *others = [line_of(name, operation, pieces[0]), *(" " * 15 + piece for piece in pieces[1:])]
    lines = [first, *others]
    return [f"{line:<71}X" for line in lines[:-1]] + lines[-1:]


def outside(text: str) -> list[str]:
    """A text cut at commas outside apostrophes and parentheses."""
    parts, depth, is_text = [""], 0, False
    for character in text:
        is_text ^= character == "'"
        depth += 0 if is_text else (character == "(") - (character == ")")
        if character == "," and not is_text and depth == 0:
            parts.append("")
        else:
            parts[-1] += character
    return parts


class Statement:
    """A statement: the number of its first line, all its lines, and its three parts."""

    def __init__(self, number: int, lines: list[str], parts: tuple[str, str, str] | None = None) -> None:
        self.number, self.lines = number, lines
        joined = "".join(f"{line:<72}"[15:71] for line in lines)
        self.name, self.operation, self.operand = parts or (lines[0][:8].strip(), lines[0][9:15].strip(), joined.rstrip())


def made(number: int, name: str, operation: str, operand: str) -> Statement:
    return Statement(number, [line_of(name, operation, operand)[:72]], (name, operation, operand))


def statements(lines: list[str]) -> list[Statement]:
    found, at = list[Statement](), 0
    while at < len(lines):
        after = at + 1
        while len(lines[after - 1]) > 71:
            after += 1
        found.append(Statement(at + 1, lines[at:after]))
        at = after
    return found


def options_of(operand: str) -> tuple[str, list[tuple[str, str]]]:
    """The words of a command, and its options with their arguments."""
    words = re.findall(r"([A-Z]+)(?:\(((?:[^()]|\([^()]*\))*)\))?", operand)[1:]
    name = words[0][0]
    if name in ("WRITEQ", "READQ", "SEND", "HANDLE"):
        name, words = f"{name} {words[1][0]}", words[1:]
    return name, words[1:]


def call_of(operand: str) -> tuple[str, list[str], str | None]:
    """A command's block, in hexadecimal, and its arguments in the order of its list; the register that gets an address."""
    name, options = options_of(operand)
    given = dict(options)
    resp = [given["RESP"]] if "RESP" in given else []
    second = 0x80 * ("NOHANDLE" in given) + 0x40 * ("RESP" in given)
    if name == "HANDLE CONDITION":
        listed = [(CONDITIONS[word], label) for word, label in options if word not in ("NOHANDLE", "RESP")]
        pairs = "".join(f"{number:02X}{0x80 if label else 0:02X}" for number, label in listed)
        return f"0204{len(listed):02X}{second:02X}{pairs}", [label for _, label in listed if label] + resp, None
    function, row = COMMANDS[name]
    assert given.keys() <= {word for _, word, _ in row} | {"NOHANDLE", "RESP"}
    first = sum(bit for bit, word, _ in row if word in given)
    words = [argument_of(word, given[word]) for _, word, has_argument in row if has_argument and word in given]
    return f"{function:04X}{first:02X}{second:02X}", words + resp, given.get("SET")


def argument_of(option: str, written: str) -> str:
    if option == "SET":
        return "DFHEITP"
    if written.startswith("'"):
        return f"=CL{4 if option in ('TRANSID', 'ABCODE') else 8}{written}"
    return written


def expanded(statement: Statement) -> list[Statement]:
    """The statements made of an EXEC statement."""
    block, words, register = call_of(statement.operand)
    lines = [(statement.name, "DS", "0H")] if statement.name else []
    for k, word in enumerate([f"=X'{block}'", *words]):
        lines += [("", "LA", f"0,{word}"), ("", "ST", f"0,DFHEIPL+{4 * k}")]
    lines += [("", "OI", f"DFHEIPL+{4 * len(words)},X'80'"), ("", "LA", "1,DFHEIPL")]
    lines += [("", "L", "15,=V(DFHEI1)"), ("", "BALR", "14,15")]
    lines += [("", "L", f"{register},DFHEITP")] if register else []
    return [made(statement.number, *line) for line in lines]


def translated(source: list[Statement]) -> list[Statement]:
    """The statements of a source that is translated, where it has an EXEC statement."""
    if not any(one.operation == "EXEC" for one in source):
        return source
    has_storage = any((one.name, one.operation) == ("DFHEISTG", "DSECT") for one in source)
    all_of: list[Statement] = []
    for one in source:
        head = [made(one.number, name, "DS", what) for name, what in HEAD]
        if one.operation == "CSECT" and not has_storage:
            all_of += [made(one.number, "DFHEISTG", "DSECT", ""), *head]
        if one.operation == "END":
            all_of.append(made(one.number, "DFHEIBLK", "DSECT", ""))
            all_of += [made(one.number, name, "DS", f"XL{size}") for name, size in EIB]
        all_of += expanded(one) if one.operation == "EXEC" else [one]
        if (one.name, one.operation) == ("DFHEISTG", "DSECT"):
            all_of += head
        if one.operation == "CSECT":
            all_of += [made(one.number, "", "USING", operand) for operand in (f"{one.name},3", "DFHEISTG,13", "DFHEIBLK,11")]
    return all_of


class Item:
    """An item of a DS or DC, or a literal after its sign."""

    def __init__(self, text: str) -> None:
        times, self.kind, modifier, self.value = re.findall(r"^(\d*)([A-Z])(?:L(\d+))?(.*)$", text, re.S)[0]
        self.times, self.modifier = int(times or "1"), int(modifier or "0")
        self.values = outside(self.value[1:-1]) if self.kind in "FH" else [self.value[1:-1]]
        self.align = 1 if modifier else ALIGNED.get(self.kind, 1)
        self.size = self.modifier or self.own_size()

    def own_size(self) -> int:
        if self.kind in ALIGNED:
            return ALIGNED[self.kind] * len(self.values)
        return len(self.constant()) if self.value else 1

    def constant(self, assembly: "Assembly | None" = None, star: int = 0) -> bytes:
        """The bytes of one copy; addresses are those of an assembly."""
        if self.kind in "FH":
            return b"".join(int(value).to_bytes(ALIGNED[self.kind], "big", signed=True) for value in self.values)
        if self.kind == "C":
            bytes_of = self.values[0].replace("''", "'").replace("&&", "&").encode("cp037")
            return bytes_of[: self.modifier or len(bytes_of)].ljust(self.modifier, b"\x40")
        if self.kind == "X":
            digits = self.values[0]
            return int(digits, 16).to_bytes(self.modifier or (len(digits) + 1) // 2, "big")
        worth = 0x800 if self.kind == "V" or assembly is None else assembly.worth(self.values[0], star)[1]
        return (worth % (1 << 8 * self.size)).to_bytes(self.size, "big")


class Placed(NamedTuple):
    """A literal of a pool: its place, and that of the first instruction that used it."""

    at: int
    item: Item
    used: int


class Assembly:
    """What is made of a source's lines: `listing`, `disassembly`, `text`, `relocated` (the places of relocated words) and
    `symbols` (section and offset of each)."""

    def __init__(self, lines: list[str]) -> None:
        self.symbols: dict[str, tuple[str, int]] = {}
        self.lengths, self.sections, self.pool = dict[str, int](), dict[str, int](), dict[str, int]()
        self.places, self.pools = list[int](), list[dict[str, Placed]]()
        self.number, self.control = 0, ""
        self.statements = translated(statements(lines))
        self.first_pass()
        self.bases: dict[int, tuple[str | None, int]] = {}
        self.listing, self.relocated = list[str](), list[int]()
        self.pieces: list[tuple[int, bytes, str]] = []
        self.second_pass()
        self.pieces.sort(key=lambda piece: piece[0])
        self.disassembly = [line for _, _, line in self.pieces]
        text = bytearray(self.sections[self.control])
        for at, data, _ in self.pieces:
            text[at : at + len(data)] = data
        self.text = bytes(text)

    def loaded(self, start: int) -> bytes:
        """The text as it is in storage from its load address on."""
        text = bytearray(self.text)
        for at in self.relocated:
            word = int.from_bytes(text[at : at + 4], "big") + start
            text[at : at + 4] = (word % (1 << 32)).to_bytes(4, "big")
        return bytes(text)

    # the first pass

    def first_pass(self) -> None:
        section = ""
        for one in self.statements:
            if one.operation in ("CSECT", "DSECT"):
                section = one.name
                self.control = section if one.operation == "CSECT" else self.control
                self.sections.setdefault(section, 0)
                self.symbols[section] = (section, 0)
                self.places.append(0)
                continue
            if one.operation in ("LTORG", "END"):
                self.symbols[one.name] = (self.control, self.place_pool())
                self.places.append(0)
                continue
            at, after, attribute = self.extent(one, self.sections[section])
            self.places.append(at)
            if one.name:
                self.symbols[one.name], self.lengths[one.name] = (section, at), attribute
            self.sections[section] = after

    def extent(self, one: Statement, at: int) -> tuple[int, int, int]:
        """Where a statement begins and ends, and its length attribute."""
        if one.operation == "USING":
            return at, at, 1
        if one.operation in ("DS", "DC"):
            items = [Item(text) for text in outside(one.operand)]
            begin, at = at + -at % items[0].align, at
            for item in items:
                at += -at % item.align + item.times * item.size
            return begin, at, items[0].size
        at += at % 2
        for operand in outside(one.operand):
            if operand.startswith("="):
                self.pool.setdefault(operand, at)
        return at, at + self.size_of(one.operation), self.size_of(one.operation)

    def size_of(self, operation: str) -> int:
        return 2 if operation in RR or operation == "BR" else 6 if operation in SS else 4

    def place_pool(self) -> int:
        """Places the literals used since the last pool, and gives its place."""
        start, placed = self.sections[self.control], dict[str, Placed]()
        start += -start % 8 if self.pool else 0
        at = start
        items = {literal: Item(literal[1:]) for literal in self.pool}
        size = {literal: item.times * item.size for literal, item in items.items()}
        for unit in (8, 4, 2, 1):
            for literal, used in self.pool.items():
                if max(n for n in (8, 4, 2, 1) if size[literal] % n == 0) == unit:
                    placed[literal] = Placed(at, items[literal], used)
                    at += size[literal]
        self.sections[self.control] = at
        self.pools.append(placed)
        self.pool = {}
        return start

    # the second pass

    def second_pass(self) -> None:
        section = ""
        for one, at in zip(self.statements, self.places):
            section = one.name if one.operation in ("CSECT", "DSECT") else section
            if one.operation == "USING":
                self.use(*outside(one.operand))
            if one.operation in ("LTORG", "END"):
                self.put_pool()
            if one.operation in ("CSECT", "DSECT", "USING", "LTORG", "END"):
                self.list_line("", b"", one)
            elif section != self.control:
                self.list_line(f"{at:06X}", b"", one)
            elif one.operation in ("DS", "DC"):
                self.items(one, at)
            else:
                data, line = self.instruction(one, at)
                self.pieces.append((at, data, line))
                self.list_line(f"{at:06X}", data, one)

    def list_line(self, offset: str, data: bytes, one: Statement) -> None:
        for k, line in enumerate(one.lines):
            place = f"{offset if k == 0 else '':6} {data[:8].hex().upper() if k == 0 else '':16}"
            self.listing.append(f"{place} {one.number + k:05} {line[:72].rstrip()}")

    def use(self, base: str, *registers: str) -> None:
        section, at = self.worth(base, 0)
        for k, register in enumerate(registers):
            self.bases[int(register)] = (section, at + 4096 * k)

    def put_pool(self) -> None:
        for at, item, used in self.pools[self.number].values():
            self.put_item(at, item, used)
        self.number += 1

    def put_item(self, at: int, item: "Item", star: int) -> bytes:
        """Puts an item's copies at a place, and gives their bytes."""
        data = item.constant(self, star) * item.times
        if data:
            self.pieces.append((at, data, f"DC X'{data.hex().upper()}'"))
        if item.kind == "A" and self.worth(item.values[0], star)[0]:
            self.relocated += [at + 4 * k for k in range(item.times)]
        return data

    def items(self, one: Statement, begin: int) -> None:
        data, at = b"", begin
        for text in outside(one.operand):
            item = Item(text)
            at += -at % item.align
            if one.operation == "DC":
                data = data.ljust(at - begin, b"\0") + self.put_item(at, item, at)
            elif item.times * item.size:
                self.pieces.append((at, bytes(item.times * item.size), f"DS XL{item.times * item.size}"))
            at += item.times * item.size
        self.list_line(f"{begin:06X}", data, one)

    def worth(self, text: str, star: int) -> tuple[str | None, int]:
        """The section, None of a number, and the value of an expression."""
        section: str | None = None
        total, sign = 0, 1
        for part in re.findall(r"[+-]|X'[0-9A-F]+'|\*|[A-Z@#$0-9]+", text):
            if part in "+-":
                sign = 1 if part == "+" else -1
                continue
            if part == "*":
                section, value = self.control, star
            elif part.startswith("X'"):
                value = int(part[2:-1], 16)
            elif part.isdigit():
                value = int(part)
            else:
                section, value = self.symbols[part]
            total += sign * value
        return section, total

    def implied(self, section: str, at: int) -> tuple[int, int]:
        """The base and the displacement of a place."""
        far = [(at - start, -register) for register, (of, start) in self.bases.items() if of == section]
        displacement, register = min(one for one in far if 0 <= one[0] <= 4095)
        return -register, displacement

    def address(self, text: str, star: int) -> tuple[int, int, list[int]]:
        """The base, the displacement and the parts in parentheses of a storage operand."""
        if text.startswith("="):
            return *self.implied(self.control, self.pools[self.number][text].at), []
        expression, inside = re.findall(r"^([^(]*)(?:\((.*)\))?$", text)[0]
        parts = [int(part or "0") for part in inside.split(",")] if inside else []
        section, value = self.worth(expression, star)
        return (0, value, parts) if section is None else (*self.implied(section, value), parts)

    def attribute(self, operand: str) -> int:
        return self.lengths.get(re.findall(r"[A-Z@#$0-9]+", operand)[0], 1)

    def instruction(self, one: Statement, at: int) -> tuple[bytes, str]:
        """An instruction's bytes, and its line of the disassembly."""
        name, operands = one.operation, outside(one.operand)
        if name in BRANCHES:
            name, operands = "BC", [str(BRANCHES[name]), *operands]
        if name == "BR":
            return bytes([0x07, 0xF0 + int(operands[0])]), f"BCR 15,{operands[0]}"
        if name in RR:
            return bytes([RR[name], 16 * int(operands[0]) + int(operands[1])]), f"{name} {operands[0]},{operands[1]}"
        if name in SI:
            b, d, parts = self.address(operands[0], at)
            i, b = self.worth(operands[1], 0)[1], parts[0] if parts else b
            return bytes([SI[name], i, 16 * b + (d >> 8), d & 255]), f"{name} {d}({b}),{i}"
        return self.copying(name, operands, at) if name in SS else self.addressing(name, operands, at)

    def addressing(self, name: str, operands: list[str], at: int) -> tuple[bytes, str]:
        b, d, parts = self.address(operands[-1], at)
        r, x = int(operands[0]), 0
        if name in RX:
            if len(parts) == 2:
                x, b = parts
            elif parts:
                x = parts[0]
            return bytes([RX[name], 16 * r + x, 16 * b + (d >> 8), d & 255]), f"{name} {r},{d}({x},{b})"
        b = parts[0] if parts else b
        return bytes([SHIFTS[name], 16 * r, 16 * b + (d >> 8), d & 255]), f"{name} {r},{d}({b})"

    def copying(self, name: str, operands: list[str], at: int) -> tuple[bytes, str]:
        (b1, d1, first), (b2, d2, second) = (self.address(operand, at) for operand in operands)
        length = first[0] if first else self.attribute(operands[0])
        b1, b2 = first[1] if len(first) == 2 else b1, second[0] if second else b2
        data = bytes([SS[name], length - 1, 16 * b1 + (d1 >> 8), d1 & 255, 16 * b2 + (d2 >> 8), d2 & 255])
        return data, f"{name} {d1}({length},{b1}),{d2}({b2})"
