"""Drawn constants in the old form, and drawn overlays by ORG: their offsets, bytes and length attributes by a second reading of the assembler's
manual, which is written here, against those that the program gives what cics-adapt makes of them."""
import random
import re
from collections.abc import Callable
from dataclasses import dataclass, field

from cics.adapting import adapted
from cics.assembler_files import encoded
from cics.child import run
from cics.queues import statement_lines
from cics.sources import SourceText
from cics.texts import cut
from tests.case import CICSLOOK, TestCase
from tests.looks import Place, symbols_of

SOURCES, BASE = 100, 0x10000  # how many are drawn, and where a region's first program is
ALIGNED, IMPLIED = {"F": 4, "H": 2, "A": 4, "Y": 2, "D": 8}, {"F": 4, "H": 2, "A": 4, "Y": 2, "D": 8, "C": 1, "X": 1}
ITEM = re.compile(r"(?P<duplication>\d+|\(.*?\)(?=[A-Z]))?(?P<kind>[A-Z])(?:L(?P<modifier>\d+|\([^)]*\)))?(?P<value>['(].*)?")
TOKEN = re.compile(r"L'[A-Z0-9]+|[XBC]'[^']*'|[A-Z][A-Z0-9]*|\d+|.")


@dataclass
class Assembled:
    """What the manual makes of a source: its bytes, and each name's value and length attribute."""

    text: bytearray = field(default_factory=bytearray)
    values: dict[str, int] = field(default_factory=dict)
    lengths: dict[str, int] = field(default_factory=dict)

    def align(self, unit: int) -> None:
        self.text += bytes(-len(self.text) % unit)

    def expression(self, text: str, here: int) -> int:
        """An expression's value: products before sums, each from the left."""
        return Summing(TOKEN.findall(text), self, here).sum()


def truncated(dividend: int, divisor: int) -> int:
    """A quotient without its fraction; 0 of a division by 0."""
    return dividend // divisor if dividend * divisor > 0 else -(-dividend // divisor) if divisor else 0


class Summing:
    """Works an expression out, token by token."""

    def __init__(self, tokens: list[str], known: Assembled, here: int) -> None:
        self.tokens, self.known, self.here = tokens, known, here

    def sum(self) -> int:
        found = self.product()
        while self.tokens and self.tokens[0] in "+-":
            sign = self.tokens.pop(0)
            found += self.product() if sign == "+" else -self.product()
        return found

    def product(self) -> int:
        found = self.term()
        while self.tokens and self.tokens[0] in "*/":
            operator, other = self.tokens.pop(0), self.term()
            found = found * other if operator == "*" else truncated(found, other)
        return found

    def term(self) -> int:
        token = self.tokens.pop(0)
        if token == "(":
            found = self.sum()
            self.tokens.pop(0)
            return found
        if token == "*":
            return self.here
        if token.isdigit():
            return int(token)
        if token[1:2] == "'" and token[0] in "XBC":
            inside = token[2:-1]
            return inside.encode("cp037")[0] if token[0] == "C" else int(inside, 16 if token[0] == "X" else 2)
        return self.known.lengths[token[2:]] if token.startswith("L'") else self.known.values[token]


def in_bytes(kind: str, value: str, length: int | None) -> bytes:
    """A value as bytes: characters are filled on the right, all else on the left."""
    if kind == "C":
        code = value.replace("''", "'").replace("&&", "&").encode("cp037")
        return code if length is None else code[:length].ljust(length, b"\x40")
    if kind == "P":
        digits = value.strip("+-")
        code = bytes.fromhex(("0" * (len(digits) % 2 == 0)) + digits + ("D" if value[0] == "-" else "C"))
    elif kind == "X":
        code = bytes.fromhex("0" * (len(value) % 2) + value)
    elif kind == "B":
        code = int(value, 2).to_bytes((len(value) + 7) // 8, "big")
    else:
        size = IMPLIED[kind] if length is None else length
        return (int(value) % (1 << 8 * size)).to_bytes(size, "big")
    return code if length is None else code[-length:].rjust(length, b"\0")


def put_item(text: str, made: Assembled, *, is_ds: bool) -> int:
    """Puts an item; returns the length of its first value."""
    item = ITEM.fullmatch(text)
    assert item
    kind, given = item["kind"], item["modifier"]
    if not given:
        made.align(ALIGNED.get(kind, 1))
    length = made.expression(given, BASE + len(made.text)) if given else None
    copies = made.expression(item["duplication"], BASE + len(made.text)) if item["duplication"] else 1
    values = values_of(kind, item["value"])
    first = length if length is not None else IMPLIED[kind] if kind in ALIGNED or not item["value"] else len(in_bytes(kind, values[0], None))
    for value in values * copies:
        if kind in "AY" and value:
            value = str(made.expression(value, BASE + len(made.text)))
        code = in_bytes(kind, value, length) if value else bytes(first)
        made.text += bytes(len(code)) if is_ds else code
    return first


def values_of(kind: str, value: str | None) -> list[str]:
    if value is None:
        return [""]
    return cut(value[1:-1]) if kind in "AY" else [value[1:-1]] if kind == "C" else value[1:-1].split(",")


def assembled(statements: list[tuple[str, str, str]]) -> Assembled:
    made = Assembled(values={"P": BASE}, lengths={"P": 1})
    for name, operation, operand in statements:
        if operation == "EQU":
            expression, _, length = operand.partition(",")
            made.values[name] = made.expression(expression, BASE + len(made.text))
            made.lengths[name] = made.expression(length, BASE + len(made.text)) if length else made.lengths.get(expression, 1)
            continue
        for at, text in enumerate(cut(operand)):
            item = ITEM.fullmatch(text)
            if at == 0 and item and not item["modifier"]:
                made.align(ALIGNED.get(item["kind"], 1))
            begin = len(made.text)
            if at == 0:
                made.values[name] = BASE + begin
            first = put_item(text, made, is_ds=operation == "DS")
            if at == 0:
                made.lengths[name] = first
    return made


# ---- what is drawn


class Drawn:
    """Draws statements; `names` are those that have been defined."""

    def __init__(self, seed: int) -> None:
        self.draw, self.names = random.Random(f"constants {seed}"), list[str]()

    def number(self) -> str:
        return self.draw.choice(["0", "1", "2", "3", "5", "8", "16", "X'10'", "C'A'", "B'101'"])

    def difference(self) -> str:
        return f"{self.draw.choice(self.names)}-{self.draw.choice(self.names)}" if self.names else self.number()

    def expression(self, depth: int = 0) -> str:
        """An absolute expression."""
        kind = self.draw.randrange(6 if depth < 3 else 2)
        if kind < 2 or not self.names:
            return self.number()
        if kind == 2:
            return f"L'{self.draw.choice(self.names)}"
        inside = f"{self.expression(depth + 1)}{self.draw.choice('+-*/')}{self.expression(depth + 1)}"
        return inside if kind == 3 else f"({inside})" if kind == 4 else f"({self.difference()}){self.draw.choice('*/')}{self.number()}"

    def several(self, given: list[str]) -> str:
        return ",".join(self.draw.choice(given) for _ in range(self.draw.choice([1, 1, 2, 3])))

    def item(self) -> str:
        kind, duplication = self.draw.choice("CXBFHPAAYY"), self.draw.choice(["", "", "", "2", "(1+1)", "(2*3-4)", "0"])
        modifier = self.draw.choice(["", "", "L3", "L(2*2)"])
        if kind == "C":
            return f"{duplication}C{modifier}'{self.draw.choice(['A', 'AB C', chr(39) * 2, '&&X'])}'"
        if kind in "XBFHP":
            given = {"X": ["1", "02", "ABC"], "B": ["1", "10000001", "000000001"]}.get(kind, ["1", "-2", "+30", "1234"])
            return f"{duplication}{kind}{'' if kind in 'FH' else modifier}'{self.several(given)}'"
        places = [self.draw.choice(self.names), f"*-{self.names[0]}", "*+4"] if kind == "A" and self.names else []
        given = [self.expression(), self.difference(), *places]
        return f"{duplication}{kind}({self.several(given)})"

    def statements(self) -> list[tuple[str, str, str]]:
        found = []
        for at in range(self.draw.randrange(4, 12)):
            kind, name = self.draw.randrange(9), f"T{at}"
            if kind == 8:
                tables = [f"4AL1(*-{name})", f"(2*3)AL2(*-{name}+1)", f"3Y(*-{name})", f"2A(*-{name},{name}-*)", f"2AL1(*-{name},7)"]
                found.append((name, "DC", self.draw.choice(tables)))
            elif kind < 5:
                found.append((name, "DC", ",".join(self.item() for _ in range(self.draw.choice([1, 1, 2, 3])))))
            elif kind < 7 or not self.names:
                found.append((name, "DS", self.draw.choice(["F", "CL8", "0F", "(2)CL(2+1)", "Y", "2Y", "D", "3XL2", "0CL8,CL4"])))
            else:
                found.append((name, "EQU", f"{self.draw.choice(self.names)},{self.draw.choice(['3', '2*2'])}"))
            self.names.append(name)
        return found


def failure_of(seed: int) -> tuple[bool, str | None]:
    """Whether a drawn source is one of which nothing is left, and which is accepted; and what is wrong then."""
    statements = Drawn(seed).statements()
    old = ["P        CSECT", *(line for one in statements for line in statement_lines(*one)), "         END"]
    result = adapted(SourceText(old), "OLD.asm", [])
    if result.log.has_left():
        return False, None
    due = assembled(statements)
    looks = [f"STORAGE {BASE:06X} {len(due.text)}"] if due.text else []
    ended = run([CICSLOOK], encoded(["SOURCE P", *result.lines(), "/*", *looks]))
    if not ended.is_well():
        return False, None
    text = "".join(line[10:45].replace(" ", "") for line in ended.lines() if line.startswith("> 0"))
    symbols = symbols_of(result.lines())
    wrong = [name for name, _, _ in statements if symbols[name].offset != due.values[name] - BASE]
    wrong += [name for name, operation, _ in statements if operation != "EQU" and symbols[name].length != due.lengths[name]]
    if text == due.text.hex().upper() and not wrong:
        return True, None
    return True, "\n".join([f"the source drawn by {seed}: {text}, where {due.text.hex().upper()} is due; {wrong} differ", *old, *result.lines()])


# ---- overlays


@dataclass(frozen=True)
class Field:
    """A field: its length attribute, its alignment, and how many bytes it takes."""

    operand: str
    length: int
    unit: int
    size: int


FIELDS = [Field("CL5", 5, 1, 5), Field("F", 4, 4, 4), Field("3H", 2, 2, 6), Field("XL2", 2, 1, 2), Field("0CL4", 4, 1, 0), Field("D", 8, 8, 8),
          Field("CL3,CL2", 3, 1, 5), Field("Y", 2, 2, 2), Field("2CL7", 7, 1, 14), Field("0D", 8, 8, 0), Field("C", 1, 1, 1)]


def overlay_of(seed: int) -> tuple[list[str], dict[str, Place]]:
    """A section in which ORG goes back over fields and, at last, on after all; and each name's offset and length attribute."""
    draw = random.Random(f"overlay {seed}")
    lines, places, at, highest = list[str](), dict[str, Place](), 0, 0
    for group in range(draw.randrange(1, 5)):
        if group:
            target = draw.choice([field for field in places if field.startswith("F")])
            more = draw.randrange(3)
            lines += statement_lines("", "ORG", f"{target}+{more}" if more else target)
            at = places[target].offset + more
            highest = max(highest, at)
        for _ in range(draw.randrange(1, 5)):
            name, one = f"F{len(places)}", draw.choice(FIELDS)
            at += -at % one.unit
            places[name] = Place(at, one.length)
            at += one.size
            highest = max(highest, at)
            lines += statement_lines(name, "DS", one.operand)
            if draw.random() < 0.2:
                of = draw.choice([field for field in places if field.startswith("F")])
                lines += statement_lines(f"E{len(places)}", "EQU", f"*-{of}")
                places[f"E{len(places)}"] = Place((at - places[of].offset) % 2**32, 1)
    lines += [*statement_lines("", "ORG", ""), *statement_lines("LAST", "DS", "C")]
    places["LAST"] = Place(highest, 1)
    return lines, places


def failure_of_overlay(seed: int) -> tuple[bool, str | None]:
    lines, due = overlay_of(seed)
    result = adapted(SourceText(["P        CSECT", "         BR    14", "D        DSECT", *lines, "         END"]), "OLD.asm", [])
    if result.log.has_left():
        return False, None
    symbols = symbols_of(result.lines())
    wrong = [name for name, place in due.items() if symbols[name] != place]
    return True, "\n".join([f"the overlay drawn by {seed}: {wrong} differ", *lines, *result.lines()]) if wrong else None


class ConstantsTest(TestCase):
    def drawn(self, failure_by: Callable[[int], tuple[bool, str | None]]) -> None:
        results = [failure_by(seed) for seed in range(SOURCES)]
        self.none_of([failure for _, failure in results if failure])
        self.assertGreaterEqual(sum(is_tried for is_tried, _ in results), SOURCES // 4)

    def test_constants(self) -> None:
        self.drawn(failure_of)

    def test_overlays(self) -> None:
        self.drawn(failure_of_overlay)
