"""A second reader of mapsets, by the manual's page alone: the maps with their fields, or the lines at fault."""
import re
from collections.abc import Iterator
from dataclasses import dataclass, field

from tests.stand_in.second_data import CHARACTERS

OPERAND = re.compile(r"(?:[^ ']|'[^']*(?:'|\Z))*")
PART = re.compile(r"(?:[^,'()]|'[^']*'|\((?:[^'()]|'[^']*'|\([^()]*\))*\))*")
NUMBER_OF_LINE = re.compile(r"[A-Z0-9@#$]{0,4}[0-9]{4,8}")
NAME = re.compile(r"[A-Z@#$][A-Z0-9@#$]{0,6}")
COLORS = "DEFAULT BLUE RED PINK GREEN TURQUOISE YELLOW NEUTRAL"
CONTROLS = "PRINT L40 L64 L80 HONEOM FREEKB ALARM FRSET"
ONE_OF = {"TYPE": "MAP DSECT &SYSPARM FINAL", "MODE": "IN OUT INOUT", "LANG": "ASM COBOL COBOL2 PLI C RPG", "STORAGE": "AUTO", "TIOAPFX": "YES NO",
          "COLOR": COLORS, "TERM": "3270 3270-2 ALL"}
SOME_OF = {"CTRL": CONTROLS, "DSATTS": "COLOR HILIGHT OUTLINE PS SOSI TRANSP VALIDN", "ATTRB": "ASKIP PROT UNPROT NUM BRT NORM DRK DET IC FSET",
           "JUSTIFY": "LEFT RIGHT BLANK ZERO"}
NOT_BOTH = ["ASKIP PROT UNPROT", "BRT NORM DRK", "LEFT RIGHT", "BLANK ZERO", "L40 L64 L80 HONEOM"]
KNOWN = {"DFHMSD": {"TYPE", "MODE", "LANG", "STORAGE", "TIOAPFX", "COLOR", "TERM", "CTRL", "DSATTS"}, "DFHMDI": {"SIZE", "LINE", "COLUMN", "CTRL", "COLOR"},
         "DFHMDF": {"POS", "LENGTH", "ATTRB", "INITIAL", "XINIT", "JUSTIFY", "OCCURS", "GRPNAME", "COLOR"}}


class Wrong(Exception):
    """A statement isn't what the page says."""


@dataclass(frozen=True)
class Statement:
    """A statement with the lines that it has, from 1, and those of them that are at fault."""

    lines: range
    name: str
    operation: str
    operand: str
    wrong: set[int]


def capitals(text: str) -> str:
    """A text in capitals, but between apostrophes as it is."""
    parts = text.split("'")
    return "'".join(part if at % 2 else re.sub("[a-z]", lambda found: found[0].upper(), part) for at, part in enumerate(parts))


def is_comment(line: str) -> bool:
    return line[:1] == "*" or line[:2] == ".*" or line[:72].strip() == ""


def is_going_on(lines: list[str], at: int) -> bool:
    return at < len(lines) and not is_comment(lines[at]) and lines[at][:15].strip() == "" and lines[at][15:71].strip() != ""


def statement_at(lines: list[str], at: int) -> Statement:
    """The statement that begins on a line, from 0."""
    first, wrong, text, is_over = at, set(), "", False
    head = re.match(r"(\S*)( *)(\S*)( *)", lines[at][:71])
    assert head is not None
    begin = head.end()
    while True:
        line = lines[at].ljust(72)
        if not is_over:
            found = OPERAND.match(text + line[begin:71])
            assert found is not None
            is_over = found.end() < len(text + line[begin:71]) and not found[0].endswith(",")
            text = found[0]
        is_text = text.count("'") % 2 == 1
        beyond, goes_on = line[72:].strip(), is_going_on(lines, at + 1)
        is_marked = line[71] != " "
        is_cut = (line[70] != " " or is_text) and beyond and not NUMBER_OF_LINE.fullmatch(beyond)
        if len(line.rstrip()) > 80 or is_marked and (is_cut or not goes_on) or not is_marked and (is_text or text.endswith(",")):
            wrong.add(at + 1)
        elif not is_marked:
            goes_on = False
        if not goes_on:
            return Statement(range(first + 1, at + 2), capitals(head[1]), capitals(head[3]), capitals(text), wrong)
        at, begin = at + 1, 15
        if is_over and "=" in lines[at][15:71] or not is_over and not is_text and lines[at][15] == " ":
            wrong.add(at + 1)
            begin += len(lines[at][15:]) - len(lines[at][15:].lstrip())


def statements_in(lines: list[str]) -> Iterator[Statement]:
    at = 0
    while at < len(lines):
        if is_comment(lines[at]):
            at += 1
            continue
        one = statement_at(lines, at)
        yield one
        at = one.lines.stop - 1


def operands_of(text: str) -> dict[str, str]:
    """The operands of a statement by their names."""
    found: dict[str, str] = {}
    at = 0
    while text:
        one = PART.match(text, at)
        assert one is not None
        key, equals, value = one[0].partition("=")
        if not equals or not key or key in found:
            raise Wrong("operand")
        found[key], at = value, one.end() + 1
        if one.end() == len(text):
            break
        if text[one.end()] != ",":
            raise Wrong("parenthesis")
    return found


def words_of(value: str) -> list[str]:
    return (value[1:-1] if value[:1] == "(" and value[-1:] == ")" else value).split(",")


def number(text: str, least: int, most: int) -> int:
    if not re.fullmatch("[0-9]{1,5}", text) or not least <= int(text) <= most:
        raise Wrong("number")
    return int(text)


def pair(text: str, first: int, second: int) -> tuple[int, int]:
    found = re.fullmatch(r"\(([0-9]+),([0-9]+)\)", text)
    if not found:
        raise Wrong("pair")
    return number(found[1], 1, first), number(found[2], 1, second)


def text_of(given: dict[str, str]) -> str | None:
    """What stands in a field at first: characters, or hexadecimal digits after an X."""
    if {"XINIT", "INITIAL"} <= {*given}:
        raise Wrong("both")
    if "XINIT" in given:
        found = re.fullmatch("'?((?:[0-9A-Fa-f][0-9A-Fa-f])+)'?", given["XINIT"])
        if not found:
            raise Wrong("digits")
        return f"X{found[1].upper()}"
    if "INITIAL" not in given:
        return None
    found = re.fullmatch("'((?:[^'&]|''|&&)+)'", given["INITIAL"])
    if not found or any(one not in CHARACTERS for one in found[1]):
        raise Wrong("text")
    return "C" + found[1].replace("''", "'").replace("&&", "&")


@dataclass
class OneMap:
    name: str
    line: int
    column: int
    rows: int
    columns: int
    colour: str
    fields: list[list[object]] = field(default_factory=list)  # name, place, length, attribute, text, occurrences, colour, parts
    taken: set[int] = field(default_factory=set)


@dataclass
class Reader:
    """What is read so far."""

    given: dict[str, str] = field(default_factory=dict)
    maps: list[OneMap] = field(default_factory=list)
    names: set[str] = field(default_factory=set)
    has_set: bool = False
    has_final: bool = False
    extended: str = ""

    def take_names(self, *names: str) -> None:
        if self.names & {*names}:
            raise Wrong("names")
        self.names |= {*names}

    def look(self, operation: str, given: dict[str, str]) -> None:
        for key, value in given.items():
            words = words_of(value)
            if key not in KNOWN[operation] or key in ONE_OF and (len(words) != 1 or words[0] not in ONE_OF[key].split()):
                raise Wrong(key)
            if key in SOME_OF and (not {*words} <= {*SOME_OF[key].split()} or any(len({*words} & {*some.split()}) > 1 for some in NOT_BOTH)):
                raise Wrong(key)
            if key in SOME_OF and any(words.count(one) > 1 and any(one in some.split() for some in NOT_BOTH) for one in words):
                raise Wrong(key)

    def take(self, one: Statement) -> None:
        if one.operation not in KNOWN:
            if one.operation not in ("PRINT", "TITLE", "EJECT", "SPACE"):
                raise Wrong("operation")
            return
        if self.has_final:
            raise Wrong("final")
        given = operands_of(one.operand)
        self.look(one.operation, given)
        {"DFHMSD": self.take_set, "DFHMDI": self.take_map, "DFHMDF": self.take_field}[one.operation](one.name, given)

    def take_set(self, name: str, given: dict[str, str]) -> None:
        if words_of(given.get("TYPE", "")) == ["FINAL"]:
            self.has_final = True
            if not self.has_set:
                raise Wrong("no set")
            return
        if self.has_set or "TYPE" not in given or not NAME.fullmatch(name):
            raise Wrong("set")
        self.has_set, self.given = True, given
        self.extended = "".join(letter for word, letter in [("COLOR", "C"), ("PS", "P"), ("HILIGHT", "H"), ("VALIDN", "V")]
                                if word in words_of(given.get("DSATTS", "")))

    def take_map(self, name: str, given: dict[str, str]) -> None:
        if not self.has_set or not NAME.fullmatch(name):
            raise Wrong("map")
        rows, columns = pair(given.get("SIZE", "(24,80)"), 24, 80)
        line, column = number(given.get("LINE", "1"), 1, 25 - rows), number(given.get("COLUMN", "1"), 1, 81 - columns)
        self.take_names(*(name + letter for letter in "SIOEL"))
        self.maps.append(OneMap(name, line, column, rows, columns, words_of(given.get("COLOR", self.given.get("COLOR", "")))[0]))

    def place_of(self, given: dict[str, str], here: OneMap) -> int:
        position = given.get("POS", "")
        if position[:1] == "(":
            row, column = pair(position, here.rows, here.columns)
        elif here.columns == 80:
            row, column = (part + 1 for part in divmod(number(position, 0, 80 * here.rows - 1), 80))
        else:
            raise Wrong("position")
        return 80 * (row + here.line - 2) + column + here.column - 2

    def take_field(self, name: str, given: dict[str, str]) -> None:
        if not self.maps or name and not NAME.fullmatch(name):
            raise Wrong("field")
        here, text = self.maps[-1], text_of(given)
        has = 0 if text is None else len(text) - 1 if text[0] == "C" else len(text) // 2
        if text is None and "LENGTH" not in given:
            raise Wrong("length")
        length = number(given.get("LENGTH", str(has)), max(has, 0), 256)
        place, count = self.place_of(given, here), number(given.get("OCCURS", "1"), 1, 1920 // (length + 1))
        last = place + count * (length + 1) - 1
        if last >= 80 * (here.line + here.rows - 1) or here.columns < 80 and last - place // 80 * 80 > here.column + here.columns - 2:
            raise Wrong("within")
        words = words_of(given["ATTRB"]) if "ATTRB" in given else ["ASKIP"]
        bits = 0x30 if "ASKIP" in words else 0x20 * ("PROT" in words) + 0x10 * ("NUM" in words)
        if "ASKIP" not in words and "PROT" in words and "NUM" in words:
            bits = 0x30
        bits += 12 if "DRK" in words else 8 if "BRT" in words else 4 if "DET" in words else 0
        made = [name, place, length, bits + ("FSET" in words), text, count, words_of(given["COLOR"])[0] if "COLOR" in given else here.colour, []]
        if "GRPNAME" in given:
            self.group(given["GRPNAME"], made, here, is_one=count == 1)
        else:
            cells = {*range(place, last + 1)}
            self.own(here, cells, [name + letter for letter in "LFAIO" + self.extended + "D" * (count > 1)] if name else [])
            here.fields.append(made)

    def own(self, here: OneMap, cells: set[int], names: list[str]) -> None:
        self.take_names(*names)
        if here.taken & cells:
            raise Wrong("places")
        here.taken |= cells

    def group(self, group: str, made: list[object], here: OneMap, *, is_one: bool) -> None:
        name, place, length = made[0], made[1], made[2]
        assert isinstance(name, str) and isinstance(place, int) and isinstance(length, int)
        if not is_one:
            raise Wrong("group")
        names = [name + letter for letter in "IO"] if name else []
        last = here.fields[-1] if here.fields else None
        if last is None or last[0] != group or not last[7]:
            if not NAME.fullmatch(group):
                raise Wrong("group")
            self.own(here, {*range(place, place + length + 1)}, [group + letter for letter in "LFAIO" + self.extended] + names)
            here.fields.append([group, *made[1:7], [(name, 0, length)]])
            return
        begin, old, parts = last[1], last[2], last[7]
        assert isinstance(begin, int) and isinstance(old, int) and isinstance(parts, list)
        if place - begin < old or place - begin + length > 256:
            raise Wrong("group")
        self.own(here, {*range(begin + old + 1, place + length + 1)}, names)
        parts.append((name, place - begin, length))
        last[2] = place - begin + length


def read(text: str) -> tuple[list[OneMap], set[int]]:
    """The maps of a source, or the lines at fault."""
    lines, reader, wrong = text.split("\n"), Reader(), set[int]()
    lines = [line[:-1] if line.endswith("\r") else line for line in lines]
    ended = len(lines)
    for one in statements_in(lines):
        wrong |= one.wrong
        if one.operation == "END":
            ended = one.lines.start
            break
        try:
            reader.take(one)
        except Wrong:
            wrong |= {*one.lines}
    wrong |= {at for at, line in enumerate(lines[ended:], ended + 1) if re.match(r"\S* +DFHM(SD|DI|DF)\b", line.upper())}
    if not reader.has_set or not reader.has_final or not reader.maps or not all(one.fields for one in reader.maps):
        wrong |= {*range(1, len(lines) + 1)}
    return reader.maps, wrong
