"""Calls of macros read from a source's lines, each operand with the line and column of its characters. What a macro assembler would cut, or
take for something else without a word, is told."""
import re
from collections.abc import Iterator
from dataclasses import dataclass, field

from cics.log import Log
from cics.plain_lines import STOP, capitals
from cics.statements import CONTINUED, LAST, MARK, Origin, begin_of_word, end_of_word, is_comment_line, is_continued
from cics.texts import SMALL, Place, places_of

MOST_COLUMNS = 80
SEQUENCE = re.compile(r"[A-Z0-9@#$]{0,4}[0-9]{4,8}")  # what columns 73 to 80 have where lines are numbered


@dataclass(frozen=True)
class Spot:
    """A character's place: its line and its column, from 1."""

    line: int
    column: int


@dataclass(frozen=True)
class Operand:
    """An operand KEY=VALUE, and where each of its characters is."""

    key: str
    value: str
    spots: list[Spot]

    def spot(self, place: int = 0) -> Spot:
        """Where a character of the value is."""
        return self.spots[min(len(self.key) + 1 + place, len(self.spots) - 1)]


@dataclass(frozen=True)
class MacroCall:
    """A call of a macro: its name, operation and operands, and where the operation stands."""

    origin: Origin
    name: str
    operation: str
    operands: list[Operand]
    spot: Spot

    def given(self) -> dict[str, str]:
        return {one.key: one.value for one in self.operands}

    def spot_of(self, key: str, place: int = 0) -> Spot:
        """Where a character of an operand's value is; where the operand isn't given, the operation."""
        return next((one.spot(place) for one in self.operands if one.key == key), self.spot)

    def shown(self) -> str:
        return f"{self.operation} {self.name}".strip()


@dataclass
class Scan:
    """The operand of a call, read from one line after the other: its characters with their spots, up to the first blank outside apostrophes;
    after a comma it goes on in the next line."""

    text: str = ""
    spots: list[Spot] = field(default_factory=list)
    opened: Spot | None = None  # the apostrophe that isn't closed
    is_over: bool = False
    is_told: bool = False  # whether something of its lines is told

    def take(self, line: str, number: int, begin: int) -> None:
        for column in range(begin, LAST):
            character = line[column : column + 1] or " "
            if character == " " and not self.opened:
                self.is_over = not self.wants_more()
                return
            spot = Spot(number, column + 1)
            if character == "'":
                self.opened = None if self.opened else spot
            self.text += character
            self.spots.append(spot)

    def wants_more(self) -> bool:
        return self.text.endswith(",") and not self.opened


def is_remark_line(line: str) -> bool:
    return is_comment_line(line) or line.startswith(".*")


def may_continue(line: str) -> bool:
    """Whether a line looks like the continuation of one."""
    return not is_remark_line(line) and not line[:CONTINUED].strip() and line[CONTINUED:LAST].strip() != ""


@dataclass
class Macros:
    """The lines of a source, with blanks for tab characters; `raw` has them as they are in the file."""

    path: str
    lines: list[str]
    raw: list[str]
    log: Log
    count: int = 0  # of calls so far

    def refuse(self, spot: Spot, why: str) -> None:
        """Tells a fault by its column in the file, where a tab character is one column."""
        raw = self.raw[spot.line - 1]
        column = spot.column
        if raw != self.lines[spot.line - 1]:
            column = next((at for at in range(1, len(raw) + 1) if len(raw[:at].expandtabs(STOP)) >= spot.column), spot.column)
        self.log.refused(Origin(self.path, spot.line, self.count), column, why)

    def calls(self) -> Iterator[MacroCall]:
        at = 0
        while at < len(self.lines):
            if is_remark_line(self.lines[at]):
                at += 1
                continue
            self.count += 1
            call, at = self.call(at)
            yield call

    def call(self, at: int) -> tuple[MacroCall, int]:
        """The call that begins on a line, and the line after it."""
        line = self.lines[at]
        text = line[:LAST]
        name_end = end_of_word(text, 0) if text[:1].strip() else 0
        begin = begin_of_word(text, name_end)
        end = end_of_word(text, begin)
        name, operation = capitals(text[:name_end]), capitals(text[begin:end])
        scan, origin, spot = Scan(), Origin(self.path, at + 1, self.count), Spot(at + 1, min(begin, LAST - 1) + 1)
        scan.take(line, at + 1, begin_of_word(text, end))
        while self.goes_on(at, scan):
            at += 1
            self.go_on(at, scan)
        operand = in_capitals(scan.text.removesuffix(",") if scan.wants_more() else scan.text)
        old = f"{text[:name_end]} {text[begin:end]} {scan.text[: len(operand)]}".strip()
        if old != (new := f"{name} {operation} {operand}".strip()):
            self.log.changed(origin, old, new)
        return MacroCall(origin, name, operation, self.operands(scan, operand), spot), at + 1

    # ---- how a line is continued

    def goes_on(self, at: int, scan: Scan) -> bool:
        """Whether the next line goes on with what a line has. Where that isn't clear it is told, and goes by what was meant."""
        line = self.lines[at]
        follows = at + 1 < len(self.lines) and may_continue(self.lines[at + 1])
        why = self.why_odd(at, scan, follows=follows)
        if why is None:
            return is_continued(line)
        self.refuse(*why)
        scan.is_told = True
        return follows

    def why_odd(self, at: int, scan: Scan, *, follows: bool) -> tuple[Spot, str] | None:
        """What is odd about the end of a line: whether it goes on, and how that is marked."""
        line = self.lines[at]
        if len(line.rstrip()) > MOST_COLUMNS and not is_continued(line):
            return Spot(at + 1, MOST_COLUMNS + 1), f"a line of more than {MOST_COLUMNS} columns"
        if is_continued(line) and self.is_cut(line, scan):
            return Spot(at + 1, LAST + 1), f"the line goes past column {LAST}: what stands from column {MARK + 1} on isn't read"
        if is_continued(line) and not follows:
            return Spot(at + 1, MARK + 1), (f"a mark in column {MARK + 1}, so the next line goes on with this one from column {CONTINUED + 1} on: "
                                            "there is none, or something else stands in it")
        return self.why_unmarked(at, scan) if not is_continued(line) and (scan.wants_more() or scan.opened) else None

    @staticmethod
    def is_cut(line: str, scan: Scan) -> bool:
        """Whether a line with something in column 72 goes past column 71 with its text: no number of the line stands behind that."""
        beyond = line[MARK + 1 :].strip()
        is_run = line[LAST - 1] != " " or scan.opened is not None
        return len(line.rstrip()) > MOST_COLUMNS or is_run and beyond != "" and not SEQUENCE.fullmatch(beyond)

    def why_unmarked(self, at: int, scan: Scan) -> tuple[Spot, str]:
        """Why a line whose operand isn't at its end has no mark of continuation."""
        line = self.lines[at]
        text = line.rstrip()
        for place in (MARK - 1, MARK + 1):
            if len(text) == place + 1 and text[place - 1] == " " and text[place] != "'":
                return Spot(at + 1, place + 1), f"a mark of continuation in column {place + 1}, which isn't read there; write it in column {MARK + 1}"
        if scan.opened and len(text) > MARK:
            return Spot(at + 1, LAST + 1), f"the line goes past column {LAST}: what stands from column {MARK + 1} on isn't read"
        if scan.opened:
            return scan.opened, "this apostrophe isn't closed"
        return scan.spots[-1], f"a comma at the end, and no mark of continuation in column {MARK + 1}"

    def go_on(self, at: int, scan: Scan) -> None:
        line = self.lines[at]
        if not scan.is_over:
            if line[CONTINUED : CONTINUED + 1] == " " and not scan.opened:
                begin = begin_of_word(line, CONTINUED)
                self.refuse(Spot(at + 1, begin + 1), f"a line that goes on with one above begins in column {CONTINUED + 1}, not in {begin + 1}")
                scan.take(line, at + 1, begin)
            else:
                scan.take(line, at + 1, CONTINUED)
        elif "=" in line[CONTINUED:LAST]:
            begin = begin_of_word(line, CONTINUED)
            self.refuse(Spot(at + 1, begin + 1), "this isn't read: the operand in the line above ends without a comma")

    # ---- operands

    def operands(self, scan: Scan, text: str) -> list[Operand]:
        if scan.opened and not scan.is_told:
            self.refuse(scan.opened, "this apostrophe isn't closed")
        found, begin, opened = [], 0, 0
        places = [*places_of(text), Place(0, False)]
        for at, (character, place) in enumerate(zip(f"{text},", places)):
            opened = at if character == "(" and place == Place(0, False) else opened
            if character == "," and (place == Place(0, False) or at == len(text)):
                key, _, value = text[begin:at].partition("=")
                found.append(Operand(key, value, scan.spots[begin:at] or scan.spots[max(at - 1, 0) : at + 1]))
                begin = at + 1
        is_open = text != "" and self.depth_at_end(text) > 0
        if is_open and not scan.opened:
            self.refuse(scan.spots[opened], "this parenthesis isn't closed")
        whole = found[:-1] if is_open or scan.opened else found  # without the one that isn't closed
        return self.only_once(whole) if text else []

    @staticmethod
    def depth_at_end(text: str) -> int:
        last = [*places_of(text)][-1]
        return last.depth + (text[-1] == "(" and not last.is_text)

    def only_once(self, operands: list[Operand]) -> list[Operand]:
        found: dict[str, Operand] = {}
        for one in operands:
            if not one.key:
                self.refuse(one.spots[0], "an operand without a name; or a comma too many")
            elif one.key in found:
                self.refuse(one.spots[0], f"{one.key} is there twice")
            else:
                found[one.key] = one
        return list(found.values())


def in_capitals(text: str) -> str:
    return "".join(capitals(one) if one in SMALL and not place.is_text else one for one, place in zip(text, places_of(text)))
