"""EDF as it is seen at a terminal: which display and page are shown, and what is typed over them (docs/EDF.md).
Which page is shown is known by the keys that were given, never by its text."""
import re
from dataclasses import dataclass, field
from enum import Enum
from collections.abc import Hashable, Sequence
from typing import NamedTuple

from cics.terminals.data_stream import ALTERED, CHARACTERS, COLUMNS, PAGE, PROTECTED, Painting, Refused, free_rows

KEPT = 10  # displays of a session
GROUP = 9  # the columns from eight digits to the next, of registers and of storage
# Where pages have what may be typed over, by rows and columns from 0.
COMMAND_ROW, COMMAND_COLUMN, COMMAND_END = 2, 8, 40
REGISTER_ROWS, REGISTER_COLUMN = range(14, 18), 4
STORAGE_ROWS, STORAGE_COLUMN, CHARACTERS_COLUMN, BYTES = range(1, 23), 8, 45, 16
# The words for PF9.
STOP_WORDS = {"ABEND", "END", "ERROR", "INVREQ", "NOSPACE", "LENGERR", "ITEMERR", "PGMIDERR", "NOSTG", "QIDERR", "ENQBUSY"}

Page = Enum("Page", "MAIN STORAGE USER")
FREE = {Page.MAIN: range(21, 23), Page.STORAGE: range(23, 24)}  # rows; those of the user's page depend on it
TURNED_TO = {"PF5": Page.STORAGE, "PF6": Page.USER}

class Part(NamedTuple):
    """What may be typed over: the command, the digits of a register, by its number, or those of four bytes, by their address."""
    kind: str
    where: int
    shown: str

    def alterations(self, typed: str) -> list[str]:
        """What is typed, as ALTER has it after the terminal's name."""
        if self.kind == "COMMAND":
            if typed.rstrip() != self.shown and not typed.startswith(("NOP", "NOOP")):
                raise Refused("NOTHING BUT NOOP MAY BE TYPED OVER A COMMAND")
            return ["NOP"] if typed.startswith(("NOP", "NOOP")) else []
        if self.kind == "REG":
            if not re.fullmatch("[0-9A-F]{8}", typed):
                raise Refused(f"NOT EIGHT HEXADECIMAL DIGITS: {typed}")
            return [f"REG {self.where} {typed}"] if typed != self.shown else []
        if len(typed) != len(self.shown):
            raise Refused("DIGITS MAY BE TYPED OVER, NOT DELETED")
        pairs = [(at // 2, self.shown[at : at + 2], typed[at : at + 2]) for at in range(0, len(typed), 2)]
        for _, old, new in pairs:
            if old != new and not re.fullmatch("[0-9A-F]{4}", old + new):
                raise Refused(f"NOT A BYTE IN HEXADECIMAL: {new}")
        return [f"BYTE {self.where + at:06X} {new}" for at, old, new in pairs if old != new]

@dataclass
class Session:
    """EDF at one terminal: how many displays are kept, the one that EDF shows, counted back from the newest, and its page.
    The display that is painted may be a newer one, by PF11, which EDF hasn't."""
    is_on: bool = False
    is_stopped: bool = False
    kept: int = 0
    back: int = 0
    newer: int = 0  # by how many the painted display is newer than the one that EDF shows
    page: Page = Page.MAIN
    altered: list[str] = field(default_factory=list)  # since the newest display: the words of ALTER after the terminal's name
    stops: list[str] = field(default_factory=lambda: ["ABEND"])  # the words that PF9 has taken
    is_asking: bool = False  # whether the key before was PF9 without words, which was asked about

    def shown(self) -> int:
        """The display that is painted, counted back from the newest."""
        return self.back - self.newer

    def stop(self) -> None:
        """A new display was taken, and is shown."""
        self.is_stopped, self.back, self.newer, self.page, self.altered = True, 0, 0, Page.MAIN, []
        self.kept = min(self.kept + 1, KEPT)

    def press(self, key: str, text: str, has_task: bool) -> None:
        """A key was given to EDF."""
        if key in ("ENTER", "PF4") or key == "PF12" and has_task:
            self.is_stopped, self.back, self.newer = False, 0, 0
        elif key in TURNED_TO:
            self.page, self.newer = Page.MAIN if self.page is TURNED_TO[key] else TURNED_TO[key], 0
        elif key == "PF9" and STOP_WORDS.issuperset(text.split()):
            self.stops = list(dict.fromkeys(text.split()))
        elif key == "PF10" and self.back + 1 < self.kept:
            self.back, self.newer, self.page = self.back + 1, 0, Page.MAIN

    def asks(self, key: str, text: str) -> bool:
        """Whether a key isn't given to EDF yet: PF9 without words removes all stop conditions, so it has to come twice."""
        self.is_asking = key == "PF9" and not text.split() and not self.is_asking
        return self.is_asking

    def question(self) -> str:
        return f"PF9 AGAIN REMOVES ALL STOP CONDITIONS. NOW: {' '.join(self.stops) or 'NONE'}"

    def looks(self, key: str) -> bool:
        """Whether a key only has another display painted: it isn't given to EDF then."""
        if key == "PF10" and self.newer:
            self.newer -= 1
            return True
        if key == "PF11":
            self.newer = min(self.newer + 1, self.back)
        return key == "PF11"

    def answer(self, key: str, text: str, was_newer: int) -> str | None:
        """What is reported of a key that was given to EDF; of PF5 and PF6 only where a newer display was painted."""
        if key == "PF9":
            wrong, stops = [word for word in text.split() if word not in STOP_WORDS], " ".join(self.stops) or "NOTHING"
            return f"{wrong[0]} IS NO STOP CONDITION. STILL: {stops}" if wrong else f"PF4 STOPS AT {stops}"
        return f"{self.mark()}: EDF'S OWN DISPLAY, WHICH PF11 DOESN'T MOVE" if key in TURNED_TO and was_newer else None

    def mark(self) -> str:
        """Says of an older display which one it is."""
        return f"STOP {self.kept - self.shown()} OF {self.kept}" if self.shown() else ""

    def asked(self, terminal: str) -> str:
        """The line that gives the page that is to be painted."""
        return f"DISPLAY {terminal}" + (f" {self.shown()}" if self.newer else "")

    def painting(self, page: Sequence[str], has_task: bool, message: str) -> Painting:
        """The page that is shown. The newest display of a task may be typed over; what was altered is shown as it was typed."""
        shown = Page.MAIN if self.newer else self.page
        rows, marked = [row.ljust(COLUMNS) for row in page], set()
        if self.shown() == 0:
            marked = {position for altered in self.altered for position in show_altered(rows, shown, altered)}
        free = FREE.get(shown) or free_rows(rows)
        message = message or (self.mark() if len(free) > 1 or shown is Page.STORAGE else "")
        painting = Painting(rows, free, message, PAGE if shown is Page.USER else PROTECTED)
        if has_task and self.shown() == 0 and shown in OPENS:
            OPENS[shown](painting)
        painting.attributes.update({position - 1: ALTERED for position in marked if position in painting.fields})
        return painting

def show_altered(rows: list[str], page: Page, altered: str) -> list[int]:
    """Puts what was altered into the rows of a page; returns the field in which it is, where that page shows it."""
    kind, where, new = (altered.split() + ["", ""])[:3]
    if kind == "REG" and page is Page.MAIN:
        line, group = divmod(int(where), 4)
        return [put(rows, REGISTER_ROWS[line], REGISTER_COLUMN + GROUP * group, new)]
    if kind == "BYTE" and page is Page.STORAGE:
        for row in STORAGE_ROWS:
            at = (int(where, 16) - int(rows[row][:6], 16)) & 0xFFFFFF if rows[row].strip() else BYTES
            group = STORAGE_COLUMN + GROUP * (at // 4)
            if at < BYTES and rows[row][group + 2 * (at % 4)] != " ":
                put(rows, row, group + 2 * (at % 4), new)
                put(rows, row, CHARACTERS_COLUMN + at, CHARACTERS.get(int(new, 16), "."))
                return [row * COLUMNS + group]
    return []

def put(rows: list[str], row: int, column: int, text: str) -> int:
    """Puts a text into a row, and returns its position."""
    rows[row] = rows[row][:column] + text + rows[row][column + len(text) :]
    return row * COLUMNS + column

def open_main(painting: Painting) -> None:
    """The command and the registers may be typed over."""
    start, name = COMMAND_ROW * COLUMNS + COMMAND_COLUMN, painting.characters[COMMAND_ROW][COMMAND_COLUMN:COMMAND_END].rstrip()
    painting.open(start - 1, COMMAND_ROW * COLUMNS + COMMAND_END, Part("COMMAND", 0, name))
    for number in range(16):
        row, column = REGISTER_ROWS[number // 4], REGISTER_COLUMN + GROUP * (number % 4)
        start, digits = row * COLUMNS + column, painting.characters[row][column : column + 8]
        painting.open(start - 1, start + 8, Part("REG", number, digits))

def open_storage(painting: Painting) -> None:
    """The digits of the bytes may be typed over."""
    for row in STORAGE_ROWS:
        for group in range(4):
            column, text = STORAGE_COLUMN + GROUP * group, painting.characters[row]
            if text[column : column + 8].strip():
                first, start = int(text[:6], 16), row * COLUMNS + column
                painting.open(start - 1, start + 8, Part("BYTE", (first + 4 * group) & 0xFFFFFF, text[column : column + 8]))

OPENS = {Page.MAIN: open_main, Page.STORAGE: open_storage}

def alterations(texts: dict[Hashable, str]) -> list[str]:
    """The alterations that are typed, by the texts of fields: one that lets the task go on comes last."""
    asked = [it for part, text in texts.items() if isinstance(part, Part) for it in part.alterations(text.upper())]
    return sorted(asked, key=lambda alteration: alteration == "NOP")
