"""Looks at the region from a terminal: which lines may be sent, and the pages that show what they answer (docs/LOOKS.md)."""
from collections.abc import Mapping, Sequence
from typing import NamedTuple

from cics.line_forms import FORMS, reason_of
from cics.looks import Area, Level, Symbol, place_in
from cics.scripts import OF_CICSLOOK
from cics.terminals.data_stream import BRIGHT, COLUMNS, PAGE, ROWS, Painting
from cics.terminals.region import Answer, Request, Work
from cics.transcripts import of_look

NEVER = {"RUN", "WATCH", "COVER", "FAULTS", "CHOICES", "ORDERS"}  # of the lines that cicslook has alone those that no terminal sends
LOOKS = {word: forms for word, forms in FORMS.items() if word in OF_CICSLOOK and word not in NEVER}
TYPED = {  # what an operator of CICS types for a look, beside CEBR and a queue's name
    "QUEUES": ["CEMT INQUIRE TSQUEUE", "CEBR"], "PROGRAMS": ["CEMT INQUIRE PROGRAM", "CEMT INQUIRE TRANSACTION"],
    "TASKS": ["CEMT INQUIRE TASK", "CEMT INQUIRE TERMINAL"], "RESOURCES": ["CEMT INQUIRE ENQ"]}
SHORTER = {"I": "INQUIRE", "INQ": "INQUIRE", "TAS": "TASK", "PROG": "PROGRAM", "TRAN": "TRANSACTION", "TERM": "TERMINAL",
           "TSQ": "TSQUEUE", "UOWENQ": "ENQ"}

WIDTH, CONTENT = COLUMNS - 1, ROWS - 2  # of a page: the first column has a row's attribute
AROUND = 5  # lines of a source in front of the one that is looked for, and after it
LONGEST = 4096  # bytes of one look
HEAD, SHOWN = 80, 352  # of a working storage: what every program has, and what EDF's storage page shows
IN_AREA, IN_FIELD = 64, 16  # bytes that are shown of each

Sources = Mapping[str, Sequence[str]]

class Line(NamedTuple):
    text: str
    is_bright: bool = False

def is_look(line: str) -> bool:
    return line.split(" ")[0] in LOOKS and reason_of(line) is None


def look_of(text: str) -> str | None:
    """The look that an operator's words are."""
    typed = text.split()
    words = [SHORTER.get(word, word) for word in typed] if typed[:1] == ["CEMT"] else typed
    if len(words) == 2 and words[0] == "CEBR":
        return f"QUEUE {words[1]}" if is_look(f"QUEUE {words[1]}") else None
    return next((look for look, forms in TYPED.items() if " ".join(words) in forms), None)


def asked(look: str) -> Work:
    """The lines of a look, without what they begin with."""
    return [Line(line) for line in of_look((yield Request(look, Answer.LINES, is_kept=False)))]

def here(name: str, has_task: bool, is_stopped: bool, is_abended: bool, sources: Sources) -> Work:
    """What is due at a terminal; or why its task abended; and all tasks. At a stop also what EDF's pages leave out."""
    lines: list[Line] = []
    if has_task:
        task = yield from asked(f"TASK {name}")
        lines = (yield from asked(f"COMMAND {name}")) + source_at(task, sources)
        lines += (yield from left_out(name, task)) if is_stopped else []
    elif is_abended:
        lines = yield from asked(f"ABEND {name}")
        lines = lines + source_at(lines, sources)
    tasks = [] if is_stopped else (yield from asked("TASKS"))  # and of the terminals that have none only this one
    return lines + [line for line in tasks if not line.text.endswith(" NO TASK") or line.text.split()[0] == name]

def source_at(lines: Sequence[Line], sources: Sources) -> list[Line]:
    """The source around the line of the last command that lines of a look have, or else of the next instruction; that line bright."""
    place = place_in([line.text for line in lines])
    if not place or place[0] not in sources:
        return []
    source, line = sources[place[0]], place[1]
    around = range(max(1, line - AROUND), min(len(source), line + AROUND) + 1)
    return [Line(f"{at:5} {source[at - 1]}", at == line) for at in around]

def symbols_of(program: str) -> Work:
    return Symbol.all_in([line.text for line in (yield from asked(f"SYMBOLS {program}"))])

def left_out(name: str, task: Sequence[Line]) -> Work:
    """Of a stopped task: the fields of its working storage, what is after the storage page, its other areas, its levels."""
    lines: list[Line] = []
    level = Level.all_in([line.text for line in task])[-1]
    start, rest = level.storage, level.length - SHOWN
    symbols: list[Symbol] = yield from symbols_of(level.program)
    for it in sorted(symbols, key=lambda it: it.value):
        if it.section == "DFHEISTG" and it.value >= HEAD:
            shown = yield from asked(f"STORAGE {start + it.value:06X} {min(max(it.length, 1), IN_FIELD)}")
            lines.append(Line(f"{it.name:8} {it.length:>5} {shown[0].text}"))
    if rest > 0:
        lines += yield from asked(f"STORAGE {start + SHOWN:06X} {min(rest, LONGEST)}")
    for area in (yield from asked(f"AREAS {name}")):
        found = Area.read(area.text)
        if found and found.kind:
            lines += yield from asked(f"STORAGE {found.address:06X} {min(found.length, IN_AREA)}")
    return lines + [line for line in task if line.text.startswith("LEVEL ")]

class Pages:
    """What is shown of a look, and which page of it."""

    def __init__(self, lines: Sequence[Line]) -> None:
        cut = [Line(text[at : at + WIDTH], bright) for text, bright in lines for at in range(0, max(len(text), 1), WIDTH)]
        self.pages = [cut[at : at + CONTENT] for at in range(0, len(cut), CONTENT)] or [[Line("NOTHING")]]
        self.at = 0

    def leaf(self, key: str | None) -> None:
        self.at = min(max(self.at + {"PF19": -1, "PF20": 1}.get(key or "", 0), 0), len(self.pages) - 1)

    def painting(self, message: str) -> Painting:
        rows = [f" {line.text}" for line in self.pages[self.at]] + [""] * ROWS
        leaves = f"PAGE {self.at + 1} OF {len(self.pages)}: PF19 BACK, PF20 ON  " if len(self.pages) > 1 else ""
        painting = Painting(rows[:ROWS], range(CONTENT, ROWS), message or f"{leaves}CLEAR: THE SCREEN AS IT WAS")
        for at, line in enumerate(self.pages[self.at]):
            if line.is_bright:
                painting.attributes.update({at * COLUMNS: BRIGHT, at * COLUMNS + COLUMNS: PAGE})
        return painting
