"""Puts WATCH at drawn places of examples, and sees that it writes what STORAGE and FIELD say there. A fixed generator draws the places, of
ranges of bytes and of fields, in 20 scripts and with --all in 500. What WATCH writes must be what STORAGE, put after each line of the
script, says of the same bytes, and what FIELD says of the fields; the statement that it names must be that of the command which TASK shows
in front of the turn, or one of the instructions that AHEAD shows there, or where a byte went with its area the abend, and a turn must have
one of these; the rest must be as it is without WATCH, with ABEND and other looks in it. A turn is a TURN, or a RUN of one turn."""
import random
import re
from collections import Counter
from collections.abc import Iterator
from dataclasses import dataclass
from functools import partial

from cics.child import run
from checks.common import DRAWN_BY, Case, Check, Counts, Wrong, require
from checks.examples import blocks_of, examples, lessons, lines_of_script, plain, text_of

SCRIPTS, ALL, MOST = 20, 500, 16
# near areas, and where addresses wrap
PLACES = [0x000FF0, 0x001000, 0x010000, 0x0100C0, 0x1FFFF0, 0x200000, 0x200060, 0x2000B0, 0x200100, 0xFFFFF0]
NAME = re.compile(r"(?<![A-Z0-9@#$])[A-Z@#$][A-Z0-9@#$]{0,7}(?![A-Z0-9@#$])")
DEFINED = re.compile(r"^([A-Z@#$][A-Z0-9@#$]{0,7}) +D[SC] ", re.M)
FIELD = re.compile(r"> FIELD \S+ '\S+' (?:NONE|AT ([0-9A-F]{6}) LENGTH ([0-9]+) .*)")
INSTRUCTION = re.compile(r"> INSTRUCTION ([0-9A-F]{6} \S+) \S+( LINE [0-9]{5} .*)?")
LEVEL = re.compile(r"> LEVEL ([0-9]{2}) (?:PROGRAM \S+ R14 ([0-9A-F]{6} \S+) .*|COMMAND( LINE [0-9]{5} .*))")
SHOWN = 256  # instructions by AHEAD
OTHERS = ["ABEND T001", "ABEND T001 STORAGE", "ABEND T001 FIELDS", "TASKS", "TASK T001", "AREAS", "TERMINALS", "COMMAND T001", "FIELDS T001",
          "QUEUES", "AHEAD T001"]
MARK = "HELP HELP"  # its line stands in front of what belongs to a place
MARKED = "> HELP [word]"
Lines = list[str]


@dataclass(frozen=True, order=True)
class Range:
    """Bytes of storage, as WATCH and STORAGE name them."""

    at: int
    length: int

    def __str__(self) -> str:
        return f"{self.at:06X} {self.length}"


@dataclass(frozen=True)
class Field:
    """A field of a terminal's program."""

    terminal: str
    name: str

    def __str__(self) -> str:
        return f"{self.terminal} {self.name}"


Asked = Range | Field | None  # what WATCH asks; None is OFF


@dataclass
class Script:
    """A script's steps, lines and blocks, with what WATCH asks in front of each and after all."""

    steps: list[Lines]
    asked: list[list[Asked]]

    def step(self, at: int) -> Lines:
        return self.steps[at] if at < len(self.steps) else []

    def watching(self) -> Lines:
        """Its lines, with WATCH."""
        return [line for at, those in enumerate(self.asked) for line in [*(f"WATCH {what or 'OFF'}" for what in those), *self.step(at)]]


def drawn_asked(draw: random.Random, count: int, names: list[str], fields: list[str]) -> list[list[Asked]]:
    """What WATCH asks at so many places."""
    asked: list[list[Asked]] = [[] for _ in range(count)]
    for _ in range(draw.randint(1, 20)):
        place = (draw.choice(PLACES) + draw.randrange(64)) % 2**24
        area, field = Range(place, draw.choice([1, 2, 4, 16, 100, 256])), Field("T001", draw.choice(fields or names))
        kinds: list[Asked] = [area, area, field, field]
        asked[draw.randrange(len(asked))].append(draw.choice(kinds))
    if draw.randrange(3) == 0:
        asked[draw.randrange(len(asked))].append(None)
    return asked


def steps_in(draw: random.Random, lines: Lines) -> Iterator[Lines]:
    """A script's steps: lines, and blocks; some TURNs as RUNs of one turn, and looks between them."""
    for step in blocks_of(lines):
        if step[0] and step[0][0] != "*":
            yield ["RUN T001 1"] if step == ["TURN T001"] and draw.randrange(2) else step
            if draw.randrange(4) == 0:
                yield [draw.choice(OTHERS)]


def drawn(draw: random.Random, lines: Lines) -> Script:
    steps, text = list(steps_in(draw, lines)), "\n".join(lines)
    return Script(steps, drawn_asked(draw, len(steps) + 1, sorted({*NAME.findall(text)}) or ["JOBS"], DEFINED.findall(text)))


@dataclass
class Place:
    """What is written at a place of a script: of each look there, and of the step after it."""

    looks: list[Lines]
    answer: Lines


def asking(cicslook: str, script: Script, looks: list[Lines]) -> list[Place]:
    """What looks at each place in front of a step and after all write, and what each step writes."""
    lines = []
    for at, there in enumerate(looks):
        lines += [line for look in there for line in (MARK, look)] + [MARK, *script.step(at)]
    ended = run([cicslook], text_of(lines))
    if not ended.is_well():
        raise Wrong(f"it doesn't end well: {ended}")
    parts: list[Lines] = []
    for line in ended.lines():
        if line.startswith(MARKED):
            parts.append([])
        else:
            parts[-1].append(line)
    left = iter(parts)
    return [Place([next(left) for _ in there], next(left)) for there in looks]


def ranges_of(cicslook: str, script: Script) -> list[list[Range | None]]:
    """Of each thing that is asked at each place its range, where it has one: a field's by FIELD there."""
    looks = [[f"FIELD {what}" for what in those if isinstance(what, Field)] for those in script.asked]
    ranges = []
    for those, place in zip(script.asked, asking(cicslook, script, looks)):
        left = iter(place.looks)
        ranges.append([field_in(next(left)[0]) if isinstance(what, Field) else what for what in those])
    return ranges


def field_in(line: str) -> Range | None:
    """The first 256 bytes of the field that FIELD writes."""
    found = FIELD.fullmatch(line)
    if not found:
        raise Wrong(f"FIELD writes {line!r}")
    return Range(int(found[1], 16), min(256, int(found[2]))) if found[1] else None


def bytes_in(lines: Lines) -> str:
    """The bytes that STORAGE's lines show, two digits or hyphens each."""
    return "".join(line[10:46].replace(" ", "") for line in lines if re.match(r"> [0-9A-F]{6}  ", line))


def cause(line: str) -> str:
    """The words after BY of what this line of a script does."""
    words = line.split()
    first = {"RUN": "TURN", "IMAGE": "PROGRAM", "SOURCE": "PROGRAM"}.get(words[0], words[0])
    return f"{first} {words[1]}" if first in ("TURN", "KEY", "ALTER", "PROGRAM") else "ANOTHER LINE"


def turn_ahead(step: Lines) -> Lines:
    """The looks at what a step's turn will do, if it is one."""
    words = step[0].split() if step else [""]
    return [f"AHEAD {words[1]} {SHOWN}", f"TASK {words[1]}"] if words[0] in ("TURN", "RUN") else []


def statements_in(ahead: Lines, task: Lines) -> set[str] | None:
    """The statements of which a turn may name one: those of its instructions, or that of its command; None where they are too many to be
    shown."""
    counts = [int(line.split()[2]) for line in ahead if line.startswith("> INSTRUCTIONS ")]
    if counts:
        instructions = filter(None, map(INSTRUCTION.fullmatch, ahead))
        return None if counts[0] > SHOWN else {it[2] or f" INSTRUCTION {it[1]}" for it in instructions}
    levels = [found for line in task if (found := LEVEL.fullmatch(line))]
    words = [it[3] or f" R14 {it[2]}" for it in levels if it[1] == levels[-1][1]]
    return set(words[-1:])


def is_due(line: str, due: str, statements: set[str] | None) -> bool:
    """Whether a line is as it must be, with one of these statements after it, where one must or may be."""
    if line == due:
        return not statements or " FROM " not in line
    if line == f"{due} ABEND":
        return statements != set() and " FROM " in due and "--" in line.partition(" TO ")[2]
    rest = line[len(due):]
    is_statement = rest in statements if statements is not None else bool(re.match(r" LINE | INSTRUCTION ", rest))
    return line.startswith(due) and " FROM " in due and is_statement


class Due:
    """What WATCH must write without its statements, and the rest as it stands without it, each line with the place in front of the step
    that writes it."""

    def __init__(self) -> None:
        self.lines: list[tuple[str, int]] = []
        self.watched: list[Range] = []

    def ask(self, at: int, what: Asked, area: Range | None, shown: dict[Range, str]) -> None:
        """A WATCH of bytes that are shown so."""
        if what is None:
            self.watched, answer = [], "OFF"
        elif area is None:
            assert isinstance(what, Field)
            answer = f"{what.terminal} '{what.name}' NONE"
        elif len(self.watched) == MOST:
            answer = f"{area} REFUSED Full"
        else:
            self.watched.append(area)
            answer = f"{area} IS {shown[area]}"
        self.lines.append((f"> WATCH {answer}", at))

    def step(self, at: int, step: Lines, answer: Lines, before: dict[Range, str], after: dict[Range, str]) -> None:
        """A step, what it writes without WATCH, and what the bytes are before and after it."""
        last = [line for line in answer if re.match(r"> RUN \S+ STILL", line)]
        changes = [f"> WATCH {it} FROM {before[it]} TO {after[it]} BY {cause(step[0])}" for it in self.watched if before[it] != after[it]]
        self.lines += [(line, at) for line in [*(line for line in answer if line not in last), *changes, *last]]


def tried(cicslook: str, script: Script) -> Counts:
    """What WATCH writes in a script must be as it is due."""
    ranges = ranges_of(cicslook, script)
    kept = sorted({it for those in ranges for it in those if it})
    looks = [[*(f"STORAGE {it}" for it in kept), *turn_ahead(script.step(at))] for at in range(len(script.asked))]
    there = asking(cicslook, script, looks)
    shown = [dict(zip(kept, map(bytes_in, place.looks))) for place in there]
    statements = [statements_in(*place.looks[len(kept):]) if len(place.looks) > len(kept) else set() for place in there]
    due = Due()
    for at, (those, place) in enumerate(zip(script.asked, there)):
        for what, area in zip(those, ranges[at]):
            due.ask(at, what, area, shown[at])
        if script.step(at):
            due.step(at, script.step(at), place.answer, shown[at], shown[at + 1])
    ended = run([cicslook], text_of(script.watching()))
    for line, (other, at) in zip(ended.lines(), due.lines):
        require(is_due(line, other, statements[at]), f"{line!r} is written where {other!r} is due")
    require(ended.is_well() and len(ended.lines()) == len(due.lines), str(ended))
    return Counter({"changes of bytes that are watched": sum(line.startswith("> WATCH ") and " FROM " in line for line, _ in due.lines)})


def cases(cicslook: str, count: int) -> Iterator[Case]:
    """Scripts that end well, drawn of the examples and lessons as `cicsedf` runs them."""
    draw = random.Random(DRAWN_BY)
    sources = [(name, script) for name in [*examples(), *lessons()] for script, due in [plain(name)] if due.is_well()]
    for number in range(1, count + 1):
        name, script = draw.choice(sources)
        yield Case(f"script {number} of {name}", partial(tried, cicslook, drawn(draw, lines_of_script(script))))


def main(words: list[str]) -> int:
    check = Check(__name__, __doc__, words, "cicslook", flags={"all": f"{ALL} scripts"})
    return check.report(cases(check.program(), ALL if check.has("all") else SCRIPTS), {"changes of bytes that are watched": 1})
