"""Runs a script and keeps what `cicslook` shows of the region after each event."""
from __future__ import annotations

import itertools
import re
from collections.abc import Callable
from dataclasses import dataclass, field

from cics.child import Child, Gone
from cics.cover.asking import ON
from cics.film.sources import Source, source_of, with_fields
from cics.looks import Area, Arrived, Covered, Instruction, Item, Level, Next, Queue, Registers, place_in
from cics.orders import SECONDS, Orders, read_orders
from cics.scripts import RUN, Action
from cics.transcripts import CWA, RUN_ENDS, reply_of, without_looks

MOST_EVENTS = 10_000
SHOWN, IN_AREA = 4_096, 256  # bytes of a DFHEISTG, and of another area
MOST_ITEMS, ITEM_BYTES = 24, 512  # of a queue, that are shown as bytes too
MOST_AHEAD = 300_000  # bytes of tasks' areas and of queues: with more AHEAD, which copies all, isn't asked
OWN, OTHER, OTHERS = 16_384, 4_096, 32_768  # bytes of a task's areas; at an event of another terminal; of all such tasks together
MOST_INSTRUCTIONS = 256  # of a half-turn, the last ones, whose statements are tinted
MOST_ARRIVALS = 64  # at lines in a half-turn, of which AHEAD AT is asked
RAN = ("AtCommand", "Abended", "TookExit")  # answers to turns that run instructions
SOURCE = re.compile(r"SOURCE ([A-Z0-9@#$]{1,8})( DISASM)?")  # without LIST

Lines = list[str]
Shown = dict[str, Lines]
Arrival = tuple[int, int, dict[int, str]]  # the first one at a line: the line, the condition code, and registers that aren't as at the arrival before


@dataclass
class Event:
    """An event: its line of the script, what it is, what was answered, and what it changed of what is shown."""

    line: int
    turn: int  # of a RUN, which of its turns, from 1; else 0
    text: str
    terminal: str | None
    answer: Lines
    changes: Shown
    comments: Lines = field(default_factory=list)
    ran: tuple[str, int] | None = None  # the program and the line at which the task is, or was when it abended
    passed: list[int] = field(default_factory=list)  # the lines that this half-turn surely did, from its first on
    arrivals: list[Arrival] = field(default_factory=list)  # at the lines of this half-turn; in front of the first one all registers count as zero


@dataclass
class Search:
    """An ORDERS of the script: its line, how many events were done before it, what it found, and a film of each list of moves that it gives, as
    far as there is room."""

    line: int
    done: int
    found: Orders
    films: dict[int, Film] = field(default_factory=dict)

    @property
    def lists(self) -> list[tuple[str, Lines, Lines]]:
        """The lists of moves: what each leads to, what is seen there, and its lines."""
        outcomes = [(f"outcome {number}", it.text, it.moves) for number, it in enumerate(self.found.outcomes, 1)]
        return outcomes + [(kind.removeprefix("ORDERS ").lower(), [], moves) for kind, moves in self.found.restless.items()]


@dataclass
class Film:
    """What was filmed: the events, from some event on; what stood before it; and the fault that ended the script."""

    name: str
    script: Lines
    events: list[Event] = field(default_factory=list)
    left_out: int = 0
    before: Shown = field(default_factory=dict)
    terminals: Lines = field(default_factory=list)
    sources: dict[str, Source] = field(default_factory=dict)
    fault: tuple[int, str] | None = None  # the script's line, and what was said
    searches: list[Search] = field(default_factory=list)


class Recorder:
    """Performs a script's actions, and asks after each event."""

    def __init__(self, child: Child, film: Film, skipped: int = 0, report: Callable[[int], None] = lambda _: None) -> None:
        self.child, self.film, self.skipped, self.report = child, film, skipped, report
        self.shown: Shown = {}
        self.levels: dict[str, tuple[str, int]] = {}  # of each terminal's task: its last level's program, and R14 there
        self.areas: dict[str, dict[str, str]] = {}  # of each terminal's task: what is asked of its areas, those of its last level first
        self.places: dict[str, tuple[tuple[str, int], bool]] = {}  # of each terminal's task: where it is; after an EXEC's command
        self.queues: dict[str, str] = {}  # of each queue: its line
        self.items: dict[str, dict[str, str]] = {}  # of each queue: what is asked of its items
        self.bytes: dict[str, int] = {}  # of each terminal's task: how many bytes its areas have
        self.lines_left, self.named = 0, set[str]()  # of sources that FIELDS may still look through; of which terminals it was asked
        self.has_instructions = False  # whether AHEAD has the instructions of the next turn
        self.arrivals_left = 0  # at lines, that may still be asked for
        self.lines_to_count = 0  # of sources, whose statements COVERED may still count after turns
        self.counted: dict[str, int] = {}  # of each program, how many of its statements were run
        self.done = 0

    def perform(self, actions: list[Action]) -> None:
        """Performs all, up to a fault of the script."""
        if self.lines_to_count:
            self.child.ask(ON)
        self.perform_each(actions)
        if self.lines_to_count and not self.film.fault:
            self.note_runs([it.name for it in self.film.sources.values() if it.lines], -1)

    def perform_each(self, actions: list[Action]) -> None:
        for action in actions:
            began = self.child.count
            try:
                self.act(action)
            except Gone as end:
                said = end.ended.why()
                found = re.search(r"line (\d+): ", said)
                # the child counts the lines that it was given: those of a block come after `began`
                at = int(found[1]) - began - 1 if found and len(action.lines) > 1 else 0
                self.film.fault = (action.line + max(0, at), re.sub(r".*?line \d+: ", "", said))
                return

    def act(self, action: Action) -> None:
        if action.is_open:
            raise Gone("", self.child.end(*action.lines))
        elif action.word == "ORDERS":
            self.film.searches.append(Search(action.line, self.done, read_orders(self.child.ask(*action.lines, seconds=SECONDS))))
        elif action.word in ("WATCH", "COVER"):
            pass  # a film shows what changes, and counts by itself
        elif not action.is_event:
            self.child.ask(*action.lines, seconds=SECONDS if action.word == "CHOICES" else None)
        elif action.turns:
            self.run(action, action.turns)
        elif action.word in ("SOURCE", "IMAGE"):
            self.define(action)
        else:
            self.event(action, action.lines, action.terminal)

    def run(self, action: Action, turns: int) -> None:
        """Does the turns of a RUN, each an event, up to where RUN ends."""
        found = RUN.fullmatch(action.text)
        assert found
        terminal, stop = found["terminal"], found["stop"] or ""
        sent = [f"RUN {terminal} 1{stop}"] if stop.startswith(" TO ") else None
        for turn in range(1, turns + 1):
            if stop == " BEFORE ABEND" and self.would_abend(terminal):
                return
            answer = self.event(action, [f"TURN {terminal}"], terminal, turn, sent)
            stopped = f"display {terminal}" in self.shown or is_not_done(answer)
            if stopped or answer[-1:] and reply_of(answer[-1]) in RUN_ENDS:
                return

    def would_abend(self, terminal: str) -> bool:
        """Whether the next turn of a terminal would be answered as an abend. One that EDF holds is none."""
        first, *_ = self.child.ask(f"AHEAD {terminal}")
        return f"display {terminal}" not in self.shown and first.split(" ")[3] in ("Abended", "TookExit")

    def define(self, action: Action) -> None:
        """Defines a program; of a source the listing is asked for, which isn't shown as answer."""
        first = SOURCE.sub(r"SOURCE \1 LIST\2", action.text) if SOURCE.fullmatch(action.text) else action.lines[0]
        answer = self.event(action, [first, *action.lines[1:]], None)
        source = source_of(action.lines, action.line, answer)
        if source:
            if source.lines:
                with_fields(source, self.child.ask(f"SYMBOLS {source.name}"))
            self.film.sources[source.name] = source

    def event(self, action: Action, lines: Lines, terminal: str | None, turn: int = 0, sent: Lines | None = None) -> Lines:
        """Gives an event, by the lines that are sent where they are others, keeps what it changed, and returns what was answered. One that is
        stopped in front of a line isn't done, and is none."""
        self.done += 1
        self.report(self.done)
        if self.done <= self.skipped:
            answer, *display = self.child.ask_each([sent or lines, *([[f"DISPLAY {terminal}"]] if turn else [])])
            self.done -= is_not_done(answer)
            answer = without_looks(answer) or answer
            self.note_terminal(action, answer)
            self.shown = {f"display {terminal}": it for it in display if is_there(it)}
            return answer
        level, is_first = self.levels.get(terminal or "", ("", 0))[0], self.done == self.skipped + 1 and self.skipped > 0
        self.shown = {} if is_first else self.shown
        asked = self.questions(set(self.film.terminals) if is_first else {terminal or ""} - {""})
        ahead = self.instructions_ahead(lines, terminal)
        arrivals = self.arrivals_ahead(terminal, ahead)
        answer, *given = self.child.ask_each([sent or lines, *([it] for it in asked.values())])
        if is_not_done(answer):
            self.done -= 1
            return answer
        answer = without_looks(answer) or answer
        self.note_terminal(action, answer)
        shown = dict(zip(asked, given))
        shown.update(self.more(shown, terminal))
        before = self.shown
        kept = {key: lines for key, lines in before.items() if key not in shown and not key.startswith("ahead ")}
        now = {key: lines for key, lines in {**kept, **shown}.items() if self.lives(key) and is_there(lines)}
        self.shown = now
        if is_first:
            self.film.before, before = now, now
        gone: Shown = {key: [] for key in before if key not in now}
        changes = {**{key: it for key, it in now.items() if before.get(key) != it}, **gone}
        event = Event(action.line, turn, lines[0] if turn else action.text, terminal, without_looks(answer)[-1:], changes, action.comments if turn < 2 else [])
        if terminal:
            self.note_place(event, terminal, without_looks(answer)[-1:], ahead)
        self.film.events.append(event)
        if lines[0].startswith("TURN ") and reply_of(event.answer[-1] if event.answer else "") in RAN:
            self.note_turn(event, level, arrivals)
        return answer

    def note_turn(self, event: Event, program: str, arrivals: list[Arrival]) -> None:
        """Notes of a turn that ran instructions with what it came to lines, and which statements it ran first. Where an exit of another program took
        its abend, the page has that program's source, and no arrivals."""
        event.arrivals = arrivals if event.ran is None or event.ran[0] == program else []
        if self.lines_to_count > 1:
            self.note_runs([program], self.done)

    def note_runs(self, programs: Lines, number: int) -> None:
        """Notes which statements of programs were run first by the event of a number; -1 where that isn't known."""
        names = [it for it in programs if it in self.film.sources]
        self.lines_to_count = max(1, self.lines_to_count - sum(len(self.film.sources[it].lines) for it in names))
        counts = {it: found.run for it, lines in self.asked({it: f"COVERED {it}" for it in names}).items() if (found := Covered.read(lines[0]))}
        new = {it: f"COVERED {it} LINES" for it, count in counts.items() if self.counted.get(it) != count}
        left_out = set() if not self.skipped else {*counts} - {*self.counted}  # what these ran before isn't known
        self.counted |= counts
        for it, lines in self.asked(new).items():
            self.film.sources[it].note_runs(lines, -1 if it in left_out else number)

    def instructions_ahead(self, lines: Lines, terminal: str | None) -> list[Instruction]:
        """Asks in front of a turn that runs instructions which these are."""
        if not self.has_instructions or not lines[0].startswith("TURN ") or terminal not in self.places or self.kept_bytes() > MOST_AHEAD:
            return []
        _, is_due = self.address_of(terminal)
        ahead = [] if is_due else self.child.ask(f"AHEAD {terminal} {MOST_INSTRUCTIONS}")
        return Instruction.all_in(ahead)

    def arrivals_ahead(self, terminal: str | None, ahead: list[Instruction]) -> list[Arrival]:
        """Asks in front of a turn of instructions with what it comes first to each line of the program at which the task is."""
        (program, _), _ = self.places.get(terminal or "", (("", 0), False))
        lines = [*dict.fromkeys(it.line for it in ahead if it.program == program)][: min(MOST_ARRIVALS, self.arrivals_left)]
        self.arrivals_left -= len(lines)
        return arrivals_in([*self.asked({str(line): f"AHEAD {terminal} AT {program} {line}" for line in lines}).values()])

    def note_place(self, event: Event, terminal: str, answer: Lines, ahead: list[Instruction]) -> None:
        """Notes where the task is after an event, and what a turn did since it was there: by its instructions where these are known, and
        else what it surely did."""
        before, (address, is_due) = self.places.pop(terminal, None), self.address_of(terminal)
        event.ran = self.place_of(terminal, address)
        if event.ran:
            self.places[terminal] = event.ran, not is_due and self.film.sources[event.ran[0]].is_within(address)
        elif answer and " Abended " in answer[0]:
            event.ran = place_in(self.shown.get(f"abend {terminal}", []))
        if before and event.text.startswith("TURN "):
            (program, line), is_done = before
            event.passed = self.film.sources[program].path(line, event.ran[1] if event.ran and event.ran[0] == program else None, is_done)
            known = [it.line for it in ahead if it.program == program and (it.program, it.line) != event.ran]
            # of a long run the first lines aren't among the last instructions
            event.passed = sorted({*event.passed, *known} if len(ahead) == MOST_INSTRUCTIONS else {*known}) if known else event.passed

    def note_terminal(self, action: Action, answer: Lines) -> None:
        if action.word == "TERMINAL" and answer and answer[-1].endswith(" DEFINED"):
            self.film.terminals.append(answer[-1].split(" ")[1])

    def questions(self, terminals: set[str]) -> dict[str, str]:
        """What is asked after an event, by the name under which it is shown: the tables, what is at the event's terminal, and of each other
        task what others can change too, of its lowest levels first."""
        asked = {"tasks": "TASKS", "resources": "RESOURCES", "queues": "QUEUES", "cwa": f"STORAGE {CWA[0]} {CWA[1]}"}
        for terminal in sorted(terminals):
            for name in ("SCREEN", "DISPLAY", "ABEND"):
                asked[f"{name.lower()} {terminal}"] = f"{name} {terminal}"
            if self.kept_bytes() <= MOST_AHEAD:
                asked[f"ahead {terminal}"] = f"AHEAD {terminal}{' 1' if self.has_instructions else ''}"
        for it in sorted({*terminals, *self.levels}):
            asked[f"task {it}"], asked[f"command {it}"] = f"TASK {it}", f"COMMAND {it}"
        asked |= {f"areas {terminal}": f"AREAS {terminal}" for terminal in terminals}
        left = OTHERS
        for it, areas in sorted(self.areas.items(), key=lambda it: it[0] not in terminals):
            chosen = areas if it in terminals else within(areas, min(left, OTHER))
            left -= 0 if it in terminals else sum(map(length_of, chosen.values()))
            asked |= chosen
        return asked

    def more(self, shown: Shown, terminal: str | None) -> Shown:
        """Notes levels, areas and queues; new areas are asked for now, and queues that can have changed."""
        old_lines, due = self.shown.get("queues", []), self.shown.get(f"command {terminal}", [""])[0]
        self.queues = {f"queue {queue_word(line)}": line for line in shown["queues"] if " ITEMS " in line}
        more = {it: it.replace("queue", "QUEUE", 1) for it, line in self.queues.items() if line not in old_lines or due.startswith("> WRITEQ")}
        for key, lines in [*shown.items()]:
            word, _, name = key.partition(" ")
            if word == "task":
                self.levels.pop(name, None)
                self.levels.update({name: (it.program, it.back) for it in Level.all_in(lines)[-1:]})
            elif word == "areas":
                self.bytes[name] = sum(it.length for it in Area.all_in(lines))
                old, self.areas[name] = self.areas.get(name, {}), areas_in(name, shown.pop(key))
                more.update({area: question for area, question in self.areas[name].items() if old.get(area) != question})
                self.named = {*self.named, name} if self.has_names(name) else self.named - {name}
                more.update({f"fields {name}": f"FIELDS {name}"} if name in self.named else {})
        found = self.asked(more)
        for key in [it for it in found if it.startswith("queue ")]:
            self.items[key] = items_in(key, found[key])
            found |= self.asked(self.items[key])
        return found

    def asked(self, questions: dict[str, str]) -> Shown:
        return dict(zip(questions, self.child.ask_each([[it] for it in questions.values()]))) if questions else {}

    def kept_bytes(self) -> int:
        """How many bytes tasks' areas and queues have, as far as that was seen."""
        return sum(self.bytes.values()) + sum(it.bytes for it in Queue.all_in(self.queues.values()))

    def has_names(self, terminal: str) -> bool:
        """Whether the fields of a task's areas are asked for, which takes the longer the longer the source is."""
        source = self.film.sources.get(self.levels.get(terminal, ("", 0))[0])
        if not source or not source.lines or not any(it.startswith("area ") for it in self.areas[terminal]):
            return False
        self.lines_left -= len(source.lines)
        return self.lines_left >= 0

    def lives(self, key: str) -> bool:
        """Whether what was shown under a name is there yet: an area while the task has it, a task while it lives, a queue."""
        word, _, rest = key.partition(" ")
        if word in ("storage", "area"):
            return key in self.areas.get(rest.split(" ")[0], {})
        if word == "queue":
            return key in self.queues
        if word == "item":
            queue = f"queue {rest.split(' ')[0]}"
            return queue in self.queues and key in self.items.get(queue, {})
        return rest in self.named if word == "fields" else word not in ("task", "command", "ahead") or rest in self.levels

    def address_of(self, terminal: str) -> tuple[int, bool]:
        """Where a terminal's task is: its next instruction's address, or where a command is due that of the last byte of its EXEC."""
        lines = self.shown.get(f"task {terminal}", [""])
        following = next(iter(Next.all_in(lines)), None)
        if following and " RUNNING" in lines[0]:
            return following.address, False
        return self.levels.get(terminal, ("", 0))[1] - 1, True

    def place_of(self, terminal: str, address: int) -> tuple[str, int] | None:
        """The program at which a terminal's task is, and the line of the source."""
        program, _ = self.levels.get(terminal, ("", 0))
        source = self.film.sources.get(program)
        line = source.line_of(address) if source else None
        return (program, line) if line else None


def arrivals_in(answers: list[Lines]) -> list[Arrival]:
    """The arrivals at lines, by what AHEAD AT writes of each. One that is answered NONE has none."""
    found: list[Arrival] = []
    before = ["00000000"] * 16
    for answer in answers:
        arrived = Arrived.read(answer[0]) if answer else None
        if arrived:
            now = [word for it in Registers.all_in(answer) for word in it.words.split()]
            found.append((arrived.line, arrived.code, {number: word for number, word in enumerate(now) if word != before[number]}))
            before = now
    return found


def is_not_done(answer: Lines) -> bool:
    """Whether a RUN of one turn did none: it stopped in front of the turn, or its line has no statement."""
    return answer[-1:] != [] and answer[-1].startswith("> RUN ") and not without_looks(answer)


def length_of(question: str) -> int:
    return int(question.split(" ")[2])


def within(areas: dict[str, str], most: int) -> dict[str, str]:
    """The first areas that have together at most so many bytes."""
    sums = itertools.accumulate(map(length_of, areas.values()))
    return {key: question for (key, question), length in zip(areas.items(), sums) if length <= most}


def areas_in(terminal: str, lines: Lines) -> dict[str, str]:
    """What is asked of a task's areas, by what AREAS writes: its last level's DFHEISTG, those of GETMAIN and others, levels before."""
    found = Area.all_in(lines)
    storages = [(f"storage {terminal} {it.level}", it, SHOWN) for it in sorted(found, key=lambda it: -(it.level or 0)) if it.level]
    others = [(f"area {terminal} {it.address:06X}", it, IN_AREA) for it in found if not it.level]
    ordered = [*storages[:1], *others, *storages[1:]]
    return within({key: f"STORAGE {it.address:06X} {min(it.length, most)}" for key, it, most in ordered}, OWN)


def items_in(key: str, lines: Lines) -> dict[str, str]:
    """What is asked of a queue's items, by what QUEUE writes: the bytes of the first ones."""
    name, found = key.split(" ")[1], Item.all_in(lines)
    return {f"item {name} {it.number}": f"QUEUE {name} {it.number}" for it in found[:MOST_ITEMS] if it.length <= ITEM_BYTES}


def queue_word(line: str) -> str:
    """A queue's name as QUEUE takes it, of its line: as it is, or by the codes of its characters."""
    found = Queue.read(line)
    assert found
    is_word = found.name is not None and re.fullmatch(r"[A-Z0-9@#$]{1,8}", found.name)
    return found.name if found.name is not None and is_word else found.code


def is_there(lines: Lines) -> bool:
    """Whether a look found anything."""
    return bool(lines) and not (len(lines) == 1 and lines[0].endswith(" NONE"))
