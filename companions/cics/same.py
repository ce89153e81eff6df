"""Whether programs do the same: two scripts run, key by key, and what the region has after each compared.

Of a script its definitions, clocks and keys are taken. After each key the terminals are turned in the order of their definition, each up
to a turn that is answered Idle or Waiting, round by round until no terminal goes on.
"""
import contextlib
import re
from collections.abc import Callable, Iterator
from dataclasses import dataclass, field, replace
from enum import IntEnum

from cics.child import Child, Gone, Overdue, text_of
from cics.cover.asking import ON
from cics.cover.changes import Ran, ran_of
from cics.looks import Area, Kept, Queue
from cics.queues import TERMINAL, Loader
from cics.scripts import BLOCK_END, Action, actions_of, free_name
from cics.transcripts import CWA, RESTS, reply_of

TURNS = 5000  # after a key: more than any program needs that comes to rest
AT_ONCE = 50  # turns that are typed before their answers are read: those after a rest change nothing
TAKEN = ("IMAGE", "SOURCE", "TRANSACTION", "TERMINAL", "CLOCK", "KEY")
LONGEST_LOOK, COMMAREA_SHOWN = 4096, 64  # bytes that STORAGE writes, and that TERMINALS writes of a COMMAREA
BAD = re.compile(r"line (?P<line>[0-9]+): (?P<why>.*)")  # a line of those that the program was given, and what is wrong with it


class Depth(IntEnum):
    """What is compared after a key, each with all before it."""

    SCREENS = 0
    SHOWN = 1
    KEPT = 2


SAID = {
    Depth.SCREENS: "answers, ends of tasks and screens",
    Depth.SHOWN: "answers, ends of tasks, screens and queues",
    Depth.KEPT: "answers, ends of tasks, screens, next transactions and COMMAREAs, held input, resources, the common work area, and queues with "
                "the item last read"}


class Fault(Exception):
    """Why one of the two can't be run."""


class Restless(Exception):
    """A terminal that doesn't come to rest."""


@dataclass(frozen=True)
class Seen:
    """A line that was seen, and what it is of; an answer is of nothing."""

    of: str
    line: str


@dataclass(frozen=True)
class Page:
    """What is seen after a key: the key's line and its number, what is seen, and whether all terminals have come to rest."""

    number: int
    key: str
    seen: list[Seen]
    is_at_rest: bool = True


@dataclass(frozen=True)
class NewSource:
    """A source that replaces a block: its file and its lines."""

    file: str
    lines: list[str]


@dataclass
class Sources:
    """Sources that replace blocks of a script, by their names, and which of them were found."""

    given: dict[str, NewSource]
    found: set[str] = field(default_factory=set)

    def replaced(self, action: Action) -> Action:
        name = action.words[1] if len(action.words) > 1 else ""
        if action.word != "SOURCE" or name not in self.given:
            return action
        self.found.add(name)
        source = self.given[name]
        return replace(action, lines=[f"SOURCE {name}", *source.lines, BLOCK_END], block_file=source.file)


def steps_of(script: str, sources: Sources, file: str = "") -> list[Action]:
    """A script's actions, with SOURCE blocks replaced."""
    return [sources.replaced(action) for action in actions_of(script, file)]


@contextlib.contextmanager
def placed(child: Child, lines: int, place: Callable[[int], str]) -> Iterator[None]:
    """Where the program ends by a line of some that it is given now, it is told by the file and the line that the user has."""
    begun = child.count
    try:
        yield
    except Gone as why:
        bad = BAD.search(why.ended.why())
        at = int(bad["line"]) - begun - 1 if bad else -1
        if bad and 0 <= at < lines:
            raise Fault(f"{place(at)}: {bad['why']}") from None
        raise


def digits_of(shown: str) -> str:
    """The digits of a queue's name, as QUEUES shows it: in characters, or X and digits."""
    return shown[2:-1] if shown[0] == "X" else shown[1:-1].ljust(8).encode("cp037").hex().upper()


class Region:
    """The program, with a script's terminals."""

    def __init__(self, child: Child, depth: Depth) -> None:
        self.child, self.depth, self.terminals = child, depth, list[str]()
        self.long: dict[str, int] = {}  # terminals for which a COMMAREA is kept of which not all is shown, and its length

    def look(self, of: str, line: str) -> list[Seen]:
        return [Seen(of, found) for found in self.child.ask(line)]

    def turned(self, terminal: str, left: int) -> list[str]:
        """The answers of a terminal's turns, up to its rest."""
        answers: list[str] = []
        while not any(answer in RESTS for answer in answers[-AT_ONCE:]):
            if len(answers) > left:
                raise Restless(terminal)
            answers += [line.split(" ", 2)[2] for line in self.child.ask(*[f"TURN {terminal}"] * AT_ONCE)]
        return answers[: next(at for at, answer in enumerate(answers) if answer in RESTS) + 1]

    def rested(self) -> Iterator[Seen]:
        """How tasks ended, when all terminals have been turned to rest."""
        left, is_moving = TURNS, True
        while is_moving:
            is_moving = False
            for terminal in self.terminals:
                answers = self.turned(terminal, left)
                left, is_moving = left - len(answers), is_moving or len(answers) > 1
                yield from (Seen("", f"{terminal} {answer}") for answer in answers if answer.startswith(("Ended", "Abended")))

    def pressed(self, step: Action) -> Page:
        """What is seen after a key: its answer, how tasks ended, all screens, and what is kept."""
        with placed(self.child, 1, step.place):
            seen = self.look("", step.lines[0])
        if step.terminal in self.long and reply_of(seen[0].line) == "Attached":
            seen += self.commarea(step.terminal)
        try:
            seen += self.rested()
        except Restless as why:
            return Page(step.line, step.lines[0], [*seen, Seen("", f"{why} doesn't come to rest within {TURNS} turns")], False)
        for terminal in self.terminals:
            seen += self.look(f"SCREEN {terminal}", f"SCREEN {terminal}")
        seen += self.kept() if self.depth >= Depth.KEPT else []
        return Page(step.line, step.lines[0], seen + (self.queues() if self.depth >= Depth.SHOWN else []))

    def kept(self) -> list[Seen]:
        """What a later key can find, beside screens and queues."""
        _clock, *lines = self.child.ask("TERMINALS")
        self.long = {it.terminal: it.length for it in Kept.all_in(lines) if it.length > COMMAREA_SHOWN}
        seen = [Seen("what is kept for a terminal", line) for line in lines]
        return seen + self.look("a resource", "RESOURCES") + self.look("the common work area", f"STORAGE {CWA[0]} {CWA[1]}")

    def commarea(self, terminal: str) -> list[Seen]:
        """The bytes of the COMMAREA that was given to a task now: TERMINALS shows the first of them alone."""
        length = self.long.pop(terminal)
        copy = next((it for it in Area.all_in(self.child.ask(f"AREAS {terminal}")) if it.kind == "OTHER" and it.length == length), None)
        if copy is None:
            raise Fault(f"the COMMAREA that is kept for {terminal} has {length} bytes, and not all of them can be seen")
        seen = []
        for at in range(0, length, LONGEST_LOOK):
            rows = self.child.ask(f"STORAGE {copy.address + at:06X} {min(LONGEST_LOOK, length - at)}")
            seen += [Seen(f"the COMMAREA for {terminal}", f"> {at + 16 * row:06X}  {line[10:]}") for row, line in enumerate(rows[:-1])]
        return seen

    def last_commareas(self) -> list[Seen]:
        """The long COMMAREAs that are kept after the last key, by one more key for each."""
        seen = []
        for terminal in [*self.long]:
            if reply_of(self.child.ask(f"KEY {terminal} ENTER")[0]) != "Attached":
                raise Fault(f"the COMMAREA that is kept for {terminal} has {self.long[terminal]} bytes, and not all of them can be seen")
            seen += self.commarea(terminal)
        return seen

    def queues(self) -> list[Seen]:
        """All queues, with each item as a whole."""
        seen = []
        for line in self.child.ask("QUEUES"):
            seen.append(Seen("a queue", line))
            if queue := Queue.read(line):
                for number in range(1, queue.items + 1):
                    seen += self.look(f"item {number} of queue {queue.shown}", f"QUEUE {queue.code} {number}")
        return seen

    def defined(self, step: Action) -> list[str]:
        """Defines what a step says, and gives what is answered; a refusal is a fault."""
        return self.asked(step.lines, step.place)

    def asked(self, lines: list[str], place: Callable[[int], str]) -> list[str]:
        """The same of lines, each with its place."""
        with placed(self.child, len(lines), place):
            answers = self.child.ask(*lines)
        refused = [line for line in answers if " REFUSED " in line]
        if refused:
            raise Fault(f"{place(0)}: {refused[0]}")
        if lines[0].startswith("TERMINAL "):
            self.terminals.append(lines[0].split()[1])
        return answers

    def loaded(self, loaders: list[Loader]) -> None:
        """Loads test data at a terminal of its own, which is none of those that are compared."""
        terminals = [*self.terminals]
        if loaders:
            self.asked([f"TERMINAL {TERMINAL}"], lambda _: "test data")
        for loader in loaders:
            self.asked([f"SOURCE {loader.name}", *loader.lines, BLOCK_END], loader.place)
            self.asked([f"TRANSACTION {loader.transaction} {loader.name}"], lambda _: "test data")
            self.child.ask(f"KEY {TERMINAL} ENTER {loader.transaction}")
            replies = map(reply_of, self.child.ask(*[f"TURN {TERMINAL}"] * loader.turns))
            last = next((reply for reply in replies if reply in ("Ended", "Waiting", "Abended")), "doesn't end")
            if last != "Ended":
                raise Fault(f"{TERMINAL}, which loads test data: {last}")
        self.terminals = terminals


def pages_of(region: Region, steps: list[Action], loaders: list[Loader]) -> Iterator[Page]:
    """What is seen after each key, up to one after which a terminal doesn't come to rest. Test data is loaded before the first."""
    left = loaders
    for step in steps:
        if step.word != "KEY":
            region.defined(step)
            continue
        region.loaded(left)
        left = []
        page = region.pressed(step)
        yield page
        if not page.is_at_rest:
            return


def child_of(command: list[str], steps: list[Action]) -> Child:
    """A child for these steps, with a mark that none of them names."""
    return Child(command, free_name("".join(text_of(step.lines) for step in steps)) or "")


@dataclass(frozen=True)
class Run:
    """What is seen after each key of a script, and what the keys ran of its sources; none where the program doesn't count that."""

    pages: list[Page]
    ran: list[Ran] | None


def run_of(region: Region, steps: list[Action], loaders: list[Loader], *, counts: bool) -> Run:
    """Presses the keys, asks what they ran, and looks at what only one more key shows."""
    if counts:
        region.child.ask(ON)
    pages = [*pages_of(region, steps, loaders)]
    ran = ran_of(region.child, steps) if counts else None
    last = region.last_commareas() if pages and pages[-1].is_at_rest else []
    return Run([*pages, *([Page(steps[-1].line, f"after {steps[-1].lines[0]}", last)] if last else [])], ran)


def seen(command: list[str], steps: list[Action], loaders: list[Loader], depth: Depth, *, counts: bool) -> Run:
    """What is seen after each key of a script, and what they run where the program counts it."""
    with child_of(command, steps) as child:
        try:
            return run_of(Region(child, depth), [step for step in steps if step.word in TAKEN], loaders, counts=counts)
        except Overdue as why:
            raise Fault(why_of(why)) from None


def why_of(why: Overdue) -> str:
    return why.ended.why() if isinstance(why, Gone) else str(why)


def difference(old: list[Seen], new: list[Seen]) -> tuple[Seen | None, Seen | None] | None:
    """The first that differs, of the old and of the new ones."""
    pairs = zip([*old, *[None] * len(new)], [*new, *[None] * len(old)])
    return next(((before, after) for before, after in pairs if before != after), None)


def count_keys(pages: list[Page]) -> int:
    return sum(not page.key.startswith("after ") for page in pages)


def report_of(old: list[Page], new: list[Page]) -> list[str]:
    """The lines on the first key after which something differs; none where nothing does. A fault where no key shows it."""
    if not old:
        raise Fault("no key is pressed, so nothing is compared")
    for before, after in zip(old, new):
        if found := difference(before.seen, after.seen):
            of = next((it.of for it in found if it and it.of), "")
            lines = [it.line if it else "" for it in found]
            return [f"line {before.number}, {before.key}: {f'{of} differs' if of else ''}".rstrip(), f"old: {lines[0]}", f"new: {lines[1]}"]
    if not old[-1].is_at_rest:
        raise Fault(f"line {old[-1].number}, {old[-1].key}: {old[-1].seen[-1].line}, with both, so nothing is known of what follows")
    if len(old) != len(new):
        raise Fault("a COMMAREA that is kept after the last key can be seen of one alone")
    return []


def compared_of(depth: Depth) -> str:
    """What was compared, where nothing differs."""
    return f"compared after each key: {SAID[depth]}; the script's own turns were left out"
