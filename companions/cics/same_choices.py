"""How two versions of programs differ by lists of keys: what CHOICES of `cicslook` writes of each is walked together, pair of states by pair
of states, from the shortest list on. Where nothing differs, all keys are pressed once more, in each state, and what that runs is counted.
"""
import re
from collections import deque
from collections.abc import Iterator, Sequence
from dataclasses import dataclass, field

from cics.child import Overdue, lines_of
from cics.choices import MOST_DEPTH, MOST_STATES, Arrow, Choices, Question, State, why_not, why_vacuous
from cics.cli import MISUSED, Failure, name_of
from cics.cover.asking import ON
from cics.cover.changes import Ran, ran_of
from cics.line_forms import Search
from cics.looks import Queue
from cics.orders import performed
from cics.queues import Loader
from cics.same import Depth, Fault, Page, Region, Seen, child_of, difference, why_of
from cics.same_queues import label_of
from cics.scripts import MOST_TURNS, Action, is_silent
from cics.sides import text_of
from cics.transcripts import RESTS, is_of_page, reply_of

ROW = re.compile(r"[0-9A-F]{4} [0-9A-F]{2}")  # a row of an item's bytes
MOST_PRESSED = 10_000  # keys that are pressed to count what they run
PRESSED, NOT_PRESSED = "it can be pressed", "it can't be pressed"


def question_in(path: str, depth: int, states: int, *, has_one_number: bool) -> Question:
    """What is asked by the lines of a file: keys, and what is to be seen. A line that may not stand in the block is a failure."""
    if not (1 <= depth <= MOST_DEPTH and 1 <= states <= MOST_STATES):
        raise Failure(f"lists of 1 to {MOST_DEPTH} keys, and 1 to {MOST_STATES} states, can be asked for, not of {depth} keys and {states} states", MISUSED)
    search, lines = Search("CHOICES"), [line.removesuffix("\r") for line in lines_of(text_of(path))]
    for number, line in enumerate(lines, 1):
        if reason := search.line(line):
            raise Failure(f"{name_of(path)}:{number}: {reason.text}", MISUSED)
    asked = [line for line in lines if not is_silent(line)]
    keys = [line for line in asked if line.startswith("KEY ")]
    question = Question(keys, [line for line in asked if line not in keys], depth, states, has_one_number)
    if why := why_not(question):
        raise Failure(f"{name_of(path)}: {why}", MISUSED)
    return question


@dataclass(frozen=True)
class Pair:
    """A state of the old answer and one of the new one to which a list of keys leads, these by their numbers."""

    old: State
    new: State
    keys: tuple[int, ...]


@dataclass(frozen=True)
class Difference:
    """The list after which something differs, what that is of, and a line of the old and of the new one."""

    keys: tuple[int, ...]
    of: str
    old: str
    new: str


def seen_of(state: State) -> Iterator[Seen]:
    """A state's text, each line of a page with its screen, and each of a queue with that, or with its item."""
    of, queue = "", ""
    for line in state.text:
        listed = Queue.read(line)
        queue = listed.shown if listed else queue
        if is_of_page(line) or ROW.match(line):
            yield Seen(of, line)
        else:
            label = label_of(line, queue)
            of = label or line
            yield Seen(label, line)


def incidents_of(arrow: Arrow) -> list[Seen]:
    return [Seen("what comes of the last key", incident.line()) for incident in arrow.incidents]


def differing(keys: tuple[int, ...], old: Sequence[Seen], new: Sequence[Seen]) -> Difference | None:
    """The first line that differs."""
    found = difference([*old], [*new])
    if found is None:
        return None
    of = next((it.of for it in found if it and it.of), "what is seen")
    return Difference(keys, of, *(it.line if it else "" for it in found))


@dataclass
class Together:
    """Two answers that are walked together, breadth first, from the first state of each on."""

    old: Choices
    new: Choices
    met: set[tuple[int, int]] = field(default_factory=set)
    waiting: deque[Pair] = field(default_factory=deque)
    restless: list[Pair] = field(default_factory=list)  # neither of the two comes to rest

    def come(self, keys: tuple[int, ...], old: int, new: int) -> Difference | None:
        """How the two states differ to which a list leads; pairs that were met before don't."""
        if (old, new) in self.met:
            return None
        pair = Pair(self.old.state(old), self.new.state(new), keys)
        self.met.add((old, new))
        self.waiting.append(pair)
        self.restless += [pair] if pair.old.is_running() and pair.new.is_running() else []
        return differing(keys, [*seen_of(pair.old)], [*seen_of(pair.new)])

    def pressed(self, keys: tuple[int, ...], old: Arrow | None, new: Arrow | None) -> Difference | None:
        """How what comes of the last key of a list differs, or else the states to which it leads, where both are written."""
        if old is None or new is None:
            return Difference(keys, "the last key", *(PRESSED if arrow else NOT_PRESSED for arrow in (old, new)))
        found = differing(keys, incidents_of(old), incidents_of(new))
        return found if found or old.to is None or new.to is None else self.come(keys, old.to, new.to)

    def differences(self) -> Iterator[Difference]:
        """The differences, those of shorter lists first, and of lists as long those with lower keys first."""
        first = self.come((), 1, 1)
        yield from [first] if first else []
        while self.waiting:
            pair = self.waiting.popleft()
            old, new = ({arrow.key: arrow for arrow in state.arrows} for state in (pair.old, pair.new))
            for key in sorted({*old, *new}):
                found = self.pressed((*pair.keys, key), old.get(key), new.get(key))
                yield from [found] if found else []

    def first(self) -> Difference | None:
        return next(self.differences(), None)

    def depth(self) -> int:
        """Of how many keys all lists were compared, at least."""
        return min(self.old.depth, self.new.depth)


def nearest(choices: Choices, left: Sequence[deque[Arrow]], begin: int) -> list[Arrow]:
    """The shortest way from a state on that ends with an arrow that is left, which is taken out; empty where there is none."""
    came: dict[int, tuple[int, Arrow] | None] = {begin: None}
    waiting = deque([begin])
    while waiting:
        number = waiting.popleft()
        if left[number - 1]:
            way, step = [left[number - 1].popleft()], came[number]
            while step:
                way.append(step[1])
                step = came[step[0]]
            return way[::-1]
        for arrow in choices.state(number).arrows:
            if arrow.to is not None and arrow.to not in came:
                came[arrow.to] = number, arrow
                waiting.append(arrow.to)
    return []


@dataclass
class Tours:
    """Lists of keys, each from the first state on, which together press each key in each state where it is written what it leads to; and how
    many of these keys are left out, where they would be too many."""

    lists: list[list[int]]
    left: int


def tours_of(choices: Choices, most: int = MOST_PRESSED) -> Tours:
    left = [deque(arrow for arrow in state.arrows if arrow.to is not None) for state in choices.states]
    lists: list[list[int]] = []
    at: int | None = None
    while most > 0:
        way = nearest(choices, left, at or 1)
        if not way and at is None:
            break
        if way and at is None:
            lists.append([])
        if way:
            lists[-1] += [arrow.key for arrow in way]
            most -= len(way)
        at = way[-1].to if way else None
    return Tours(lists, sum(map(len, left)))


def rest(region: Region) -> None:
    """Gives the first terminal that can act a turn, again and again, until none can, as CHOICES does."""
    left = MOST_TURNS
    while left > 0 and (acted := acted_in(region)):
        left -= acted


def acted_in(region: Region) -> int:
    """How many turns the first terminal that can act did: the only terminal all that it can."""
    if len(region.terminals) == 1:
        return len(region.turned(region.terminals[0], MOST_TURNS)) - 1
    return int(any(reply_of(region.child.ask(f"TURN {terminal}")[0]) not in RESTS for terminal in region.terminals))


@dataclass
class Counted:
    """What was run of each source, what the keys in front of the question were answered, and how many keys weren't pressed."""

    ran: list[Ran]
    front: list[Page]
    left: int


def counted(command: list[str], before: list[Action], choices: Choices, keys: Sequence[str], loaders: list[Loader]) -> Counted:
    """Presses all keys in all states, with the script in front, and counts what is run."""
    tours = tours_of(choices)
    found = Counted([], [], tours.left)
    for tour in tours.lists or [[]]:
        with child_of(command, before) as child:
            try:
                child.ask(ON)
                region = Region(child, Depth.SCREENS)
                found.front = performed(region, before, loaders)
                child.ask(*choices.state(1).moves)
                for key in tour:
                    child.ask(keys[key - 1])
                    rest(region)
                ran = ran_of(child, before)
            except Overdue as why:
                raise Fault(why_of(why)) from None
        found.ran = [one.plus(more) for one, more in zip(found.ran, ran)] or ran
    return found


def listed(count: int, what: str) -> str:
    return f"{count} {what}{'s' if count != 1 else ''}"


def of_keys(many: int, count: int) -> str:
    """So many keys of a list, each of which is one of those that are asked."""
    return f"{listed(many, 'key')}, {'each ' if many != 1 else ''}one of {count}"


def sizes_of(choices: Choices) -> str:
    return f"{listed(len(choices.states), 'state')} and {listed(choices.screens, 'screen')}"


def report_of_difference(found: Difference, keys: Sequence[str]) -> list[str]:
    """The lines on a difference: its list, and a line of each."""
    where = f"by {of_keys(len(found.keys), len(keys))}" if found.keys else "before any key"
    return [f"{where}: {found.of} differs", *(keys[key - 1] for key in found.keys), f"old: {found.old}", f"new: {found.new}"]


def why_unknown(together: Together, names: Sequence[str], keys: Sequence[str]) -> str | None:
    """Why not all is known, though nothing differs."""
    if why := why_vacuous([together.old, together.new]):
        return why
    if together.restless:
        pair = together.restless[0]
        after = ", ".join(keys[key - 1] for key in pair.keys) or "the script alone"
        return f"neither comes to rest after {after}, so nothing is known of what follows"
    for name, choices in zip(names, (together.old, together.new)):
        if choices.most is not None:
            return (f"{name} has more than {choices.most} states, so only lists of at most {of_keys(together.depth(), len(keys))}, were compared, and by "
                    "these both are the same: give --states more, or choose fewer keys")
    return None


def same_by(together: Together, names: Sequence[str], count: int) -> str:
    """That nothing differs, by which lists."""
    is_closed = together.old.is_closed and together.new.is_closed
    lists = f"any number of keys (CLOSED), each one of {count}" if is_closed else f"at most {of_keys(together.depth(), count)}"
    return f"same by every list of {lists}: {names[0]} has {sizes_of(together.old)}, {names[1]} {sizes_of(together.new)}"


ONE_NUMBER = ("with ONE NUMBER each key begins with the task number that the first has: of what a program does as these numbers grow nothing is said, nor "
              "is that part of CLOSED")


def compared_by(question: Question, left: int) -> list[str]:
    """What was compared, and what was left out."""
    seen = f"{', '.join(question.seen) or 'all screens'}, and all queues by their bytes"
    lines = [ONE_NUMBER] if question.has_one_number else []
    lines += [f"what is run was counted up to {MOST_PRESSED} keys; in {left} places a key wasn't pressed for that"] if left else []
    return [*lines, f"compared after each key: abends, refused keys, tasks that wait, {seen}; the script in front is as cicslook runs it"]
