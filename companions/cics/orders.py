"""What ORDERS of `cicslook` writes of a script's last ORDERS, before which sources were replaced, and how two of these differ.

ORDERS says how many states and outcomes there are, or that there are more states than it may keep. Of each outcome it writes what is seen,
and then a list of moves, as lines of a script, with comments behind a RUN that say what its turns perform. A list follows too where some
order never comes to rest, or can't any more.
"""
import re
from collections.abc import Iterator
from dataclasses import dataclass, field, replace

from cics.child import Overdue
from cics.cover.asking import ON
from cics.cover.changes import Ran, ran_of
from cics.queues import Loader
from cics.same import Depth, Fault, Page, Region, Seen, child_of, placed, why_of
from cics.scripts import EVENTS, Action, is_silent
from cics.transcripts import reply_of

SECONDS = 600.0  # that a search may take
MOST_LISTS = 200  # lists of moves that are done to count what they run
KEYS = "(?: KEYS (?:WHEN ASKED|TYPED AHEAD))?"  # where keys are still to come
FOUND = re.compile(f"ORDERS STATES ([0-9]+) OUTCOMES ([0-9]+){KEYS}")
CUT = re.compile(f"ORDERS MORE THAN ([0-9]+) STATES, ALL OF [0-9]+ MOVES{KEYS}")
OUTCOME = re.compile(r"OUTCOME [0-9]+")
NEVER, CANNOT = "ORDERS SOME NEVER REST", "ORDERS SOME CANNOT REST"
MOVE = re.compile(r"EDF \S+ OFF|KEY .*|RUN \S+ [0-9]+")
COMMENT = "* "  # behind the RUN of a list


@dataclass
class Outcome:
    """What is seen of an outcome, and the lines of a script that lead there."""

    text: list[str] = field(default_factory=list)
    moves: list[str] = field(default_factory=list)


@dataclass
class Orders:
    """What a search found: its outcomes in the order in which they are written; where it was cut, how many states it could keep; and the
    lines that lead to a state of each kind that doesn't come to rest."""

    states: int = 0
    most: int | None = None
    outcomes: list[Outcome] = field(default_factory=list)
    restless: dict[str, list[str]] = field(default_factory=dict)


def read_orders(lines: list[str]) -> Orders:
    """What the lines say that ORDERS wrote."""
    orders, current = Orders(), Outcome()
    for line in (line.removeprefix("> ") for line in lines):
        if found := FOUND.fullmatch(line):
            orders.states = int(found[1])
        elif cut := CUT.fullmatch(line):
            orders.most = int(cut[1])
        elif OUTCOME.fullmatch(line):
            current = Outcome()
            orders.outcomes.append(current)
        elif line in (NEVER, CANNOT):
            current = Outcome()
            orders.restless[line] = current.moves
        else:
            is_move = MOVE.fullmatch(line) or (current.moves and line.startswith(COMMENT))
            (current.moves if is_move else current.text).append(line)
    return orders


@dataclass(frozen=True)
class Asked:
    """A script's last ORDERS, or another block that asks, and the events in front of it."""

    before: list[Action]
    block: Action


def asked_of(steps: list[Action], word: str = "ORDERS") -> Asked | None:
    at = next((at for at in reversed(range(len(steps))) if steps[at].word == word), None)
    return None if at is None else Asked([step for step in steps[:at] if step.word in EVENTS], steps[at])


def performed(region: Region, steps: list[Action], loaders: list[Loader]) -> list[Page]:
    """Does what a script does, as cicslook does it; test data is loaded before the first key or turn, or at the end. Gives each key's answer,
    with the ends of tasks up to the next key."""
    left, pages = loaders, list[Page]()
    for step in steps:
        if left and step.word in ("KEY", "TURN", "EDF", "ALTER", "RUN"):
            region.loaded(left)
            left = []
        answers = region.defined(step)
        pages += [Page(step.line, step.lines[0], [])] if step.word == "KEY" else []
        if pages:
            pages[-1].seen.extend(Seen("", answer) for answer in answers if step.word == "KEY" or reply_of(answer) in ("Ended", "Abended"))
    region.loaded(left)
    return pages


def answered(command: list[str], asked: Asked, loaders: list[Loader]) -> list[str]:
    """What a block writes where the script has come to it."""
    with child_of(command, [*asked.before, asked.block]) as child:
        try:
            performed(Region(child, Depth.SCREENS), asked.before, loaders)
            with placed(child, len(asked.block.lines), asked.block.place):
                return child.ask(*asked.block.lines, seconds=SECONDS)
        except Overdue as why:
            raise Fault(why_of(why)) from None


def searched(command: list[str], asked: Asked, loaders: list[Loader]) -> Orders:
    """What ORDERS finds where the script has come to it."""
    lines = answered(command, asked, loaders)
    orders = read_orders(lines)
    if not orders.states and orders.most is None:
        raise Fault(lines[0] if lines else "ORDERS writes nothing")
    return orders


def with_looks(asked: Asked, looks: list[str]) -> Asked:
    """The same question with more to be seen; where nothing is named it is all screens."""
    lines = asked.block.lines
    has_own = any(not is_silent(line) and not line.startswith("KEY ") for line in asked.block.block)
    terminals = [step.terminal for step in asked.before if step.word == "TERMINAL" and step.terminal]
    screens = [] if has_own else [f"SCREEN {name}" for name in terminals]
    return replace(asked, block=replace(asked.block, lines=[*lines[:-1], *screens, *looks, lines[-1]]))


def count_looks(asked: Asked) -> int:
    """How many looks a question has: its own, or all screens."""
    return sum(not is_silent(line) and not line.startswith("KEY ") for line in with_looks(asked, []).block.block)


@dataclass
class Counted:
    """What was run of each source on the ways to outcomes, and how many of these ways were left out."""

    ran: list[Ran] = field(default_factory=list)
    left: int = 0


def counted_by_lists(command: list[str], asked: Asked, orders: Orders, loaders: list[Loader]) -> Counted:
    """Does the list of moves to each outcome, and to each state that doesn't come to rest, and counts what is run."""
    lists = [outcome.moves for outcome in orders.outcomes] + [*orders.restless.values()]
    found = Counted(left=max(0, len(lists) - MOST_LISTS))
    for moves in lists[:MOST_LISTS]:
        with child_of(command, asked.before) as child:
            try:
                child.ask(ON)
                performed(Region(child, Depth.SCREENS), asked.before, loaders)
                child.ask(*moves)
                ran = ran_of(child, asked.before)
            except Overdue as why:
                raise Fault(why_of(why)) from None
        found.ran = [one.plus(more) for one, more in zip(found.ran, ran)] or ran
    return found


def shown(outcome: Outcome) -> Iterator[str]:
    yield from (f"> {line}" for line in outcome.text)
    yield "comes by these lines in the place of ORDERS:" if outcome.moves else "is there without any move"
    yield from outcome.moves


def counted(orders: Orders) -> str:
    count = len(orders.outcomes)
    return f"{count} outcome{'s' if count != 1 else ''} of {orders.states} states"


def alone(these: Orders, those: Orders) -> Outcome | None:
    """The first outcome that only the first of two has."""
    texts = [outcome.text for outcome in those.outcomes]
    return next((outcome for outcome in these.outcomes if outcome.text not in texts), None)


def report_of_orders(number: int, sides: list[tuple[str, Orders]]) -> tuple[bool, list[str]]:
    """Whether neither has what the other hasn't, and the lines on that. A fault where not all is known, or nothing was searched."""
    where = f"line {number}, ORDERS"
    (old, before), (new, after) = sides
    for name, orders in sides:
        if orders.most is not None:
            raise Fault(f"{where}: {name} has more than {orders.most} states, so not all outcomes are known")
    for name, orders in sides:
        if orders.states < 2:
            raise Fault(f"{where}: {name} has nothing to order: no task goes on, and no key is still to come")
    counts = f"{old} has {counted(before)}, {new} {counted(after)}"
    for name, these, those in ((old, before, after), (new, after, before)):
        if outcome := alone(these, those):
            return False, [f"{where}: {counts}; only {name} has this one:", *shown(outcome)]
    for kind in (NEVER, CANNOT):
        for name, these, those in ((old, before, after), (new, after, before)):
            if kind in these.restless and kind not in those.restless:
                return False, [f"{where}: the same outcomes; only {name} has {kind.removeprefix('ORDERS ')}:", *these.restless[kind]]
    return True, [f"{where}: every order of these keys and turns ends as with the other: {counts}"]
