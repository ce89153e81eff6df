"""Sixteen terminals run programs of the examples at once, in orders that a fixed generator gives. What
is written for each terminal, its screen at the end among it, must be what it gets alone; and that begins with what the
example's transcript has, and answers each event."""
import random
from collections import Counter
from collections.abc import Iterator
from functools import cache, partial

from cics.transcripts import is_of_page
from checks.common import DRAWN_BY, Case, Check, Counts, Wrong
from checks.examples import actions, reported_of, transcript_of, wanted

EXAMPLES = ["cases/send-text-at-a-blank", "cases/link-to-itself", "cases/exit-taken-once", "cases/popped-handles", "cases/return-transid", "cases/receive-waits"]
ORDERS, EVENTS = 10, 2000  # an order has at least this many events: each terminal repeats the example's as often as that takes
TERMINALS = [f"T{k:03}" for k in range(1, 17)]


def parts(name: str) -> tuple[list[str], list[str]]:
    """An example's blocks and definitions and its events."""
    head, events = actions(name)
    if {line.split()[1] for line in events} != {"T001"}:
        raise Wrong("it has more than one terminal")
    alone = [*events, "SCREEN T001"]
    return [line for line in head if not line.startswith("TERMINAL ")], alone * -(-EVENTS // (16 * len(alone)))


def of_terminal(terminal: str, transcript: list[str]) -> list[str]:
    """What is written for a terminal, whatever its name."""
    return [line.replace(terminal, "TERM", 1) for line in reported_of({terminal}, transcript)]


@cache
def written_alone(program: str, name: str) -> list[str]:
    """What is written for the terminal alone."""
    blocks, events = parts(name)
    reported = of_terminal("T001", transcript_of(program, [*blocks, "TERMINAL T001", *events]))
    written = of_terminal("T001", wanted(name).lines())
    answered = [line.split()[:2] for line in reported if not is_of_page(line)]
    asked = [line.replace("T001", "TERM", 1).split()[:2] for line in ["TERMINAL T001", *events]]
    if not written or reported[: len(written)] != written or answered != asked:
        raise Wrong("alone it doesn't begin as its transcript does, or doesn't answer each event")
    return reported


def mixed(draw: random.Random, events: list[str]) -> Iterator[str]:
    """The events of sixteen terminals in an order that is drawn."""
    waiting = {terminal: [line.replace("T001", terminal) for line in events] for terminal in TERMINALS}
    while waiting:
        terminal = draw.choice(sorted(waiting))
        yield waiting[terminal].pop(0)
        if not waiting[terminal]:
            del waiting[terminal]


def tried(program: str, name: str, order: list[str]) -> Counts:
    """The events of all terminals in an order: each must get what it gets alone."""
    blocks, _ = parts(name)
    due = written_alone(program, name)
    transcript = transcript_of(program, [*blocks, *(f"TERMINAL {terminal}" for terminal in TERMINALS), *order])
    differ = [terminal for terminal in TERMINALS if of_terminal(terminal, transcript) != due]
    if differ:
        raise Wrong(f"what is written for {', '.join(differ)} differs from the run alone")
    return Counter({"events": len(order), "tasks": len(TERMINALS)})


def cases(program: str) -> Iterator[Case]:
    draw = random.Random(DRAWN_BY)
    for name in EXAMPLES:
        for number in range(1, ORDERS + 1):
            yield Case(f"{name}, order {number}", partial(tried, program, name, list(mixed(draw, parts(name)[1]))))


def main(words: list[str]) -> int:
    check = Check(__name__, __doc__, words, "cicsedf")
    return check.report(cases(check.program()))
