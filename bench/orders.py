"""Measures what ORDERS takes of `cicslook`, by scripts that it makes. They have tasks that share nothing, each of 12 half-turns, 1 to 4 of
them, then of 6, 12 and 24 half-turns, so that states and moves are known: states, moves, user CPU, moves a second, and the memory of a run.
Then each script of examples/orders. With --before each is run by that program and by this one in turn, in five pairs, and printed are the
medians of both and of their ratio. No part of the gate."""
import re
import statistics

from cics.cli import say
from checks.common import Check, program_at
from checks.examples import looks, script_of, text_of
from checks.measuring import failing, taken, well

PAIRS = 5
APART = [(1, 12), (2, 12), (3, 12), (4, 12), (2, 24), (2, 48), (3, 6), (3, 24)]  # tasks, and half-turns of each


def apart(tasks: int, half_turns: int) -> bytes:
    """A script of tasks that share nothing; a command is two half-turns: its arrival and its performance."""
    suspends = ["         EXEC  CICS SUSPEND"] * (half_turns // 2 - 1)
    lines = ["SOURCE P", "P        CSECT", *suspends, "         EXEC  CICS RETURN", "         END", "/*", "TRANSACTION P P"]
    names = [f"T{k + 1:03}" for k in range(tasks)]
    lines += [f"TERMINAL {name}" for name in names] + [f"KEY {name} ENTER P" for name in names]
    return text_of([*lines, "ORDERS 1000000", "STORAGE 001000 4", "/*"])


def moves_of(tasks: int, half_turns: int) -> int:
    """The moves of such a script's ORDERS."""
    return int(tasks * half_turns * (half_turns + 1) ** (tasks - 1))


def compared(before: str, program: str, script: bytes) -> str:
    """The medians of pairs of runs by two programs."""
    pairs = [(taken([before], script).user, taken([program], script).user) for _ in range(PAIRS)]
    old, now = (statistics.median(pair[k] for pair in pairs) for k in (0, 1))
    return f"before {old:.3f}, now {now:.3f}, ratio {statistics.median(b / max(a, 0.001) for b, a in pairs):.2f}"


def row(program: str, before: str | None, name: str, script: bytes, moves: int = 0, due: int = 0) -> None:
    it = well(name, taken([program], script))
    found = re.search(rb"^> ORDERS STATES ([0-9]+)", it.ended.out, re.M)
    states = int(found[1]) if found else 0
    if due and states != due:
        raise failing(name, f"{states} states, {due} are due")
    words = [f"{name:24}", f"states {states or '-':>7}"]
    words += [f"moves {moves:7}", f"{moves / max(it.user, 0.001):9.0f} a second"] if moves else []
    words += [f"{it.user:8.3f} s", f"{it.peak / 1024:7.1f} MiB"]
    say("  ".join([*words, *([compared(before, program, script)] if before else [])]))


def main(words: list[str]) -> int:
    check = Check(__name__, __doc__, words, "cicslook", texts={"before": "an earlier program"})
    before = check.text("before")
    program, before = check.program(), program_at(before) if before else None
    for tasks, half_turns in APART:
        row(program, before, f"{tasks} of {half_turns} half-turns", apart(tasks, half_turns), moves_of(tasks, half_turns), (half_turns + 1) ** tasks)
    for name in looks():
        if name.startswith("orders/"):
            row(program, before, name, script_of(name))
    return 0
