"""Tries each order of 20 drawn scripts by a run of its own, and sees that ORDERS misses no outcome and shows none that isn't. Drawn scripts
have two or three short tasks that share the common work area, a queue and resources, some with keys that are still to come, for ORDERS or
ORDERS TYPED AHEAD. Each order of their turns is tried by a run of its own, by `cicslook` without ORDERS: the set of what is seen where none
can go on is that of ORDERS' outcomes. And the lines that ORDERS gives of an outcome, in its place in the script and run by `cicsedf` as
turns, show that outcome.

--scripts N are drawn (20), each with at most --most N orders (500); one with more is drawn anew.
"""
import random
import re
from collections import Counter
from collections.abc import Iterable, Iterator
from dataclasses import dataclass
from functools import partial
from typing import NamedTuple

from cics.child import run
from cics.orders import read_orders
from cics.transcripts import RESTS
from checks.common import Case, Check, Counts, Wrong, require
from checks.examples import text_of
from checks.plain_scripts import plain_of

SEED = 1
SCRIPTS, MOST = 20, 500
SHOWN = 5  # differences of a script
MOST_TURNS = 8  # that a task of these scripts has
COMMANDS = ((2, 1), (1, 2), (1, 1), (1, 0, 0))  # of the tasks of a script, at most, between ADDRESS and RETURN
MARK = "SCREEN ####"  # no terminal of a script has this name
TASKS = ("TASKS", "TERMINALS")  # show what the tasks do, and what is held for them
STEPS = {  # statements of a step, and how many commands it has
    "load": (["         L     6,{w}(5)"], 0),
    "add": (["         LA    6,{k}(6)"], 0),
    "store": (["         ST    6,{w}(5)"], 0),
    "give way": (["         EXEC  CICS SUSPEND"], 1),
    "own": (["         EXEC  CICS ENQ RESOURCE(=C'{r}') LENGTH(=H'1')"], 1),
    "release": (["         EXEC  CICS DEQ RESOURCE(=C'{r}') LENGTH(=H'1')"], 1),
    "write": (["         EXEC  CICS WRITEQ TS QUEUE('Q') FROM(=C'{r}') LENGTH(=H'1')"], 1),
    "delete": (["         EXEC  CICS DELETEQ TS QUEUE('Q')"], 1),  # abends with QIDERR, where there is none
    "ask": (["         MVC   LEN,=H'4'", "         EXEC  CICS RECEIVE INTO(LINE) LENGTH(LEN) NOHANDLE"], 1),
    "fail": (["         C     6,=F'{k}'", "         BL    OK{n}", "         DC    H'0'", "OK{n}      DS    0H"], 0),
}


class Drawn:
    """A script: its lines up to ORDERS, the keys that are still to come, and its terminals."""

    def __init__(self, draw: random.Random) -> None:
        commands = draw.choice(COMMANDS)
        self.terminals = [f"T00{k + 1}" for k in range(len(commands))]
        self.lines, self.keys = list[str](), list[str]()
        for k, terminal in enumerate(self.terminals):
            self.lines += [f"SOURCE P{k}", *program(f"P{k}", draw, commands[k]), "/*", f"TRANSACTION P{k} P{k}"]
        self.lines += [f"TERMINAL {terminal}" for terminal in self.terminals]
        for k, terminal in enumerate(self.terminals):
            if draw.random() < 0.8:
                self.lines += [f"KEY {terminal} ENTER P{k}", f"RUN {terminal} 2"]
            else:
                self.keys.append(f"KEY {terminal} ENTER P{k}")
        if draw.random() < 0.3:
            self.keys.append(f"KEY {draw.choice(self.terminals)} ENTER MORE")
        self.typed_ahead = bool(self.keys) and draw.random() < 0.5
        self.sights = ["STORAGE 001000 8", "QUEUES", *(f"SCREEN {terminal}" for terminal in self.terminals)]


def program(name: str, draw: random.Random, most: int) -> list[str]:
    """A program of at most so many commands between ADDRESS and RETURN."""
    lines: list[str] = []
    commands = 0
    while len(lines) < 9:
        what = draw.choice(list(STEPS))
        statements, count = STEPS[what]
        if commands + count > most:
            continue
        commands += count
        words = {"w": draw.choice((0, 4)), "k": draw.choice((1, 2)), "r": draw.choice("AB"), "n": len(lines)}
        lines += [line.format(**words) for line in statements]
    head = ["DFHEISTG DSECT", "LEN      DS    H", "LINE     DS    CL4", f"{name:8} CSECT", "         EXEC  CICS ADDRESS CWA(5)"]
    return [*head, *lines, "         EXEC  CICS RETURN", "         END"]


class TooMany(Exception):
    """More orders than may be tried."""


class Task(NamedTuple):
    """What a terminal's task does, as TASKS shows it, and whether input is held for it."""

    doing: str
    is_held: bool


def tasks_of(shown: list[str]) -> list[Task]:
    """By the lines of TASKS and TERMINALS."""
    terminals = [line for line in shown if line.startswith("TERMINAL ")]
    return [Task(doing, " HELD -- " not in terminal) for doing, terminal in zip(shown, terminals)]


@dataclass
class Path:
    """The rest of a script's run after some moves, each terminal as far as it can go: the moves made, what the tasks do before each and at
    the end, all lines of moves, and what is seen at the end."""

    moves: list[str]
    tasks: list[list[Task]]
    moved: list[str]
    seen: list[str]


class Orders:
    """All orders of a script's turns and keys, each tried by a run: of a list of moves that was begun, the rest is one in which each terminal
    goes as far as it can; what else could have been next at each place of it is tried by a run of its own."""

    def __init__(self, drawn: Drawn, cicslook: str, most: int) -> None:
        self.drawn, self.cicslook, self.most, self.count = drawn, cicslook, most, 0
        self.outcomes: set[tuple[str, ...]] = set()
        self.try_all()

    def path(self, before: list[str]) -> Path:
        """How the script goes on after some moves."""
        drawn, turns = self.drawn, list[str]()
        for _ in range(len(drawn.terminals) + 1):
            for terminal in drawn.terminals:
                turns += [line for _ in range(MOST_TURNS) for line in (*TASKS, f"TURN {terminal}")]
        ended = run([self.cicslook], text_of([*drawn.lines, MARK, *before, MARK, *turns, *TASKS, MARK, *drawn.sights]))
        require(ended.is_well(), str(ended))
        parts = [part.split("\n") for part in "\n".join(ended.lines()).split(f"\n{MARK} NONE")]
        first, rest, seen = ([line for line in part if line] for part in parts[1:])
        path, now = Path([], [], list(first), [line.removeprefix("> ") for line in seen]), list[str]()
        for line in rest:
            if line.startswith("> "):
                now.append(line.removeprefix("> "))
                continue
            _, terminal, answer, *_ = line.split(" ")
            if answer not in RESTS:
                path.moves.append(f"TURN {terminal}")
                path.tasks.append(tasks_of(now))
                path.moved.append(line)
            now = []
        path.tasks.append(tasks_of(now))
        return path

    def left(self, before: list[str]) -> dict[str, list[str]]:
        """The keys of each terminal that are still to come."""
        came = Counter(line.split(" ")[1] for line in before if line.startswith("KEY "))
        of = {terminal: [key for key in self.drawn.keys if key.split(" ")[1] == terminal] for terminal in self.drawn.terminals}
        return {terminal: keys[came[terminal] :] for terminal, keys in of.items()}

    def next_moves(self, before: list[str], tasks: list[Task]) -> Iterator[str]:
        """What can be next after some moves, where the tasks do this."""
        left = self.left(before)
        for terminal, task in zip(self.drawn.terminals, tasks):
            if not task.doing.endswith("NO TASK") and " WAITING FOR " not in task.doing:
                yield f"TURN {terminal}"
            may_come = not task.is_held if self.drawn.typed_ahead else task.doing.endswith(("NO TASK", "WAITING FOR INPUT"))
            if left[terminal] and may_come:
                yield left[terminal][0]

    def try_all(self) -> None:
        todo: list[list[str]] = [[]]
        while todo:
            before = todo.pop()
            path, ways = self.path(before), list[str]()
            for k, now in enumerate(path.tasks):
                so_far = [*before, *path.moves[:k]]
                ways = [*self.next_moves(so_far, now)]
                done = path.moves[k : k + 1]
                require(not done or done[0] in ways, f"{done} isn't among {ways} after {so_far}")
                todo += [[*so_far, way] for way in ways if way not in done]
            if not ways:
                self.add_outcome(path, [*before, *path.moves])

    def add_outcome(self, path: Path, moves: list[str]) -> None:
        self.count += 1
        if self.count > self.most:
            raise TooMany
        incidents = sorted(incidents_in(path.moved), key=lambda line: line.split(" ")[1])
        keys = keys_in(self.drawn.keys, self.left(moves))
        self.outcomes.add((*incidents, *waits_in(path.tasks[-1]), *keys, *path.seen))


def incidents_in(moved: list[str]) -> Iterator[str]:
    """How tasks abended on the way, and keys were refused."""
    for line in moved:
        word, terminal, answer, *rest = line.split(" ")
        if word == "TURN" and answer in ("Abended", "TookExit"):
            yield f"ABENDS {terminal} {rest[0]}"
        elif word == "KEY" and answer not in ("Attached", "Given"):
            yield f"ANSWERS {terminal} {answer}"


def waits_in(tasks: list[Task]) -> Iterable[str]:
    return (re.sub(" TASK [0-9]{7}", "", task.doing) for task in tasks if " WAITING FOR " in task.doing)


def keys_in(keys: list[str], left: dict[str, list[str]]) -> Iterable[str]:
    """The keys that couldn't come, in the order of each terminal's last key."""
    last = [key.split(" ")[1] for at, key in enumerate(keys) if key.split(" ")[1] not in [it.split(" ")[1] for it in keys[at + 1 :]]]
    return (f"KEYS {terminal} {len(left[terminal])}" for terminal in last if left[terminal])


def failures_of(drawn: Drawn, orders: Orders, cicsedf: str, cicslook: str) -> Iterator[str]:
    """How ORDERS differs from what was tried."""
    block = ["ORDERS TYPED AHEAD" if drawn.typed_ahead else "ORDERS", *drawn.keys, *drawn.sights, "/*"]
    ended = run([cicslook], text_of([*drawn.lines, MARK, *block]))
    require(ended.is_well(), str(ended))
    found = read_orders(ended.lines()[ended.lines().index(f"{MARK} NONE") + 1 :])
    texts = {tuple(it.text) for it in found.outcomes}
    yield from (f"missed: {text}" for text in orders.outcomes - texts)
    yield from (f"not tried: {text}" for text in texts - orders.outcomes)
    for it in found.outcomes:
        lines = [*drawn.lines, *it.moves, *(line for line in drawn.sights if line.startswith("SCREEN"))]
        script, transcript, _ = plain_of(lines, run([cicslook], text_of(lines)).lines())
        again = run([cicsedf], text_of(script)).lines()
        screens = [line for line in it.text if line.startswith("SCREEN") or re.match(r"\d\d\|", line)]
        if again != transcript or again[len(again) - len(screens) :] != screens:
            yield f"the list {it.moves} shows {again[-len(screens):]}, and not {screens}"


def tried(cicsedf: str, cicslook: str, number: int, most: int) -> Counts:
    """A drawn script: ORDERS must find what comes of all its orders. One with too many of them is drawn anew."""
    draw = random.Random(f"{SEED} {number}")
    while True:
        drawn = Drawn(draw)
        try:
            orders = Orders(drawn, cicslook, most)
        except TooMany:
            continue
        failures = list(failures_of(drawn, orders, cicsedf, cicslook))
        if failures:
            raise Wrong(f"{len(failures)} differences", *drawn.lines, *drawn.keys, *failures[:SHOWN])
        return Counter({"orders": orders.count, "outcomes": len(orders.outcomes), "of keys typed ahead": len(orders.outcomes) * drawn.typed_ahead})


def main(words: list[str]) -> int:
    numbers = {"scripts": (SCRIPTS, "so many drawn scripts"), "most": (MOST, "at most so many orders of each")}
    check = Check(__name__, __doc__, words, "cicsedf", "cicslook", numbers=numbers)
    attempt = partial(tried, check.program(), check.program(1))
    cases = [Case(f"script {number}", partial(attempt, number, check.number("most"))) for number in range(1, check.number("scripts") + 1)]
    return check.report(cases, {"orders": 1, "outcomes": 1, "of keys typed ahead": 1})
