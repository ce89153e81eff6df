"""Sees that no loop, and no move of ORDERS, takes 5 % more machine instructions than bench/RESULTS.md says, on a machine like the one that it
names. It counts how many the built tool_machine takes for one instruction of each loop of bench/loop-images, as callgrind counts them, which a
loaded machine doesn't change: the difference of runs of four slices and of two. Of ORDERS it is the difference of three tasks of 12
half-turns and of two, as bench/orders makes them.

Where bench/RESULTS.md names the kit, the C library and the processor of this machine, a loop that takes 5 % more than its table says is a
fault; elsewhere, and where valgrind isn't installed, that is said. With --write COMMIT a column of the commit is added to the table, which
then names this machine's."""
import os
import platform
import re
import shutil
import subprocess
from concurrent.futures import ThreadPoolExecutor
from dataclasses import dataclass
from functools import partial

from bench import loop_images, orders
from cics.child import TOP, Ended, read, run
from cics.cli import say
from checks.common import Check
from checks.measuring import SECONDS, failing

RESULTS = os.path.join(TOP, "bench/RESULTS.md")
MORE = 1.05
TASKS, HALF_TURNS = (2, 3), 12  # of the two scripts of ORDERS
MOVE = re.compile(r"^A move of ORDERS takes ([\d,]+) machine", re.M)


def machine() -> str:
    """What the numbers depend on: the kit, the C library and the processor."""
    kit = subprocess.run(["rt", "version"], capture_output=True, text=True, check=False).stdout.split()
    # without the clock rate that some machines' names end with: no count depends on it
    processor = re.search(r"^model name\s*:\s*(.*?)(?:\s*@\s*[0-9.]+GHz)?$", read("/proc/cpuinfo").decode(), re.M)
    return f"{kit[0] if kit else 'no kit'}, {' '.join(platform.libc_ver())}, {processor[1] if processor else platform.machine()}"


def counting(valgrind: str) -> list[str]:
    """The words that count a program's machine instructions."""
    return [valgrind, "--tool=callgrind", "--callgrind-out-file=/dev/null"]


def collected(ended: Ended) -> int:
    """The machine instructions of a run that was counted."""
    found = re.search(rb"Collected : (\d+)", ended.reported)
    if not found or ended.status != 0:
        raise failing("valgrind", str(ended))
    return int(found[1])


def counted(valgrind: str, program: str, name: str, slices: int) -> tuple[int, int]:
    """The instructions that a run performs of a loop, and the machine instructions that it takes."""
    count, it = loop_images.performed(program, name, slices, counting(valgrind))
    return count, collected(it.ended)


def for_one(valgrind: str, program: str, name: str) -> float:
    """The machine instructions for one instruction of a loop."""
    (few, little), (many, much) = (counted(valgrind, program, name, slices) for slices in (2, 4))
    return (much - little) / (many - few)


def for_a_move(valgrind: str, program: str) -> float:
    """The machine instructions for a move of ORDERS."""
    little, much = (collected(run([*counting(valgrind), program], orders.apart(tasks, HALF_TURNS), seconds=SECONDS)) for tasks in TASKS)
    few, many = (orders.moves_of(tasks, HALF_TURNS) for tasks in TASKS)
    return (much - little) / (many - few)


@dataclass
class Table:
    """The page with the results: the machine that it names, the commits, for each loop its numbers, and that of a move."""

    page: str
    machine: str
    commits: list[str]
    numbers: dict[str, list[float]]
    move: float

    def with_column(self, commit: str, found: dict[str, float], move: float) -> str:
        """The page with a column of a commit, and a move's number, measured on this machine."""
        lines = ["| " + " | ".join(["Loop", *self.commits, commit]) + " |", "|---" * (len(self.commits) + 2) + "|"]
        lines += [f"| {name} | " + " | ".join(f"{it:.1f}" for it in [*self.numbers[name], found[name]]) + " |" for name in found]
        page = re.sub(r"^Measured with: .*$", lambda _: f"Measured with: {machine()}", self.page, flags=re.M)
        page = MOVE.sub(lambda _: f"A move of ORDERS takes {move:,.0f} machine", page)
        return re.sub(r"^\| Loop .*\n(?:\|.*\n?)+", lambda _: "\n".join(lines) + "\n", page, flags=re.M)


def table() -> Table:
    page = read(RESULTS).decode()
    rows = [[cell.strip() for cell in line.strip("|").split("|")] for line in page.splitlines() if line.startswith("|")]
    named = re.search(r"^Measured with: (.*)$", page, re.M)
    move = MOVE.search(page)
    numbers = {row[0]: [float(it) for it in row[1:]] for row in rows[2:]}
    return Table(page, named[1] if named else "", rows[0][1:], numbers, float(move[1].replace(",", "")) if move else 0)


def main(words: list[str]) -> int:
    check = Check(__name__, __doc__, words, "tool_machine", "cicslook", texts={"write": "add a column of this commit"})
    program, valgrind, commit, results = check.program(), shutil.which("valgrind"), check.text("write"), table()
    if not valgrind:
        say("valgrind isn't installed: nothing is counted")
        return 0
    names = loop_images.names()
    with ThreadPoolExecutor(check.jobs) as pool:
        move = pool.submit(for_a_move, valgrind, check.program(1))
        found = dict(zip(names, pool.map(partial(for_one, valgrind, program), names)))
    is_same = results.machine == machine()
    if not is_same:
        say(f"the table is of {results.machine}, and this is {machine()}: nothing is compared")
    faults = 0
    for name, number in found.items():
        noted = results.numbers[name][-1]
        is_more = is_same and number > noted * MORE
        faults += is_more
        say(f"{name}: {number:.1f} machine instructions for one, noted {noted:.1f}{', above 5 % more' if is_more else ''}")
    is_more = is_same and move.result() > results.move * MORE
    faults += is_more
    say(f"a move of ORDERS: {move.result():,.0f} machine instructions, noted {results.move:,.0f}{', above 5 % more' if is_more else ''}")
    if commit:
        with open(f"{RESULTS}.new", "w", encoding="utf-8") as file:
            file.write(results.with_column(commit, found, move.result()))
        os.replace(f"{RESULTS}.new", RESULTS)
        return 0
    say(f"{check.name}: {len(found)} loops; {faults or 'none'} FAILED")
    return int(faults > 0 or not found)
