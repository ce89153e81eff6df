"""Runs scripts of 16 KiB and of 1, 4 and 16 MiB of each kind, and shows their peak memory and their
user CPU. That of 16 MiB may need 1 MiB more than that of 16 KiB, and its time must be in proportion to its length: at most three
times what 16 runs of 1 MiB would take. No part of the gate."""
import os
import tempfile
from collections import Counter
from collections.abc import Callable
from functools import partial
from typing import NamedTuple

from cics.cli import say
from checks.common import Check, Counts, require
from checks.examples import each_of
from checks.measuring import Taken, taken
from cics.files import put_file

KIB, MIB = 1 << 10, 1 << 20
SIZES = {"16 KiB": 16 * KIB, "1 MiB": MIB, "4 MiB": 4 * MIB, "16 MiB": 16 * MIB}


class Made(NamedTuple):
    """A script, the status with which it ends, and how many lines it writes."""

    script: bytes
    status: int
    lines: int


def filled(script: bytes, size: int) -> bytes:
    """A script with a comment after it that fills it up to a size."""
    rest = size - len(script)
    return script + (b"*" * (rest - 1) + b"\n" if rest else b"")


def comments(size: int) -> Made:
    line = b"* " + b"A comment of a script." * 2 + b"\n"
    return Made(filled(line * (size // len(line)), size), 0, 0)


def turns(size: int) -> Made:
    """A task is attached, comes to its RETURN, and ends, over and over."""
    head = b"IMAGE A 80\n4100F01C5000D0009680D0004110D000\n41E0080005EE0000000000000E080000\n/*\nTERMINAL T001\nTRANSACTION A A\n"
    lines = b"KEY T001 ENTER A\nTURN T001\nTURN T001\n"
    times = (size - len(head)) // len(lines)
    return Made(filled(head + lines * times, size), 0, 3 + 3 * times)


def image(size: int) -> Made:
    line = b"0123456789ABCDEF" * 4 + b"\n"
    return Made(b"IMAGE A 80\n" + line * ((size - 14) // len(line)) + b"/*\n", 0, 1)


def one_line(size: int) -> Made:
    return Made(b"*" * size, 1, 0)


KINDS: dict[str, Callable[[int], Made]] = {"comments": comments, "turns": turns, "image": image, "one line": one_line}


def measured(program: str, made: Made) -> Taken:
    """The one of three runs that takes least, which must end as they should."""
    with tempfile.TemporaryDirectory() as folder:
        path = os.path.join(folder, "script")
        put_file(path, made.script)
        runs = [taken([program, path]) for _ in range(3)]
    for it in runs:
        require((it.ended.status, it.ended.out.count(b"\n")) == (made.status, made.lines), f"it ends otherwise: {it.ended}")
    return min(runs, key=lambda it: it.user)


def tried(program: str, kind: str) -> Counts:
    """Shows what scripts of a kind take, of which none may take too much."""
    runs = {}
    for text, size in SIZES.items():
        runs[size] = measured(program, KINDS[kind](size))
        say(f"| {kind} | {text} | {runs[size].peak:,} | {runs[size].user:.3f} |")
    largest, second = runs[16 * MIB], runs[MIB]
    require(largest.peak <= runs[16 * KIB].peak + KIB, "the peak of 16 MiB is more than 1 MiB above that of 16 KiB")
    require(largest.user <= 3 * 16 * max(second.user, 0.01), "the time of 16 MiB is out of proportion")
    return Counter({"sizes": len(SIZES)})


def main(words: list[str]) -> int:
    check = Check(__name__, __doc__, words, "cicsedf")
    check.jobs = 1  # so that no run is measured beside another
    say("| Script | Size | Peak, KiB | Seconds |\n|---|---|---|---|")
    return check.report(each_of(KINDS, partial(tried, check.program())))
