"""Sees that `cicslook` takes no more machine instructions than a limit says for each that `cicsedf` takes. By callgrind it counts them for a
script whose turns run some 60,000 instructions each: without a look, while a WATCH is on whose bytes stay, while one is on whose bytes each
turn changes, and while COVER is on. A turn should be run once, and with WATCH or COVER at most twice.

On a machine like the one that bench/RESULTS.md names a ratio above its limit is a fault; elsewhere, and where valgrind isn't installed, that
is said."""
import re
import shutil
from typing import NamedTuple

from bench import instructions
from cics.child import run
from cics.cli import say
from checks.common import Check
from checks.measuring import SECONDS, failing

TURNS = 20


class Measure(NamedTuple):
    """A script's line with WATCH or COVER, and how many times as much it may take."""

    what: str
    line: str
    limit: float


MEASURES = [
    Measure("no look", "", 1.05),
    Measure("WATCH of bytes that stay", "WATCH T001 STAYS\n", 1.05),
    Measure("WATCH of bytes that change", "WATCH T001 COUNT\n", 2.2),
    Measure("COVER ON", "COVER ON\n", 2.5),
]
SCRIPT = """SOURCE LONG
DFHEISTG DSECT
COUNT    DS    F
STAYS    DS    F
LONG     CSECT
NEXT     L     6,=F'20000'
LOOP     A     7,=F'1'
         LR    8,7
         BCT   6,LOOP
         ST    7,COUNT
         EXEC  CICS DELETEQ TS QUEUE('NONE') NOHANDLE
         B     NEXT
         END
/*
TRANSACTION LONG LONG
TERMINAL T001
KEY T001 ENTER LONG
"""


def counted(valgrind: str, program: str, line: str) -> int:
    """How many machine instructions a program takes for so many turns of instructions, each with its command's turn after it."""
    words = [valgrind, "--tool=callgrind", "--callgrind-out-file=/dev/null", program]
    ended = run(words, (SCRIPT + line + "TURN T001\n" * (2 * TURNS)).encode(), seconds=SECONDS)
    collected = re.search(rb"Collected : (\d+)", ended.reported)
    if not collected:
        raise failing("valgrind", str(ended))
    answers = [it for it in ended.lines() if it.startswith("TURN ")]
    if answers[0::2] != ["TURN T001 AtCommand"] * TURNS or not all(it.startswith("TURN T001 Performed ") for it in answers[1::2]):
        raise failing(program, f"the turns are answered otherwise: {answers[:4]}")
    return int(collected[1])


def main(words: list[str]) -> int:
    check = Check(__name__, __doc__, words, "cicsedf", "cicslook")
    valgrind = shutil.which("valgrind")
    if not valgrind:
        say("valgrind isn't installed: nothing is counted")
        return 0
    named = instructions.table().machine
    is_same = named == instructions.machine()
    if not is_same:
        say(f"the limits are of {named}, and this is {instructions.machine()}: nothing is compared")
    plain, faults = counted(valgrind, check.program(), ""), 0
    for what, line, limit in MEASURES:
        ratio = counted(valgrind, check.program(1), line) / plain
        is_more = is_same and ratio > limit
        faults += is_more
        say(f"{what}: {ratio:.3f} of cicsedf's machine instructions, at most {limit}{', above it' if is_more else ''}")
    say(f"{check.name}: {len(MEASURES)} scripts; {faults or 'none'} FAILED")
    return int(faults > 0)
