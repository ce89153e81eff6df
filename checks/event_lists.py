"""Runs lists of 5,000 events through tool_region, each by one call, which no script can do: of a region alone, and of one under EDF,
over each of the two stores. Each event has the answer that is due by the rules, and of each terminal ten displays must be kept at the end.

The first events define what the others need. The others are rounds, each act at all sixteen terminals before the next, so that sixteen tasks
live at once. Of the region under EDF the first four programs and eight terminals are defined before, by a call each.
"""
from collections import Counter
from collections.abc import Iterator
from functools import partial
from typing import NamedTuple

from cics.child import Ended, run
from checks.common import Case, Check, Counts, Wrong, require
from checks.examples import text_of

EVENTS, DISPLAYS = 5_000, 10
PROGRAMS, TERMINALS = range(1, 13), range(1, 17)

# BUSY, each command that takes memory except XCTL: GETMAIN of 1,000 bytes at R5, WRITEQ TS of them, READQ TS of an item with SET at R6, ENQ of
# the terminal's name, LINK to P002, RETURN with the transaction P003 and the item as its COMMAREA; OVER, XCTL to P003; and BACK, RETURN.
BUSY = (
    "410031105000D0004100D0485000D004410031305000D0089680D0084110D00058F0311405EF5850D048410031185000D000410031005000D004410050005000"
    "D008410031305000D00C9680D00C4110D00058F0311405EF4100311C5000D000410031005000D0044100D0505000D0084100D0485000D00C9680D00C4110D000"
    "58F0311405EF5860D048410031205000D0004100B0105000D004410031325000D0089680D0084110D00058F0311405EF410031245000D000410031085000D004"
    "9680D0044110D00058F0311405EF410031285000D0004100312C5000D004410060005000D008410031305000D00C9680D00C4110D00058F0311405EF00000000"
    "D8E4C5E4C5404040D7F0F0F2404040400C02C000000008000A02E0000A04A4001204C0000E0280000E08E000D7F0F0F303E80004"
)
OVER = "410030285000D000410030205000D0049680D0044110D00058F0302C05EF0000D7F0F0F3404040400E04800000000800"
BACK = "410030185000D0009680D0004110D00058F0301C05EF00000E08000000000800"

# A round of the region, 31 acts at {t}, the terminal of the number {n}: P001 with its eight commands, the transaction that it leaves, and what
# is refused.
ALONE = """
CLOCK {n:06} {n:05} -> SET
KEY {t} ENTER P001 -> Attached
KEY {t} ENTER P001 -> AlreadyHeldInput
# GETMAIN, WRITEQ TS, READQ TS, ENQ
TURN {t} -> AtCommand
TURN {t} -> Performed NORMAL
TURN {t} -> AtCommand
TURN {t} -> Performed NORMAL
TURN {t} -> AtCommand
TURN {t} -> Performed NORMAL
TURN {t} -> AtCommand
TURN {t} -> Performed NORMAL
# LINK to P002, its XCTL to P003, the RETURN of that, RETURN with P003
TURN {t} -> AtCommand
TURN {t} -> Entered
TURN {t} -> AtCommand
TURN {t} -> Entered
TURN {t} -> AtCommand
TURN {t} -> Returned
TURN {t} -> AtCommand
TURN {t} -> Ended
# P003
KEY {t} ENTER P001 -> Attached
TURN {t} -> AtCommand
ALTER {t} REG 9 {n:08X} -> Altered
TURN {t} -> Ended
TURN {t} -> Idle
ALTER {t} REG 9 {n:08X} -> NoTask
KEY {t} ENTER P000 -> NoSuchTransaction
TERMINAL {t} -> REFUSED Duplicate
TRANSACTION P201 P201 -> REFUSED NoProgram
IMAGE P001 82 -> REFUSED Duplicate
TURN T000 -> NoSuchTerminal
KEY T000 ENTER P001 -> NoSuchTerminal
"""

# A round under EDF, 62 acts, which finds EDF on: P001 under suppression, with EDF begun anew before its second command, and ended by PF12;
# P001 with two stops at each of its eight commands; P003. It leaves each terminal stopped with 20 displays taken.
UNDER_EDF = """
EDF {t} OFF -> Closed
EDF {t} OFF -> NotOn
ALTER {t} REG 9 {n:08X} -> NotStopped
EDF {t} ON -> Started
EDF {t} ON -> AlreadyOn
# under suppression with the stop condition ERROR
KEY {t} ENTER P001 -> Attached
TURN {t} -> AtCommand
KEY {t} PF9 ERROR -> ToEdf
KEY {t} PF4 P001 -> ToEdf
TURN {t} -> Performed NORMAL
TURN {t} -> AtCommand
EDF {t} OFF -> Closed
EDF {t} ON -> Started
TURN {t} -> Performed NORMAL
KEY {t} PF12 P001 -> ToEdf
TURN {t} -> Idle
KEY {t} PF12 P001 -> ToEdf
KEY {t} ENTER P001 -> ToEdf
# GETMAIN, WRITEQ TS, READQ TS, ENQ
KEY {t} ENTER P001 -> Attached
TURN {t} -> AtCommand
KEY {t} ENTER P001 -> ToEdf
TURN {t} -> Performed NORMAL
KEY {t} ENTER P001 -> ToEdf
TURN {t} -> AtCommand
KEY {t} ENTER P001 -> ToEdf
TURN {t} -> Performed NORMAL
KEY {t} ENTER P001 -> ToEdf
TURN {t} -> AtCommand
KEY {t} ENTER P001 -> ToEdf
TURN {t} -> Performed NORMAL
KEY {t} ENTER P001 -> ToEdf
TURN {t} -> AtCommand
KEY {t} ENTER P001 -> ToEdf
TURN {t} -> Performed NORMAL
KEY {t} ENTER P001 -> ToEdf
# LINK to P002, its XCTL to P003, the RETURN of that, RETURN with P003
TURN {t} -> AtCommand
KEY {t} ENTER P001 -> ToEdf
TURN {t} -> Entered
KEY {t} ENTER P001 -> ToEdf
TURN {t} -> AtCommand
KEY {t} ENTER P001 -> ToEdf
TURN {t} -> Entered
KEY {t} ENTER P001 -> ToEdf
TURN {t} -> AtCommand
KEY {t} ENTER P001 -> ToEdf
TURN {t} -> Returned
KEY {t} ENTER P001 -> ToEdf
TURN {t} -> AtCommand
KEY {t} ENTER P001 -> ToEdf
TURN {t} -> Ended
KEY {t} ENTER P001 -> ToEdf
# P003
KEY {t} ENTER P001 -> Attached
TURN {t} -> AtCommand
TURN {t} -> Held
ALTER {t} REG 9 {n:08X} -> Altered
KEY {t} PF5 P001 -> ToEdf
KEY {t} PF10 P001 -> ToEdf
KEY {t} ENTER P001 -> ToEdf
TURN {t} -> Ended
EDF T000 ON -> NoSuchTerminal
TERMINAL {t} -> REFUSED Duplicate
CLOCK {n:06} {n:05} -> SET
"""


class Event(NamedTuple):
    """An event as a list has it, and the line of its answer."""

    lines: list[str]
    answer: str


def plain(line: str, answer: str) -> Event:
    """An event of one line, whose answer begins with its verb and its name."""
    words = line.split(" ")
    return Event([line], " ".join(words[: 1 if words[0] == "CLOCK" else 2] + [answer]))


def program(number: int, answer: str | None = None) -> Event:
    """The definition of the program of a number. Each is at the next multiple of 16 where those with lower numbers, and no others, are."""
    text, stg_len = {1: (BUSY, 82), 2: (OVER, 80)}.get(number, (BACK, 80))
    at = {1: 0x010000, 2: 0x010140}.get(number, 0x010110 + number * 32)
    name = f"P{number:03}"
    return Event([f"IMAGE {name} {stg_len}", text, "/*"], f"PROGRAM {name} {answer or f'AT {at:06X} LENGTH {len(text) // 2:06X}'}")


def definitions(programs: range, terminals: range) -> Iterator[Event]:
    """Programs with their transactions, and terminals."""
    for number in programs:
        yield program(number)
        yield plain(f"TRANSACTION P{number:03} P{number:03}", "DEFINED")
    for number in terminals:
        yield plain(f"TERMINAL T{number:03}", "DEFINED")


def act(row: str, number: int) -> Event:
    """An act of a round at the terminal of a number."""
    line, answer = row.format(t=f"T{number:03}", n=number).split(" -> ")
    return program(1, answer) if line.startswith("IMAGE") else plain(line, answer)


def rounds(table: str, count: int) -> Iterator[Event]:
    """Some rounds, each act of a table at all sixteen terminals before the next."""
    rows = [row for row in table.strip().split("\n") if not row.startswith("#")]
    for _ in range(count):
        for row in rows:
            for number in TERMINALS:
                yield act(row, number)


def lines_and_answers(events: list[Event]) -> tuple[list[str], list[str]]:
    return [line for event in events for line in event.lines], [event.answer for event in events]


def alone() -> tuple[list[str], list[str]]:
    """A list of a region without EDF, and what is due to be printed of it."""
    events = [*definitions(PROGRAMS, TERMINALS), *rounds(ALONE, 10)]
    assert len(events) == EVENTS
    lines, answers = lines_and_answers(events)
    heading = "ALONE 5,000 EVENTS"
    return [heading, *lines], [heading, *answers]


def under_edf() -> tuple[list[str], list[str]]:
    """A list of a region under EDF, and what is due to be printed of it."""
    first = [*definitions(PROGRAMS[:4], TERMINALS[:8])]
    events = [*definitions(PROGRAMS[4:], TERMINALS[8:]), *(act("EDF {t} ON -> Started", number) for number in TERMINALS)]
    events += rounds(UNDER_EDF, 5)
    assert len(first) == 16 and len(events) == EVENTS
    (before, defined), (lines, answers) = lines_and_answers(first), lines_and_answers(events)
    heading, kept = "AT ONCE 5,000 EVENTS", [f"KEPT T{number:03} {DISPLAYS}" for number in TERMINALS]
    return [heading, *before, "RUN", *lines], [heading, *defined, *answers, *kept]


def tried(program: str, store: list[str], lines: list[str], due: list[str]) -> Counts:
    ended = run([program], text_of(["LISTS", *store, *lines]))
    wrong = [f"line {number}: {one!r} is printed, not {other!r}" for number, (one, other) in enumerate(zip(ended.lines(), due), 1) if one != other]
    if wrong:
        raise Wrong(*wrong)
    require(ended == Ended(0, text_of(due), b""), str(ended))
    return Counter({"events": EVENTS})


def main(words: list[str]) -> int:
    check = Check(__name__, __doc__, words, "tool_region")
    program = check.program()
    lists, stores = {"alone": alone(), "under EDF": under_edf()}, {"pages": [], "areas": ["FLAT"]}
    cases = [Case(f"{name} over {store}", partial(tried, program, first, *both)) for name, both in lists.items() for store, first in stores.items()]
    return check.report(cases, {"events": 4 * EVENTS})
