"""Tests of the registers with which a turn first comes to lines: those of a loop, worked out by hand, and films that have none."""
import os
import shutil
import tempfile
import unittest
import unittest.mock

from cics.child import TOP
from cics.film.command import filmed, has_look
from cics.film.recorder import MOST_ARRIVALS, Film
from tests.calling import put
from tests.case import CICSLOOK as PROGRAM
from tests.case import TestCase, expect
from tests.film.trials import page, script_ran, text_of

LOOP, CALLERS = f"{TOP}/examples/looks/at.script", f"{TOP}/examples/looks/callers.script"
# The loop adds 3 and 2 and 1: SR has the condition code 0, and AR 2. It is come to line 11 when BCT has counted to zero.
AT_LINES = [(5, 0, {3: "00010000", 11: "00200000", 13: "00200060", 15: "00010000"}), (6, 0, {}), (7, 0, {5: "00000003"}), (8, 0, {}),
            (9, 2, {6: "00000003"}), (10, 2, {}), (11, 2, {5: "00000000", 6: "00000006"})]
LONG = ["SOURCE LONG", "LONG     CSECT", *["         LA    5,1(0,5)"] * 100, "         EXEC  CICS RETURN", "         END", "/*",
        "TRANSACTION LONG LONG", "TERMINAL T001", "KEY T001 ENTER LONG", "RUN T001", ""]
# A program as it was before AHEAD AT: such a line is a bad look.
OLDER = f"#!/bin/sh\nsed -u 's/^AHEAD [^ ]* AT .*/AHEAD/' | '{PROGRAM}' \"$@\"\n"
SHOWN = """[...arrivalsOf(view.films[0].data.events[4]).values()].filter((it) => it.line === 9 || it.line === 11)
  .map((it) => [it.line, it.code, it.registers[5], it.registers[6], it.registers[15], it.before, it.changed])"""


def rest_of(film: Film) -> list[object]:
    return [(it.text, it.answer, it.changes, it.ran, it.passed) for it in film.events]


@unittest.skipUnless(has_look(PROGRAM, "AHEAD TERM AT A 1"), "the program has no AHEAD AT")
class ArrivalsTest(TestCase):
    def test_a_loop(self) -> None:
        """At each line of a loop, the first time: the turn's first instruction has the registers of the task, and nothing is done yet. A turn that
        performs a command comes to no line."""
        found = [it.arrivals for it in filmed("loop", text_of(LOOP), PROGRAM).events]
        expect("the turn of the loop", found[4] == AT_LINES, found[4])
        expect("the other events", not any(found[:4] + found[5:]), found)

    def test_an_exit_of_another_program(self) -> None:
        """A turn of INNER whose abend OUTER's exit takes has no registers at lines: what the page shows then is OUTER's source."""
        event = filmed("callers", text_of(CALLERS), PROGRAM).events[12]
        expect("the turn that abends", (event.ran, event.arrivals) == (("OUTER", 4), []), (event.ran, event.arrivals))
        expect("its answer", event.answer == ["TURN T001 TookExit ASRA"], event.answer)

    @unittest.skipUnless(shutil.which("node"), "node isn't installed")
    def test_a_loop_on_the_page(self) -> None:
        """What the page makes of it: at line 9 AR has changed one register since line 8, at line 11 two have since line 10."""
        seen = script_ran(page(("loop", text_of(LOOP))), expression=SHOWN)
        due = [[9, 2, "00000003", "00000003", "00010000", 8, [6]], [11, 2, "00000000", "00000006", "00010000", 10, [5, 6]]]
        expect("registers at lines 9 and 11", seen == due, seen)

    def test_many_lines(self) -> None:
        """Of a turn that comes to more lines the first ones have registers."""
        found = next(it.arrivals for it in filmed("long", "\n".join(LONG), PROGRAM).events if it.arrivals)
        expect("the lines", [it[0] for it in found] == [*range(2, MOST_ARRIVALS + 2)], found)
        expect("the last one", found[-1][1:] == (0, {5: f"{MOST_ARRIVALS - 1:08X}"}), found[-1])

    def test_many_lines_in_all(self) -> None:
        """Of a film that asks for more lines than it may the first ones have registers; later turns have none."""
        with unittest.mock.patch("cics.film.command.ALL_ARRIVALS", 3):
            found = [it.arrivals for it in filmed("loop", text_of(LOOP), PROGRAM).events]
        expect("three lines", found[4] == AT_LINES[:3] and not any(found[5:]), found)

    def test_an_older_program(self) -> None:
        """A film by a program without AHEAD AT is as any other one, but for these registers."""
        with tempfile.TemporaryDirectory() as folder:
            put(folder, {"cicslook": OLDER.encode()})
            os.chmod(f"{folder}/cicslook", 0o755)
            older, newer = (filmed("loop", text_of(LOOP), path) for path in (f"{folder}/cicslook", PROGRAM))
        expect("no registers", not any(it.arrivals for it in older.events), older.events)
        expect("the rest", rest_of(older) == rest_of(newer), older.events)
