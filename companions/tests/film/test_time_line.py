"""What the time line says of events: of a turn its command, the line of that, and its condition; and how comments and bytes are shown."""
import json
import shutil
import unittest

from tests.case import TestCase
from tests.film.trials import LESSONS, page, script_ran, text_of

SCRIPT = f"""* {"A LONG COMMENT " * 30}
SOURCE P
P        CSECT
         EXEC  CICS HANDLE CONDITION QIDERR(NONE)
         EXEC  CICS DELETEQ TS QUEUE('NONE')
NONE     EXEC  CICS LINK PROGRAM('Q')
         EXEC  CICS DELETEQ TS QUEUE('NOT')
         DC    H'0'
         END
/*
SOURCE Q
Q        CSECT
         EXEC  CICS RETURN
         END
/*
TRANSACTION P P
TERMINAL T001
TERMINAL T002
TURN T002
KEY T001 ENTER P
RUN T001
"""
SAID = ["TURN T002: Idle", "KEY T001 ENTER P: Attached", "TURN T001: to HANDLE CONDITION QIDERR, line 2",
        "TURN T001: HANDLE CONDITION QIDERR, line 2: NORMAL",
        "TURN T001: to DELETEQ TS QUEUE, line 3", "TURN T001: DELETEQ TS QUEUE, line 3: QIDERR, its label", "TURN T001: to LINK PROGRAM, line 4",
        "TURN T001: LINK PROGRAM, line 4: Entered", "TURN T001: to RETURN, line 2", "TURN T001: RETURN, line 2: Returned",
        "TURN T001: to DELETEQ TS QUEUE, line 5", "TURN T001: DELETEQ TS QUEUE, line 5: QIDERR, its label"]


EVENTS = "view.films[0].data.events.map((_, at) => saidOf(view.films[0], at))"


@unittest.skipUnless(shutil.which("node"), "node isn't installed")
class TimeLineTest(TestCase):
    def test_events(self) -> None:
        said = script_ran(page(("s", SCRIPT)), expression=EVENTS)
        self.assertEqual([it for it in said if it.startswith(("TURN", "KEY"))][: len(SAID)], SAID)

    def test_a_wait_between_terminals(self) -> None:
        said = script_ran(page(("deadlock", text_of(f"{LESSONS}/11-chain/deadlock.script"))), expression=EVENTS)
        for due in ("TURN T001: ENQ RESOURCE, line 16: Waiting for T002", "TURN T002: ENQ RESOURCE, line 15: NORMAL",
                    "TURN T003: RETURN, line 21: Ended"):
            self.assertIn(due, said)

    def test_equal_rows(self) -> None:
        """Of rows that are alike one stands for all, but where one has changed."""
        zeros = [f"> {0x1000 + 16 * at:06X}  00000000 00000000 00000000 00000000  ................" for at in range(8)]
        other = [*zeros[:5], zeros[5].replace("  00000000", "  00000001"), *zeros[6:]]
        text = "folded(%s, %s, (line) => line.slice(2, 8)).map((it) => it.children ? it.children[0].textContent || 'folded' : it)"
        made = page(("s", SCRIPT))
        for now, was, count in ((zeros, zeros, 2), (zeros, other, 4), (other, other, 5), (zeros[:2], zeros[:2], 2)):
            self.assertEqual(len(script_ran(made, expression=text % (json.dumps(now), json.dumps(was)))), count, (now, was))

    def test_differences(self) -> None:
        made = page(("s", SCRIPT))
        for now, was, due in (("00112233", "00112233", []), ("00112233", "00FF2234", [[1, 2], [3, 4]]), ("0011", "----", [[0, 2]])):
            self.assertEqual(script_ran(made, expression=f"differences('{now}', '{was}')"), due)
        rows = {"> 2000B0  F1F25CF4 00000000 00000000 00012C4F  12*4...........|": True,
                "> 0000 E2C8E4E3 40E3C8C5 40C7C1E3 C5       'SHUT THE GATE'": True,
                "> 2000D0  40404040 40404040 00090000 00000000          ........": True,
                "> 2000C0  C5404040 40404040 40404040 C1D5D57D  E           ANN'": True,
                "> 2000F0  0000                                 ..": True, "> 0010 7D                                  '\''": True,
                "> 010040  00060000 -------- -------- --------  ....------------": True, "> R00 00000000 00000000 00000000 00010000": False,
                "> QUEUE 'JOBS' ITEMS 1 BYTES 12 READ 0": False, "> ITEM 1 LENGTH 12 'OIL THE PUMP'": False}
        self.assertEqual({row: script_ran(made, expression=f"bytesRow({json.dumps(row)}, '') !== null") for row in rows}, rows)
