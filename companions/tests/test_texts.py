"""How the programs' texts are read: scripts, the words of looks, and places in what looks write."""
from unittest.mock import patch

from cics.child import Child, Gone, Overdue, run, text_of
from cics.scripts import OF_CICSLOOK, actions_of
from cics.looks import place_in
from cics.transcripts import of_look, rows_of
from tests.case import CICSEDF, CICSLOOK, TestCase

DIVIDE = ["> ABEND T001 ASRA INTERRUPTION 9 FIXED-POINT DIVIDE TRAN I9 TASK 0000006", "> NEXT 010050 ZERO+000010 LINE 00011 INSTRUCTION 1D24"]
CONDITION = ["> ABEND T001 AEYH CONDITION QIDERR TRAN A4 TASK 0000014", "> COMMAND DELETEQ TS LIST 200060 LINE 00008 QUEUE('Q')", "> R14 01011E NOQUEUE+00001E"]
TASK = ["> T001 RUNNING", "> CC 0 NEXT 010000 A+000000 LINE 00002", "> LEVEL 01 PROGRAM A R14 010010 X", "> LEVEL 01 COMMAND LINE 00007"]


class TextsTest(TestCase):
    def test_words_of_looks(self) -> None:
        """They are those of HELP."""
        lines = of_look(run([CICSLOOK], b"HELP\n").lines())
        self.assertEqual({line.split(" ")[0] for line in lines}, {*OF_CICSLOOK})

    def test_places(self) -> None:
        self.assertEqual([place_in(DIVIDE), place_in(CONDITION), place_in(TASK), place_in(["> ABEND T001 NONE"])],
                         [("ZERO", 11), ("NOQUEUE", 8), ("A", 7), None])

    def test_rows(self) -> None:
        self.assertEqual(rows_of(["SCREEN T001", "02|B"])[:3], ["", "B", ""])

    def test_actions(self) -> None:
        found = actions_of("* ONE\n\nSOURCE P\n* A LINE\nKEY X\n/*\r\nrun t001 7\nRUN T001 4097\nKEY T001 PF3\nORDERS\nKEY T001 ENTER")
        self.assertEqual([(it.line, it.word, it.terminal, it.turns, it.is_event, it.is_open) for it in found],
                         [(3, "SOURCE", None, None, True, False), (7, "RUN", "T001", 7, True, False), (8, "RUN", "T001", None, False, False),
                          (9, "KEY", "T001", None, True, False), (10, "ORDERS", None, None, False, True)])
        self.assertEqual((found[0].block, found[0].comments), (["* A LINE", "KEY X"], ["ONE"]))


class ChildTest(TestCase):
    def test_answers(self) -> None:
        """Each text has its answer, with cicsedf and with cicslook, however many are asked at once."""
        for program in (CICSEDF, CICSLOOK):
            with Child([program]) as child:
                self.assertEqual(child.ask_each([["TERMINAL T001"], [], ["TURN T001"] * 3000, ["CLOCK 000000 00000", "SCREEN T001"]]),
                                 [["TERMINAL T001 DEFINED"], [], ["TURN T001 Idle"] * 3000, ["CLOCK SET", "SCREEN T001"]])
                self.assertEqual(child.end("TURN T002").lines(), ["TURN T002 NoSuchTerminal"])

    def test_one_that_ends(self) -> None:
        with Child([CICSEDF]) as child, self.assertRaises(Gone) as found:
            child.ask("TERMINAL T001", "NONE")
        self.assertEqual((found.exception.ended.why(), found.exception.ended.lines()), ("cicsedf: line 2: BadLine", ["TERMINAL T001 DEFINED"]))

    def test_one_that_says_too_much(self) -> None:
        with patch("cics.child.BYTES", 1 << 16), Child(["/usr/bin/yes"]) as child, self.assertRaises(Overdue) as found:
            child.ask("TERMINAL T001")
        self.assertIn("too many bytes", str(found.exception))

    def test_text(self) -> None:
        self.assertEqual(text_of(["A", ""]), "A\n\n")
