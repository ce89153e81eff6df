"""What cics-run --cover tells: what keys run of sources, by the lines of their own files, of adapted ones too."""
import json
import os
import tempfile

from cics.child import TOP, lines_of, read
from tests.calling import Call, called, failures_of
from tests.case import PROGRAMS, TestCase

FOLDER = os.path.join(TOP, "examples/adapt")
BY_HAND = {  # programs of examples/adapt, and what their keys run, as another implementation counts it too
    "custinq-shop": "CUSTINQ: 84 of 91 statements run, 92.3 %; 6 of 11 branches both ways",
    "datert": "DATERT: 110 of 149 statements run, 73.8 %; 4 of 17 branches both ways",
    "stkbrws": "STKBRWS: 74 of 112 statements run, 66 %; 7 of 15 branches both ways"}
NEVER = "  never run: 101, 116-117, 120-123"  # of CUSTINQ
OLD = """* A COMMENT
P        CSECT
         CLI   EIBAID,X'F3'
         BE    LAST
         AP    TOTAL,=P'1'
         EXEC  CICS SEND TEXT FROM(=C'OK') LENGTH(2)                   X
               ERASE
         COPY  TAIL
LAST     AP    TOTAL,=P'2'
         EXEC  CICS RETURN
DFHEISTG DSECT
TOTAL    DS    PL4
         END   ,
"""
TAIL = "         CLI   EIBAID,X'F4'\n         BE    LAST\n         EXEC  CICS RETURN\n"
SOURCE = "P        CSECT\n         EXEC  CICS RETURN\n         LA    4,1\n         END\n"
TWO = f"{SOURCE}* BETWEEN\n{SOURCE.replace('P  ', 'QQQ', 1)}"
CALLS = [
    Call("two sources in a file", "cics-run", ["t.asm", "--key", "QQQ", "--cover"], 0,
         ["KEY T001 ENTER QQQ", "P: 0 of 2 statements run, 0 %; 0 of 0 branches both ways", "  never run: 2-3",
          "QQQ: 1 of 2 statements run, 50 %; 0 of 0 branches both ways", "  never run: 8",
          "2 programs: 1 of 4 statements run, 25 %; 0 of 0 branches both ways"], {"t.asm": TWO}),
    Call("with test data", "cics-run", ["t.asm", "--key", "P", "--cover", "--queue", "Q=q"], 0,
         ["KEY T001 ENTER P", "P: 1 of 2 *", "  never run: 3"], {"t.asm": SOURCE, "q": "ITEM\n"}),
    Call("an abend is still told", "cics-run", ["t.asm", "--key", "P", "--cover"], 1,
         ["KEY T001 ENTER P", "T001 Abended ASRA", "ABEND *", "NEXT *", *["R*"] * 4, "CC 0", "P: 3 of 5 *", "  never run: 5-6"],
         {"t.asm": SOURCE.replace("CSECT\n", "CSECT\n         SR    5,5\n         BCTR  5,0\n         L     2,0(5)\n")}),
    Call("of a script", "cics-run", ["t.asm", "--key", "P", "--script", "--cover"], 2, [], {"t.asm": SOURCE}, "--cover is of a run that is shown"),
    Call("of a film", "cics-run", ["t.asm", "--key", "P", "--film", "--lcov", "f"], 2, [], {"t.asm": SOURCE}, "--cover is of a run that is shown"),
    Call("in the place of a source", "cics-run", ["t.asm", "--key", "P", "--html", "t.asm"], 3,
         ["KEY T001 ENTER P", "P: *", "  never run: 3"], {"t.asm": SOURCE}, "t.asm: it is read, so it isn't written"),
]


class RunsTest(TestCase):
    def test_calls(self) -> None:
        self.none_of(failures_of(CALLS, PROGRAMS))

    def test_by_hand(self) -> None:
        for name, due in BY_HAND.items():
            words = lines_of(read(f"{FOLDER}/{name}.run").decode())
            ended = called("cics-run", [*words, "--cover", *PROGRAMS], FOLDER)
            self.assertIn(due, ended.lines(), ended)
            self.assertEqual(NEVER in ended.lines(), name == "custinq-shop")


class LedBackTest(TestCase):
    """An adapted source, of which the lines are those of the old one, and of its member."""

    def covered(self, folder: str, *words: str) -> list[str]:
        for name, text in (("old.asm", OLD), ("TAIL", TAIL)):
            with open(os.path.join(folder, name), "w", encoding="ascii") as file:
                file.write(text)
        made = called("cics-adapt", ["old.asm", "--copy", ".", "--map", "new.map"], folder)
        with open(os.path.join(folder, "new.asm"), "wb") as file:
            file.write(made.out)
        ended = called("cics-run", ["new.asm", "--map", "new.map", "--cover", *words, *PROGRAMS], folder)
        self.assertEqual((made.status, ended.reported), (0, b""), (made, ended))
        return ended.lines()

    def test_lines(self) -> None:
        """TOTAL has no digits, so AP abends; with PF3 the other one does."""
        with tempfile.TemporaryDirectory() as folder:
            lines = self.covered(folder, "--key", "P", "--key", "PF3 P", "--html", "p.html", "--lcov", "p.info")
            self.assertEqual(lines[-2:], ["P: 4 of 9 statements run, 44.4 %; 1 of 2 branches both ways", "  never run: 6, 10, ./TAIL:1-./TAIL:3"])
            self.assertIn("SF:./TAIL\nBRDA:2,0,0,-\nBRDA:2,0,1,-\nBRF:2\nBRH:0\nDA:1,0\nDA:2,0\nDA:3,0\nLF:3\nLH:0\n", read(f"{folder}/p.info").decode())
            page = read(f"{folder}/p.html").decode()
            self.assertIn("* A COMMENT", page)
            self.assertNotIn("$X", page)

    def test_without_the_old_source(self) -> None:
        with tempfile.TemporaryDirectory() as folder:
            self.covered(folder, "--key", "P")
            os.remove(f"{folder}/old.asm")
            ended = called("cics-run", ["new.asm", "--map", "new.map", "--key", "P", "--cover", *PROGRAMS], folder)
            self.assertEqual(ended.lines()[-3:], ["P: 3 of 9 statements run, 33.3 %; 0 of 2 branches both ways",
                                                  "  never run: 6, 9-10, ./TAIL:1-./TAIL:3", "  line 4 was never taken, 1 time: BE LAST"])

    def test_json(self) -> None:
        with tempfile.TemporaryDirectory() as folder:
            found = json.loads("\n".join(self.covered(folder, "--key", "P", "--json")))
        self.assertEqual([one["key"] for one in found["keys"]], ["ENTER P"])
        self.assertEqual([(line["line"], line["at"], line["runs"]) for line in found["cover"]["programs"][0]["lines"]][:3],
                         [("3", "old.asm:3", 1), ("4", "old.asm:4", 1), ("5", "old.asm:5", 1)])


class ShopTest(TestCase):
    def test_adapted(self) -> None:
        """UPDQ as cics-adapt makes it: 88 statements are the shop's, of the 556 that it then has."""
        with tempfile.TemporaryDirectory() as folder:
            words = lines_of(read(f"{FOLDER}/updq.run").decode())[1:]
            made = called("cics-adapt", ["updq.asm", "--copy", "copy", "--map", f"{folder}/map"], FOLDER)
            with open(f"{folder}/new.asm", "wb") as file:
                file.write(made.out)
            ended = called("cics-run", [f"{folder}/new.asm", *words, "--map", f"{folder}/map", "--cover", *PROGRAMS], FOLDER)
        self.assertEqual(ended.lines()[-2:], ["UPDQ: 88 of 88 statements run, 100 %; 7 of 8 branches both ways",
                                              "  line 64 was never taken, 2 times: BNZ BUSY"])
