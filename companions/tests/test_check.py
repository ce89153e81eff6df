"""What cics-check tells of sources: of each its faults, by file, line and column."""
import json
import re

from cics.assembler_files import Source
from cics.checking import Found
from cics.cli import Paint
from cics.explaining import explained
from cics.faults import Block, Fault
from cics.looks import Fault as Row
from tests.calling import Call, called, failures_of, folder_of
from tests.case import PROGRAMS, TestCase

GOOD = "P        CSECT\n         USING P,3\n         BR    14\n         END\n"
BAD = "P        CSECT\n         USING P,3\n         L     4,NOWHERE\n         LA    4\n         END\n"
LONG = "DFHEISTG DSECT\n         DS    120000C\nP        CSECT\n         EXEC  CICS RETURN\n         END\n"
CALLS = [
    Call("a good source", "cics-check", ["p.asm"], 0, [], {"p.asm": GOOD}),
    Call("faults", "cics-check", ["p.asm"], 1, ["p.asm:3:18: UndefinedSymbol: NOWHERE", "p.asm:4:16: BadOperand: 4"], {"p.asm": BAD}),
    Call("several files", "cics-check", ["a.asm", "p.asm"], 1, ["p.asm:3:*", "p.asm:4:*"], {"a.asm": GOOD, "p.asm": BAD}),
    Call("sources one after the other", "cics-check", ["p.asm"], 1, ["p.asm:8:*", "p.asm:9:*"], {"p.asm": f"{GOOD}* THE NEXT\n{BAD}* ALL\n"}),
    Call("CR LF", "cics-check", ["p.asm"], 1, ["p.asm:3:*", "p.asm:4:*"], {"p.asm": BAD.replace("\n", "\r\n")}),
    Call("a byte order mark", "cics-check", ["p.asm"], 3, [], {"p.asm": "\xef\xbb\xbf" + GOOD}, "p.asm:1: a byte order mark in front of the text"),
    Call("no END", "cics-check", ["p.asm"], 1, ["p.asm:1:*"], {"p.asm": "P        CSECT\n"}),
    Call("an empty file", "cics-check", ["p.asm"], 1, ["p.asm:1:*"], {"p.asm": ""}),
    Call("a line that is longer than any script's", "cics-check", ["p.asm"], 1, ["p.asm:2:*"],
         {"p.asm": f"P        CSECT\n*{'X' * 5000}\n         END\n"}),
    Call("a line that ends the block", "cics-check", ["p.asm"], 3, [], {"p.asm": "P        CSECT\n/*\n         END\n"}, "p.asm:2: a line /*"),
    Call("no file", "cics-check", ["p.asm"], 3, [], {}, "p.asm: No such file"),
    Call("a working storage that is too long", "cics-check", ["p.asm"], 1, ["p.asm:1:1: StgLength: the program P is refused"], {"p.asm": LONG}),
    Call("no statement with a byte", "cics-check", ["p.asm"], 1, ["p.asm:2:10: BadLength: the program NONAME is refused"],
         {"p.asm": "* NOTHING\n         END\n"}),
    Call("an entry behind the text", "cics-check", ["p.asm"], 1, ["p.asm:4:10: EntryOutside: the program P is refused"],
         {"p.asm": "P        CSECT\n         BR    14\nLAST     EQU   *\n         END   LAST\n"}),
    Call("two of a name in a file", "cics-check", ["p.asm"], 1, ["p.asm:5:1: Duplicate: the program P is refused"], {"p.asm": f"{GOOD}{GOOD}"}),
    Call("two of a name in two files", "cics-check", ["p.asm", "q.asm"], 0, [], {"p.asm": GOOD, "q.asm": GOOD}),
    Call("one that is refused beside one with faults", "cics-check", ["p.asm"], 1,
         ["p.asm:3:18: *", "p.asm:4:16: *", "p.asm:6:1: StgLength: the program P is refused"], {"p.asm": BAD + LONG}),
    Call("a script's source that is refused", "cics-check", ["s.script"], 1, ["s.script:2:1: StgLength: the program PROG is refused"],
         {"s.script": f"SOURCE PROG\n{LONG}/*\nTERMINAL T001\n"}),
    Call("a section's name that is none of a program", "cics-check", ["p.asm"], 1, ["p.asm:1:1: BadName: TOOLONGNAME"],
         {"p.asm": "TOOLONGNAME CSECT\n         BR    14\n         END\n"}),
    Call("a section's name with a byte that has no character", "cics-check", ["p.asm"], 1, ["p.asm:1:2: BadCharacter: ."],
         {"p.asm": "A\0B      CSECT\n         BR    14\n         END\n"}),
    Call("no words", "cics-check", [], 2, [], {}, "write: cics-check"),
    Call("a script", "cics-check", ["s.script"], 1, ["s.script:1:5: BadLine: two blanks", "s.script:5:18: UndefinedSymbol: NOWHERE",
                                                     "s.script:6:16: BadOperand: 4", "s.script:9:1: BadLine: no such look: taks; TASKS?",
                                                     "s.script:10:10: BadLook: the number of turns is 1 to 4096"],
         {"s.script": f"TURN  T001\nSOURCE P\n{BAD}/*\ntaks\nRUN T001 5000\n"}),
    Call("a good script", "cics-check", ["s.script"], 0, [], {"s.script": f"SOURCE P\n{GOOD}/*\r\ntasks\n"}),
    Call("a script by its option", "cics-check", ["--script", "s"], 1, ["s:1:1: BadLine: the script ends before the /* of this SOURCE"],
         {"s": f"SOURCE P\n{BAD}"}),
    Call("a script of bytes", "cics-check", ["s.script"], 1, ["s.script:1:16: BadLine: the byte X'E9' has no code*",
                                                              "s.script:4:16: BadCharacter: *"],
         {"s.script": "KEY T001 CLEAR \xe9\nSOURCE P\nP        CSECT\n         DC  C'\xe9'\n         END\n/*\n"}),
    Call("marks", "cics-check", ["--marks", "p.asm"], 1,
         ["p.asm:3:18: UndefinedSymbol: NOWHERE", "    3 |          L     4,NOWHERE", "      |                  ^^^^^^^",
          "p.asm:4:16: BadOperand: 4", "    4 |          LA    4", "      |                ^",
          "What a kind means, and what to write instead: cics-check --explain UndefinedSymbol"], {"p.asm": BAD}),
    Call("what is adapted", "cics-check", ["--marks", "p.asm"], 1, ["p.asm:2:*", "    2 |*", "      |*", "p.asm:3:*", "    3 |*", "      |*",
                                                                    "p.asm:4:*",
         "    4 |*", "      |*", "p.asm: cics-adapt rewrites 2 of the faulty lines", "What a kind means, *"],
         {"p.asm": "P        CSECT\n         BER   14\n         DC    Y(1)\n         L     4,NOWHERE\n         END\n"}),
    Call("a note's mark", "cics-check", ["--marks", "p.asm"], 0, ["p.asm:3:*", "    3 |*", "      |                                       ^^^^^^^^^^",
                                                                   "What a kind means, *"],
         {"p.asm": "P        CSECT\nX        DS    CL80\n         EXEC  CICS SEND TEXT FROM(X) LENGTH(80)\n         END\n"}),
    Call("an explanation", "cics-check", ["--explain", "conflict"], 0,
         ["Conflict: an option or a condition twice; *", "", "Look for: INTO with SET, *", "", 'docs/TRANSLATOR.md, "Faults"']),
    Call("an explanation of none", "cics-check", ["--explain", "Conflikt"], 2, [], {}, "--explain Conflikt: no such fault; Conflict?"),
    Call("an explanation with a file", "cics-check", ["--explain", "Conflict", "p.asm"], 2, [], {"p.asm": BAD}, "--explain KIND stands alone"),
]


# Faults of sources (docs/SCRIPT.md, "Faults and statuses")
KINDS = """TooLong BadCharacter BadContinuation BadName NoEnd UnknownCommand UnknownOption BadArgument TooManyConditions Conflict MissingOption
UnknownOperation UndefinedSymbol DuplicateSymbol NoAddressability BadOperand ValueOutOfRange NotRelocatable TooLarge""".split()

# Lines of FAULTS, and what is told of them.
FORMS = {
    "> 4:18 UndefinedSymbol         L     4,>>BUFER<<": "p.asm:2:18: UndefinedSymbol: BUFER",
    "> 4:20 MissingOption INTO OR SET         EXEC CICS >>READQ TS<< QUEUE('Q')": "p.asm:2:20: MissingOption: INTO OR SET",
    "> 4:20 MissingOption LENGTH LABEL    EXEC CICS >>READQ TS<< QUEUE('Q') INTO(X)": "p.asm:2:20: MissingOption: LENGTH",
    "> 4:18 NOTE LENGTH(80) IS AN ADDRESS: =H'80'": "p.asm:2:18: note: LENGTH(80) IS AN ADDRESS: =H'80'",
    "> 6:1 NoEnd >>/*<<": "p.asm:3:1: NoEnd: /*",
    "> 4 UndefinedSymbol         L     4,BUFER": None,
}


class CheckTest(TestCase):
    def test_calls(self) -> None:
        self.none_of(failures_of(CALLS, PROGRAMS))

    def test_explanations(self) -> None:
        """Each fault that the program has is explained, with what to look for."""
        for kind in [*KINDS, "BadLine", "BadLook", "note"]:
            lines = explained(kind)
            self.assertTrue(lines[0].startswith(f"{kind}: ") and len(lines[0]) > len(kind) + 12, lines)
            self.assertTrue(lines[-1].startswith("docs/"), lines)
            self.assertTrue(kind == "BadLook" or any(line.startswith(("Look for: ", "    -> ")) for line in lines), lines)

    def test_colours(self) -> None:
        found = Found(Fault("p.asm", 3, 18, "UndefinedSymbol", "NOWHERE", 7), "         L     4,NOWHERE")
        plain, painted = (found.marked(Paint(has_colours=has_colours)) for has_colours in (False, True))
        self.assertEqual([re.sub("\x1b\\[[0-9;]*m", "", line) for line in painted], plain)
        self.assertIn("\x1b[1;31m^^^^^^^\x1b[0m", painted[2])

    def test_forms(self) -> None:
        block = Block(Source("p.asm", 0, ["P        CSECT"] * 3, "P"), 2)
        self.assertEqual({line: str(block.fault(found)) if (found := Row.read(line)) else None for line in FORMS}, FORMS)

    def test_json(self) -> None:
        with folder_of({"p.asm": BAD}) as folder:
            ended = called("cics-check", ["--json", "p.asm", *PROGRAMS], folder)
        found = [(one["file"], one["line"], one["column"], one["kind"]) for one in json.loads(ended.out)]
        self.assertEqual(found, [("p.asm", 3, 18, "UndefinedSymbol"), ("p.asm", 4, 16, "BadOperand")])
