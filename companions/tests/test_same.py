"""What cics-same tells of two versions of programs, beyond what checks/same-test sees: several sources, two scripts, queues, test
data."""
import json
import os
import tempfile

from cics.assembler_files import sources_of_file
from cics.child import TOP, lines_of, read
from tests.calling import Call, called, failures_of, put
from tests.case import CICSEDF, PROGRAMS, TestCase

WRITER = """P        CSECT
         EXEC  CICS WRITEQ TS QUEUE('LOG') FROM(TEXT) LENGTH(=H'3')
         EXEC  CICS RETURN
TEXT     DC    C'ONE'
         END
"""
CALLER = """DFHEISTG DSECT
AREA     DS    CL8
CALLER   CSECT
         EXEC  CICS LINK PROGRAM('CALLEE') COMMAREA(AREA) LENGTH(=H'8')
         EXEC  CICS SEND TEXT FROM(AREA) LENGTH(=H'8') ERASE
         EXEC  CICS RETURN
         END
"""
CALLEE = """CALLEE   CSECT
         L     5,DFHEICAP
         MVC   0(8,5),=CL8'HELLO'
         EXEC  CICS RETURN
         END
"""
SHOWER = """DFHEISTG DSECT
LEN      DS    H
ITEM     DS    CL8
SHOWER   CSECT
         MVC   LEN,=H'8'
         EXEC  CICS READQ TS QUEUE('Q') INTO(ITEM) ITEM(=H'2')         X
               LENGTH(LEN)
         EXEC  CICS SEND TEXT FROM(ITEM) LENGTH(LEN) ERASE
         EXEC  CICS RETURN
         END
"""
OTHER = WRITER.replace("ONE", "TWO")
LATER = CALLER.replace("CL8", "CL9").replace("COMMAREA(AREA) LENGTH(=H'8')", "COMMAREA(AREA) LENGTH(=H'9')").replace("FROM(AREA)", "FROM(AREA+1)")
CALLED = CALLEE.replace("0(8,5)", "1(8,5)")  # with LATER: the layout that both share, a byte later


def script(*sources: str) -> str:
    names = [source.split(" CSECT")[0].split("\n")[-1].strip() for source in sources]
    blocks = "".join(f"SOURCE {name}\n{source}/*\n" for name, source in zip(names, sources))
    return f"{blocks}TRANSACTION T {names[0]}\nTERMINAL T001\nKEY T001 ENTER T\nTURN T001\n"


COMPARED = ("compared after each key: answers, ends of tasks, screens, next transactions and COMMAREAs, held input, resources, the common work "
            "area, and queues with the item last read; the script's own turns were left out")
SHOWN_ALONE = "compared after each key: answers, ends of tasks, screens and queues; the script's own turns were left out"
SCREENS_ALONE = "compared after each key: answers, ends of tasks and screens; the script's own turns were left out"
UNCHANGED = "same after 1 key; no line is changed"


def ran(program: str, old: str, new: str) -> str:
    return f"{program}: {old} statements of the old source were run, {new} of the new"


def same(program: str, count: str) -> list[str]:
    """What is said of two sources without a change, all of whose statements are run."""
    return [UNCHANGED, ran(program, f"{count} of {count}", f"{count} of {count}"), COMPARED]


COUNTER = """DFHEISTG DSECT
KEPT     DS    CL%d
C        CSECT
         LA    5,KEPT
         AH    5,=H'%d'
         MVC   0(4,5),=C'%s'
         EXEC  CICS SEND TEXT FROM(=C'COUNTED') LENGTH(=H'7') ERASE
         EXEC  CICS RETURN TRANSID('T') COMMAREA(KEPT) LENGTH(=H'%d')
         END
"""
READER = """DFHEISTG DSECT
LEN      DS    H
ITEM     DS    CL8
R        CSECT
         MVC   LEN,=H'8'
         EXEC  CICS WRITEQ TS QUEUE('Q') FROM(=C'AN') LENGTH(=H'2')
         EXEC  CICS READQ TS QUEUE('Q') INTO(ITEM) ITEM(=H'1')         X
               LENGTH(LEN)
         EXEC  CICS RETURN
         END
"""
UNREAD = "".join(line for line in READER.splitlines(keepends=True) if "READQ" not in line and not line.startswith("               LENGTH"))
IN_AREA = """P        CSECT
         EXEC  CICS ADDRESS CWA(5)
         MVI   511(5),C'%s'
         EXEC  CICS RETURN
         END
"""


def counter(length: int, at: int, text: str) -> str:
    """A program that keeps a COMMAREA with a text at an offset."""
    return COUNTER % (length, at, text, length)


FILES = {"w.script": script(WRITER), "w.asm": WRITER, "o.asm": OTHER, "o.script": script(OTHER), "c.script": script(CALLER, CALLEE),
         "caller.asm": CALLER, "callee.asm": CALLEE, "later.asm": LATER, "called.asm": CALLED, "s.script": script(SHOWER), "s.asm": SHOWER,
         "q": "ONE\nIT'S &\n", "t.asm": SHOWER.replace("=H'2'", "=H'1'")}
CALLS = [
    Call("a queue", "cics-same", ["w.script", "P", "w.asm", "o.asm"], 1,
         ["line 10, KEY T001 ENTER T: item 1 of queue 'LOG' differs", "old: > 0000 D6D5C5 *", "new: > 0000 E3E6D6 *"], FILES),
    Call("queues left out", "cics-same", ["--screens", "w.script", "P", "w.asm", "o.asm"], 0,
         ["same after 1 key; the one changed line was run", ran("P", "2 of 2", "2 of 2"), SCREENS_ALONE], FILES),
    Call("two scripts", "cics-same", ["w.script", "o.script"], 1, ["line *", "old: *", "new: *"], FILES),
    Call("a script and itself", "cics-same", ["w.script", "w.script"], 0, same("P", "2"), FILES),
    Call("several sources", "cics-same", ["c.script", "--source", "CALLER=caller.asm:later.asm", "--source", "CALLEE=callee.asm:called.asm"], 0,
         ["same after 1 key; all 4 changed lines were run", ran("CALLER", "3 of 3", "3 of 3"), ran("CALLEE", "3 of 3", "3 of 3"), COMPARED], FILES),
    Call("one of two", "cics-same", ["c.script", "--source", "CALLEE=callee.asm:called.asm"], 1,
         ["line *, KEY T001 ENTER T:", "old: T001 Ended", "new: T001 Abended ASRA"], FILES),
    Call("test data", "cics-same", ["s.script", "SHOWER", "s.asm", "s.asm", "--queue", "Q=q"], 0, same("SHOWER", "4"), FILES),
    Call("test data that is shown", "cics-same", ["s.script", "SHOWER", "s.asm", "t.asm", "--queue", "Q=q"], 1,
         ["line *SCREEN T001 differs", "old: 01|IT'S &", "new: 01|ONE"], FILES),
    Call("no test data", "cics-same", ["s.script", "SHOWER", "s.asm", "s.asm"], 0, [UNCHANGED, ran("SHOWER", "2 of 4", "2 of 4"), COMPARED], FILES),
    Call("other keys", "cics-same", ["w.script", "c2.script"], 2, [], {**FILES, "c2.script": script(WRITER) + "KEY T001 ENTER T\n"}, "different keys"),
    Call("a source that isn't there", "cics-same", ["w.script", "X", "w.asm", "o.asm"], 2, [], FILES, "w.script: it has no SOURCE X"),
    Call("a file that isn't there", "cics-same", ["w.script", "P", "w.asm", "n.asm"], 2, [], FILES, "n.asm: No such file"),
    Call("a faulty source", "cics-same", ["w.script", "P", "w.asm", "f.asm"], 2, ["f.asm can't be run: f.asm:4: UnknownOperation"],
         {**FILES, "f.asm": WRITER.replace("DC ", "DD ")}),
    Call("one without END", "cics-same", ["w.script", "P", "w.asm", "f.asm"], 2, ["f.asm can't be run: f.asm:4: NoEnd"],
         {**FILES, "f.asm": WRITER.replace("         END\n", "")}),
    Call("a faulty script", "cics-same", ["f.script", "f.script"], 2, ["f.script can't be run: f.script:10: BadLine"],
         {"f.script": script(WRITER).replace("ENTER T", "ENTRE T")}),
    Call("a source in a script that is faulty", "cics-same", ["f.script", "f.script"], 2, ["f.script can't be run: f.script:5: UnknownOperation"],
         {"f.script": script(WRITER.replace("DC ", "DD "))}),
    Call("a source that is refused", "cics-same", ["w.script", "P", "w.asm", "f.asm"], 2,
         ["f.asm can't be run: w.script:1: PROGRAM P REFUSED StgLength"], {**FILES, "f.asm": f"DFHEISTG DSECT\n         DS    120000C\n{WRITER}"}),
    Call("a source that ends its block", "cics-same", ["w.script", "P", "w.asm", "x.asm"], 2, [],
         {**FILES, "x.asm": f"{WRITER}/*\nSOURCE OTHER\n{CALLEE}"}, "x.asm:6: a line /* ends the source's block: take it out"),
    Call("an old one that does, by --source", "cics-same", ["w.script", "--source", "P=x.asm:w.asm"], 2, [],
         {**FILES, "x.asm": f"{WRITER}/*\r\nSOURCE OTHER\n{CALLEE}"}, "x.asm:6: a line /* ends"),
    Call("a byte order mark", "cics-same", ["w.script", "P", "w.asm", "x.asm"], 2, [], {**FILES, "x.asm": "\xef\xbb\xbf" + WRITER},
         "x.asm:1: a byte order mark"),
    Call("faulty test data", "cics-same", ["s.script", "SHOWER", "s.asm", "s.asm", "--queue", "Q=q"], 2, ["s.asm can't be run: q:2: ValueOutOfRange"],
         {**FILES, "q": "ONE\n=H'99999'\n"}),
    Call("too few words", "cics-same", ["w.script"], 2, [], FILES, "write: cics-same"),
    Call("a COMMAREA that is kept", "cics-same", ["k.script", "C", "k.asm", "k1.asm"], 1,
         ["line 14, KEY T001 ENTER T: what is kept for a terminal differs", "old: * COMMAREA 8 X'0000D6D5C5400000' *",
          "new: * COMMAREA 8 X'0000E3E6D6400000' *"],
         {"k.script": script(counter(8, 2, "ONE ")), "k.asm": counter(8, 2, "ONE "), "k1.asm": counter(8, 2, "TWO ")}),
    Call("what is shown of it", "cics-same", ["--shown", "k.script", "C", "k.asm", "k1.asm"], 0,
         ["same after 1 key; the one changed line was run", ran("C", "5 of 5", "5 of 5"), SHOWN_ALONE],
         {"k.script": script(counter(8, 2, "ONE ")), "k.asm": counter(8, 2, "ONE "), "k1.asm": counter(8, 2, "TWO ")}),
    Call("the end of a long one", "cics-same", ["k.script", "C", "k.asm", "k1.asm"], 1,
         ["line 14, after KEY T001 ENTER T: the COMMAREA for T001 differs", "old: > 0012C0  * D6D5C540*", "new: > 0012C0  * E3E6D640*"],
         {"k.script": script(counter(5000, 4812, "ONE ")), "k.asm": counter(5000, 4812, "ONE "), "k1.asm": counter(5000, 4812, "TWO ")}),
    Call("the end of a long one, at the next key", "cics-same", ["k.script", "C", "k.asm", "k1.asm"], 1,
         ["line 16, KEY T001 ENTER: the COMMAREA for T001 differs", "old: > 000040 * C5400000 *", "new: > 000040 * D6400000 *"],
         {"k.script": script(counter(80, 70, "ONE ")) + "KEY T001 ENTER\n", "k.asm": counter(80, 70, "ONE "), "k1.asm": counter(80, 70, "TWO ")}),
    Call("a long one that is the same", "cics-same", ["k.script", "k.script"], 0, same("C", "5"), {"k.script": script(counter(80, 70, "ONE "))}),
    Call("the item last read", "cics-same", ["r.script", "R", "r.asm", "u.asm"], 1,
         ["line *, KEY T001 ENTER T: a queue differs", "old: > QUEUE 'Q' ITEMS 1 BYTES 2 READ 1", "new: > QUEUE 'Q' ITEMS 1 BYTES 2 READ 0"],
         {"r.script": script(READER), "r.asm": READER, "u.asm": UNREAD}),
    Call("the common work area", "cics-same", ["p.script", "P", "p.asm", "q.asm"], 1,
         ["line *, KEY T001 ENTER T: the common work area differs", "old: > 0011F0 * 000000C1 *", "new: > 0011F0 * 000000C2 *"],
         {"p.script": script(IN_AREA % "A"), "p.asm": IN_AREA % "A", "q.asm": IN_AREA % "B"}),
    Call("a script without keys", "cics-same", ["w.script", "P", "w.asm", "w.asm"], 2, ["no key is pressed, so nothing is compared"],
         {**FILES, "w.script": script(WRITER).replace("KEY T001 ENTER T\n", "")}),
    Call("neither comes to rest", "cics-same", ["w.script", "w.script"], 2,
         ["line 11, KEY T001 ENTER T: T001 doesn't come to rest within 5000 turns, with both, *"],
         {"w.script": script(WRITER.replace("TEXT     DC", "         DC").replace("         EXEC  CICS RETURN", "L        EXEC  CICS SUSPEND\n         B     L")
                             .replace("FROM(TEXT)", "FROM(=C'ONE')")).replace("TURN T001\n", "")}),
    Call("no files", "cics-same", ["w.script", "--source", "P=w.asm"], 2, [], FILES, "write: cics-same"),
]
BRANCHING = """DFHEISTG DSECT
WORK     DS    CL8
B        CSECT
         USING AREA,7
         CLI   EIBAID,X'F3'
         BE    LAST
         MVC   WORK,FIRST
         EXEC  CICS RETURN
LAST     MVC   WORK,SECOND
         LA    4,NUMBER
         MVC   0(2,7),INAREA
         EXEC  CICS RETURN
FIRST    DC    CL4'ONE'
         DC    CL4'MORE'
SECOND   DC    CL8'TWO'
UNUSED   DC    CL8'THREE'
FOUR     EQU   4
NUMBER   EQU   FOUR+1
AREA     DSECT
INAREA   DS    CL2
         END
"""
NEVER, RUN = "same after 1 key; the one changed line was never run: ", "same after 1 key; the one changed line was run"
CHANGES = {  # of BRANCHING: what is changed for what, and what is said where ENTER is pressed
    ("LA    4,NUMBER", "LA    4,1"): f"{NEVER}10",
    ("MVC   WORK,FIRST", "MVC   WORK(8),FIRST"): RUN,
    ("MVC   WORK,FIRST", "MVC   WORK,FIRST                 A REMARK"): UNCHANGED,
    ("LAST     MVC   WORK,SECOND\n", "* A COMMENT\nLAST     MVC   WORK,SECOND\n"): UNCHANGED,
    ("         CLI ", "         EJECT\n         CLI "): UNCHANGED,
    ("         LA    4,NUMBER\n", ""): f"{NEVER}old 10",
    ("         LA    4,NUMBER\n", "         LA    4,NUMBER\n         LA    5,1\n"): f"{NEVER}11",
    ("CL8'TWO'", "CL8'NEW'"): f"{NEVER}15 (used on 9)",
    ("CL4'ONE'", "CL4'NEW'"): RUN,
    ("CL4'MORE'", "CL4'NEW'"): f"{NEVER}14 (perhaps never read)",
    ("CL8'THREE'", "CL8'NEW'"): f"{NEVER}16 (used nowhere)",
    ("FOUR     EQU   4", "FOUR     EQU   5"): f"{NEVER}17 (used on 10)",
    ("INAREA   DS    CL2", "INAREA   DS    CL3"): f"{NEVER}20 (used on 11)",
    ("WORK     DS    CL8", "WORK     DS    CL9"): f"{NEVER}2 (used on 9)",
    ("         USING AREA,7", "         USING AREA,8"): f"{NEVER}4 (used on 11)",
    ("FIRST    DC ", "         DC    X'00'\nFIRST    DC "): f"{NEVER}13 (used nowhere)",
    ("NUMBER   EQU   FOUR+1\n", "NUMBER   EQU   FOUR+1\nOTHER    EQU   5\n"): f"{NEVER}19 (used nowhere)",
    ("         END", "         END   B"): RUN,
    ("BE    LAST", "BE    LAST\n         BNE   *+4"): RUN,
    ("         LA    4,NUMBER\n         MVC   0(2,7),INAREA\n", "         LA    4,1\n"): "same after 1 key; of 2 changed lines 2 were never run: 10, old 11",
    ("         MVC   WORK,FIRST\n         EXEC  CICS RETURN\nLAST     MVC   WORK,SECOND\n", "         LA    3,0(,3)\n         MVC   WORK,FIRST\n"
     "         EXEC  CICS RETURN\nLAST     LA    5,1\n"): "same after 1 key; of 2 changed lines 1 was never run: 10",
}
TABLES = """DFHEISTG DSECT
OUT      DS    CL2
P        CSECT
         LA    5,TABLE
         LA    6,SIZE
         CLI   EIBAID,X'F3'
         BE    LAST
         MVC   OUT,0(5)
         IC    4,CODES(6)
         MVC   OUT(L'TEXT),TEXT+1
         TR    OUT,CODES
         EXEC  CICS RETURN
LAST     LA    5,SIZE(5)
         EXEC  CICS RETURN
TABLE    DC    CL2'AA'
         DC    CL2'BB'
CODES    DC    256X'40'
TEXT     DC    CL2'CC'
ADDRESS  DC    A(TABLE)
SIZE     EQU   2
         END
"""
OF_TABLES = {  # the same of TABLES: an entry that nobody may come to, a byte that an index chooses, EQU that a line uses that is never run
    ("'BB'", "'NO'"): f"{NEVER}16 (perhaps never read)",
    ("256X'40'", "256X'41'"): f"{NEVER}17 (perhaps never read)",
    ("'CC'", "'NO'"): RUN,
    ("A(TABLE)", "A(CODES)"): f"{NEVER}19 (used nowhere)",
    ("EQU   2", "EQU   1"): f"{NEVER}20 (used on 13)",
}
TWO_CHANGED = {"c.script": script(CALLER, CALLEE, WRITER), "n.script": script(CALLER.replace("ERASE", "NOHANDLE ERASE"), CALLEE, OTHER)}
IMAGE = "IMAGE I 80\n4100F01C5000F0189680F0184110F018\n41E0080005EE0000000000000E080000\n/*\n"
OF_CHANGES = [
    Call("even unrun", "cics-same", ["b.script", "n.script", "--even-unrun"], 0, [f"{NEVER}10", ran("B", "4 of 8", "4 of 8"), COMPARED],
         {"b.script": script(BRANCHING), "n.script": script(BRANCHING.replace("4,NUMBER", "4,1"))}),
    Call("a program that isn't begun", "cics-same", ["c.script", "n.script"], 4,
         ["same after 1 key; of 2 changed lines 1 was never run: P 4 (used on 2)", ran("CALLER", "3 of 3", "3 of 3"), ran("P", "0 of 2", "0 of 2"), COMPARED],
         TWO_CHANGED),
    Call("a program more", "cics-same", ["w.script", "n.script"], 4,
         ["same after 1 key; of 5 changed lines 5 were never run: 1, 2, 3, 4, 5", ran("CALLEE", "0 of 0", "0 of 3"), COMPARED],
         {"w.script": script(WRITER), "n.script": script(WRITER, CALLEE)}),
    Call("an image", "cics-same", ["w.script", "n.script"], 4,
         ["same after 1 key; the one changed line was never run: the image I", ran("P", "2 of 2", "2 of 2"), COMPARED],
         {"w.script": IMAGE + script(WRITER), "n.script": IMAGE.replace("0E08", "0E07") + script(WRITER)}),
]


class SameTest(TestCase):
    def test_calls(self) -> None:
        self.none_of(failures_of(CALLS, PROGRAMS))


class ChangesTest(TestCase):
    """What "the same" stands on: which changed lines were run, and which never."""

    def test_changes(self) -> None:
        """No change of what isn't run is held to be the same."""
        with tempfile.TemporaryDirectory() as folder:
            for source, (old, new), due in [*((BRANCHING, *one) for one in CHANGES.items()), *((TABLES, *one) for one in OF_TABLES.items())]:
                put(folder, {"b.script": script(source), "b.asm": source, "n.asm": source.replace(old, new, 1)})
                ended = called("cics-same", ["b.script", "B" if source == BRANCHING else "P", "b.asm", "n.asm", *PROGRAMS], folder)
                self.assertEqual((ended.lines()[0], ended.status), (due, 4 if "never" in due else 0), (old, new, ended))

    def test_calls(self) -> None:
        self.none_of(failures_of(OF_CHANGES, PROGRAMS))

    def test_json(self) -> None:
        with tempfile.TemporaryDirectory() as folder:
            for name, text in TWO_CHANGED.items():
                with open(os.path.join(folder, name), "w", encoding="ascii") as file:
                    file.write(text)
            ended = called("cics-same", ["c.script", "n.script", "--json", *PROGRAMS], folder)
            found = json.loads(ended.out)
            self.assertEqual((ended.status, found["outcome"], found["changed"], found["never"]), (4, "same", 2, ["P 4 (used on 2)"]))
            by_cicsedf = called("cics-same", ["c.script", "n.script", "--cicsedf", CICSEDF], folder)
            self.assertEqual((by_cicsedf.status, by_cicsedf.lines()[0]), (4, "same after 1 key; 2 changed lines, and cicsedf doesn't count what was run"))

    def test_changes_of_shops_programs(self) -> None:
        """In each of three programs of examples/adapt one line after the other that its keys never run is changed; each is told."""
        folder = os.path.join(TOP, "examples/adapt")
        for name, numbers in (("custinq-shop", (101, 116, 123)), ("datert", (40, 63, 180)), ("stkbrws", (60, 90, 155))):
            words = lines_of(read(f"{folder}/{name}.run").decode())
            with tempfile.TemporaryDirectory() as made:
                with open(f"{made}/s.script", "wb") as file:
                    file.write(called("cics-run", [*words, "--script"], folder).out)
                for number in numbers:
                    self.is_told(os.path.join(folder, words[0]), f"{made}/s.script", number)

    def is_told(self, source: str, path: str, number: int) -> None:
        lines = read(source).decode().split("\n")
        program = sources_of_file(source)[0].name
        new = f"{path}.asm"
        with open(new, "w", encoding="latin-1") as file:
            file.write("\n".join([*lines[: number - 1], f"{lines[number - 1][:9].strip():<9}LA    0,1", *lines[number:]]))
        ended = called("cics-same", [path, program, source, new, *PROGRAMS], os.path.dirname(path))
        self.assertEqual((ended.status, ended.lines()[0].split("; ")[-1]), (4, f"the one changed line was never run: {number}"), ended)
