"""What cics-run shows of programs by keys, and of test data; and that the programs of examples/adapt, with what is left written by hand,
come to the screens that are kept."""
import glob
import os
import tempfile

from cics.child import TOP, lines_of, read
from tests.calling import Call, called, failures_of, folder_of
from tests.case import PROGRAMS, TestCase

FOLDER = os.path.join(TOP, "examples/adapt")
HELLO = """DFHEISTG DSECT
INLEN    DS    H
INPUT    DS    CL80
HELLO    CSECT
         MVC   INLEN,=H'80'
         MVC   INPUT,=CL80' '
         EXEC  CICS RECEIVE INTO(INPUT) LENGTH(INLEN)
         CLI   EIBAID,X'F3'
         BE    BAD
         EXEC  CICS SEND TEXT FROM(INPUT) LENGTH(=H'20') ERASE
         EXEC  CICS RETURN TRANSID('HELL')
BAD      DC    H'0'
         END
"""
READER = """DFHEISTG DSECT
LEN      DS    H
LAST     DS    H
N        DS    H
D        DS    D
ITEM     DS    CL100
READER   CSECT
         EXEC  CICS HANDLE CONDITION QIDERR(SHOW) ITEMERR(SHOW)
NEXT     MVC   LEN,=H'100'
         EXEC  CICS READQ TS QUEUE('DATA') INTO(ITEM) LENGTH(LEN)      X
               NEXT NUMITEMS(N)
         MVC   LAST,LEN
         B     NEXT
SHOW     EXEC  CICS SEND TEXT FROM(ITEM) LENGTH(LAST) ERASE
         EXEC  CICS RETURN
         END
"""  # shows the last item
COUNTER = READER.replace("LENGTH(LAST)", "LENGTH(=H'7')").replace("SHOW     ", """SHOW     LH    4,N
         CVD   4,D
         OI    D+7,15
         UNPK  ITEM(7),D+4(4)
         """)  # shows how many there are
STORER = """DFHEISTG DSECT
COUNT    DS    F
TEXT     DS    CL8
STORER   CSECT
         LA    4,7
         ST    4,COUNT
         MVC   TEXT,=CL8'HELLO'
         DC    H'0'
         EXEC  CICS RETURN
         END
"""
CALLS = [
    Call("a text", "cics-run", ["h.asm", "--key", "HELLO YOU"], 0, ["KEY T001 ENTER HELLO YOU", "01|HELLO YOU"], {"h.asm": HELLO}),
    Call("an abend", "cics-run", ["h.asm", "--key", "HELL A", "--key", "PF3 B"], 1,
         ["KEY T001 ENTER HELL A", "01|HELL A", "KEY T001 PF3 B", "T001 Abended ASRA", "01|HELL A",
          "ABEND T001 ASRA INTERRUPTION 1 OPERATION TRAN HELL TASK 0000002", "NEXT *", "R00*", "R04*", "R08*", "R12*", "CC 0"], {"h.asm": HELLO}),
    Call("the fields of an abend", "cics-run", ["h.asm", "--fields", "--key", "HELL A", "--key", "PF3 B"], 1,
         ["KEY T001 ENTER HELL A", "01|HELL A", "KEY T001 PF3 B", "T001 Abended ASRA", "01|HELL A", "ABEND T001 ASRA *", "NEXT *", *["R*"] * 4, "CC 0",
          "FIELD T001 'INLEN' AT 2000B0 LENGTH 2 0001 '..' VALUE 1", "FIELD T001 'INPUT' AT 2000B2 LENGTH 80 C240*"], {"h.asm": HELLO}),
    Call("fields that the turn of an abend changes", "cics-run", ["s.asm", "--fields", "--key", "STOR"], 1,
         ["KEY T001 ENTER STOR", "T001 Abended ASRA", "ABEND T001 ASRA *", "NEXT *", *["R*"] * 4, "CC 0",
          "FIELD T001 'COUNT' AT 2000B0 LENGTH 4 00000007 '....' VALUE 7", "FIELD T001 'TEXT' AT 2000B4 LENGTH 8 C8C5D3D3D6404040 'HELLO   '"],
         {"s.asm": STORER}),
    Call("another transaction", "cics-run", ["h.asm", "--tran", "AB=HELLO", "--key", "AB"], 0, ["KEY T001 ENTER AB", "01|AB"], {"h.asm": HELLO}),
    Call("no transaction", "cics-run", ["h.asm", "--key", "XX"], 1, ["KEY T001 ENTER XX", "T001 NoSuchTransaction: *"], {"h.asm": HELLO}),
    Call("a transaction of no program", "cics-run", ["h.asm", "--tran", "AB=NONE", "--key", "AB"], 2, [], {"h.asm": HELLO}, "write: --tran NAME=PROGRAM"),
    Call("no key", "cics-run", ["h.asm"], 2, [], {"h.asm": HELLO}, "write: --key"),
    Call("no file", "cics-run", ["n.asm", "--key", "A"], 3, [], {}, "n.asm: No such file"),
    Call("a faulty source", "cics-run", ["h.asm", "--key", "HELL"], 1, [], {"h.asm": HELLO.replace("BE    BAD", "BE    BED")}, "h.asm:9:"),
    Call("a source that is refused", "cics-run", ["h.asm", "--key", "HELL"], 1, [], {"h.asm": HELLO.replace("CL80\n", "CL80\n         DS    120000C\n", 1)},
         "h.asm:1:1: StgLength: the program HELLO is refused\n"),
    Call("an item that is no constant of its type", "cics-run", ["r.asm", "--queue", "DATA=q", "--key", "READ"], 3, [],
         {"r.asm": READER, "q": f"GOOD\n==H\n=H'99999',C'{'A' * 200}'\n"}, "cics-run: q:3: ValueOutOfRange: H'99999'\n"),
    Call("an item of digits that are none", "cics-run", ["r.asm", "--queue", "DATA=q", "--key", "READ"], 3, [], {"r.asm": READER, "q": "=X'GG'\n"},
         "cics-run: q:1: BadOperand: X'GG'\n"),
    Call("two of a name", "cics-run", ["h.asm", "g.asm", "--key", "HELL"], 2, [], {"h.asm": HELLO, "g.asm": HELLO.replace("HELLO ", "HELLX ")},
         "two transactions of the name HELL"),
    Call("the script", "cics-run", ["h.asm", "--key", "HELL", "--script"], 0,
         ["SOURCE HELLO", *HELLO.splitlines(), "/*", "TRANSACTION HELL HELLO", "TERMINAL T001", "KEY T001 ENTER HELL", "RUN T001 4096", "SCREEN T001"],
         {"h.asm": HELLO}),
    Call("an item", "cics-run", ["r.asm", "--queue", "DATA=q", "--key", "READ"], 0, ["KEY T001 ENTER READ", "01|IT'S A & B $Z.)"],
         {"r.asm": READER, "q": "FIRST\nIT'S A & B [\xe9\x00]\n"}),
    Call("items of constants", "cics-run", ["r.asm", "--queue", "DATA=q", "--key", "READ"], 0, ["KEY T001 ENTER READ", "01|=AB,1A"],
         {"r.asm": READER, "q": "==NO\n=C'=AB',XL1'6B',P'0',C'A'\n=C'=AB,',X'F1',C'A'\n"}),
    Call("an empty item", "cics-run", ["r.asm", "--queue", "DATA=q", "--key", "READ"], 3, [], {"r.asm": READER, "q": "A\n\n"}, "q:2: an item has 1 to 32767"),
    Call("no constants", "cics-run", ["r.asm", "--queue", "DATA=q", "--key", "READ"], 3, [], {"r.asm": READER, "q": "=A\n"}, "q:1: A: no constant"),
    Call("no queue", "cics-run", ["r.asm", "--queue", "DATA", "--key", "READ"], 2, [], {"r.asm": READER}, "write: --queue NAME=FILE"),
    Call("no file of a queue", "cics-run", ["r.asm", "--queue", "DATA=q", "--key", "READ"], 3, [], {"r.asm": READER}, "q: No such file"),
]
MANY = 1800  # items of a queue, more than one program takes; in all more than 4,096 bytes


class RunsTest(TestCase):
    def test_calls(self) -> None:
        self.none_of(failures_of(CALLS, PROGRAMS))

    def test_many(self) -> None:
        items = "".join(f"ITEM NUMBER {number} OF MANY\n" for number in range(MANY))
        call = Call("many items", "cics-run", ["r.asm", "--queue", "DATA=q", "--key", "READ"], 0, ["KEY T001 ENTER READ", f"01|{MANY:07}"],
                    {"r.asm": COUNTER, "q": items})
        self.none_of(failures_of([call], PROGRAMS))

    def test_film(self) -> None:
        with folder_of({"h.asm": HELLO}) as folder:
            ended = called("cics-run", ["h.asm", "--key", "HELL A", "--film", *PROGRAMS], folder)
        self.assertTrue(ended.status == 0 and b"HELL A" in ended.out and ended.out.endswith(b"</html>\n"), ended)

    def test_programs(self) -> None:
        """Programs as shops have them: what cics-adapt makes of those of which nothing is left, and others with what is left by hand."""
        for path in sorted(glob.glob(f"{FOLDER}/*.run")):
            source, *words = lines_of(read(path).decode())
            with self.subTest(path), tempfile.NamedTemporaryFile(suffix=".asm") as file:
                if not source.startswith("by-hand/"):
                    new = called("cics-adapt", [source, "--copy", "copy"], FOLDER)
                    self.assertEqual(new.status, 0, new)
                    file.write(new.out)
                    file.flush()
                    source = file.name
                ended = called("cics-run", [source, *words, *PROGRAMS], FOLDER)
                self.assertEqual((ended.status, ended.out), (0, read(path.removesuffix(".run") + ".screens")), ended)
