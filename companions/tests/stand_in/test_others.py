"""Transient data, START and RETRIEVE, times, ASSIGN and ADDRESS, conditions by the table; and what abends where nothing stands for it."""
from dataclasses import dataclass

from cics.adapting import adapted
from cics.sources import SourceText
from cics.stand_in.records import FileDefinition
from cics.stand_in.rewriting import Setting, StandIns
from tests.case import TestCase, expect
from tests.stand_in.looks import items_of
from tests.stand_in.running import mapset_of, ran, source_of

FIELDS = """RC       DS    F
LEN      DS    H
A        DS    CL16
KEY      DS    CL4
ABS      DS    PL8
W        DS    4F
OUT      DS    CL40""".split("\n")
FILES = {"FILEA": FileDefinition("FILEA", 20, 0, 4, [], "")}


@dataclass(frozen=True)
class Case:
    """Statements (an EXEC of any length without its `EXEC CICS`, where it begins with >), and what OUT has at the end, in characters."""

    what: str
    statements: list[str]
    out: str


CASES = [
    Case("times", ["> ASKTIME ABSTIME(ABS)", "> FORMATTIME ABSTIME(ABS) TIME(OUT) TIMESEP YYDDD(OUT+10) MMDDYY(OUT+20) DATESEP('.')",
                   "> FORMATTIME ABSTIME(ABS) DDMMYY(OUT+30)"], "13:05:09  84.060    02.29.84  290284"),
    Case("a date by itself", ["> ASKTIME ABSTIME(ABS)", "> FORMATTIME ABSTIME(ABS) DATE(OUT) DATESEP YYMMDD(OUT+10) TIME(OUT+20)"],
         "02/29/84  84/02/29  130509"),
    Case("an absolute time's digits", ["> ASKTIME ABSTIME(ABS)", "         UNPK  OUT(15),ABS", "         OI    OUT+14,C'0'"], "002655896709000"),
    Case("numbers of a date", ["> ASKTIME ABSTIME(ABS)", "> FORMATTIME ABSTIME(ABS) DAYOFWEEK(W) DAYOFMONTH(W+4) MONTHOFYEAR(W+8) YEAR(W+12)",
                               *(line for at in range(4) for line in (f"         L     4,W+{4 * at}", "         CVD   4,ABS",
                                                                      f"         UNPK  OUT+{5 * at}(4),ABS",
                                                                      f"         OI    OUT+{5 * at + 3},C'0'"))], "0003 0029 0002 1984"),
    Case("transient data", ["> WRITEQ TD QUEUE('DEST') FROM(=C'ONE') LENGTH(3)", "> WRITEQ TD QUEUE('DEST') FROM(=C'THREE') LENGTH(5)",
                            "         MVC   LEN,=H'16'", "> READQ TD QUEUE('DEST') INTO(OUT) LENGTH(LEN)",
                            "> READQ TD QUEUE('DEST') SET(5) LENGTH(LEN)", "         MVC   OUT+5(5),0(5)",
                            "> READQ TD QUEUE('DEST') INTO(A) LENGTH(LEN) RESP(RC)", "         CLC   RC,DFHRESP(QZERO)", "         BNE   END",
                            "         MVC   OUT+12(5),=C'QZERO'"], "ONE  THREE  QZERO"),
    Case("an empty destination, handled", ["> HANDLE CONDITION QZERO(EMPTY) ERROR(WRONG)", "         MVC   LEN,=H'16'",
                                           "> READQ TD QUEUE('DEST') INTO(A) LENGTH(LEN)",
                                           "WRONG    B     END", "EMPTY    MVC   OUT(5),=C'EMPTY'"], "EMPTY"),
    Case("a destination's data are too long", ["> WRITEQ TD QUEUE('DEST') FROM(=C'THREE') LENGTH(5)", "> IGNORE CONDITION LENGERR",
                                               "         MVC   LEN,=H'3'", "> READQ TD QUEUE('DEST') INTO(OUT) LENGTH(LEN)",
                                               "         OI    LEN+1,X'F0'", "         MVC   OUT+5(1),LEN+1"], "THR  5"),
    Case("START and RETRIEVE", ["         MVC   A,=CL16'DATA'", "> START TRANSID('TRAN') FROM(A) LENGTH(4) INTERVAL(0)", "         MVC   LEN,=H'16'",
                                "> RETRIEVE INTO(OUT) LENGTH(LEN)", "> RETRIEVE INTO(A) LENGTH(LEN) RESP(RC)", "         CLC   RC,DFHRESP(ENDDATA)",
                                "         BNE   END", "         MVC   OUT+5(4),=C'DONE'"], "DATA DONE"),
    Case("ASSIGN and ADDRESS", ["> ASSIGN SCRNWD(LEN) OPID(OUT) FACILITY(OUT+4)", "         CLC   LEN,=H'80'", "         BNE   END",
                                "> ADDRESS CWA(5) TCTUA(6) EIB(7)", "         CL    6,=X'FF000000'", "         BNE   END",
                                "         C     5,=F'4096'", "         BNE   END", "         MVC   OUT+9(4),8(7)"], "    T001 TRAN"),
    Case("nothing", ["> DELAY INTERVAL(1)", "> DUMP DUMPCODE('A001')", "> ASKTIME", "         MVI   OUT,C'A'"], "A"),
    Case("PUSH and POP keep the table", ["> HANDLE CONDITION NOTFND(FIRST)", "> PUSH HANDLE", "> HANDLE CONDITION NOTFND(SECOND)",
                                         "         BAL   4,READ", "SECOND   MVI   OUT,C'2'", "> POP HANDLE", "         BAL   4,READ",
                                         "FIRST    MVI   OUT+1,C'1'", "         B     END", "READ     MVC   KEY,=C'KEY1'",
                                         "> READ FILE('FILEA') INTO(A) RIDFLD(KEY)", "         BR    4"], "21"),
    Case("a table's entry goes before ERROR", ["> HANDLE CONDITION ERROR(OTHER) NOTFND(NONE)", "> READ FILE('FILEA') INTO(A) RIDFLD(KEY)",
                                               "OTHER    MVI   OUT,C'E'", "         B     END", "NONE     MVI   OUT,C'N'"], "N"),
    Case("ERROR serves what has no entry", ["> HANDLE CONDITION ERROR(OTHER) DUPREC(NONE)", "> READ FILE('FILEA') INTO(A) RIDFLD(KEY)",
                                            "NONE     MVI   OUT,C'N'", "         B     END", "OTHER    MVC   OUT(2),=C'13'",
                                            "         CLC   EIBRESP,=F'13'", "         BE    END", "         MVI   OUT,C'?'"], "13"),
    Case("the EIB after a request", ["> READ FILE('FILEA') INTO(A) RIDFLD(KEY) NOHANDLE", "         MVC   OUT(8),EIBRSRCE",
                                     "         CLC   EIBFN,=X'0602'",
                                     "         BNE   END", "         CLI   EIBRCODE,13", "         BNE   END", "         MVI   OUT+6,C'+'"],
                                     "FILEA +"),
    Case("RESP2 of a command of the region", ["> LINK PROGRAM('NONE') RESP(RC) RESP2(W)", "         CLC   RC,=F'27'", "         BNE   END",
                                              "         CLC   W(4),=F'0'", "         BNE   END", "         MVI   OUT,C'+'"], "+"),
    Case("EIBDS and EIBRESP2", ["> READ FILE('FILEA') INTO(A) RIDFLD(KEY) NOHANDLE", "         MVC   OUT(8),EIBDS", "         CLC   EIBRESP2,=F'0'",
                                "         BNE   END", "         MVI   OUT+6,C'0'"], "FILEA 0"),
    Case("EIBREQID alone", ["         CLC   EIBREQID,=XL8'00'", "         BNE   END", "         MVI   OUT,C'+'"], "+"),
    Case("a number as the LENGTH of READ", ["         MVC   A,=CL16'KEY1AAAA'", "         MVC   KEY,A",
                                            "> WRITE FILE('FILEA') FROM(A) RIDFLD(KEY) LENGTH(8)",
                                            "> READ FILE('FILEA') INTO(OUT) RIDFLD(KEY) LENGTH(6) RESP(RC)", "         CLC   RC,DFHRESP(LENGERR)",
                                            "         BNE   END", "         MVI   OUT+7,C'+'"], "KEY1AA +"),
    Case("a literal as the LENGTH of READ", ["         MVC   A,=CL16'KEY1AAAA'", "         MVC   KEY,A",
                                             "> WRITE FILE('FILEA') FROM(A) RIDFLD(KEY) LENGTH(=H'8')",
                                             "> READ FILE('FILEA') INTO(OUT) RIDFLD(KEY) LENGTH(=H'20')"], "KEY1AAAA"),
    Case("two browses of a file", ["         MVC   A,=CL16'KEY1AAAA'", "         MVC   KEY,A", "> WRITE FILE('FILEA') FROM(A) RIDFLD(KEY) LENGTH(8)",
                                   "         MVC   A,=CL16'KEY2BBBB'", "         MVC   KEY,A", "> WRITE FILE('FILEA') FROM(A) RIDFLD(KEY) LENGTH(8)",
                                   "         XC    KEY,KEY", "> STARTBR FILE('FILEA') RIDFLD(KEY)", "> STARTBR FILE('FILEA') RIDFLD(KEY) REQID(1)",
                                   "> READNEXT FILE('FILEA') INTO(OUT) RIDFLD(KEY) LENGTH(8)",
                                   "> READNEXT FILE('FILEA') INTO(OUT+8) RIDFLD(KEY) LENGTH(8)",
                                   "         XC    KEY,KEY", "> READNEXT FILE('FILEA') INTO(OUT+16) RIDFLD(KEY) LENGTH(8) REQID(1)",
                                   "> ENDBR FILE('FILEA') REQID(1)", "> ENDBR FILE('FILEA')"], "KEY1AAAAKEY2BBBBKEY1AAAA"),
    Case("KEYLENGTH of the whole key", ["> READ FILE('FILEA') INTO(A) RIDFLD(KEY) KEYLENGTH(L'KEY) RESP(RC)", "         CLC   RC,DFHRESP(NOTFND)",
                                        "         BNE   END", "         MVI   OUT,C'+'"], "+"),
    Case("a lock that SYNCPOINT gives back", ["         MVC   A,=CL16'KEY1AAAA'", "         MVC   KEY,A",
                                              "> WRITE FILE('FILEA') FROM(A) RIDFLD(KEY) LENGTH(16)",
                                              "> READ FILE('FILEA') INTO(A) RIDFLD(KEY) UPDATE", "> SYNCPOINT",
                                              "> REWRITE FILE('FILEA') FROM(A) LENGTH(16) RESP(RC)",
                                              "         CLC   RC,DFHRESP(INVREQ)", "         BNE   END", "         MVI   OUT,C'+'"], "+"),
]

# Commands for which nothing stands, each with the code of its abend and a word that is told.
NEVER = [("SYNCPOINT ROLLBACK", "SIRB", "nothing is recovered"), ("READ FILE('FILEA') INTO(A) RIDFLD(KEY) GENERIC KEYLENGTH(2)", "SIGN", "GENERIC"),
         ("READ FILE('FILEA') INTO(A) RIDFLD(KEY) KEYLENGTH(2)", "SIGN", "KEYLENGTH(2)"),
         ("STARTBR FILE('FILEA') RIDFLD(KEY) KEYLENGTH(LEN)", "SIGN", "KEYLENGTH"), ("READ FILE('FILEA') INTO(A) RIDFLD(KEY) RRN", "SIRR", "RRN"),
         ("READ FILE('FILEA') INTO(A) RIDFLD(KEY) RBA", "SIRA", "RBA"), ("WRITE FILE('FILEA') FROM(A) RIDFLD(KEY) MASSINSERT", "SIOP", "MASSINSERT"),
         ("READ FILE(KEY) INTO(A) RIDFLD(KEY)", "SINM", "known only when it runs"), ("READ FILE('OTHER') INTO(A) RIDFLD(KEY)", "SIFL", "--file"),
         ("READNEXT FILE('FILEA') INTO(A) RIDFLD(KEY) REQID(LEN)", "SINM", "REQID"), ("READQ TD QUEUE('DEST') INTO(A)", "SILN", "LENGTH is left out"),
         ("READ FILE('FILEA') RIDFLD(KEY)", "SIOP", "INTO or SET"), ("SEND MAP('M') MAPSET('S') ACCUM", "SIPG", "ACCUM"), ("SEND PAGE", "SICM",
             "no command"),
         ("SEND MAP(KEY) MAPSET('S')", "SINM", "known only when it runs"), ("SEND MAP('N') MAPSET('S')", "SIMP", "no such map"),
         ("SEND MAP('M') MAPSET('T')", "SIMP", "--bms"), ("RECEIVE MAP('M') MAPSET('S') FROM(A) LENGTH(4)", "SIOP", "FROM"), ("SEND CONTROL ACCUM",
             "SIPG", "ACCUM"),
         ("START TRANSID('TRAN') RTRANSID('X')", "SIOP", "RTRANSID"), ("START TRANSID(KEY)", "SINM", "known only when it runs"),
         ("CANCEL REQID('A')", "SICM", "no command"),
         ("READQ TD QUEUE(KEY) INTO(A) LENGTH(LEN)", "SINM", "known only when it runs"), ("ASSIGN NETNAME(A)", "SIOP", "NETNAME"),
         ("ADDRESS TCTTE(5)", "SIOP", "TCTTE"),
         ("CONVERSE FROM(A) INTO(A)", "SICM", "no command"), ("LOAD PROGRAM('P') SET(5)", "SICM", "no command"), ("WRITE JOURNALNUM(1) FROM(A)",
             "SICM", "no command"),
         ("ISSUE PRINT", "SICM", "no command"), ("POST INTERVAL(1) SET(5)", "SICM", "no command"), ("WAIT EVENT ECADDR(A)", "SICM", "no command"),
         ("SEND TEXT FROM(A) LENGTH(4) ACCUM", "SIOP", "ACCUM")]
BMS = "S        DFHMSD TYPE=MAP\nM        DFHMDI\nF        DFHMDF POS=5,LENGTH=3\n         DFHMSD TYPE=FINAL\n"


class OtherCommandsTest(TestCase):
    def test_cases(self) -> None:
        for case in CASES:
            result = ran(source_of(case.statements, FIELDS), Setting([], dict(FILES)), ["ENTER TRAN"], ["QUEUE OUT 1"])
            out = items_of(result.transcript, "QUEUE 'OUT' ITEM 1").decode("cp037").rstrip()
            expect(case.what, out == case.out, (out, case.out, result.ending(), [text for text in result.told if text.startswith("left")],
                                                [line for line in result.transcript if "REFUSED" in line]))

    def test_never_nothing(self) -> None:
        for text, code, told in NEVER:
            result = ran(source_of([f"> {text}"], FIELDS), Setting([mapset_of(BMS)[0]], dict(FILES)), ["ENTER TRAN"], [])
            left = [line for line in result.told if line.startswith("left: ")]
            expect(text, result.ending() == f"Abended {code}", (result.ending(), left, [line for line in result.transcript if "REFUSED" in line]))
            expect(text, len(left) == 1 and told in left[0] and code in left[0], left)

    def test_out_of_reach(self) -> None:
        """What no base reaches is told."""
        long = ["         LA    4,4(,4)"] * 1000
        source = source_of(["> READ FILE('FILEA') INTO(A) RIDFLD(KEY)", *long], FIELDS)
        new = adapted(SourceText(source), "p.asm", [], stand_ins=StandIns(Setting([], dict(FILES))))
        self.assertTrue(any(told.is_left and "no base in use reaches it" in told.text for told in new.log.told))

    def test_own_names(self) -> None:
        source = source_of(["> READ FILE('FILEA') INTO(A) RIDFLD(KEY)"], FIELDS)
        result = ran([*source[:-1], "$SRFN    DS    F", source[-1]], Setting([], dict(FILES)), ["ENTER TRAN"], [])
        self.assertEqual(result.ending(), "Abended SIOP")
        self.assertIn("names that begin with $S", [text for text in result.told if text.startswith("left")][0])
