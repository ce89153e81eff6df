"""What cics-adapt writes for instructions that the region hasn't: its form, its limits, and programs that run with it."""
from cics.adapting import Adapted, adapted
from cics.assembler_files import encoded
from cics.child import run
from cics.log import NOT_SHOWN as NOT_SHOWN_WORDS
from cics.sources import SourceText
from tests.calling import Call, called, failures_of, folder_of, put
from tests.case import CICSLOOK, PROGRAMS, TestCase
from tests.looks import keyed

TAIL = """         EXEC  CICS RETURN
TABLE    DC    XL20'00'
         LTORG
DFHEISTG DSECT
D        DS    D
A        DS    PL4
B        DS    PL3
C        DS    CL2
F        DS    F
G        DS    F
W        DS    CL16
         END""".split("\n")


def result_of(lines: list[str], head: list[str] | None = None) -> Adapted:
    return adapted(SourceText([*(head or ["P        CSECT"]), *lines, *TAIL]), "OLD.asm", [])


def left_in(result: Adapted) -> list[str]:
    return [entry.text for entry in result.log.told if entry.is_left]


def not_shown_in(result: Adapted) -> list[str]:
    return [entry.text for entry in result.log.told if entry.verb == NOT_SHOWN_WORDS]


def one(statement: str, told: str, *others: str) -> tuple[list[str], str]:
    return [f"         {statement}", *others], told


OWN_BASE = ["         LR    12,3", "         USING P,12", "         DROP  3"]

# Statements of which one stays, each with words of what is told.
LIMITS = [
    (["         EX    4,X", "X        AP    A,B"], "target of the EX"), (["         EX    4,X", "X        OC    W,F"], "target of the EX"),
    (["         EX    4,X", "X        MVCL  4,6"], "target of the EX"), (["         EX    4,X", "X        ED    W,A"], "target of the EX"),
    (["         EX    4,X", "X        MVZ   W,F"], "target of the EX"),
    (["         EX    4,X", "X        CLM   4,1,F"], "target of the EX"),
    (["         EX    4,X+2", "X        LR    1,2", "Y        AP    A,B"], "target of the EX"),
    (["         EX    4,X", "X        DS    0H", "         OC    W,F"], "target of the EX"),
    (["         EX    4,X", "X        EQU   *", "         OC    W,F"], "target of the EX"),
    (["         EX    4,X", "Y        NC    W,F", "X        EQU   Y"], "target of the EX"),
    (["         LA    5,L", "         EX    4,0(,5)", "L        AP    A,B"], "target of the EX"),
    (["         L     5,=A(L)", "         EX    4,0(5)", "L        SP    A,B"], "target of the EX"),
    (["         LA    5,T", "         EX    0,4(5)", "T        LA    1,1", "         SP    A,B"], "target of the EX"),
    (["         STC   4,L+1", "L        AP    A,B"], "bytes are used"), (["         MVI   L,5", "L        OC    W,F"], "bytes are used"),
    (["         OI    L+1,1", "L        NC    W,F"], "bytes are used"),
    (["         MVC   W(6),L", "L        MP    A,=P'1'"], "bytes are used"),
    (["         XC    L(6),L", "L        CP    A,B"], "bytes are used"), (["         LA    4,L'L", "L        MVN   W,F"], "length is used"),
    one("LA    13,W", "register 13", "         AP    A,B"), one("L     13,4(,13)", "register 13", "         OC    W,F"),
    one("LM    12,14,W", "register 13", "         N     4,F"), one("LM    14,0,W", "register 13", "         SLDL  12,1"),
    one("LR    13,4", "register 13", "         MVCL  4,6"), one("USING W,13", "register 13", "         AP    A,B"),
    one("DROP  13", "register 13", "         AP    A,B"), one("DROP", "register 13", "         CP    A,B"),
    one("N     13,F", "register 13"), one("LPR   13,4", "register 13"), one("AL    13,F", "register 13"),
    one("BAS   13,X", "register 13", "X        DS    0H"),
    ([*OWN_BASE, "         O     12,F"], "register 12, a base"), ([*OWN_BASE, "         BAS   12,X", "X        DS    0H"], "register 12, a base"),
    one("SLDL  5,1", "an odd register"), one("SRDL  R5,1", "no register that is known"), one("MVCL  5,6", "an odd register"),
    one("CLCL  4,7", "an odd register"), one("MVCL  4,4", "one pair of registers twice"), one("SLDA  12,1", "register 13"),
    one("MP    A(4),W(9)", "interruption 6"), one("DP    A(4),W(4)", "interruption 6"), one("MP    A(2),B(3)", "interruption 6"),
    one("SRP   A,2,10", "no digit"), one("SRP   A,X,5", "no number of places", "X        DS    0H"), one("CLM   4,0,F", "no mask"),
    one("CLM   4,M,F", "no mask"), one("BASR  14,14", "one register twice"), one("BASR  0,5", "register 0"),
    one("BAS   5,0(5)", "register that it changes"),
    one("BXLE  5,6,0(5)", "register that it changes"), one("BXH   13,6,X", "register 13", "X        DS    0H"), one("AP    A", "operands"),
    one("AP    A,*+6", "the place"), one("STCK  D", "STCK"), one("CDS   5,6,D", "an odd register"), one("CDS   12,6,D", "register 13"),
    one("SPM   4", "SPM"), one("SVC   1", "SVC"),
    one("AD    0,D", "AD"), one("LCTL  0,0,F", "LCTL"), (["$XMINE   DS    0H", "         AP    A,B"], "names that begin with $X"),
    (["         DC    5C(N)'X'", "         AP    A,B"], "isn't known before"),
    (["         AP    A,B", "         ST    5,DFHEIPL"], "DFHEIPL"), (["         OC    W,F", "         MVC   DFHEITP,F"], "DFHEITP"),
    (["         ZAP   A,B", "         STM   14,12,12(13)"], "what register 13 addresses"),
    (["         MVN   W,F", "R13      EQU   13", "         LM    14,12,12(R13)"], "what register 13 addresses"),
    (["         LR    6,13", "         ST    5,8(,6)", "         MVN   W,F"], "what register 6 addresses"),
    (["         NC    12(4,13),F"], "what register 13 addresses"),
    (["         LA    5,L", "         MVI   1(5),X'10'", "L        AP    A,B"], "bytes are used"),
    (["         L     5,=A(L)", "         LR    1,2", "         MVC   0(2,5),F", "L        OC    W,F"], "bytes are used"), one("CS    4,5,", "is empty"),
    (["         MVC   W,L", "L        DS    0H", "         AP    A,B"], "bytes are used"),
    (["         MVC   W,P", "         LR    1,2", "         AP    A,B"], "bytes are used"),
    (["         CLC   L(8),W", "L        LR    1,2", "         NC    W,F"], "bytes are used"),
    (["L        AP    A,B", "         EXEC  CICS SEND TEXT FROM(L) LENGTH(=H'6')"], "bytes are used"),
    (["         MVI   M,5", "L        OC    W,F", "M        EQU   L+1"], "bytes are used"),
    (["         BCT   4,L-2", "         SLDL  4,1", "L        DS    0H"], "means a place within it"),
    (["         AP    A,NONE"], "length isn't known"), (["         AP    A(17),B"], "no packed field"),
    (["         B     M", "L        BAL   14,X", "X        OR    4,5", "M        BAL   14,X"], "no instruction stands beside it"),
]

# Statements that are changed without being shown to be exact. Each has words of the reason that the tool gives.
NOT_SHOWN = [
    (["         EX    0,T(5)", "T        DS    0H", "         AP    A,B", "         SP    A,B"], "executes by an index"),
    (["         L     5,F", "         EX    0,0(,5)", "         AP    A,B"], "goes by a register"),
    (["         IC    4,L(5)", "L        OC    W,F"], "uses bytes of the code by an index"),
    (["         B     T(5)", "T        DS    0H", "         BR    14", "         OR    4,5", "         BR    14"], "branches by an index"),
    (["         BAL   14,S", "         OR    4,5", "         LR    1,2", "S        AH    14,=H'2'", "         BR    14"], "by which is branched"),
    ([*OWN_BASE, "         LR    9,12", "         LA    12,5", "         OC    W,F", "         LR    12,9"], "changes register 12, the base"),
    ([*OWN_BASE, "         ST    12,F", "         L     12,G", "         OR    4,5", "         LR    1,2", "         L     12,F"], "changes register 12"),
    (["         LA    6,=F'77'", "         L     7,4(,6)", "         AP    A,=P'1'"], "address of a literal"),
]

# Statements that are exact, since each has its place and its length.
EXACT = [
    ["         BE    *+10", "         AP    A,B"], ["         BNE   *+8", "         N     4,F"],
    ["         B     *+16", "         LR    1,2", "         SLR   4,5", "         LA    5,1", "         LR    1,1"],
    ["L        AP    A,B", "         B     L+6"], ["L        LR    4,5", "         OC    W,F", "         B     L+8"],
    ["         AP    A,B", "         B     *-6"], ["         LA    5,*+12", "         ZAP   A,B", "         BR    5"],
    ["         L     5,=A(L+6)", "L        AP    A,B"], ["L        AP    A,B", "T        DC    A(L+6)"],
    ["L        AP    A,B", "M        EQU   L+6", "         B     M"],
    ["M        EQU   *+10", "         AP    A,B", "         LR    1,2", "         B     M"],
    ["         B     12(,3)", "         OC    W,F", "         LR    1,2"], ["         OC    W,F", "L        LR    1,2", "         L     5,8(3)"],
    ["         BAL   14,S", "         OC    W,F", "         LR    1,2", "S        B     6(,14)"],
    ["         BALR  14,5", "         AP    A,B", "S        BC    15,6(14)"],
    ["         B     T(5)", "T        DS    0H", "         BR    14", "         OC    W,F", "         BR    14"],
    ["         B     *+4(5)", "         BR    14", "         OC    W,F", "         BR    14"],
    ["L        AP    A,B", "         DC    AL4(L+6)"], ["L        AP    A,B", "         DC    2A(L+6)"],
    ["L        AP    A,B", "         EXEC  CICS HANDLE CONDITION ERROR(L+6)"],
    ["         AP    A,B", "         B     *+12", "         LR    1,2", "         DC    F'1'", "         LR    1,2", "         LR    1,2"],
    [*OWN_BASE, "         LR    9,12", "         LA    12,5", "         LR    12,9", "         OC    W,F"],
]


class LimitsTest(TestCase):
    def test_left(self) -> None:
        wrong = []
        for lines, due in LIMITS:
            result = result_of(lines)
            told = left_in(result)
            if not any(due in text for text in told):
                wrong.append(f"{lines}: told {told}, where {due} is due")
            wrong += [f"{lines}: {line} isn't in the new source" for line in lines if line not in result.lines() and "*" not in line]
        self.none_of(wrong)
        self.assertGreaterEqual(len(LIMITS), 60)

    def test_not_shown(self) -> None:
        """What isn't shown to be exact is told, never as exact."""
        wrong = []
        for lines, due in NOT_SHOWN:
            result = result_of(lines)
            told = not_shown_in(result)
            if left_in(result) or not any(due in text for text in told) or not result.log.has_left():
                wrong.append(f"{lines}: told {told} and left {left_in(result)}, where {due} is due")
            origins = {entry.origin for entry in result.log.told if entry.verb == NOT_SHOWN_WORDS}
            wrong += [f"{lines}: {entry}" for entry in result.log.told if entry.origin in origins and "exact" in entry.text]
        self.none_of(wrong)

    def test_exact(self) -> None:
        self.none_of([f"{lines}: {result.log.lines()}" for lines in EXACT if (result := result_of(lines)).log.has_left()])

    def test_tables(self) -> None:
        """An address to which a byte or an index is added before it is used is no place between others."""
        result = result_of(["         AP    A,B", "         TR    W,TABLE-240", "         IC    4,TABLE-240(5)"])
        self.assertEqual(left_in(result), [])

    def test_without_commands(self) -> None:
        result = adapted(SourceText(["P        CSECT", "         AP    A,B", "A        DC    PL2'1'", "B        DC    PL2'1'", "         END"]), "OLD.asm", [])
        self.assertIn("without EXEC", left_in(result)[0])

    def test_long_storage(self) -> None:
        """What has fields at the end of a working storage that is too long is left; what needs none is written."""
        result = result_of(["         AP    A,B", "         MVZ   W,F", "DFHEISTG DSECT", "PAGE     DS    4000C", "P        CSECT"])
        self.assertEqual([text.partition(":")[0] for text in left_in(result)], ["AP"])

    def test_many_routines(self) -> None:
        """All routines together are longer than a base reaches, so they stand in two parts: none is left, and there is no fault."""
        lines = ["         AP    A,B", "         SP    A,B", "         CP    A,B", "         ZAP   A,B", "         MP    W,B", "         DP    W,B",
                 "         SRP   A,1,5", "         ED    W,A", "         EDMK  W,A", "         MVO   A,B", "         OC    W,F", "         NC    W,F",
                 "         MVZ   W,F", "         MVN   W,F", "         MVCIN W,F", "         N     4,F", "         O     4,F",
                 "         X     4,F(5)", "         NR    4,5", "         OR    4,5", "         AL    4,F", "         ALR   4,5",
                 "         SL    4,F", "         SLR   4,5", "         MH    4,F", "         SLDL  4,1", "         SRDL  4,1", "         SLDA  4,1",
                 "         MVCL  4,6", "         CLCL  4,6", "         CS    4,5,F", "         CDS   4,6,D"]
        result = result_of([*lines, *lines[:12]])
        self.assertEqual(left_in(result), [])
        written = [line for line in result.lines() if line not in lines]
        self.assertEqual(run([CICSLOOK], encoded(["FAULTS P", *written, "/*"])).lines(), ["> FAULTS P NONE"])

    def test_long_program(self) -> None:
        """What has a stub out of reach is left; the other statements are where they were."""
        result = result_of([*["         AP    A,B"] * 200, "         MVC   W,TABLE"])
        told = left_in(result)
        self.assertTrue(0 < len(told) < 200 and all("no base in use reaches" in text for text in told), told[:3])


class FormTest(TestCase):
    def new_lines(self, statement: str) -> list[str]:
        result = result_of([f"         {statement}"])
        self.assertEqual(left_in(result), [])
        lines = result.lines()
        begin = lines.index(f"*        {statement}")
        return lines[begin + 1 : lines.index(TAIL[0], begin)]

    def test_sizes(self) -> None:
        """What stands in place of a statement has its length."""
        for statement, count in {"AP    A,B": 6, "OC    C,C": 6, "OC    C(1),C": 6, "OC    C(1),=X'80'": 6, "NC    0(1,5),=C'A'": 6, "OC    W,F": 6,
                                 "N     4,F": 4, "X     4,F": 4, "XI    C,1": 4, "CLM   4,3,F": 4, "TS    C": 4, "BXLE  4,6,P": 4}.items():
            lengths = {"B": 4, "NOPR": 2, "OI": 4, "NI": 4}
            found = sum(lengths[line[9:].split()[0]] for line in self.new_lines(statement))
            self.assertEqual(found, count, statement)

    def test_together(self) -> None:
        """An instruction of two bytes is done together with one beside it, behind it or in front of it."""
        for lines, due in ((["         OR    4,5", "         LA    6,1"], ["$XP001   B     $X001", "         NOPR  0"]),
                           (["         LR    6,7", "         OR    4,5", "L        BAL   6,L"], ["$XP001   B     $X001"]),
                           (["         L     15,F", "         BASR  14,15"], ["$XP001   B     $X001", "         NOPR  0"])):
            result = result_of(lines)
            new = [line for line in result.lines() if not line.startswith("*")]
            begin = new.index(due[0])
            self.assertEqual((left_in(result), new[begin : begin + len(due)]), ([], due))

    def test_again(self) -> None:
        first = result_of(["         AP    A,B", "L        OC    W,F", "         ED    W,A", "         BXLE  4,6,L"])
        again = adapted(SourceText(first.lines()), "OLD.asm", [])
        self.assertEqual((again.lines(), again.log.told), (first.lines(), []))

    def test_far(self) -> None:
        """Where the base doesn't reach the routines, a call goes by an address in front of the stubs."""
        result = result_of([*["         AP    A,B"] * 3, "         DS    3950C"])
        self.assertEqual([text for text in left_in(result) if text.startswith("AP")], [])
        self.assertTrue({"         L     14,$@AP", "$@AP     DC    A($XAP)"} <= set(result.lines()))

    def test_each_line(self) -> None:
        lines = ["L        AP    A,B                     THE SUM", "* A COMMENT", "         LR    4,5"]
        new = "\n".join(result_of(lines).lines())
        self.none_of([line for line in lines if line not in new and f"*L       {line[9:]}" not in new])


class RunTest(TestCase):
    def test_place_of_interruption(self) -> None:
        """Bad digits are an interruption at the statement, with code 7."""
        result = result_of(["         MVC   A,=X'0000FF1C'", "         MVC   B,=P'1'", "L        AP    A,B"])
        lines = keyed(result.lines(), "ABEND T001")
        said = next((line for line in lines if "INTERRUPTION" in line), "")
        where = next((line for line in lines if line.startswith("> NEXT")), "")
        due = result.lines().index("         EX    0,$XF") + 1
        self.assertTrue("INTERRUPTION 7" in said and f"LINE {due:05} INSTRUCTION 4400D044" in where, lines[-12:])

    def test_a_thousand(self) -> None:
        """A thousand sums of four bytes between two commands."""
        result = result_of(["         MVC   A,=PL4'0'", "         MVC   B,=PL3'7'", "         LA    5,1000", "L        AP    A,B", "         BCT   5,L",
                            "         UNPK  W(7),A", "         OI    W+6,X'F0'", "         EXEC  CICS SEND TEXT FROM(W) LENGTH(7) ERASE"])
        self.assertIn("01|0007000", keyed(result.lines(), "SCREEN T001"))

    def test_turn_of_a_routine(self) -> None:
        """A loop that uses a turn up by a routine is told as that."""
        lines = ["P        CSECT", "LOOP     OC    A,=256C' '", "         B     LOOP", "         EXEC  CICS RETURN", "DFHEISTG DSECT", "A        DS    XL256",
                 "         END"]
        new = adapted(SourceText(lines), "OLD.asm", []).lines()
        with folder_of({"new.asm": "".join(f"{line}\n" for line in new)}) as folder:
            ran = called("cics-run", ["new.asm", "--key", "P", *PROGRAMS], folder).lines()
        self.assertEqual(ran[-1], "the turn's 65,536 instructions went into $XOC, 36 times")

    def test_links(self) -> None:
        """BAS and BASR leave the address alone in their register, and the code as it was."""
        result = result_of(["         CLI   *,0", "         BAS   5,L", "N        BR    7", "L        LA    6,N", "         CR    5,6", "         BNE   BAD",
                            "         LA    4,M", "         CLI   *,0", "         BASR  5,4", "O        DS    0H", "BAD      ABEND 1", "M        LA    6,O"])
        self.assertEqual(len(left_in(result)), 2)
        good = result_of(["         BAS   5,L", "N        BR    7", "L        LA    6,N", "         CR    5,6", "         BNE   BAD",
                          "         LA    4,M", "         BASR  5,4", "O        BR    7", "BAD      EXEC  CICS ABEND ABCODE('BAD')", "M        LA    6,O",
                          "         CR    5,6", "         BNE   BAD", "         EXEC  CICS SEND TEXT FROM(=C'GOOD') LENGTH(4) ERASE"])
        self.assertIn("01|GOOD", keyed(good.lines(), "SCREEN T001"))

    def test_keys(self) -> None:
        """HANDLE AID, with keys of their own and any other; a field that is cleared counts no more."""
        texts = {"ENTER": "NONE", "PF3": "PF03", "PF7": "ANYK", "PF5": "ANYK"}
        lines = ["         EXEC  CICS HANDLE AID PF3(P3) PF7(P3) ANYKEY(PK)", "         EXEC  CICS HANDLE AID PF7", "         MVC   LEN,=H'16'",
                 "         EXEC  CICS RECEIVE INTO(W) LENGTH(LEN)", "         EXEC  CICS SEND TEXT FROM(=C'NONE') LENGTH(4) ERASE",
                 "         EXEC  CICS RETURN", "P3       EXEC  CICS SEND TEXT FROM(=C'PF03') LENGTH(4) ERASE", "         EXEC  CICS RETURN",
                 "PK       EXEC  CICS SEND TEXT FROM(=C'ANYK') LENGTH(4) ERASE", "         EXEC  CICS RETURN", "DFHEISTG DSECT",
                 "LEN      DS    H", "P        CSECT"]
        new = result_of(lines)
        self.assertEqual(left_in(new), [])
        for key, text in texts.items():
            self.assertIn(f"01|{text}", keyed(new.lines(), "SCREEN T001", key=f"{key} P"), key)

    def test_pushed_keys(self) -> None:
        """PUSH HANDLE keeps the keys, and POP HANDLE gets them back."""
        lines = ["         EXEC  CICS HANDLE AID PF3(P3) ANYKEY(PK)", "         EXEC  CICS PUSH HANDLE", "         EXEC  CICS HANDLE AID PF7(P7)",
                 "         CLI   EIBTRNID,C'Q'", "         BNE   GO", "         EXEC  CICS POP HANDLE", "GO       EXEC  CICS RECEIVE INTO(W)",
                 "         EXEC  CICS SEND TEXT FROM(=C'NONE') LENGTH(4) ERASE", "         EXEC  CICS RETURN"]
        for label, text in (("P3", "PF03"), ("P7", "PF07"), ("PK", "ANYK")):
            lines += [f"{label:<8} EXEC  CICS SEND TEXT FROM(=C'{text}') LENGTH(4) ERASE", "         EXEC  CICS RETURN"]
        new = result_of(lines)
        self.assertEqual(left_in(new), [])
        due = {("P", "ENTER"): "NONE", ("P", "PF3"): "NONE", ("P", "PF7"): "PF07", ("P", "PF5"): "NONE", ("Q", "PF3"): "PF03", ("Q", "PF7"): "ANYK"}
        for (transaction, key), text in due.items():
            lines = keyed(new.lines(), "SCREEN T001", key=f"{key} {transaction}", transaction=transaction)
            self.assertIn(f"01|{text}", lines, (transaction, key))

    def test_full_stack(self) -> None:
        """What PUSH HANDLE refuses changes no key, and no field behind the stack."""
        lines = ["         EXEC  CICS HANDLE AID PF3(P3)", "         LA    5,20", "L        EXEC  CICS PUSH HANDLE NOHANDLE", "         BCT   5,L",
                 "         LA    5,16", "M        EXEC  CICS POP HANDLE", "         BCT   5,M", "         EXEC  CICS RECEIVE INTO(W)",
                 "         EXEC  CICS SEND TEXT FROM(=C'NONE') LENGTH(4) ERASE", "         EXEC  CICS RETURN",
                 "P3       EXEC  CICS SEND TEXT FROM(=C'PF03') LENGTH(4) ERASE", "         EXEC  CICS RETURN"]
        self.assertIn("01|PF03", keyed(result_of(lines).lines(), "SCREEN T001", key="PF3 P"))

    def test_lengths(self) -> None:
        """RECEIVE and READQ TS without LENGTH take as much as the area has."""
        lines = ["         MVI   W,C' '", "         MVC   W+1(15),W", "         EXEC  CICS RECEIVE INTO(A) NOHANDLE", "         MVC   W(4),A",
                 "         EXEC  CICS WRITEQ TS QUEUE('Q') FROM(W) LENGTH(2)", "         EXEC  CICS READQ TS QUEUE('Q') INTO(B) ITEM(1)", "         MVC   W+5(2),B",
                 "         EXEC  CICS SEND TEXT FROM(W) LENGTH(7) ERASE"]
        new = result_of(lines)
        self.assertEqual(left_in(new), [])
        self.assertIn("01|P TE P", keyed(new.lines(), "SCREEN T001", key="ENTER P TEXT"))
        far = result_of(["         EXEC  CICS RECEIVE INTO(W)", "DFHEISTG DSECT", "PAGE     DS    4100C", "P        CSECT"])
        self.assertIn("register 13 doesn't reach $XLEN", " ".join(left_in(far)))


class MapTest(TestCase):
    """Lines that lead back to the source that was adapted."""

    def test_led_back(self) -> None:
        old = ["P        CSECT", "         MVC   A,=X'0000FF1C'", "         AP    A,=P'1'", "         EXEC  CICS RETURN", "DFHEISTG DSECT",
               "A        DS    PL4", "         END"]
        with folder_of({"old.asm": "".join(f"{line}\n" for line in old)}) as folder:
            new = called("cics-adapt", ["old.asm", "--map", "old.map"], folder)
            put(folder, {"new.asm": new.out.replace(b"EXEC  CICS RETURN", b"EXEC  CICS RETRUN")})
            checked = called("cics-check", ["new.asm", "--map", "old.map", *PROGRAMS], folder)
            self.assertEqual((new.status, checked.lines()), (0, ["old.asm:4:0: UnknownCommand: RETRUN"]))
            put(folder, {"new.asm": new.out})
            ran = called("cics-run", ["new.asm", "--key", "P", "--map", "old.map", *PROGRAMS], folder)
            self.assertTrue(any(line.startswith("NEXT ") and line.endswith(" OF old.asm:3") for line in ran.lines()), ran.lines())
            page = called("cics-run", ["new.asm", "--key", "P", "--map", "old.map", "--film", *PROGRAMS], folder)
            self.assertIn(b'"from":["old.asm:1","old.asm:2","old.asm:3","old.asm:3"', page.out)
            put(folder, {"p.script": called("cics-run", ["new.asm", "--key", "P", "--script"], folder).out})
            for word in ("old.map", "P=old.map"):
                film = called("cics-film", ["p.script", "--map", word, "-o", "-", *PROGRAMS], folder)
                self.assertIn(b'"from":["old.asm:1"', film.out)
            other = called("cics-film", ["p.script", "--map", "Q=old.map", "-o", "-", *PROGRAMS], folder)
            self.assertEqual((other.status, b"the program one of P" in other.reported), (2, True))

    def test_refused(self) -> None:
        files = {"a.asm": "         END\n", "a.map": "no map\n"}
        self.none_of(failures_of([
            Call("a file that is no map", "cics-check", ["a.asm", "--map", "a.map"], 3, [], files,
                 "a.map:1: no map: not of a file that cics-adapt --map wrote"),
            Call("a map of two sources", "cics-check", ["a.asm", "a.asm", "--map", "a.map"], 2, [], files, "--map is of one source"),
        ], PROGRAMS))
        over = Call("a map that would be written over the source", "cics-adapt", ["a.asm", "--map", "a.asm"], 3, [], files, "it is read, so it isn't written")
        self.none_of(failures_of([over], []))
