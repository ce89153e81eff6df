"""Interruptions of instructions that the region hasn't: they are at the statement, with its registers and code, also where a byte of an
operand isn't there."""
from cics.adapting import Adapted, adapted
from cics.sources import SourceText
from tests.case import TestCase
from tests.looks import keyed

HEAD = """P        CSECT
         MVC   A,=PL4'12345'
         MVC   B,=PL3'2'
         MVC   BAD,=X'FF'
         LM    14,12,REGS
         CLI   A,255                    CODE 1""".split("\n")
TAIL = """         EXEC  CICS RETURN
         USING RECORD,9
PATTERN  DC    X'402020'
REGS     DC    A(X'F00000',15,0,1,2,P,4,5,6,7,8,X'F00000',10,11,12)
         LTORG
RECORD   DSECT
FIELD    DS    PL5
DFHEISTG DSECT
A        DS    PL4
B        DS    PL3
BAD      DS    X
F        DS    F
W        DS    CL16
         END""".split("\n")
REGISTERS = [0, 1, 2, 0x010000, 4, 5, 6, 7, 8, 0xF00000, 10, 11, 12, 0x200060, 0xF00000, 15]

# Statements that have an operand at register 9 or 14, where nothing is.
ABSENT = """AP    A,0(3,9)|AP    0(3,14),A|AP    FIELD,A|AP    A,FIELD|SP    A,0(16,9)|SP    0(8,14),A|ZAP   0(3,9),A|ZAP   A,0(3,14)|CP    A,FIELD|CP    FIELD,A
MP    FIELD,B|MP    A,0(2,9)|DP    FIELD,B|DP    A,0(2,14)|SRP   FIELD,1,5|SRP   0(3,14),63,5|ED    0(4,14),A|ED    FIELD,A|EDMK  FIELD,A
MVO   FIELD,A|MVO   A,FIELD|OC    FIELD,W|OC    W,FIELD|OC    W,0(14)|OC    0(200,9),W|NC    W,0(9)|NC    0(4,14),W|MVZ   W,0(9)|MVZ   FIELD,W
MVN   0(4,14),W|MVN   W,FIELD|MVCIN FIELD,W|MVCIN W,20(9)|N     4,0(9)|N     4,0(5,14)|O     14,0(14)|X     4,0(9)|X     4,1(5,9)|AL    9,0(,9)|SL    4,FIELD
MH    4,FIELD|MH    14,0(14)|CS    4,5,0(9)|CDS   4,6,0(9)|CLM   4,3,0(14)|TS    0(14)|XI    0(9),1|XI    FIELD,255""".replace("\n", "|").split("|")

# Statements that are interrupted otherwise, and by which code.
OTHERS = {"AP    A,BAD(1)": 7, "SP    BAD(1),A": 7, "CP    A,BAD(1)": 7, "ZAP   A,BAD(1)": 7, "MP    A,BAD(1)": 7, "MP    A,B": 7, "DP    A,BAD(1)": 7,
          "DP    A,=P'0'": 9, "SRP   BAD(1),1,5": 7, "CS    4,5,F+1": 6, "CDS   4,6,F+1": 6, "ED    PATTERN,BAD": 7, "EDMK  PATTERN,BAD": 7}


def result_of(statement: str) -> Adapted:
    using = ["         USING RECORD,9"] if "FIELD" in statement else []
    return adapted(SourceText([*HEAD, *using, f"         {statement}", *TAIL]), "OLD.asm", [])


def failure_of(statement: str, code: int) -> str | None:
    """What isn't as if the instruction itself had been interrupted with a code."""
    result = result_of(statement)
    old = next(number for number, line in enumerate([*HEAD, *TAIL], 1) if line == TAIL[0]) + ("FIELD" in statement)
    lines = keyed(result.lines(), "ABEND T001")
    registers = [int(word, 16) for line in lines if line.startswith("> R") for word in line.split()[2:]]
    where: list[str] = next((line.split() for line in lines if line.startswith("> NEXT")), [])
    line = int(where[where.index("LINE") + 1]) if "LINE" in where else 0
    found = (result.origins()[line - 1].number if line else 0, f"INTERRUPTION {code} " in " ".join(lines), registers, "> CC 1" in lines)
    due = (old, True, REGISTERS, True)
    is_left = any(entry.is_left for entry in result.log.told)  # LM may load another base, which is told
    return None if found == due and not is_left else f"{statement}: {found}, where {due} is due; {lines[-9:-7]}"


class InterruptionsTest(TestCase):
    def test_absent(self) -> None:
        """Each byte that isn't there interrupts at the statement, with code 5."""
        self.none_of([failure for statement in ABSENT if (failure := failure_of(statement, 5))])

    def test_others(self) -> None:
        self.none_of([failure for statement, code in OTHERS.items() if (failure := failure_of(statement, code))])
