"""The instructions of System/370, as far as a source has them, and the names of branches."""
from dataclasses import dataclass


@dataclass(frozen=True)
class Instruction:
    """An instruction: its length in bytes, whether the region's assembler has it, and which operands have an implied length."""

    length: int
    is_known: bool
    implied: tuple[int, ...] = ()


RR = "BALR BCTR BCR LTR LCR CLR XR LR CR AR SR MR DR BR NOPR"
RX = "STH LA STC IC EX BAL BCT BC LH CH AH SH CVD CVB ST CL L C A S M D"
RX += " B NOP BH BP BL BM BE BZ BNH BNP BNL BNM BNE BNZ BO BNO"
RS, SI, SS, SS_TWO = "SRL SLL SRA SLA SRDA STM LM STCM ICM", "TM MVI NI CLI OI", "MVC CLC XC TR TRT", "PACK UNPK"

# Those that aren't there: what is written for them is in docs/FROM-CICS.md.
MISSING_RR = "LPR LNR SLR ALR NR OR SPM BASR BASSM BSM MVCL CLCL SVC LPDR LNDR LTDR LCDR HDR LDR CDR ADR SDR MDR DDR LER CER AER SER MER DER"
MISSING_RX = "MH N O X SL AL BAS LD CD AD SD MD DD STD LE CE AE SE ME DE STE"
MISSING_RS = "SLDL SRDL SLDA BXLE BXH CLM CS CDS LCTL STCTL"
MISSING_SI = "XI TS STCK"
MISSING_SS, MISSING_SS_TWO = "OC NC MVN MVZ ED EDMK MVCIN SRP", "AP SP ZAP CP MP DP MVO"


def rows_of(names: str, length: int, is_known: bool, implied: tuple[int, ...] = ()) -> dict[str, Instruction]:
    return {name: Instruction(length, is_known, implied) for name in names.split()}


# Branches on registers with a name of their own, each with its mask in BCR.
MASKS = {"BER": 8, "BNER": 7, "BHR": 2, "BLR": 4, "BZR": 8, "BNZR": 7, "BMR": 4, "BPR": 2, "BOR": 1, "BNOR": 14, "BNHR": 13, "BNLR": 11,
         "BNMR": 11, "BNPR": 13}

INSTRUCTIONS = {
    **rows_of(RR, 2, True), **rows_of(RX, 4, True), **rows_of(RS, 4, True), **rows_of(SI, 4, True),
    **rows_of(SS, 6, True, (0,)), **rows_of(SS_TWO, 6, True, (0, 1)), **rows_of(" ".join(MASKS), 2, True),
    **rows_of(MISSING_RR, 2, False), **rows_of(MISSING_RX, 4, False), **rows_of(MISSING_RS, 4, False),
    **rows_of(MISSING_SI, 4, False), **rows_of(MISSING_SS, 6, False, (0,)), **rows_of(MISSING_SS_TWO, 6, False, (0, 1)),
}

# Statements that the region's assembler has, besides instructions.
STATEMENTS = set("CSECT START DSECT USING DROP EQU DS DC LTORG END DFHREGS COPY TITLE PRINT EJECT SPACE EXEC".split())
