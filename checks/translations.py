"""Has `cicsedf` translate EXEC statements and whole sources, and compares what it lists of each with rows worked by hand: argument lists,
what is put into a source, and the faults of statements that are refused."""
from collections import Counter
from collections.abc import Callable, Iterator
from functools import partial

from cics.child import Ended, run
from checks.assembling import continued, line_of
from checks.common import Case, Check, Counts, require
from checks.examples import text_of

# Of each command statements with options that may be given together, the words of the argument list, and the register that is loaded after
# the call.
LISTS = [
    ("ADDRESS CWA(R7)", "=X'02028000' DFHEITP", "R7"),
    ("HANDLE CONDITION ERROR(L1) PGMIDERR QIDERR(L2) RESP(R)", "=X'0204034001801B002C80' L1 L2 R", ""),
    ("HANDLE CONDITION NOSPACE(L)", "=X'020401001280' L", ""),
    ("HANDLE CONDITION LENGERR ITEMERR", "=X'0204020016001A00'", ""),
    ("IGNORE CONDITION ENQBUSY NOSTG NOHANDLE", "=X'020A028037002A00'", ""),
    ("PUSH HANDLE", "=X'020C0000'", ""),
    ("POP HANDLE NOHANDLE", "=X'020E0080'", ""),
    ("RECEIVE INTO(A) LENGTH(B)", "=X'0402C000' A B", ""),
    ("WRITEQ TS RESP(D) REWRITE ITEM(C) LENGTH(B) FROM(A) QUEUE('Q') AUXILIARY NOSUSPEND NOHANDLE", "=X'0A02EFC0' =CL8'Q' A B C D", ""),
    ("WRITEQ QUEUE('Q''&&')FROM(A)LENGTH (B)MAIN", "=X'0A02F000' =CL8'Q''&&' A B", ""),
    ("READQ TS QUEUE(N) INTO(A) LENGTH(B) ITEM(C) NUMITEMS(D)", "=X'0A04F200' N A B C D", ""),
    ("READQ NEXT SET(R5) LENGTH(B) QUEUE( 'Q' )", "=X'0A04AC00' =CL8'Q' B DFHEITP", "R5"),
    ("DELETEQ TS QUEUE('Q')", "=X'0A068000' =CL8'Q'", ""),
    ("DELETEQ QUEUE('12345678')", "=X'0A068000' =CL8'12345678'", ""),
    ("GETMAIN LENGTH(=H'8') SET(5) INITIMG(X) NOSUSPEND", "=X'0C02F000' DFHEITP =H'8' X", "5"),
    ("FREEMAIN DATA(0(4))", "=X'0C048000' 0(4)", ""),
    ("LINK PROGRAM('P') COMMAREA(A) LENGTH(L'A)", "=X'0E02E000' =CL8'P' A L'A", ""),
    ("XCTL PROGRAM('P') RESP(R)", "=X'0E048040' =CL8'P' R", ""),
    ("RETURN TRANSID('T') COMMAREA(A) LENGTH(B)", "=X'0E08E000' =CL4'T' A B", ""),
    ("RETURN", "=X'0E080000'", ""),
    ("ABEND ABCODE('A') CANCEL NODUMP", "=X'0E0CE000' =CL4'A'", ""),
    ("HANDLE ABEND LABEL(L)", "=X'0E0E8000' L", ""),
    ("HANDLE ABEND RESET", "=X'0E0E2000'", ""),
    ("ENQ RESOURCE(A) LENGTH(B) NOSUSPEND", "=X'1204E000' A B", ""),
    ("DEQ RESOURCE(A)", "=X'12068000' A", ""),
    ("SUSPEND", "=X'12080000'", ""),
    ("SEND TEXT FROM(A) LENGTH(B) ERASE FREEKB", "=X'1806F000' A B", ""),
    ("GETMAIN SET(5) LENGTH(B) RESP(R)", "=X'0C02C040' DFHEITP B R", "5"),
]

# Operands of EXEC with their faults.
REFUSED = [
    ("(X) CICS RETURN", "UnknownCommand"),
    (") CICS RETURN", "UnknownCommand"),
    ("'CICS' RETURN", "UnknownCommand"),
    ("", "UnknownCommand"),
    ("CICS", "UnknownCommand"),
    ("SQL COMMIT", "UnknownCommand"),
    ("cics return", "UnknownCommand"),
    ("CICS RETRUN", "UnknownCommand"),
    ("CICS HANDLE", "UnknownCommand"),
    ("CICS IGNORE", "UnknownCommand"),
    ("CICS PUSH", "UnknownCommand"),
    ("CICS POP", "UnknownCommand"),
    ("CICS SEND FROM(A) LENGTH(B)", "UnknownCommand"),
    ("CICS(X) RETRUN", "UnknownCommand"),
    ("CICS GETMAIN TS SET(5) LENGTH(B)", "UnknownOption"),
    ("CICS RETURN RETURN", "UnknownOption"),
    ("CICS RETURN,TRANSID('T')", "UnknownCommand"),
    ("CICS LINK PROGRAM('P'), LENGTH(B)", "UnknownOption"),
    ("CICS HANDLE CONDITION NORMAL(L)", "UnknownOption"),
    ("CICS RETURN ERROR(L)", "UnknownOption"),
    ("CICS RETURN COMMAREA(X)", "MissingOption"),
    ("CICS RETURN LENGTH(X)", "MissingOption"),
    ("CICS LINK", "MissingOption"),
    ("CICS READQ TS QUEUE('Q') LENGTH(B)", "MissingOption"),
    ("CICS WRITEQ TS QUEUE('Q') FROM(A) LENGTH(B) REWRITE", "MissingOption"),
    ("CICS HANDLE ABEND", "MissingOption"),
    ("CICS HANDLE CONDITION", "MissingOption"),
    ("CICS IGNORE CONDITION NOHANDLE", "MissingOption"),
    ("CICS READQ TS QUEUE('Q') INTO(A) LENGTH(B) ITEM(C) NEXT", "Conflict"),
    ("CICS READQ TS QUEUE('Q') INTO(A) SET(5) LENGTH(B)", "Conflict"),
    ("CICS WRITEQ TS QUEUE('Q') FROM(A) LENGTH(B) MAIN AUXILIARY", "Conflict"),
    ("CICS HANDLE ABEND CANCEL RESET", "Conflict"),
    ("CICS HANDLE ABEND LABEL(L) RESET", "Conflict"),
    ("CICS RETURN NOHANDLE NOHANDLE", "Conflict"),
    ("CICS RETURN RESP(A) RESP(A)", "Conflict"),
    ("CICS HANDLE CONDITION ERROR ERROR(L)", "Conflict"),
    ("CICS LINK PROGRAM('P') PROGRAM('P')", "Conflict"),
    ("CICS HANDLE CONDITION ERROR ERROR ERROR ERROR ERROR ERROR ERROR ERROR ERROR ERROR ERROR ERROR ERROR ERROR ERROR ERROR", "Conflict"),
    ("CICS HANDLE CONDITION ERROR ERROR ERROR ERROR ERROR ERROR ERROR ERROR ERROR ERROR ERROR ERROR ERROR ERROR ERROR ERROR ERROR", "TooManyConditions"),
    ("CICS SUSPEND(1)", "BadArgument"),
    ("CICS(X) SUSPEND", "BadArgument"),
    ("CICS READQ TS(X) QUEUE('Q') INTO(A) LENGTH(B)", "BadArgument"),
    ("CICS SEND(1) TEXT FROM(A) LENGTH(B)", "BadArgument"),
    ("CICS SUSPEND)", "BadArgument"),
    ("CICS LINK PROGRAM('P'))", "BadArgument"),
    ("CICS LINK PROGRAM('P'", "BadArgument"),
    ("CICS LINK PROGRAM('P)", "BadArgument"),
    ("CICS LINK PROGRAM", "BadArgument"),
    ("CICS LINK PROGRAM()", "BadArgument"),
    ("CICS LINK PROGRAM(  )", "BadArgument"),
    ("CICS LINK PROGRAM('')", "BadArgument"),
    ("CICS LINK PROGRAM('123456789')", "BadArgument"),
    ("CICS LINK PROGRAM('A')('B')", "BadArgument"),
    ("CICS LINK PROGRAM('A') ('B')", "BadArgument"),
    ("CICS LINK PROGRAM('A'B)", "BadArgument"),
    ("CICS LINK PROGRAM('A'B')", "BadArgument"),
    ("CICS RETURN TRANSID('12345')", "BadArgument"),
    ("CICS RETURN TRANSID('1234''')", "BadArgument"),
    ("CICS FREEMAIN DATA('A')", "BadArgument"),
    ("CICS GETMAIN SET('5') LENGTH(B)", "BadArgument"),
    ("CICS GETMAIN SET(5) LENGTH(B) NOSUSPEND(X)", "BadArgument"),
    ("CICS RETURN NOHANDLE(X)", "BadArgument"),
    ("CICS RETURN RESP", "BadArgument"),
    ("CICS IGNORE CONDITION ERROR(L)", "BadArgument"),
    ("CICS HANDLE CONDITION ERROR()", "BadArgument"),
    ("CICS HANDLE CONDITION ERROR('L')", "BadArgument"),
    ("CICS RETRUN WHAT", "UnknownCommand"),
    ("CICS LINK WHAT PROGRAM", "UnknownOption"),
    ("CICS LINK PROGRAM PROGRAM", "BadArgument"),
    ("CICS LINK NOHANDLE NOHANDLE", "Conflict"),
    ("CICS READQ TS INTO(A) SET(5)", "Conflict"),
]

CSECT, END = "P        CSECT", "         END"
DEFINED = [*(line_of(name, "DS", "F") for name in ("A", "B", "C", "D", "L", "L1", "L2", "N", "R", "X")), line_of("", "DFHREGS")]

HEAD = """\
01 DFHEISTG DSECT
01 DFHEIPL  DS    18F
01 DFHEITP  DS    F
01 DFHEICAP DS    A
"""
USINGS = """\
01          USING P,3
01          USING DFHEISTG,13
01          USING DFHEIBLK,11
"""
CALL = """\
02          LA    0,=X'0E080000'
02          ST    0,DFHEIPL+0
02          OI    DFHEIPL+0,X'80'
02          LA    1,DFHEIPL
02          L     15,=V(DFHEI1)
02          BALR  14,15
"""
EIB = """\
03 DFHEIBLK DSECT
03 EIBTIME  DS    XL4
03 EIBDATE  DS    XL4
03 EIBTRNID DS    XL4
03 EIBTASKN DS    XL4
03 EIBTRMID DS    XL4
03          DS    XL4
03 EIBCALEN DS    XL2
03 EIBAID   DS    XL1
03 EIBFN    DS    XL2
03 EIBRCODE DS    XL6
03          DS    XL16
03 EIBRSRCE DS    XL8
03          DS    XL17
03 EIBRESP  DS    XL4
03          DS    XL8
"""

# Sources, and all that each becomes: the last two digits of a line's number, and the line.
WHOLE = [
    ("P        CSECT\n         EXEC  CICS RETURN\n         END\n", f"{HEAD}01 P        CSECT\n{USINGS}{CALL}{EIB}03          END\n"),
    # without EXEC it stays
    ("* NOTE\nDFHEISTG DSECT\nP        START\n         END\n", "01 * NOTE\n02 DFHEISTG DSECT\n03 P        START\n04          END\n"),
]

# Sources, and what the translation of each begins with.
FRONTS = [
    # a name, continuations and comments
    (f"""\
{'P        START 0':71}X
               REMARK
{'GO       EXEC  CICS':71}X
{'               RETURN':71}X
               NOHANDLE
* NOTE
         END
""", f"""\
{HEAD}01 {'P        START 0':71}X
02                REMARK
{USINGS}03 GO       DS    0H
03          LA    0,=X'0E080080'
03          ST    0,DFHEIPL+0
03          OI    DFHEIPL+0,X'80'
03          LA    1,DFHEIPL
03          L     15,=V(DFHEI1)
03          BALR  14,15
06 * NOTE
07 DFHEIBLK DSECT
"""),
    # fields stand after the first DFHEISTG
    ("""\
DFHEISTG DSECT
X        DS    F
P        CSECT
DFHEISTG DSECT
P        CSECT
         EXEC  CICS SUSPEND
         END
""", f"""\
{HEAD}02 X        DS    F
03 P        CSECT
{USINGS.replace("01 ", "03 ")}04 DFHEISTG DSECT
05 P        CSECT
06          LA    0,=X'12080000'
"""),
    ("""\
P        CSECT
DFHEISTG DSECT
P        CSECT
         EXEC  CICS SUSPEND
         END
""", f"""\
01 P        CSECT
{USINGS}{HEAD.replace("01 ", "02 ")}03 P        CSECT
04          LA    0,"""),
    # conditions over three lines
    (f"""\
P        CSECT
{'         EXEC  CICS HANDLE CONDITION ERROR(L1)':71}X
{'               PGMIDERR':71}X
               QIDERR(L2) RESP(R)
L1       DS    F
L2       DS    F
R        DS    F
         END
""", f"""\
{HEAD}01 P        CSECT
{USINGS}02          LA    0,=X'0204034001801B002C80'
02          ST    0,DFHEIPL+0
02          LA    0,L1
02          ST    0,DFHEIPL+4
02          LA    0,L2
02          ST    0,DFHEIPL+8
02          LA    0,R
02          ST    0,DFHEIPL+12
02          OI    DFHEIPL+12,X'80'
02          LA    1,DFHEIPL
02          L     15,=V(DFHEI1)
02          BALR  14,15
05 L1       DS    F
06 L2       DS    F
07 R        DS    F
08 DFHEIBLK DSECT
"""),
]

# A source whose first faulty statement has two lines, and another after it.
TWO_FAULTY = [CSECT, "         EXEC  CICS RETURN", f"{'         EXEC  CICS LINK':71}X", "               PROGRAM", "         EXEC  CICS RETRUN", END]


def listed(program: str, lines: list[str]) -> list[str]:
    """The lines of a source that is listed: the last two digits of each one's number, and its text."""
    ended = run([program], text_of(["SOURCE P LIST", *lines, "/*"]))
    require(ended.is_well(), str(ended))
    *listing, last = ended.lines()
    require(last.startswith("PROGRAM P "), last)
    return [line[27:].rstrip() for line in listing]


def makes(program: str, statement: str, words: str, register: str) -> Counts:
    """All that is made of a statement, for the words of its argument list."""
    found = listed(program, [CSECT, *continued("", "EXEC", f"CICS {statement}"), *DEFINED, END])
    made = [line for line in found if line.startswith("02 ")]
    due = list[str]()
    for k, word in enumerate(words.split(" ")):
        due += [line_of("", "LA", f"0,{word}"), line_of("", "ST", f"0,DFHEIPL+{4 * k}")]
    due += [line_of("", "OI", f"DFHEIPL+{4 * words.count(' ')},X'80'"), line_of("", "LA", "1,DFHEIPL"), line_of("", "L", "15,=V(DFHEI1)")]
    due += [line_of("", "BALR", "14,15"), *([line_of("", "L", f"{register},DFHEITP")] if register else [])]
    require(made == [f"02 {line}" for line in due], "\n".join(made))
    return Counter({"argument lists": 1})


def is_refused(program: str, lines: list[str], line: int, kind: str) -> Counts:
    """The fault of a source, by its line in the source."""
    ended = run([program], text_of(["SOURCE P LIST DISASM", *lines, "/*"]))
    require(ended == Ended(1, b"", f"cicsedf: line {line + 1}: {kind}\n".encode()), str(ended))
    return Counter({"faults": 1})


def becomes(program: str, source: str, due: str, is_whole: bool) -> Counts:
    text = "".join(f"{line}\n" for line in listed(program, source.removesuffix("\n").split("\n")))
    require(text == due if is_whole else text.startswith(due), text)
    return Counter({"sources": 1})


def cases(program: str) -> Iterator[tuple[str, Callable[[], Counts]]]:
    yield from ((row[0], partial(makes, program, *row)) for row in LISTS)
    for operand, kind in REFUSED:
        yield operand, partial(is_refused, program, [CSECT, *continued("", "EXEC", operand or " "), END], 2, kind)
    yield "two faulty statements", partial(is_refused, program, TWO_FAULTY, 3, "BadArgument")
    yield from (("a whole source", partial(becomes, program, *row, True)) for row in WHOLE)
    yield from (("the beginning of a source", partial(becomes, program, *row, False)) for row in FRONTS)


def main(words: list[str]) -> int:
    check = Check(__name__, __doc__, words, "cicsedf")
    return check.report(Case(f"{number}, {name}", attempt) for number, (name, attempt) in enumerate(cases(check.program()), 1))
