"""What cics-adapt makes of statements: their lines, and the offsets, bytes and length attributes that the assembler's manual gives the
old form, worked out by hand, against those that the program gives the new one; and what a program in the old form shows when it is run."""
from dataclasses import dataclass, field

from cics.adapting import Adapted, adapted
from cics.assembler_files import encoded
from cics.child import run
from cics.sources import SourceText
from tests.case import CICSLOOK, TestCase
from tests.looks import Place, keyed, symbols_of


@dataclass(frozen=True)
class Case:
    """Lines of a source, what they become (an empty list: as they are), and words that each line told of what is left must have."""

    what: str
    old: list[str]
    new: list[str]
    left: list[str] = field(default_factory=list)


HEAD = ["P        CSECT"]
TAIL = ["         LTORG", "N        EQU   4", "LEN      EQU   80", "F        DS    CL8", "G        DS    CL3,CL5", "W        DS    F", "         END"]

CASES = [
    Case("branches on registers", ["A        BER   14", "         BNHR  N       REMARK"],
         ["A        BCR   8,14", "         BCR   13,N    REMARK"]),
    Case("type Y", ["A        DC    Y(5)"], ["         DS    0H", "A        DC    AL2(5)"]),
    Case("type Y among others", ["A        DC    C'X',Y(1),Y(2),C'Z',2Y(3)"],
         ["A        DC    C'X'", "         DS    0H", "         DC    AL2(1),AL2(2),C'Z'", "         DS    0H", "         DC    2AL2(3)"]),
    Case("YLn and DS Y", ["A        DC    YL1(5)", "B        DS    3Y,YL2"], ["A        DC    AL1(5)", "B        DS    3H,AL2"]),
    Case("a literal of type Y", ["         LH    4,=Y(L'F)"], ["         LH    4,=AL2(L'F)"]),
    Case("a place in Y", ["A        DC    Y(F)"], [], ["a place in fewer than four bytes"]),
    Case("a place in AL3", ["A        DC    AL3(F)"], [], ["a place in fewer than four bytes"]),
    Case("a difference in Y", ["A        DC    Y(G-F)"], ["         DS    0H", "A        DC    AL2(G-F)"]),
    Case("type S", ["A        DC    S(F)"], [], ["type S"]),
    Case("type S by bases", ["A        DC    X'1',S(4(13)),SL2(0(5))", "         USING P,9", "B        DC    S(P+8)", "         USING P,10",
                             "D        DC    S(P+8,4095(1))", "         USING F,11", "         DC    S(F)"],
         ["A        DC    X'1'", "         DS    0H", "         DC    AL2(53252),AL2(20480)", "         USING P,9", "         DS    0H",
          "B        DC    AL2(36872)", "         USING P,10", "         DS    0H", "D        DC    AL2(40968),AL2(8191)", "         USING F,11",
          "         DC    S(F)"], ["type S"]),
    Case("several addresses", ["A        DC    A(F,G)", "         DC    2A(F,G)", "         DC    0A(F,G)"],
         ["A        DC    A(F),A(G)", "         DC    A(F),A(G),A(F),A(G)", "         DC    0A(F)"]),
    Case("several numbers", ["A        DC    F'1,2',2HL1'3,4'", "B        DC    P'1,-22222'"],
         ["A        DC    F'1',F'2',HL1'3',HL1'4',HL1'3',HL1'4'", "B        DC    P'1',P'-22222'"]),
    Case("several in a literal", ["         L     4,=A(F,G)", "         L     5,=F'1,2'"], [],
         ["several values in a literal; write: a DC of them", "several values in a literal; write: a DC of them"]),
    Case("a duplicated place", ["A        DC    2A(*)", "B        DC    2A(F,*)"], [], ["a duplicated place", "a duplicated place"]),
    Case("a table of its own places", ["T        DC    4AL1(*-T)"], ["T        DC    X'00',X'010203'"]),
    Case("tables of its own fullwords and halfwords", ["B        DC    X'00'", "T        DC    2A(T-*)", "C        DC    X'00'", "U        DC    2Y(U-*)"],
         ["B        DC    X'00'", "T        DC    F'0',X'FFFFFFFC'", "C        DC    X'00'", "         DS    0H", "U        DC    X'0000',X'FFFE'"]),
    Case("another table's places", ["T        DC    X'00'", "U        DC    4AL1(*-T)"], [], ["a duplicated place"]),
    Case("factors", ["A        DC    (N)X'00',CL(N+1)' '   TWO", "B        DS    (LEN/N)CL(L'F-N/3)"],
         ["A        DC    4X'00',CL5' '         (N)X'00',CL(N+1)' ' TWO", "B        DS    20CL7                   (LEN/N)CL(L'F-N/3)"]),
    Case("a factor that isn't known", ["A        DC    (NOWHERE)X'00'"], [], ["not a number that is known before"]),
    Case("products and quotients", ["         LA    5,(2+3)*N/0+7", "         LA    5,0-7/2(,4)", "         LA    5,F+2*N"],
         ["         LA    5,7                     (2+3)*N/0+7", "         LA    5,0-3(,4)               0-7/2(,4)",
          "         LA    5,F+8                   F+2*N"]),
    Case("a difference over instructions", ["B        LR    4,5", "E        DS    0H", "         LA    6,(E-B)/2"], [], ["(E-B)/2: not all of it"]),
    Case("a leading sign", ["A        DC    A(-1)", "M        EQU   -1"],
         ["A        DC    A(0-1)                  A(-1)", "M        EQU   0-1                     -1"]),
    Case("EQU with a length that nothing uses", ["E        EQU   F,3", "         MVC   F,E"], ["E        EQU   F", "         MVC   F,E"], ["F: defined only below"]),
    Case("EQU with a length that is used",
         ["E        EQU   F,3", "         MVC   E,G", "         CLC   E+1,G", "         MVC   E(2),G", "         LA    4,L'E", "         PACK  E,E"],
         ["E        EQU   F", "         MVC   E(3),G", "         CLC   E+1(3),G", "         MVC   E(2),G", "         LA    4,3                     L'E",
          "         PACK  E(3),E(3)"], ["F: defined only below"]),
    Case("modes", ["P        AMODE 24", "P        RMODE 24", "         PUSH  PRINT", "         POP   PRINT", "         ACONTROL FLAG(NOALIGN)"],
         ["*P       AMODE 24", "*P       RMODE 24", "*        PUSH  PRINT", "*        POP   PRINT", "*        ACONTROL FLAG(NOALIGN)"]),
    Case("a statement of two lines made a comment", ["LONGNAME ACONTROL".ljust(71) + "X", "               FLAG(NOALIGN)"],
         ["*LONGNAME ACONTROL", "*              FLAG(NOALIGN)"]),
    Case("bases and counters", ["         PUSH  USING", "         CNOP  0,4", "         ENTRY F", "         ICTL  1,71"], [],
         ["PUSH USING", "CNOP", "ENTRY", "ICTL"]),
    Case("macros", ["         REGEQU", "         DFHEIENT", "A        DFHEIRET", "         DFHEISTG", "S        DS    F", "         DFHEIEND",
                    "DFHEISTG DSECT", "         DFHEISTG", "P        CSECT"],
         ["         DFHREGS", "*        DFHEIENT", "A        EXEC  CICS RETURN", "DFHEISTG DSECT", "S        DS    F", "*        DFHEIEND",
          "DFHEISTG DSECT", "*        DFHEISTG", "P        CSECT"]),
    Case("DFHEIENT with a name", ["P        DFHEIENT CODEREG=3,DATAREG=(13),EIBREG=R11"], ["P        CSECT"]),
    Case("DFHEIENT on two lines", ["P        DFHEIENT CODEREG=(3),".ljust(71) + "X", "               DATAREG=(13)"], ["P        CSECT"]),
    Case("DFHEIENT with other registers", ["P        DFHEIENT CODEREG=(3,R4,5),EIBREG=10"],
         ["P        CSECT", "         LA    4,2048(,3)", "         LA    4,2048(,4)", "         USING P+4096,4", "         LA    5,2048(,4)",
          "         LA    5,2048(,5)", "         USING P+8192,5", "         LR    10,11", "         USING DFHEIBLK,10", "         DROP  11"]),
    Case("DFHEIENT with one other register", ["P        DFHEIENT CODEREG=12,DATAREG=(13)"],
         ["P        CSECT", "         LR    12,3", "         USING P,12", "         DROP  3"]),
    Case("DFHEIENT with registers that can't be", ["P        DFHEIENT CODEREG=(14)", "P        DFHEIENT DATAREG=(8,9)"], [],
         ["no bases that can be loaded", "no bases that can be loaded"]),
    Case("a base that is changed", ["         LA    3,12(2,4)", "         MVC   0(10,9),F", "         EXEC  CICS ADDRESS CWA(8)"],
         ["         LR    12,3", "         USING P,12", "         DROP  3", "         LA    3,12(2,4)", "         MVC   0(10,9),F",
          "         EXEC  CICS ADDRESS CWA(8)"]),
    Case("a base that is changed, where no register is free", ["         L     3,F", "         STM   14,12,F", "         EXEC  CICS RETURN"], [],
         ["it changes register 3"]),
    Case("a base that a command changes, and registers that TRT changes",
         ["         EXEC  CICS ADDRESS CWA(3)", "         TRT   F,G", "         LM    4,12,F", "         B     0(2)", "         EXEC  CICS RETURN"], [],
         ["EXEC CICS ADDRESS CWA(3): it changes register 3"]),
    Case("a base that is saved and loaded", ["         STM   14,8,F", "         LM    14,8,F", "         EXEC  CICS RETURN"], []),
    Case("areas that nobody has", ["A        EXEC  CICS ADDRESS CWA(8) TCTUA(R7) TWA(6)", "B        EXEC  CICS ADDRESS TWA(5) EIB(6) COMMAREA(7)",
                                   "D        EXEC  CICS ASSIGN TCTUALENG(F) TWALENG(G)", "         EXEC  CICS ASSIGN CWALENG(F) OPID(G)", "R7       EQU   7"],
         ["A        EXEC  CICS ADDRESS CWA(8)", "         L     R7,=X'FF000000'", "         L     6,=X'FF000000'",
          "*B       EXEC  CICS ADDRESS TWA(5) EIB(6) COMMAREA(7)", "B        L     5,=X'FF000000'", "         LA    6,DFHEIBLK", "         L     7,DFHEICAP",
          "*D       EXEC  CICS ASSIGN TCTUALENG(F) TWALENG(G)", "D        MVC   F(2),=H'0'", "         MVC   G(2),=H'0'",
          "*        EXEC  CICS ASSIGN CWALENG(F) OPID(G)", "         MVC   F(2),=H'512'", "         MVC   G(3),=CL3' '", "R7       EQU   7"]),
    Case("areas that aren't known", ["         EXEC  CICS ADDRESS CSA(5)", "         EXEC  CICS ASSIGN USERID(F)", "         EXEC  CICS ASSIGN OPID(0(5))"], [],
         ["CSA: no option", "EXEC CICS ASSIGN", "EXEC CICS ASSIGN"]),
    Case("a base of its own that is changed", ["         BALR  3,0", "         USING *,3", "         EXEC  CICS RETURN"], []),
    Case("another base of the program", ["         LR    12,3", "         USING P,12", "         LA    3,5", "         EXEC  CICS RETURN"], []),
    Case("a halfword that is read",
         ["         EXEC  CICS SEND TEXT FROM(F) LENGTH(80)", "         EXEC  CICS SEND TEXT FROM(F) LENGTH(L'F)",
          "         EXEC  CICS RETURN TRANSID('A') COMMAREA(F) LENGTH(LEN)"],
         ["         EXEC  CICS SEND TEXT FROM(F) LENGTH(=H'80')", "         EXEC  CICS SEND TEXT FROM(F) LENGTH(=AL2(L'F))",
          "         EXEC  CICS RETURN TRANSID('A') COMMAREA(F) LENGTH(=AL2(LEN))"]),
    Case("an item that is read", ["         EXEC  CICS READQ TS QUEUE('Q') INTO(F) LENGTH(W) ITEM(1)",
                                  "         EXEC CICS WRITEQ TS QUEUE(F) FROM(F) LENGTH(W) ITEM(N) REWRITE"],
         ["         EXEC  CICS READQ TS QUEUE('Q') INTO(F) LENGTH(W) ITEM(=H'1')",
          "         EXEC CICS WRITEQ TS QUEUE(F) FROM(F) LENGTH(W) ITEM(=AL2(N))".ljust(71) + "X", "               REWRITE"]),
    Case("a halfword that is written",
         ["         EXEC  CICS RECEIVE INTO(F) LENGTH(80)", "         EXEC  CICS RECEIVE INTO(F) LENGTH(=H'80')",
          "         EXEC  CICS READQ TS QUEUE('Q') INTO(F) LENGTH(L'F)", "         EXEC  CICS WRITEQ TS QUEUE('Q') FROM(F) LENGTH(W) ITEM(1)"], [],
         ["RECEIVE writes to it", "RECEIVE writes to it", "READQ TS writes to it", "WRITEQ TS writes to it"]),
    Case("LENGTH left out", ["         EXEC  CICS SEND TEXT FROM(F) ERASE", "         EXEC  CICS RETURN TRANSID('A') COMMAREA(F)"],
         ["         EXEC  CICS SEND TEXT FROM(F) LENGTH(=AL2(L'F)) ERASE",
          "         EXEC  CICS RETURN TRANSID('A') COMMAREA(F) LENGTH(=AL2(L'F))"]),
    Case("LENGTH left out of what has none", ["         EXEC  CICS SEND TEXT FROM(0(4))", "         EXEC  CICS RECEIVE INTO(0(5))"], [],
         ["LENGTH is left out of SEND TEXT", "LENGTH is left out of RECEIVE"]),
    Case("INITIMG", ["         EXEC  CICS GETMAIN SET(5) LENGTH(W) INITIMG(X'00')"],
         ["         EXEC  CICS GETMAIN SET(5) LENGTH(W) INITIMG(=X'00')"]),
    Case("blanks within parentheses", ["         EXEC  CICS DELETEQ TS QUEUE( F )", "         EXEC  CICS LINK PROGRAM('A B')"],
         ["         EXEC  CICS DELETEQ TS QUEUE(F)", "         EXEC  CICS LINK PROGRAM('A B')"]),
    Case("remarks in EXEC",
         ["         EXEC  CICS HANDLE CONDITION QIDERR(F)   NO QUEUE".ljust(71) + "X", "               ERROR(G)".ljust(71) + "X",
          "               ITEMERR(W)   THE LAST ONE"],
         ["*        NO QUEUE", "*        THE LAST ONE", "         EXEC  CICS HANDLE CONDITION QIDERR(F)".ljust(71) + "X",
          "               ERROR(G)".ljust(71) + "X", "               ITEMERR(W)"]),
    Case("a command's line that becomes full", ["         EXEC CICS WRITEQ TS    QUEUE(F) LENGTH(8) ITEM(W) NOHANDLE".ljust(71) + "X",
                                                "               FROM(F)"],
         ["         EXEC CICS WRITEQ TS    QUEUE(F) LENGTH(=H'8') ITEM(W) NOHANDLEX", "                FROM(F)"]),
    Case("what is no remark", ["         EXEC  CICS SEND TEXT FROM(F) LENGTH(W)  ERASSE(F)", "         EXEC  CICS SEND TEXT FROM(F) LENGTH(W) HELLO",
                               "         EXEC  CICS SEND TEXT FROM(F) LENGTH(W)  ALARM",
                               "         EXEC  CICS SEND TEXT FROM(F) LENGTH(W)  ERAS ERASE"], [],
         ["ERASSE: no option", "HELLO: no option", "ALARM: no option", "ERAS: no option"]),
    Case("DFHRESP within an operand", ["         CLC   W,=A(DFHRESP(NOTFND))", "         CLI   W+3,DFHRESP(QIDERR)+0", "A        DC    A(DFHRESP(NORMAL)),F'1'",
                                       "E        EQU   DFHRESP(EOF)"],
         ["         CLC   W,=A(13)", "         CLI   W+3,44+0", "A        DC    A(0),F'1'", "E        EQU   4"]),
    Case("DFHRESP", ["         CLC   W,DFHRESP(NORMAL)", "         CLC   W,DFHRESP(NOTFND)"], ["         CLC   W,=F'0'", "         CLC   W,=F'13'"]),
    Case("commands that aren't there",
         ["         EXEC  CICS HANDLE AID PF3(F) PF99(F)", "         EXEC  CICS SEND MAP('M')", "         EXEC  CICS READ DATASET('D') INTO(F)",
          "         EXEC  CICS ADDRESS CSA(5)", "         EXEC  CICS HANDLE CONDITION MAPFAIL(F)"], [],
         ["SEND MAP", "READQ TS", "CSA: no option", "MAPFAIL: no condition", "PF99: no key"]),
    Case("commands that do nothing here", ["A        EXEC  CICS SYNCPOINT", "         EXEC  CICS HANDLE CONDITION MAPFAIL(F) EOC",
                                           "         EXEC  CICS IGNORE CONDITION NOTFND ERROR", "         EXEC  CICS RETURN"],
         ["*A       EXEC  CICS SYNCPOINT", "A        DS    0H", "*        EXEC  CICS HANDLE CONDITION MAPFAIL(F) EOC",
          "         EXEC  CICS IGNORE CONDITION ERROR", "         EXEC  CICS RETURN"]),
    Case("commands that do something", ["         EXEC  CICS SYNCPOINT", "         EXEC  CICS ENQ RESOURCE(F)", "         EXEC  CICS SYNCPOINT ROLLBACK"], [],
         ["EXEC CICS SYNCPOINT", "EXEC CICS SYNCPOINT"]),
    Case("small letters and a tab", ["a\tmvc\tf,=c'a''b'   what It does", "*\tCOMMENT", "         DC    C'a\tb'"],
         ["A       MVC     F,=C'a''b'   what It does", "*       COMMENT", "         DC    C'a\tb'"], ["no EBCDIC code for a tab"]),
    Case("letters without a code", ["* GR\xd6SSE", "A        LR    4,5   \xe4", "B        DC    C'\xe4'"],
         ["* GR.SSE", "A        LR    4,5   .", "B        DC    C'\xe4'"],
         ["no EBCDIC code"]),
    Case("a character behind the column of the mark", ["         EXEC  CICS SEND TEXT FROM(F)".ljust(72) + "*", "               ERASE"], [],
         ["a character in column 73, and none in 72", "ERASE"]),
    Case("type Y several times, and without bytes", ["A        DC    2Y(1,2)", "B        DS    0Y", "         DC    0Y(5)"],
         ["         DS    0H", "A        DC    AL2(1),AL2(2),AL2(1),AL2(2)", "B        DS    0H", "         DS    0H", "         DC    0AL2(5)"]),
    Case("several digits", ["A        DC    X'01,0203',B'1,10000000',PL3'1,2'"], ["A        DC    X'01',X'0203',B'1',B'10000000',PL3'1',PL3'2'"]),
    Case("several places", ["A        DC    A(*,*)", "B        DC    2A(*-B,5)", "D        DC    2A(*-F,5)"],
         ["A        DC    A(*),A(*)", "B        DC    2A(*-B,5)", "D        DC    2A(*-F,5)"], ["a duplicated place", "a duplicated place"]),
    Case("factors of DS and of literals", ["A        DS    (2)CL(N-1)", "         L     4,=(2)F'1'", "         MVC   F,=CL(L'F)'Z'"],
         ["A        DS    2CL3                    (2)CL(N-1)", "         L     4,=2F'1'                =(2)F'1'",
          "         MVC   F,=CL8'Z'               =CL(L'F)'Z'"]),
    Case("expressions of other operands",
         ["         SRL   4,2*2", "         BCR   2*4,14", "         CLI   F,2*3", "         USING P+2*4,5", "         LA    1,2*L'F(2)",
          "         LA    1,(4)(2)", "         LA    1,F+(N-1)", "         LA    1,-(1-5)", "         CLI   F,C'A'+1"],
         ["         SRL   4,4                     2*2", "         BCR   8,14                    2*4", "         CLI   F,6                     2*3",
          "         USING P+8,5                   P+2*4", "         LA    1,16(2)                 2*L'F(2)", "         LA    1,4(2)                  (4)(2)",
          "         LA    1,F+N-1                 F+(N-1)", "         LA    1,4                     -(1-5)", "         CLI   F,C'A'+1"]),
    Case("EQU of EQU with a length", ["D        EQU   *,3", "E        EQU   D", "A        DS    CL3", "         XC    E,E", "         LA    4,L'E-1"],
         ["D        EQU   *", "E        EQU   D", "A        DS    CL3", "         XC    E(3),E", "         LA    4,2                     L'E-1"]),
    Case("EQU with a length that isn't known", ["D        EQU   F,NOWHERE"], [], ["F: defined only below", "NOWHERE: not defined", "its length"]),
    Case("EQU with a length, in commands",
         ["E        EQU   F,3", "         EXEC  CICS SEND TEXT FROM(E)", "         EXEC  CICS SEND TEXT FROM(E) LENGTH(L'E)"],
         ["E        EQU   F", "         EXEC  CICS SEND TEXT FROM(E) LENGTH(=H'3')", "         EXEC  CICS SEND TEXT FROM(E) LENGTH(=H'3')"],
         ["F: defined only below"]),
    Case("registers", ["         YREGS", "         EQUREGS", "         COPY  DFHAID"], ["         DFHREGS", "         DFHREGS", "         COPY  DFHAID"]),
    Case("arguments that are worked out", ["         EXEC  CICS SEND TEXT FROM(F) LENGTH( LEN-1 )", "         EXEC  CICS SEND TEXT FROM(F) LENGTH(G-F)",
                                           "         EXEC  CICS DELETEQ QUEUE(=CL(2*2)'Q')", "         EXEC  CICS SEND TEXT FROM(F+2*2) LENGTH(=Y(2))"],
         ["         EXEC  CICS SEND TEXT FROM(F) LENGTH(=AL2(LEN-1))", "         EXEC  CICS SEND TEXT FROM(F) LENGTH(=AL2(G-F))",
          "         EXEC  CICS DELETEQ QUEUE(=CL4'Q')", "         EXEC  CICS SEND TEXT FROM(F+4) LENGTH(=AL2(2))"]),
    Case("an argument that has the place", ["         EXEC  CICS SEND TEXT FROM(F) LENGTH(*-P)"], [], ["a literal has a place of its own"]),
    Case("INITIMG of a symbol", ["         EXEC  CICS GETMAIN SET(5) LENGTH(W) INITIMG(N)"],
         ["         EXEC  CICS GETMAIN SET(5) LENGTH(W) INITIMG(=AL1(N))"]),
    Case("halfwords that are written, of other commands",
         ["         EXEC  CICS READQ TS QUEUE('Q') SET(5) LENGTH(W) NUMITEMS(N)", "         EXEC  CICS GETMAIN SET(5)",
          "         EXEC  CICS GETMAIN SET(5) FLENGTH(N)"], [],
         ["NUMITEMS(N): READQ TS writes to it", "LENGTH is left out of GETMAIN", "FLENGTH: no option of GETMAIN"]),
    Case("what is no command", ["         EXEC  SQL SELECT", "         EXEC  CICS SEND TEXT FROM(F"], [],
         ["no command that can be read", "no command that can be read"]),
    Case("a condition that nobody knows", ["         CLC   W,DFHRESP(NOPE)"], [], ["no condition of this name is known"]),
    Case("ORG that changes nothing", ["A        DS    CL4", "         ORG   ,", "         ORG"], ["A        DS    CL4", "*        ORG   ,", "*        ORG"]),
    Case("ORG that goes on", ["         ORG   *+4"], [], ["ORG *+4"]),
    Case("numbers with a point, and an exponent", ["A        DC    P'1.5',F'1'", "         L     4,=F'1E3'"], [],
         ["P'1.5': not a whole number", "F'1E3': not a whole number"]),
    Case("a literal as the first operand", ["         CLC   =C'ABC',F"], [], ["a literal as the first operand; write: a DC with a name"]),
    Case("USING of a range", ["         USING (F,G),5"], [], ["USING (F,G): no place that can be read"]),
    Case("a second section", ["Q        CSECT", "P        CSECT"], [], ["CSECT Q: a second control section"]),
    Case("what is left of types", ["A        DC    E'1'", "B        DC    D'1'", "C        DC    V(OTHER)", "D        DC    C'A'B'", "E        DC    F'1'S"],
         [],
         ["type E", "type D", "LINK PROGRAM('OTHER')", "an ampersand or apostrophe alone", "no item that can be read"]),
    Case("an ampersand alone", ["A        DC    C'A & B',C'C&&D'"], ["A        DC    C'A && B',C'C&&D'"]),
    Case("a byte and three of a place", ["A        DC    AL1(N),AL3(F)", "         DC    X'80',AL3(F+4),C'A',AL3(P)", "B        DC    AL2(1),AL3(F)"],
         ["A        DS    0XL1", "         DC    AL4(F+67108864)", "         DC    AL4(F+4+2147483648),AL4(P+3238002688)", "B        DC    AL2(1),AL3(F)"],
         ["a place in fewer than four bytes"]),
    Case("a byte, and three of a place in the next statement", ["A        DC    C'AB',X'80'", "         DC    AL3(F),C'D'",
                                                                 "         DC    X'1'", "B        DC    AL3(F)"],
         ["A        DC    C'AB',AL4(F+2147483648),C'D'", "*        DC    AL3(F),C'D'", "         DC    X'1'", "B        DC    AL3(F)"],
         ["a place in fewer than four bytes"]),
    Case("a macro that isn't called", ["         MACRO", "&A       TEST  &B", "&A       DC    Y(&B)", "         MEND"],
         ["*        MACRO", "*&A      TEST  &B", "*&A      DC    Y(&B)", "*        MEND"]),
    Case("macros that are called", ["         MACRO", "&L       FIRST &TO,&FROM,&LEN=4,&PART=", ".* UNSEEN", "* SEEN", "&L       MVC   &PART.&TO.(&LEN),&FROM",
                                    "         BE    L&SYSNDX", "         OTHER &TO", "L&SYSNDX DS    0H", "         MEND",
                                    "         MACRO", "         OTHER &X",
                                    "         DC    C'&X && &X',Y(1)", "         MEND", "A        FIRST F,G", "         FIRST W,F,PART=,LEN=L'F"],
         ["*        MACRO", "*&L      FIRST &TO,&FROM,&LEN=4,&PART=", "*.* UNSEEN", "* SEEN", "*&L      MVC   &PART.&TO.(&LEN),&FROM",
          "*        BE    L&SYSNDX", "*        OTHER &TO", "*L&SYSNDX DS   0H", "*        MEND", "*        MACRO", "*        OTHER &X",
          "*        DC    C'&X && &X',Y(1)", "*        MEND", "*A       FIRST F,G", "* SEEN", "A        MVC   F(4),G", "         BE    L0001",
          "         DC    C'F && F'", "         DS    0H", "         DC    AL2(1)", "L0001    DS    0H", "*        FIRST W,F,PART=,LEN=L'F", "* SEEN",
          "         MVC   W(L'F),F", "         BE    L0003", "         DC    C'W && W'", "         DS    0H", "         DC    AL2(1)", "L0003    DS    0H"]),
    Case("a command in a macro", ["         MACRO", "&L       SHOW  &A", "&L       EXEC  CICS SEND TEXT FROM(&A) LENGTH(4) ERASE FREEKB", "         MEND",
                                  "X        SHOW  F"],
         ["*        MACRO", "*&L      SHOW  &A", "*&L      EXEC  CICS SEND TEXT FROM(&A) LENGTH(4) ERASE FREEKB", "*        MEND", "*X       SHOW  F",
          "X        EXEC  CICS SEND TEXT FROM(F) LENGTH(=H'4') ERASE FREEKB"]),
    Case("digits that are none", ["A        DC    X'0G'", "B        DC    B'102'", "D        DC    X'0g'"], [],
         ["a digit that is none", "a digit that is none", "a digit that is none"]),
    Case("macros that are left", ["         MACRO", "         TEST  &B", "         AIF   (&B).X", ".X       MEND", "         MACRO", "         PARTS &A",
                                  "         DC    C'&A(1)'", "         MEND", "         TEST  1"], [],
         ["conditional assembly, AIF", "a part of &A", "TEST: no operation"]),
    Case("calls that are left", ["         MACRO", "         LOOP  &A", "         LOOP  &A", "         MEND", "         LOOP  5", "         LOOP  1,2"],
         ["*        MACRO", "*        LOOP  &A", "*        LOOP  &A", "*        MEND", "*        LOOP  5", "         LOOP  5", "         LOOP  1,2"],
         ["macros in one another", "more operands", "LOOP: no operation", "LOOP: no operation"]),
    Case("a packed instruction", ["         AP    F,G"], [], ["CVB into a register"]),
    Case("sequence numbers", ["A        BER   14".ljust(72) + "00010000"], ["A        BCR   8,14".ljust(72) + "00010000"]),
    Case("what passes column 71", ["A        DC    F'100000001,200000002,300000003,400000004' THE FOUR"],
         ["A        DC    F'100000001',F'200000002',F'300000003',F'400000004' THE X", "               FOUR"]),
    Case("a remark that fills its line", ["LONGNAME BER   14 " + "A" * 51 + " B"], ["LONGNAME BCR   8,14 " + "A" * 51 + "X", " " * 16 + "B"]),
    Case("an overlay",
         ["A        DS    CL10", "         ORG   A", "B        DS    CL4", "         DS    C", "C        DS    H", "         ORG"],
         ["A        DS    0CL10", "B        DS    CL4", "         DS    C", "         DS    XL1", "C        DS    H", "         DS    XL2"]),
    Case("an overlay between places",
         ["A        DS    CL10", "B        DS    CL20", "         ORG   A+2", "* TWO PARTS", "C        DS    CL4", "D        DS    CL12",
          "DL       EQU   *-C", "         ORG ,"],
         ["A        DS    0CL10", "         DS    XL2", "* TWO PARTS", "C        DS    CL4", "D        DS    0CL12", "         DS    XL4",
          "B        DS    0CL20", "         DS    XL8", "DL       EQU   *-C", "         DS    XL12"]),
    Case("an overlay that goes back once more, and farther",
         ["A        DS    CL4", "B        DS    CL8", "         ORG   B+2", "C        DS    CL3", "         ORG   A+1", "D        DS    CL2", "         ORG"],
         ["A        DS    0CL4", "         DS    XL1", "D        DS    CL2", "         DS    XL1", "B        DS    0CL8", "         DS    XL2",
          "C        DS    CL3", "         DS    XL3"]),
    Case("ORG over a DC", ["T        DC    256X'FF'", "         ORG   T+C'0'", "U        DC    10X'00'", "         ORG"],
         ["*T       DC    256X'FF'", "*        ORG   T+C'0'", "*U       DC    10X'00'", "*        ORG", "T        DS    0XL1", "         DC    240X'FF'",
          "U        DS    0XL1", "         DC    10X'00'", "         DC    X'FFFFFFFFFFFF'"]),
    Case("ORG over a table of its own places, twice", ["T        DC    16AL1(*-T)", "         ORG   T+2", "         DC    C'AB'", "         ORG   T+9",
                                                      "         DC    H'-2'", "         ORG"],
         ["*T       DC    16AL1(*-T)", "*        ORG   T+2", "*        DC    C'AB'", "*        ORG   T+9", "*        DC    H'-2'", "*        ORG",
          "T        DS    0XL1", "         DC    X'0001C1C2040506070809FFFE0C0D0E0F'"]),
    Case("ORG over a DC with a place", ["T        DC    A(F)", "         ORG   T", "         DC    X'00'", "         ORG"], [], ["ORG T", "ORG: it ends one"]),
]


# With the old text kept: lines of a source, and what they become.
KEPT = [
    Case("a statement", ["LONGNAME DC    Y(5)   FIVE", "         BER   14", "         DFHEIEND"],
         ["*LONGNAME DC   Y(5)   FIVE", "         DS    0H", "LONGNAME DC    AL2(5) FIVE", "*        BER   14", "         BCR   8,14", "*        DFHEIEND"]),
    Case("a statement of several lines",
         ["A        DC    F'100000001,200000002,300000003,400000004,5000000".ljust(71, "5") + "X00010000", "               5'".ljust(72) + "00020000"],
         ["*A       DC    F'100000001,200000002,300000003,400000004,5000000".ljust(71, "5") + " 00010000", "*              5'".ljust(72) + "00020000",
          "A        DC    F'100000001',F'200000002',F'300000003',F'400000004',F'50X00010000", "               0000055555555'".ljust(72) + "00020000"]),
    Case("an overlay", ["A        DS    CL10", "* OVER A", "         ORG   A", "B        DS    CL4", "         ORG"],
         ["*A       DS    CL10", "A        DS    0CL10", "* OVER A", "*        ORG   A", "B        DS    CL4", "         DS    XL6", "*        ORG"]),
]


def result_of(case: Case, *, is_kept: bool = False) -> Adapted:
    return adapted(SourceText([*HEAD, *case.old, *TAIL]), "OLD.asm", [], is_kept=is_kept)


def failure_of(case: Case) -> str | None:
    result = result_of(case)
    new = result.lines()[len(HEAD) : -len(TAIL)]
    told = [entry.text for entry in result.log.told if entry.is_left]
    due = case.new or case.old
    if new != due:
        return "\n".join([f"{case.what}: these lines,", *new, "where these are due:", *due])
    if len(told) != len(case.left) or not all(word in text for word, text in zip(case.left, told)):
        return f"{case.what}: told {told}, where due is {case.left}"
    again = adapted(SourceText(result.lines()), "OLD.asm", [])
    if again.lines() != result.lines():
        return f"{case.what}: a second time it changes something"
    return None


# ---- places, bytes and length attributes

FIRST_OLD = """P        CSECT
C1       DC    C'A'
Y1       DC    Y(258)
C2       DC    C'A',Y(1),C'B'
Y2       DC    YL1(7)
Y3       DS    2Y
A1       DC    A(1,P)
A2       DC    2AL1(1,2)
F1       DC    F'1,2'
H1       DC    2H'1,-1'
P1       DC    P'1,-22222'
X1       DC    X'1,222'
T1       DC    4AL1(*-T1)
T2       DC    3YL2(*-T2)
N1       DC    (2*3)X'AA'
N2       DC    CL(L'A1+1)'Z'
N3       DC    AL1((N2-N1)/4,(N2-N1)/0,-7/2)
E1       EQU   N2,3
E2       EQU   (N2-N1)*2
         MVC   E1,C1
         BNLR  14
         LA    1,L'E1
         LH    4,=Y(258)
         MVC   T1,=XL(L'A1-2)'1'
         L     5,=F'9'
         END""".split("\n")


# By the manual, from the first statement on: each item at the next multiple of its unit, its first value's length the attribute.
FIRST = {"C1": Place(0x00, 1), "Y1": Place(0x02, 2), "C2": Place(0x04, 1), "Y2": Place(0x09, 1), "Y3": Place(0x0A, 2), "A1": Place(0x10, 4),
          "A2": Place(0x18, 1), "F1": Place(0x1C, 4), "H1": Place(0x24, 2), "P1": Place(0x2C, 1), "X1": Place(0x30, 1), "T1": Place(0x33, 1),
          "T2": Place(0x37, 2), "N1": Place(0x3D, 1), "N2": Place(0x43, 5), "N3": Place(0x48, 1), "E2": Place(12, 1)}
FIRST_BYTES = ("C100 0102 C100 0001 C2 07 00000000 0000 00000001 00010000 01020102 00000001 00000002 0001 FFFF 0001 FFFF 1C 22222D 01 0222 00010203 "
         "0000 0002 0004 AAAAAAAAAAAA E940404040 01 00 FD 00 D202 3043 3000 07BE 41100003 "
         "4840306C D2003033306E 58503068 0000 00000009 0102 0001").replace(" ", "")

SECOND_OLD = """P        CSECT
A1       DC    2Y(1,2)
A2       DS    0Y
A3       DC    0Y(5)
A4       DC    PL3'1,2'
A5       DC    B'1,10000000'
A6       DC    2CL(2*2)'AB'
A7       DC    X'01,0203'
A8       DC    3AL1(1,2)
A9       DC    A(*,*)
B2       DC    (4-2)F'1,2'
B3       DS    (2)F
B4       DS    (2)CL(3)
B5       EQU   *-B4
B6       EQU   B4,2*3
C1       EQU   *,3
C2       EQU   C1
         MVC   B6,A1
         MVC   B6+1,A1
         MVC   C2,A1
         UNPK  B6,C1
         LA    1,2*L'B6(2)
         LA    1,-(1-5)
         CLI   A1,2*3
         SRL   4,2*2
         BCR   2*4,14
         LH    4,=Y(B5)
         L     4,=FL(2*2)'1'
         CLC   A9,DFHRESP(QIDERR)
         END   ,""".split("\n")
SECOND = {"A1": Place(0x00, 2), "A2": Place(0x08, 2), "A3": Place(0x08, 2), "A4": Place(0x08, 3), "A5": Place(0x0E, 1), "A6": Place(0x10, 4),
          "A7": Place(0x18, 1), "A8": Place(0x1B, 1), "A9": Place(0x24, 4), "B2": Place(0x2C, 4), "B3": Place(0x3C, 4), "B4": Place(0x44, 3),
          "B5": Place(6, 1)}
SECOND_BYTES = ("0001 0002 0001 0002 00001C 00002C 01 80 C1C24040 C1C24040 01 0203 01 02 01 02 01 02 000000 00010024 00010028 "
                "00000001 00000002 00000001 00000002 0000000000000000 000000000000 D20530443000 D20530453000 D202304A3000 F3523044304A "
                "4112000C 41100004 95063000 88400004 078E 48403090 58403088 D5033024308C 000000000000 00000001 0000002C 0006").replace(" ", "")

OVERLAY_OLD = """P        CSECT
         BR    14
D        DSECT
A        DS    F
B        DS    CL20
         ORG   A+2
C        DS    CL4
X        DS    3H
         ORG   B+1
Y        DS    D
         ORG
Z        DS    C
         END""".split("\n")
OVERLAY = {"A": Place(0, 4), "B": Place(4, 20), "C": Place(2, 4), "X": Place(6, 2), "Y": Place(8, 8), "Z": Place(24, 1)}


# A program as shops have it, and what its terminal shows by the manuals.
RUN_OLD = """         DFHEISTG
INLEN    DS    H
IN       DS    CL20
LINE     DS    CL8
LINE2    DS    CL8
RC       DS    F
P        DFHEIENT CODEREG=3,DATAREG=13,EIBREG=11
         EXEC CICS GETMAIN SET(5) LENGTH(8) INITIMG(STAR)   EIGHT STARS
         MVC   LINE,0(5)
         MVC   LINE2,=CL8' '
         MVC   INLEN,=Y(L'IN)
         EXEC CICS READQ TS QUEUE('NONE') INTO(IN) LENGTH(INLEN)       X
               ITEM(1) RESP(RC)         SURELY NOT THERE
         CLC   RC,DFHRESP(QIDERR)
         BNE   BAD
         EXEC CICS WRITEQ TS QUEUE('Q') FROM(WORD)
         EXEC CICS WRITEQ QUEUE('Q') FROM(WORD) LENGTH(L'WORD-3)
         EXEC CICS WRITEQ QUEUE('Q') FROM(WORD+1) LENGTH( END-WORD-1 ) X
               ITEM( ONE ) REWRITE
         EXEC CICS READQ TS QUEUE('Q') INTO(LINE2) LENGTH(INLEN)       X
               ITEM(ONE*2)
         EXEC CICS READQ TS QUEUE('Q') INTO(LINE2+3) LENGTH(INLEN2)    X
               ITEM(ONE)
         EXEC CICS SEND TEXT FROM(LINE) LENGTH(L'LINE+L'LINE2) ERASE
         DFHEIRET
BAD      DS    0H
         EXEC CICS ABEND ABCODE('BAD')
STAR     EQU   C'*'
ONE      EQU   1
INLEN2   DC    Y(L'LINE2-3)
WORD     DC    C'WORDS'
END      EQU   *
         DFHEIEND
         END   ,""".split("\n")
RUN = ["SCREEN T001", "01|********WO ORDS"]


class RewritingTest(TestCase):
    def test_cases(self) -> None:
        self.none_of([failure for case in CASES if (failure := failure_of(case))])

    def test_kept(self) -> None:
        for case in KEPT:
            with self.subTest(case.what):
                self.assertEqual(result_of(case, is_kept=True).lines()[len(HEAD) : -len(TAIL)], case.new)

    def test_places(self) -> None:
        for old, places, text in ((FIRST_OLD, FIRST, FIRST_BYTES), (SECOND_OLD, SECOND, SECOND_BYTES)):
            new = adapted(SourceText([old[0], "         USING P,3", *old[1:]]), "OLD.asm", []).lines()
            found = symbols_of(new)
            self.assertEqual({name: found.get(name) for name in places}, places)
            ended = run([CICSLOOK], encoded(["SOURCE P", *new, "/*", f"STORAGE 010000 {len(text) // 2}"]))
            self.assertEqual("".join(line[10:45] for line in ended.lines() if line.startswith("> 0100")).replace(" ", ""), text)
        overlay = symbols_of(adapted(SourceText(OVERLAY_OLD), "OLD.asm", []).lines())
        self.assertEqual({name: overlay.get(name) for name in OVERLAY}, OVERLAY)

    def test_run(self) -> None:
        new = adapted(SourceText(RUN_OLD), "OLD.asm", []).lines()
        self.assertEqual(keyed(new, "SCREEN T001")[-2:], RUN)
