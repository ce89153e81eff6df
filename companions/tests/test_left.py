"""Constructs that have no exact equivalent, each planted in a source: each stays as it is, and is told. None is silent."""
from cics.adapting import adapted
from cics.sources import SourceText
from tests.case import TestCase

TAIL = """N        EQU   4
TABLE    DC    XL20'00'
         EXEC  CICS RETURN
         LTORG
DFHEISTG DSECT
A        DS    PL4
B        DS    PL3
D        DS    D
F        DS    F
G        DS    F
W        DS    CL16
         END""".split("\n")


# A statement in its columns, and behind the bar what is told of it at least.
ROWS = r"""
         LA    1,T'F                                         | T'F: no operand that can be read here
         LA    1,K'F                                         | K'F: no operand that can be read here
         MVC   W(S'F),G                                      | W(S'F),G: no operand that can be read here
         LA    1,X'FF'Z                                      | X'FF'Z: no operand that can be read here
         LA    1,D'F                                         | D'F: no operand that can be read here
         AP    A,B,G                                         | AP: 3 operands, where 2 are due
X        DC    FS4'1.5'                                      | FS4'1.5': no item that can be read here
X        DC    FE2'1'                                        | FE2'1': no item that can be read here
X        DC    BL.3'101'                                     | BL.3'101': no item that can be read here
X        DC    CA'AB'                                        | CA'AB': no item that can be read here
X        DC    GL2'A'                                        | GL2'A': no item that can be read here
X        DC    J(F)                                          | J(F): no item that can be read here
X        DC    R(F)                                          | R(F): no item that can be read here
X        DC    AL3(F)                                        | AL3(F): a place in fewer than four bytes
X        DC    VL3(DFHEI1)                                   | VL3(DFHEI1): an address in 3 bytes
X        DC    3V(OTHER)                                     | 3V(OTHER): the address of another program
X        DC    A(F+G)                                        | A(F+G): no place, but a sum or a difference of several
X        DC    A(F*2)                                        | F*2: not all of it is a number that is known before
X        DC    AL1(F)                                        | AL1(F): a place in fewer than four bytes
X        DC    0D                                            | 0D: type D
X        DC    D'1'                                          | D'1': type D
X        DC    L'1'                                          | L'1': type L
X        DC    Q(F)                                          | Q(F): type Q
X        DS    CL(F)                                         | (F): not a number that is known before
X        EQU   F*2                                           | F*2: not all of it is a number that is known before
X        EQU   NONE                                          | NONE: not defined
X        EQU   *-NONE                                        | NONE: not defined
X        EQU   F,NONE                                        | NONE: not defined
X        EQU   5,(6                                          | EQU 5,(6: its length isn't known before
X        EQU   F+G                                           | F: defined only below
         AP    A,B(3,5)                                      | B(3,5): no displacement that is known before
         USING *,NONE                                        | NONE: not defined
         USING 0,5                                           | USING 0: an absolute base
         USING (TABLE,W),5                                   | USING (TABLE,W): no place that can be read here
         DROP  Q                                             | Q: not defined
         DROP  R5                                            | R5: not defined
         EXTRN X                                             | EXTRN: no operation that is here
         WXTRN X                                             | WXTRN: no operation that is here
         ENTRY X                                             | ENTRY: no operation that is here
         COM                                                 | COM: no operation that is here
         DXD                                                 | DXD: no operation that is here
X        LOCTR                                               | LOCTR: no operation that is here
         OPSYN                                               | OPSYN: no operation that is here
X        RSECT                                               | RSECT: no operation that is here
         PUNCH 'X'                                           | PUNCH: no operation that is here
         REPRO                                               | REPRO: no operation that is here
         CNOP  0,4                                           | CNOP 0,4: no operation that is here
         ICTL  1                                             | ICTL: no operation that is here
         ISEQ  73,80                                         | ISEQ: no operation that is here
         AGO   .A                                            | AGO: no operation that is here
&X       SETA  1                                             | SETA: no operation that is here
         GBLC  &A                                            | GBLC: no operation that is here
         MNOTE 4,'X'                                         | MNOTE: no operation that is here
.A       ANOP                                                | ANOP: no operation that is here
         MACRO                                               | MACRO: a macro's definition: there is no MEND
         MEND                                                | MEND: no operation that is here
         ACTR  5                                             | ACTR: no operation that is here
         AREAD                                               | AREAD: no operation that is here
         SYSSTATE AMODE=24                                   | SYSSTATE: no operation that is here
X        START 100                                           | START X: a second control section
         CSECT                                               | CSECT : a second control section
Q        CSECT                                               | CSECT Q: a second control section
         BASSM 14,15                                         | BASSM: not one of the instructions that are here
         BSM   0,14                                          | BSM: not one of the instructions that are here
         SVC   1                                             | SVC: not one of the instructions that are here
         SPM   4                                             | SPM: not one of the instructions that are here
         STCK  D                                             | STCK: not one of the instructions that are here
         CDS   5,6,D                                                | CDS: 5: an odd register, so interruption 6
         LCTL  0,0,F                                         | LCTL: not one of the instructions that are here
         AD    0,D                                           | AD: not one of the instructions that are here
         LE    0,F                                           | LE: not one of the instructions that are here
         IPM   5                                             | IPM: no operation that is here
         LPSW  D                                             | LPSW: no operation that is here
         DIAG  1                                             | DIAG: no operation that is here
         MVCK  W,F,5                                         | MVCK: no operation that is here
         TRE   4,6                                           | TRE: no operation that is here
         AHI   4,1                                           | AHI: no operation that is here
         LHI   4,1                                           | LHI: no operation that is here
         J     TABLE                                         | J: no operation that is here
         BRAS  14,TABLE                                      | BRAS: no operation that is here
         LARL  4,TABLE                                       | LARL: no operation that is here
         MVCS  W,F                                           | MVCS: no operation that is here
         CVBY  4,D                                           | CVBY: no operation that is here
         SAVE  (14,12)                                       | SAVE: no operation that is here
         RETURN (14,12)                                      | RETURN: no operation that is here
         GETMAIN R,LV=8                                      | GETMAIN: no operation that is here
         FREEMAIN R,LV=8,A=(1)                               | FREEMAIN: no operation that is here
         WTO   'X'                                           | WTO: no operation that is here
         OPEN  (F)                                           | OPEN: no operation that is here
         TIME  BIN                                           | TIME: no operation that is here
         CALL  SUB                                           | CALL: no operation that is here
         LINK  EP=A                                          | LINK: no operation that is here
         XCTL  EP=A                                          | XCTL: no operation that is here
         ABEND 1                                             | ABEND: no operation that is here
         STIMER REAL                                         | STIMER: no operation that is here
         WAIT  ECB=F                                         | WAIT: no operation that is here
         DCB   DDNAME=A                                      | DCB: no operation that is here
         DFHPC TYPE=LINK                                     | DFHPC: no operation that is here
         DFHEICAL 1                                          | DFHEICAL: no operation that is here
         DFHMSD TYPE=MAP                                     | DFHMSD: no operation that is here
         IHAPSA                                              | IHAPSA: no operation that is here
         COPY  NONE                                          | COPY NONE: no folder is given by --copy
         COPY  DFHBMSCA                                      | COPY DFHBMSCA: no folder is given by --copy
         COPY                                                | COPY : a member's name has 1 to 8 letters, digits, @, # and $
         EXEC  CICS                                          | EXEC CICS: no command that can be read here
         EXEC                                                | EXEC : no command that can be read here
         EXEC  CICS SEND MAP('M')                            | EXEC CICS SEND MAP: no command that is here
         EXEC  CICS RECEIVE MAP('M')                         | MAP: no option of RECEIVE
         EXEC  CICS READ FILE('F') INTO(F)                   | EXEC CICS READ: no command that is here
         EXEC  CICS SEND TEXT FROM(F                         | EXEC CICS SEND TEXT FROM(F: no command that can be read here
         EXEC  CICS SEND TEXT                                | LENGTH is left out of SEND TEXT
         EXEC  CICS RETURN IMMEDIATE                         | IMMEDIATE: no option of RETURN
         EXEC  CICS GETMAIN SET(5)                           | LENGTH is left out of GETMAIN
         EXEC  CICS GETMAIN SET(5) FLENGTH(10)               | FLENGTH: no option of GETMAIN
         EXEC  CICS FREEMAIN DATAPOINTER(5)                  | DATAPOINTER: no option of FREEMAIN
         EXEC  CICS HANDLE AID PF13(X)                       | X: not defined
         EXEC  CICS HANDLE AID OPERID(X)                     | X: not defined
         EXEC  CICS HANDLE CONDITION NOPE(X)                 | X: not defined
         EXEC  CICS HANDLE ABEND PROGRAM('X')                | PROGRAM: no option of HANDLE ABEND
         EXEC  CICS PUSH                                     | EXEC CICS PUSH: no command that can be read here
         EXEC  CICS POP HANDLE X                             | X: no option of POP HANDLE
         EXEC  CICS SUSPEND X                                | X: no option of SUSPEND; write: a mark of continuation in column 72
         EXEC  CICS WRITEQ TS QNAME(F) FROM(F)               | QNAME: no option of WRITEQ TS
         EXEC  CICS WRITEQ TS QUEUE(F) FROM(F) SYSID('A')    | SYSID: no option of WRITEQ TS
         EXEC  CICS READQ TS QUEUE(F) INTO(F) LENGTH(5)      | LENGTH(5): READQ TS writes to it
         EXEC  CICS RECEIVE INTO(F) MAXLENGTH(5)             | MAXLENGTH: no option of RECEIVE
         EXEC  CICS RECEIVE SET(5) LENGTH(F)                 | SET: no option of RECEIVE
         EXEC  CICS RECEIVE                                  | LENGTH is left out of RECEIVE
         EXEC  CICS ADDRESS TWA(F)                           | TWA: no option of ADDRESS
         EXEC  CICS ASSIGN CWALENG(0(5))                     | EXEC CICS ASSIGN: no command that is here
         EXEC  CICS SYNCPOINT ROLLBACK                       | EXEC CICS SYNCPOINT: no command that is here
         EXEC  DLI GU                                        | EXEC DLI GU: no command that can be read here
         EXEC  SQL SELECT                                    | EXEC SQL SELECT: no command that can be read here
         EXEC  CICS SEND TEXT FROM(F) LENGTH(FULLW) RESP(W)  | FULLW: not defined
         EXEC  CICS RETURN TRANSID(F) INPUTMSG(F)            | INPUTMSG: no option of RETURN
         EXEC  CICS XCTL PROGRAM('A') COMMAREA(0(5))         | LENGTH is left out of XCTL
         CLC   W,DFHRESP(NOPE)                               | DFHRESP(NOPE): no condition of this name is known
         CLI   F,DFHRESP(NORMAL                              | DFHRESP(NORMAL: no operand that can be read here
         CLC   F,DFHVALUE(A)                                 | DFHVALUE: not defined
         MVC   EIBCPOSN,F                                    | EIBCPOSN: no field of the EIB that is here
         MVC   F(4),EIBRESP2                                 | EIBRESP2: no field of the EIB that is here
a        mvc   x,y                                           | X: not defined
AAAAAAAAA LR 4,5                                             | AAAAAAAAA: a name of more than eight characters
""".strip("\n").split("\n")


class LeftTest(TestCase):
    def test_planted(self) -> None:
        wrong = []
        for row in ROWS:
            statement, due = (part.rstrip() for part in row.split(" | "))
            result = adapted(SourceText(["P        CSECT", statement, *TAIL]), "OLD.asm", [])
            told = [entry.text for entry in result.log.told if entry.is_left]
            if not any(due in text for text in told) or not {statement, statement.upper()} & {*result.lines()}:
                wrong.append(f"{statement}: told {told}, where {due} is due")
        self.none_of(wrong)
        self.assertGreaterEqual(len(ROWS), 60)

    def test_past_column_71(self) -> None:
        """A command whose text goes past column 71 is told as that, and stays. A number or a name of the line may stand there."""
        text = f"{'         EXEC  CICS SEND TEXT FROM(F)':<66}"
        for lines, is_told in [([f"{text}LENGTH(FULLW)"], True), ([f"{text}     X ERASE", "               LENGTH(FULLW)"], False),
                               ([f"{text}  ERASE X", "               LENGTH(FULLW)"], True), ([f"{text}      ERASE"], True),
                               ([f"{text}     X00000010", f"{'               LENGTH(FULLW)':<72}PROGNAME"], False)]:
            result = adapted(SourceText(["P        CSECT", *lines, *TAIL]), "OLD.asm", [])
            told = [entry for entry in result.log.told if entry.is_left and "goes past column 71" in entry.text]
            self.assertEqual((bool(told), all(line in result.lines() for line in lines) or not is_told), (is_told, True), lines)
            self.assertTrue(all(entry.origin.number == 2 for entry in told))
