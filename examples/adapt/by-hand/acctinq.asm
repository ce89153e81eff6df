ACCTINQ  TITLE 'ACCOUNT INQUIRY'
*
*        ACCTINQ - SHOW BALANCE AND LAST MOVEMENTS OF AN ACCOUNT
*        INPUT:  ACCT NNNNNNN-C      (CHECK DIGIT MODULUS 11)
*        CALLS:  ACCTGET  (COMMAREA, RETURNS THE MASTER RECORD)
*
         COPY  DFHAID
         DFHREGS
         EJECT
DFHEISTG DSECT
DW       DS    D
WORDS    DS    4F
RC       DS    F                       RESP
LEN      DS    H
LINKLEN  DS    H
TEXT     DS    CL80
ACCNO    DS    CL7
CHECK    DS    CL1
WEIGHTED DS    F
MASK     DS    XL16
LINE     DS    CL79
NL       DS    C
PAGE     DS    24CL80
PAGELEN  EQU   *-LINE
* WHAT ACCTGET IS GIVEN AND GIVES BACK
REC      DS    0F
RECFUNC  DS    CL4
RECRC    DS    CL2
RECACC   DS    CL7
RECNAME  DS    CL30
RECBAL   DS    PL6
RECLIM   DS    PL4
RECN     DS    H
RECMOVE  DS    10XL18
RECLEN   EQU   *-REC
         SPACE
*        ONE MOVEMENT
MOVE     DSECT
MVDATE   DS    PL4                     0YYYYMMDD, UNPACKED ON DISPLAY
MVTYPE   DS    CL2
MVAMT    DS    PL6
MVREF    DS    CL6
MVLEN    EQU   *-MOVE
         EJECT
ACCTINQ  CSECT
         LA    12,4095(,3)             SECOND BASE
         LA    12,1(,12)
         USING ACCTINQ+4096,12
         USING MOVE,8
*
*        RECEIVE THE INPUT
*
         EXEC CICS HANDLE CONDITION  LENGERR(LONG)  PGMIDERR(NOPGM)
         MVC   LEN,=AL2(L'TEXT)
         MVI   TEXT,C' '
         MVC   TEXT+1(L'TEXT-1),TEXT
         EXEC CICS RECEIVE INTO(TEXT) LENGTH(LEN)
         CLI   EIBAID,DFHPF3
         BE    EXIT
         CLI   EIBAID,DFHCLEAR
         BE    EXIT
* OC    TEXT,=80C' '            TO CAPITALS: THE OPERATOR TYPES THEM
         LA    4,TEXT+5
         MVC   ACCNO,0(4)
         MVC   CHECK,8(4)
         TRT   ACCNO,DIGITS
         BNZ   NOTNUM
*
*        MODULUS 11: WEIGHTS 8 7 6 5 4 3 2
*
         SR    5,5
         ST    5,WEIGHTED
         LA    5,ACCNO
         LA    6,WEIGHTS
         LA    7,L'ACCNO
MOD1     SR    0,0
         IC    0,0(5)
         ST    0,WORDS                 N  0,=F'15'
         XC    WORDS(3),WORDS
         NI    WORDS+3,15
         L     0,WORDS
         SR    1,1
         IC    1,0(6)
         STM   0,1,WORDS
         L     15,WORDS
         M     14,WORDS+4
         A     15,WEIGHTED
         ST    15,WEIGHTED
         LA    5,1(5)
         LA    6,1(6)
         BCT   7,MOD1
         SR    14,14
         L     15,WEIGHTED
         D     14,=F'11'
         LA    15,11
         SR    15,14
         C     15,=F'10'
         BE    BADCHK                  NO SUCH NUMBER IS GIVEN OUT
         C     15,=F'11'
         BNE   *+6
         SR    15,15
         STC   15,DW
         OI    DW,X'F0'
         CLC   CHECK,DW
         BNE   BADCHK
*
*        GET THE RECORD
*
         MVC   RECFUNC,=CL4'GET'
         MVC   RECACC,ACCNO
         MVC   LINKLEN,=AL2(RECLEN)
         EXEC CICS LINK PROGRAM('ACCTGET') COMMAREA(REC)               X
               LENGTH(LINKLEN) RESP(RC)
         CLC   RC,=A(27)               DFHRESP(PGMIDERR)
         BE    NOPGM
         CLC   RECRC,=C'00'
         BNE   NOTFND
*
*        HEADING
*
         LA    9,PAGE
         BAL   10,CLEAR
         MVC   LINE(7),=C'ACCOUNT'
         MVC   LINE+8(L'ACCNO),ACCNO
         MVI   LINE+8+L'ACCNO,C'-'
         MVC   LINE+9+L'ACCNO(1),CHECK
         MVC   LINE+20(L'RECNAME),RECNAME
         BAL   10,PUTLINE
         MVC   LINE(L'BALTXT),BALTXT
         XC    DW,DW                   ZAP  DW,RECBAL
         MVC   DW+2(6),RECBAL
         BAL   10,EDITBAL
         BAL   10,PUTLINE
*
*        MOVEMENTS, NEWEST FIRST
*
         LH    7,RECN
         LTR   7,7
         BZ    SHOW
         LA    8,RECMOVE
NEXTMV   UNPK  LINE(8),MVDATE(4)       ED
         OI    LINE+7,X'F0'
         MVC   LINE+14(2),MVTYPE
         XC    DW,DW
         MVC   DW+2(6),MVAMT
         BAL   10,EDITBAL
         MVC   LINE+50(6),MVREF
         BAL   10,PUTLINE
         LA    8,MVLEN(8)
         BCT   7,NEXTMV
SHOW     LA    0,PAGE
         SR    9,0
         STH   9,LEN
         EXEC CICS SEND TEXT FROM(PAGE) LENGTH(LEN) ERASE FREEKB
EXIT     EXEC CICS RETURN
*
*        ERRORS
*
LONG     LA    2,E1
         B     ERR
NOTNUM   LA    2,E2
         B     ERR
BADCHK   LA    2,E3
         B     ERR
NOTFND   LA    2,E4
         B     ERR
NOPGM    LA    2,E5
ERR      EXEC CICS SEND TEXT FROM(0(2)) LENGTH(ERRLEN) ERASE
         B     EXIT
*
*        CLEAR A LINE, PUT IT INTO THE PAGE
*
CLEAR    MVI   LINE,C' '
         MVC   LINE+1(L'LINE-1),LINE
         MVI   NL,X'15'
         BR    10
PUTLINE  MVC   0(80,9),LINE
         LA    9,80(9)
         B     CLEAR
*
*        BALANCE IN DW TO LINE+30
*
EDITBAL  UNPK  LINE+30(11),DW+2(6)     ED
         OI    LINE+40,X'F0'
         TM    DW+7,X'01'              SIGN D
         BNO   *+8
         MVI   LINE+30+L'EDAMT,C'-'
         BR    10
*
         LTORG
*
WEIGHTS  DC    AL1(8),AL1(7),AL1(6),AL1(5),AL1(4),AL1(3),AL1(2)
DIGITS   DC    240X'FF',10X'00',6X'FF'
EDDATE   DC    X'4020204B20204B20202020'
EDAMT    DC    X'40206B2020206B2020204B2020'
BALTXT   DC    C'BALANCE'
         DS    0H
ERRLEN   DC    AL2(L'E1)
E1       DC    CL32'INPUT TOO LONG'
E2       DC    CL32'ACCOUNT NUMBER ISN''T NUMERIC'
E3       DC    CL32'CHECK DIGIT IS WRONG'
E4       DC    CL32'NO SUCH ACCOUNT'
E5       DC    CL32'ACCTGET IS MISSING'
         END
