         TITLE 'STKBRWS - BROWSE THE STOCK LIST, PF7/PF8'
**********************************************************************
*                                                                    *
*   STKBRWS     STOCK LIST BROWSE                                    *
*                                                                    *
*   THE STOCK LIST IS IN TS QUEUE 'STOCK', ONE ITEM A RECORD.        *
*   A PAGE HAS 18 LINES.  PF8 FORWARD, PF7 BACKWARD, PF3 END,        *
*   ENTER WITH A PART NUMBER POSITIONS.                              *
*                                                                    *
**********************************************************************
STKBRWS  CSECT
*STKBRWS AMODE 24
         B     BEGIN-STKBRWS(R15)
         DC    AL1(L'EYE)
EYE      DC    C'STKBRWS 04/11/88 12.40'
BEGIN    DS    0H
         USING STKBRWS,R3,R4
         LA    R4,2048(R3)
         LA    R4,2048(R4)
         USING COMM,R7
         USING STOCK,R8
         EXEC CICS HANDLE CONDITION                                    *
               QIDERR(NOLIST)                                          *
               ITEMERR(ENDLIST)                                        *
               LENGERR(IGNORE)
         EXEC CICS HANDLE ABEND                                        *
               LABEL(GIVEUP)
         LH    R1,EIBCALEN
         LTR   R1,R1
         BNZ   AGAIN
*
* FIRST TIME: A COMMAREA OF OUR OWN, FIRST PAGE
*
         EXEC CICS GETMAIN SET(R7) LENGTH(COMMLENH)                    *
               INITIMG(LOW)
         MVC   CMTOP,=H'1'
         B     SHOWPAGE
*
AGAIN    L     R7,DFHEICAP
         SR    R1,R1
         IC    R1,EIBAID
         LA    R2,KEYTAB
KEYLOOP  CLI   0(R2),X'FF'             END OF TABLE?
         BE    BADKEY
         CLC   EIBAID,0(R2)
         BE    KEYHIT
         LA    R2,KEYLEN(R2)
         B     KEYLOOP
KEYHIT   ICM   R2,B'1111',4(R2)
         BR    R2
*
FORWARD  LH    R1,CMTOP
         LA    R1,PAGESIZE(R1)
         CH    R1,CMMAX
         BH    SHOWPAGE
         STH   R1,CMTOP
         B     SHOWPAGE
BACKWARD LH    R1,CMTOP
         SH    R1,=AL2(PAGESIZE)
         BP    *+8
         LA    R1,1
         STH   R1,CMTOP
         B     SHOWPAGE
*
* ENTER WITH A PART NUMBER: BINARY SEARCH
*
POSIT    MVC   INLEN,=AL2(L'IN)
         EXEC CICS RECEIVE INTO(IN) LENGTH(INLEN) NOHANDLE
         LH    R1,INLEN
         CH    R1,=H'5'
         BNH   SHOWPAGE
         LA    R9,1                    LOW
         LH    R10,CMMAX               HIGH
SEARCH   CR    R9,R10
         BH    FOUNDPL
         LA    R1,0(R9,R10)
         SRL   R1,1
         STH   R1,ITEM
         BAL   R14,READ
         LH    R1,ITEM
         CLC   STKPART,IN+5
         BE    FOUND
         BL    SEARCHUP
         BCTR  R1,0
         LR    R10,R1
         B     SEARCH
SEARCHUP LA    R9,1(R1)
         B     SEARCH
FOUNDPL  LR    R1,R9
FOUND    STH   R1,CMTOP
         EJECT
*
* SHOW A PAGE FROM CMTOP ON
*
SHOWPAGE MVI   OUT-1,C' '              A DC OF DFHEISTG HAS NO BYTES
         LA    R5,OUT
         LA    R6,PAGESIZE+2
CLR      MVC   0(80,R5),OUT-1          ! OUT-1 IS A BLANK
         LA    R5,80(R5)
         BCT   R6,CLR
         LA    R5,OUT
         MVC   0(L'HEAD,R5),HEAD
         MVI   79(R5),NL
         LA    R5,80(R5)
         MVC   ITEM,CMTOP
         LA    R6,PAGESIZE
PAGELOOP BAL   R14,READ
         MVC   0(L'STKPART,R5),STKPART
         MVC   8(L'STKDESC,R5),STKDESC
         UNPK  WORK(9),STKQTY(5)
         OI    WORK+8,X'F0'
         MVC   36(7,R5),WORK+2
         LA    R1,36(R5)
         LA    R2,6
ZERO     CLI   0(R1),C'0'
         BNE   NONZERO
         MVI   0(R1),C' '
         LA    R1,1(R1)
         BCT   R2,ZERO
NONZERO  TM    STKFLAG,STKLOW+STKHOLD
         BZ    NOFLAG
         MVC   46(3,R5),=C'LOW'
         TM    STKFLAG,STKHOLD
         BZ    NOFLAG
         MVC   46(4,R5),=C'HOLD'
NOFLAG   MVI   79(R5),NL
         LA    R5,80(R5)
         LH    R1,ITEM
         LA    R1,1(R1)
         STH   R1,ITEM
         BCT   R6,PAGELOOP
ENDLIST  LA    R1,OUT
         SR    R5,R1
         STH   R5,OUTLEN
         EXEC CICS SEND TEXT FROM(OUT) LENGTH(OUTLEN)                  *
               ERASE
         EXEC CICS RETURN TRANSID('STKB')                              *
               COMMAREA(COMM) LENGTH(COMMLENH)
*
* READ AN ITEM
*
READ     ST    R14,SAVE14
         MVC   RECLEN,=AL2(STKLEN)
         EXEC CICS READQ TS QUEUE(=CL8'STOCK') SET(R8)                 *
               LENGTH(RECLEN) ITEM(ITEM) NUMITEMS(CMMAX)
         L     R14,SAVE14
         BR    R14
*
IGNORE   DS    0H
NOLIST   EXEC CICS SEND TEXT FROM(MSG1) LENGTH(MSG1L) ERASE
         B     BYE
BADKEY   EXEC CICS SEND TEXT FROM(MSG2) LENGTH(MSG2L) ERASE
         B     BYE
GIVEUP   EXEC CICS SEND TEXT FROM(MSG3) LENGTH(MSG3L) ERASE
BYE      EXEC CICS RETURN
         LTORG
         DS    0H
COMMLENH DC    AL2(COMMLEN)
LOW      DC    X'00'
NL       EQU   X'15'
PAGESIZE EQU   18
MSG1     DC    C'THERE IS NO STOCK LIST TODAY'
         DS    0H
MSG1L    DC    AL2(L'MSG1)
MSG2     DC    C'KEY ISN''T USED'
         DS    0H
MSG2L    DC    AL2(*-MSG2)
MSG3     DC    C'STKBRWS ENDED, SEE EDF'
         DS    0H
MSG3L    DC    AL2(L'MSG3)
HEAD     DC    C'PART    DESCRIPTION                 QUANTITY  NOTE'
         DS    0F
KEYTAB   DC    AL1(DFHENTER),3X'0',A(POSIT)
KEYLEN   EQU   *-KEYTAB
         DC    AL1(DFHPF8),3X'0',A(FORWARD)
         DC    AL1(DFHPF7),3X'0',A(BACKWARD)
         DC    AL1(DFHPF3),3X'0',A(BYE)
         DC    AL1(DFHCLEAR),3X'0',A(BYE)
         DC    X'FF'
         COPY  DFHAID
* STOCK RECORD
STOCK    DSECT
STKREC   DS    0CL64
STKPART  DS    CL7
STKDESC  DS    CL25
STKQTY   DS    PL5
STKFLAG  DS    XL1
STKLOW   EQU   B'10000000'
STKHOLD  EQU   B'01000000'
STKDATES DS    2PL4
         DS    CL18                    CL(L'STKREC-(*-STKREC))
STKLEN   EQU   *-STKREC
COMM     DSECT
CMTOP    DS    H
CMMAX    DS    H
COMMLEN  EQU   *-COMM
DFHEISTG DSECT
SAVE14   DS    F
ITEM     DS    H
INLEN    DS    H
OUTLEN   DS    H
RECLEN   DS    H
WORK     DS    CL16
IN       DS    CL80
         DC    C' '
OUT      DS    20CL80
*        DFHEIEND
R0       EQU   0
R1       EQU   1
R2       EQU   2
R3       EQU   3
R4       EQU   4
R5       EQU   5
R6       EQU   6
R7       EQU   7
R8       EQU   8
R9       EQU   9
R10      EQU   10
R11      EQU   11
R12      EQU   12
R13      EQU   13
R14      EQU   14
R15      EQU   15
         END
