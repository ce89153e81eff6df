         TITLE 'ORDENT - ORDER ENTRY, HEADER AND LINES'
***********************************************************************
* PROGRAM:  ORDENT                                                    *
* FUNCTION: TAKES AN ORDER FROM THE TERMINAL: CUSTOMER, ITEM, QTY.    *
*           PRICES IT FROM THE ITEM TABLE, KEEPS IT IN A TS QUEUE     *
*           PER TERMINAL, AND SHOWS THE TOTAL.                        *
* TRANSID:  ORD1   (PSEUDO-CONVERSATIONAL)                            *
* CHANGES:  84-03-12 RKB  FIRST VERSION                               *
*           87-11-02 HJM  DISCOUNT CLASS FROM TABLE                   *
***********************************************************************
         PRINT NOGEN
R0       EQU   0
R1       EQU   1
R2       EQU   2                       WORK
R3       EQU   3                       PROGRAM BASE
R4       EQU   4                       ITEM TABLE
R5       EQU   5                       COMMAREA
R6       EQU   6                       LINKAGE
R7       EQU   7                       LOOP COUNT
R8       EQU   8                       EVEN
R9       EQU   9                       ODD
R10      EQU   10                      SECOND BASE
R11      EQU   11                      EIB
R12      EQU   12
R13      EQU   13                      DFHEISTG
R14      EQU   14
R15      EQU   15
         SPACE 1
*---------------------------------------------------------------------*
*        WORKING STORAGE                                              *
*---------------------------------------------------------------------*
DFHEISTG DSECT
DWORD    DS    D                       FOR CVB, CVD
SAVE6    DS    F
RESP     DS    F
INLEN    DS    H
QLEN     DS    H
ITEMNO   DS    H
SWITCHES DS    X
SWFOUND  EQU   X'80'                   ITEM IS IN TABLE
SWDISC   EQU   X'40'                   CUSTOMER HAS DISCOUNT
QNAME    DS    0CL8                    QUEUE NAME
QPREF    DS    CL4
QTERM    DS    CL4
INAREA   DS    0CL80
INTRAN   DS    CL4
         DS    C
INCUST   DS    CL6
         DS    C
INITEM   DS    CL5
         DS    C
INQTY    DS    CL3
         DS    XL59
OUTMSG   DS    CL240
*        THE ORDER LINE AS IT IS QUEUED
ORDLINE  DS    0CL32
ORDCUST  DS    CL6
ORDITEM  DS    CL5
ORDQTY   DS    PL3
ORDPRICE DS    PL4
ORDAMT   DS    PL5
ORDDATE  DS    PL4
         DS    CL5
ORDLEN   EQU   *-ORDLINE
QTY      DS    F
AMOUNT   DS    F
TOTAL    DS    F
EDWORK   DS    CL15
EDOUT    DS    CL10
         EJECT
*---------------------------------------------------------------------*
*        COMMAREA                                                     *
*---------------------------------------------------------------------*
COMM     DSECT
CMSTATE  DS    X
CMLINES  DS    H
CMTOTAL  DS    F
CMLEN    EQU   *-COMM
         SPACE 2
*---------------------------------------------------------------------*
*        ITEM TABLE ENTRY                                             *
*---------------------------------------------------------------------*
ITEMD    DSECT
IKEY     DS    CL5
IDESC    DS    CL15
IPRICE   DS    PL4
ICLASS   DS    X
ILEN     EQU   *-ITEMD
         EJECT
ORDENT   CSECT
         USING ORDENT,R3
         USING COMM,R5
         USING ITEMD,R4
         B     START
         DC    C'ORDENT   V1.4'
START    DS    0H
         EXEC  CICS HANDLE CONDITION LENGERR(TOOLONG)                  *
               QIDERR(NOQUEUE)                                         *
               ERROR(ABEND)
         EXEC  CICS HANDLE ABEND LABEL(ABEXIT)
         MVC   QPREF,=C'ORDQ'
         MVC   QTERM,EIBTRMID
         LH    R7,EIBCALEN
         LTR   R7,R7                   FIRST TIME?
         BZ    FIRST
         L     R5,DFHEICAP
         CLI   EIBAID,DFHPF3           WANTS OUT?
         BE    GOODBYE
         CLI   EIBAID,DFHCLEAR
         BE    FIRST
         B     GETINPUT
         SPACE
FIRST    DS    0H
         EXEC  CICS GETMAIN SET(R5) LENGTH(=AL2(CMLEN)) INITIMG(=X'00')
         EXEC  CICS DELETEQ TS QUEUE(QNAME) NOHANDLE
         EXEC  CICS SEND TEXT FROM(HELLO) LENGTH(=AL2(L'HELLO)) ERASE
         B     RETRN
         SPACE
GETINPUT DS    0H
         MVC   INAREA,BLANKS
         MVC   INLEN,=AL2(L'INAREA)
         EXEC  CICS RECEIVE INTO(INAREA) LENGTH(INLEN)
         LH    R7,INLEN
         C     R7,=A(INQTY+L'INQTY-INAREA)
         BL    BADINPUT
         BAL   R6,NUMERIC              CHECK QUANTITY
         LTR   R15,R15
         BNZ   BADINPUT
         PACK  DWORD,INQTY
         CVB   R9,DWORD
         ST    R9,QTY
         BAL   R6,LOOKUP
         TM    SWITCHES,SWFOUND
         BNO   NOITEM
*        AMOUNT = QUANTITY * PRICE
         XC    DWORD,DWORD
         MVC   DWORD+L'DWORD-L'IPRICE(L'IPRICE),IPRICE
         CVB   R9,DWORD
         M     R8,QTY
         TM    SWITCHES,SWDISC
         BZ    NODISC
         M     R8,=F'95'               FIVE PER CENT OFF
         D     R8,=F'100'
NODISC   ST    R9,AMOUNT
         A     R9,CMTOTAL
         ST    R9,CMTOTAL
         LH    R7,CMLINES
         LA    R7,1(,R7)
         STH   R7,CMLINES
*        BUILD THE LINE
         MVC   ORDLINE(ORDLEN),BLANKS
         MVC   ORDCUST,INCUST
         MVC   ORDITEM,INITEM
         PACK  ORDQTY,INQTY
         MVC   ORDPRICE,IPRICE
         L     R9,AMOUNT
         CVD   R9,DWORD
         MVC   ORDAMT,DWORD+3
         MVC   ORDDATE,EIBDATE
         EXEC  CICS WRITEQ TS QUEUE(QNAME) FROM(ORDLINE)               *
               LENGTH(=AL2(ORDLEN)) ITEM(ITEMNO) RESP(RESP)            *
               AUXILIARY
         CLC   RESP,=F'0'
         BNE   ABEND
*        SHOW IT
         MVI   OUTMSG,C' '
         MVC   OUTMSG+1(L'OUTMSG-1),OUTMSG
         MVC   OUTMSG(L'MSG1),MSG1
         MVC   OUTMSG+11(L'IDESC),IDESC
         L     R9,AMOUNT
         BAL   R6,EDIT
         MVC   OUTMSG+40(L'EDOUT),EDOUT
         MVI   OUTMSG+79,X'15'
         MVC   OUTMSG+80(L'MSG2),MSG2
         L     R9,CMTOTAL
         BAL   R6,EDIT
         MVC   OUTMSG+120(L'EDOUT),EDOUT
         EXEC  CICS SEND TEXT FROM(OUTMSG) LENGTH(=H'160') ERASE       *
               FREEKB
         B     RETRN
         EJECT
*---------------------------------------------------------------------*
*        SUBROUTINES                                                  *
*---------------------------------------------------------------------*
*  LOOKUP - FIND INITEM IN THE TABLE.  R4 = ENTRY, SWFOUND SET        *
LOOKUP   ST    R6,SAVE6
         NI    SWITCHES,255-SWFOUND-SWDISC
         LA    R4,ITEMTAB
         LA    R7,4                    (ITEMEND-ITEMTAB)/ILEN
LOOK1    CLC   IKEY,INITEM
         BE    LOOK2
         LA    R4,ILEN(,R4)
         BCT   R7,LOOK1
         B     LOOKX
LOOK2    OI    SWITCHES,SWFOUND
         CLI   ICLASS,C'D'
         BNE   LOOKX
         OI    SWITCHES,SWDISC
LOOKX    L     R6,SAVE6
         BR    R6
         SPACE
*  NUMERIC - INQTY MUST BE DIGITS.  R15 = 0 IF SO                     *
NUMERIC  SR    R15,R15
         LA    R1,INQTY
         LA    R7,L'INQTY
NUM1     CLI   0(R1),C'0'
         BL    NUMBAD
         CLI   0(R1),C'9'
         BH    NUMBAD
         LA    R1,1(,R1)
         BCT   R7,NUM1
         BR    R6
NUMBAD   LA    R15,4
         BR    R6
         SPACE
*  EDIT - R9 INTO EDOUT, LEADING ZEROS BLANKED, TWO DECIMALS          *
EDIT     CVD   R9,DWORD
         UNPK  EDWORK,DWORD
         OI    EDWORK+L'EDWORK-1,X'F0'
         MVC   EDOUT(7),EDWORK+L'EDWORK-9
         MVI   EDOUT+7,C'.'
         MVC   EDOUT+8(2),EDWORK+L'EDWORK-2
         LA    R1,EDOUT
         LA    R7,6
EDIT1    CLI   0(R1),C'0'
         BCR   7,R6
         MVI   0(R1),C' '
         LA    R1,1(,R1)
         BCT   R7,EDIT1
         BR    R6
         EJECT
*---------------------------------------------------------------------*
*        ERRORS AND EXITS                                             *
*---------------------------------------------------------------------*
TOOLONG  LA    R7,MSGLONG
         B     SENDERR
BADINPUT LA    R7,MSGBAD
         B     SENDERR
NOQUEUE  DS    0H
NOITEM   LA    R7,MSGITEM
SENDERR  MVC   OUTMSG(L'MSGBAD),0(R7)
         EXEC  CICS SEND TEXT FROM(OUTMSG) LENGTH(=AL2(L'MSGBAD)) ERASE
RETRN    EXEC  CICS RETURN TRANSID('ORD1') COMMAREA(COMM)              *
               LENGTH(=AL2(CMLEN))
GOODBYE  EXEC  CICS SEND TEXT FROM(BYE) LENGTH(=AL2(L'BYE)) ERASE
         EXEC  CICS RETURN
ABEND    EXEC  CICS ABEND ABCODE('ORDE') NODUMP
ABEXIT   DS    0H
         EXEC  CICS DELETEQ TS QUEUE(QNAME) NOHANDLE
         EXEC  CICS ABEND CANCEL
         LTORG
         EJECT
*---------------------------------------------------------------------*
*        CONSTANTS                                                    *
*---------------------------------------------------------------------*
BLANKS   DC    CL80' '
HELLO    DC    C'ENTER  ORD1 CUSTOMER ITEM QTY,  PF3 TO END'
BYE      DC    C'ORDER ENTRY ENDED'
MSG1     DC    C'ACCEPTED:  '
MSG2     DC    C'TOTAL SO FAR'
MSGLONG  DC    CL40'INPUT IS TOO LONG'
MSGBAD   DC    CL40'INPUT ISN''T AN ORDER LINE'
MSGITEM  DC    CL40'NO SUCH ITEM'
ITEMTAB  DS    0F
         DC    CL5'A1000',CL15'BOLT M8 X 40',PL4'125',C'D'
         DC    CL5'A1010',CL15'BOLT M10 X 60',PL4'210',C'D'
         DC    CL5'B2000',CL15'WASHER 8',PL4'15',C'N'
         DC    CL5'C3000',CL15'NUT M8 && M10',PL4'45',C'N'
ITEMEND  EQU   *
         COPY  DFHAID
         END   ORDENT
