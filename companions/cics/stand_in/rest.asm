REQUEST  DSECT
RQFN     DS    XL2                     THE COMMAND'S FUNCTION VALUE
RQOPT    DS    X                       OF FORMATTIME WHICH FORM
SET      EQU   X'40'
DATA     EQU   X'80'
LENGTH   EQU   X'08'
RQHOW    DS    X
RQNAME   DS    CL8
RQSET    DS    CL8
RQRESP   DS    F
RQABC    DS    CL4
RQEIB    DS    A
RQAREA   DS    A                       INTO, FROM, ABSTIME, OR SET'S
RQOUT    DS    A
RQLENGTH DS    A
         DS    2A
         DS    H
RQMARK   DS    C                       BETWEEN NUMBERS; X'00': NOTHING
DFHEISTG DSECT
RC       DS    F
RLEN     DS    H
QNAME    DS    CL8
DOUBLE   DS    D
SECONDS  DS    F
DAYS     DS    F
YEAR     DS    F
DAY      DS    F                       OF THE YEAR, FROM 0
MONTH    DS    F
OFMONTH  DS    F                       ITS DAY, FROM 1
ZONED    DS    CL15
THREE    DS    CL3
PARTS    DS    3F
MOVED    DS    3F
@@NAME@@ CSECT
         L     7,DFHEICAP
         USING REQUEST,7
         ST    11,RQEIB
         XC    RQRESP,RQRESP
         MVC   QNAME,RQNAME
         CLC   RQFN,=X'0802'
         BE    PUT
         CLC   RQFN,=X'0804'
         BE    GET
         CLC   RQFN,=X'0806'
         BE    DELETE
         CLC   RQFN,=X'1008'
         BE    START
         CLC   RQFN,=X'100A'
         BE    RETRIEVE
         CLC   RQFN,=X'4A02'
         BE    ASKTIME
         B     FORMAT
*---- TRANSIENT DATA, START, RETRIEVE: QUEUES
PUT      L     1,RQLENGTH
         MVC   RLEN,0(1)
         L     2,RQAREA
         CLC   RLEN,=H'1'
         BL    LENGERR
         EXEC  CICS WRITEQ TS QUEUE(QNAME) FROM(0(,2)) LENGTH(RLEN)
         B     LEAVE
DELETE   EXEC  CICS DELETEQ TS QUEUE(QNAME) NOHANDLE
         B     LEAVE
START    TM    RQOPT,DATA
         BZ    STARTED
         L     1,RQLENGTH
         MVC   RLEN,0(1)
         L     2,RQAREA
         CLC   RLEN,=H'1'
         BL    LENGERR
         EXEC  CICS WRITEQ TS QUEUE(QNAME) FROM(0(,2)) LENGTH(RLEN)
STARTED  EXEC  CICS WRITEQ TS QUEUE('$START') FROM(RQNAME)             X
               LENGTH(=H'16')
         B     LEAVE
RETRIEVE MVC   QNAME+4(4),EIBTRNID
GET      EXEC  CICS READQ TS QUEUE(QNAME) SET(2) LENGTH(RLEN) NEXT     X
               RESP(RC)
         CLC   RC,=F'0'
         BNE   EMPTY
         LH    0,RLEN
         TM    RQOPT,SET
         BO    GIVESET
         TM    RQOPT,LENGTH
         BZ    GIVE
         L     1,RQLENGTH
         CH    0,0(,1)
         BNH   GIVELEN
         LH    0,0(,1)
         MVC   RQRESP,=F'22'
         MVC   RQABC,=C'AEIV'
GIVELEN  MVC   0(2,1),RLEN
GIVE     L     1,RQAREA
         BAL   14,MOVE
         EXEC  CICS FREEMAIN DATA(0(,2))
         B     LEAVE
GIVESET  ST    2,RQAREA
         TM    RQOPT,LENGTH
         BZ    LEAVE
         L     1,RQLENGTH
         MVC   0(2,1),RLEN
         B     LEAVE
EMPTY    CLI   RQFN,X'08'
         BE    QZERO
         MVC   RQRESP,=F'29'
         MVC   RQABC,=C'AEI2'
         B     LEAVE
QZERO    MVC   RQRESP,=F'23'
         MVC   RQABC,=C'AEIW'
         B     LEAVE
LENGERR  MVC   RQRESP,=F'22'
         MVC   RQABC,=C'AEIV'
LEAVE    EXEC  CICS RETURN
*        R0 BYTES FROM R2 TO R1
MOVE     STM   2,4,MOVED
         LR    4,0
MOVEON   CH    4,=H'256'
         BNH   MOVEREST
         MVC   0(256,1),0(2)
         LA    1,256(,1)
         LA    2,256(,2)
         SH    4,=H'256'
         B     MOVEON
MOVEREST LTR   4,4
         BNP   MOVEDONE
         BCTR  4,0
         EX    4,MOVEIT
MOVEDONE LM    2,4,MOVED
         BR    14
MOVEIT   MVC   0(0,1),0(2)
*---- ASKTIME: MILLISECONDS SINCE 1900, OF EIBDATE AND EIBTIME
ASKTIME  XC    DOUBLE,DOUBLE
         MVC   DOUBLE+4(4),EIBDATE
         CVB   5,DOUBLE
         SR    4,4
         D     4,=F'1000'              R5: YEAR, R4: DAY
         BCTR  4,0
         LR    1,5
         M     0,=F'365'
         AR    4,1
         LTR   5,5
         BZ    NOLEAP
         BCTR  5,0
         SRL   5,2
         AR    4,5                     DAYS OF LEAP YEARS BEFORE
NOLEAP   ST    4,DAYS
         MVC   DOUBLE+4(4),EIBTIME
         CVB   5,DOUBLE
         SR    4,4
         D     4,=F'10000'             R5: HOURS
         LR    1,5
         M     0,=F'3600'
         ST    1,SECONDS
         LR    5,4
         SR    4,4
         D     4,=F'100'               R5: MINUTES, R4: SECONDS
         LR    1,5
         M     0,=F'60'
         AR    4,1
         A     4,SECONDS
         LR    5,4
         SR    4,4
         D     4,=F'100'
         L     1,DAYS
         M     0,=F'864'
         AR    5,1                     HUNDREDS OF SECONDS
         CVD   5,DOUBLE
         UNPK  ZONED(10),DOUBLE
         OI    ZONED+9,X'F0'
         LR    1,4
         M     0,=F'1000'
         CVD   1,DOUBLE
         UNPK  ZONED+10(5),DOUBLE
         OI    ZONED+14,X'F0'
         L     2,RQAREA
         PACK  0(8,2),ZONED
         OI    7(2),X'0F'
         NI    7(2),X'FC'
         B     LEAVE
*---- FORMATTIME
FORMAT   L     2,RQAREA
         UNPK  ZONED,0(8,2)
         OI    ZONED+14,X'F0'
         PACK  DOUBLE,ZONED(10)
         CVB   5,DOUBLE
         SR    4,4
         D     4,=F'864'
         ST    5,DAYS
         LR    1,4
         M     0,=F'100'
         LR    6,1
         PACK  DOUBLE,ZONED+10(5)
         CVB   5,DOUBLE
         SR    4,4
         D     4,=F'1000'
         AR    6,5
         ST    6,SECONDS
         L     9,RQOUT
         CLI   RQOPT,1
         BE    TIME
         CLI   RQOPT,11
         BE    DAYCOUNT
         CLI   RQOPT,7
         BE    WEEKDAY
         SR    4,4                     THE YEAR, AND ITS DAY
         L     5,DAYS
YEARON   LA    6,365
         BAL   14,ISLEAP
         BNZ   SHORT
         LA    6,366
SHORT    CR    5,6
         BL    HAVEYEAR
         SR    5,6
         LA    4,1(,4)
         B     YEARON
ISLEAP   LTR   1,4
         BNZ   NOT1900
         LA    0,1
         LTR   0,0
         BR    14
NOT1900  SLL   1,30                    THE LAST TWO BITS
         LTR   1,1
         BR    14
HAVEYEAR ST    4,YEAR
         ST    5,DAY
         LA    6,MONTHS
         SR    2,2
MONTHON  LA    2,1(,2)
         LH    1,0(,6)
         ST    1,PARTS
         CH    2,=H'2'
         BNE   NOTFEB
         BAL   14,ISLEAP
         BNZ   NOTFEB
         L     1,PARTS
         LA    1,1(,1)
         ST    1,PARTS
NOTFEB   C     5,PARTS
         BL    HAVEMON
         S     5,PARTS
         LA    6,2(,6)
         B     MONTHON
HAVEMON  ST    2,MONTH
         LA    5,1(,5)
         ST    5,OFMONTH
         CLI   RQOPT,8
         BE    GIVEDAY
         CLI   RQOPT,9
         BE    GIVEMON
         CLI   RQOPT,10
         BE    GIVEYEAR
         L     5,YEAR
         SR    4,4
         D     4,=F'100'
         ST    4,YEAR                  ITS TWO DIGITS
         MVC   PARTS(4),YEAR
         CLI   RQOPT,2
         BE    YYDDD
         MVC   PARTS+4(4),MONTH
         MVC   PARTS+8(4),OFMONTH
         CLI   RQOPT,3
         BE    THREEOF
         MVC   PARTS+8(4),MONTH
         MVC   PARTS+4(4),OFMONTH
         CLI   RQOPT,6
         BE    THREEOF
         MVC   PARTS+8(4),YEAR
         MVC   PARTS(4),MONTH
         MVC   PARTS+4(4),OFMONTH
         CLI   RQOPT,4
         BE    THREEOF
         MVC   PARTS(4),OFMONTH
         MVC   PARTS+4(4),MONTH
THREEOF  LA    6,PARTS
         LA    8,3
PARTON   L     1,0(,6)
         BAL   14,TWODIGIT
         MVC   0(2,9),THREE+1
         LA    9,2(,9)
         BCT   8,MARKIT
         B     LEAVE
MARKIT   LA    6,4(,6)
         CLI   RQMARK,0
         BE    PARTON
         MVC   0(1,9),RQMARK
         LA    9,1(,9)
         B     PARTON
TWODIGIT CVD   1,DOUBLE
         UNPK  THREE,DOUBLE
         OI    THREE+2,X'F0'
         BR    14
YYDDD    L     1,YEAR
         BAL   14,TWODIGIT
         MVC   0(2,9),THREE+1
         LA    9,2(,9)
         CLI   RQMARK,0
         BE    DDD
         MVC   0(1,9),RQMARK
         LA    9,1(,9)
DDD      L     1,DAY
         LA    1,1(,1)
         BAL   14,TWODIGIT
         MVC   0(3,9),THREE
         B     LEAVE
TIME     L     5,SECONDS
         SR    4,4
         D     4,=F'60'
         ST    4,PARTS+8
         SR    4,4
         D     4,=F'60'
         ST    4,PARTS+4
         ST    5,PARTS
         B     THREEOF
DAYCOUNT MVC   0(4,9),DAYS
         B     LEAVE
WEEKDAY  L     5,DAYS                  1900 BEGAN ON A MONDAY
         LA    5,1(,5)
         SR    4,4
         D     4,=F'7'
         ST    4,PARTS
         MVC   0(4,9),PARTS
         B     LEAVE
GIVEDAY  MVC   0(4,9),OFMONTH
         B     LEAVE
GIVEMON  MVC   0(4,9),MONTH
         B     LEAVE
GIVEYEAR L     1,YEAR
         AH    1,=H'1900'
         ST    1,PARTS
         MVC   0(4,9),PARTS
         B     LEAVE
         LTORG
MONTHS   DC    H'31',H'28',H'31',H'30',H'31',H'30',H'31',H'31',H'30'
         DC    H'31',H'30',H'31'
         END
