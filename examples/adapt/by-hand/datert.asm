*
*  DATERT   DATE ROUTINE, LINKED TO BY ALL APPLICATIONS
*
*  COMMAREA  FUNCTION  'V' VALIDATE  YYMMDD
*                      'J' TO JULIAN YYDDD
*                      'G' JULIAN TO GREGORIAN
*                      'W' DAY OF WEEK
*                      'D' DAYS BETWEEN TWO DATES
*                      'T' TODAY, FROM EIBDATE
*            RETURN    '0' OK  '1' BAD DATE  '2' BAD FUNCTION
*
DATERT   START 0
         USING *,3
         B     AROUND
         DC    CL8'DATERT'
         DC    CL8'08/17/89'
PATCH    DC    20H'0'                  PATCH AREA
AROUND   L     R5,DFHEICAP
         USING DATECOMM,R5
         LTR   R5,R5
         BZ    NOCOMM
         CLC   EIBCALEN,=AL2(DATELEN)
         BL    NOCOMM
         MVI   DCRC,C'0'
*        FIND THE FUNCTION
         LA    R6,FUNCTAB
         LA    R7,6             (L'FUNCTAB+FUNCEND-FUNCTAB)/L'FUNCTAB-1
FUNCLOOP CLC   DCFUNC,0(R6)
         BE    GOTFUNC
         LA    R6,L'FUNCTAB(,R6)
         BCT   R7,FUNCLOOP
         MVI   DCRC,C'2'
         B     RETURN
GOTFUNC  DS    0H
         L     R7,4(,R6)
         BR    R7
         SPACE
* ---------- VALIDATE ------------------------------------------------
VALID    BAL   R10,CHECK
         B     RETURN
* ---------- JULIAN --------------------------------------------------
JULIAN   BAL   R10,CHECK
         BAL   R10,DAYOFYR
         CVD   R2,DW
         OI    DW+7,X'0F'
         UNPK  DCJUL+2(3),DW
         MVC   DCJUL(2),DCDATE
         B     RETURN
* ---------- GREGORIAN -----------------------------------------------
GREG     PACK  DW,DCJUL(2)
         CVB   R1,DW
         BAL   R10,LEAP
         PACK  DW,DCJUL+2(3)
         CVB   R2,DW
         LTR   R2,R2
         BNP   BAD
         LA    R4,MONTHS
         LA    R8,1
GREG1    SR    R9,R9
         IC    R9,3(R4)                L'MNAME(R4)
         C     R8,=F'2'
         BNE   GREG2
         AR    R9,R15
GREG2    CR    R2,R9
         BNH   GREG3
         SR    R2,R9
         LA    R4,MLEN(R4)
         LA    R8,1(R8)
         CH    R8,=H'12'
         BNH   GREG1
         B     BAD
GREG3    MVC   DCDATE(2),DCJUL
         CVD   R8,DW
         OI    DW+7,X'0F'
         UNPK  DCDATE+2(2),DW+6(2)
         CVD   R2,DW
         OI    DW+7,X'0F'
         UNPK  DCDATE+4(2),DW+6(2)
         MVC   DCMONTH,0(R4)
         B     RETURN
* ---------- DAY OF WEEK ---------------------------------------------
WEEKDAY  BAL   R10,CHECK
         LA    R9,DCDATE
         BAL   R10,ABSDAY
         SR    R0,R0
         D     R0,=F'7'
         LR    R1,R0                   MH  R0,=Y(L'DAYNAME)
         LA    R9,L'DAYNAME
         MR    R0,R9
         LA    R1,DAYNAME(R1)
         MVC   DCDAY,0(R1)
         B     RETURN
* ---------- DIFFERENCE ----------------------------------------------
DIFF     BAL   R10,CHECK
         LA    R9,DCDATE2
         BAL   R10,ABSDAY
         ST    R1,SAVE1
         LA    R9,DCDATE
         BAL   R10,ABSDAY
         S     R1,SAVE1
         ST    R1,DCDIFF
         B     RETURN
* ---------- TODAY ---------------------------------------------------
TODAY    MVC   DW(4),EIBDATE           00YYDDDC
         UNPK  DCJUL,DW+1(3)
         OI    DCJUL+4,C'0'
         B     GREG
         EJECT
* CHECK DCDATE:  DIGITS, MONTH 1-12, DAY
CHECK    TRT   DCDATE,NUMTAB
         BNZ   BAD
         PACK  DW,DCDATE(2)
         CVB   R1,DW
         BAL   R14,LEAP-CHECK+CHECK
         PACK  DW,DCDATE+2(2)
         CVB   R8,DW
         LTR   R8,R8
         BZ    BAD
         CH    R8,=H'12'
         BH    BAD
         LR    R4,R8
         BCTR  R4,0
         SLL   R4,2                    MH  R4,=AL2(MLEN)
         LA    R4,MONTHS(R4)
         SR    R9,R9
         IC    R9,3(,R4)               L'MNAME(,R4)
         CH    R8,=H'2'
         BNE   *+6
         AR    R9,R15
         PACK  DW,DCDATE+4(2)
         CVB   R2,DW
         LTR   R2,R2
         BZ    BAD
         CR    R2,R9
         BH    BAD
         MVC   DCMONTH,0(R4)
         BR    R10
* R1 = YEAR.  R15 = 1 IN A LEAP YEAR
LEAP     SR    R15,R15
         STC   R1,BYTE
         TM    BYTE,3
         BCR   7,R14
         LA    R15,1
         BR    R14
* R4 -> MONTH, R2 = DAY, R8 = MONTH.  R2 = DAY OF YEAR
DAYOFYR  LA    R9,MONTHS
DOY1     CR    R9,R4
         BE    DOY2
         SR    R0,R0
         IC    R0,3(R9)                L'MNAME(R9)
         AR    R2,R0
         LA    R9,MLEN(R9)
         B     DOY1
DOY2     CH    R8,=H'3'
         BCR   4,R10
         AR    R2,R15
         BR    R10
* R9 -> YYMMDD.  R1 = DAYS SINCE 31.12.1899
ABSDAY   PACK  DW,0(2,R9)
         CVB   R1,DW
         LR    R7,R1
         LA    R15,365                 MH  R1,=H'365'
         MR    R0,R15
         SRA   R7,2
         AR    R1,R7
         ST    R1,SAVE2
         MVC   DATEWK,0(R9)
         PACK  DW,DATEWK+2(2)
         CVB   R8,DW
         LA    R9,CUMDAYS-2
         LA    R9,0(R8,R9)
         AR    R9,R8
         AH    R1,0(R9)
         PACK  DW,DATEWK+4(2)
         CVB   R2,DW
         AR    R1,R2
         BR    R10
BAD      MVI   DCRC,C'1'
RETURN   EXEC  CICS RETURN
NOCOMM   EXEC  CICS ABEND ABCODE('DATE')
         LTORG
*
         DS    0F
FUNCTAB  DS    0XL8
         DC    CL4'V',A(VALID)
         DC    CL4'J',A(JULIAN)
         DC    CL4'G',A(GREG)
         DC    CL4'W',A(WEEKDAY)
         DC    CL4'D',A(DIFF)
         DC    CL4'T',A(TODAY)
FUNCEND  EQU   *
*
MONTHS   DS    0H
         DC    C'JAN',AL1(31)
MNAME    EQU   MONTHS
MLEN     EQU   *-MONTHS
         DC    C'FEB',AL1(28),C'MAR',AL1(31),C'APR',AL1(30)
         DC    C'MAY',AL1(31),C'JUN',AL1(30),C'JUL',AL1(31)
         DC    C'AUG',AL1(31),C'SEP',AL1(30),C'OCT',AL1(31)
         DC    C'NOV',AL1(30),C'DEC',AL1(31)
CUMDAYS  DC    H'0',H'31',H'59',H'90',H'120',H'151',H'181',H'212',H'243X
               ',H'273',H'304',H'334'
DAYNAME  DC    CL9'SUNDAY'
         DC    CL9'MONDAY'
         DC    CL9'TUESDAY'
         DC    CL9'WEDNESDAY'
         DC    CL9'THURSDAY'
         DC    CL9'FRIDAY'
         DC    CL9'SATURDAY'
NUMTAB   DC    240X'01',10X'00',6X'01'
*
DATECOMM DSECT
DCFUNC   DS    CL1
DCRC     DS    CL1
DCDATE   DS    CL6
DCDATE2  DS    CL6
DCJUL    DS    CL5
DCDAY    DS    CL9
DCMONTH  DS    CL3
         DS    0F
DCDIFF   DS    F
DATELEN  EQU   *-DATECOMM
DFHEISTG DSECT
DW       DS    D
SAVE1    DS    F
SAVE2    DS    F
DATEWK   DS    CL6
BYTE     DS    C
         DFHREGS
         END   DATERT
