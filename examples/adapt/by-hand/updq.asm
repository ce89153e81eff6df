*ASM XOPTS(NOEPILOG)
         TITLE 'UPDQ - APPLY QUEUED UPDATES TO THE MASTER QUEUE'
* UPDQ RUNS WHEN ITS QUEUE OF UPDATES IS FULL ENOUGH.  EACH UPDATE IS
* APPLIED TO ITS MASTER RECORD (QUEUE 'MASTER', ITEM = KEY).
* AN UPDATE THAT CAN'T BE APPLIED GOES TO QUEUE 'REJECTS' WITH A CODE.
* AT THE END A REPORT OF COUNTS AND AMOUNTS IS SHOWN.
         SPACE 3
*        COPY  UPDREC
* THE RECORD OF AN UPDATE IS WRITTEN OUT IN THE PROGRAM THAT COPIES THIS
UPDREC   DSECT
UPDKEY   DS    PL3
UPDCODE  DS    C
UPDCADD  EQU   C'A'                    ADD TO BALANCE
UPDCSUB  EQU   C'S'                    SUBTRACT
UPDCNEW  EQU   C'N'                    NEW NAME
UPDDATA  DS    CL20
UPDAMT   EQU   UPDDATA
UPDNAME  EQU   UPDDATA
UPDRLEN  EQU   *-UPDREC
MASTREC  DSECT
MASTKEY  DS    PL3
MASTNAME DS    CL20
MASTBAL  DS    PL6
MASTCNT  DS    PL2
MASTFLG1 DS    BL1
MASTCLSD EQU   B'10000000' .           CLOSED
MASTHOLD EQU   B'01000000' .           ON HOLD
MASTRLEN EQU   *-MASTREC
         EJECT
DFHEISTG DSECT
WORKD    DS    D
ADDRS    DS    3A
COUNTS   DS    0F
CNTREAD  DS    F
CNTOK    DS    F
CNTREJ   DS    F
NCOUNTS  EQU   3                       (*-COUNTS)/4
SUMADD   DS    F
SUMSUB   DS    F
UPDLEN   DS    H
MASTLEN  DS    H
MASTITEM DS    H
NITEMS   DS    H
RESP     DS    F
REJECT   DS    0CL30
REJCODE  DS    CL2
REJREC   DS    CL24                    CL(L'UPDKEY+L'UPDCODE+L'UPDDATA)
         DS    CL4
UPDBUF   DS    XL64
MASTBUF  DS    XL64
REPORT   DS    CL256
         DFHREGS
UPDQ     CSECT
*        ENTRY:  R3 BASE, R11 EIB, R13 WORKING STORAGE
         USING UPDREC,R4
         USING MASTREC,R5
         LA    R4,UPDBUF
         LA    R5,MASTBUF
         XC    COUNTS(SUMSUB+4-COUNTS),COUNTS
         EXEC  CICS ENQ RESOURCE(MASTNAM) LENGTH(=H'8')                X
               NOSUSPEND NOHANDLE RESP(RESP)
         L     R15,RESP
         LTR   R15,R15
         BNZ   BUSY
*        NO UPDATES
*        END OF UPDATES
         EXEC  CICS HANDLE CONDITION                                   X
               QIDERR(REPT)                                            X
               ITEMERR(REPT)
         EJECT
LOOP     DS    0H
         MVC   UPDLEN,=AL2(L'UPDBUF)
         EXEC  CICS READQ TS QUEUE('UPDATES') INTO(UPDBUF)             X
               LENGTH(UPDLEN) NEXT
         L     R1,CNTREAD
         A     R1,=F'1'
         ST    R1,CNTREAD
         CLC   UPDLEN,=AL2(UPDRLEN)
         BNE   REJ01
         EXEC  CICS PUSH HANDLE
         XC    WORKD,WORKD
         MVC   WORKD+5(3),UPDKEY
         CVB   R6,WORKD
         STH   R6,MASTITEM
         MVC   MASTLEN,=AL2(L'MASTBUF)
         EXEC  CICS READQ TS QUEUE('MASTER') INTO(MASTBUF)             X
               LENGTH(MASTLEN) ITEM(MASTITEM) RESP(RESP)
         EXEC  CICS POP HANDLE
         CLC   RESP,=A(0)
         BNE   REJ02
         CLC   MASTKEY,UPDKEY          CP
         BNE   REJ03
         TM    MASTFLG1,MASTCLSD+MASTHOLD
         BNZ   REJ04
         LA    R7,CODETAB
FINDCODE CLC   UPDCODE,0(R7)
         BE    *+16
         LA    R7,8(R7)
         CLI   0(R7),0
         BNE   FINDCODE
         L     R7,4(R7)
         LA    R7,0(R7)
         BALR  R14,R7
         EXEC  CICS WRITEQ TS QUEUE('MASTER') FROM(MASTBUF)            X
               LENGTH(MASTLEN) ITEM(MASTITEM) REWRITE
         XC    WORKD,WORKD             AP  MASTCNT,=P'1'
         MVC   WORKD+6(2),MASTCNT
         CVB   R1,WORKD
         LA    R1,1(,R1)
         CVD   R1,WORKD
         MVC   MASTCNT,WORKD+6
         L     R1,CNTOK
         LA    R1,1(,R1)
         ST    R1,CNTOK
         B     LOOP
         SPACE
ADDBAL   L     R1,=A(SUMADD-DFHEISTG)
         XC    WORKD,WORKD             AP  MASTBAL,UPDAMT(6)
         MVC   WORKD+2(6),MASTBAL
         CVB   R1,WORKD
         MVC   WORKD+2(6),UPDAMT
         CVB   R0,WORKD
         AR    R1,R0
         CVD   R1,WORKD
         MVC   MASTBAL,WORKD+2
         A     R0,SUMADD
         ST    R0,SUMADD
         BR    R14
SUBBAL   XC    WORKD,WORKD             SP  MASTBAL,UPDAMT(6)
         MVC   WORKD+2(6),MASTBAL
         CVB   R1,WORKD
         MVC   WORKD+2(6),UPDAMT
         CVB   R0,WORKD
         SR    R1,R0
         CVD   R1,WORKD
         MVC   MASTBAL,WORKD+2
         BR    R14
NEWNAME  MVC   MASTNAME,UPDNAME
         BR    R14
NOCODE   LA    R2,=C'05'
         B     REJ
REJ01    LA    R2,=C'01'
         B     REJ
REJ02    LA    R2,=C'02'
         B     REJ
REJ03    LA    R2,=C'03'
         B     REJ
REJ04    LA    R2,=C'04'
REJ      MVC   REJCODE,0(R2)
         MVC   REJREC,UPDBUF
           EXEC  CICS WRITEQ TS QUEUE('REJECTS') FROM(REJECT) LENGTH(=HX
               '30')
         L     R1,CNTREJ
         LA    R1,1(R1)
         ST    R1,CNTREJ
         B     LOOP
         EJECT
REPT     MVC   REPORT,REPORT0
         LA    R6,COUNTS
         LA    R7,NCOUNTS
         LA    R8,REPORT+10
REPT1    L     R1,0(,R6)
         CVD   R1,WORKD
         UNPK  0(7,R8),WORKD+4(4)      ED
         OI    6(R8),X'F0'
         LA    R6,4(,R6)
         LA    R8,40(,R8)
         BCT   R7,REPT1
         EXEC  CICS SEND TEXT FROM(REPORT) LENGTH(=AL2(L'REPORT)) ERASE
         EXEC  CICS DELETEQ TS QUEUE('UPDATES') NOHANDLE
BUSY     EXEC  CICS DEQ RESOURCE(MASTNAM) LENGTH(=H'8') NOHANDLE
         EXEC  CICS RETURN
MASTNAM  DC    CL8'MASTER'
CODETAB  DS    0F
         DC    AL1(UPDCADD),XL3'00',A(ADDBAL)
         DC    AL1(UPDCSUB),XL3'00',A(SUBBAL)
         DC    AL1(UPDCNEW),XL3'00',A(NEWNAME)
         DC    XL4'00',A(NOCODE)
REPORT0  DC    CL40'READ',CL40'APPLIED',CL176'REJECTED'
         LTORG ,
         END
