REQUEST  DSECT
RQFN     DS    XL2                     THE COMMAND'S FUNCTION VALUE
RQOPT    DS    X
SET      EQU   X'40'
UPDATE   EQU   X'20'
GTEQ     EQU   X'10'
LENGTH   EQU   X'08'
RIDFLD   EQU   X'04'
RQHOW    DS    X
RQNAME   DS    CL8
RQSET    DS    CL8
RQRESP   DS    F
RQABC    DS    CL4
RQEIB    DS    A
RQAREA   DS    A                       INTO, FROM, OR WHAT SET GETS
RQKEY    DS    A                       RIDFLD
RQLENGTH DS    A
RQSTATE  DS    A
FILE     DSECT
FLNAME   DS    CL8
FLKEY    DS    H                       THE KEY'S LENGTH
FLOFFSET DS    H                       ITS PLACE IN A RECORD
FLMOST   DS    H                       A RECORD'S GREATEST LENGTH
FLLEAST  DS    H                       ITS LEAST, WITH ALL OF THE KEY
FLSIZE   EQU   16
STATE    DSECT                         WHAT A PROGRAM DOES WITH A FILE
STHELD   DS    X                       X'80': A RECORD IS HELD FOR
STWAY    DS    X                       OF A BROWSE; 0 IS NONE
PLACED   EQU   1
FORWARD  EQU   2
BACKWARD EQU   3
STKEYS   DS    0C                      OF THE UPDATE, THEN OF THE
DFHEISTG DSECT
RC       DS    F
QNAME    DS    CL8
ILEN     DS    H
RLEN     DS    H
ITEM     DS    H
RESLEN   DS    H
ENTRYLEN DS    F
COUNT    DS    F
SAVE14   DS    F
SAVEGIX  DS    F
MOVED    DS    3F
NEWINDEX DS    A
EXACT    DS    X
HELD     DS    X
OFINDEX  EQU   X'80'
OFRECORD EQU   X'40'
RES      DS    0CL208
RESFILE  DS    CL8
RESKEY   DS    CL200
KEY      DS    CL200
ASKED    DS    CL200
@@NAME@@ CSECT
         L     7,DFHEICAP
         USING REQUEST,7
         ST    11,RQEIB
         XC    RQRESP,RQRESP
         L     12,RQSTATE
         USING STATE,12
         L     5,=A(FILES)
         USING FILE,5
FIND     CLI   0(5),0
         BE    DSIDERR
         CLC   FLNAME,RQNAME
         BE    FOUND
         LA    5,FLSIZE(,5)
         B     FIND
FOUND    MVC   QNAME,RQNAME
         MVC   RESFILE,RQNAME
         LH    6,FLKEY
         LA    1,8(,6)
         STH   1,RESLEN
         LA    1,2(,6)
         ST    1,ENTRYLEN
         BCTR  6,0                     LESS ONE, FOR EX
         SR    8,8                     NO INDEX YET
         L     9,RQKEY
         TM    RQOPT,RIDFLD
         BZ    CHOOSE
         EX    6,KEYASKED
         MVC   KEY,ASKED
CHOOSE   CLI   RQFN+1,X'02'
         BE    READ
         CLI   RQFN+1,X'04'
         BE    WRITE
         CLI   RQFN+1,X'06'
         BE    REWRITE
         CLI   RQFN+1,X'08'
         BE    DELETE
         CLI   RQFN+1,X'0A'
         BE    UNLOCK
         CLI   RQFN+1,X'0C'
         BE    STARTBR
         CLI   RQFN+1,X'14'
         BE    RESETBR
         CLI   STWAY,0
         BE    INVREQ
         CLI   RQFN+1,X'12'
         BE    ENDBR
         LA    2,STKEYS+1(6)           THE BROWSE'S KEY
         EX    6,COMPBROW
         BE    BROWSE
         EX    6,SETBROW               RIDFLD WAS CHANGED: FROM THERE
         MVI   STWAY,PLACED
BROWSE   EX    6,KEYBROW
         BAL   14,GETINDEX
         BAL   14,SEARCH
         CLI   RQFN+1,X'0E'
         BE    READNEXT
         B     READPREV
KEYASKED MVC   ASKED(0),0(9)
COMPBROW CLC   0(0,2),0(9)
SETBROW  MVC   0(0,2),0(9)
KEYBROW  MVC   KEY(0),0(2)
*---- READ
READ     TM    RQOPT,UPDATE
         BO    READUPD
         BAL   14,CHOSEN
         B     GETIT
READUPD  TM    STHELD,X'80'
         BO    INVREQ
AGAIN    BAL   14,CHOSEN
         EX    6,LOCKKEY
         EXEC  CICS ENQ RESOURCE(RES) LENGTH(RESLEN)
         EX    6,KEYLOCK
         BAL   14,GETINDEX
         BAL   14,SEARCH
         CLI   EXACT,1
         BE    LOCKED
         EXEC  CICS DEQ RESOURCE(RES) LENGTH(RESLEN)
         MVC   KEY,ASKED               IT IS GONE: ONCE MORE
         B     AGAIN
LOCKED   MVI   STHELD,X'80'
         EX    6,KEEPLOCK
GETIT    BAL   14,FETCH
         B     DONE
LOCKKEY  MVC   RESKEY(0),0(10)
KEYLOCK  MVC   KEY(0),RESKEY
KEEPLOCK MVC   STKEYS(0),RESKEY
*        THE ENTRY THAT READ MEANS
CHOSEN   ST    14,SAVE14
         BAL   14,GETINDEX
         BAL   14,SEARCH
         L     14,SAVE14
         CLI   EXACT,1
         BCR   8,14
         TM    RQOPT,GTEQ
         BZ    NOTFND
         LTR   4,4
         BZ    NOTFND
         BR    14
*---- WRITE
WRITE    BAL   14,LOCKIX
         BAL   14,GETINDEX
         BAL   14,SEARCH
         CLI   EXACT,1
         BE    DUPREC
         BAL   14,LENGTHS
         AH    2,FLOFFSET
         EX    6,COMPKEY
         BNE   INVREQ
         L     2,RQAREA
         LH    1,ILEN
         A     1,ENTRYLEN
         C     1,=F'32767'
         BH    NOSPACE
         EXEC  CICS WRITEQ TS QUEUE(QNAME) FROM(0(,2)) LENGTH(RLEN)    X
               ITEM(ITEM) NOSUSPEND RESP(RC)
         CLC   RC,=F'0'
         BNE   NOSPACE
         LH    1,ILEN
         A     1,ENTRYLEN
         STH   1,ILEN
         EXEC  CICS GETMAIN SET(2) LENGTH(ILEN)
         ST    2,NEWINDEX
         LR    1,2
         LR    2,8
         LR    0,10
         SR    0,8                     WHAT STANDS BEFORE
         BAL   14,MOVE
         L     1,NEWINDEX
         AR    1,10
         SR    1,8
         EX    6,NEWKEY
         LA    1,1(6,1)
         MVC   0(2,1),ITEM
         LA    1,2(,1)
         LR    2,10
         LH    0,ILEN
         S     0,ENTRYLEN
         AR    0,8
         SR    0,10                    WHAT STANDS AFTER
         BAL   14,MOVE
         L     2,NEWINDEX
         L     1,COUNT
         LA    1,1(,1)
         STH   1,ITEM
         MVC   0(2,2),ITEM
         EXEC  CICS WRITEQ TS QUEUE(QNAME) FROM(0(,2)) LENGTH(ILEN)    X
               ITEM(=H'1') REWRITE
         EXEC  CICS FREEMAIN DATA(0(,2))
         B     DONE
COMPKEY  CLC   KEY(0),0(2)
NEWKEY   MVC   0(0,1),KEY
*        LENGTH OF WHAT IS WRITTEN, AND ITS PLACE IN REGISTER 2
LENGTHS  MVC   RLEN,FLMOST
         TM    RQOPT,LENGTH
         BZ    HAVELEN
         L     1,RQLENGTH
         MVC   RLEN,0(1)
HAVELEN  LH    1,RLEN
         CH    1,FLMOST
         BH    LENGERR
         CH    1,FLLEAST
         BL    LENGERR
         L     2,RQAREA
         BR    14
*---- REWRITE, DELETE, UNLOCK
REWRITE  TM    STHELD,X'80'
         BZ    INVREQ
         EX    6,KEYHELD
         BAL   14,LENGTHS
         AH    2,FLOFFSET
         EX    6,COMPKEY
         BNE   INVREQ
         BAL   14,GETINDEX
         BAL   14,SEARCH
         CLI   EXACT,1
         BNE   NOTFND
         LA    1,1(6,10)
         MVC   ITEM,0(1)
         L     2,RQAREA
         EXEC  CICS WRITEQ TS QUEUE(QNAME) FROM(0(,2)) LENGTH(RLEN)    X
               ITEM(ITEM) REWRITE NOSUSPEND RESP(RC)
         CLC   RC,=F'0'
         BNE   NOSPACE
         B     UNLOCK
KEYHELD  MVC   KEY(0),STKEYS
DELETE   TM    RQOPT,RIDFLD
         BZ    DELHELD
         EX    6,LOCKASK
         EXEC  CICS ENQ RESOURCE(RES) LENGTH(RESLEN)
         OI    HELD,OFRECORD
         B     DELETEIT
DELHELD  TM    STHELD,X'80'
         BZ    INVREQ
         EX    6,KEYHELD
DELETEIT BAL   14,LOCKIX
         BAL   14,GETINDEX
         BAL   14,SEARCH
         CLI   EXACT,1
         BNE   NOTFND
         LH    0,ILEN
         AR    0,8
         SR    0,10
         S     0,ENTRYLEN              WHAT STANDS AFTER IT
         LR    1,10
         LR    2,10
         A     2,ENTRYLEN
         BAL   14,MOVE
         LH    1,ILEN
         S     1,ENTRYLEN
         STH   1,ILEN
         L     1,COUNT
         BCTR  1,0
         STH   1,ITEM
         MVC   0(2,8),ITEM
         EXEC  CICS WRITEQ TS QUEUE(QNAME) FROM(0(,8)) LENGTH(ILEN)    X
               ITEM(=H'1') REWRITE
         TM    RQOPT,RIDFLD
         BO    DONE
UNLOCK   TM    STHELD,X'80'
         BZ    DONE
         MVI   STHELD,0
         EX    6,LOCKHELD
         EXEC  CICS DEQ RESOURCE(RES) LENGTH(RESLEN)
         B     DONE
LOCKASK  MVC   RESKEY(0),ASKED
LOCKHELD MVC   RESKEY(0),STKEYS
*---- BROWSES
STARTBR  CLI   STWAY,0
         BNE   INVREQ
         B     POSITION
RESETBR  CLI   STWAY,0
         BE    INVREQ
POSITION LR    2,6                     ALL OF IT X'FF': THE END
         LA    1,KEY
ALLHIGH  CLI   0(1),X'FF'
         BNE   NOTHIGH
         LA    1,1(,1)
         BCTR  2,0
         LTR   2,2
         BNM   ALLHIGH
         B     HAVEPOS
NOTHIGH  BAL   14,CHOSEN
HAVEPOS  LA    2,STKEYS+1(6)
         EX    6,SETBROW
         MVI   STWAY,PLACED
         B     DONE
READNEXT CLI   STWAY,FORWARD           AFTER A READNEXT: THE ONE AFTER
         BNE   HAVENEXT
         CLI   EXACT,1
         BNE   HAVENEXT
         A     10,ENTRYLEN
         BCTR  4,0
HAVENEXT LTR   4,4
         BZ    ENDFILE
         MVI   STWAY,FORWARD
BROWSED  EX    6,GIVEKEY
         LA    2,STKEYS+1(6)
         EX    6,SETBROW
         BAL   14,FETCH
         B     DONE
GIVEKEY  MVC   0(0,9),0(10)
READPREV CLI   STWAY,BACKWARD          AFTER A READPREV: THE ONE BEFORE
         BE    STEPBACK
         CLI   EXACT,1
         BE    HAVEPREV
         CLI   STWAY,PLACED
         BNE   NOTFND
         LR    2,6
         LA    1,KEY
PREVHIGH CLI   0(1),X'FF'
         BNE   NOTFND
         LA    1,1(,1)
         BCTR  2,0
         LTR   2,2
         BNM   PREVHIGH
STEPBACK S     10,ENTRYLEN
HAVEPREV LA    1,2(,8)
         CR    10,1
         BL    ENDFILE
         MVI   STWAY,BACKWARD
         B     BROWSED
ENDBR    MVI   STWAY,0
         B     DONE
*---- THE INDEX: A COUNT, THEN EACH KEY WITH ITS ITEM, IN KEY ORDER
GETINDEX ST    14,SAVEGIX
GETAGAIN LTR   8,8
         BZ    GETNEW
         EXEC  CICS FREEMAIN DATA(0(,8))
         SR    8,8
GETNEW   EXEC  CICS READQ TS QUEUE(QNAME) SET(8) LENGTH(ILEN)          X
               ITEM(=H'1') RESP(RC)
         CLC   RC,=F'0'
         BE    HAVEIX
         SR    8,8
         EXEC  CICS ENQ RESOURCE(RESFILE) LENGTH(=H'8')
         EXEC  CICS READQ TS QUEUE(QNAME) SET(8) LENGTH(ILEN)          X
               ITEM(=H'1') RESP(RC)
         CLC   RC,=F'0'
         BE    HASIX
         SR    8,8
         EXEC  CICS WRITEQ TS QUEUE(QNAME) FROM(=H'0') LENGTH(=H'2')
HASIX    EXEC  CICS DEQ RESOURCE(RESFILE) LENGTH(=H'8')
         B     GETAGAIN
HAVEIX   LH    1,0(,8)
         ST    1,COUNT
         L     14,SAVEGIX
         BR    14
LOCKIX   ST    14,SAVE14
         EXEC  CICS ENQ RESOURCE(RESFILE) LENGTH(=H'8')
         OI    HELD,OFINDEX
         L     14,SAVE14
         BR    14
*        R10: THE FIRST ENTRY NOT BELOW KEY; R4: HOW MANY FROM IT ON
SEARCH   MVI   EXACT,0
         LA    10,2(,8)
         L     4,COUNT
SEEK     LTR   4,4
         BCR   8,14
         EX    6,COMPENT
         BL    SEEKNEXT
         BCR   7,14
         MVI   EXACT,1
         BR    14
SEEKNEXT A     10,ENTRYLEN
         BCTR  4,0
         B     SEEK
COMPENT  CLC   0(0,10),KEY
*        RECORD OF ENTRY R10 TO INTO OR SET
FETCH    ST    14,SAVE14
         LA    1,1(6,10)
         MVC   ITEM,0(1)
         EXEC  CICS READQ TS QUEUE(QNAME) SET(2) LENGTH(RLEN)          X
               ITEM(ITEM)
         LH    0,RLEN
         TM    RQOPT,SET
         BO    GIVESET
         TM    RQOPT,LENGTH
         BZ    GIVEIT
         L     1,RQLENGTH
         CH    0,0(,1)
         BNH   GIVELEN
         LH    0,0(,1)
         MVC   RQRESP,=F'22'
         MVC   RQABC,=C'AEIV'
GIVELEN  MVC   0(2,1),RLEN
GIVEIT   L     1,RQAREA
         BAL   14,MOVE
         EXEC  CICS FREEMAIN DATA(0(,2))
         L     14,SAVE14
         BR    14
GIVESET  ST    2,RQAREA
         TM    RQOPT,LENGTH
         BZ    GIVEN
         L     1,RQLENGTH
         MVC   0(2,1),RLEN
GIVEN    L     14,SAVE14
         BR    14
*        R0 BYTES FROM R2 TO R1
MOVE     STM   2,4,MOVED
         LR    4,0
MOVEON   CH    4,=H'256'
         BNH   MOVEREST
         MVC   0(256,1),0(2)
         LA    1,256(,1)
         LA    2,256(,2)
         SH    4,=H'256'
         B     MOVEON
MOVEREST LTR   4,4
         BNP   MOVEDONE
         BCTR  4,0
         EX    4,MOVEIT
         LA    1,1(4,1)
MOVEDONE LM    2,4,MOVED
         BR    14
MOVEIT   MVC   0(0,1),0(2)
*---- CONDITIONS, AND THE END
DSIDERR  MVC   RQRESP,=F'12'
         MVC   RQABC,=C'AEIL'
         EXEC  CICS RETURN
NOTFND   MVC   RQRESP,=F'13'
         MVC   RQABC,=C'AEIM'
         B     DONE
DUPREC   MVC   RQRESP,=F'14'
         MVC   RQABC,=C'AEIN'
         B     DONE
INVREQ   MVC   RQRESP,=F'16'
         MVC   RQABC,=C'AEIP'
         B     DONE
NOSPACE  MVC   RQRESP,=F'18'
         MVC   RQABC,=C'AEIR'
         B     DONE
ENDFILE  MVC   RQRESP,=F'20'
         MVC   RQABC,=C'AEIT'
         B     DONE
LENGERR  MVC   RQRESP,=F'22'
         MVC   RQABC,=C'AEIV'
DONE     TM    HELD,OFINDEX
         BZ    NOINDEX
         EXEC  CICS DEQ RESOURCE(RESFILE) LENGTH(=H'8')
NOINDEX  TM    HELD,OFRECORD
         BZ    NORECORD
         EXEC  CICS DEQ RESOURCE(RES) LENGTH(RESLEN)
NORECORD LTR   8,8
         BZ    LEAVE
         EXEC  CICS FREEMAIN DATA(0(,8))
LEAVE    EXEC  CICS RETURN
         LTORG
FILES    DS    0F
@@FILES@@
         DC    X'00'
         END
