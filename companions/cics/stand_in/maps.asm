REQUEST  DSECT
RQFN     DS    XL2                     THE COMMAND'S FUNCTION VALUE
RQOPT    DS    X
ERASE    EQU   X'80'
MAPONLY  EQU   X'40'
DATAONLY EQU   X'20'
SYMBOLIC EQU   X'10'                   CURSOR BY A LENGTH OF -1
CURSOR   EQU   X'08'                   CURSOR(PLACE)
ERASEAUP EQU   X'04'
FRSET    EQU   X'01'
SET      EQU   X'80'                   OF RECEIVE MAP
RQHOW    DS    X
RQNAME   DS    CL8
RQSET    DS    CL8
RQRESP   DS    F
RQABC    DS    CL4
RQEIB    DS    A
RQAREA   DS    5A
RQCURSOR DS    H
MAPHEAD  DSECT
MHNAME   DS    CL8
MHNEXT   DS    A
MHCOUNT  DS    H
MHCURSOR DS    H
MHEXTRA  DS    H                       EXTENDED ATTRIBUTES OF A FIELD
MHBYTES  DS    H                       OF ITS SYMBOLIC MAP
         DS    0F
MHLENGTH EQU   20
FIELD    DSECT
FDPLACE  DS    H
FDLENGTH DS    H
FDATT    DS    X
FDFLAGS  DS    X
NAMED    EQU   X'80'
RIGHT    EQU   X'40'
ZEROS    EQU   X'20'
FDOFFSET DS    H
FDTEXT   DS    A
FDNAME   DS    CL12
FDSIZE   EQU   24
DFHEISTG DSECT
RC       DS    F
QNAME    DS    CL8
SLEN     DS    H
ILEN     DS    H
NEWATT   DS    X
NONE     EQU   X'FF'
ISNEW    DS    X
HASCUR   DS    X
NOW      DS    X
ISFIRST  DS    X
NAME     DS    CL12
VALUE    DS    H
SEGMENTS DS    F
SAVE14   DS    F
SCREEN   DS    0CL1944
SHNAME   DS    CL8                     THE MAP THAT WAS SENT LAST
SHCURSOR DS    H
SHTASK   DS    PL4                     THE TASK THAT KNOWS OF CLEAR
         DS    CL10
BUFFER   DS    1920C
TEXT     DS    1944C                   WHAT IS SHOWN, OR CAME IN
NULL     EQU   X'02'                   ATTRIBUTES ARE BELOW X'40', TOO
MODIFIED EQU   X'01'
NUMERIC  EQU   X'10'
PROTECT  EQU   X'20'
DARK     EQU   X'0C'
@@NAME@@ CSECT
         L     7,DFHEICAP
         USING REQUEST,7
         ST    11,RQEIB
         XC    RQRESP,RQRESP
         LA    8,BUFFER
         MVC   QNAME(4),=C'$SCR'
         MVC   QNAME+4(4),EIBTRMID
         MVC   SLEN,=H'1944'
         EXEC  CICS READQ TS QUEUE(QNAME) INTO(SCREEN) LENGTH(SLEN)    X
               ITEM(=H'1') RESP(RC)
         MVI   ISNEW,0
         CLC   RC,=F'0'
         BE    HAVE
         MVI   ISNEW,1
         BAL   14,BLANK
HAVE     CLI   EIBAID,X'6D'            CLEAR, WHICH NOBODY RECEIVED?
         BNE   KNOWN
         CLC   SHTASK,EIBTASKN
         BE    KNOWN
         BAL   14,BLANK
         MVC   SHTASK,EIBTASKN
KNOWN    CLC   RQFN,=X'1806'
         BE    TEXTSENT
         CLC   RQFN,=X'1812'
         BE    CONTROL
         L     5,=A(MAPS)
         USING MAPHEAD,5
         USING FIELD,4
FINDMAP  CLC   MHNAME,RQNAME
         BE    FOUNDMAP
         L     5,MHNEXT
         LTR   5,5
         BNZ   FINDMAP
         EXEC  CICS ABEND ABCODE('SIMP') CANCEL
FOUNDMAP CLC   RQFN,=X'1802'
         BE    RECEIVE
*---- SEND MAP
         BAL   14,CONTROLS
         TM    RQOPT,DATAONLY
         BO    KEEPCUR
         CLC   MHCURSOR,=X'FFFF'
         BE    KEEPCUR
         MVC   SHCURSOR,MHCURSOR
KEEPCUR  BAL   14,PUTCUR
         MVI   HASCUR,0
         LA    4,MHLENGTH(,5)
         LH    6,MHCOUNT
PUTFIELD LH    10,FDPLACE
         AR    10,8
         MVC   NEWATT,FDATT
         L     9,FDTEXT
         TM    RQOPT,DATAONLY
         BZ    WITHMAP
         MVI   NEWATT,NONE
         SR    9,9
WITHMAP  TM    FDFLAGS,NAMED
         BZ    PUT
         TM    RQOPT,MAPONLY
         BO    PUT
         L     2,RQAREA
         AH    2,FDOFFSET
         TM    RQOPT,SYMBOLIC
         BZ    NOCURSOR
         CLC   0(2,2),=X'FFFF'
         BNE   NOCURSOR
         CLI   HASCUR,0
         BNE   NOCURSOR
         MVI   HASCUR,1
         LH    1,FDPLACE
         LA    1,1(,1)
         STH   1,SHCURSOR
NOCURSOR CLI   2(2),0
         BE    MAPSATT
         MVC   NEWATT,2(2)
         NI    NEWATT,X'3D'
MAPSATT  LA    2,3(,2)
         AH    2,MHEXTRA
         CLI   0(2),0
         BE    PUT
         LR    9,2
PUT      CLI   NEWATT,NONE
         BE    PUTTEXT
         MVC   0(1,10),NEWATT
PUTTEXT  LTR   9,9
         BZ    NEXTPUT
         LH    1,FDLENGTH
         BCTR  1,0
         LTR   1,1
         BM    NEXTPUT
         EX    1,MOVETEXT
         L     15,=A(CLEAN)
         EX    1,NOORDERS
NEXTPUT  LA    4,FDSIZE(,4)
         BCT   6,PUTFIELD
         MVC   SHNAME,RQNAME
SHOWN    BAL   14,KEEP
         B     SHOW
MOVETEXT MVC   1(0,10),0(9)
NOORDERS TR    1(0,10),0(15)
*---- SEND CONTROL; A TEXT THAT IS SENT
CONTROL  BAL   14,CONTROLS
         BAL   14,PUTCUR
         B     SHOWN
TEXTSENT BAL   14,BLANK
         BAL   14,KEEP
         EXEC  CICS RETURN
CONTROLS LR    15,14
         TM    RQOPT,ERASE
         BZ    NOERASE
         BAL   14,BLANK
NOERASE  TM    RQOPT,ERASEAUP+FRSET
         BCR   8,15
         MVI   NOW,PROTECT
         LR    1,8
         LA    2,1920
         SR    9,9
ALTER    CLI   0(1),X'40'
         BNL   ALTERTXT
         CLI   0(1),NULL
         BE    ALTERED
         MVC   NOW,0(1)
         TM    RQOPT,FRSET
         BZ    ALTERAUP
         NI    0(1),X'FF'-MODIFIED
ALTERAUP TM    RQOPT,ERASEAUP
         BZ    ALTERED
         TM    NOW,PROTECT
         BO    ALTERED
         NI    0(1),X'FF'-MODIFIED
         LTR   9,9
         BNZ   ALTERED
         LR    9,1
         SR    9,8
         LA    9,1(,9)
         STH   9,SHCURSOR
         B     ALTERED
ALTERTXT TM    RQOPT,ERASEAUP
         BZ    ALTERED
         TM    NOW,PROTECT
         BO    ALTERED
         MVI   0(1),NULL
ALTERED  LA    1,1(,1)
         BCT   2,ALTER
         BR    15
PUTCUR   TM    RQOPT,CURSOR
         BCR   8,14
         MVC   SHCURSOR,RQCURSOR
         BR    14
*---- RECEIVE MAP
RECEIVE  MVC   RQCURSOR,SHCURSOR
         MVC   ILEN,=H'1920'
         EXEC  CICS RECEIVE INTO(TEXT) LENGTH(ILEN) NOHANDLE
         CLI   EIBAID,X'6D'
         BE    CLEARED
         CLI   EIBAID,X'6C'
         BE    MAPFAIL
         CLI   EIBAID,X'6E'
         BE    MAPFAIL
         CLC   SHNAME,=XL8'00'
         BE    MAPFAIL                 NO FIELDS ARE ON THE SCREEN
         LA    10,TEXT
         LH    9,ILEN
         MVC   SEGMENTS,=F'8'
         MVI   ISFIRST,1
SEGMENT  LTR   9,9
         BNP   TYPED
         MVC   NAME,=CL12' '
         LA    1,NAME
         LA    2,12
GETNAME  CLI   0(10),C'='
         BE    HAVENAME
         CLI   0(10),C' '
         BE    SKIPNAME
         LTR   2,2
         BZ    NONAME
         MVC   0(1,1),0(10)
         LA    1,1(,1)
         BCTR  2,0
SKIPNAME LA    10,1(,10)
         BCT   9,GETNAME
NONAME   CLI   ISFIRST,1               NO FIELD AT ALL?
         BE    MAPFAIL
         B     BADKEY
HAVENAME MVI   ISFIRST,0
         LA    10,1(,10)
         BCTR  9,0
         CLC   NAME,=CL12'@'           THE CURSOR'S PLACE
         BE    PLACE
         LR    15,5
         BAL   14,LOOKUP
         BNZ   TYPEIN
         L     15,=A(MAPS)
OTHERMAP BAL   14,LOOKUP
         BNZ   TYPEIN
         L     15,MHNEXT-MAPHEAD(,15)
         LTR   15,15
         BNZ   OTHERMAP
         B     BADKEY
LOOKUP   LA    4,MHLENGTH(,15)
         LH    6,MHCOUNT-MAPHEAD(,15)
LOOKON   TM    FDFLAGS,NAMED
         BZ    LOOKNEXT
         CLC   FDNAME,NAME
         BE    LOOKED
LOOKNEXT LA    4,FDSIZE(,4)
         BCT   6,LOOKON
         SR    4,4
LOOKED   LTR   4,4
         BR    14
*        THE FIELD IS ERASED, AND TYPED INTO
TYPEIN   LH    1,FDPLACE
         AR    1,8
         CLI   0(1),X'40'
         BNL   BADKEY
         CLI   0(1),NULL
         BE    BADKEY
         TM    0(1),PROTECT
         BO    BADKEY
         OI    0(1),MODIFIED
         LA    1,1(,1)
         LR    2,1
         LA    15,1920(,8)
ERASEIT  CR    2,15
         BNL   ERASED
         CLI   0(2),X'40'
         BNL   ERASEONE
         CLI   0(2),NULL
         BNE   ERASED
ERASEONE MVI   0(2),NULL
         LA    2,1(,2)
         B     ERASEIT
ERASED   DS    0H                      THE FIELD ENDS AT REGISTER 2
TYPEON   LTR   9,9
         BNP   TYPED
         CLI   0(10),C';'
         BNE   TYPEONE
         LA    10,1(,10)
         BCTR  9,0
         LTR   9,9
         BNP   TYPED
         CLI   0(10),C';'
         BNE   NEXTSEG
TYPEONE  CR    1,2
         BNL   BADKEY                  NO ROOM FOR IT
         MVC   0(1,1),0(10)
         LA    1,1(,1)
         LA    10,1(,10)
         BCTR  9,0
         B     TYPEON
PLACE    SR    2,2
DIGITS   LTR   9,9
         BNP   PLACED
         CLI   0(10),C';'
         BE    PLACED
         CLI   0(10),C'0'
         BL    BADKEY
         IC    1,0(,10)
         SLL   1,28
         SRL   1,28
         LR    15,2
         SLL   2,2
         AR    2,15
         AR    2,2                     TEN TIMES
         AR    2,1
         CH    2,=H'1919'
         BH    BADKEY
         LA    10,1(,10)
         BCTR  9,0
         B     DIGITS
PLACED   STH   2,SHCURSOR
         LA    10,1(,10)
         BCTR  9,0
NEXTSEG  L     1,SEGMENTS
         BCTR  1,0
         ST    1,SEGMENTS
         LTR   1,1
         BNZ   SEGMENT
         EXEC  CICS SUSPEND
         MVC   SEGMENTS,=F'8'
         B     SEGMENT
BADKEY   EXEC  CICS ABEND ABCODE('SIKY') CANCEL
TYPED    MVC   RQCURSOR,SHCURSOR
         LR    1,8
         LA    2,1920
SEEK     CLI   0(1),X'40'
         BNL   SEEKNEXT
         CLI   0(1),NULL
         BE    SEEKNEXT
         TM    0(1),MODIFIED
         BO    SOUGHT
SEEKNEXT LA    1,1(,1)
         BCT   2,SEEK
         B     MAPFAIL                 NO FIELD IS MODIFIED
SOUGHT   BAL   14,KEEP
         TM    RQOPT,SET
         BZ    HAVEAREA
         EXEC  CICS GETMAIN SET(2) LENGTH(MHBYTES)
         ST    2,RQAREA
HAVEAREA LA    4,MHLENGTH(,5)
         LH    6,MHCOUNT
GETFIELD TM    FDFLAGS,NAMED
         BZ    NEXTGET
         L     2,RQAREA
         AH    2,FDOFFSET
         XC    0(3,2),0(2)
         LH    1,MHEXTRA
         LTR   1,1
         BZ    NOEXTRA
         BCTR  1,0
         EX    1,CLEAREXT
NOEXTRA  LA    9,3(,2)
         AH    9,MHEXTRA
         LH    1,FDLENGTH
         BCTR  1,0
         LTR   1,1
         BM    NEXTGET
         EX    1,CLEARTXT
         LH    10,FDPLACE
         AR    10,8
         CLI   0(10),X'40'
         BNL   NEXTGET
         CLI   0(10),NULL
         BE    NEXTGET
         TM    0(10),MODIFIED
         BZ    NEXTGET
         LH    0,FDLENGTH              ROOM FOR IT
         SR    15,15                   WHAT CAME
         LA    14,1920(,8)
GETONE   LA    10,1(,10)
         CR    10,14
         BNL   GOT
         CLI   0(10),X'40'
         BNL   GETCHAR
         CLI   0(10),NULL
         BE    GETONE                  NULLS ARE NOT SENT
         B     GOT
GETCHAR  CR    15,0
         BNL   GETONE
         MVC   0(1,9),0(10)
         LA    9,1(,9)
         LA    15,1(,15)
         B     GETONE
GOT      STH   15,VALUE
         MVC   0(2,2),VALUE
         LTR   15,15
         BNZ   JUSTIFY
         MVI   2(2),X'80'              ERASED
         B     NEXTGET
JUSTIFY  LR    14,0
         SR    14,15
         BZ    NEXTGET
         LA    1,=C' '
         TM    FDFLAGS,ZEROS
         BZ    FILL
         LA    1,=C'0'
FILL     TM    FDFLAGS,RIGHT
         BO    SHIFT
FILLON   MVC   0(1,9),0(1)
         LA    9,1(,9)
         BCT   14,FILLON
         B     NEXTGET
SHIFT    BCTR  9,0
         LR    10,9
         AR    10,14
SHIFTON  MVC   0(1,10),0(9)
         BCTR  10,0
         BCTR  9,0
         BCT   15,SHIFTON
SHIFTED  MVC   0(1,10),0(1)
         BCTR  10,0
         BCT   14,SHIFTED
NEXTGET  LA    4,FDSIZE(,4)
         BCT   6,GETFIELD
         EXEC  CICS RETURN
CLEAREXT XC    3(0,2),3(2)
CLEARTXT XC    0(0,9),0(9)
CLEARED  BAL   14,BLANK
         MVC   SHTASK,EIBTASKN
         BAL   14,KEEP
MAPFAIL  MVC   RQRESP,=F'36'
         MVC   RQABC,=C'AEI9'
         EXEC  CICS RETURN
*---- THE BUFFER: BLANK, KEPT, SHOWN
BLANK    XC    SHNAME(10),SHNAME
         LR    1,8
         LA    2,24
BLANKROW MVI   0(1),NULL
         MVC   1(79,1),0(1)
         LA    1,80(,1)
         BCT   2,BLANKROW
         BR    14
KEEP     ST    14,SAVE14
         MVC   SLEN,=H'1944'
         CLI   ISNEW,1
         BE    KEEPNEW
         EXEC  CICS WRITEQ TS QUEUE(QNAME) FROM(SCREEN) LENGTH(SLEN)   X
               ITEM(=H'1') REWRITE
         B     KEPT
KEEPNEW  EXEC  CICS WRITEQ TS QUEUE(QNAME) FROM(SCREEN) LENGTH(SLEN)
         MVI   ISNEW,0
KEPT     L     14,SAVE14
         BR    14
SHOW     MVI   NOW,0                   THE LAST ATTRIBUTE GOES ROUND
         LA    1,1919(,8)
         LA    2,1920
SHOWLAST CLI   0(1),X'40'
         BNL   SHOWBACK
         CLI   0(1),NULL
         BE    SHOWBACK
         MVC   NOW,0(1)
         B     SHOWROWS
SHOWBACK BCTR  1,0
         BCT   2,SHOWLAST
SHOWROWS LA    1,TEXT
         LR    2,8
         LA    6,24
SHOWROW  LA    9,80
SHOWONE  CLI   0(2),X'40'
         BL    SHOWATT
         MVC   0(1,1),0(2)
         TM    NOW,DARK
         BO    SHOWDARK
SHOWNEXT LA    1,1(,1)
         LA    2,1(,2)
         BCT   9,SHOWONE
         MVI   0(1),X'15'
         LA    1,1(,1)
         BCT   6,SHOWROW
         EXEC  CICS SEND TEXT FROM(TEXT) LENGTH(=H'1943') ERASE
         EXEC  CICS RETURN
SHOWATT  CLI   0(2),NULL
         BE    SHOWDARK
         MVC   NOW,0(2)
SHOWDARK MVI   0(1),C' '
         B     SHOWNEXT
         LTORG
CLEAN    DC    64AL1(NULL)
@@CODES@@
MAPS     DS    0F
@@MAPS@@
         END
