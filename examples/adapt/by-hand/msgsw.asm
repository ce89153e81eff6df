         TITLE 'MSGSW - MESSAGE SWITCHING BETWEEN TERMINALS'
***********************************************************************
*  MSGSW:  SEND  'MSG  TTTT TEXT'      SENDS TEXT TO A TERMINAL       *
*          READ  'MSG  ?'              SHOWS WHAT CAME                *
*          ALL   'MSG  * TEXT'         TO ALL TERMINALS OF THE TABLE  *
*  A QUEUE 'M.TTTT  ' PER TERMINAL.  COUNTERS ARE IN THE CWA.         *
***********************************************************************
MSGSW    CSECT
         USING CWAD,9
         USING QREC,8
         EXEC CICS ADDRESS CWA(9)
         EXEC CICS IGNORE CONDITION LENGERR
         EXEC CICS HANDLE CONDITION QIDERR(NOMSG) ITEMERR(NOMORE)      +
               NOSPACE(FULL) INVREQ(ERROR1)
         MVC   LEN,=H'132'
         EXEC CICS RECEIVE INTO(INPUT) LENGTH(LEN)
         TR    INPUT,UPPER
*        PARSE: SKIP THE TRANSACTION, FIND THE FIRST WORD
         LH    5,LEN
         LTR   5,5
         BNP   HELP
         BCTR  5,0
         EX    5,SCAN                  FIRST BLANK
         BZ    HELP
         LR    6,1
         LA    4,INPUT(5)              LAST BYTE
SKIP     CR    6,4
         BNL   HELP
         CLI   0(6),C' '
         BNE   WORD
         LA    6,1(,6)
         B     SKIP
WORD     CLI   0(6),C'?'
         BE    READALL
         CLI   0(6),C'*'
         BE    SENDALL
         MVC   TOTERM,0(6)
         LA    6,5(,6)
         BAL   14,FINDTERM
         LTR   15,15
         BNZ   NOTERM
         BAL   14,SENDONE
         B     DONE
         SPACE 2
SENDALL  LA    6,2(,6)
         LA    7,TERMTAB
SENDNEXT CLI   0(7),X'FF'
         BE    DONE
         MVC   TOTERM,0(7)
         CLC   TOTERM,EIBTRMID         NOT TO OURSELVES
         BE    *+8
         BAL   14,SENDONE
         LA    7,L'TERMTAB(,7)
         B     SENDNEXT
DONE     EXEC CICS SEND TEXT FROM(SENT) LENGTH(=AL2(L'SENT)) ERASE
         B     RET
         EJECT
*---------------- SEND ONE ---------------------------------------------
SENDONE  ST    14,SAVE14
         MVC   QID(2),=C'M.'
         MVC   QID+2(4),TOTERM
         MVC   QID+6(2),=CL2' '
         EXEC CICS GETMAIN SET(8) LENGTH(=AL2(QRECL)) INITIMG(BLANK)   +
               NOSUSPEND
         LR    5,4
         SR    5,6
         LA    0,L'QRTEXT-1
         CR    5,0
         BNH   *+6
         LR    5,0
         EX    5,MOVETEXT
         MVC   QRFROM,EIBTRMID
         MVC   QRTIME,EIBTIME
         EXEC CICS ENQ RESOURCE(QID) LENGTH(=H'8')
         EXEC CICS WRITEQ TS QUEUE(QID) FROM(QREC) LENGTH(=AL2(QRECL)) +
               MAIN
         EXEC CICS DEQ RESOURCE(QID) LENGTH(=H'8')
         EXEC CICS FREEMAIN DATA(QREC)
         L     1,CWACOUNT
         LA    1,1(1)
         ST    1,CWACOUNT
         L     14,SAVE14
         BR    14
*---------------- READ -------------------------------------------------
READALL  MVC   QID(2),=C'M.'
         MVC   QID+2(4),EIBTRMID
         MVC   QID+6(2),=CL2' '
         LA    7,OUTPUT
READNEXT EXEC CICS READQ TS QUEUE(QID) SET(8) LENGTH(LEN) NEXT
         MVC   0(4,7),QRFROM
         MVC   4(L'TIMEMASK,7),TIMEMASK
         UNPK  HEX(9),QRTIME(5)
         MVC   6(2,7),HEX+1
         MVI   8(7),C'.'
         MVC   9(2,7),HEX+3
         MVI   11(7),C'.'
         MVC   12(2,7),HEX+5
         MVC   16(L'QRTEXT,7),QRTEXT
         LA    7,16+L'QRTEXT(,7)
         MVI   0(7),X'15'
         LA    7,1(,7)
         LA    0,OUTPUT+L'OUTPUT-100
         CR    7,0
         BL    READNEXT
NOMORE   LA    0,OUTPUT
         SR    7,0
         STH   7,LEN
         EXEC CICS SEND TEXT FROM(OUTPUT) LENGTH(LEN) ERASE
         EXEC CICS HANDLE CONDITION QIDERR
         EXEC CICS DELETEQ TS QUEUE(QID) NOHANDLE
         B     RET
         SPACE
FINDTERM LA    7,TERMTAB
         LA    15,4
FIND1    CLI   0(7),X'FF'
         BCR   8,14
         CLC   TOTERM,0(7)
         BE    FIND2
         LA    7,4(,7)
         B     FIND1
FIND2    SR    15,15
         BR    14
*---------------- MESSAGES ---------------------------------------------
HELP     LA    2,MHELP
         LA    7,L'MHELP                 3 IS THE BASE
         B     PUT
NOTERM   LA    2,MTERM
         LA    7,L'MTERM                 3 IS THE BASE
         B     PUT
NOMSG    LA    2,MNOMSG
         LA    7,L'MNOMSG                 3 IS THE BASE
         B     PUT
FULL     LA    2,MFULL
         LA    7,L'MFULL                 3 IS THE BASE
PUT      STH   7,LEN
         EXEC CICS SEND TEXT FROM(0(,2)) LENGTH(LEN) ERASE
RET      EXEC CICS RETURN
ERROR1   EXEC CICS ABEND ABCODE('MSG1')
*
SCAN     TRT   INPUT(*-*),BLANKTAB
MOVETEXT MVC   QRTEXT(*-*),0(6)
BLANK    DC    C' '
TIMEMASK DC    CL12' '
SENT     DC    C'MESSAGE SENT'
MHELP    DC    C'MSG TTTT TEXT, MSG * TEXT, OR MSG ?'
MTERM    DC    C'NO SUCH TERMINAL'
MNOMSG   DC    C'NOTHING FOR YOU'
MFULL    DC    C'TOO MANY MESSAGES, TRY LATER'
TERMTAB  DC    CL4'T001'
         DC    CL4'T002',CL4'T003'
         DC    4C'T004'
         DC    4X'FF'
BLANKTAB DC    64X'00',C' ',191X'00'   (C' ')X'00',C' ',(255-C' ')X'00'
UPPER    DC    X'000102030405060708090A0B0C0D0E0F'
         DC    X'101112131415161718191A1B1C1D1E1F'
         DC    X'202122232425262728292A2B2C2D2E2F'
         DC    X'303132333435363738393A3B3C3D3E3F'
         DC    X'404142434445464748494A4B4C4D4E4F'
         DC    X'505152535455565758595A5B5C5D5E5F'
         DC    X'606162636465666768696A6B6C6D6E6F'
         DC    X'707172737475767778797A7B7C7D7E7F'
         DC    X'80C1C2C3C4C5C6C7C8C98A8B8C8D8E8F'
         DC    X'90D1D2D3D4D5D6D7D8D99A9B9C9D9E9F'
         DC    X'A0A1E2E3E4E5E6E7E8E9AAABACADAEAF'
         DC    X'B0B1B2B3B4B5B6B7B8B9BABBBCBDBEBF'
         DC    X'C0C1C2C3C4C5C6C7C8C9CACBCCCDCECF'
         DC    X'D0D1D2D3D4D5D6D7D8D9DADBDCDDDEDF'
         DC    X'E0E1E2E3E4E5E6E7E8E9EAEBECEDEEEF'
         DC    X'F0F1F2F3F4F5F6F7F8F9FAFBFCFDFEFF'
         LTORG
CWAD     DSECT
CWADATE  DS    CL8
CWACOUNT DS    F
         DS    XL500
QREC     DSECT
QRFROM   DS    CL4
QRTIME   DS    PL4
QRTEXT   DS    CL64
QRECL    EQU   *-QREC
DFHEISTG DSECT
SAVE14   DS    A
LEN      DS    H
QID      DS    CL8
TOTERM   DS    CL4
HEX      DS    CL9,C
INPUT    DS    CL132
OUTPUT   DS    CL1600
         END   MSGSW
