* SHOW - A PART IS SHOWN
*
* INPUT     SHOW, AND THE PART'S NUMBER, ONE DIGIT
* OUTPUT    NAME, QUANTITY AND PRICE
*
DFHEISTG DSECT
PACKED   DS    D
NUMBER   DS    H
LENGTH   DS    H
INLEN    DS    H
INPUT    DS    CL6
PART     DS    0CL24                   THE RECORD
NAME     DS    CL8
QTY      DS    PL4
PRICE    DS    PL3
         DS    CL9                     FOR LATER
LINE     DS    CL20
SHOW     CSECT
         MVC   INLEN,=H'6'
         EXEC  CICS RECEIVE INTO(INPUT) LENGTH(INLEN) NOHANDLE
         PACK  PACKED,INPUT+5(1)
         CVB   4,PACKED
         STH   4,NUMBER
         MVC   LENGTH,=H'24'
         EXEC  CICS READQ TS QUEUE('PARTS') INTO(PART)                 -
               LENGTH(LENGTH) ITEM(NUMBER)
         MVC   LINE,=CL20' '
         MVC   LINE(8),NAME
         UNPK  LINE+9(5),QTY
         OI    LINE+13,X'F0'           THE SIGN'S ZONE
         UNPK  LINE+15(5),PRICE
         OI    LINE+19,X'F0'
         EXEC  CICS SEND TEXT FROM(LINE) LENGTH(=H'20') ERASE
         EXEC  CICS RETURN
         END
