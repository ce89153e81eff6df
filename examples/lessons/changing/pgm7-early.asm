DFHEISTG DSECT
W1       DS    D
W2       DS    H
W3       DS    PL4
W4       DS    CL12
PGM7     CSECT
         EXEC  CICS HANDLE CONDITION QIDERR(L2)
         MVC   W2,=H'4'
         EXEC  CICS ENQ RESOURCE(=C'PGM7') LENGTH(=H'4')
         EXEC  CICS READQ TS QUEUE('PGM7') INTO(W3) LENGTH(W2)         -
               ITEM(=H'1')
         EXEC  CICS DEQ RESOURCE(=C'PGM7') LENGTH(=H'4')
         MVC   W1,=XL8'00'
         MVC   W1+4(4),W3
         CVB   4,W1
         LA    4,1(0,4)
         CVD   4,W1
         MVC   W3,W1+4
         EXEC  CICS WRITEQ TS QUEUE('PGM7') FROM(W3) LENGTH(W2)        -
               ITEM(=H'1') REWRITE
L1       MVC   W4,=CL12'TICKET'
         UNPK  W4+7(5),W3
         OI    W4+11,X'F0'
         EXEC  CICS SEND TEXT FROM(W4) LENGTH(=H'12') ERASE
         EXEC  CICS RETURN
L2       MVC   W3,=PL4'1'
         EXEC  CICS WRITEQ TS QUEUE('PGM7') FROM(W3) LENGTH(W2)
         B     L1
         END
