*---- ROUTINE
$XOC     STM   0,13,$XR
         ST    14,$XL
         MVI   $X15,0
         BALR  12,0
         USING *,12
         LA    1,$XBYTES
         BR    1
         DROP  12
*---- ROUTINE
$XNC     STM   0,13,$XR
         ST    14,$XL
         MVI   $X15,4
         BALR  12,0
         USING *,12
         LA    1,$XBYTES
         BR    1
         DROP  12
*---- PART
$XBYTES  BALR  12,0
         USING *,12
         LTR   14,14
         BM    *+8                      BY BAL, ELSE BY BALR
         BCTR  14,0
         BCTR  14,0
         SH    14,$XH10                 THE CLC OF THE CALL
         STCM  14,7,$X15+1
         MVC   $XF(2),$XLA0
         MVC   $XF+2(2),2(14)
         MVC   $XI(2),$XLA14
         MVC   $XI+2(2),4(14)
         LM    0,14,$XR                 REGISTERS AS AT THE CALL
         EX    0,$XF
         EX    0,$XI
         BALR  12,0
         USING *,12
         L     11,$X15
         LR    2,0                      2, 14: THE OPERANDS
         SR    3,3
         IC    3,1(,11)
         LA    3,1(,3)                  BYTES
         SRL   11,24
         LA    6,$XOI(11)
         SR    4,4                      NOT ZERO WHERE ONE ISN'T
         SR    5,5
$XBYTE   IC    5,0(,14)
         EX    5,0(,6)
         BZ    *+6
         LR    4,12
         LA    2,1(,2)
         LA    14,1(,14)
         BCT   3,$XBYTE
         LA    4,0(,4)
         LCR   4,4                      CODE 0 OR 1
         $XEND
         DROP  12
*---- DATA
$XLA0    LA    0,0
*---- DATA
$XLA14   LA    14,0
*---- DATA
$XH10    DC    H'10'
*---- DATA
$XOI     OI    0(2),0
         NI    0(2),0
*---- ROUTINE
$XMVZ    $XTWO
         SR    3,3
         IC    3,1(,11)
         LA    3,1(,3)
$XMVZ1   SR    5,5
         IC    5,0(,14)
         SRL   5,4
         SLL   5,4
         NI    0(2),X'0F'
         EX    5,$XOI
         LA    2,1(,2)
         LA    14,1(,14)
         BCT   3,$XMVZ1
         $XSAME
         $XOUT6
*---- ROUTINE
$XMVN    $XTWO
         SR    3,3
         IC    3,1(,11)
         LA    3,1(,3)
$XMVN1   IC    5,0(,14)
         SLL   5,28
         SRL   5,28
         NI    0(2),X'F0'
         EX    5,$XOI
         LA    2,1(,2)
         LA    14,1(,14)
         BCT   3,$XMVN1
         $XSAME
         $XOUT6
*---- ROUTINE
$XO      $XONE
         L     5,0(,2)
         LA    1,$XORS
         BR    1
         DROP  12
*---- ROUTINE
$XOR     $XRR
         L     5,0(,2)
         LA    1,$XORR
         BR    1
         DROP  12
*---- ROUTINE
$XN      $XONE
         L     5,0(,2)
         LA    1,$XNS
         BR    1
         DROP  12
*---- ROUTINE
$XNR     $XRR
         L     5,0(,2)
         LA    1,$XNRR
         BR    1
         DROP  12
*---- PART
$XORR    BCTR  14,0                     TWO BYTES LESS TO GO BACK TO
         BCTR  14,0
         ST    14,$XL
$XORS    BALR  12,0
         USING *,12
         LA    1,$XOIS
         LA    6,$XWORD
         BR    6
         DROP  12
*---- PART
$XNRR    BCTR  14,0
         BCTR  14,0
         ST    14,$XL
$XNS     BALR  12,0
         USING *,12
         LA    1,$XNIS
         LA    6,$XWORD
         BR    6
         DROP  12
*---- PART
$XWORD   BALR  12,0                     1: FOUR INSTRUCTIONS
         USING *,12
         L     6,0(,4)
         ST    6,$XF
         EX    5,12(,1)
         SRL   5,8
         EX    5,8(,1)
         SRL   5,8
         EX    5,4(,1)
         SRL   5,8
         EX    5,0(,1)
         L     6,$XF
         ST    6,0(,4)
         LTR   6,6
         BZ    *+8
         CLI   $XZERO,1                 CODE 1
         $XOUT4
*---- DATA
$XOIS    OI    $XF,0
         OI    $XF+1,0
         OI    $XF+2,0
         OI    $XF+3,0
*---- DATA
$XNIS    NI    $XF,0
         NI    $XF+1,0
         NI    $XF+2,0
         NI    $XF+3,0
*---- ROUTINE
$XX      $XONE
         L     5,0(,2)
         L     6,0(,4)
         XR    6,5
         ST    6,0(,4)
         $XOUT4
