*---- ROUTINE
$XAL     $XONE
         L     5,0(,2)
         LA    1,$XADD
         BR    1
         DROP  12
*---- ROUTINE
$XALR    $XRR
         L     5,0(,2)
         BCTR  14,0                     TWO BYTES LESS TO GO BACK TO
         BCTR  14,0
         ST    14,$XL
         LA    1,$XADD
         BR    1
         DROP  12
*---- PART
$XADD    BALR  12,0
         USING *,12
         L     6,0(,4)
         SR    1,1
         AR    6,5
         CLR   6,5
         BNL   *+8
         LA    1,8                      A CARRY
         ST    6,0(,4)
         LTR   6,6
         BZ    *+8
         LA    1,4(,1)                  NOT ZERO
         L     1,$XCC(1)
         SLA   1,1
         $XOUT4
*---- ROUTINE
$XSL     $XONE
         L     5,0(,2)
         LA    1,$XSUB
         BR    1
         DROP  12
*---- ROUTINE
$XSLR    $XRR
         L     5,0(,2)
         BCTR  14,0                     TWO BYTES LESS TO GO BACK TO
         BCTR  14,0
         ST    14,$XL
         LA    1,$XSUB
         BR    1
         DROP  12
*---- PART
$XSUB    BALR  12,0
         USING *,12
         L     6,0(,4)
         SR    1,1
         CLR   6,5
         BL    *+8
         LA    1,8                      NO BORROW
         SR    6,5
         ST    6,0(,4)
         LTR   6,6
         BZ    *+8
         LA    1,4(,1)                  NOT ZERO
         L     1,$XCC(1)
         SLA   1,1
         $XOUT4
*---- ROUTINE
$XMH     $XONE
         LH    5,0(,2)
         L     7,0(,4)
         MR    6,5
         ST    7,0(,4)
         $XSAME
         $XOUT4
*---- ROUTINE
$XBXLE   $XRS
         SR    8,8
         LA    1,$XINDEX
         BR    1
         DROP  12
*---- ROUTINE
$XBXH    $XRS
         LA    8,8
         LA    1,$XINDEX
         BR    1
         DROP  12
*---- PART
$XINDEX  BALR  12,0                     8: 0 LOW OR EQUAL, 8 HIGH
         USING *,12
         LA    5,$XR
         LR    6,9
         SR    6,5
         SRL   6,3
         SLL   6,3
         AR    6,5
         L     6,4(,6)                  THE ODD REGISTER IS COMPARED
         L     7,0(,4)
         A     7,0(,9)
         ST    7,0(,4)
         SR    5,5
         CR    7,6
         BNH   *+8
         LA    5,8
         XR    5,8                      0: TAKEN; 8: NOT
         $XSAME
         L     14,$XL
         LA    14,4(5,14)
         L     15,$X15
         LM    0,13,$XR
         BR    14
         DROP  12
*---- ROUTINE
$XSLDL   $XRS
         LR    3,2
         LM    6,7,0(4)
         SLL   3,26
         SRL   3,26
         CH    3,$XH32
         BL    $XSLDL1
         LR    6,7
         SR    7,7
         SH    3,$XH32
         SLL   6,0(3)
         B     $XSLDL2
$XSLDL1  LR    8,7
         SLL   6,0(3)
         SLL   7,0(3)
         LCR   3,3
         AH    3,$XH32
         SRL   8,0(3)
         AR    6,8
$XSLDL2  STM   6,7,0(4)
         $XSAME
         $XOUT4
*---- ROUTINE
$XSRDL   $XRS
         LR    3,2
         LM    6,7,0(4)
         SLL   3,26
         SRL   3,26
         CH    3,$XH32
         BL    $XSRDL1
         LR    7,6
         SR    6,6
         SH    3,$XH32
         SRL   7,0(3)
         B     $XSRDL2
$XSRDL1  LR    8,6
         SRL   6,0(3)
         SRL   7,0(3)
         LCR   3,3
         AH    3,$XH32
         SLL   8,0(3)
         AR    7,8
$XSRDL2  STM   6,7,0(4)
         $XSAME
         $XOUT4
*---- ROUTINE
$XSLDA   $XRS
         LR    3,2
         LM    6,7,0(4)
         LR    10,6
         SRL   10,31
         SLL   10,31                    THE SIGN
         SR    5,5
         SLL   3,26
         SRL   3,26
         LTR   3,3
         BZ    $XSLDA2
$XSLDA1  LR    8,6
         SLL   8,1
         XR    8,6
         LTR   8,8
         BNM   *+8
         LA    5,12                     A BIT UNLIKE THE SIGN GOES
         SLL   6,2
         SRL   6,1
         AR    6,10
         LTR   7,7
         SLL   7,1
         BNM   *+8
         AH    6,$XH1
         BCT   3,$XSLDA1
$XSLDA2  STM   6,7,0(4)
         LTR   1,5
         BNZ   $XSLDA3
         LTR   6,6
         BM    $XSLDA4
         BP    $XSLDA5
         LTR   7,7
         BZ    $XSLDA3
$XSLDA5  LA    1,8
         B     $XSLDA3
$XSLDA4  LA    1,4
$XSLDA3  L     1,$XCC(1)
         SLA   1,1
         $XOUT4
*---- DATA
$XH1     DC    H'1'
*---- DATA
$XH32    DC    H'32'
