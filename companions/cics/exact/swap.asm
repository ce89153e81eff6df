*---- ROUTINE
$XCS     $XRS
         AH    11,$XH4
         ST    11,$XL                   BACK TO THE EX
         LR    5,2
         SLL   5,30
         LTR   5,5
         BNZ   $XCS2                    NOT AT A WORD
         MVC   $XF(4),$XL14
         L     5,0(,2)
         L     6,0(,4)
         CLR   5,6
         BE    $XCS1
         ST    5,0(,4)
         CLI   $XZERO,1                 CODE 1
         B     $XCS3
$XCS1    L     6,0(,9)
         ST    6,0(,2)
         CLI   $XZERO,0                 CODE 0
         B     $XCS3
$XCS2    MVC   $XF(2),$XODD
         LA    1,$XINTR
         BR    1
$XCS3    L     14,$XL
         L     15,$X15
         LM    0,13,$XR
         BR    14
         DROP  12
*---- DATA
$XODD    MR    1,0                      INTERRUPTION 6
*---- ROUTINE
$XCDS    $XRS
         AH    11,$XH4
         ST    11,$XL                   BACK TO THE EX
         LR    5,2
         SLL   5,29
         LTR   5,5
         BNZ   $XCDS3                   NOT AT A DOUBLEWORD
         MVC   $XF(4),$XL14
         CLC   0(8,2),0(4)
         BE    $XCDS1
         MVC   0(8,4),0(2)
         CLI   $XZERO,1                 CODE 1
         B     $XCDS2
$XCDS1   MVC   0(8,2),0(9)
         CLI   $XZERO,0                 CODE 0
$XCDS2   L     14,$XL
         L     15,$X15
         LM    0,13,$XR
         BR    14
$XCDS3   MVC   $XF(2),$XODD
         LA    1,$XINTR
         BR    1
         DROP  12
