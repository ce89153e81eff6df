*---- ROUTINE
$XMVCIN  $XTWO
         SR    3,3
         IC    3,1(,11)
         LA    3,1(,3)
$XMVCIN1 IC    5,0(,14)
         STC   5,0(,2)
         LA    2,1(,2)
         BCTR  14,0
         BCT   3,$XMVCIN1
         $XSAME
         $XOUT6
*---- ROUTINE
$XMVO    $XTWO
         SR    3,3
         IC    3,1(,11)
         LR    4,3
         SRL   3,4
         SLL   4,28
         SRL   4,28                     3, 4: LENGTHS LESS ONE
         AR    2,3
         AR    14,4
         LA    3,1(,3)
         LA    4,1(,4)
         IC    5,0(,2)
         SLL   5,28
         SRL   5,28                     THE HALF BYTE AT THE RIGHT
$XMVO1   SR    6,6
         LTR   4,4
         BZ    $XMVO2                   NO MORE: ZEROS
         IC    6,0(,14)
         BCTR  14,0
         BCTR  4,0
$XMVO2   LR    7,6
         SLL   7,4
         AR    7,5
         STC   7,0(,2)
         LR    5,6
         SRL   5,4
         BCTR  2,0
         BCT   3,$XMVO1
         $XSAME
         $XOUT6
*---- ROUTINE
$XMVCL   STM   0,13,$XR
         ST    15,$X15
         ST    14,$XL
         BALR  12,0
         USING *,12
         MVC   $XQ(72),$XR              THEY MAY BE MOVED OVER
         LA    1,$XPAIRS
         BALR  9,1
         BALR  12,0
         USING *,12
         LR    8,6
         CR    6,7
         BNH   *+6
         LR    8,7                      8: BYTES TO MOVE
         LTR   8,8
         BZ    $XMVCL1
         LR    9,2
         SR    9,4
         LA    9,0(,9)
         LTR   9,9
         BZ    $XMVCL1
         CR    9,8
         BL    $XMVCL6                  IT WOULD BE MOVED AGAIN
$XMVCL1  SR    1,1
         CR    6,7
         BE    *+16
         LA    1,4
         BL    *+8
         LA    1,8                      THE CODE: LENGTHS COMPARED
         SR    6,8
         SR    7,8
$XMVCL2  CH    8,$XH256
         BNH   $XMVCL3
         MVC   0(256,2),0(4)
         LA    2,256(,2)
         LA    4,256(,4)
         SH    8,$XH256
         B     $XMVCL2
$XMVCL3  LTR   8,8
         BZ    $XMVCL4
         BCTR  8,0
         EX    8,$XMOVE
         LA    2,1(8,2)
         LA    4,1(8,4)
$XMVCL4  LTR   6,6
         BZ    $XMVCL7
         LR    9,5
         SRL   9,24                     THE PADDING
$XMVCL5  STC   9,0(,2)
         LA    2,1(,2)
         BCT   6,$XMVCL5
         B     $XMVCL7
$XMVCL6  LA    1,12
$XMVCL7  MVC   $XR(72),$XQ
         AR    3,6
         AR    5,7
         STM   2,3,0(10)
         STM   4,5,0(11)
         L     1,$XCC(1)
         SLA   1,1
         $XOUT2
*---- DATA
$XQ      DS    18F                      WHAT IS KEPT IN DFHEIPL
*---- DATA
$XMOVE   MVC   0(0,2),0(4)
*---- DATA
$XH256   DC    H'256'
*---- PART
$XPAIRS  BALR  12,0
         USING *,12
         SR    11,11
         IC    11,1(,14)
         LR    10,11
         SRL   10,4
         SLL   10,2
         LA    10,$XR(10)
         SLL   11,28
         SRL   11,26
         LA    11,$XR(11)               10, 11: WHERE THE PAIRS ARE
         LM    2,3,0(10)
         LM    4,5,0(11)
         LA    2,0(,2)
         LA    4,0(,4)
         LA    6,0(,3)                  6, 7: LENGTHS
         LA    7,0(,5)
         SR    3,6                      THE FIRST BYTES OF THEM
         SR    5,7
         BR    9
         DROP  12
*---- ROUTINE
$XCLCL   STM   0,13,$XR
         ST    15,$X15
         ST    14,$XL
         BALR  12,0
         USING *,12
         LA    1,$XPAIRS
         BALR  9,1
         BALR  12,0
         USING *,12
         STCM  5,8,$XF                  THE PADDING
         SR    1,1
$XCLCL1  LA    8,$XF
         LR    9,8
         LTR   6,6
         BZ    $XCLCL2
         LR    8,2
         B     $XCLCL3
$XCLCL2  LTR   7,7
         BZ    $XCLCL6                  BOTH ARE AT THEIR ENDS: EQUAL
$XCLCL3  LTR   7,7
         BZ    *+6
         LR    9,4
         CLC   0(1,8),0(9)
         BNE   $XCLCL5
         LTR   6,6
         BZ    *+10
         LA    2,1(,2)
         BCTR  6,0
         LTR   7,7
         BZ    *+10
         LA    4,1(,4)
         BCTR  7,0
         B     $XCLCL1
$XCLCL5  LA    1,4
         BL    *+8
         LA    1,8
$XCLCL6  AR    3,6
         AR    5,7
         STM   2,3,0(10)
         STM   4,5,0(11)
         L     1,$XCC(1)
         SLA   1,1
         $XOUT2
