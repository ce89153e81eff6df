*---- ROUTINE
$XED     $XTWO
         $XPAST6
         LA    9,0
         LA    1,$XEDIT
         BR    1
         DROP  12
*---- ROUTINE
$XEDMK   $XTWO
         $XPAST6
         LA    9,1
         LA    1,$XEDIT
         BR    1
         DROP  12
*---- PART
$XEDIT   BALR  12,0
         USING *,12
         MVC   $XF(4),$XL14
         SR    3,3
         IC    3,1(,11)
         LA    3,1(,3)                  3: BYTES OF THE PATTERN
         SR    4,4
         IC    4,0(,2)                  4: THE FILL CHARACTER
         SR    5,5                      5: SIGNIFICANCE
         SR    6,6                      6: NOT ZERO
         SR    7,7                      7: A DIGIT IS LEFT IN 8
$XED1    CLI   0(2),X'22'
         BE    $XED2
         CLI   0(2),X'20'
         BE    $XED3
         CLI   0(2),X'21'
         BE    $XED3
         LTR   5,5
         BNZ   $XED9
         STC   4,0(,2)
         B     $XED9
$XED2    STC   4,0(,2)                  A FIELD'S END
         SR    5,5
         SR    6,6
         B     $XED9
$XED3    SR    10,10                    10: THE SIGN WITH THE DIGIT
         LTR   7,7
         BZ    $XED4
         LR    1,8
         SR    7,7
         B     $XED6
$XED4    SR    1,1
         IC    1,0(,14)
         LA    14,1(,14)
         LR    8,1
         SRL   1,4
         SLL   8,28
         SRL   8,28
         CH    1,$XH9
         BH    $XEDX
         CH    8,$XH9
         BH    $XED5
         LA    7,1
         B     $XED6
$XED5    LR    10,8
$XED6    LTR   1,1
         BZ    $XED7
         LA    6,1
         LTR   5,5
         BNZ   $XED8
         LA    5,1
         LTR   9,9
         BZ    $XED8
         STCM  2,7,$XR+5                EDMK: REGISTER 1
         B     $XED8
$XED7    LTR   5,5
         BNZ   $XED8
         CLI   0(2),X'21'
         BNE   *+8
         LA    5,1
         STC   4,0(,2)
         B     $XEDA
$XED8    LA    1,240(,1)
         STC   1,0(,2)
$XEDA    LTR   10,10
         BZ    $XED9
         CH    10,$XH11
         BE    $XED9
         CH    10,$XH13
         BE    $XED9
         SR    5,5                      PLUS
$XED9    LA    2,1(,2)
         BCT   3,$XED1
         SR    1,1
         LTR   6,6
         BZ    $XEDB
         LA    1,4
         LTR   5,5
         BNZ   $XEDB
         LA    1,8
$XEDB    L     1,$XCC(1)
         SLA   1,1
         $XEND
$XEDX    LA    1,$XDATA
         BR    1
         DROP  12
*---- DATA
$XH9     DC    H'9'
*---- DATA
$XH11    DC    H'11'
*---- DATA
$XH13    DC    H'13'
