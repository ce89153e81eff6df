*---- STORAGE
$XD1     DS    D
$XD2     DS    D
$XWA     DS    4F                       FOUR WORDS OF EIGHT DIGITS
$XWB     DS    4F
$XWC     DS    4F
$XSA     DS    F                        SIGNS: 1 PLUS, 2 MINUS
$XSB     DS    F
$XFN     DS    XL4
$XP      DS    XL16                     A PACKED NUMBER
$XA      DS    XL16                     THE FIRST OPERAND
$XB      DS    XL16                     THE SECOND ONE
$XY      DS    CL32
$XZ      DS    CL32                     ITS DIGITS
$XZR     DS    CL32
*---- ROUTINE
$XAP     STM   0,13,$XR
         ST    14,$XL
         MVI   $XFN,0
         BALR  12,0
         USING *,12
         LA    12,$XSUM
         BR    12
         DROP  12
*---- ROUTINE
$XSP     STM   0,13,$XR
         ST    14,$XL
         MVI   $XFN,1
         BALR  12,0
         USING *,12
         LA    12,$XSUM
         BR    12
         DROP  12
*---- ROUTINE
$XCP     STM   0,13,$XR
         ST    14,$XL
         MVI   $XFN,2
         BALR  12,0
         USING *,12
         LA    12,$XSUM
         BR    12
         DROP  12
*---- PART
$XSUM    DS    0H
         USING $XSUM,12
         LTR   14,14
         BM    *+8                      BY BAL, ELSE BY BALR
         BCTR  14,0
         BCTR  14,0
         SH    14,$XH16                 THE FIRST MVC OF THE CALL
         ST    14,$XSA
         MVC   $XI(2),$XLA10
         MVC   $XI+2(2),10(14)
         LM    12,14,$XR+48             REGISTERS AS AT THE CALL
         EX    0,$XI                    10: THE FIRST OPERAND
         BALR  12,0
         USING *,12
         L     11,$XSA
         LA    14,$XB                   14: THE SECOND
         SR    2,2
         SR    4,4
         SR    5,5
         IC    5,1(,11)
         IC    4,7(,11)                 4, 5: LENGTHS LESS ONE
         TM    1(11),X'FC'
         BNZ   $XSUM5
         TM    7(11),X'FC'
         BNZ   $XSUM5
* BOTH HAVE AT MOST SEVEN DIGITS
         EX    5,$XUNPK2
         PACK  $XD2,$XZ(16)
         EX    4,$XUNPK1
         PACK  $XD1,$XZ(16)
         TRT   $XD2+4(4),$XSIGNS
         BC    13,$XSUM9                NOT AT THE LAST BYTE
         LR    6,2
         TRT   $XD1+4(4),$XSIGNS
         BC    13,$XSUM9
         AR    6,2
         CH    6,$XH4
         BH    $XSUM9
         CVB   2,$XD1
         CVB   3,$XD2
         MVC   $XF(4),$XL14
         CLI   $XFN,1
         BL    $XSUM1
         BH    $XSUM2
         LCR   3,3
$XSUM1   AR    2,3
         CVD   2,$XD1
         LA    1,$XD1+7
         SR    1,4
         EX    4,$XMVC10
         LA    5,6
         SR    5,4
         EX    5,$XSUMC8
         BNE   $XSUM3
         L     14,$XL
         LTR   2,2
         LM    0,13,$XR
         BR    14
$XSUM2   CR    2,3
         B     $XSUM4
$XSUM3   L     1,$XCC+12                OVERFLOW
         SLA   1,1
$XSUM4   L     14,$XL
         LM    0,13,$XR
         BR    14
$XSUMC8  CLC   $XD1(0),$XZERO
$XSUM9   LA    1,$XDATA
         BR    1
* MORE DIGITS: AS FOUR WORDS EACH
$XSUM5   LR    8,5
         LR    7,14
         LA    6,$XWB
         LA    1,$XGET
         BALR  9,1
         BALR  12,0
         USING *,12
         ST    2,$XSB
         LR    7,10
         LR    8,4
         LA    6,$XWA
         LA    1,$XGET
         BALR  9,1
         BALR  12,0
         USING *,12
         L     3,$XSB
         CLI   $XFN,0
         BE    $XSUMA
         LCR   3,3                      THE OTHER SIGN
         AH    3,$XH3
$XSUMA   LA    5,1                      5: THE RESULT'S SIGN
$XSUMB   LA    6,12
         SR    7,7
$XSUMC   L     1,$XWA(6)
         CH    2,$XH1
         BE    *+6
         LCR   1,1
         L     0,$XWB(6)
         CH    3,$XH1
         BE    *+6
         LCR   0,0
         AR    1,0
         AR    1,7
         SR    7,7
         C     1,$XE8
         BL    $XSUMD
         S     1,$XE8
         LA    7,1                      A CARRY
         B     $XSUME
$XSUMD   LTR   1,1
         BNM   $XSUME
         A     1,$XE8
         BCTR  7,0                      A BORROW
$XSUME   ST    1,$XWA(6)
         SH    6,$XH4
         BNM   $XSUMC
         CH    5,$XH1
         BNE   $XSUMF
         LTR   7,7
         BNM   $XSUMF
         LA    5,2                      BELOW ZERO: ITS COMPLEMENT
         LA    2,2
         XC    $XWB(16),$XWB
         B     $XSUMB
$XSUMF   MVC   $XF(4),$XL14
         LR    3,5
         LA    1,$XSUMG
         CLI   $XFN,2
         BCR   8,1
         LA    6,$XWA
         LA    1,$XPUT
         BALR  9,1
         BALR  12,0
         USING *,12
         SR    3,3
         CLI   $XZ,C'0'
         BE    *+8
         LA    3,12                     A DIGIT MORE THAN THIRTY-ONE
         LA    1,$XSTORE
         BR    1
         DROP  12
*---- PART
$XSUMG   BALR  12,0
         USING *,12
         SR    1,1
         CLC   $XWA(16),$XZERO
         BE    $XSUMH
         LA    1,8
         CH    3,$XH1
         BE    $XSUMH
         LA    1,4
$XSUMH   L     1,$XCC(1)
         SLA   1,1
         $XEND
         DROP  12
*---- ROUTINE
$XZAP    $XPAIR
         LR    7,14
         LA    6,$XWA
         LA    1,$XGET
         BALR  9,1
         BALR  12,0
         USING *,12
         NI    $XP+15,X'F0'
         OI    $XP+15,X'0C'
         CH    2,$XH1
         BE    *+8
         OI    $XP+15,X'0D'
         SR    3,3
         LA    1,$XSTORE
         BR    1
         DROP  12
*---- ROUTINE
$XMP     $XPAIR
         B     $XMPB
$XMPC    CLC   0(0,10),$XZERO
$XMPB    EX    8,$XMPC
         LA    1,$XDATA
         BCR   7,1                      ROOM FOR THE PRODUCT ISN'T ZERO
         LR    7,14
         LA    6,$XWB
         LA    1,$XGET
         BALR  9,1
         BALR  12,0
         USING *,12
         ST    2,$XSB
         LR    7,10
         LR    8,4
         LA    6,$XWA
         LA    1,$XGET
         BALR  9,1
         BALR  12,0
         USING *,12
         LA    3,1
         C     2,$XSB
         BE    *+8
         LA    3,2
         ST    3,$XSA
         XC    $XWC(16),$XWC
         LA    6,12
$XMP1    SR    1,1                      A CARRY
         LA    8,12
$XMP2    LR    9,8
         AR    9,6
         LA    9,$XWC-12(9)
         L     3,$XWA(8)
         M     2,$XWB(6)
         D     2,$XE8
         A     2,0(,9)
         AR    2,1
         LR    5,2
         SR    4,4
         D     4,$XE8
         ST    4,0(,9)
         LR    1,5
         AR    1,3
         SH    8,$XH4
         LR    9,8
         AR    9,6
         CH    9,$XH12
         BNL   $XMP2
         SH    6,$XH4
         CH    6,$XH8
         BNL   $XMP1
         SR    4,4
         IC    4,7(,11)
         LA    6,$XWC
         L     3,$XSA
         LA    1,$XPUT
         BALR  9,1
         BALR  12,0
         USING *,12
         LA    1,$XP+15
         SR    1,4
         EX    4,$XMVC10
         MVC   $XF(4),$XL14
         $XSAME
         $XEND
         DROP  12
*---- ROUTINE
$XDP     $XPAIR
         LR    7,14
         LA    6,$XWB
         LA    1,$XGET
         BALR  9,1
         BALR  12,0
         USING *,12
         ST    2,$XSB
         LR    7,10
         LR    8,4
         LA    6,$XWA
         LA    1,$XGET
         BALR  9,1
         BALR  12,0
         USING *,12
         ST    2,$XSA
         L     1,$XWB+8
         A     1,$XWB+12
         BZ    $XDP9
         B     $XDP0
$XDPC    CLC   $XZ(0),$XF0S
$XDP0    DS    0H
         SR    6,6                      6, 7: THE REMAINDER
         SR    7,7
         LA    1,$XZ
         LA    0,32
$XDP1    LR    3,7                      TEN TIMES, AND THE NEXT DIGIT
         M     2,$XF10
         SR    5,5
         IC    5,0(,1)
         SLL   5,28
         SRL   5,28
         AR    3,5
         SR    2,2
         D     2,$XE8
         LR    7,2
         LR    5,6
         M     4,$XF10
         AR    5,3
         LR    6,5
         LA    8,240
$XDP2    C     6,$XWB+8
         BL    $XDP4
         BH    $XDP3
         C     7,$XWB+12
         BL    $XDP4
$XDP3    LA    8,1(,8)
         S     6,$XWB+8
         S     7,$XWB+12
         BNM   $XDP2
         A     7,$XE8
         BCTR  6,0
         B     $XDP2
$XDP4    STC   8,0(,1)
         LA    1,1(,1)
         BCT   0,$XDP1
         SR    4,4
         SR    8,8
         IC    4,7(,11)
         IC    8,1(,11)
         SR    4,8                      4: THE QUOTIENT'S
         LA    5,32
         SR    5,4
         SR    5,4
         EX    5,$XDPC
         BNE   $XDP9                    IT DOESN'T FIT
         STM   6,7,$XWC+8
         XC    $XWC(8),$XWC
         NI    $XZ+31,X'0F'
         OI    $XZ+31,X'C0'
         L     1,$XSA
         C     1,$XSB
         BE    *+8
         OI    $XZ+31,X'D0'
         LA    1,$XPACKS
         BALR  9,1
         BALR  12,0
         USING *,12
         LR    5,4
         BCTR  4,0
         LA    1,$XP+15
         SR    1,4
         EX    4,$XMVC10
         AR    10,5
         LA    6,$XWC
         L     3,$XSA
         LA    1,$XPUT
         BALR  9,1
         BALR  12,0
         USING *,12
         LA    1,$XP+15
         SR    1,8
         EX    8,$XMVC10
         MVC   $XF(4),$XL14
         $XSAME
         $XEND
$XDP9    BALR  12,0
         USING *,12
         XC    $XP(4),$XP
         MVC   $XF(4),$XDIV
         LA    1,$XINTR
         BR    1
         DROP  12
*---- DATA
$XDIV    D     0,$XP                    INTERRUPTION 9
*---- ROUTINE
$XSRP    $XTWO
         LR    10,2
         $XPAST6
         SR    4,4
         IC    4,1(,11)
         LR    5,4
         SRL   4,4
         SLL   5,28
         SRL   5,28                     5: WHAT IS ADDED TO ROUND
         LR    7,10
         LR    8,4
         LA    6,$XWA
         LA    1,$XGET
         BALR  9,1
         BALR  12,0
         USING *,12
         MVC   $XY,$XF0S
         MVC   $XZR,$XF0S
         SR    3,3
         SLL   14,26
         SRA   14,26
         BM    $XSRP1
         LA    1,30(,14)                TO THE LEFT
         SR    1,4
         SR    1,4
         EX    1,$XSRPC
         BE    *+8
         LA    3,12                     A DIGIT IS LOST
         LA    1,$XZ(14)
         MVC   $XZ,0(1)
         B     $XSRP4
$XSRPC   CLC   $XZ(0),$XF0S
$XSRP1   LA    1,$XZR                   TO THE RIGHT
         AR    1,14
         SR    6,6
         IC    6,0(,1)
         LA    1,$XZ
         AR    1,14
         MVC   $XZR,0(1)
         MVC   $XZ,$XZR
         AR    6,5
         CH    6,$XH250
         BL    $XSRP4
         LA    1,$XZ+31
$XSRP2   CLI   0(1),C'9'
         BNE   $XSRP3
         MVI   0(1),C'0'
         BCTR  1,0
         B     $XSRP2
$XSRP3   IC    6,0(,1)
         LA    6,1(,6)
         STC   6,0(,1)
$XSRP4   NI    $XZ+31,X'0F'
         OI    $XZ+31,X'C0'
         CH    2,$XH1
         BE    *+8
         OI    $XZ+31,X'D0'
         LA    1,$XPACKS
         BALR  9,1
         BALR  12,0
         USING *,12
         LA    1,$XSTORE
         BR    1
         DROP  12
* THE OPERANDS OF A CALL OF TWO FIELDS: 10 THE FIRST ONE, 14 A COPY OF THE SECOND, 4, 8 LENGTHS LESS ONE, 11 THE FIRST MVC; BACK TO 9
*---- PART
$XFIELDS BALR  12,0
         USING *,12
         LTR   14,14
         BM    *+8                      BY BAL, ELSE BY BALR
         BCTR  14,0
         BCTR  14,0
         SH    14,$XH16
         ST    14,$XSB
         ST    9,$XSA
         MVC   $XI(2),$XLA10
         MVC   $XI+2(2),10(14)
         LM    0,14,$XR                 REGISTERS AS AT THE CALL
         EX    0,$XI
         BALR  12,0
         USING *,12
         L     11,$XSB
         L     9,$XSA
         LA    14,$XB
         SR    4,4
         SR    8,8
         IC    4,7(,11)
         IC    8,1(,11)
         BR    9
         DROP  12
* 7, 8: AN OPERAND AND ITS LENGTH LESS ONE: ITS WORDS AT 6, ITS SIGN IN 2, ITS DIGITS AT $XZ; BACK TO 9
*---- PART
$XGET    BALR  12,0
         USING *,12
         SR    2,2
         EX    8,$XTRT7
         BC    13,$XGET9                NO SIGN AT ITS END ALONE
         CH    2,$XH2
         BH    $XGET9
         XC    $XP,$XP
         LA    1,$XP+15
         SR    1,8
         EX    8,$XMVC7
         UNPK  $XZ+16(16),$XP+7(9)
         UNPK  $XZ(16),$XP(8)
         OI    $XZ+15,X'F0'
         OI    $XZ+31,X'F0'
         PACK  $XD1,$XZ(8)
         CVB   1,$XD1
         ST    1,0(,6)
         PACK  $XD1,$XZ+8(8)
         CVB   1,$XD1
         ST    1,4(,6)
         PACK  $XD1,$XZ+16(8)
         CVB   1,$XD1
         ST    1,8(,6)
         PACK  $XD1,$XZ+24(8)
         CVB   1,$XD1
         ST    1,12(,6)
         BR    9
$XGET9   LA    1,$XDATA
         BR    1
$XTRT7   TRT   0(0,7),$XSIGNS
         DROP  12
* THE WORDS AT 6 AND THE SIGN 3 TO $XP; BACK TO 9
*---- PART
$XPUT    BALR  12,0
         USING *,12
         L     1,0(,6)
         CVD   1,$XD1
         UNPK  $XZ(8),$XD1
         OI    $XZ+7,X'F0'
         L     1,4(,6)
         CVD   1,$XD1
         UNPK  $XZ+8(8),$XD1
         OI    $XZ+15,X'F0'
         L     1,8(,6)
         CVD   1,$XD1
         UNPK  $XZ+16(8),$XD1
         OI    $XZ+23,X'F0'
         L     1,12(,6)
         CVD   1,$XD1
         UNPK  $XZ+24(8),$XD1
         NI    $XZ+31,X'0F'
         OI    $XZ+31,X'C0'
         CH    3,$XH1
         BE    *+8
         OI    $XZ+31,X'D0'
         LA    1,$XPACKS
         BR    1
         DROP  12
* THE DIGITS AT $XZ TO $XP, BUT THE FIRST
*---- PART
$XPACKS  PACK  $XP(5),$XZ+1(9)
         PACK  $XP+4(5),$XZ+9(9)
         PACK  $XP+8(8),$XZ+17(15)
         BR    9
* $XP TO THE OPERAND AT 10, OF LENGTH 4 AND ONE MORE; 3: NOT ZERO WHERE A DIGIT IS LOST ALREADY
*---- PART
$XSTORE  BALR  12,0
         USING *,12
         LA    5,15
         SR    5,4
         BZ    $XSTORE1
         BCTR  5,0
         EX    5,$XSTRC
         BE    $XSTORE1
         LA    3,12                     OVERFLOW
$XSTORE1 LTR   3,3
         BNZ   $XSTORE3
         CLC   $XP(15),$XZERO
         BNE   $XSTORE2
         CLI   $XP+15,X'0F'
         BH    $XSTORE2
         MVI   $XP+15,X'0C'             ZERO IS PLUS
         B     $XSTORE3
$XSTORE2 LA    3,4
         TM    $XP+15,1
         BO    $XSTORE3
         LA    3,8
$XSTORE3 LA    1,$XP+15
         SR    1,4
         EX    4,$XMVC10
         MVC   $XF(4),$XL14
         L     1,$XCC(3)
         SLA   1,1
         $XEND
$XSTRC   CLC   $XP(0),$XZERO
         DROP  12
*---- PART
$XDATA   BALR  12,0
         USING *,12
         MVC   $XF(4),$XBAD
         LA    1,$XINTR
         BR    1
         DROP  12
*---- PART
$XINTR   BALR  12,0                     $XF IS INTERRUPTED, BY THE EX
         USING *,12
         ST    15,$X15
         L     4,$XL
         LA    4,0(,4)                  4: WHERE THE EX IS
         LA    5,60
$XINTR1  L     6,$XR(5)
         LA    6,0(,6)
         LR    7,4
         SR    7,6
         BM    $XINTR2
         LR    6,7
         SRL   6,12
         LTR   6,6
         BZ    $XINTR3                  A REGISTER REACHES IT
$XINTR2  SH    5,$XH4
         BP    $XINTR1
         $XSAME
         $XEND
$XINTR3  SLL   5,10
         AR    5,7
         STH   5,$XI+2
         MVC   $XI(2),$XBC
         $XSAME
         LM    0,14,$XR
         EX    0,$XI
         DROP  12
*---- DATA
$XBAD    CVB   0,$XL                    INTERRUPTION 7: A DIGIT F
*---- DATA
$XLA10   LA    10,0
*---- DATA
$XH16    DC    H'16'
*---- DATA
$XUNPK1  UNPK  $XZ(16),0(1,10)
*---- DATA
$XUNPK2  UNPK  $XZ(16),0(1,14)
*---- DATA
$XMVC7   MVC   0(0,1),0(7)
*---- DATA
$XMVC10  MVC   0(0,10),0(1)
*---- DATA
$XE8     DC    F'100000000'
*---- DATA
$XF10    DC    F'10'
*---- DATA
$XH2     DC    H'2'
*---- DATA
$XH3     DC    H'3'
*---- DATA
$XH4     DC    H'4'
*---- DATA
$XH8     DC    H'8'
*---- DATA
$XH12    DC    H'12'
*---- DATA
$XH250   DC    H'250'
*---- DATA
$XF0S    DC    64C'0'
* OF TWO DIGITS 0; OF A DIGIT AND A SIGN 1 OR 2; ELSE 4
*---- DATA
$XSIGNS  DC    10X'00000000000000000000010201020101',96X'04'
