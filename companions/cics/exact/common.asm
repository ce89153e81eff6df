* What all routines share. A call is
*          ST    14,$X14
*          BAL   14,routine
*          an instruction that has the operands, and isn't done
*          L     14,$X14
* Where the operation may be interrupted, EX 0,$XF stands for the last: it loads register 14, or is interrupted as the operation is.
* A call of two packed fields is
*          ST    14,$X14
*          MVC   $XB(length),second
*          MVC   $XA(length),first
*          BAL   14,routine
*          EX    0,$XF
* BAL may be L 14,=A(routine) and BALR 14,14, so that the link has another length of the instruction.
* A block begins with *---- and its kind: EQUATES, MACRO, ROUTINE, PART, DATA or STORAGE. A block is put into a program where a name that
* stands in its first column is used; a MACRO is put where its name is the operation.
*---- EQUATES
$XR      EQU   DFHEIPL                  REGISTERS 0 TO 15
*---- EQUATES
$X14     EQU   DFHEIPL+56
*---- EQUATES
$X15     EQU   DFHEIPL+60
*---- EQUATES
$XL      EQU   DFHEIPL+64               THE LINK
*---- EQUATES
$XF      EQU   DFHEIPL+68               AN INSTRUCTION
*---- EQUATES
$XI      EQU   DFHEITP                  ANOTHER ONE
*---- MACRO $XTWO
         STM   0,13,$XR
         ST    14,$XL
         MVI   $XF,X'41'                LA 0,FIRST
         MVI   $XF+1,0
         MVC   $XF+2(2),2(14)
         MVI   $XI,X'41'                LA 14,SECOND
         MVI   $XI+1,X'E0'
         MVC   $XI+2(2),4(14)
         L     14,$X14                  REGISTERS AS AT THE CALL
         EX    0,$XF
         EX    0,$XI
         BALR  12,0
         USING *,12
         L     11,$XL                   11: THE CALL
         LR    2,0                      2, 14: THE OPERANDS
*---- MACRO $XPAIR
         STM   0,13,$XR
         ST    14,$XL
         BALR  12,0
         USING *,12
         LA    1,$XFIELDS
         BALR  9,1
         BALR  12,0
         USING *,12
*---- MACRO $XPAST6
         LR    1,11
         AH    1,$XH6
         ST    1,$XL                    BACK TO THE EX
*---- MACRO $XONE
         STM   0,13,$XR
         ST    15,$X15
         ST    14,$XL
         MVC   $XI+1(3),1(14)           LA 0,SECOND
         MVI   $XI,X'41'
         NI    $XI+1,X'0F'
         L     14,$X14                  REGISTERS AS AT THE CALL
         EX    0,$XI
         BALR  12,0
         USING *,12
         L     11,$XL
         LR    2,0                      2: THE ADDRESS
         SR    4,4
         IC    4,1(,11)
         SRL   4,4
         SLL   4,2
         LA    4,$XR(4)                 4: WHERE THE FIRST REGISTER IS
*---- MACRO $XRS
         STM   0,13,$XR
         ST    15,$X15
         ST    14,$XL
         MVI   $XI,X'41'                LA 0,SECOND
         MVI   $XI+1,0
         MVC   $XI+2(2),2(14)
         L     14,$X14                  REGISTERS AS AT THE CALL
         EX    0,$XI
         BALR  12,0
         USING *,12
         L     11,$XL
         LR    2,0                      2: THE ADDRESS
         SR    4,4
         IC    4,1(,11)
         LR    9,4
         SRL   4,4
         SLL   4,2
         LA    4,$XR(4)                 4, 9: WHERE THE REGISTERS ARE
         SLL   9,28
         SRL   9,26
         LA    9,$XR(9)
*---- MACRO $XRR
         STM   0,13,$XR
         ST    15,$X15
         ST    14,$XL
         BALR  12,0
         USING *,12
         SR    4,4
         IC    4,1(,14)
         LR    2,4
         SRL   4,4
         SLL   4,2
         LA    4,$XR(4)                 4, 2: WHERE THE REGISTERS ARE
         SLL   2,28
         SRL   2,26
         LA    2,$XR(2)
*---- MACRO $XSAME
         L     1,$XL                    THE CODE AS AT THE CALL
         SLL   1,2
         SRL   1,30
         SLL   1,2
         L     1,$XCC(1)
         SLA   1,1
*---- MACRO $XEND
         L     14,$XL
         LM    0,13,$XR
         BR    14
*---- MACRO $XOUT2
         L     14,$XL
         L     15,$X15
         LM    0,13,$XR
         B     2(,14)
         DROP  12
*---- MACRO $XOUT4
         L     14,$XL
         L     15,$X15
         LM    0,13,$XR
         B     4(,14)
         DROP  12
*---- MACRO $XOUT6
         L     14,$XL
         LM    0,13,$XR
         B     6(,14)
         DROP  12
*---- DATA
$XBC     BC    15,0
*---- DATA
$XL14    L     14,$X14
*---- DATA
$XH6     DC    H'6'
*---- DATA
$XCC     DC    F'0',F'-1',F'1',X'40000000' SHIFTED LEFT: CODES 0 TO 3
*---- DATA
$XZERO   DC    XL16'00'
