$SP      LA    1,$SR-DFHEISTG(,1)
         USING $SP,15
         USING $SR,1
         LH    0,$SHD
         CH    0,=H'4'
         BL    $SP1
         EXEC  CICS ABEND ABCODE('@@CODE@@') CANCEL
$SP1     AH    0,=H'1'
         STH   0,$SHD
         MVC   $SHS+3*@@SIZE@@(@@SIZE@@),$SHS+2*@@SIZE@@
         MVC   $SHS+2*@@SIZE@@(@@SIZE@@),$SHS+@@SIZE@@
         MVC   $SHS+@@SIZE@@(@@SIZE@@),$SHS
         MVC   $SHS(@@SIZE@@),$SHT
         XC    $SHT(@@SIZE@@),$SHT
         BR    14
$SU      LA    1,$SR-DFHEISTG(,1)
         USING $SU,15
         LH    0,$SHD
         SH    0,=H'1'
         STH   0,$SHD
         MVC   $SHT(@@SIZE@@),$SHS
         MVC   $SHS(@@SIZE@@),$SHS+@@SIZE@@
         MVC   $SHS+@@SIZE@@(@@SIZE@@),$SHS+2*@@SIZE@@
         MVC   $SHS+2*@@SIZE@@(@@SIZE@@),$SHS+3*@@SIZE@@
         BR    14
         DROP  1,15
         LTORG
