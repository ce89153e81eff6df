$SC      LA    1,$SR-DFHEISTG(,1)
         USING $SC,15
         USING $SR,1
         ST    2,$SRR2
         ICM   2,15,$SREIB             DID THE PROGRAM RUN?
         BZ    $SCX
         MVC   EIBFN-DFHEIBLK(2,2),$SRFN
         MVC   EIBRESP-DFHEIBLK(4,2),$SRRESP
         XC    EIBRCODE-DFHEIBLK(6,2),EIBRCODE-DFHEIBLK(2)
         MVC   EIBRCODE-DFHEIBLK(1,2),$SRRESP+3
         MVC   EIBRSRCE-DFHEIBLK(8,2),$SRNAM
         XC    $SREIB,$SREIB
@@EIB@@
         TM    $SRHOW,X'01'            RESP OR NOHANDLE
         BO    $SCR
@@KEYS@@
$SCN     L     2,$SRR2
         CLC   $SRRESP,=F'0'
         BCR   8,14
@@TABLE@@
         ST    14,$SR14                WHERE THE REQUEST IS
         B     $SCA
$SCG     BC    4,$SCR                  IGNORED
         L     2,$SRR2
         LR    1,0
         BR    1
$SCR     L     2,$SRR2
         BR    14
         DROP  1
$SCA     EXEC  CICS ABEND ABCODE($SRABC)
$SCX     EXEC  CICS ABEND ABCODE('@@CODE@@') CANCEL
         DROP  15
         LTORG
