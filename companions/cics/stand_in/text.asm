$ST      ST    14,$SR14
         USING $ST,15
         MVC   $SRFN(4),=X'18060000'
         EXEC  CICS LINK PROGRAM('@@NAME@@') COMMAREA($SR)             X
               LENGTH(=H'64') NOHANDLE
         XC    $SREIB,$SREIB
         L     14,$SR14
         BR    14
         DROP  15
         LTORG
