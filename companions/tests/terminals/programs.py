"""Programs for the tests, as parts of a set-up."""
from collections.abc import Sequence

RETURN = """SOURCE RET1
RET1     CSECT
         EXEC  CICS RETURN
         END
/*
TRANSACTION RET1 RET1
"""
# It shows what it receives, up to END; a screen of its own at the end.
TALK = """SOURCE TALK
DFHEISTG DSECT
LEN      DS    H
LINE     DS    CL1920
TALK     CSECT
AGAIN    MVC   LEN,=H'1920'
         EXEC  CICS RECEIVE INTO(LINE) LENGTH(LEN)
         CLC   LINE(3),=C'END'
         BE    OUT
         EXEC  CICS SEND TEXT FROM(LINE) LENGTH(LEN) ERASE
         B     AGAIN
OUT      EXEC  CICS SEND TEXT FROM(=C'GOODBYE') LENGTH(=H'7') ERASE
         EXEC  CICS RETURN
         END
/*
TRANSACTION TALK TALK
"""
# HOLD has a resource until its next input; TAKE waits for it, and says so when it has it.
RESOURCE = """SOURCE HOLD
DFHEISTG DSECT
LEN      DS    H
LINE     DS    CL80
HOLD     CSECT
         EXEC  CICS ENQ RESOURCE(=C'RES') LENGTH(=H'3')
         MVC   LEN,=H'80'
         EXEC  CICS RECEIVE INTO(LINE) LENGTH(LEN)
         MVC   LEN,=H'80'
         EXEC  CICS RECEIVE INTO(LINE) LENGTH(LEN)
         EXEC  CICS RETURN
         END
/*
TRANSACTION HOLD HOLD
SOURCE TAKE
TAKE     CSECT
         EXEC  CICS ENQ RESOURCE(=C'RES') LENGTH(=H'3')
         EXEC  CICS SEND TEXT FROM(=C'TAKEN') LENGTH(=H'5') ERASE
         EXEC  CICS RETURN
         END
/*
TRANSACTION TAKE TAKE
"""
LOOP = """SOURCE LOOP
LOOP     CSECT
         EXEC  CICS SUSPEND
         B     LOOP
         END
/*
TRANSACTION LOOP LOOP
"""
# The next key goes on with it, whatever it is.
PSEUDO = """SOURCE ASK
ASK      CSECT
         EXEC  CICS SEND TEXT FROM(=C'NAME?') LENGTH(=H'5') ERASE
         EXEC  CICS RETURN TRANSID('TALK')
         END
/*
TRANSACTION ASK ASK
"""
SPIN = """SOURCE SPIN
SPIN     CSECT
         USING SPIN,3
         B     SPIN
         END
/*
TRANSACTION SPIN SPIN
"""
# The same as RET1, as an image that examples/cases/edf-stopped.script has.
RET1_IMAGE = """IMAGE RET1 80
4100F01C5000F0189680F0184110F018
41E0080005EE0000000000000E080000
/*
TRANSACTION RET1 RET1
"""
# SUSPEND and RETURN, as docs/SCRIPT.md has it.
TWO = """IMAGE TWO 80
4100F0285000D0009680D0004110D00041E0080005EE
4100F02C5000D0009680D00041E0080005EE
120800000E080000
/*
TRANSACTION TWO TWO
"""
# Its turns take their time.
BUSY = """SOURCE BUSY
BUSY     CSECT
AGAIN    L     4,=F'60000'
COUNT    BCT   4,COUNT
         EXEC  CICS SUSPEND
         B     AGAIN
         END
/*
TRANSACTION BUSY BUSY
"""


def page_source(name: str, rows: Sequence[str]) -> str:
    """A program that shows a page, and then what it receives."""
    data = b"\x15".join(row.encode("cp037") for row in rows)
    constants = [f"         DC    X'{data[at : at + 25].hex().upper()}'\n" for at in range(0, len(data), 25)]
    return f"""SOURCE {name}
DFHEISTG DSECT
LEN      DS    H
LINE     DS    CL1920
{name}       CSECT
         EXEC  CICS SEND TEXT FROM(PAGE) LENGTH(=H'{len(data)}') ERASE
         MVC   LEN,=H'1920'
         EXEC  CICS RECEIVE INTO(LINE) LENGTH(LEN)
         MVC   LEN,=H'1920'
         EXEC  CICS RECEIVE INTO(LINE) LENGTH(LEN)
         EXEC  CICS SEND TEXT FROM(LINE) LENGTH(LEN) ERASE
         EXEC  CICS RETURN
PAGE     DS    0C
{"".join(constants)}         END
/*
TRANSACTION {name} {name}
"""


# Two items in a queue.
JOBS = """SOURCE JOBS
JOBS     CSECT
         EXEC  CICS WRITEQ TS QUEUE('JOBS') FROM(OIL) LENGTH(=H'12')
         EXEC  CICS WRITEQ TS QUEUE('JOBS') FROM(SHUT) LENGTH(=H'13')
         EXEC  CICS RETURN
LINE     DS    F
OIL      DC    C'OIL THE PUMP'
SHUT     DC    C'SHUT THE GATE'
         END
/*
TRANSACTION JOBS JOBS
"""
# An interruption, a condition, and neither.
DIVIDES = """SOURCE DIVI
DIVI     CSECT
         SR    4,4
         SR    2,2
         LA    3,7
         DR    2,4
         EXEC  CICS RETURN
         END
/*
TRANSACTION DIVI DIVI
SOURCE QUID
QUID     CSECT
* A COMMENT
         EXEC  CICS DELETEQ TS QUEUE('NONE')
         EXEC  CICS RETURN
         END
/*
TRANSACTION QUID QUID
SOURCE FINE
FINE     CSECT
         EXEC  CICS RETURN
         END
/*
TRANSACTION FINE FINE
"""
# More fields than EDF's storage page shows, and an area.
FIELDS = """SOURCE FLDS
DFHEISTG DSECT
NAME     DS    CL20
TABLE    DS    CL900
LAST     DS    F
FLDS     CSECT
         EXEC  CICS GETMAIN SET(9) LENGTH(=H'500') INITIMG(=C'*')
         EXEC  CICS RETURN
         END
/*
TRANSACTION FLDS FLDS
"""
# Each key that begins it puts an item into a queue.
COUNTS = """SOURCE PUT
DFHEISTG DSECT
LEN      DS    H
LINE     DS    CL80
PUT      CSECT
         MVC   LEN,=H'80'
         EXEC  CICS RECEIVE INTO(LINE) LENGTH(LEN)
         EXEC  CICS WRITEQ TS QUEUE('KEPT') FROM(LINE) LENGTH(LEN)
         EXEC  CICS RETURN
         END
/*
TRANSACTION PUT PUT
"""
