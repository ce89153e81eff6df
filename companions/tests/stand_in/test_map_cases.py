"""Maps whose screens and areas were worked out by hand: OCCURS, GRPNAME, extended attributes, RECEIVE SET, SEND CONTROL, and what drops a map."""
from dataclasses import dataclass, field

from cics.stand_in.rewriting import Setting
from cics.transcripts import is_of_page
from tests.case import TestCase, expect
from tests.stand_in.looks import items_of
from tests.stand_in.running import mapset_of, ran, source_of

BMS = """
S        DFHMSD TYPE=MAP,STORAGE=AUTO,TIOAPFX=YES,DSATTS=(COLOR)
M        DFHMDI SIZE=(24,80)
LINE     DFHMDF POS=(1,1),LENGTH=4,ATTRB=UNPROT,OCCURS=3
MONTH    DFHMDF POS=(3,1),LENGTH=2,ATTRB=UNPROT,GRPNAME=DATE
DASH     DFHMDF POS=(3,3),LENGTH=1,GRPNAME=DATE,INITIAL='-'
YEAR     DFHMDF POS=(3,4),LENGTH=2,GRPNAME=DATE
         DFHMDF POS=(3,7),LENGTH=1,ATTRB=ASKIP
HIDDEN   DFHMDF POS=(5,1),LENGTH=5,ATTRB=(UNPROT,DRK),INITIAL='UNSEE'
         DFHMDF POS=(5,7),LENGTH=4,ATTRB=ASKIP,INITIAL='SEEN'
N        DFHMDI SIZE=(2,20),LINE=10,COLUMN=11
TITLE    DFHMDF POS=(1,1),LENGTH=5,ATTRB=PROT,INITIAL='SMALL'
         DFHMSD TYPE=FINAL
""".strip("\n")
MAP = "MAP('M') MAPSET('S')"


@dataclass(frozen=True)
class Case:
    """Statements (an EXEC without its `EXEC CICS`, where it begins with >), keys after the first, the screen's rows, and what OUT has."""

    what: str
    statements: list[str]
    keys: list[str]
    rows: dict[int, str]
    out: str = ""
    ending: str = "Ended"
    left: list[str] = field(default_factory=list)


SHOWN = {3: "   -", 5: "       SEEN"}
CASES = [
    Case("all of a map", [f"> SEND {MAP} MAPONLY ERASE"], [], SHOWN),
    Case("fields of OCCURS and of a group", ["         MVC   LINEO,=C'ONE '", "         MVC   LINEO+8(4),=C'TWO '", "         MVC   MONTHO,=C'12'",
                                             "         MVI   DASHO,C'/'",
                                             "         MVC   YEARO,=C'84'", f"> SEND {MAP} ERASE"], [], {**SHOWN, 1: " ONE  TWO", 3: " 12/84"}),
    Case("typed into OCCURS and a group", [f"> SEND {MAP} MAPONLY ERASE", f"> RECEIVE {MAP}", "         MVC   OUT(4),LINEO+8",
                                           "         MVC   OUT+4(5),DATEI",
                                           "         MVC   OUT+9(2),YEARI"], ["LINE(2)=AB;DATE=10-99"], SHOWN, "AB  10-9999"),
    Case("an area that RECEIVE gets", [f"> SEND {MAP} MAPONLY ERASE", f"> RECEIVE {MAP} SET(7)", "         MVC   OUT(4),LINEI-MS(7)"],
         ["LINE(1)=WXYZ"], SHOWN, "WXYZ"),
    Case("a map that has a place of its own", ["> SEND MAP('N') MAPSET('S') MAPONLY ERASE"], [], {10: "           SMALL"}),
    Case("two maps on a screen", [f"> SEND {MAP} MAPONLY ERASE", "> SEND MAP('N') MAPSET('S')"], [], {**SHOWN, 10: "           SMALL"}),
    Case("what is dark can be read", [f"> SEND {MAP} MAPONLY ERASE", f"> RECEIVE {MAP}", "         MVC   OUT(5),HIDDENI"], ["HIDDEN=PASS"], SHOWN,
         "PASS"),
    Case("SEND CONTROL ERASE", [f"> SEND {MAP} MAPONLY ERASE", "> SEND CONTROL ERASE FREEKB"], [], {}),
    Case("SEND CONTROL ERASEAUP", ["         MVC   LINEO,=C'ONE '", f"> SEND {MAP} ERASE", "> SEND CONTROL ERASEAUP"], [], {5: "       SEEN"}),
    Case("a text drops the map", [f"> SEND {MAP} MAPONLY ERASE", "> SEND TEXT FROM(=C'TEXT') LENGTH(4) ERASE", f"> RECEIVE {MAP} RESP(RC)",
                                  "         CLC   RC,DFHRESP(MAPFAIL)",
                                  "         BNE   END", "         MVC   OUT(7),=C'MAPFAIL'"], ["LINE(1)=A"], {1: "TEXT"}, "MAPFAIL"),
    Case("no field of the screen", [f"> SEND {MAP} MAPONLY ERASE", f"> RECEIVE {MAP}"], ["NONE=A"], SHOWN, ending="Abended SIKY"),
    Case("past a field's end", [f"> SEND {MAP} MAPONLY ERASE", f"> RECEIVE {MAP}"], ["LINE(1)=ABCDE"], SHOWN, ending="Abended SIKY"),
    Case("a protected field", ["> SEND MAP('N') MAPSET('S') MAPONLY ERASE", "> RECEIVE MAP('N') MAPSET('S')"], ["TITLE=A"], {10: "           SMALL"},
         ending="Abended SIKY"),
    Case("MAPFAIL that isn't handled", [f"> SEND {MAP} MAPONLY ERASE", f"> RECEIVE {MAP}"], [""], SHOWN, ending="Abended AEI9"),
    Case("MAPFAIL that is handled", ["> HANDLE CONDITION MAPFAIL(FAILED)", f"> SEND {MAP} MAPONLY ERASE", f"> RECEIVE {MAP}", "         B     END",
                                     "FAILED   MVI   OUT,C'F'"], [""], SHOWN, "F"),
    Case("a key that is handled goes before MAPFAIL", ["> HANDLE CONDITION MAPFAIL(FAILED)", "> HANDLE AID PF3(PRESSED) ANYKEY(OTHER)",
                                                       f"> SEND {MAP} MAPONLY ERASE",
                                                       f"> RECEIVE {MAP}", "FAILED   MVI   OUT,C'F'", "         B     END", "OTHER    MVI   OUT,C'O'",
                                                       "         B     END", "PRESSED  MVI   OUT,C'P'"], ["PF3"], SHOWN, "P"),
    Case("any key", ["> HANDLE AID PF3(PRESSED) ANYKEY(OTHER)", f"> SEND {MAP} MAPONLY ERASE", f"> RECEIVE {MAP}", "         B     END",
                     "OTHER    MVI   OUT,C'O'", "         B     END", "PRESSED  MVI   OUT,C'P'"], ["PF4"], SHOWN, "O"),
    Case("EIBCPOSN", [f"> SEND {MAP} MAPONLY ERASE CURSOR(163)", f"> RECEIVE {MAP}", "         LH    4,EIBCPOSN", "         CH    4,=H'163'",
                      "         BNE   END", "         MVI   OUT,C'+'"], ["LINE(1)=A"], SHOWN, "+"),
    Case("a cursor that the key moves", [f"> SEND {MAP} MAPONLY ERASE", f"> RECEIVE {MAP}", "         LH    4,EIBCPOSN", "         CH    4,=H'1919'",
                                         "         BNE   END", "         MVC   OUT(4),LINEI"], ["@=1919;LINE(1)=AB"], SHOWN, "AB"),
    Case("a cursor beyond the screen", [f"> SEND {MAP} MAPONLY ERASE", f"> RECEIVE {MAP}"], ["LINE(1)=A;@=1920"], SHOWN, ending="Abended SIKY"),
    Case("RESP goes by no key", ["> HANDLE AID PF3(PRESSED)", f"> SEND {MAP} MAPONLY ERASE", f"> RECEIVE {MAP} RESP(RC)", "         MVI   OUT,C'R'",
                                 "         B     END", "PRESSED  MVI   OUT,C'P'"], ["PF3"], SHOWN, "R"),
]


FIRST = ["> RECEIVE INTO(OUT) LENGTH(RC) NOHANDLE", "         MVC   OUT,=CL40' '"]
STORAGE = ["RC       DS    F", "OUT      DS    CL40", "         COPY  S"]


class MapCasesTest(TestCase):
    def test_cases(self) -> None:
        mapset, told = mapset_of(BMS)
        self.assertEqual(told, [])
        for case in CASES:
            keys = ["ENTER TRAN", *(key if key[:2] in ("PF", "CL") else f"ENTER {key}".rstrip() for key in case.keys)]
            result = ran(source_of(case.statements, STORAGE, FIRST), Setting([mapset]), keys, ["QUEUE OUT 1", "SCREEN T001"])
            rows = {int(line[:2]): line[3:].rstrip() for line in result.transcript[result.transcript.index("SCREEN T001") :] if is_of_page(line)}
            out = items_of(result.transcript, "QUEUE 'OUT' ITEM 1").decode("cp037").rstrip()
            found = (result.ending(), {at: row for at, row in rows.items() if row}, out, [text for text in result.told if text.startswith("left")])
            refused = [line for line in result.transcript if "REFUSED" in line]
            expect(case.what, found == (case.ending, case.rows, case.out, case.left), (found, refused))
