"""BMS sources: what is read of them, the symbolic maps that are made, and what is told."""
from cics.stand_in.mapsets import Justified
from cics.stand_in.symbolic import attributes, symbolic_maps
from tests.case import TestCase, expect
from tests.stand_in.running import mapset_of, told_of

SOURCE = """
ORDSET   DFHMSD TYPE=&SYSPARM,MODE=INOUT,LANG=ASM,STORAGE=AUTO,        *
               CTRL=(FREEKB,FRSET),TIOAPFX=YES
ORDM     DFHMDI SIZE=(24,80)
         DFHMDF POS=(1,1),LENGTH=6,INITIAL='IT''S &&'         A REMARK
QTY      DFHMDF POS=(3,10),LENGTH=4,ATTRB=(NUM,FSET,IC)
NOTE     DFHMDF POS=(4,1),LENGTH=6,ATTRB=(UNPROT,BRT),JUSTIFY=RIGHT
LINE     DFHMDF POS=(6,1),LENGTH=10,ATTRB=(PROT,DRK),OCCURS=3
MONTH    DFHMDF POS=(12,40),LENGTH=2,ATTRB=UNPROT,GRPNAME=DATE
DASH     DFHMDF POS=(12,42),LENGTH=1,GRPNAME=DATE,INITIAL='-'
YEAR     DFHMDF POS=(12,44),LENGTH=2,GRPNAME=DATE
FOOT     DFHMDI SIZE=(2,40),LINE=23,COLUMN=41
MSG      DFHMDF POS=(2,2),LENGTH=9,ATTRB=(ASKIP,BRT),XINIT=C1C2
         DFHMSD TYPE=FINAL
         END
""".strip("\n")

SYMBOLIC = """* SYMBOLIC MAPS OF ORDSET
ORDMS    DS    0C
ORDMI    DS    0C
ORDMO    DS    0C
         DS    CL12
QTYL     DS    CL2
QTYF     DS    0C
QTYA     DS    C
QTYI     DS    0CL4
QTYO     DS    CL4
NOTEL    DS    CL2
NOTEF    DS    0C
NOTEA    DS    C
NOTEI    DS    0CL6
NOTEO    DS    CL6
LINED    DS    0CL13
LINEL    DS    CL2
LINEF    DS    0C
LINEA    DS    C
LINEI    DS    0CL10
LINEO    DS    CL10
         DS    2CL13
DATEL    DS    CL2
DATEF    DS    0C
DATEA    DS    C
DATEI    DS    0CL6
DATEO    DS    0CL6
MONTHI   DS    0CL2
MONTHO   DS    CL2
DASHI    DS    0CL1
DASHO    DS    CL1
         DS    CL1
YEARI    DS    0CL2
YEARO    DS    CL2
ORDME    EQU   *
ORDML    EQU   ORDME-ORDMS
FOOTS    DS    0C
FOOTI    DS    0C
FOOTO    DS    0C
         DS    CL12
MSGL     DS    CL2
MSGF     DS    0C
MSGA     DS    C
MSGI     DS    0CL9
MSGO     DS    CL9
FOOTE    EQU   *
FOOTL    EQU   FOOTE-FOOTS""".split("\n")

HEAD = "S        DFHMSD TYPE=MAP\nM        DFHMDI SIZE=(24,80)\nA        DFHMDF POS=(2,1),LENGTH=3\n"
TAIL = "\n         DFHMSD TYPE=FINAL\n"
PAST = f"{'X        DFHMDF POS=(3,1),LENGTH=14,ATTRB=(ASKIP,BRT),':<56}INITIAL='VENDORS BY KEY'"  # its text goes past column 71
UNENDED = "X        DFHMDF POS=(3,1),LENGTH=14,"

# Lines in a map, the fourth and those that follow, and what is told of them: the line, the column and the words that must be there.
REFUSED = [
    ("X        DFHMDF POS=(24,70),LENGTH=20", "4:36: refused: DFHMDF X: it goes past the map's last place"),
    ("X        DFHMDF POS=(1,81),LENGTH=2", "4:24: refused: POS=(1,81): it is (line,column), with a line of 1 to 24 and a column of 1 to 80"),
    ("X        DFHMDF POS=(25,1),LENGTH=2", "4:22: refused: POS=(25,1): it is (line,column)"),
    ("X        DFHMDF POS=(0,1),LENGTH=2", "4:22: refused: POS=(0,1): it is (line,column)"),
    ("X        DFHMDF POS=(1),LENGTH=2", "4:21: refused: POS=(1): it is (line,column)"),
    ("X        DFHMDF POS=1920,LENGTH=2", "4:21: refused: POS=1920: it is 0 to 1919"),
    ("X        DFHMDF LENGTH=2", "4:10: refused: DFHMDF without POS"),
    ("X        DFHMDF POS=(1,1)", "4:10: refused: DFHMDF without LENGTH"),
    ("X        DFHMDF POS=(1,1),LENGTH=2A", "4:34: refused: LENGTH=2A: it is 0 to 256"),
    ("X        DFHMDF POS=(1,1),LENGTH=257", "4:34: refused: LENGTH=257: it is 0 to 256"),
    ("X        DFHMDF POS=(1,1),LENGTH=2,NEAR=5", "4:36: refused: DFHMDF NEAR: no operand that is known here"),
    ("X        DFHMDF POS=(1,1),LENGTH=2,SIZE=(1,1)", "4:36: refused: DFHMDF SIZE: no operand that is known here"),
    ("X        DFHMDF POS=(1,1),LENGTH=2,LENGTH=3", "4:36: refused: LENGTH is there twice"),
    ("X        DFHMDF POS=(1,1),,LENGTH=2", "4:26: refused: an operand without a name"),
    ("X        DFHMDF POS=(1,1),LENGTH=2,ATTRB=(FOO)", "4:43: refused: ATTRB=FOO: it may be ASKIP"),
    ("X        DFHMDF POS=(1,1),LENGTH=2,ATTRB=(NUM,PROT,UNPROT)", "4:52: refused: ATTRB=(NUM,PROT,UNPROT): UNPROT and PROT aren't given together"),
    ("X        DFHMDF POS=(1,1),LENGTH=2,ATTRB=(PROT,BRT", "4:42: refused: this parenthesis isn't closed"),
    ("X        DFHMDF POS=(1,1),LENGTH=2,COLOR=REED", "4:42: refused: COLOR=REED: it may be DEFAULT"),
    ("X        DFHMDF POS=(1,1),LENGTH=2,COLOR=(RED,BLUE)", "4:47: refused: COLOR=(RED,BLUE): one word may be given"),
    ("X        DFHMDF POS=(1,1),LENGTH=2,JUSTIFY=(LEFT,RIGHT)", "4:50: refused: JUSTIFY=(LEFT,RIGHT): RIGHT and LEFT aren't given together"),
    ("X        DFHMDF POS=(1,1),LENGTH=2,OCCURS=0", "4:43: refused: OCCURS=0: it is 1 to 640"),
    ("X        DFHMDF POS=(1,1),LENGTH=2,OCCURS=X", "4:43: refused: OCCURS=X: it is 1 to 640"),
    ("X        DFHMDF POS=(24,1),LENGTH=39,OCCURS=3", "4:45: refused: DFHMDF X: it goes past the map's last place"),
    ("X        DFHMDF POS=(1,1),LENGTH=2,OCCURS=2,GRPNAME=G", "4:43: refused: OCCURS and GRPNAME aren't given together"),
    ("X        DFHMDF POS=(1,1),LENGTH=2,GRPNAME=1", "4:44: refused: a group has a name of 1 to 7 letters"),
    ("X        DFHMDF POS=(2,4),LENGTH=2", "4:21: refused: DFHMDF X: it has places of DFHMDF A in line 3"),
    ("X        DFHMDF POS=(1,80),LENGTH=1", "4:21: refused: DFHMDF X: it has places of DFHMDF A in line 3"),
    ("A        DFHMDF POS=(3,1),LENGTH=2", "4:1: refused: A is there twice, first in line 3"),
    ("M        DFHMDF POS=(3,1),LENGTH=2", "4:1: refused: M is there twice, first in line 2"),
    ("TOOLONGX DFHMDF POS=(3,1),LENGTH=2", "4:1: refused: a field has a name of 1 to 7 letters"),
    ("M        DFHMDI SIZE=(24,80)", "4:1: refused: M is there twice, first in line 2"),
    ("         DFHMDI SIZE=(24,80)", "4:1: refused: a map has a name of 1 to 7 letters"),
    ("N        DFHMDI SIZE=(2,80)\nX        DFHMDF POS=(3,1),LENGTH=2", "5:22: refused: POS=(3,1): it is (line,column), with a line of 1 to 2"),
    ("N        DFHMDI SIZE=(2,40)\nX        DFHMDF POS=(1,30),LENGTH=20", "5:35: refused: DFHMDF X: it goes past the map's last column, 40"),
    ("N        DFHMDI SIZE=(2,40)\nX        DFHMDF POS=41,LENGTH=2", "5:21: refused: POS=41 in a map of 40 columns"),
    ("N        DFHMDI SIZE=(24,81)", "4:26: refused: SIZE=(24,81): it is (line,column)"),
    ("N        DFHMDI SIZE=(2,40),COLUMN=42", "4:36: refused: COLUMN=42: it is 1 to 41"),
    ("N        DFHMDI SIZE=(2,40),LINE=NEXT", "4:34: refused: LINE=NEXT: a place that is known only when pages are built"),
    ("N        DFHMDI SIZE=(2,40),CTRL=(FREEKB,FRESET)", "4:42: refused: CTRL=FRESET: it may be PRINT"),
    ("T        DFHMSD TYPE=MAP", "4:10: refused: a second mapset"),
    ("         DFHMSD TYPE=FINAL\nX        DFHMDF POS=(1,1),LENGTH=2", "5:10: refused: DFHMDF after TYPE=FINAL"),
    ("         DFHMSD TYPE=FINAL\n         END\nX        DFHMDF POS=(1,1),LENGTH=2", "6:1: refused: it stands after END"),
    ("X        DFHMDF POS=(1,1),INITIAL='A^B'", "4:37: refused: INITIAL has '^', for which there is no code; write: XINIT"),
    ("X        DFHMDF POS=(1,1),INITIAL='A&B'", "4:35: refused: an ampersand or apostrophe alone in INITIAL"),
    ("X        DFHMDF POS=(1,1),INITIAL=AB", "4:35: refused: INITIAL=AB: write: a text between apostrophes"),
    ("X        DFHMDF POS=(1,1),INITIAL=''", "4:35: refused: INITIAL='': an empty text"),
    ("X        DFHMDF POS=(1,1),LENGTH=6,INITIAL='VENDORS'", "4:44: refused: INITIAL has 7 characters, and LENGTH is 6"),
    ("X        DFHMDF POS=(1,1),LENGTH=6,INITIAL='VENDOR", "4:44: refused: this apostrophe isn't closed"),
    ("X        DFHMDF POS=(1,1),XINIT=C1C", "4:33: refused: XINIT=C1C: it is an even number of hexadecimal digits"),
    ("X        DFHMDF POS=(1,1),XINIT=C1,INITIAL='A'", "4:33: refused: INITIAL and XINIT aren't given together"),
    (PAST, "4:72: refused: the line goes past column 71"),
    (f"{UNENDED:<70}*\n               ATTRB=ASKIP", "4:71: refused: a mark of continuation in column 71"),
    (f"{UNENDED:<72}*\n               ATTRB=ASKIP", "4:73: refused: a mark of continuation in column 73"),
    (f"{UNENDED}\n               ATTRB=ASKIP", "4:36: refused: a comma at the end, and no mark of continuation"),
    (f"{UNENDED:<71}*\nY        DFHMDF POS=(5,1),LENGTH=2", "4:72: refused: a mark in column 72"),
    (f"{UNENDED:<71}*\n                 ATTRB=ASKIP", "5:18: refused: a line that goes on with one above begins in column 16"),
    (f"{UNENDED[:-1]:<71}*\n               ATTRB=ASKIP", "5:16: refused: this isn't read: the operand in the line above ends without a comma"),
    (f"{'X        DFHMDF POS=(1,1),LENGTH=2':<80}9", "4:81: refused: a line of more than 80 columns"),
    ("\tDFHXX\tA=1", "4:2: refused: DFHXX: no macro of maps"),
]

TAKEN = [  # lines that are taken: a number of the line behind the mark, a remark, a field that goes on in the next line
    f"{UNENDED:<71}*00010000\n               ATTRB=ASKIP", f"{UNENDED + '   A REMARK':<71}*\n               ATTRB=ASKIP   AND ONE MORE",
    "X        DFHMDF POS=(3,60),LENGTH=100", "X        DFHMDF POS=(24,80),LENGTH=0", "X        DFHMDF POS=(2,5),LENGTH=1", "* A COMMENT"]
ALONE = [("", "1:1: refused: there is no DFHMSD"), (HEAD, "3:1: refused: there is no DFHMSD TYPE=FINAL"),
         ("S        DFHMSD TYPE=MAP" + TAIL, "1:1: refused: DFHMSD S: it has no map"),
         ("S        DFHMSD TYPE=MAP\nM        DFHMDI SIZE=(24,80)" + TAIL, "2:1: refused: DFHMDI M: it has no field"),
         ("S        DFHMSD TYPE=MAPP\nM        DFHMDI SIZE=(1,9)\nX        DFHMDF POS=(1,1),LENGTH=2" + TAIL, "1:22: refused: TYPE=MAPP: it may be MAP"),
         ("S        DFHMSD MODE=IN\nM        DFHMDI SIZE=(1,9)\nX        DFHMDF POS=(1,1),LENGTH=2" + TAIL, "1:10: refused: DFHMSD without TYPE"),
         ("S        DFHMSD TYPE=DSECT,MODE=BOTH,DSECT=ADSL" + TAIL, "1:33: refused: MODE=BOTH: it may be IN, OUT, INOUT")]


class MapsetsTest(TestCase):
    def test_symbolic_maps(self) -> None:
        mapset, told = mapset_of(SOURCE)
        self.assertEqual(told, [])
        self.assertEqual(symbolic_maps(mapset), SYMBOLIC)

    def test_fields(self) -> None:
        mapset, _ = mapset_of(SOURCE)
        order, foot = mapset.maps
        self.assertEqual([(one.name, one.position, one.length, one.attribute, one.offset) for one in order.fields],
                         [("", 0, 6, 0x30, 0), ("QTY", 169, 4, 0x11, 12), ("NOTE", 240, 6, 0x08, 19), ("LINE", 400, 10, 0x2C, 28),
                          ("DATE", 919, 6, 0x00, 67)])
        self.assertEqual([(one.justified, one.fill) for one in order.fields[1:4]],
                         [(Justified.RIGHT, "0"), (Justified.RIGHT, "0"), (Justified.LEFT, " ")])
        self.assertEqual([order.fields[3].positions(), order.cursor(), order.length, order.controls], [[400, 411, 422], 170, 76, ["FREEKB", "FRSET"]])
        found = [(one.position, one.attribute, one.initial and one.initial.bytes) for one in foot.fields]
        self.assertEqual(found, [(23 * 80 + 41, 0x38, "C1C2")])

    def test_overlaid(self) -> None:
        mapset, _ = mapset_of(SOURCE.replace("STORAGE=AUTO,", "TRIGRAPH=YES,"))
        lines = symbolic_maps(mapset)
        self.assertEqual([line.split() for line in lines if "ORG" in line], [["ORG", "ORDMS"], ["ORG"]])

    def test_extended_attributes(self) -> None:
        mapset, _ = mapset_of("S        DFHMSD TYPE=MAP,STORAGE=AUTO,DSATTS=(HILIGHT,COLOR)\nM        DFHMDI SIZE=(24,80)\n"
                         "F        DFHMDF POS=5,LENGTH=3\n         DFHMSD TYPE=FINAL")
        self.assertEqual([line.split()[0] for line in symbolic_maps(mapset)[4:10]], ["FL", "FF", "FA", "FC", "FH", "FI"])
        self.assertEqual([mapset.maps[0].length, mapset.maps[0].extended], [8, ["COLOR", "HILIGHT"]])

    def test_attributes(self) -> None:
        self.assertIn("DFHBMBRY EQU   X'C8'", attributes())

    def test_told(self) -> None:
        for line, due in [("X        DFHMDF POS=(1,1),LENGTH=2,PICOUT='Z9'", "4: stands in: PICOUT='Z9': it has no effect"),
                          ("N        DFHMDI CTRL=FREEKB\nX        DFHMDF POS=(1,1),LENGTH=2", "4: stands in: DFHMDI without SIZE: it is (24,80)"),
                          ("x        dfhmdf pos=(1,1),length=2", "4: changed: x dfhmdf pos=(1,1),length=2 is now X DFHMDF POS=(1,1),LENGTH=2")]:
            self.assertEqual(told_of(HEAD + line + TAIL), [due])

    def test_refused(self) -> None:
        for line, due in [*((HEAD + line + TAIL, due) for line, due in REFUSED), *ALONE]:
            told = told_of(line)
            expect(line, any(text.startswith(due) for text in told), told)

    def test_taken(self) -> None:
        for line in TAKEN:
            expect(line, told_of(HEAD + line + TAIL) == [], told_of(HEAD + line + TAIL))

    def test_colours(self) -> None:
        mapset, told = mapset_of("S        DFHMSD TYPE=MAP,COLOR=BLUE\nM        DFHMDI SIZE=(24,80)\nA        DFHMDF POS=(1,1),LENGTH=1\n"
                                 "B        DFHMDF POS=(2,1),LENGTH=1,COLOR=RED\nN        DFHMDI SIZE=(24,80),COLOR=PINK\nC        DFHMDF POS=(1,1),LENGTH=1" + TAIL)
        self.assertEqual((told, [one.colour for of_map in mapset.maps for one in of_map.fields]), ([], ["BLUE", "RED", "PINK"]))
