"""Data and mapsets that are spoilt: each is refused with its line, or read as a second reader reads it; and nothing is written where one is."""
import os
import random
import re

from cics.layout import Layout
from cics.log import Log
from cics.stand_in.map_reading import read_mapset
from cics.stand_in.mapsets import Mapset, Text
from cics.stand_in.record_data import records_of
from cics.stand_in.records import MOST_INDEX, GivenFile, Source, file_of
from cics.statements import statements_of
from tests.calling import called, folder_of
from tests.case import TestCase, expect
from tests.stand_in import second_maps
from tests.stand_in.running import told_of
from tests.stand_in.second_data import Column, read
from tests.stand_in.spoiling import Spoiler

SEED, FILES = 19840325, int(os.environ.get("STAND_IN_SPOILT", "200"))
RECORD = """
REC      DSECT
RKEY     DS    CL4
RNAME    DS    CL8
RBAL     DS    PL3
RBITS    DS    XL1
RCOUNT   DS    H
RCODE    DS    XL2
RTOTAL   DS    F
P        CSECT
         END
""".strip("\n").split("\n")
COLUMNS = [Column("RKEY", 0, 4, "C", True), Column("RNAME", 4, 8, "C"), Column("RBAL", 12, 3, "P"), Column("RBITS", 15, 1, "X"), Column("RCOUNT", 16, 2, "H"),
           Column("RCODE", 18, 2, "X"), Column("RTOTAL", 20, 4, "F")]
GOOD = [b"RKEY,RNAME,RBAL,RBITS,RCOUNT,RCODE,RTOTAL\n1000,BOLT,12.50,0A,-3,C1C2,100000\n1001,\"NUT, M4\",-7,F,12,01,-1\n0007,WASHER,0,,0,AABB,0\n",
        b"RBAL,RKEY,RNAME\n-12.50,A1,\"SAY \"\"NO\"\"\"\n+5,B2,O'NEIL & CO\n", b"RKEY\n1\n2\n3\n"]
MAPSETS = ["""
* A MAPSET WITH A LITTLE OF EACH
S        DFHMSD TYPE=MAP,MODE=INOUT,LANG=ASM,STORAGE=AUTO,             *
               CTRL=(FREEKB,FRSET),TIOAPFX=YES,DSATTS=(COLOR)
M        DFHMDI SIZE=(24,80)
         DFHMDF POS=(1,1),LENGTH=12,ATTRB=(ASKIP,BRT),                 *00000050
               INITIAL='PART INQUIRY',COLOR=RED                         00000060
NAME     DFHMDF POS=(3,10),LENGTH=20,ATTRB=(UNPROT,IC,FSET)   A REMARK
         DFHMDF POS=(3,31),LENGTH=1
LINE     DFHMDF POS=(5,1),LENGTH=30,ATTRB=PROT,OCCURS=2
MONTH    DFHMDF POS=(7,1),LENGTH=2,ATTRB=UNPROT,GRPNAME=DATE
DASH     DFHMDF POS=(7,3),LENGTH=1,GRPNAME=DATE,INITIAL='-'
         DFHMDF POS=(7,5),LENGTH=1
LONG     DFHMDF POS=(8,70),LENGTH=50,ATTRB=(NUM,UNPROT),               *
               JUSTIFY=(LEFT,BLANK)
         DFHMDF POS=800,INITIAL='IT''S && A TEXT'
MSG      DFHMDF POS=(24,1),LENGTH=60,ATTRB=(ASKIP,BRT),COLOR=RED
         DFHMSD TYPE=FINAL
         END
""", """
S        DFHMSD TYPE=&SYSPARM,COLOR=BLUE
M        DFHMDI SIZE=(3,80),LINE=10
NAME     DFHMDF POS=(1,1),LENGTH=10,ATTRB=UNPROT
CODE     DFHMDF POS=(1,12),XINIT=C1C2,ATTRB=(PROT,DRK)
N        DFHMDI SIZE=(2,40),LINE=20,COLUMN=41,COLOR=PINK
         DFHMDF POS=(1,1),INITIAL='A TEXT OF ALMOST A WHOLE LINE',     *
               ATTRB=ASKIP
NOTE     DFHMDF POS=(2,1),LENGTH=39,ATTRB=(UNPROT,BRT)
         DFHMSD TYPE=FINAL
"""]
LINE = re.compile(r"([^:]+):(\d+):(\d+): refused: .+")


def refused_in(log: Log, path: str, count: int) -> set[int] | None:
    """The lines that are told as refused; none where one isn't of the file, or has no column."""
    found = [LINE.fullmatch(str(one)) for one in log.told if one.is_refused]
    if not all(one and one[1] == path and 1 <= int(one[2]) <= max(count, 1) and int(one[3]) >= 1 for one in found):
        return None
    return {int(one[2]) for one in found if one}


class SpoiltDataTest(TestCase):
    def test_data(self) -> None:
        statements = statements_of(RECORD, "p.asm")
        source, spoiler = Source(statements, Layout(statements)), Spoiler(random.Random(SEED))
        most = (MOST_INDEX - 2) // 6
        verdicts: list[bool] = []
        for number in range(FILES):
            data = spoiler.data(spoiler.draw.choice(GOOD))
            due, wrong = read(data, COLUMNS, 24, most)
            with folder_of({"d.csv": data}) as folder:
                path, log = os.path.join(folder, "d.csv"), Log()
                found = records_of(file_of(GivenFile.of(f"REC={path},key=RKEY"), [source]), log)
                what = f"{number} of seed {SEED}: {data!r}"
                if log.has_refused():
                    lines = refused_in(log, path, data.count(b"\n") + 1)
                    expect(f"{what}: refused in {sorted(wrong)}", found == [] and lines == wrong, log.lines())
                else:
                    expect(f"{what}: read", found == due and not wrong, (found, due, wrong))
            verdicts.append(bool(wrong))
        expect("some are refused and some are read", FILES < 200 or FILES // 8 < sum(verdicts) < FILES * 7 // 8, sum(verdicts))

    def test_mapsets(self) -> None:
        spoiler = Spoiler(random.Random(SEED))
        verdicts: list[bool] = []
        for number in range(FILES):
            data = spoiler.mapset(spoiler.draw.choice(MAPSETS).lstrip("\n").encode())
            due, wrong = second_maps.read(data.decode("latin-1"))
            with folder_of({"m.bms": data}) as folder:
                path, log = os.path.join(folder, "m.bms"), Log()
                found = read_mapset(path, log)
                what = f"{number} of seed {SEED}: {data.decode('latin-1')!r}"
                if log.has_refused():
                    lines = refused_in(log, path, data.count(b"\n") + 1)
                    expect(f"{what}: refused in {sorted(wrong)}", lines and lines & wrong, log.lines())
                else:
                    expect(f"{what}: read", found and not wrong and seen(found) == [shown(one) for one in due], (found and seen(found), due, wrong))
            verdicts.append(bool(wrong))
        expect("some are refused and some are read", FILES < 200 or FILES // 8 < sum(verdicts) < FILES * 7 // 8, sum(verdicts))

    def test_good(self) -> None:
        """What is spoilt is taken before it is."""
        for text in MAPSETS:
            expect(text, not second_maps.read(text)[1] and told_of(text) == [], (second_maps.read(text)[1], told_of(text)))

    def test_nothing_is_written(self) -> None:
        """By the command: a fault of a mapset or of data is a line, its status is 1, and no folder is made."""
        source = "\n".join([*RECORD[:-1], "         EXEC  CICS RETURN", "         END", ""])
        good: dict[str, str | bytes] = {"p.asm": source, "d.csv": GOOD[0], "m.bms": MAPSETS[0].lstrip()}
        words = ["--stand-in", "p.asm", "--bms", "m.bms", "--file", "REC=d.csv,key=RKEY", "--out", "made"]
        for name, old, new, due in [("d.csv", "RKEY,", "rkey,", "d.csv:1:1: refused: rkey is no field of the record; RKEY?"),
                                    ("m.bms", "POS=(3,10)", "POS=(3,81)", "m.bms:7:24: refused: POS"),
                                    ("m.bms", "OCCURS=2", "OCCURS=0", "m.bms:9:55: refused: OCC"), ("p.asm", "", "", "")]:
            given = good[name]
            content = given if isinstance(given, str) else given.decode()
            with folder_of({**good, name: content.replace(old, new)}) as folder:
                ended = called("cics-adapt", words, folder)
                reported, is_there = ended.reported.decode(), os.path.exists(os.path.join(folder, "made"))
                expect(f"{name}: {new}", (ended.status, is_there) == ((1, False) if due else (0, True)) and due in reported, (ended.status, reported))


def seen(mapset: Mapset) -> list[tuple[object, ...]]:
    """A mapset as it is read, to be compared."""
    return [(one.name, one.line, one.column, one.rows, one.columns,
             [[each.name, each.position, each.length, each.attribute, written(each.initial), each.occurs, each.colour,
               [(part.name, part.begin, part.length) for part in each.parts]] for each in one.fields]) for one in mapset.maps]


def written(text: Text | None) -> str | None:
    return None if text is None else f"X{text.bytes}" if text.bytes else f"C{text.characters}"


def shown(one: second_maps.OneMap) -> tuple[object, ...]:
    return (one.name, one.line, one.column, one.rows, one.columns, one.fields)
