"""Sources by rows worked by hand, for `checks/check scripts --looks`: what is loaded of them, their listings, their disassemblies and their faults."""
import re
from collections.abc import Iterator
from typing import NamedTuple

from checks.showing import digits, shown

PLACE = 0x010000

PROGRAM = """P        CSECT
         USING P,15
         MVC   8(2,13),=C'AB'
         L     1,=F'1'
         LH    2,=H'2'
         A     1,=F'1'
         END
"""

# Sources with their texts in hexadecimal digits, the places of relocated words, the entry, and the length of the working storage. A source
# without a control section has no text; the ones with a DFHEISTG have an instruction beside it.
LOADED = [
    (PROGRAM, "D201D008F01C5810F0184820F01E5A10F01800000000000000000001C1C20002 E0 S80"),
    ("P CSECT\n DC 2A(P+4)\n END\n", "0000000400000004 R0 R4 E0 S80"),
    ("P CSECT\n USING P,15\n L 1,=A(P)\n END\n", "5810F0080000000000000000 R8 E0 S80"),
    ("P CSECT\n DC A(5)\n END\n", "00000005 E0 S80"),
    ("P CSECT\n DC A(P-5)\n END\n", "FFFFFFFB R0 E0 S80"),
    ("P CSECT\n LR 1,2\nX LR 3,4\n END X\n", "18121834 E2 S80"),
    ("DFHEISTG DSECT\n DS 81X\nP CSECT\n BR 14\n END\n", "07FE E0 S81"),
    ("DFHEISTG DSECT\n DS 79X\nP CSECT\n BR 14\n END\n", "07FE E0 S80"),
    ("DFHEISTG DSECT\n DS 65520X\nP CSECT\n BR 14\n END\n", "07FE E0 S65520"),
    ("P CSECT\n DC C'A',F'1'\n DS H\n DC X'01'\n END\n", "C100000000000001000001 E0 S80"),
    ("P CSECT\n USING P,15\n L 1,=F'1'\n LTORG\n A 1,=F'1'\n END\n", "5810F00800000000000000015A10F01000000001 E0 S80"),
    ("P CSECT\n USING P,5\n USING P+4,6\n L 1,X\n DS F\nX DC F'7'\n END\n", "581060040000000000000007 E0 S80"),
    ("P CSECT\n USING P,5\n USING P,6\n L 1,X\nX DC F'7'\n END\n", "5810600400000007 E0 S80"),
    ("P CSECT\n USING P,15\n DFHREGS\nLOOP BCT R3,LOOP\n BCT R3,OUT\nOUT BR R3\n END\n", "4630F0004630F00807F3 E0 S80"),
    ("D DSECT\nX DS XL256\nY DS X\nP CSECT\n USING D,6\n MVC X,Y\n END\n", "D2FF60006100 E0 S80"),
    ("P CSECT\n DC CL2'ABC',XL2'1ABCD'\n END\n", "C1C2ABCD E0 S80"),
    ("P CSECT\n DC C'A''B&&'\n END\n", "C17DC250 E0 S80"),
    ("P CSECT\n PACK 8(3,5),0(5,5)\n ICM 1,7,0(5)\n END\n", "F22450085000BF175000 E0 S80"),
    ("P CSECT\n DC AL4(P+8),X'C1C2C3',AL4(P-1),C'D'\n END P+4\n", "00000008C1C2C3FFFFFFFFC4 R0 R7 E4 S80"),
    ("P CSECT\n DC P'-1',P'123',PL3'-12',PL1'123',P'1,-23'\n END\n", "1D123C00012D3C1C023D E0 S80"),
]

# Sources that are refused when they are defined.
UNDEFINED = [
    (" END\n", "BadLength"),
    ("DFHEISTG DSECT\n DS 65521X\nP CSECT\n BR 14\n END\n", "StgLength"),
]

# Sources with their faults, each with the source's line.
FAULTY = [
    ("P CSECT\n MVC 8(2,13),=C'AB'\n L 1,=F'1'\n END\n", "2: NoAddressability"),
    ("D DSECT\nX DS F\nP CSECT\n DC A(X)\n END\n", "4: NotRelocatable"),
    ("P CSECT\n LR 1,2\n END 2\n", "3: NotRelocatable"),
    ("P CSECT\n DS 65537X\n END P+65536\n", "3: ValueOutOfRange"),
    ("P CSECT\n DC X'G'\n DS 65537X\n END\n", "2: BadOperand"),
    ("P CSECT\n L 1,NOWHERE\n MVCX 1\n END\n", "3: UnknownOperation"),
    ("P CSECT\n LR 16,NOWHERE\n END\n", "2: UndefinedSymbol"),
    ("P CSECT\n LR 1,2\n USING 5,5\n END\n", "3: NotRelocatable"),
    (" COPY OTHER\n END\n", "1: BadOperand"),
    ("P CSECT\n L 1,NOWHERE((12))\n END\n", "2: UndefinedSymbol"),
    ("P CSECT\n L 1,NOWHERE\n DC A((1))\n END\n", "2: UndefinedSymbol"),
    ("P CSECT\n L 1,NOWHERE\n DC A((1)\n END\n", "3: BadOperand"),
    ("P CSECT\n DC A((1))\n L 1,NOWHERE\n END\n", "2: BadOperand"),
    ("X EQU 1\nX EQU 1+\n END\n", "2: DuplicateSymbol"),
    ("P CSECT\n L 1,=F'99999999999'\n END\n", "2: NoAddressability"),
    ("P CSECT\n USING P,5\n L 1,X\n DS 1023F\nX DS F\n END\n", "3: NoAddressability"),
    ("D DSECT\nX DS XL257\nY DS X\nP CSECT\n USING D,6\n MVC X,Y\n END\n", "6: ValueOutOfRange"),
    ("P CSECT\n DC F'2147483648'\n END\n", "2: ValueOutOfRange"),
    ("E EQU X'FFFFFFFF'\nF EQU E+E\n END\n", "2: ValueOutOfRange"),
    ("P CSECT\n LR 1,2\n USING P,15\n L 1,X(2,5)\nX DS F\n MVC X(257),X\n END\n", "4: BadOperand"),
    ("P CSECT\n DS 65537X\n END\n", "3: TooLarge"),
    ("P CSECT\n DS 4294967295XL256\n DS X\n END\n", "4: TooLarge"),
    ("P CSECT\n MVCX 1,2\n END\n", "2: UnknownOperation"),
    ("P CSECT\nX\n END\n", "2: UnknownOperation"),
    ("P CSECT\nX DS F\nX DS F\n END\n", "3: DuplicateSymbol"),
    ("P CSECT\nP DSECT\n END\n", "2: DuplicateSymbol"),
    ("P DSECT\nP CSECT\n END\n", "2: DuplicateSymbol"),
    ("P CSECT\nP DS F\n END\n", "2: DuplicateSymbol"),
    ("P CSECT\nX DS F\nX DSECT\n END\n", "3: DuplicateSymbol"),
    (" DFHREGS\n DFHREGS\n END\n", "2: DuplicateSymbol"),
    ("R15 EQU 1\n DFHREGS\n END\n", "2: DuplicateSymbol"),
    (" COPY DFHAID\nDFHPF1 EQU 1\n END\n", "2: DuplicateSymbol"),
    ("X EQU 1\nX EQU X'FFFFFFFF'+1\n END\n", "2: DuplicateSymbol"),
    ("P CSECT\nA DS F\nX EQU 1\nX EQU A+A\n END\n", "4: DuplicateSymbol"),
    ("X EQU 1\nX EQU NONE\n END\n", "2: UndefinedSymbol"),
    ("E EQU 0-2147483647-2\n END\n", "1: ValueOutOfRange"),
    ("E EQU X\nX EQU 1\n END\n", "1: UndefinedSymbol"),
    ("E EQU E\n END\n", "1: UndefinedSymbol"),
    ("D DSECT\nA DS 4294967295XL8192\nB DS X\nC EQU B-A\n END\n", "4: ValueOutOfRange"),
    ("P CSECT\n DC F'X'\n DS F'1'\nE EQU E\n END\n", "4: UndefinedSymbol"),
    ("E EQU 1,2\n END\n", "1: BadOperand"),
    ("E EQU *\n END\n", "1: BadOperand"),
    (" EQU 1\n END\n", "1: BadOperand"),
    (" CSECT\n END\n", "1: BadOperand"),
    (" DSECT\n END\n", "1: BadOperand"),
    (" START 0\n END\n", "1: BadOperand"),
    ("P CSECT\nQ CSECT\n END\n", "2: BadOperand"),
    ("P CSECT\nQ START\n END\n", "2: BadOperand"),
    ("D DSECT\n LR 1,2\n END\n", "2: BadOperand"),
    (" LTORG\n END\n", "1: BadOperand"),
    (" DS F\n END\n", "1: BadOperand"),
    ("P CSECT\n DS\n END\n", "2: BadOperand"),
    ("P CSECT\n DC F'1',\n END\n", "2: BadOperand"),
    ("P CSECT\n DC F\n END\n", "2: BadOperand"),
    ("P CSECT\n DC 4294967296X'1'\n END\n", "2: ValueOutOfRange"),
    ("P CSECT\n DC CL257'A'\n END\n", "2: ValueOutOfRange"),
    ("P CSECT\n L 1,=FL5'1'\n END\n", "2: ValueOutOfRange"),
    ("P CSECT\n L 1,=Q'1'\n END\n", "2: BadOperand"),
    ("P CSECT\n L 99,NOWHERE\n DC F'X'\nX DS ZZ\n EQU 1\n END\n", "4: BadOperand"),
]

# Sources with their disassemblies: of a program, and of instructions of two lengths and masks.
DISASSEMBLED = [
    (PROGRAM, "MVC 8(2,13),28(15);L 1,24(0,15);LH 2,30(0,15);A 1,24(0,15);DC X'00000001';DC X'C1C2';DC X'0002';"),
    ("P CSECT\n PACK 8(3,5),0(5,5)\n ICM 1,7,0(5)\n END\n", "PACK 8(3,5),0(5,5);ICM 1,7,0(5);"),
]

# Sources with their lengths and their listings: a program; comments, sections and gaps; a continuation and a pool.
LISTED = [
    (PROGRAM, 32, """\
                        00001 P        CSECT
                        00002          USING P,15
000000 D201D008F01C     00003          MVC   8(2,13),=C'AB'
000006 5810F018         00004          L     1,=F'1'
00000A 4820F01E         00005          LH    2,=H'2'
00000E 5A10F018         00006          A     1,=F'1'
                        00007          END
"""),
    ("""\
* NOTE
D        DSECT
X        DS    F
         DS    H
P        CSECT
         DC    C'A',F'1',C'B'
         DC    C'ABCDEFGHI'
         DS    XL2
         END
""", 20, """\
                        00001 * NOTE
                        00002 D        DSECT
000000                  00003 X        DS    F
000004                  00004          DS    H
                        00005 P        CSECT
000000 C100000000000001 00006          DC    C'A',F'1',C'B'
000009 C1C2C3C4C5C6C7C8 00007          DC    C'ABCDEFGHI'
000012                  00008          DS    XL2
                        00009          END
"""),
    ("""\
P        CSECT
         USING P,15
         L     1,=F'5'
         LTORG
         DC    C'AAAAAAAAAAAAAAAAAAAAAAAAAAAAAAAAAAAAAAAAAAAAAAAAAAAAAAX
               B'
         END
""", 67, """\
                        00001 P        CSECT
                        00002          USING P,15
000000 5810F008         00003          L     1,=F'5'
                        00004          LTORG
00000C C1C1C1C1C1C1C1C1 00005          DC    C'AAAAAAAAAAAAAAAAAAAAAAAAAAAAAAAAAAAAAAAAAAAAAAAAAAAAAAX
                        00006                B'
                        00007          END
"""),
]


class Worked(NamedTuple):
    """A script, what it writes, and its fault: the line and the kind."""

    lines: list[str]
    written: list[str]
    fault: tuple[int, str] | None = None


def block(source: str, wanted: str = "") -> list[str]:
    return [f"SOURCE P{wanted}", *source.removesuffix("\n").split("\n"), "/*"]


def placed(size: int) -> str:
    return f"PROGRAM P AT {PLACE:06X} LENGTH {size:06X}"


def stored(data: bytes, size: int, offset: int = 0) -> list[str]:
    """What STORAGE writes of bytes from an offset on in a program of a size."""
    rows = [data[k : k + 16] for k in range(0, len(data), 16)]
    words = [" ".join(digits(row[k : k + 4]) for k in range(0, len(row), 4)) for row in rows]
    seen = [f"> {PLACE + offset + 16 * k:06X}  {words[k]:35}  {shown(row):16}" for k, row in enumerate(rows)]
    return [*seen, f"> AREA {PLACE:06X} LENGTH {size:06X} OFFSET {offset:06X} PROGRAM P OWNER REGION"]


def loaded(source: str, due: str) -> Worked:
    """The program's text is in storage, with the place added to each relocated word."""
    text, relocated, entry, size = re.findall(r"^(\w*)((?: R\d+)*) E(\d+) S(\d+)$", due)[0]
    data = bytearray.fromhex(text)
    for word in map(int, re.findall(r"R(\d+)", relocated)):
        data[word : word + 4] = ((int.from_bytes(data[word : word + 4], "big") + PLACE) % 2**32).to_bytes(4, "big")
    program = f"> {placed(len(data))} ENTRY {PLACE + int(entry):06X} STORAGE {int(size):06X} TRANSACTIONS"
    return Worked([*block(source), "PROGRAMS", f"STORAGE {PLACE:06X} {len(data)}"], [placed(len(data)), program, *stored(data, len(data))])


def loaded_again() -> Worked:
    """A second program has the next place that is a multiple of 16, which is added to its relocated words."""
    source = block("P CSECT\n DC AL4(P+8),X'C1C2C3',AL4(P-1),C'D'\n END P+4\n")
    area = "> AREA 010010 LENGTH 00000C OFFSET 000000 PROGRAM Q OWNER REGION"
    seen = ["PROGRAM Q AT 010010 LENGTH 00000C", f"> 010010  {'00010018 C1C2C300 01000FC4':35}  {'....ABC....D':16}", area]
    return Worked([*source, "SOURCE Q", *source[1:], "STORAGE 010010 12"], [placed(12), *seen])


def without_room() -> Worked:
    """Of programs of the greatest length there are 31; another one, and a short one, is refused and changes nothing."""
    longest, short = block("P CSECT\n DS 65535X\n DC X'07'\n END\n")[1:], block("P CSECT\n BR 14\n END\n")[1:]
    lines = [line for number in range(1, 33) for line in (f"SOURCE P{number:02}", *longest)] + ["SOURCE P33", *short, "STORAGE 1FFFFF 2"]
    placed_there = [f"PROGRAM P{number:02} AT {number:02X}0000 LENGTH 010000" for number in range(1, 32)]
    seen = [f"> 1FFFFF  {'07--':35}  {'.-':16}", "> AREA 1F0000 LENGTH 010000 OFFSET 00FFFF PROGRAM P31 OWNER REGION"]
    return Worked(lines, [*placed_there, "PROGRAM P32 REFUSED NoRoom", "PROGRAM P33 REFUSED NoRoom", *seen])


def worked_sources() -> Iterator[Worked]:
    yield from (loaded(source, due) for source, due in LOADED)
    yield from (Worked(block(source), [f"PROGRAM P REFUSED {fault}"]) for source, fault in UNDEFINED)
    for source, due in FAULTY:
        line, kind = due.split(": ")
        yield Worked(block(source, " LIST DISASM"), [], (int(line) + 1, kind))
    yield Worked(block("P CSECT\n DS 65536X\n END\n"), [placed(65_536)])
    for source, due in DISASSEMBLED:
        yield Worked(block(source, " DISASM"), [*due.removesuffix(";").split(";"), placed(len(bytes.fromhex(dict(LOADED)[source].split(" ")[0])))])
    for source, size, listing in LISTED:
        yield Worked(block(source, " LIST"), [*listing.removesuffix("\n").split("\n"), placed(size)])
    yield from (loaded_again(), without_room())
