"""Single statements by rows worked by hand, for `checks/check scripts --looks`: the bytes of instructions and constants, the values of expressions,
bases in use, entries, and the fault of each statement that is refused."""
from collections.abc import Iterator, Sequence

from checks.assembling import continued
from checks.worked_sources import PLACE, Worked, block, loaded, placed, stored

AT = 20  # where a statement stands in the control section

# What stands before an instruction: fields of the control section P, a dummy section Q, and a register's name. After it come a pool, BELOW at
# P+40 where there is no literal, and FAR at P+4096.
FIELDS = """P CSECT
 DS F
LOOP DS F
X DS F
Y DS H
 DS H
FIELD DS 0CL256
LONG DS 0CL257
 DS F
Q DSECT
 DS D
Z DS F
R3 EQU 3
P CSECT
"""
BELOW, FAR = 40, 4096

# What stands before a constant or an expression.
TERMS = "P CSECT\n DS F\nY DS H\n DS XL6\nX DS F\n DS F\nQ DSECT\n DS D\nZ DS F\nE EQU X'FFFFFFFF'\nP CSECT\n"

# Statements with their bytes, and the size of a literal; USING P,5 is before each.
MADE = [
    ("AR 1,2", "1A12", 0),
    ("BC 15,0(0,3)", "47F03000", 0),
    ("L 1,24(0,15)", "5810F018", 0),
    ("L 1,0(,5)", "58105000", 0),
    ("LA 1,X'10'(,R3+10)", "4110D010", 0),
    ("ST 14,4095(,0)", "50E00FFF", 0),
    ("B 8(,12)", "47F0C008", 0),
    ("BC 15,X-Y+8(,3)", "47F03004", 0),
    ("LM 14,1,8(13)", "98E1D008", 0),
    ("SRL 1,4(0)", "88100004", 0),
    ("OI 0(13),128", "9680D000", 0),
    ("MVC 8(2,13),28(15)", "D201D008F01C", 0),
    ("PACK 8(3,5),0(5,5)", "F22450085000", 0),
    ("ICM 1,7,0(5)", "BF175000", 0),
    ("SRL 1,4", "88100004", 0),
    ("MVC FIELD,Y", "D2FF5010500C", 0),
    ("MVC X(0),Y", "D2005008500C", 0),
    ("MVC X,Y", "D2035008500C", 0),
    ("MVC 8(2),X", "D20100085008", 0),
    ("MVC X(256),=C'A'", "D2FF50085020", 1),
    ("PACK X,=P'1'", "F23050085020", 1),
    ("CLC *(4),X", "D50350145008", 0),
    ("CLC *,X", "D50550145008", 0),
    ("CLC *+8,X", "D505501C5008", 0),
    ("CLC *-X,X", "D505000C5008", 0),
    ("LM R3,R3+1,X", "98345008", 0),
    ("L 1,X(R3)", "58135008", 0),
    ("BCT R3,LOOP", "46305004", 0),
    ("BCT R3,BELOW", "46305028", 0),
    ("BCT R3,*", "46305014", 0),
    ("NOPR 0", "0700", 0),
    ("BNP LOOP", "47D05004", 0),
    ("B =F'1'", "47F05018", 4),
    ("EX 1,*+8", "4410501C", 0),
    ("TM X+1,B'1000'", "91085009", 0),
]

# Statements with their faults; USING P,5 is before each.
FAULTY = [
    ("MVC LONG,Y", "ValueOutOfRange"),
    ("MVC X(257),Y", "ValueOutOfRange"),
    ("PACK FIELD,Y", "ValueOutOfRange"),
    ("PACK X,Y(17)", "ValueOutOfRange"),
    ("MVC X(0-1),Y", "ValueOutOfRange"),
    ("LA 1,4096", "ValueOutOfRange"),
    ("LA 1,0-1", "ValueOutOfRange"),
    ("LA 1,4096(0,1)", "ValueOutOfRange"),
    ("LA 1,X(16)", "ValueOutOfRange"),
    ("MVI X,256", "ValueOutOfRange"),
    ("ICM 1,16,X", "ValueOutOfRange"),
    ("AR 16,1", "ValueOutOfRange"),
    ("SRL 1,X(2)", "BadOperand"),
    ("L 1,0()", "BadOperand"),
    ("L 1,0(5,)", "BadOperand"),
    ("L 1,0(,)", "BadOperand"),
    ("L 1,0(,5,6)", "BadOperand"),
    ("L 1,X(,5)", "BadOperand"),
    ("L 1,NONE(,5)", "UndefinedSymbol"),
    ("L 1,0(,16)", "ValueOutOfRange"),
    ("L 1,4096(,5)", "ValueOutOfRange"),
    ("B 8()", "BadOperand"),
    ("MVC 0(,5),0(6)", "BadOperand"),
    ("MVC 0(1,5),0(,6)", "BadOperand"),
    ("PACK 0(1,5),0(,6)", "BadOperand"),
    ("STM 14,12,12(,13)", "BadOperand"),
    ("SRL 1,4(,2)", "BadOperand"),
    ("MVI 0(,5),1", "BadOperand"),
    ("L 1,X(2,5)", "BadOperand"),
    ("LR 1,X", "BadOperand"),
    ("L 1", "BadOperand"),
    ("L 1,NONE,2", "BadOperand"),
    ("B 15,X", "BadOperand"),
    ("LM 1,2,=A(NONE)", "UndefinedSymbol"),
    ("LM 1,2,=A(0)", "BadOperand"),
    ("MVC =C'A',X", "BadOperand"),
    ("L 1,X(1)+4", "BadOperand"),
    ("L 1,NONE(1)+4", "BadOperand"),
    ("L 1,NONE((1)", "BadOperand"),
    ("L 1,NONE(1))", "BadOperand"),
    ("L 1,NONE((12))", "UndefinedSymbol"),
    ("L 1,8((12))", "BadOperand"),
    ("L 1),X", "BadOperand"),
    ("L 1,8(1,2,3)", "BadOperand"),
    ("L 1,8(1,2,NONE)", "UndefinedSymbol"),
    ("L 1,Z(X)", "NoAddressability"),
    ("L 16,Z", "NoAddressability"),
    ("L 16,NONE", "UndefinedSymbol"),
    ("LM 16,X,NONE", "UndefinedSymbol"),
]

# USINGs, and operands of an LA with its bytes, or with none where no register reaches it.
REACHED = [
    (["P,5", "P+4,6"], "1,X", "41106004"),
    (["P+4,5", "P+4,6"], "1,X", "41106004"),
    (["P+4,6", "P+4,5"], "1,X", "41106004"),
    (["X,5,6"], "1,X+5000", "41106388"),
    (["X,5,6"], "1,X+4095", "41105FFF"),
    (["P,5", "P+4,5"], "1,X", "41105004"),
    (["P,0"], "1,X", "41100008"),
    (["P,5,5"], "1,FAR", "41105000"),
    (["Q,7", "P,5"], "1,X", "41105008"),
    (["P,5"], "1,8(0)", "41100008"),
    (["P,5"], "1,FAR", ""),
    (["P+12,5"], "1,X", ""),
    (["P,5,5"], "1,X", ""),
    (["Q,5"], "1,X", ""),
    (["P,5", "P+4,5"], "1,P", ""),
    (["*+2,R3,4"], "1,P+22", "41103000"),
    (["*+2,R3,4"], "1,P+4118", "41104000"),
]

# DROPs after USING P,5,7 and USING P+4,6, and the bytes of an LA of X and of FAR, none where no register reaches it.
DROPPED = [
    (["DROP 6,9"], "41105008", "41107000"),
    (["DROP 6,9", "DROP 5"], "", "41107000"),
    (["DROP 6,9", "DROP 5", "DROP"], "", ""),
]

# Statements before an instruction with their faults; each stands alone.
BASES = [
    ("USING", "BadOperand"),
    ("USING P", "BadOperand"),
    ("USING 4096,5", "NotRelocatable"),
    ("USING P,16", "ValueOutOfRange"),
    ("USING P,X", "BadOperand"),
    ("USING 8,5,X", "BadOperand"),
    ("USING NONE,16", "UndefinedSymbol"),
    ("DROP 3,NONE,16", "UndefinedSymbol"),
    ("COPY DFHBMSCA", "BadOperand"),
]

# Operands of END with the entry, or the fault.
ENTRIES: list[tuple[str, int | str]] = [
    ("8", "NotRelocatable"),
    ("Z", "NotRelocatable"),
    ("P+65536", "ValueOutOfRange"),
    ("P-1", "ValueOutOfRange"),
    ("P,X", "BadOperand"),
    ("X", 8),
    ("P+65535", 65_535),
]

# Items of DS and DC, with their alignment, length attribute and size.
LENGTHS = [
    ("DC 5H'+1,-2'", 2, 4, 20),
    ("DC F'1,2'", 4, 8, 8),
    ("DC 2FL3'1,2'", 1, 6, 12),
    ("DC P'1,-22222'", 1, 4, 4),
    ("DC C'A''B&&'", 1, 4, 4),
    ("DS CL300", 1, 300, 300),
    ("DS XL65535", 1, 65_535, 65_535),
    ("DC X'1ABCD'", 1, 3, 3),
    ("DC B'101010101'", 1, 2, 2),
    ("DS P", 1, 1, 1),
    ("DS C", 1, 1, 1),
    ("DS D", 8, 8, 8),
    ("DS 0F", 4, 4, 0),
    ("DS 18F", 4, 4, 72),
    ("DS A", 4, 4, 4),
    ("DC V(DFHEI1)", 4, 4, 4),
    ("DC AL3(E-E)", 1, 3, 3),
    ("DC 4294967295F'0'", 4, 4, 17_179_869_180),
]

# Items of DC with the bytes of one copy, how many copies there are, and whether they are addresses to which the load address is added.
BYTES = [
    ("C'A''B&&'", "C17DC250", 1, False),
    ("CL2'ABC'", "C1C2", 1, False),
    ("CL4'AB'", "C1C24040", 1, False),
    ("C'''&&'", "7D50", 1, False),
    ("XL2'1ABCD'", "ABCD", 1, False),
    ("X'ABC'", "0ABC", 1, False),
    ("XL4'1A'", "0000001A", 1, False),
    ("BL3'101'", "000005", 1, False),
    ("B'100000001'", "0101", 1, False),
    ("P'12345'", "12345C", 1, False),
    ("P'1,-22222'", "1C22222D", 1, False),
    ("PL2'12345'", "345C", 1, False),
    ("PL3'-7'", "00007D", 1, False),
    ("5H'+1,-2'", "0001FFFE", 5, False),
    ("F'2147483647'", "7FFFFFFF", 1, False),
    ("HL3'8388607'", "7FFFFF", 1, False),
    ("AL1(255)", "FF", 1, False),
    ("AL1(0-128)", "80", 1, False),
    ("A(X-Y)", "00000008", 1, False),
    ("V(DFHEI1)", "00000800", 1, False),
    ("A(P+4)", "00000004", 1, True),
    ("2AL4(X)", "0000000C", 2, True),
    ("A(P-5)", "FFFFFFFB", 1, True),
    ("2A(*-4)", "00000010", 2, True),
]

# Items of DS and DC with their faults.
REFUSED = [
    ("DC F'2147483648'", "ValueOutOfRange"),
    ("DC F'-2147483649'", "ValueOutOfRange"),
    ("DC FL1'-129'", "ValueOutOfRange"),
    ("DC H'99999999999999999999999999999999999999'", "ValueOutOfRange"),
    ("DC AL1(256)", "ValueOutOfRange"),
    ("DC AL1(0-129)", "ValueOutOfRange"),
    ("DC F'1,'", "BadOperand"),
    ("DC F'99999999999,X'", "BadOperand"),
    ("DC F'X,99999999999'", "BadOperand"),
    ("DC A(1,2)", "BadOperand"),
    ("DC A((1))", "BadOperand"),
    ("DC V(X)", "BadOperand"),
    ("DC X'1G'", "BadOperand"),
    ("DC PL2'X'", "BadOperand"),
    ("DC AL3(P)", "NotRelocatable"),
    ("DC A(Z)", "NotRelocatable"),
    ("DC", "BadOperand"),
    ("DC C''", "BadOperand"),
    ("DC F", "BadOperand"),
    ("DC F''", "BadOperand"),
    ("DC FL'1'", "BadOperand"),
    ("DS D'1'", "BadOperand"),
    ("DC D'1'", "BadOperand"),
    ("DS DL4", "BadOperand"),
    ("DC VL4(DFHEI1)", "BadOperand"),
    ("DC Z'1'", "BadOperand"),
    ("DC C'A", "BadOperand"),
    ("DC C'A'B'", "BadOperand"),
    ("DC C'&'", "BadOperand"),
    ("DC X'1'2'", "BadOperand"),
    ("DC P'X'", "BadOperand"),
    ("DC A()", "BadOperand"),
    ("DC A((1)", "BadOperand"),
    ("DC A(1))", "BadOperand"),
    ("DC A(1)(2)", "BadOperand"),
    ("DC FL5'0'", "ValueOutOfRange"),
    ("DC FL0'0'", "ValueOutOfRange"),
    ("DC XL257'0'", "ValueOutOfRange"),
    ("DS CL65536", "ValueOutOfRange"),
    ("DC 99999999999999999999F'0'", "ValueOutOfRange"),
    ("DC 4294967296FL'0'", "BadOperand"),
    ("DS XL2'G'", "BadOperand"),
]

# Expressions with their values: section, number, length attribute. `*` is P+20.
WORTH = [
    ("L'X+1", "", 5, 1),
    ("X-Y", "", 8, 4),
    ("Y-X", "", -8, 2),
    ("Y-X+X'10'", "", 8, 2),
    ("X", "P", 12, 4),
    ("Y+4", "P", 8, 2),
    ("4+X", "P", 16, 1),
    ("X-Z+Q", "P", 4, 4),
    ("*", "P", 20, 1),
    ("*+8", "P", 28, 1),
    ("*-X", "", 8, 1),
    ("C'A'", "", 0xC1, 1),
    ("C'''&&'", "", 0x7D50, 1),
    ("X'FFFFFFFF'", "", 4_294_967_295, 1),
    ("B'101'-X'1A'", "", -21, 1),
    ("B'101'-X'1A'+21", "", 0, 1),
    ("4294967295", "", 4_294_967_295, 1),
    ("E+E-E", "", 4_294_967_295, 1),
    ("C'+'-C'-'", "", -18, 1),
    ("C'+'-C'-'+18", "", 0, 1),
]

# Expressions with their faults.
UNWORTHY = [
    ("X-Z", "NotRelocatable"),
    ("X+Y", "NotRelocatable"),
    ("P+P-Q", "NotRelocatable"),
    ("0-X", "NotRelocatable"),
    ("NONE", "UndefinedSymbol"),
    ("L'NONE", "UndefinedSymbol"),
    ("NONE+4294967296", "UndefinedSymbol"),
    ("4294967296+NONE", "UndefinedSymbol"),
    ("X+X+NONE", "UndefinedSymbol"),
    ("X+X+4294967296", "ValueOutOfRange"),
    ("99999999999999999999999999999999999999999", "ValueOutOfRange"),
    ("X'123456789'", "BadOperand"),
    ("X'012345678'", "BadOperand"),
    ("C'ABCDE'", "BadOperand"),
    ("C'&'", "BadOperand"),
    ("ABCDEFGHI", "BadOperand"),
    ("-1", "BadOperand"),
    ("1+", "BadOperand"),
    ("", "BadOperand"),
    ("NONE+1A", "BadOperand"),
]

# A source, and symbols of it: section, value, length attribute and line.
SYMBOLS = """P CSECT
 USING P,15
X DS 3F,C
Y DC F'1,2'
I MVC X,X
E EQU X+2
N EQU 5+X-X
S EQU *
L EQU L'X
T LTORG
LY EQU L'Y
LI EQU L'I
LE EQU L'E
LP EQU L'P
D DSECT
Q DS XL300,F
R DS 0CL8
V DS X
U EQU *
 DFHREGS
 COPY DFHAID
 END
"""
NAMED = [
    ("P", "P", 0, 1, 1),
    ("X", "P", 0, 4, 3),
    ("Y", "P", 16, 8, 4),
    ("I", "P", 24, 6, 5),
    ("E", "P", 2, 4, 6),
    ("N", "", 5, 1, 7),
    ("S", "P", 30, 1, 8),
    ("L", "", 4, 1, 9),
    ("T", "P", 30, 1, 10),
    ("LY", "", 8, 1, 11),
    ("LI", "", 6, 1, 12),
    ("LE", "", 4, 1, 13),
    ("LP", "", 1, 1, 14),
    ("D", "D", 0, 1, 15),
    ("Q", "D", 0, 300, 16),
    ("R", "D", 304, 8, 17),
    ("U", "D", 305, 1, 19),
    ("R15", "", 15, 1, 20),
    ("DFHPF12", "", 124, 1, 21),
    ("DFHENTER", "", 125, 1, 21),
]


def symbol(name: str, section: str, value: int, length: int, line: int) -> str:
    """What SYMBOL writes of a symbol of the program P."""
    digits = f"{value % 2**32:0{6 if 0 <= value < 1 << 24 else 8}X}"
    where = f"SECTION '{section}'" if section else "ABSOLUTE"
    address = f" AT {PLACE + value:06X}" if section == "P" else ""
    return f"> SYMBOL '{name}' VALUE {digits} {where} LENGTH {length} LINE {line}{address}"


def refused(before: str, statement: str, kind: str) -> Worked:
    """A statement after others that is refused."""
    return Worked(block(f"{before} {statement}\n DS XL4076\nFAR DS F\n END\n", " LIST DISASM"), [], (before.count("\n") + 2, kind))


def made(before: Sequence[str], statements: Sequence[str], due: str, literal: int = 0) -> Worked:
    """Statements from P+20 on, after others that make no bytes, with their bytes."""
    data = bytes.fromhex(due)
    end = AT + len(data)
    after = end + (-end % 8 + literal if literal else 0)
    below = max(after, BELOW)
    lines = [*before, *statements, "LTORG", f"DS XL{below - after}" if below > after else "DS 0X"]
    source = FIELDS + "".join(f" {line}\n" for line in lines) + f"BELOW DS XL4\n DS XL{FAR - below - 4}\nFAR DS F\n END\n"
    return Worked([*block(source), f"STORAGE {PLACE + AT:06X} {len(data)}"], [placed(FAR + 4), *stored(data, FAR + 4, AT)])


def instructions() -> Iterator[Worked]:
    yield from (made(["USING P,5"], [statement], due, literal) for statement, due, literal in MADE)
    yield from (refused(f"{FIELDS} USING P,5\n", statement, kind) for statement, kind in FAULTY)


def bases() -> Iterator[Worked]:
    """A place has the nearest address of the registers in use, and of these the highest; a DROP that is refused drops none."""
    for usings, operand, due in REACHED:
        before = [f"USING {using}" for using in usings]
        lines = FIELDS + "".join(f" {line}\n" for line in before)
        yield made(before, [f"LA {operand}"], due) if due else refused(lines, f"LA {operand}", "NoAddressability")
    usings = ["USING P,5,7", "USING P+4,6"]
    for drops, near, far in DROPPED:
        before = [*usings, *drops]
        for operand, due in (("1,X", near), ("1,FAR", far)):
            lines = FIELDS + "".join(f" {line}\n" for line in before)
            yield made(before, [f"LA {operand}"], due) if due else refused(lines, f"LA {operand}", "NoAddressability")
    yield from (refused(FIELDS, statement, kind) for statement, kind in BASES)
    lines = FIELDS + "".join(f" {line}\n" for line in [*usings, "DROP 6,9"])
    yield refused(lines, "DROP 5,16", "ValueOutOfRange")
    source = f"{lines} DROP 5,16\n LA 1,X\n LA 1,FAR\n DS XL4068\nFAR DS F\n END\n"
    yield Worked(["FAULTS P", *block(source)[1:]], [f"> {lines.count(chr(10)) + 2}:9 ValueOutOfRange  DROP 5,>>16<<"])


def entries() -> Iterator[Worked]:
    for operand, due in ENTRIES:
        before = f"{FIELDS} DS XL{65_536 - AT}\n"
        if isinstance(due, str):
            yield Worked(block(f"{before} END {operand}\n"), [], (before.count("\n") + 2, due))
        else:
            program = f"> {placed(65_536)} ENTRY {PLACE + due:06X} STORAGE 000050 TRANSACTIONS"
            yield Worked([*block(f"{before} END {operand}\n"), "PROGRAMS"], [placed(65_536), program])


def constants() -> Iterator[Worked]:
    for statement, alignment, length, size in LENGTHS:
        less = size // 2**32
        source = f"P CSECT\n BR 14\nE EQU 1\nD DSECT\n DS X\nV {statement}\nW DS X\nS EQU W-V{less * '-4294967295'}\n END\n"
        seen = [symbol("V", "D", alignment, length, 6), symbol("S", "", size - less * 4_294_967_295, 1, 8)]
        yield Worked([*block(source), "SYMBOL P V", "SYMBOL P S"], [placed(2), *seen])
    for item, text, copies, is_relocated in BYTES:
        words = "".join(f" R{AT + k * len(text) // 2}" for k in range(copies)) if is_relocated else ""
        yield loaded(f"{TERMS} DC {item}\n END\n", f"{'00' * AT}{text * copies}{words} E0 S80")
    yield from (refused(TERMS, statement, kind) for statement, kind in REFUSED)
    letters = "\n".join(continued("", "DC", f"C'{'A' * 300}'"))
    yield loaded(f"P CSECT\n{letters}\n END\n", f"{'C1' * 300} E0 S80")


def expressions() -> Iterator[Worked]:
    lines = "".join(f"V{k:02} EQU {text}\n" for k, (text, *_) in enumerate(WORTH))
    first = TERMS.count("\n") + 1
    seen = [symbol(f"V{k:02}", section, value, length, first + k) for k, (_, section, value, length) in enumerate(WORTH)]
    source = f"{TERMS}{lines} DS XL20\n END\n"
    yield Worked([*block(source), *(f"SYMBOL P V{k:02}" for k in range(len(WORTH)))], [placed(AT + 20), *seen])
    for text, kind in UNWORTHY:
        yield Worked(block(f"{TERMS}V EQU {text}".rstrip() + "\n END\n"), [], (TERMS.count("\n") + 2, kind))
    for text, kind in (("*", "BadOperand"), ("*+NONE", "UndefinedSymbol")):
        yield Worked(block(f"V EQU {text}\n END\n"), [], (2, kind))


def literals() -> Iterator[Worked]:
    """A literal is the last operand."""
    source = "P CSECT\n USING P,5\nX DS F\n L 1,=F'1,2'\n B =CL2'='\n CLC X(2),=C','\n DROP 5\n END\n"
    used = ["XREF 'P' LINE 1 USED 2", "XREF 'X' LINE 3 USED 6", "XREF LITERAL 000018 =F'1,2' 0000000100000002 USED 4",
            "XREF LITERAL 000020 =CL2'=' 7E40 USED 5", "XREF LITERAL 000022 =C',' 6B USED 6", "XREF USING 5 FROM 2 TO 6 P"]
    yield Worked([*block(source), "XREF P"], [placed(35), *(f"> {line}" for line in used)])
    yield refused(f"{FIELDS} USING P,5\n", "MVC =F'1',X", "BadOperand")


def symbols() -> Iterator[Worked]:
    lines = [f"SYMBOL P {name}" for name, *_ in NAMED]
    yield Worked([*block(SYMBOLS), *lines, "SYMBOL P Z"], [placed(30), *(symbol(*row) for row in NAMED), "> SYMBOL 'Z' NONE"])
    difference = "D DSECT\nA DS 4294967295XL8192\nB DS X\nC EQU B-A-B+A+1\nP CSECT\n BR 14\n END\n"
    yield Worked([*block(difference), "SYMBOL P C"], [placed(2), symbol("C", "", 1, 1, 4)])


def worked_statements() -> Iterator[Worked]:
    for part in (instructions, bases, entries, constants, expressions, literals, symbols):
        yield from part()
