"""Runs scripts as large as programs and regions get, since a body may give up at some size that no small example reaches. With --looks they
are scripts with looks. Each must end as is due: listings, disassemblies and storage by a second assembler, displays by what the task did
(`checks/assembling.py`, `checks/showing.py`); and which of two refusals comes first is tried in full storage, of full queues and of full
tables."""
import random
from collections import Counter
from collections.abc import Callable, Iterator
from functools import partial
from typing import NamedTuple

from cics.child import Ended, run
from checks.assembling import Assembly, continued, line_of
from checks.common import Case, Check, Counts, Wrong
from checks.examples import text_of
from checks.showing import Storage, Task, digits

ENTRY, PROGRAMS = 0x800, 0x010000
REGISTERS = [0, 2, 4, 5, 6, 7, 8, 9, 10, 12, 14]  # what drawn instructions may change
DONE = ["AtCommand", "Performed NORMAL"]


class Script(NamedTuple):
    """A script, and how it must end."""

    what: str
    lines: list[str]
    transcript: list[str]
    status: int = 0
    reported: str = ""


def source_block(name: str, lines: list[str], wanted: str = "") -> list[str]:
    return [f"SOURCE {name}{wanted}", *lines, "/*"]


class Session:
    """A script and its transcript as they get longer: definitions, and turns with their replies."""

    def __init__(self) -> None:
        self.script, self.transcript, self.storage, self.entries = list[str](), list[str](), Storage(), dict[str, int]()

    def both(self, asked: str, answered: str) -> None:
        self.script.append(asked)
        self.transcript.append(answered)

    def define(self, name: str, lines: list[str], wanted: str = "", transaction: str | None = None) -> Assembly:
        """A program from a source, of which a listing or a disassembly may be wanted, and perhaps a transaction of it."""
        assembly = Assembly(lines)
        at = self.entries[name] = self.storage.program(assembly)
        self.script += source_block(name, lines, wanted)
        self.transcript += assembly.listing if "LIST" in wanted else []
        self.transcript += assembly.disassembly if "DISASM" in wanted else []
        self.transcript.append(f"PROGRAM {name} AT {at:06X} LENGTH {len(assembly.text):06X}")
        if transaction:
            self.both(f"TRANSACTION {transaction} {name}", f"TRANSACTION {transaction} DEFINED")
        return assembly

    def terminal(self, name: str, edf: bool = False) -> None:
        self.both(f"TERMINAL {name}", f"TERMINAL {name} DEFINED")
        if edf:
            self.edf(name)

    def edf(self, name: str) -> None:
        self.both(f"EDF {name} ON", f"EDF {name} Started")

    def key(self, name: str, text: str = "ENTER", reply: str = "ToEdf") -> None:
        self.both(f"KEY {name} {text}", f"KEY {name} {reply}")

    def turns(self, name: str, *replies: str) -> None:
        for reply in replies:
            self.both(f"TURN {name}", f"TURN {name} {reply}")

    def attach(self, name: str, text: str, *replies: str, edf: bool = False) -> None:
        """A terminal, whose first key attaches a task, and that task's turns."""
        self.terminal(name, edf)
        self.key(name, f"ENTER {text}", "Attached")
        self.turns(name, *replies)

    def show(self, asked: str, page: list[str]) -> None:
        self.script.append(asked)
        self.transcript += page

    def case(self, what: str) -> Script:
        return Script(what, self.script, self.transcript)


def op(operation: str, operand: str = "") -> str:
    """A statement without a name."""
    return line_of("", operation, operand)


def executed(command: str, name: str = "") -> list[str]:
    """An EXEC statement, on as many lines as it takes."""
    return continued(name, "EXEC", f"CICS {command}")


# many instructions


def signed(word: int) -> int:
    return word - (word >> 31 << 32)


def sign_code(total: int) -> int:
    return 3 if not -(1 << 31) <= total < 1 << 31 else (total > 0) * 2 + (total < 0)


class Processor:
    """What the drawn instructions do to registers and condition code."""

    def __init__(self, registers: dict[int, int]) -> None:
        self.registers, self.code = [registers.get(k, 0) for k in range(16)], 0

    def address(self, displacement: int, *registers: int) -> int:
        return (displacement + sum(self.registers[k] for k in registers if k)) % (1 << 24)

    def done(self, name: str, r: int, second: int, x: int, d: int) -> str:
        """Does an instruction, and gives its operands."""
        old, other = self.registers[r], self.registers[second]
        if name == "LA":
            self.registers[r] = self.address(d, second, x)
            return f"{r},{d}({x},{second})"
        if name in ("SLL", "SRL"):
            amount = self.address(d, second) % 64
            self.registers[r] = (old << amount if name == "SLL" else old >> amount) % (1 << 32)
            return f"{r},{d}({second})"
        if name == "LR":
            self.registers[r] = other
            return f"{r},{second}"
        one, two = signed(old), signed(other)
        total = {"AR": one + two, "SR": one - two, "LCR": -two, "XR": old ^ other}[name]
        self.code = (total != 0) * 1 if name == "XR" else sign_code(total)
        self.registers[r] = total % (1 << 32)
        return f"{r},{second}"


def drawn(generator: random.Random, processor: Processor) -> str:
    """The line of an instruction that is drawn and done."""
    name = generator.choice(["LA", "LA", "LA", "AR", "SR", "LCR", "XR", "LR", "SLL", "SRL"])
    r, second, x = generator.choice(REGISTERS), generator.randrange(16), generator.randrange(16)
    return op(name, processor.done(name, r, second, x, generator.randrange(4096)))


def instructions(count: int, seed: int) -> tuple[list[str], Processor]:
    """A number of lines of instructions, and the processor after them."""
    processor, generator = Processor({3: PROGRAMS, 15: PROGRAMS, 11: 0x200000, 13: 0x200060}), random.Random(seed)
    return [drawn(generator, processor) for _ in range(count)], processor


def many_instructions() -> Iterator[Script]:
    """9,990 instructions, of which the last goes to the entry: R1 is zero, so that no list is found."""
    lines, processor = instructions(9_989, 9_990)
    session = Session()
    session.define("P", [line_of("P", "CSECT"), *lines, op("B", f"{ENTRY}"), op("END")], " LIST DISASM", "P")
    session.attach("T001", "P", "AtCommand", edf=True)
    task = Task(session.storage, "T001", "P", "P", 1, PROGRAMS, 0x200000, 0x200060)
    task.registers, task.code, task.next = dict(enumerate(processor.registers)), processor.code, ENTRY
    session.show("DISPLAY T001", task.before("?"))
    session.turns("T001", "Held")
    session.key("T001")
    session.turns("T001", "Abended XARG")
    yield session.case("9,990 instructions, listed, disassembled and run")


def late_faults() -> Iterator[Script]:
    """A fault of the second pass on line 9,900, in front of others; and after it one of the first pass, which comes before. And
    END on line 9,900 of a text that is too large."""
    lines = [line_of("P", "CSECT"), *instructions(9_988, 9_900)[0], op("END")]
    faults = [("L", "2,NOWHERE", "UndefinedSymbol"), ("L", "2,P", "NoAddressability"), ("LR", "2", "BadOperand")]
    faults += [("LR", "16,2", "ValueOutOfRange"), ("USING", "5,5", "NotRelocatable")]
    for operation, operand, fault in faults:
        wrong = [*lines]
        wrong[9_899], wrong[9_949] = op(operation, operand), op("L", "2,NOWHERE")
        script = ["TERMINAL T001", *source_block("P", wrong, " LIST DISASM"), "TERMINAL T002"]
        yield Script(f"{fault} on line 9,900", script, ["TERMINAL T001 DEFINED"], 1, f"cicsedf: line 9902: {fault}\n")
    wrong[9_959] = op("LX", "2,3")
    script, reported = ["TERMINAL T001", *source_block("P", wrong)], "cicsedf: line 9962: UnknownOperation\n"
    yield Script("and UnknownOperation on line 9,960", script, ["TERMINAL T001 DEFINED"], 1, reported)
    script = ["TERMINAL T001", *source_block("P", [*lines[:9_898], op("DS", "65536C"), op("END")])]
    yield Script("TooLarge on line 9,900", script, ["TERMINAL T001 DEFINED"], 1, "cicsedf: line 9902: TooLarge\n")


# large sources


def defined(what: str, lines: list[str], wanted: str = " LIST DISASM") -> Script:
    session = Session()
    session.define("P", lines, wanted)
    return session.case(what)


def literal(k: int) -> str:
    """The k-th of 2,000 literals, of lengths that 8, 4, 2 and 1 divide."""
    n = k // 4
    short = f"=X'{n:02X}'" if n < 256 else f"=AL1({n - 256})"
    return [f"=XL8'{n:X}'", f"=F'{n * 4_001 - 1_000_000}'", f"=H'{n - 250}'", short][k % 4]


def many_literals() -> Iterator[Script]:
    """2,000 literals in one pool, which two registers reach, each by a USING of its own; some are used twice."""
    generator = random.Random(2_000)
    literals = [literal(k) for k in range(2_000)]
    generator.shuffle(literals)
    used = literals + generator.sample(literals, 100)
    lines = [line_of("P", "CSECT"), op("USING", "POOL,5"), op("USING", "POOL+4096,6")]
    lines += [op("LA", f"{k % 16},{one}") for k, one in enumerate(used)]
    yield defined("2,000 literals in one pool", [*lines, line_of("POOL", "LTORG"), op("END")])


def many_pools() -> Iterator[Script]:
    """1,000 LTORGs: each after two literals, of which one is written alike in all; every tenth is followed by one
    without."""
    lines = [line_of("P", "CSECT"), op("USING", "P,3,4,5,6,7")]
    for k in range(1, 1_001):
        lines += [op("L", f"1,=F'{k}'"), op("LH", "2,=H'-7'"), line_of(f"POOL{k}", "LTORG")]
        lines += [line_of(f"NONE{k}", "LTORG")] if k % 10 == 0 else []
    lines += [op("LA", "8,POOL1000"), op("LA", "9,NONE10"), op("END")]
    yield defined("1,000 LTORGs", lines)


def long_statement() -> Iterator[Script]:
    """A statement of 200 continuation lines, which cut it anywhere."""
    items: list[str] = []
    while len(",".join(items)) <= 200 * 56:
        items.append(f"F'{len(items) * 37 - 20_000}'" if len(items) % 3 else f"H'{len(items)}'")
    statement = continued("TABLE", "DC", ",".join(items))
    assert len(statement) == 201
    yield defined("a statement of 200 continuation lines", [line_of("P", "CSECT"), *statement, op("BR", "14"), op("END")])


def long_disassembly() -> Iterator[Script]:
    """A disassembly of 5,000 lines, among them constants of 5,000 bytes, one of them on a line for each 56 of its characters."""
    generator = random.Random(5_000)
    letters = "".join(generator.choice(["''", "&&", " ", *"ABCXYZ019.,()=+-"]) for _ in range(5_000))
    lines = [line_of("P", "CSECT"), *instructions(2_000, 1)[0], *continued("TEXT", "DC", f"C'{letters}'"), op("DC", "1250F'-2'")]
    lines += [*instructions(2_995, 2)[0], op("DC", "5000X'A5'"), op("DS", "5000C"), op("DC", "XL256'1'"), op("END")]
    case = defined("a disassembly of 5,000 lines", lines, " DISASM")
    assert len(case.transcript) == 5_001
    yield case


def alone() -> Iterator[Script]:
    """LIST alone, DISASM alone, both, and none, of one source."""
    lines = [line_of("P", "CSECT"), *executed("SUSPEND", "BEGIN"), op("MVC", "DFHEITP,=C'ABCD'"), *executed("RETURN"), op("END")]
    session = Session()
    for name, wanted in (("P1", " LIST"), ("P2", " DISASM"), ("P3", " LIST DISASM"), ("P4", "")):
        session.define(name, lines, wanted)
    yield session.case("LIST alone, DISASM alone")


# commands on many lines


def on_six_lines(name: str, words: list[str]) -> list[str]:
    """An EXEC statement with as many blanks between its words as it takes."""
    return next(lines for blanks in range(1, 99) if len(lines := executed((" " * blanks).join(words), name)) == 6)


def long_commands() -> Iterator[Script]:
    """EXEC statements on six lines, with names of eight letters."""
    labels = {"INVREQ": "BADINVRQ", "NOSPACE": "NOSPACES", "LENGERR": "BADLENGT", "ITEMERR": "ITEMERRS", "PGMIDERR": "NOPROGRM"}
    labels |= {"NOSTG": "NOSTORAG", "QIDERR": "NOQUEUES", "ENQBUSY": "ENQUEUED", "ERROR": "ANYERROR"}
    handle = ["HANDLE CONDITION", *(f"{name}({label})" for name, label in labels.items()), "NOHANDLE", "RESP(RESPWORD)"]
    write = ["WRITEQ TS", "QUEUE('ORDERSQU')", "FROM(LINETEXT)", "LENGTH(LINELENG)", "ITEM(ITEMNUMB)", "MAIN", "NOSUSPEND"]
    write += ["RESP(RESPWORD)"]
    storage = [("RESPWORD", "F"), ("ITEMNUMB", "H"), ("LINELENG", "H"), ("LINETEXT", "CL16")]
    lines = [line_of("DFHEISTG", "DSECT"), *(line_of(name, "DS", what) for name, what in storage), line_of("ORDERING", "CSECT")]
    lines += [*on_six_lines("STARTING", handle), op("MVC", "LINELENG,=H'16'"), *on_six_lines("WRITEONE", write)]
    lines += executed("READQ TS QUEUE('ORDERSQU') INTO(LINETEXT) LENGTH(LINELENG) ITEM(=H'2') NUMITEMS(ITEMNUMB)", "READNONE")
    for name, label in labels.items():
        lines += executed(f"ABEND ABCODE('{name[:4]}')", label)
    session = Session()
    session.define("ORDERING", [*lines, op("END")], " LIST DISASM", "ORDR")
    session.attach("T001", "ORDR", *DONE, *DONE, "AtCommand", "TookLabel ITEMERR", "AtCommand", "Abended ITEM", "Idle")
    yield session.case("EXEC statements on six lines")


# relocation


def seventy_words() -> Iterator[Script]:
    """A program with 70 relocated words, which isn't the first: they are seen in its working storage."""
    lines = [line_of("DFHEISTG", "DSECT"), line_of("WORDS", "DS", "68F"), line_of("REL", "CSECT")]
    lines += [op("MVC", "WORDS(256),TABLE"), op("MVC", "WORDS+256(16),TABLE+256")]
    lines += [op("L", "5,=A(TABLE)"), op("L", "6,=A(REL+65000)"), op("ST", "5,DFHEIPL+40"), op("ST", "6,DFHEIPL+44")]
    lines += [*executed("SUSPEND"), *executed("RETURN")]
    lines += [line_of("TABLE", "DC", "20A(TABLE+7)"), op("DC", "A(REL-5),A(TABLE-REL+REL)")]
    lines += [op("DC", "A(*)") for _ in range(40)] + [op("DC", f"A(REL+{k * 1_000})") for k in range(6)]
    session = Session()
    session.define("FILL", [line_of("P", "CSECT"), op("BR", "14"), op("END")])
    assembly = session.define("REL", [*lines, op("END")], " DISASM", "REL")
    assert len(assembly.relocated) == 70
    session.attach("T001", "REL", "AtCommand", edf=True)
    text, start, table = assembly.loaded(0x010010), 0x010010, assembly.symbols["TABLE"][1]
    session.storage.place(bytes(88), 0x200000)
    stg = session.storage.place(bytes(352), 0x200000)
    block = start + text.index(bytes.fromhex("12080000"), table)
    session.storage.write(stg, (block | 0x80000000).to_bytes(4, "big"))
    session.storage.write(stg + 40, (start + table).to_bytes(4, "big") + (start + 65_000).to_bytes(4, "big"))
    session.storage.write(stg + 80, text[table : table + 272])
    session.key("T001", "PF5")
    session.show("DISPLAY T001", Task(session.storage, "T001", "REL", "REL", 1, start, 0x200000, stg).storage_page(stg, 352))
    session.key("T001")
    session.turns("T001", "Performed NORMAL")
    yield session.case("70 relocated words")


def all_words() -> Iterator[Script]:
    """A program of 16,384 relocated words, each its own place, and one after it that looks at them."""
    words = [line_of("W", "CSECT"), *(op("DC", ",".join(["A(*)"] * 8)) for _ in range(2_048)), op("END")]
    lines = [line_of("LOOK", "CSECT"), op("L", f"4,=F'{PROGRAMS}'")]
    for k in (1, 2):
        lines += [op("L", "6,=F'8192'"), line_of(f"WORD{k}", "C", "4,0(4)"), op("BNE", "BAD")]
        lines += [op("LA", "4,4(4)"), op("BCT", f"6,WORD{k}"), *executed("SUSPEND" if k == 1 else "RETURN")]
    lines += [*executed("ABEND ABCODE('BAD')", "BAD"), op("END")]
    session = Session()
    assembly = session.define("W", words, " DISASM")
    assert len(assembly.relocated) == 16_384 and len(assembly.disassembly) == 16_384
    session.define("LOOK", lines, "", "LOOK")
    session.attach("T001", "LOOK", *DONE, "AtCommand", "Ended")
    yield session.case("16,384 relocated words")


# many tasks


def after_list(task: Task, block: int, next_place: int) -> None:
    """The registers after the instructions made of an EXEC statement whose list has one word, with a block at this place."""
    stg = task.registers[13]
    task.registers |= {0: block, 1: stg, 15: ENTRY, 14: 0x50000000 | next_place}
    task.storage.write(stg, (block | 0x80000000).to_bytes(4, "big"))
    task.code, task.next = 1, ENTRY


def eleven_stops(task: Task, entry: int, block: int) -> Iterator[list[str]]:
    """The displays of six SUSPENDs up to the stop before the sixth."""
    for k in range(6):
        after = entry + 22 * (k + 1)
        after_list(task, block, after)
        yield task.before("SUSPEND")
        task.next, task.function = after, 0x1208
        yield task.after("SUSPEND", "NORMAL")


def sixteen_sessions() -> Iterator[Script]:
    """Sixteen terminals under EDF, each with eleven stops, of which the last ten are kept."""
    session, names = Session(), [f"T{k:03}" for k in range(1, 17)]
    lines = [line_of("SIX", "CSECT"), *executed("SUSPEND") * 6, *executed("RETURN"), op("END")]
    assembly = session.define("SIX", lines, "", "SIX")
    block = PROGRAMS + assembly.text.index(bytes.fromhex("12080000"))
    displays = {}
    for name in names:
        session.terminal(name, True)
    for number, name in enumerate(names, 1):
        session.key(name, "ENTER SIX", "Attached")
        eib, stg = session.storage.place(bytes(88)), session.storage.place(bytes(80))
        task = Task(session.storage, name, "SIX", "SIX", number, PROGRAMS, eib, stg)
        displays[name] = list(eleven_stops(task, PROGRAMS, block))[:11]
    for stop in range(11):
        for name in names if stop % 2 else reversed(names):
            session.turns(name, DONE[stop % 2], "Held")
            if stop < 10:
                session.key(name)
    for name in names:
        session.show(f"DISPLAY {name}", displays[name][10])
        for k in range(10):
            session.show(f"DISPLAY {name} {k}", displays[name][10 - k])
        for k in range(10):
            session.key(name, "PF10")
            session.show(f"DISPLAY {name}", displays[name][max(9 - k, 1)])
    yield session.case("sixteen terminals under EDF, eleven stops each")


def many_attaches() -> Iterator[Script]:
    """10,000 attaches in one region; the last task is seen by its number."""
    session = Session()
    assembly = session.define("RET1", [line_of("RET1", "CSECT"), *executed("RETURN"), op("END")], "", "RET1")
    session.terminal("T001")
    for _ in range(9_999):
        session.key("T001", "ENTER RET1", "Attached")
        session.turns("T001", "AtCommand", "Ended")
    session.edf("T001")
    session.key("T001", "PF1 RET1", "Attached")
    session.turns("T001", "AtCommand")
    eib, stg = session.storage.place(bytes(88)), session.storage.place(bytes(80))
    task = Task(session.storage, "T001", "RET1", "RET1", 10_000, PROGRAMS, eib, stg)
    task.aid = 0xF1
    after_list(task, PROGRAMS + assembly.text.index(bytes.fromhex("0E080000")), PROGRAMS + 22)
    session.show("DISPLAY T001", task.before("RETURN"))
    session.key("T001")
    session.turns("T001", "Ended")
    yield session.case("10,000 attaches in one region")


# large areas


PATTERN = bytes((k * 91 + 17) % 251 for k in range(251))


def pattern_loop(operation: str, name: str, *branch: str) -> list[str]:
    """MVC or CLC over 32,767 bytes at R5, each of which is the one 251 in front of it; at last R6 is at byte 32,379."""
    lines = [op(operation, "0(251,5),PATTERN"), *branch, op("LA", "6,0(5)"), op("L", "7,=F'129'")]
    lines += [line_of(name, operation, "251(251,6),0(6)"), *branch, op("LA", "6,251(6)"), op("BCT", f"7,{name}")]
    return [*lines, op(operation, "251(137,6),0(6)"), *branch]


def looks(name: str) -> list[str]:
    """A COMMAREA of 32,767 bytes is looked at."""
    bad = op("BNE", "BAD")
    lines = [line_of(name, "CSECT"), op("L", "5,DFHEICAP"), op("LH", "8,EIBCALEN"), op("CH", "8,=H'32767'"), bad]
    return lines + pattern_loop("CLC", "EACH", bad)


def constants(*commands: str) -> list[str]:
    pattern = continued("PATTERN", "DC", f"X'{digits(PATTERN)}'")
    return [*commands, *executed("ABEND ABCODE('BAD')", "BAD"), *pattern, op("END")]


def large_commarea() -> Iterator[Script]:
    """A COMMAREA of 32,767 bytes is kept for the terminal, attached, lent to a linked program, which changes its last byte, and
    copied by XCTL."""
    passed = "COMMAREA(0(0,5)) LENGTH(=H'32767')"
    keeps = [line_of("KEEP", "CSECT"), *executed("GETMAIN SET(5) LENGTH(=H'32767')"), *pattern_loop("MVC", "FILL")]
    takes = [*looks("TAKE"), *executed(f"LINK PROGRAM('LENT') {passed}"), op("CLI", "387(6),X'EE'"), op("BNE", "BAD")]
    takes += [op("MVC", "387(1,6),136(6)"), *executed(f"XCTL PROGRAM('MOVED') {passed}")]
    session = Session()
    session.define("KEEP", constants(*keeps, *executed(f"RETURN TRANSID('TAKE') {passed}")), "", "KEEP")
    session.define("TAKE", constants(*takes), "", "TAKE")
    session.define("LENT", constants(*looks("LENT"), op("MVI", "387(6),X'EE'"), *executed("RETURN")))
    moved = session.define("MOVED", constants(*looks("MOVED"), *executed("RETURN")))
    session.attach("T001", "KEEP", *DONE, "AtCommand", "Ended")
    session.key("T001", "PF3 OTHER", "Attached")
    session.turns("T001", "AtCommand", "Entered", "AtCommand", "Returned", "AtCommand", "Entered")
    session.edf("T001")
    session.turns("T001", "AtCommand")
    session.show("DISPLAY T001", moved_display(session, moved))
    session.key("T001")
    session.turns("T001", "Ended")
    yield session.case("a COMMAREA of 32,767 bytes, kept, attached, and passed by LINK and XCTL")


def moved_display(session: Session, assembly: Assembly) -> list[str]:
    """The display before RETURN of the program that got the copy: it is after the working storage, which was freed."""
    eib, _, stg = (session.storage.place(bytes(size)) for size in (88, 32_767, 80))
    copy, new = session.storage.place(bytes(32_767)), session.storage.place(bytes(80))
    session.storage.free(stg)
    entry = session.entries["MOVED"]
    task = Task(session.storage, "T001", "TAKE", "MOVED", 2, entry, eib, new)
    task.registers |= {5: copy, 6: copy + 251 * 129, 8: 32_767}
    task.function, task.aid, task.calen = 0x0E04, 0xF3, 32_767
    block = assembly.text.index(bytes.fromhex("0E080000"))
    after_list(task, entry + block, entry + assembly.symbols["BAD"][1])
    return task.before("RETURN")


def screen_of(name: str, text: str) -> list[str]:
    """The screen of a terminal that was sent a text of one part."""
    lines = []
    while len(text) > 80:
        cuts = [k for k in range(1, 81) if text[k] == " "]
        lines.append(text[: cuts[-1] if cuts else 80])
        text = text[cuts[-1] + 1 if cuts else 80 :]
    shown = [f"{number:02}|{line.rstrip()}" for number, line in enumerate([*lines, text], 1) if line.strip()]
    return [f"SCREEN {name}", *shown]


def long_key() -> Iterator[Script]:
    """A key with 1,000 bytes is received, and sent to the screen."""
    generator = random.Random(1_000)
    text = "RECV " + "".join(generator.choice("ABCDEFGHIJKLMNOPQRSTUVWXYZabcxyz0123456789+-*/=.,:;'\"&#@$%") for _ in range(995))
    text = "".join(" " if k % 173 == 50 else character for k, character in enumerate(text))
    lines = [line_of("DFHEISTG", "DSECT"), line_of("LENG", "DS", "H"), line_of("AREA", "DS", "CL1920"), line_of("RECV", "CSECT")]
    lines += [op("MVC", "LENG,=H'1000'"), *executed("RECEIVE INTO(AREA) LENGTH(LENG)")]
    lines += [*executed("SEND TEXT FROM(AREA) LENGTH(LENG) ERASE"), *executed("RETURN"), op("END")]
    session = Session()
    session.define("RECV", lines, "", "RECV")
    assert len(text) == 1_000
    session.attach("T001", text, *DONE, *DONE, "AtCommand", "Ended")
    session.show("SCREEN T001", screen_of("T001", text))
    yield session.case("a key with 1,000 bytes")


# many queues, and counts


QUEUE = [line_of("DFHEISTG", "DSECT"), line_of("QNAME", "DS", "CL8"), line_of("ITEM", "DS", "CL8")]
QUEUE += [line_of("LENG", "DS", "H"), line_of("NUMB", "DS", "H")]


def writer() -> list[str]:
    """Writes one item to each of 255 queues, 299 more to the last of them, and one to the 256th and the 257th."""
    one = executed("WRITEQ TS QUEUE(QNAME) FROM(ITEM) LENGTH(=H'8') ITEM(NUMB) NOSUSPEND NOHANDLE")
    lines = [line_of("WRITER", "CSECT"), op("MVC", "QNAME,=CL8'QUEU'"), op("MVC", "ITEM,=CL8'ITEM'"), op("L", "5,=F'255'")]
    lines += [line_of("QUEUES", "ST", "5,QNAME+4"), op("ST", "5,ITEM+4"), *one, op("BCT", "5,QUEUES"), op("LA", "6,2")]
    lines += [line_of("ITEMS", "ST", "6,ITEM+4"), *one, op("CH", "6,NUMB"), op("BNE", "BAD"), op("LA", "6,1(6)")]
    lines += [op("CH", "6,=H'301'"), op("BNE", "ITEMS")]
    lines += [op("MVC", "QNAME,=CL8'OTHER'"), *one, op("MVC", "QNAME,=CL8'MORE'"), *one]
    return [*QUEUE, *lines, *executed("RETURN"), *executed("ABEND ABCODE('BAD')", "BAD"), op("END")]


def reader() -> list[str]:
    """Reads the first item of each of the 255 queues, and all others of the last of them, and then one more."""

    def read(which: str) -> list[str]:
        return executed(f"READQ TS QUEUE(QNAME) INTO(ITEM) LENGTH(LENG) {which} NUMITEMS(NUMB)")

    tested = [op("C", "6,ITEM+4"), op("BNE", "BAD"), op("CLC", "ITEM(4),=C'ITEM'"), op("BNE", "BAD")]
    lines = [line_of("READER", "CSECT"), op("MVC", "QNAME,=CL8'QUEU'"), op("MVC", "LENG,=H'8'"), op("L", "6,=F'255'")]
    lines += [line_of("QUEUES", "ST", "6,QNAME+4"), *read("ITEM(=H'1')"), *tested, op("BCT", "6,QUEUES"), op("LA", "6,2")]
    lines += [line_of("ITEMS", "XR", "7,7"), *read("NEXT"), *tested, op("LH", "7,NUMB"), op("CH", "7,=H'300'"), op("BNE", "BAD")]
    lines += [op("LA", "6,1(6)"), op("CH", "6,=H'301'"), op("BNE", "ITEMS"), *read("NEXT")]
    return [*QUEUE, *lines, *executed("ABEND ABCODE('BAD')", "BAD"), op("END")]


def many_queues() -> Iterator[Script]:
    session = Session()
    session.define("WRITER", writer(), "", "WRIT")
    session.define("READER", reader(), "", "READ")
    session.attach("T001", "WRIT", *DONE * (255 + 299 + 1), "AtCommand", "Performed NOSPACE", "AtCommand", "Ended")
    session.attach("T002", "READ", *DONE * (255 + 299), "AtCommand", "Abended AEIZ")
    yield session.case("255 queues, 300 items in one")


def counted_resource() -> Iterator[Script]:
    """An ENQ is counted to 65,535; once more is INVREQ, and after a DEQ it is counted again. Another task finds it busy until
    the first ends."""
    enq = "ENQ RESOURCE(=C'RES') LENGTH(=H'3')"
    counts = [line_of("COUNT", "CSECT"), op("L", "5,=F'65536'"), *executed(f"{enq} NOHANDLE", "AGAIN"), op("BCT", "5,AGAIN")]
    counts += [*executed(enq.replace("ENQ", "DEQ")), *executed(f"{enq} NOHANDLE"), *executed(enq), op("END")]
    other = [line_of("OTHER", "CSECT"), *executed(f"{enq} NOSUSPEND NOHANDLE") * 2, *executed("RETURN"), op("END")]
    session = Session()
    session.define("COUNT", counts, "", "COUN")
    session.define("OTHER", other, "", "OTHE")
    session.attach("T001", "COUN")
    session.attach("T002", "OTHE")
    session.turns("T001", *DONE * 65_535, "AtCommand", "Performed INVREQ", *DONE, *DONE, "AtCommand")
    session.turns("T002", "AtCommand", "Performed ENQBUSY", "AtCommand")
    session.turns("T001", "Abended AEIP")
    session.turns("T002", "Performed NORMAL", "AtCommand", "Ended")
    yield session.case("an ENQ counted to 65,535, and once more")


# two refusals at once


def left_after(start: int, size: int) -> tuple[int, int]:
    """How many areas of a size task storage has room for from an address on, and the address after them."""
    count = 0
    while start + size <= 0x1000000:
        start, count = (start + size + 15) // 16 * 16, count + 1
    return count, start


def whatever_comes(*commands: str) -> list[str]:
    """Commands one after another, which go on whatever they meet."""
    return [line for command in commands for line in executed(f"{command} NOHANDLE")]


def refusals_in_full_storage() -> Iterator[Script]:
    """A task at its sixteenth level, which it counts in the CWA, fills task storage. A condition comes before XSTG, which
    another task meets, and before XLVL, and XLVL before XSTG."""
    passed = "COMMAREA(BYTE) LENGTH(=H'-1')"
    refused = [f"LINK PROGRAM('DEEP') {passed}", "LINK PROGRAM('NOPGM')", f"XCTL PROGRAM('DEEP') {passed}"]
    refused += ["XCTL PROGRAM('NOPGM') COMMAREA(BYTE) LENGTH(=H'1')", "GETMAIN SET(5) LENGTH(=H'0') NOSUSPEND"]
    replies = ["LENGERR", "PGMIDERR", "LENGERR", "PGMIDERR", "LENGERR"]
    end = [*executed("LINK PROGRAM('DEEP')"), line_of("BYTE", "DC", "C'A'"), op("END")]
    lines = [line_of("DFHEISTG", "DSECT"), line_of("LENG", "DS", "H"), line_of("DEEP", "CSECT")]
    lines += [op("L", "6,=F'4096'"), op("LH", "7,0(6)"), op("LA", "7,1(7)"), op("STH", "7,0(6)")]
    lines += [op("CH", "7,=H'16'"), op("BE", "FULL"), *executed("LINK PROGRAM('DEEP')"), line_of("FULL", "L", "4,=F'65520'")]
    lines += [line_of("SIZE", "STH", "4,LENG"), line_of("AGAIN", "DS", "0H")]
    lines += [*whatever_comes("GETMAIN SET(5) LENGTH(LENG) NOSUSPEND"), op("CLC", "EIBRESP,=F'42'"), op("BNE", "AGAIN")]
    lines += [op("SRL", "4,1"), op("C", "4,=F'0'"), op("BNE", "SIZE"), *whatever_comes(*refused), *end]
    session = Session()
    session.define("DEEP", lines, "", "DEEP")
    session.define("HIGH", [line_of("HIGH", "CSECT"), *whatever_comes(*refused), *end], "", "HIGH")
    for name, text in (("T001", "HIGH"), ("T002", "DEEP")):
        session.attach(name, text)
    session.turns("T001", "AtCommand")
    session.turns("T002", *["AtCommand", "Entered"] * 15)
    # an EIB of 88 bytes and a DFHEISTG of 80, and then one EIB and sixteen DFHEISTGs of 82
    size, start = 65_520, 0x200000 + 96 + 80 + 96 + 16 * 96
    while size:
        count, start = left_after(start, size)
        session.turns("T002", *DONE * count, "AtCommand", "Performed NOSTG")
        size //= 2
    assert start == 0x1000000
    for name, code in (("T001", "XSTG"), ("T002", "XLVL")):
        after = [reply for condition in replies for reply in (f"Performed {condition}", "AtCommand")]
        session.turns(name, *after if name == "T001" else ["AtCommand", *after], f"Abended {code}")
    yield session.case("two refusals at once, in full storage")


def refusals_of_full_queues() -> Iterator[Script]:
    """A queue of 32,767 items, and queues with all but 128 bytes: LENGERR comes before ITEMERR, and each of these and QIDERR before
    NOSPACE."""
    write, many = "WRITEQ TS QUEUE('LONG') FROM(0(0,6))", "WRITEQ TS QUEUE('BIG') FROM(0(0,6))"
    lines = [line_of("FULL", "CSECT"), *executed("GETMAIN SET(6) LENGTH(=H'32767')"), op("L", "5,=F'32767'")]
    lines += [line_of("ITEMS", "DS", "0H"), *executed(f"{write} LENGTH(=H'1')"), op("BCT", "5,ITEMS"), op("LA", "5,127")]
    lines += [line_of("BYTES", "DS", "0H"), *executed(f"{many} LENGTH(=H'32767')"), op("BCT", "5,BYTES")]
    refused = [(f"{write} LENGTH(=H'0')", "LENGERR"), (f"{write} LENGTH(=H'200')", "ITEMERR"), (f"{many} LENGTH(=H'0')", "LENGERR")]
    refused += [(f"{many} LENGTH(=H'200')", "NOSPACE"), (f"{many} LENGTH(=H'200') ITEM(=H'999') REWRITE", "ITEMERR")]
    refused += [("WRITEQ TS QUEUE('NOQ') FROM(0(0,6)) LENGTH(=H'200') ITEM(=H'1') REWRITE", "QIDERR")]
    refused += [(f"{write} LENGTH(=H'200') ITEM(=H'1') REWRITE", "NOSPACE"), (f"{write} LENGTH(=H'0') ITEM(=H'1') REWRITE", "LENGERR")]
    lines += whatever_comes(*(f"{command} NOSUSPEND" for command, _ in refused))
    session = Session()
    session.define("FULL", [*lines, *executed("RETURN"), op("END")], "", "FULL")
    session.attach("T001", "FULL", *DONE * (1 + 32_767 + 127))
    for _, condition in refused:
        session.turns("T001", "AtCommand", f"Performed {condition}")
    session.turns("T001", "AtCommand", "Ended")
    yield session.case("two refusals at once, of full queues")


def refusals_of_full_tables() -> Iterator[Script]:
    """256 queues and 256 resources: LENGERR comes before NOSPACE of the 257th queue, and before ENQBUSY of the 257th
    resource."""
    lines = [line_of("DFHEISTG", "DSECT"), line_of("NAME", "DS", "CL8"), line_of("FULL", "CSECT"), op("MVC", "NAME,=CL8'NAME'")]
    lines += [op("L", "5,=F'256'"), line_of("EACH", "ST", "5,NAME+4"), *executed("WRITEQ TS QUEUE(NAME) FROM(NAME) LENGTH(=H'1')")]
    lines += [*executed("ENQ RESOURCE(NAME) LENGTH(=H'8')"), op("BCT", "5,EACH")]
    refused = [("WRITEQ TS QUEUE('MORE') FROM(NAME) LENGTH(=H'0')", "LENGERR"), ("WRITEQ TS QUEUE('MORE') FROM(NAME) LENGTH(=H'1')", "NOSPACE")]
    refused += [("ENQ RESOURCE(NAME) LENGTH(=H'0')", "LENGERR"), ("ENQ RESOURCE(NAME) LENGTH(=H'256')", "LENGERR")]
    refused += [("ENQ RESOURCE(NAME) LENGTH(=H'4')", "ENQBUSY")]
    lines += whatever_comes(*(f"{command} NOSUSPEND" for command, _ in refused))
    session = Session()
    session.define("FULL", [*lines, *executed("RETURN"), op("END")], "", "FULL")
    session.attach("T001", "FULL", *DONE * 512)
    for _, condition in refused:
        session.turns("T001", "AtCommand", f"Performed {condition}")
    session.turns("T001", "AtCommand", "Ended")
    yield session.case("two refusals at once, of full tables")


# the last terminal


BAD = [*executed("ABEND ABCODE('BAD')", "BAD"), op("END")]


def first_program() -> list[str]:
    """GETMAIN, WRITEQ TS, the item replaced by a longer one, READQ TS with SET, ENQ, LINK, and RETURN with a COMMAREA."""
    passed, bad = "COMMAREA(0(0,6)) LENGTH(=H'1000')", op("BNE", "BAD")
    lines = [line_of("DFHEISTG", "DSECT"), line_of("LENG", "DS", "H"), line_of("NUMB", "DS", "H"), line_of("FIRST", "CSECT")]
    lines += executed("GETMAIN SET(5) LENGTH(=H'1000') INITIMG(=X'C1')")
    lines += executed("WRITEQ TS QUEUE('QUEUE') FROM(0(0,5)) LENGTH(=H'9') ITEM(NUMB)")
    lines += executed("WRITEQ TS QUEUE('QUEUE') FROM(0(0,5)) LENGTH(=H'1000') ITEM(NUMB) REWRITE")
    lines += executed("READQ TS QUEUE('QUEUE') SET(6) LENGTH(LENG)")
    lines += [op("CLC", f"{at}(250,6),{at}(5)") if k == 0 else bad for at in range(0, 1_000, 250) for k in (0, 1)]
    lines += [op("MVI", "999(6),X'E9'"), *executed("ENQ RESOURCE(=C'RES') LENGTH(=H'3')")]
    return [*lines, *executed(f"LINK PROGRAM('LINKED') {passed}"), *executed(f"RETURN TRANSID('KEPT') {passed}"), *BAD]


def given_area(name: str, command: str) -> list[str]:
    """A program that looks at the last two bytes of its COMMAREA of 1,000, and gives a command."""
    lines = [line_of(name, "CSECT"), op("L", "5,DFHEICAP"), op("CLC", "998(2,5),=C'AZ'"), op("BNE", "BAD")]
    return [*lines, *executed(command), *BAD]


def last_terminal() -> Iterator[Script]:
    """Terminal 16, while fifteen others have tasks, gives each command that takes memory; EDF shows at last where the
    COMMAREA is."""
    session, names = Session(), [f"T{k:03}" for k in range(1, 17)]
    session.define("WAITS", [line_of("WAITS", "CSECT"), *executed("SUSPEND"), *executed("RETURN"), op("END")], "", "WAIT")
    session.define("FIRST", first_program(), "", "FRST")
    session.define("LINKED", given_area("LINKED", "XCTL PROGRAM('MOVED') COMMAREA(0(0,5)) LENGTH(=H'1000')"))
    session.define("MOVED", given_area("MOVED", "RETURN"))
    kept = session.define("KEPT", given_area("KEPT", "RETURN"), "", "KEPT")
    for name in names:
        session.terminal(name)
    for name in names[:15]:
        session.key(name, "ENTER WAIT", "Attached")
        session.turns(name, "AtCommand")
        for size in (88, 80):
            session.storage.place(bytes(size))
    session.key("T016", "ENTER FRST", "Attached")
    session.turns("T016", *DONE * 5, "AtCommand", "Entered", "AtCommand", "Entered")
    session.turns("T016", "AtCommand", "Returned", "AtCommand", "Ended")
    session.edf("T016")
    session.key("T016", "CLEAR", "Attached")
    session.turns("T016", "AtCommand")
    eib, area, stg = (session.storage.place(bytes(size)) for size in (88, 1_000, 80))
    entry = session.entries["KEPT"]
    task = Task(session.storage, "T016", "KEPT", "KEPT", 17, entry, eib, stg)
    task.registers[5], task.aid, task.calen = area, 0x6D, 1_000
    after_list(task, entry + kept.text.index(bytes.fromhex("0E080000")), entry + kept.symbols["BAD"][1])
    session.show("DISPLAY T016", task.before("RETURN"))
    session.key("T016")
    session.turns("T016", "Ended")
    for name in names[:15]:
        session.turns(name, "Performed NORMAL", "AtCommand", "Ended")
    yield session.case("each command that takes memory, at terminal 16")


# looks


def enqueuing(name: str, resource: str, *after: str) -> list[str]:
    """A program that enqueues upon a resource of 255 bytes, whose first four are in R5."""
    lines = [line_of("DFHEISTG", "DSECT"), line_of("RES", "DS", "CL255"), line_of(name, "CSECT"), resource, op("MVI", "RES+4,X'E7'")]
    lines += [op("MVC", "RES+5(250),RES+4"), line_of("NEXT", "ST", "5,RES"), *executed("ENQ RESOURCE(RES) LENGTH(=H'255')")]
    return [*lines, *after, *executed("SUSPEND"), *executed("RETURN"), op("END")]


def many_resources() -> Iterator[Script]:
    """RESOURCES of 256 resources of 255 bytes each: 14 tasks wait for the first, and that of terminal 16 for the last; and RUN of 512 turns."""
    session, names = Session(), {number: f"X'{number:08X}{'E7' * 251}'" for number in range(256, 0, -1)}
    session.define("OWNS", enqueuing("OWNS", op("L", "5,=F'256'"), op("BCT", "5,NEXT")), "", "OWNS")
    session.define("FIRST", enqueuing("FIRST", op("L", "5,=F'256'")), "", "FRST")
    session.define("LAST", enqueuing("LAST", op("LA", "5,1")), "", "LAST")
    waiting = [*((f"T{n:03}", "FRST", 256) for n in range(2, 16)), ("T016", "LAST", 1)]
    for name, transaction, _ in (("T001", "OWNS", 0), *waiting):
        session.attach(name, transaction)
    session.script.append("RUN T001 512")
    session.transcript += [*(f"TURN T001 {reply}" for reply in DONE * 256), "> RUN T001 STILL RUNNING"]
    for name, _, _ in waiting:
        session.turns(name, "AtCommand", "Waiting")
    session.script.append("RESOURCES")
    for number, name in names.items():
        session.transcript.append(f"> RESOURCE {name} OWNER T001 COUNT 00001")
        session.transcript += [f"> RESOURCE {name} WAITER {waiter}" for waiter, _, awaited in waiting if awaited == number]
    yield session.case("256 resources of 255 bytes")


def many_states() -> Iterator[Script]:
    """ORDERS of three tasks of 24 half-turns that share nothing: more states than it keeps without a number, and exactly as many as it may."""
    session, names = Session(), ["T001", "T002", "T003"]
    suspends = [line for _ in range(11) for line in executed("SUSPEND")]
    session.define("LONG", [line_of("LONG", "CSECT"), *suspends, *executed("RETURN"), op("END")], "", "LONG")
    for name in names:
        session.attach(name, "LONG")
    session.show("ORDERS", ["> ORDERS MORE THAN 10000 STATES, ALL OF 40 MOVES"])  # 41 moves lead to 10,337
    session.script += ["/*", f"ORDERS {25 ** 3}", "TASKS"]
    session.show("/*", ["> ORDERS STATES 15625 OUTCOMES 1", "> OUTCOME 1", *(f"> {name} NO TASK" for name in names)])
    told = [*(f"SUSPEND NORMAL {line}" for line in range(2, 13)), "RETURN Ended 13"]
    comments = [f"> * {', '.join(part)}" for part in (told[:5], told[5:10], told[10:])]  # as many as fit in 100 characters
    session.transcript += [line for name in names for line in (f"> RUN {name} 24", *comments)]
    yield session.case("ORDERS with 15,625 states")


LETTERS = "ABCDEFGHIJKLMNOPQRSTUV"


def of_letters(first: str, keys: str) -> Session:
    """A task that puts each letter of its input behind the last one, in the common work area; and a block of CHOICES of such keys."""
    lines = [line_of("DFHEISTG", "DSECT"), line_of("LEN", "DS", "H"), line_of("LETTERS", "CSECT"), op("L", "5,=F'4096'"), op("MVC", "LEN,=H'4'")]
    lines += [*executed("RECEIVE INTO(100(0,5)) LENGTH(LEN)"), line_of("NEXT", "MVC", "LEN,=H'1'")]
    lines += [*executed("RECEIVE INTO(0(0,5)) LENGTH(LEN)"), op("LA", "5,1(5)"), op("B", "NEXT"), op("END")]
    session = Session()
    session.define("LETTERS", lines, "", "LETT")
    session.attach("T001", "LETT", *DONE, "AtCommand", "Waiting")
    session.script += [first, f"KEY T001 ENTER {keys}", "STORAGE 001000 4", "/*"]
    return session


def state_of_letters(number: int, letters: str, arrows: list[int | str], shown: bytes) -> list[str]:
    """What is written of the state that letters lead to: the state of each key, or MORE, and the first bytes of the work area."""
    keys = [line for letter in letters for line in (f"KEY T001 ENTER {letter}", "RUN T001 2")]
    seen = ["T001 LETT LEVEL 01 WAITING FOR INPUT", f"001000  {shown.hex().upper():<36} {shown.decode('cp037').replace(chr(0), '.'):<16}"]
    seen.append("AREA 001000 LENGTH 000200 OFFSET 000000 CWA OWNER REGION")
    lines = [f"STATE {number} SCREEN {number}", *keys, *(f"KEY {k} TO {to}" for k, to in enumerate(arrows, 1)), *seen]
    return [f"> {line}" for line in lines]


def many_choices() -> Iterator[Script]:
    """CHOICES of 22 letters: those of two letters are written, and those of three are 10,648 states more, which it may just keep, or not. And
    lists of as many keys as may be asked."""
    lists = [a + b for a in ["", *LETTERS] for b in (LETTERS if a else [""])]
    lists = ["", *LETTERS, *(it for it in lists if len(it) == 2)]
    places = {letters: number for number, letters in enumerate(lists, 1)}
    states = [line for letters, number in places.items() for line in state_of_letters(
        number, letters, [places.get(letters + it, "MORE") for it in LETTERS], letters.encode("cp037").ljust(4, b"\0"))]
    all_keys, count = "{" + "|".join(LETTERS) + "}", sum(len(LETTERS) ** k for k in range(4))
    for most, first in ((count, f"KEYS 2 STATES {len(lists)}"), (count - 1, f"MORE THAN {count - 1} STATES, ALL OF 2 KEYS")):
        session = of_letters(f"CHOICES 2 {most}", all_keys)
        session.transcript += [f"> CHOICES {first} SCREENS {len(lists)}", *states]
        yield session.case(f"CHOICES with room for {most} states")
    session = of_letters("CHOICES 64", "A")
    session.transcript.append("> CHOICES KEYS 64 STATES 65 SCREENS 5")
    for n in range(65):
        whole = state_of_letters(n + 1, "A" * n, [n + 2 if n < 64 else "MORE"], ("A" * min(n, 4)).encode("cp037").ljust(4, b"\0"))
        session.transcript += whole if n < 5 else [f"> STATE {n + 1} SCREEN 5", *whole[1:-3]]
    yield session.case("CHOICES with lists of 64 keys")


def many_covered() -> Iterator[Script]:
    """COVERED of 9,990 instructions, each run once in one turn; and of a loop of nearly as many as a turn may run, by two terminals."""
    lines = [*instructions(9_989, 9_990)[0], op("B", f"{ENTRY}")]
    session = Session()
    session.define("P", [line_of("P", "CSECT"), *lines, op("END")], "", "P")
    session.show("COVER ON", ["> COVER ON"])
    session.attach("T001", "P", "AtCommand", "Abended XARG")
    session.show("COVERED P", ["> COVERED P STATEMENTS 9990 OF 9990 BRANCHES BOTH WAYS 0 OF 0"])
    session.show("COVERED P LINES", [f"> {number:05}     1 {line.strip()}" for number, line in enumerate(lines, 2)])
    yield session.case("COVERED of 9,990 instructions")
    session = Session()
    loop = [line_of("LOOP", "CSECT"), op("L", "5,=F'65500'"), line_of("AGAIN", "BCT", "5,AGAIN"), *executed("RETURN"), op("END")]
    session.define("LOOP", loop, "", "LOOP")
    session.show("COVER ON", ["> COVER ON"])
    for name in ("T001", "T002"):
        session.attach(name, "LOOP", "AtCommand", "Ended")
    session.show("COVERED LOOP", ["> COVERED LOOP STATEMENTS 3 OF 3 BRANCHES BOTH WAYS 1 OF 1"])
    counts = ((2, 2), (3, 131_000), (4, 2))
    session.show("COVERED LOOP LINES", [f"> 0000{n} {count:>5} {loop[n - 1].strip()}" for n, count in counts])
    yield session.case("COVERED of 131,000 passages")


def constant_of_256() -> Iterator[Script]:
    """A constant of 256 characters, filled, cut and as they are, listed and disassembled."""
    letters = "ABCDEFGHIJKLMNOP" * 16
    lines = [line_of("P", "CSECT"), op("DC", "CL256'A'"), *continued("", "DC", f"C'{letters}'"), *continued("", "DC", f"CL256'{letters}Q'")]
    yield defined("constants of 256 characters", [*lines, op("END")])


Kind = Callable[[], Iterator[Script]]
ALL: list[Kind] = [many_instructions, late_faults, many_literals, many_pools, long_statement, long_disassembly, alone, long_commands]
ALL += [seventy_words, all_words, sixteen_sessions, many_attaches, large_commarea, long_key, many_queues, counted_resource]
ALL += [refusals_in_full_storage, refusals_of_full_queues, refusals_of_full_tables, last_terminal, constant_of_256]
LOOKS: list[Kind] = [many_resources, many_states, many_choices, many_covered]


def first_difference(due: list[str], found: list[str]) -> str:
    """What is printed of two transcripts that differ."""
    place = next((k for k, (one, other) in enumerate(zip(due, found)) if one != other), min(len(due), len(found)))
    one, other = ("".join(lines[place : place + 1])[:120] for lines in (due, found))
    return f"line {place + 1}: {one!r} is due, {other!r} was written"


def tried(program: str, script: Script) -> Counts:
    """A script must end as is due."""
    ended = run([program], text_of(script.lines))
    due = Ended(script.status, text_of(script.transcript), script.reported.encode())
    if ended != due:
        difference = [first_difference(script.transcript, ended.lines())] if ended.out != due.out else []
        raise Wrong(f"status {ended.status}, {ended.reported[:200]!r} on standard error", *difference)
    return Counter({"lines": len(script.lines), "lines of transcripts": len(script.transcript)})


def main(words: list[str]) -> int:
    check = Check(__name__, __doc__, words, "cicsedf", flags={"looks": "scripts with looks, by cicslook"})
    scripts = (script for kind in (LOOKS if check.has("looks") else ALL) for script in kind())
    return check.report([Case(script.what, partial(tried, check.program(), script)) for script in scripts])
