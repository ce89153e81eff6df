"""Regions by rows worked by hand, for `checks/check scripts --looks`: what is done to a region and what it answers, and by looks what is to be seen
then of its tasks, areas, storage and screens."""
from collections.abc import Iterable, Iterator

from checks.showing import digits, shown

# Programs that build an argument list with one word and give the command whose block is their last four bytes, at 01001C.
LISTED = "4100F01C5000F0189680F0184110F01841E0080005EE000000000000"
RETURN, SUSPEND = f"{LISTED}0E080000", f"{LISTED}12080000"
# LA 1,0; LA 14,X'800'; BALR 14,14: a command whose list is at address 0. BC 15,0(15), which goes round in one instruction.
NO_LIST, LOOP = "4110000041E0080005EE", "47F0F000"
# The first program with BC 0,0 in the place of the OI that sets the list's high bit.
NO_HIGH_BIT = RETURN.replace("9680F018", "47000000")
# The second program with LA 0,28(0), the block's offset without its base, in the place of the first instruction.
NO_BASE = f"4100001C{SUSPEND[8:]}"
# A program that sets all bytes of its EIB to FF, and then gives SUSPEND: MVI 0(11),255; MVC 1(87,11),0(11); and the list.
SUSPEND_AFTER_FF = "92FFB000D256B001B0004100F0285000F0249680F0244110F02441E0080005EE000000000000000012080000"
# A program whose list is ready: SUSPEND with NOHANDLE and RESP, whose word is the last of the text.
SUSPEND_WITH_RESP = "4110F01041E0080005EE000000000000000100188001001C120800C0FFFFFFFF"

CWA, PROGRAM, EIB, STG = 0x001000, 0x010000, 0x200000, 0x200060
FREE: list[int | None] = [None]


class Rows:
    """Lines of a script, and those that they write."""

    def __init__(self) -> None:
        self.script, self.written = list[str](), list[str]()

    def do(self, *rows: str) -> "Rows":
        """Lines with their answers, as `TURN T001 -> Idle`."""
        for row in rows:
            line, answer = row.split(" -> ")
            self.script.append(line)
            self.written.append(" ".join([*line.split(" ")[: 1 if line.startswith("CLOCK") else 2], answer]))
        return self

    def program(self, text: str, answer: str, name: str = "RET1", stg_len: int = 80) -> "Rows":
        """A program of an image."""
        self.script += [f"IMAGE {name} {stg_len}", *(text[k : k + 4096] for k in range(0, len(text), 4096)), "/*"]
        self.written.append(f"PROGRAM {name} {answer}")
        return self

    def defined(self, text: str, stg_len: int = 80) -> "Rows":
        """The first program, its transaction and terminal."""
        self.program(text, f"AT 010000 LENGTH {len(text) // 2:06X}", stg_len=stg_len)
        return self.do("TRANSACTION RET1 RET1 -> DEFINED", "TERMINAL T001 -> DEFINED")

    def attached(self, text: str) -> "Rows":
        return self.defined(text).do("KEY T001 ENTER RET1 -> Attached")

    def turns(self, *answers: str) -> "Rows":
        return self.do(*(f"TURN T001 -> {answer}" for answer in answers))

    def look(self, line: str, lines: Iterable[str]) -> "Rows":
        self.script.append(line)
        self.written += (f"> {it}" for it in lines)
        return self

    def storage(self, at: int, data: list[int | None], *areas: str) -> "Rows":
        """Bytes from an address on, None for each that is absent, and the areas that have them: start, length, offset, and what they are."""
        for first in range(0, len(data), 4096):
            part, start = data[first : first + 4096], at + first
            rows = [part[k : k + 16] for k in range(0, len(part), 16)]
            words = [" ".join(digits(row[k : k + 4]) for k in range(0, len(row), 4)) for row in rows]
            seen = [f"{start + 16 * k:06X}  {words[k]:35}  {shown(row):16}" for k, row in enumerate(rows)]
            self.look(f"STORAGE {start:06X} {len(part)}", [*seen, *(f"AREA {area}" for area in areas)])
        return self

    def eib(self, data: list[int | None]) -> "Rows":
        return self.storage(EIB, data, f"{EIB:06X} LENGTH 000058 OFFSET 000000 EIB OWNER T001")

    def task(self, doing: str, registers: dict[int, int], code: int, following: str, last: str, size: int = 80) -> "Rows":
        """The first task: what it is doing, its registers, its condition code, its next instruction, and register 14 after its last command."""
        whole = {3: PROGRAM, 11: EIB, 13: STG, 15: PROGRAM} | registers
        words = [f"R{k:02} {' '.join(f'{whole.get(k + j, 0):08X}' for j in range(4))}" for k in range(0, 16, 4)]
        level = f"LEVEL 01 PROGRAM RET1 R14 {last} DFHEISTG {STG:06X} LENGTH {size:06X} DFHEICAP 00000000 EIBCALEN 0000 PUSHED 00"
        return self.look("TASK T001", [f"TASK T001 TRAN RET1 NUMBER 0000001 {doing}", *words, f"CC {code} NEXT {following}", level])

    def areas(self, size: int = 80) -> "Rows":
        """The areas of the first task."""
        return self.look("AREAS T001", [f"AREA {EIB:06X} LENGTH 000058 EIB OWNER T001", f"AREA {STG:06X} LENGTH {size:06X} DFHEISTG 1 OWNER T001"])

    def nothing(self) -> "Rows":
        """There is no task, and no area of one."""
        self.look("TASK T001", ["TASK T001 NONE"]).look("AREAS T001", ["AREAS T001 NONE"])
        return self.storage(EIB, FREE)


def bytes_of(text: str) -> list[int | None]:
    return [*bytes.fromhex(text)]


AT_COMMAND = {0: 0x0001001C, 1: 0x00010018, 14: 0x50010016}  # when the list is made
AFTER = "010016 RET1+000016"  # the place after the command


def new_task(rows: Rows, size: int = 80) -> Rows:
    """The first task as it is attached."""
    return rows.task("RUNNING", {}, 0, "010000 RET1+000000", "000000 --", size).areas(size)


def due_task(rows: Rows, registers: dict[int, int]) -> Rows:
    """The first task as it comes to its command."""
    return rows.task("DUE RETURN", AT_COMMAND | registers, 1, "000800 --", AFTER).areas()


def answers() -> Iterator[Rows]:
    """Definitions, keys, turns and abends."""
    rows = Rows().program(RETURN, "AT 010000 LENGTH 000020")
    yield rows.do("TERMINAL T001 -> DEFINED", "TRANSACTION RET1 RET1 -> DEFINED", "CLOCK 123456 98365 -> SET", "KEY T001 ENTER RET1 -> Attached",
                  "TURN T001 -> AtCommand", "TURN T001 -> Ended")
    yield Rows().defined(RETURN).do("TERMINAL T001 -> REFUSED Duplicate", "KEY T001 ENTER RET1 -> Attached", "KEY T001 ENTER RET1 -> AlreadyHeldInput")
    for text, code in [(NO_LIST, "XARG"), (NO_HIGH_BIT, "XARG"), (NO_BASE, "XARG"), (f"{LISTED}0EFF0000", "XFUN"), (f"{LISTED}0E084000", "XFUN"),
                       (f"{LISTED}0E080001", "XFUN")]:
        yield Rows().attached(text).turns("AtCommand", f"Abended {code}")
    yield Rows().attached(LOOP).turns("Abended AICA", "Idle")
    yield Rows().defined(RETURN).do("KEY T000 ENTER RET1 -> NoSuchTerminal", "KEY T001 CLEAR RET1 -> NoSuchTransaction", "KEY T001 ENTER RET1 -> Attached",
                                    "KEY T001 ENTER RET1 -> AlreadyHeldInput")
    yield Rows().defined(RETURN).do("TURN T000 -> NoSuchTerminal", "TURN T001 -> Idle")
    blank = Rows().do("TERMINAL T001 -> DEFINED")
    blank.script += ["SCREEN T001", "SCREEN T000"]
    blank.written += ["SCREEN T001", "SCREEN T000 NONE"]
    yield blank
    yield Rows().do("TRANSACTION RET1 RET1 -> REFUSED NoProgram")


def sights() -> Iterator[Rows]:
    """Tasks, their areas and their EIBs."""
    attached = Rows().defined(RETURN).do("CLOCK 123456 98365 -> SET", "KEY T001 PF3 RET1 -> Attached")
    fields = bytes_of("0123456C0098365CD9C5E3F10000001CE3F0F0F1000000000000F3")
    yield attached.eib([*fields, *[0] * 61, None])
    yield new_task(Rows().defined(RETURN).look("TASK T001", ["TASK T001 NONE"]).do("KEY T001 ENTER RET1 -> Attached"))
    yield due_task(Rows().attached(RETURN).turns("AtCommand"), {})
    # of the EIB, which was all FF: EIBFN 1208, EIBRCODE and EIBRESP zero
    suspended = bytes_of(f"{'FF' * 27}1208{'00' * 6}{'FF' * 41}{'00' * 4}{'FF' * 8}")
    yield Rows().attached(SUSPEND_AFTER_FF).turns("AtCommand", "Performed NORMAL").eib([*suspended, None])
    registers = {0: 0x00010028, 1: 0x00010024, 14: 0x50010020}
    ended = Rows().attached(SUSPEND_AFTER_FF).turns("AtCommand", "Performed NORMAL")
    yield ended.task("RUNNING", registers, 1, "010020 RET1+000020", "010020 RET1+000020").turns("Abended ASRA").nothing()
    resp, area = PROGRAM + 28, "010000 LENGTH 000020 OFFSET 00001C PROGRAM RET1 OWNER REGION"
    told = Rows().attached(SUSPEND_WITH_RESP).storage(resp, bytes_of("FFFFFFFF"), area)
    yield told.turns("AtCommand", "Performed NORMAL").storage(resp, bytes_of("00000000"), area)


def sizes() -> Iterator[Rows]:
    """Sixteen tasks, and no seventeenth terminal; 64 programs and transactions; the longest program, DFHEISTG and input."""
    names = [f"T{number:03}" for number in range(1, 17)]
    rows = Rows().program(SUSPEND, "AT 010000 LENGTH 000020").do("TRANSACTION RET1 RET1 -> DEFINED")
    for name in names:
        rows.do(f"TERMINAL {name} -> DEFINED", f"KEY {name} ENTER RET1 -> Attached")
    rows.look("TASKS", (f"{name} RET1 TASK {number:07} LEVEL 01 RUNNING" for number, name in enumerate(names, 1)))
    areas = [(name, EIB + 0xB0 * k, EIB + 0xB0 * k + 0x60) for k, name in enumerate(names)]
    whole = [f"AREA {CWA:06X} LENGTH 000200 CWA OWNER REGION", f"AREA {PROGRAM:06X} LENGTH 000020 PROGRAM RET1 OWNER REGION"]
    for name, eib, stg in areas:
        whole += [f"AREA {eib:06X} LENGTH 000058 EIB OWNER {name}", f"AREA {stg:06X} LENGTH 000050 DFHEISTG 1 OWNER {name}"]
    rows.look("AREAS", whole).do("TERMINAL T017 -> REFUSED Full", "TERMINAL T016 -> REFUSED Duplicate")
    rows.do(*(f"TURN {name} -> {answer}" for answer in ("AtCommand", "Performed NORMAL") for name in reversed(names[1:])))
    for name, eib, _ in areas:  # EIBFN of each
        function = bytes_of("0000" if name == "T001" else "1208")
        rows.storage(eib + 27, function, f"{eib:06X} LENGTH 000058 OFFSET 00001B EIB OWNER {name}")
    yield rows
    rows = Rows()
    for number in range(64):
        rows.program(RETURN, f"AT {PROGRAM + 32 * number:06X} LENGTH 000020", f"P{number:02}")
    rows.do(*(f"TRANSACTION T{number:02} P{number:02} -> DEFINED" for number in range(64)))
    rows.program(RETURN, "REFUSED Full", "P64").program(RETURN, "REFUSED Duplicate", "P00")
    yield rows.do("TRANSACTION T64 P00 -> REFUSED Full", "TRANSACTION T00 P00 -> REFUSED Duplicate")
    yield Rows().attached(RETURN + "00" * (65_536 - 32)).turns("AtCommand", "Ended")
    rows = new_task(Rows().defined(RETURN, 65_520).do("KEY T001 ENTER RET1 -> Attached"), 65_520)
    for first in range(0, 65_520, 4_095):
        rows.storage(STG + first, [0] * 4_095, f"{STG:06X} LENGTH 00FFF0 OFFSET {first:06X} DFHEISTG 1 OWNER T001")
    yield rows.storage(STG + 65_520, FREE)
    longest = f"KEY T001 ENTER RET1{' ' * 1_916} ->"
    yield Rows().defined(RETURN).do(f"{longest} Attached", f"{longest} AlreadyHeldInput")


def stopped() -> Rows:
    """The first task, which EDF stops before its command."""
    return Rows().defined(RETURN).do("EDF T001 ON -> Started", "KEY T001 ENTER RET1 -> Attached").turns("AtCommand", "Held")


def alterations() -> Iterator[Rows]:
    """Alterations of a task that EDF stopped."""
    # after the command comes 0000, which is no instruction; the rest of the task, and its EIB, stay
    eib = bytes_of("0000000C0000000CD9C5E3F10000001CE3F0F0F1000000000000") + bytes_of("7D" + "00" * 61)
    nop = stopped().eib(eib).do("ALTER T001 NOP -> Altered").eib(eib)
    yield nop.task("RUNNING", AT_COMMAND, 1, AFTER, AFTER).areas().turns("Abended ASRA")
    for change, answer in [("BYTE 01001D FF", "Abended XFUN"), ("REG 1 00000000", "Abended XARG"), ("REG 15 FFFFFFFF", "Ended")]:
        yield stopped().do(f"ALTER T001 {change} -> Altered", "KEY T001 ENTER -> ToEdf").turns(answer)
    yield stopped().do("ALTER T001 ABEND -> Altered").nothing().turns("Idle")
    yield due_task(stopped().do("ALTER T001 BYTE 000000 00 -> NoByte", "ALTER T000 NOP -> NoSuchTerminal", "ALTER T000 BYTE 000000 00 -> NoSuchTerminal"), {})
    yield due_task(stopped().do("ALTER T001 REG 7 12345678 -> Altered"), {7: 0x12345678})
    # the last byte of the common work area
    last = f"{CWA:06X} LENGTH 000200 OFFSET 0001FE CWA OWNER REGION"
    yield stopped().do("ALTER T001 BYTE 0011FF AA -> Altered").storage(CWA + 0x1FE, bytes_of("00AA"), last)


def regions() -> Iterator[tuple[list[str], list[str]]]:
    """Each case: the lines of its script, and those that it writes."""
    for kind in (answers, sights, sizes, alterations):
        yield from ((rows.script, rows.written) for rows in kind())
