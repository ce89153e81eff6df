"""For every two of the twenty commands, in both orders, one task performs the first while another is
due the second. The second task's displays from then on (registers, EIB, working storage, screen), and what it finds of
its handles, input, queue, resource and next transaction, must be what they are where the first command isn't performed;
so must a third task's."""
from collections import Counter
from collections.abc import Callable, Iterator
from functools import cache, partial
from typing import NamedTuple

from checks.common import Case, Check, Counts, require
from checks.examples import reported_of, transcript_of
from checks.images import Image, Place, half, own

SET, LENGTH, INTO, EIB, CWA = 200, 208, 216, 256, 288  # fields of DFHEISTG after its head; the argument list is at its beginning


def name8(text: str) -> bytes:
    return text.ljust(8).encode("cp037")


class Code(Image):
    """An image whose code is addressed by R3."""

    def __init__(self) -> None:
        super().__init__(base=3)

    def length(self, size: int) -> None:
        self.rx(0x48, 4, self.put(half(size)))
        self.rx(0x40, 4, own(LENGTH))

    def move(self, to: int, count: int, base: int) -> None:
        self.code += bytes([0xD2, count - 1]) + half(0xD << 12 | to) + half(base << 12)

    def lines(self) -> list[str]:
        """Its digits, with zeros after it, so that no display of sixteen bytes reaches into the next program."""
        text = (self.image() + bytes(16)).hex().upper()
        return [text[k : k + 160] for k in range(0, len(text), 160)]


class Role:
    """What a task works on: its names, and the sizes of what it makes."""

    def __init__(self, letter: str, size: int) -> None:
        self.letter, self.size = letter, size
        self.queue, self.other, self.resource = name8("Q" + letter), name8("O" + letter), ("R" + letter).encode("cp037")
        self.is_first = letter == "A"


def writeq(code: Code, queue: bytes, size: int) -> None:
    code.command(0x0A02, 0xE0, [code.put(queue), code.put(b"\xC1" * size), code.put(half(size))])


def readq(code: Code, queue: bytes) -> None:
    code.length(32)
    code.command(0x0A04, 0xE8, [code.put(queue), own(INTO), own(LENGTH)])


def enq(code: Code, name: bytes) -> None:
    code.command(0x1204, 0xC0, [code.put(name), code.put(half(len(name)))])


def deq(code: Code, name: bytes) -> None:
    code.command(0x1206, 0xC0, [code.put(name), code.put(half(len(name)))])


def getmain(code: Code, role: Role) -> None:
    code.command(0x0C02, 0xC0, [own(SET), code.put(half(role.size))])


def link(code: Code, program: str) -> None:
    code.command(0x0E02, 0x80, [code.put(name8(program))])


def return_to(code: Code, role: Role) -> None:
    code.command(0x0E08, 0xE0, [code.put(("N" + role.letter).ljust(4).encode("cp037")), code.put(b"\xC3" * 8), code.put(half(8))])


def receive(code: Code) -> None:
    code.length(32)
    code.command(0x0402, 0xC0, [own(INTO), own(LENGTH)])


Act = Callable[[Code, Role], None]


class Command(NamedTuple):
    """A command: how it is given, its reply, and what is done before it."""

    act: Act | None
    reply: str = "Performed NORMAL"
    before: Act | None = None


def given(function: int, option: int = 0, *arguments: Place) -> Act:
    """A command with these arguments."""
    return lambda code, role: code.command(function, option, arguments)


def quitting(code: Code, _role: Role) -> None:
    code.command(0x0E0C, 0x80, [code.put("QUIT".encode("cp037"))])


def send(code: Code, role: Role) -> None:
    code.command(0x1806, 0xE0, [code.put(("TEXT OF " + role.letter).encode("cp037")), code.put(half(9))])


FIRST = {  # RETURN and ABEND end the first task; the second goes on, in the linking program and at its exit
    "RETURN": Command(return_to, "Ended"),
    "ABEND": Command(quitting, "Abended QUIT"),
}
SECOND = {
    "RETURN": Command(None, "Returned", lambda code, role: link(code, "R" + role.letter)),
    "ABEND": Command(quitting, "TookExit QUIT", given(0x0E0E, 0x80, Place("label", "tail"))),
}
BOTH = {
    "ADDRESS": Command(given(0x0202, 0x80, own(SET))),
    "HANDLE CONDITION": Command(lambda code, role: code.conditions(0x0204, 44, "tail")),
    "IGNORE CONDITION": Command(lambda code, role: code.conditions(0x020A, 44, None)),
    "PUSH HANDLE": Command(given(0x020C)),
    "POP HANDLE": Command(given(0x020E), before=given(0x020C)),
    "RECEIVE": Command(lambda code, role: receive(code)),
    "WRITEQ TS": Command(lambda code, role: writeq(code, role.other, role.size)),
    "READQ TS": Command(lambda code, role: readq(code, role.queue)),
    "DELETEQ TS": Command(lambda code, role: code.command(0x0A06, 0x80, [code.put(role.other)]), before=lambda code, role: writeq(code, role.other, 8)),
    "GETMAIN": Command(getmain),
    "FREEMAIN": Command(given(0x0C04, 0x80, Place("pointer", SET)), before=getmain),
    "LINK": Command(lambda code, role: link(code, "L" + role.letter), "Entered"),
    "XCTL": Command(lambda code, role: code.command(0x0E04, 0x80, [code.put(name8("X" + role.letter))]), "Entered"),
    "HANDLE ABEND": Command(given(0x0E0E, 0x80, Place("label", "tail"))),
    "ENQ": Command(lambda code, role: enq(code, role.resource + role.resource)),
    "DEQ": Command(lambda code, role: deq(code, role.resource)),
    "SUSPEND": Command(given(0x1208)),
    "SEND TEXT": Command(send),
}
NAMES = [*BOTH, *FIRST]
COMMANDS = 20


def command_of(role: Role, name: str) -> Command:
    return (BOTH | (FIRST if role.is_first else SECOND))[name]


def tail(code: Code, role: Role) -> None:
    """What the second task finds afterwards of its EIB, handles, queue, resource and input; its next transaction is seen by a
    key."""
    code.label("tail")
    code.move(EIB, 88, 11)
    code.conditions(0x020A, 44, None)
    link(code, "MISSING")
    code.label("missing")
    readq(code, role.queue)
    enq(code, role.resource)
    deq(code, role.resource)
    return_to(code, role)


def main_program(role: Role, command: str) -> tuple[list[str], int]:
    """The program, and how many turns there are before its command is due."""
    act, _, before = command_of(role, command)
    code = Code()
    # handles, a queue of two items and a resource of its own
    code.conditions(0x0204, 27, "missing")
    if role.is_first:
        code.label("missing")
        code.label("tail")
    writeq(code, role.queue, 8)
    writeq(code, role.queue, 8)
    enq(code, role.resource)
    if before:
        before(code, role)
    turns = 2 * code.commands + 1
    if act:
        act(code, role)
    if command == "PUSH HANDLE":
        code.command(0x020E, 0)
    if not role.is_first:
        tail(code, role)
    return code.lines(), turns


def returning() -> list[str]:
    code = Code()
    code.command(0x0E08, 0)
    return code.lines()


def transferred(role: Role) -> list[str]:
    code = Code()
    if role.is_first:
        code.command(0x0E08, 0)
    else:
        code.conditions(0x0204, 27, "missing")
        tail(code, role)
    return code.lines()


def witness() -> list[str]:
    """The third task gets an area and frees it later, so that the second finds a hole; it reads its queue, and the CWA."""
    code, role = Code(), Role("C", 1024)
    getmain(code, role)
    writeq(code, role.queue, 8)
    enq(code, role.resource)
    code.command(0x0C04, 0x80, [Place("pointer", SET)])
    readq(code, role.queue)
    code.command(0x0202, 0x80, [own(SET)])
    code.rx(0x58, 5, own(SET))
    code.move(CWA, 64, 5)
    deq(code, role.resource)
    code.command(0x0E08, 0)
    return code.lines()


def shown(terminal: str) -> list[str]:
    """A turn, with the pages of its display, and ENTER."""
    display = f"DISPLAY {terminal}"
    return [f"TURN {terminal}", display, f"KEY {terminal} PF5", display, f"KEY {terminal} PF6", display, f"KEY {terminal} ENTER"]


def script(first: str, second: str, performs: int) -> list[str]:
    # what the first task makes is too long for the hole, and what the second makes fits
    one, two = Role("A", 2000), Role("B", 24)
    lines: list[str] = []
    (image_one, turns_one), (image_two, turns_two) = main_program(one, first), main_program(two, second)
    # the first task's programs come after the others, since their lengths all differ
    programs = [("B", 352, image_two), ("C", 352, witness()), ("LB", 80, returning()), ("RB", 80, returning()), ("XB", 352, transferred(two)),
                ("A", 2048, image_one), ("LA", 2048, returning()), ("XA", 2048, transferred(one))]
    for name, stg, image in programs:
        lines += [f"IMAGE {name} {stg}", *image, "/*"]
    lines += ["TRANSACTION A A", "TRANSACTION B B", "TRANSACTION C C", "TRANSACTION NA LA", "TRANSACTION NB LB"]
    lines += ["TERMINAL T001", "TERMINAL T002", "TERMINAL T003", "EDF T002 ON"]
    lines += ["KEY T003 ENTER C"] + ["TURN T003"] * 6
    lines += ["KEY T002 ENTER B"] + ["TURN T002", "KEY T002 ENTER"] * turns_two
    lines += ["KEY T001 ENTER A"] + ["TURN T001"] * turns_one
    lines += ["TURN T003"] * 2 + ["* here"] + ["TURN T001"] * performs
    lines += ["KEY T002 ENTER INPUT"] + shown("T002") * 20 + ["SCREEN T002"]
    lines += ["EDF T003 ON"] + shown("T003") * 9 + ["SCREEN T003"]
    return lines


@cache
def found_alone(program: str, second: str) -> list[str]:
    """What others find where the second command is due and no first one is performed."""
    return reported_of(("T002", "T003"), transcript_of(program, script("SUSPEND", second, 0)))


def performed(program: str, second: str) -> Counts:
    """The second task must perform its command, meet the missing program, and end, and so must the third."""
    due = {f"TURN T002 {command_of(Role('B', 1), second).reply}", "TURN T002 TookLabel PGMIDERR", "TURN T002 Ended", "TURN T003 Ended"}
    require(due <= set(found_alone(program, second)), "it isn't performed as it should be")
    return Counter()


def tried(program: str, first: str, second: str) -> Counts:
    """The first command is performed while the second is due: that must change nothing for others."""
    transcript = transcript_of(program, script(first, second, 1))
    reply = command_of(Role("A", 1), first).reply
    require([line for line in transcript if line.startswith("TURN T001")][-1:] == [f"TURN T001 {reply}"], "the first isn't performed")
    require(reported_of(("T002", "T003"), transcript) == found_alone(program, second), "it changes what others find")
    return Counter({"pairs": 1})


def cases(program: str) -> Iterator[Case]:
    for second in NAMES:
        yield Case(f"{second} due", partial(performed, program, second))
        for first in NAMES:
            yield Case(f"{first}, where {second} is due", partial(tried, program, first, second))


def main(words: list[str]) -> int:
    check = Check(__name__, __doc__, words, "cicsedf")
    return check.report(cases(check.program()), {"pairs": COMMANDS * COMMANDS})
