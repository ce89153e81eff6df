"""Performs each command some thousands of times by scripts that it makes, and prints the user CPU of each. It is that of so many and of
four times as many, with the growth; then that of a thousand commands over many areas, a full store of queues, and as many queues and
resources as there may be. With --before each command is performed --count N (10,000) times by that program and by this one in turn, in ten
pairs of runs, and printed are the medians of both and of their ratio; nothing is then done over what is there. --only names one row. No
part of the gate."""
import statistics
from collections.abc import Callable, Iterator

from cics.cli import say
from checks.common import Check, program_at
from checks.examples import text_of
from checks.images import Image, Place, half, own
from checks.measuring import failing, taken, well

PAIRS = 10
FEW, MANY, OVER = 2_500, 10_000, 1_000
AREA, LENGTH, INTO = own(200), own(300), own(400)
PERFORMED = "Performed NORMAL"
Body = Callable[[Image], None]
Made = tuple[list[str], str]  # the lines of a script, and what is written for each command that is performed
Make = Callable[[int], Made]


def image() -> Image:
    return Image(base=15)


def returning(program: Image) -> Image:
    program.command(0x0E08)
    return program


def head(*programs: tuple[str, Image], stg: int = 2048) -> list[str]:
    """The programs, the first of which has a transaction, and a terminal."""
    lines = []
    for name, program in programs:
        digits = program.image().hex().upper()
        lines += [f"IMAGE {name} {stg}", *(digits[k : k + 4000] for k in range(0, len(digits), 4000)), "/*"]
    return [*lines, f"TRANSACTION A {programs[0][0]}", "TERMINAL T001"]


def turned(lines: list[str], turns: int) -> list[str]:
    return [*lines, "KEY T001 ENTER A", *["TURN T001"] * turns]


def once(program: str, make: Make, count: int) -> float:
    """The user CPU of so many commands, which must be performed."""
    lines, due = make(count)
    it = well(due, taken([program], text_of(lines)))
    if (done := it.ended.out.count(due.encode())) < count:
        raise failing(due, f"{done} of {count} performed")
    return it.user


def looped(count: int, body: Body) -> Image:
    program = image()
    program.loop(count, body)
    return returning(program)


def simple(*bodies: Body) -> Make:
    """Each turn of a loop gives these commands, which are performed."""

    def make(count: int) -> Made:
        return turned(head(("A", looped(count // len(bodies), each(*bodies)))), 2 * count + 2), PERFORMED

    return make


def each(*bodies: Body) -> Body:
    def body(program: Image) -> None:
        for one in bodies:
            one(program)

    return body


def command(function: int, option: int = 0, *arguments: bytes | Place) -> Body:
    """A command, whose arguments are places, or constants."""
    return lambda p: p.command(function, option, [it if isinstance(it, Place) else p.put(it) for it in arguments])


def length(size: int) -> Body:
    def body(program: Image) -> None:
        program.rx(0x48, 4, program.put(half(size)))
        program.rx(0x40, 4, LENGTH)

    return body


def numbered(function: int, option: int, *arguments: bytes | Place) -> Body:
    """A command whose first argument is a name with the loop's number in it."""
    return each(lambda p: p.rx(0x50, 2, own(304)), command(function, option, LENGTH, *arguments))


QUEUE, TEXT = "QUEUE1  ".encode("cp037"), b"\xC1" * 64
SUSPEND = command(0x1208)
FREE = command(0x0C04, 0x80, Place("pointer", 200))
RECEIVE = each(length(80), command(0x0402, 0xC0, INTO, LENGTH))
WRITE, DELETE = command(0x0A02, 0xE0, QUEUE, TEXT, half(16)), command(0x0A06, 0x80, QUEUE)
READ = each(length(80), command(0x0A04, 0xE0, QUEUE, INTO, LENGTH))
OWN, RELEASE = command(0x1204, 0xC0, TEXT, half(8)), command(0x1206, 0xC0, TEXT, half(8))


def get(size: int, *initimg: bytes) -> Body:
    return command(0x0C02, 0xE0 if initimg else 0xC0, AREA, half(size), *initimg)


def stopped(count: int) -> Made:
    """A command under EDF: its two displays, each left by ENTER."""
    return [*head(("A", looped(count, SUSPEND))), "EDF T001 ON", "KEY T001 ENTER A", *["TURN T001", "KEY T001 ENTER"] * 2 * (count + 2)], "KEY T001"


def typed(count: int) -> Made:
    """A key with 1,900 characters, which a task's RECEIVE waits for."""
    key = ["TURN T001", "TURN T001", "KEY T001 ENTER " + "NEXT " * 380]
    return [*turned(head(("A", looped(count, RECEIVE))), 0), *key * count], "KEY T001"


def linked(count: int) -> Made:
    caller = looped(count, command(0x0E02, 0x80, "B       ".encode("cp037")))
    return turned(head(("A", caller), ("B", returning(image()))), 4 * count + 2), "Returned"


def transferred(*commarea: bytes | Place) -> Make:
    def make(count: int) -> Made:
        program = image()
        command(0x0E04, 0xE0 if commarea else 0x80, "A       ".encode("cp037"), *commarea)(program)
        return turned(head(("A", program)), 2 * count), "Entered"

    return make


def received(count: int) -> Made:
    return [*turned(head(("A", looped(count, RECEIVE))), 0), *["TURN T001", "TURN T001", "KEY T001 ENTER NEXT"] * (count + 1)], PERFORMED


def ending(due: str, function: int, option: int = 0, *arguments: bytes) -> Make:
    """A task is attached, and ends by a command."""

    def make(count: int) -> Made:
        program = image()
        command(function, option, *arguments)(program)
        return [*head(("A", program)), *["KEY T001 ENTER A", "TURN T001", "TURN T001"] * count], due

    return make


COMMANDS: dict[str, Make] = {
    "SUSPEND": simple(SUSPEND),
    "ADDRESS": simple(command(0x0202, 0x80, AREA)),
    "HANDLE CONDITION": simple(lambda p: p.listed(half(0x0204) + bytes([1, 0, 27, 0x80]), [AREA])),
    "IGNORE CONDITION": simple(lambda p: p.conditions(0x020A, 27, None)),
    "PUSH, POP HANDLE": simple(command(0x020C), command(0x020E)),
    "HANDLE ABEND": simple(command(0x0E0E, 0x80, AREA)),
    "SEND TEXT": simple(command(0x1806, 0xE0, TEXT, half(64))),
    "RECEIVE": received,
    "GETMAIN": simple(get(16)),
    "GETMAIN, FREEMAIN": simple(get(16), FREE),
    "GETMAIN of 32,000": simple(get(32000), FREE),
    "INITIMG": simple(get(16, b"\xFF"), FREE),
    "INITIMG of 32,000": simple(get(32000, b"\xFF"), FREE),
    "WRITEQ TS": simple(WRITE),
    "WRITEQ, DELETEQ TS": simple(WRITE, DELETE),
    "WRITEQ, READQ TS": simple(WRITE, READ),
    "ENQ, DEQ": simple(OWN, RELEASE),
    "LINK and RETURN": linked,
    "XCTL": transferred(),
    "XCTL with a COMMAREA": transferred(INTO, half(100)),
    "attach and RETURN": ending("Ended", 0x0E08),
    "attach and ABEND": ending("Abended", 0x0E0C, 0x80, "QUIT".encode("cp037")),
    "EDF stop": stopped,
    "KEY of 1,900": typed,
}


def over(there: int, fill: Body, *bodies: Body) -> Make:
    """Commands over what is there: so many times the first, and then the others in turn."""

    def make(count: int) -> Made:
        program = image()
        program.loop(there, fill)
        if count:
            program.loop(count // len(bodies), each(*bodies))
        return turned(head(("A", returning(program)), stg=65520), 2 * (there + count) + 2), PERFORMED

    return make


LARGE = command(0x0A02, 0xE0, QUEUE, own(0), half(32767))
READ_LAST = each(length(32767), command(0x0A04, 0xF0, QUEUE, INTO, LENGTH, half(128)))
LOADS: dict[str, Make] = {
    **{f"{there:,} areas": over(there, get(16), get(16), FREE) for there in (1000, 10000, 100000)},
    "4 MiB, WRITEQ TS": over(128, LARGE, command(0x0A02, 0xE3, QUEUE, own(0), half(32767), half(1))),
    "4 MiB, READQ TS": over(128, LARGE, READ_LAST),
    "255 queues": over(255, numbered(0x0A02, 0xE0, own(0), half(16)), command(0x0A02, 0xE0, QUEUE, own(0), half(16)), DELETE),
    "255 resources": over(255, numbered(0x1204, 0xC0, half(8)), OWN, RELEASE),
}


def compared(before: str, program: str, count: int, rows: dict[str, Make]) -> Iterator[str]:
    """The rows of commands by two programs."""
    yield f"{count:<22,}{'before':>9}{'now':>9}{'ratio':>9}"
    for name, make in rows.items():
        pairs = [(once(before, make, count), once(program, make, count)) for _ in range(PAIRS)]
        old, now, ratio = (statistics.median(it) for it in zip(*((old, new, new / max(old, 0.001)) for old, new in pairs)))
        yield f"{name:22}{old:9.3f}{now:9.3f}{ratio:9.2f}"


def measured(program: str, rows: dict[str, Make], loads: dict[str, Make]) -> Iterator[str]:
    """The rows of commands, and those of commands over what is there."""
    yield f"{'':22}{FEW:>9,}{MANY:>9,}{'growth':>9}"
    for name, make in rows.items():
        few, many = once(program, make, FEW), once(program, make, MANY)
        yield f"{name:22}{few:9.3f}{many:9.3f}{many / max(few, 0.001):9.1f}"
    yield f"\n{'over':22}{'to fill':>9}{OVER:>9,}"
    for name, make in loads.items():
        alone, more = once(program, make, 0), once(program, make, OVER)
        yield f"{name:22}{alone:9.3f}{more - alone:9.3f}"


def main(words: list[str]) -> int:
    check = Check(__name__, __doc__, words, "cicsedf", numbers={"count": (10_000, "so many commands, with --before")},
                  texts={"before": "an earlier program"})
    before, program = check.text("before"), check.program()
    rows, loads = ({name: make for name, make in all_of.items() if check.only in (None, name)} for all_of in (COMMANDS, LOADS))
    if not rows and not loads:
        raise failing(str(check.only), "there is no such row")
    for line in compared(program_at(before), program, check.number("count"), rows) if before else measured(program, rows, loads):
        say(line)
    return 0
