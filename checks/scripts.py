"""Scripts of `cicsedf`, or with --looks of `cicslook`, each with the transcript that is due and the line at fault. They are of bad lines,
the ends and lengths of lines, faulty sources and when they are reported, refused definitions, calls of full size, blocks of ORDERS and
CHOICES, regions with what is seen of their tasks and storage, and sources and statements that were assembled by hand. Each is run twice:
what it reads and writes moves whole, and byte by byte. A script without a fault is run with a bad line after it too, whose number tells
that all its lines were read.
"""
import re
from collections import Counter
from collections.abc import Iterator
from functools import partial
from typing import NamedTuple

from cics.child import Ended
from cics.scripts import OF_CICSLOOK
from checks.common import Case, Check, Counts, require
from checks.examples import text_of
from checks.hostile_lines import CHARACTER
from checks.refusing import Sweep, library
from checks.regions import regions
from checks.worked_sources import worked_sources
from checks.worked_statements import worked_statements


class Fault(NamedTuple):
    """A fault as it is reported: a number of a line, and a kind."""

    line: int
    kind: str = "BadLine"

    def after(self, lines: int) -> "Fault":
        """The same fault with so many lines in front."""
        return Fault(self.line + lines, self.kind)


class Script(NamedTuple):
    """A script, what it writes, and its fault; of one that has none how many lines it has, where that isn't its number of line feeds."""

    text: bytes
    written: bytes = b""
    fault: Fault | None = None
    lines: int | None = None


# Lines.


def bad_lines() -> Iterator[Script]:
    bad = {
        1: [b"HELLO\n", b"TERMINAL T0001\n", b"TERMINAL t001\n", b"TERMINAL  T001\n", b"TERMINAL T001 \n", b" TERMINAL T001\n", b"TURN T0011\n",
            b"KEY T001 PF13\n", b"KEY T001 ENTER A{B\n", b"CLOCK 12345 26001\n", b"CLOCK 123456 2600X\n", b"IMAGE A 1234567890\n",
            b"IMAGE A 80\n00\n", b"TERMINAL \xC3\x84\n", b"TURN T001\r\r\n", b"TURN T001\r", b"SOURCE A\n"],
        2: [b"IMAGE A 80\n0G\n", b"IMAGE A 80\n* 00\n"],
        3: [b"* one\n\nTERMINAL\n", b"IMAGE A 80\n00\n0\n/*\n"],
    }
    yield from (Script(text, fault=Fault(line)) for line, texts in bad.items() for text in texts)


def alterations() -> Iterator[Script]:
    """Alterations that are bad lines, and others, of a terminal that isn't defined."""
    for bad in ["", "1 NOP", " nop", " NOP 1", " ABEND ", " REG 16 00000000", " REG 001 00000000", " REG 1 0000000", " REG 1 000000000", " REG 1",
                " BYTE 00000 00", " BYTE 0000000 00", " BYTE 000000 0", " BYTE 00000G 00"]:
        yield Script(text_of([f"ALTER T001{bad}"]), fault=Fault(1))
    for change in ["NOP", "ABEND", "REG 0 fFfFfFfF", "REG 09 00000000", "REG 15 01234567", "BYTE FFFFFF ff"]:
        yield Script(text_of([f"ALTER T009 {change}"]), b"ALTER T009 NoSuchTerminal\n")


def ends_of_lines() -> Iterator[Script]:
    """A line ends with LF, CR and LF, or with the script, without a CR then; and has at most 4,096 bytes in front of that."""
    yield Script(b"", lines=0)
    yield Script(b"\n\r\n* no\n")
    yield Script(b"CLOCK 000000 00000", b"CLOCK SET\n", lines=1)
    yield Script(b"CLOCK 000000 00000\r\n", b"CLOCK SET\n")
    yield Script(b"IMAGE A 80\n\n0a0B\n\n/*", b"PROGRAM A AT 010000 LENGTH 000002\n", lines=5)
    yield Script(b"*" * 4096 + b"\n")
    yield Script(b"*" * 4096 + b"\r\n")
    yield Script(b"*" * 4096, lines=1)
    yield Script(b"*" * 4096 + b"\r", fault=Fault(1))
    yield Script(b"*" * 4097 + b"\n", fault=Fault(1))


# Sources.

CSECT, END, RETURN = "P        CSECT", "         END", "         BR    14"
EXEC = "         EXEC  CICS "

# Of each kind of fault a source, and the number of its faulty line in a script that begins with SOURCE.
FAULTS = [
    ([CSECT, "         LA\t1,2", END], Fault(3, "BadCharacter")),
    ([CSECT, "1A       BR    14", END], Fault(3, "BadName")),
    ([CSECT, "         DC    F'1,".ljust(71) + "X", "A              2'", END], Fault(4, "BadContinuation")),
    (["*" * 80, "*" * 81, END], Fault(3, "TooLong")),
    ([CSECT], Fault(3, "NoEnd")),
    ([CSECT, f"{EXEC}BEGIN", END], Fault(3, "UnknownCommand")),
    ([CSECT, f"{EXEC}SUSPEND TASK", END], Fault(3, "UnknownOption")),
    ([CSECT, f"{EXEC}LINK", END], Fault(3, "MissingOption")),
    ([CSECT, f"{EXEC}HANDLE ABEND CANCEL RESET", END], Fault(3, "Conflict")),
    ([CSECT, f"{EXEC}IGNORE CONDITION".ljust(71) + "X", "               ERROR ERROR ERROR ERROR ERROR ERROR ERROR ERROR ERROR   X",
      "               ERROR ERROR ERROR ERROR ERROR ERROR ERROR ERROR", END], Fault(3, "TooManyConditions")),
    ([CSECT, f"{EXEC}SUSPEND(1)", END], Fault(3, "BadArgument")),
    ([CSECT, "         MOVE  1,2", END], Fault(3, "UnknownOperation")),
    ([CSECT, "         LA    1,X", END], Fault(3, "UndefinedSymbol")),
    ([CSECT, "A        EQU   1", "A        EQU   2", END], Fault(4, "DuplicateSymbol")),
    ([CSECT, "         LA    1,P", END], Fault(3, "NoAddressability")),
    ([CSECT, "         LR    1", END], Fault(3, "BadOperand")),
    ([CSECT, "         LR    1,16", END], Fault(3, "ValueOutOfRange")),
    ([CSECT, "         DC    A(P+P)", END], Fault(3, "NotRelocatable")),
    ([CSECT, "         DS    XL65535", "         DS    XL2", END], Fault(5, "TooLarge")),
]


def block(lines: list[str], wanted: str = "") -> list[str]:
    return [f"SOURCE P{wanted}", *lines, "/*"]


def faulty_sources() -> Iterator[Script]:
    """Each kind of fault: what is before the block is done, nothing of it is written, and nothing after it is done."""
    for lines, fault in FAULTS:
        whole = [*block(lines, " LIST DISASM"), "TERMINAL T001"]
        yield Script(text_of(whole), fault=fault)
        yield Script(text_of(["TERMINAL T001", *whole]), b"TERMINAL T001 DEFINED\n", fault.after(1))


def blocks() -> Iterator[Script]:
    """One CR is dropped at a line's end. A block is read whole before its source is judged; of a source without END the line of the block's
    end is reported, of one without USING the first that needs a base. The words after SOURCE stand in their order."""
    returned = b"SOURCE RET2\r\nRET2     CSECT\r\n         EXEC  CICS RETURN\r\n         END\r\nno name\r\n/*\r\n"
    yield Script(returned, b"PROGRAM RET2 AT 010000 LENGTH 000020\n")
    yield Script(b"SOURCE P\nP\r\r\n         END\n/*\n", fault=Fault(2, "BadCharacter"))
    yield Script(b"SOURCE P\nP\r\n/*\n", fault=Fault(3, "NoEnd"))
    faulty = ["SOURCE P", CSECT, "1        BR    14", END]
    yield Script(text_of([*faulty, "*" * 4097, "/*"]), fault=Fault(5))
    yield Script(text_of(faulty), fault=Fault(1))
    yield Script(text_of(block([])), fault=Fault(2, "NoEnd"))
    instructions = ["         MVC   8(2,13),=C'AB'", "         L     1,=F'1'", "         LH    2,=H'2'", "         A     1,=F'1'"]
    yield Script(text_of(block([CSECT, "         USING P,15", *instructions], " LIST DISASM")), fault=Fault(8, "NoEnd"))
    yield Script(text_of(block([CSECT, *instructions, END], " LIST DISASM")), fault=Fault(3, "NoAddressability"))
    for words in [" X DISASM LIST", " X LIST LIST", " X DISASM DISASM", " X  LIST", " X LIST  DISASM", " X LIST ", " X ", "", " X list"]:
        yield Script(text_of([f"SOURCE{words}"]), fault=Fault(1))


def refused_definitions() -> Iterator[Script]:
    """What is wanted of a source is written before its definition is refused."""
    loaded, listed = "PROGRAM P AT 010000 LENGTH 000002", [f"{'':24}00001 {CSECT}", f"000000 07FE{'':13}00002 {RETURN}", f"{'':24}00003 {END}"]
    twice = [*block([CSECT, RETURN, END], " LIST"), *block([CSECT, RETURN, END], " DISASM")]
    yield Script(text_of(twice), text_of([*listed, loaded, "BCR 15,14", "PROGRAM P REFUSED Duplicate"]))
    none = [f"{'':24}00001 A        EQU   1", f"{'':24}00002 {END}", "PROGRAM P REFUSED BadLength"]
    yield Script(text_of(block(["A        EQU   1", END], " LIST DISASM")), text_of(none))
    stored = block(["DFHEISTG DSECT", "         DS    XL65521", CSECT, RETURN, END])
    yield Script(text_of(stored), b"PROGRAM P REFUSED StgLength\n")
    entered = block([CSECT, RETURN, f"{END}   P+2"], " DISASM")
    yield Script(text_of(entered), b"BCR 15,14\nPROGRAM P REFUSED EntryOutside\n")


def long_sources() -> Iterator[Script]:
    """A source has at most 10,000 lines."""
    for comments, fault in [(9_997, None), (9_998, Fault(10_002, "TooLong")), (20_000, Fault(10_002, "TooLong"))]:
        script = text_of(block(["*"] * comments + [CSECT, RETURN, END]))
        yield Script(script, b"" if fault else b"PROGRAM P AT 010000 LENGTH 000002\n", fault)


# What is done.


def transcripts() -> Iterator[Script]:
    returns = b"IMAGE RET1 80\n4100F01C5000F0189680F0184110F018\n41E0080005EE0000000000000E080000\n/*\n"
    events = ["TERMINAL T001", "TRANSACTION RET1 RET1", "KEY T001 ENTER RET1", "TURN T001", "TURN T001"]
    answers = ["DEFINED", "DEFINED", "Attached", "AtCommand", "Ended"]
    yield Script(returns + text_of(events), b"PROGRAM RET1 AT 010000 LENGTH 000020\n" + answered(events, answers))
    refused = ["TERMINAL T001", "TERMINAL T001", "TRANSACTION X NONE", "KEY T001 ENTER ZZZZ", "TURN T001", "KEY T009 ENTER"]
    answers = ["DEFINED", "REFUSED Duplicate", "REFUSED NoProgram", "NoSuchTransaction", "Idle", "NoSuchTerminal"]
    yield Script(text_of(refused), answered(refused, answers))
    yield Script(b"IMAGE A 79\n00\n/*\nIMAGE A 80\n/*\n", b"PROGRAM A REFUSED StgLength\nPROGRAM A REFUSED BadLength\n")
    events = ["TERMINAL T001", "TRANSACTION LOOP LOOP", "KEY T001 PF3 LOOP", "TURN T001", "TURN T001"]
    answers = ["DEFINED", "DEFINED", "Attached", "Abended AICA", "Idle"]
    loop = b"PROGRAM LOOP AT 010000 LENGTH 000004\n"
    yield Script(b"IMAGE LOOP 80\n47F0F000\n/*\n" + text_of(events), loop + answered(events, answers))
    clock = ["CLOCK 235959 26366", "TERMINAL T001", "SCREEN T001", "SCREEN T002"]
    yield Script(text_of(clock), b"CLOCK SET\nTERMINAL T001 DEFINED\nSCREEN T001\nSCREEN T002 NONE\n")


def answered(events: list[str], answers: list[str]) -> bytes:
    """The transcript of some events: of each its verb, its name and its answer."""
    return text_of(f"{' '.join(event.split()[:2])} {answer}" for event, answer in zip(events, answers, strict=True))


def texts_of_keys() -> Iterator[Script]:
    """The second blank after a key belongs to the text, whose first word is empty then."""
    events = ["TERMINAL T", "TRANSACTION A A", "KEY T ENTER  A", "KEY T ENTER", "KEY T ENTER A B"]
    answers = ["DEFINED", "DEFINED", "NoSuchTransaction", "NoSuchTransaction", "Attached"]
    yield Script(b"IMAGE A 80\n0000\n/*\n" + text_of(events), b"PROGRAM A AT 010000 LENGTH 000002\n" + answered(events, answers))


def long_images() -> Iterator[Script]:
    """A text has at most 65,536 bytes; a longer one is judged as hexadecimal to its end."""
    whole, refused = ["IMAGE A 80", *["0" * 4096] * 32], b"PROGRAM A REFUSED BadLength\n"
    longer = whole + ["0" * 4096] * 8
    yield Script(text_of([*whole, "/*"]), b"PROGRAM A AT 010000 LENGTH 010000\n")
    yield Script(text_of([*whole, "00", "/*"]), refused)
    yield Script(text_of([*longer, "00", "/*"]), refused)
    yield Script(text_of([*longer, "0", "/*"]), fault=Fault(42))


def full_sizes() -> Iterator[Script]:
    """A key's text has at most 1,920 characters, a program's working storage at most 65,520 bytes; sixteen terminals have a task each, and
    there is no seventeenth."""
    program, loaded = b"IMAGE A %d\n0000\n/*\n", b"PROGRAM A AT 010000 LENGTH 000002\n"
    full = program % 65_520 + b"TERMINAL T001\nTRANSACTION A A\n"
    defined = loaded + b"TERMINAL T001 DEFINED\nTRANSACTION A DEFINED\n"
    yield Script(full + b"KEY T001 ENTER A %s\n" % (b"X" * 1_918), defined + b"KEY T001 Attached\n")
    yield Script(full + b"KEY T001 ENTER A %s\n" % (b"X" * 1_919), defined, Fault(6))
    yield Script(program % 65_521, b"PROGRAM A REFUSED StgLength\n")
    names = "ABCDEFGHIJKLMNOP"
    events = ["TRANSACTION A A", *(line for name in names for line in (f"TERMINAL {name}", f"KEY {name} ENTER A")), "TERMINAL Q"]
    answers = ["DEFINED", *["DEFINED", "Attached"] * 16, "REFUSED Full"]
    yield Script(program % 80 + text_of(events), loaded + answered(events, answers))


# Looks: the lines that a block of ORDERS or of CHOICES may have.


PAGE = "docs/LOOKS-ORDERS.md"
SEEN = {  # what such a block may have beside keys and SCREEN, and what it writes of a region without terminals and programs
    "AREAS": "AREA 001000 LENGTH 000200 CWA OWNER REGION", "AREAS T001": "AREAS T001 NONE", "COMMAND T001": "COMMAND T001 NONE",
    "FIELD T001 X": "FIELD T001 'X' NONE", "FIELD T001 X 2": "FIELD T001 'X' NONE", "FIELDS T001": "FIELDS T001 NONE",
    "FIELDS T001 1": "FIELDS T001 NONE", "PROGRAMS": "PROGRAMS NONE", "QUEUE Q": "QUEUE 'Q' NONE", "QUEUE Q 1": "QUEUE 'Q' ITEM 1 NONE",
    "QUEUES": "QUEUES NONE", "RESOURCES": "RESOURCES NONE", "STORAGE 000000 1": f"000000  -- {' ' * 34}-{' ' * 15}",
    "SYMBOL P X": "SYMBOL 'X' NONE", "SYMBOLS P": "SYMBOLS 'P' NONE", "TASK T001": "TASK T001 NONE", "TASKS": "TASKS NONE",
    "TERMINALS": "CLOCK 000000 00000\n> TERMINALS NONE", "WHERE 000000": "WHERE 000000 --", "XREF P": "XREF 'P' NONE"}
UNSEEN = ["ABEND T001", "ABEND T001 FIELDS", "ABEND T001 STORAGE", "AHEAD T001", "AHEAD T001 AFTER 1", "AHEAD T001 AT P 1",
          "AHEAD T001 FIELDS AFTER 1", "CHOICES 8", "COVER OFF", "COVER ON",
          "COVERED", "COVERED P", "COVERED P LINES", "FAULTS P", "HELP", "HELP RUN", "ORDERS", "RUN T001", "RUN T001 2", "WATCH 001000 2",
          "WATCH OFF", "WATCH T001 X"]


def seen_in_blocks() -> Iterator[Script]:
    """Which looks a block may have, those that the page lists: each other line of `cicslook` is a bad line there."""
    with open(PAGE, encoding="utf-8") as file:
        listed = re.search(r"`SCREEN term`, and the looks ([A-Z,\s]+) and ([A-Z]+)\.", file.read())
    words = {line.split(" ")[0] for line in SEEN}
    require(listed is not None and {*re.findall("[A-Z]+", listed[1]), listed[2]} == words, f"{PAGE} has other looks than {sorted(words)}")
    others = {line.split(" ")[0] for line in UNSEEN}
    require(words | others == {*OF_CICSLOOK} and not words & others, "another word of cicslook")
    for line, seen in SEEN.items():
        yield Script(text_of(["ORDERS", line, "/*"]), text_of([*ONE_OUTCOME, f"> {seen}"]))
        yield Script(text_of(["CHOICES 8", line, "/*"]), text_of([f"> CHOICES KEYS 8 {CLOSED}", NOTHING, f"> {seen}"]))
    for line in UNSEEN:
        yield Script(text_of(["ORDERS", line, "/*"]), fault=Fault(2))
        yield Script(text_of(["CHOICES 8", line, "/*"]), fault=Fault(2))


def bad_orders() -> Iterator[Script]:
    for word in ["0", "1000001", "00000001", "1 2", "X", "", "TYPED", "1 TYPED", "0 TYPED AHEAD", "TYPED AHEAD 1", "1 TYPED AHEAD ", "TYPEDAHEAD"]:
        yield Script(text_of([f"ORDERS {word}", "/*"]), fault=Fault(1))
    for line in ["HELLO", "TERMINAL T001", "KEY T001", "KEY T001 PF13", "KEY T0011 ENTER", "KEY T001 ENTER A{B", "key T001 ENTER",
                 "screen T001", "SCREEN", "SCREEN T0011", "STORAGE 001000"]:
        yield Script(text_of(["ORDERS", line, "/*"]), fault=Fault(2))
    yield Script(text_of(["* first", "ORDERS"]), fault=Fault(2))
    yield Script(text_of(["ORDERS", "QUEUES"]), fault=Fault(1))
    yield Script(text_of(["ORDERS", "", "* no turn", "TURN T001", "/*"]), fault=Fault(4))
    yield Script(text_of(["ORDERS", "QUEUES", "QUEUE", "/*"]), fault=Fault(3))


ONE_OUTCOME = ["> ORDERS STATES 1 OUTCOMES 1", "> OUTCOME 1"]
ONE_WITH_KEYS = [f"{ONE_OUTCOME[0]} KEYS WHEN ASKED", ONE_OUTCOME[1]]


def orders() -> Iterator[Script]:
    """Orders of nothing have one outcome."""
    yield Script(text_of(["ORDERS", "/*"]), text_of(ONE_OUTCOME))
    yield Script(text_of(["orders 1", "* keys and looks", "", "queues", "/*"]), text_of([*ONE_OUTCOME, "> QUEUES NONE"]))
    shown = ["> KEYS T009 1", "> SCREEN T009 NONE", "> TASKS NONE"]
    yield Script(text_of(["ORDERS 1000000", "SCREEN T009", "KEY T009 PF12 A", "TASKS", "/*"]), text_of([*ONE_WITH_KEYS, *shown]))
    answer = ["> ANSWERS T001 NoSuchTransaction", "> SCREEN T001", "> KEY T001 ENTER A"]
    for words, said in [("ORDERS 2", "KEYS WHEN ASKED"), ("orders 2 typed ahead", "KEYS TYPED AHEAD"), ("ORDERS TYPED AHEAD", "KEYS TYPED AHEAD")]:
        written = ["TERMINAL T001 DEFINED", f"> ORDERS STATES 2 OUTCOMES 1 {said}", "> OUTCOME 1", *answer]
        yield Script(text_of(["TERMINAL T001", words, "KEY T001 ENTER A", "/*"]), text_of(written))
    yield Script(text_of(["ORDERS TYPED AHEAD", "/*"]), text_of(ONE_OUTCOME))


def full_orders() -> Iterator[Script]:
    """A block has at most 256 keys and 64 looks."""
    for keys, looks, line in [(257, 0, 258), (257, 64, 258), (0, 65, 66), (256, 65, 322), (256, 64, None)]:
        script = text_of(["ORDERS 1", *["KEY T009 ENTER A"] * keys, *["QUEUES"] * looks, "/*"])
        written = text_of([*ONE_WITH_KEYS, "> KEYS T009 256", *["> QUEUES NONE"] * 64])
        yield Script(script, fault=Fault(line)) if line else Script(script, written)


X_1000 = f"{{{'X' * 1000}|}}"  # a set of so many characters, or of none


def bad_choices() -> Iterator[Script]:
    for word in ["", " ", " 0", " 00", " 65", " 008", " 001", " X", " 8 0", " 8 1000001", " 8 00000001", " 8 1 2", " 8 ONE", " 8 NUMBER", " 8 ONE NUMBER 1",
                 " 8  ONE NUMBER", " 8 1 ONE", " ONE NUMBER", " ONE NUMBER 8", " 8 ONE NUMBER ", " 8 TYPED AHEAD"]:
        yield Script(text_of([f"CHOICES{word}", "KEY T001 ENTER", "/*"]), fault=Fault(1))
    keys = ["KEY T001", "KEY T001 PF13", "KEY T0011 ENTER", "key T001 ENTER", "KEY {T001} {PF13}", "KEY T001 {ENTER|PF13}", "KEY T001 {PF1#}",
            "KEY T001 ENTER {A", "KEY T001 ENTER {A{B}", "KEY T001 ENTER {A}{", "KEY T001 ENTER A}", "KEY T001 {}", "KEY {} ENTER", "{KEY} T001 ENTER",
            f"KEY T001 ENTER {X_1000}{{{'X' * 921}|}}", "KEY T001 ENTER {#####}", "KEY T001 ENTER " + "{##}" * 2 + "{#|X}", "KEY T001 ENTER {#|}{####}"]
    looks = ["HELLO", "TURN T001", "TERMINAL T001", "screen T001", "SCREEN", "SCREEN T0011", "STORAGE 001000"]
    for line in [*looks, *keys]:
        yield Script(text_of(["CHOICES 8", line, "/*"]), fault=Fault(2))
    yield Script(text_of(["* first", "CHOICES 8"]), fault=Fault(2))
    yield Script(text_of(["CHOICES 8", "KEY T001 ENTER"]), fault=Fault(1))
    yield Script(text_of(["CHOICES 8", "", "* a key", "KEY T001 ENTER {A|B}", "KEY T001 ENTER {A|B", "/*"]), fault=Fault(5))


CLOSED = "STATES 1 SCREENS 1 CLOSED"
NOTHING = "> STATE 1 SCREEN 1"  # what is seen where there is no terminal


def choices() -> Iterator[Script]:
    """Keys that can't be pressed, and such as are refused, lead nowhere. Their numbers are in the order of lines, and of alternatives, the first
    set being the slowest; an alternative may be empty, and outside of a set a # is itself."""
    for heading, said in [("CHOICES 8", f"8 {CLOSED}"), ("choices 64 1000000 one number", "64 STATES 1 SCREENS 1 ONE NUMBER CLOSED"),
                          ("CHOICES 08 1", f"8 {CLOSED}"), ("Choices 1 One Number", "1 STATES 1 SCREENS 1 ONE NUMBER CLOSED")]:
        yield Script(text_of([heading, "/*"]), text_of([f"> CHOICES KEYS {said}", NOTHING]))
        lines = [heading, "* keys, and what is to be seen", "", "KEY T009 {ENTER|PF1} A", "queues", "/*"]
        told = text_of([f"> CHOICES KEYS {said}", NOTHING, "> QUEUES NONE"])
        yield from (Script(text_of(lines), told), Script("\r\n".join(lines).encode() + b"\r\n", told), Script("\n".join(lines).encode(), told, lines=6))
    arrows = [[f"> KEY {number} TO 1", "> ANSWERS T001 NoSuchTransaction"] for number in range(1, 5)]
    troubles = [line for arrow in arrows for line in ("> STATE 1", *arrow)]
    shown = [f"> CHOICES KEYS 2 {CLOSED}", *troubles, NOTHING, *(line for arrow in arrows for line in arrow), "> SCREEN T001"]
    for keys in (["KEY {T001|T009} {ENTER|PF1} {A|}"], ["KEY T001 P{A1|A2|F1|F12}"], ["KEY T001 {ENTER A|PF3} {X|}"],
                 ["KEY T001 ENTER A", "KEY T001 {CLEAR|PF3} #", "KEY T001 ENTER {}"]):
        yield Script(text_of(["TERMINAL T001", "CHOICES 2", *keys, "/*"]), text_of(["TERMINAL T001 DEFINED", *shown]))


def full_choices() -> Iterator[Script]:
    """A block has at most 256 KEY lines, which stand for at most 10,000 keys, and 64 looks."""
    key = "KEY T009 ENTER A"
    for lines, looks, line in [([key] * 257, 0, 258), ([key] * 257, 64, 258), (list[str](), 65, 66), ([key] * 256, 65, 322), ([key] * 256, 64, None),
                               ([f"{key}{{####}}"], 64, None), ([f"{key}{{####}}", key], 0, 3), ([f"{key}{{####|}}"], 0, 2),
                               ([f"{key}{{###}}"] * 10, 64, None), ([f"{key}{{###}}"] * 11, 0, 12), ([key, f"{key}{{####}}"], 0, 3),
                               ([f"{key}{{##}}{{##}}"], 64, None),
                               ([f"KEY T009 ENTER {X_1000}{{{'X' * 920}|}}"], 64, None), ([f"{key} {'{##}' * 30}"], 0, 2)]:
        script = text_of(["CHOICES 1", *lines, *["QUEUES"] * looks, "/*"])
        written = text_of([f"> CHOICES KEYS 1 {CLOSED}", NOTHING, *["> QUEUES NONE"] * 64])
        yield Script(script, fault=Fault(line)) if line else Script(script, written)


def acts_in_regions() -> Iterator[Script]:
    """What is done to regions, and what is to be seen in them."""
    for lines, written in regions():
        yield Script(text_of(lines), text_of(written))


def sources_by_hand() -> Iterator[Script]:
    """Sources that were assembled by hand, and faulty ones."""
    for lines, written, fault in worked_sources():
        yield Script(text_of(lines), text_of(written), Fault(*fault) if fault else None)


def statements_by_hand() -> Iterator[Script]:
    """Single statements that were assembled by hand, and faulty ones."""
    for lines, written, fault in worked_statements():
        yield Script(text_of(lines), text_of(written), Fault(*fault) if fault else None)


PLAIN = (bad_lines, alterations, ends_of_lines, faulty_sources, blocks, refused_definitions, long_sources, transcripts, texts_of_keys,
         long_images, full_sizes)
LOOKS = (seen_in_blocks, bad_orders, orders, full_orders, bad_choices, choices, full_choices, acts_in_regions,
         sources_by_hand, statements_by_hand)


def ending(script: Script, is_look: bool) -> Ended:
    """How a script must end. `cicslook` shows the line at fault too, with dots for what has no code."""
    if script.fault is None:
        return Ended(0, script.written, b"")
    line, kind = script.fault
    shown = re.sub(rb"(?!%s)." % CHARACTER, b".", script.text.split(b"\n")[line - 1]) + b"\n" if is_look else b""
    return Ended(1, script.written, f"cicsedf: line {line}: {kind}\n".encode() + shown)


def both(script: Script, is_look: bool) -> Iterator[tuple[bytes, Ended]]:
    """A script, and where it is without a fault the same with a bad line after it, and how each must end."""
    yield script.text, ending(script, is_look)
    if script.fault is None:
        lines = script.text.count(b"\n") if script.lines is None else script.lines
        end = b"" if script.text.endswith(b"\n") or script.text == b"" else b"\n"
        text = script.text + end + b"HELLO\n"
        yield text, ending(Script(text, script.written, Fault(lines + 1)), is_look)


def tried(path: str, program: str, is_look: bool, script: Script) -> Counts:
    counts: Counts = Counter()
    for text, due in both(script, is_look):
        for piece in (0, 1):
            ended = Sweep(path, [program], due, "read", text, piece=piece).run(0)
            require(ended == due, f"{'byte by byte' if piece else 'whole'}, where {due} is due: {ended}")
            counts["runs"] += 1
    return counts


def main(words: list[str]) -> int:
    check = Check(__name__, __doc__, words, "cicsedf", flags={"looks": "scripts with looks, by cicslook"})
    is_look = check.has("looks")
    with library() as path:
        attempt = partial(tried, path, check.program(), is_look)
        parts = LOOKS if is_look else PLAIN
        return check.report(Case(f"{part.__name__} {number}", partial(attempt, script)) for part in parts for number, script in enumerate(part(), 1))
