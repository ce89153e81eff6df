"""Tries lines cut and changed at each byte, blocks in blocks, and names, numbers and texts of every length, against a grammar that is
written here a second time. There is a line of each verb. After lines that are done, each is either a bad line by the grammar below, and
reported as such with nothing written for it or after it, or it is done and answered in the form of its verb."""
import re
from collections import Counter
from collections.abc import Iterator
from dataclasses import dataclass, field
from functools import partial

from cics.child import Ended, run
from checks.common import Case, Check, Counts, require

# The lines outside a block, one expression for each verb, of the line without its end. No word of it comes from the
# program.
NAME4, NAME8 = rb"[A-Z0-9@#$]{1,4}", rb"[A-Z0-9@#$]{1,8}"
CHARACTER = rb"[ A-Za-z0-9.<(+|&!$*);/,%_>?:#@'=\"-]"  # those that have a code
GRAMMAR = {
    "IMAGE": rb"IMAGE (?P<name>" + NAME8 + rb") (?P<length>[0-9]{1,9})",
    "SOURCE": rb"SOURCE (?P<name>" + NAME8 + rb")(?P<list> LIST)?(?P<disasm> DISASM)?",
    "TRANSACTION": rb"TRANSACTION (?P<name>" + NAME4 + rb") (?P<program>" + NAME8 + rb")",
    "TERMINAL": rb"TERMINAL (?P<name>" + NAME4 + rb")",
    "CLOCK": rb"CLOCK [0-9]{6} [0-9]{5}",
    "KEY": rb"KEY (?P<name>" + NAME4 + rb") (?:ENTER|CLEAR|PA[12]|PF(?:[1-9]|1[0-2]))(?: " + CHARACTER + rb"{0,1920})?",
    "TURN": rb"TURN (?P<name>" + NAME4 + rb")",
    "EDF": rb"EDF (?P<name>" + NAME4 + rb") (?:ON|OFF)",
    "SCREEN": rb"SCREEN (?P<name>" + NAME4 + rb")",
    "DISPLAY": rb"DISPLAY (?P<name>" + NAME4 + rb")(?: [0-9])?",
    "ALTER": rb"ALTER (?P<name>" + NAME4 + rb") (?:REG (?:0?[0-9]|1[0-5]) [0-9A-Fa-f]{8}|BYTE [0-9A-Fa-f]{6} [0-9A-Fa-f]{2}|NOP|ABEND)",
}
IDLE = rb"(?:\*.*)?"
DIGITS = rb"(?:[0-9A-Fa-f]{2})*"

# What is written for a line that is done, where its terminal is defined.
PAGE = rb"(?:(?:0[1-9]|1[0-9]|2[0-4])\|[^\n]{1,80}\n)*"
CONDITION = rb"(?:NORMAL|INVREQ|NOSPACE|LENGERR|ITEMERR|PGMIDERR|NOSTG|QIDERR|ENQBUSY)"
REPLIES = {
    "KEY": rb" (?:Attached|Given|AlreadyHeldInput|NoSuchTransaction|NoStorage|ToEdf)\n",
    "TURN": rb" (?:Held|Idle|AtCommand|Entered|Returned|Waiting|Ended|(?:Performed|TookLabel) " + CONDITION
            + rb"|(?:TookExit|Abended) [^\n]{4})\n",
    "EDF": rb" (?:Started|AlreadyOn|Closed|NotOn)\n",
    "SCREEN": rb"\n" + PAGE,
    "DISPLAY": rb"(?: NONE\n|\n" + PAGE + rb")",
    "ALTER": rb" (?:Altered|NotStopped|NoTask|NotDue|NoByte)\n",
}
UNKNOWN = {verb: b" NONE\n" if verb in ("SCREEN", "DISPLAY") else b" NoSuchTerminal\n" for verb in REPLIES}
KINDS = b"""BadCharacter BadName BadContinuation TooLong NoEnd UnknownCommand UnknownOption MissingOption Conflict TooManyConditions
BadArgument UnknownOperation UndefinedSymbol DuplicateSymbol NoAddressability BadOperand ValueOutOfRange NotRelocatable TooLarge""".split()

# A source of which the listing, the disassembly and the length are known.
BODY = [b"P        CSECT", b"         BR    14", b"         END"]
LISTING = (b"                        00001 P        CSECT\n"
           b"000000 07FE             00002          BR    14\n"
           b"                        00003          END\n")
DISASSEMBLY = b"BCR 15,14\n"

# What is done in front of each hostile line: a task is stopped by EDF before its RETURN.
HEAD = b"""IMAGE RET1 80
4100F01C5000F0189680F0184110F018
41E0080005EE0000000000000E080000
/*
TERMINAL T001
TRANSACTION RET1 RET1
EDF T001 ON
KEY T001 ENTER RET1
TURN T001
"""
DONE = b"""PROGRAM RET1 AT 010000 LENGTH 000020
TERMINAL T001 DEFINED
TRANSACTION RET1 DEFINED
EDF T001 Started
KEY T001 Attached
TURN T001 AtCommand
"""
TAIL = b"CLOCK 101500 84060\n"


@dataclass
class Block:
    """A block that has begun: the number of its first line, its words, and its lines up to now."""

    verb: str
    number: int
    words: dict[str, bytes | None]
    lines: list[bytes] = field(default_factory=list)

    def name(self) -> bytes:
        return self.words["name"] or b""


@dataclass(frozen=True)
class Ending:
    """A way in which a run may end: what it writes and reports, as expressions, and its status."""

    written: bytes
    status: int
    reported: bytes

    def is_of(self, ended: Ended) -> bool:
        is_reported = re.fullmatch(self.reported, ended.reported) is not None
        return ended.status == self.status and is_reported and re.fullmatch(self.written, ended.out) is not None


class Reading:
    """A script read by the grammar: what may be written, as an expression, and each way in which the run may end after it."""

    def __init__(self, script: bytes) -> None:
        self.written, self.endings = re.escape(DONE), list[Ending]()
        self.programs, self.transactions, self.terminals = {b"RET1"}, {b"RET1"}, {b"T001"}
        self.block: Block | None = None
        self.script(script)

    def kind(self) -> str:
        """How it is read."""
        return ("done", "with a bad line")[self.endings[0].status] if len(self.endings) == 1 else "with some other source"

    def ends(self, status: int, reported: bytes) -> None:
        self.endings.append(Ending(self.written, status, reported))

    def bad(self, number: int) -> bool:
        self.ends(1, b"cicsedf: line %d: BadLine\n" % number)
        return False

    def script(self, script: bytes) -> None:
        """Reads the lines after HEAD. A carriage return goes with the line feed after it."""
        parts = script.split(b"\n")
        lines = [part[:-1] if part.endswith(b"\r") else part for part in parts[:-1]] + ([parts[-1]] if parts[-1] else [])
        number = HEAD.count(b"\n")
        for line in lines:
            number += 1
            if not (self.bad(number) if len(line) > 4096 else self.line(number, line)):
                return
        if self.block:
            self.bad(self.block.number)
        else:
            self.ends(0, b"")

    def line(self, number: int, line: bytes) -> bool:
        if self.block:
            return self.inside(number, line, self.block)
        if re.fullmatch(IDLE, line, re.DOTALL):
            return True
        for verb, expression in GRAMMAR.items():
            found = re.fullmatch(expression, line, re.DOTALL)
            if found:
                self.done(number, verb, found.groupdict())
                return True
        return self.bad(number)

    def inside(self, number: int, line: bytes, block: Block) -> bool:
        if line == b"/*":
            self.block = None
            return self.image(block) if block.verb == "IMAGE" else self.source(number, block)
        if block.verb == "IMAGE" and not re.fullmatch(DIGITS, line, re.DOTALL):
            return self.bad(number)
        block.lines.append(line)
        return True

    def answer(self, *texts: bytes) -> None:
        self.written += b"".join(re.escape(text) for text in texts)

    def defined(self, verb: bytes, name: bytes, names: set[bytes], refusal: bytes | None = None) -> None:
        if name in names:
            refusal = b"Duplicate"
        names |= set() if refusal else {name}
        self.answer(verb, b" ", name, b" REFUSED " + refusal if refusal else b" DEFINED", b"\n")

    def done(self, number: int, verb: str, words: dict[str, bytes | None]) -> None:
        name = words.get("name") or b""
        if verb in ("IMAGE", "SOURCE"):
            self.block = Block(verb, number, words)
        elif verb == "TERMINAL":
            self.defined(b"TERMINAL", name, self.terminals)
        elif verb == "TRANSACTION":
            self.defined(b"TRANSACTION", name, self.transactions, None if words["program"] in self.programs else b"NoProgram")
        elif verb == "CLOCK":
            self.answer(b"CLOCK SET\n")
        else:
            self.answer(verb.encode(), b" ", name)
            self.written += REPLIES[verb] if name in self.terminals else UNKNOWN[verb]

    def program(self, name: bytes, size: int, refusal: bytes | None) -> bool:
        if not refusal and name in self.programs:
            refusal = b"Duplicate"
        self.answer(b"PROGRAM ", name)
        if refusal:
            self.answer(b" REFUSED ", refusal, b"\n")
        else:
            self.programs.add(name)
            self.written += rb" AT [0-9A-F]{6} LENGTH %06X\n" % size
        return True

    def image(self, block: Block) -> bool:
        size, storage = sum(map(len, block.lines)) // 2, int(block.words["length"] or b"")
        outside = b"BadLength" if not 1 <= size <= 65536 else b"StgLength" if not 80 <= storage <= 65520 else None
        return self.program(block.name(), size, outside)

    def source(self, number: int, block: Block) -> bool:
        is_listed, is_disassembled = block.words["list"], block.words["disasm"]
        if block.lines == BODY:
            self.answer(LISTING if is_listed else b"", DISASSEMBLY if is_disassembled else b"")
            return self.program(block.name(), 2, None)
        # another source may be faulty, or a program
        lines = b"|".join(b"%d" % n for n in range(block.number + 1, number + 1))
        self.ends(1, rb"cicsedf: line (?:%s): (?:%s)\n" % (lines, b"|".join(KINDS)))
        self.written += rb"(?:[0-9A-F ]{6} [0-9A-F ]{16} [0-9]{5} [^\n]{0,72}\n)+" if is_listed else b""
        self.written += rb"(?:[A-Z]+ [^\n]+\n)*" if is_disassembled else b""
        answer = rb"(?:AT [0-9A-F]{6} LENGTH [0-9A-F]{6}|REFUSED (?:BadLength|EntryOutside|StgLength|Duplicate))\n"
        self.written += rb"PROGRAM %s " % re.escape(block.name()) + answer
        return True


def tried(program: str, script: bytes) -> Counts:
    """A run must be as its script is read."""
    reading, ended = Reading(script), run([program], HEAD + script)
    require(any(ending.is_of(ended) for ending in reading.endings), f"{script[:200]!r}: {ended._replace(out=ended.out[len(DONE):])}")
    return Counter({f"scripts {reading.kind()}": 1})


DIGITS_END, BODY_END = b"07FE0000\n/*\n", b"\n".join(BODY) + b"\n/*\n"
IMAGE, SOURCE = b"IMAGE A 80\n" + DIGITS_END, b"SOURCE P LIST DISASM\n" + BODY_END
ALONE = b"""TRANSACTION NXT1 RET1|TERMINAL T002|CLOCK 235959 26366|KEY T001 ENTER|KEY T001 PF12 Some text, of it|KEY T001 PF9 END|KEY T001 CLEAR
KEY T001 PA1|TURN T001|EDF T001 ON|EDF T001 OFF|SCREEN T001|DISPLAY T001|DISPLAY T001 0|ALTER T001 REG 12 00aBcD0F|ALTER T001 BYTE 01001c 0F
ALTER T001 NOP|ALTER T001 ABEND|* a comment|/*""".replace(b"\n", b"|").split(b"|")
LINES = [  # a line of each verb, in each of its forms, and what follows it
    (b"IMAGE A 80", DIGITS_END), *((b"SOURCE P" + words, BODY_END) for words in (b"", b" LIST", b" DISASM", b" LIST DISASM")),
    *((line, b"") for line in (IMAGE[:-1], SOURCE[:-1], *ALONE))]
BLOCKS = [IMAGE, SOURCE, b"IMAGE B 80\n\n0102\n0304\n/*\n", b"SOURCE Q\n/*\n", b"/*\n", b"/* \n", b" /*\n", b"/*\r\n",
          b"* a comment\n", b"\n", b"TURN T001\n"]


def mutations() -> Iterator[tuple[str, bytes]]:
    """Each line cut at each byte, where the script goes on and where it ends, and each of its bytes replaced."""
    for line, rest in LINES:
        for at in range(len(line) + 1):
            yield f"{line!r} cut at {at}", line[:at] + b"\n" + rest + TAIL
            yield f"{line!r} ended at {at}", line[:at]
        for at in range(len(line)):
            for byte in (0x00, 0x0A, 0x0D, 0x20, 0xFF):
                yield f"{line!r} with {byte:02X} at {at}", line[:at] + bytes([byte]) + line[at + 1 :] + b"\n" + rest + TAIL
        for more in (b"\t", b" ", b"\r", b"\r\r"):
            yield f"{line!r} and {more!r}", line + more + b"\n" + rest + TAIL
            yield f"{more!r} and {line!r}", more + line + b"\n" + rest + TAIL


def nested() -> Iterator[tuple[str, bytes]]:
    """Blocks in blocks, after one another, and cut off."""
    for first in BLOCKS:
        for second in BLOCKS:
            yield f"{first!r} and {second!r}", first + second + TAIL
            for head in (b"IMAGE C 80\n", b"SOURCE R LIST\n"):
                yield f"{head!r}, {first!r} and {second!r}", head + first + second + TAIL


# Lines with a name, and with a number, of which there are some of every length
NAMED = [b"IMAGE %s 80\n" + DIGITS_END, b"SOURCE %s DISASM\n" + BODY_END, b"TRANSACTION %s RET1\n", b"TRANSACTION NXT1 %s\n",
         b"TERMINAL %s\n", b"KEY %s ENTER\n", b"TURN %s\n", b"EDF %s OFF\n", b"SCREEN %s\n", b"DISPLAY %s\n", b"DISPLAY %s 1\n", b"ALTER %s NOP\n",
         b"ALTER %s REG 1 00000000\n"]
NUMBERED = [b"IMAGE A %s\n" + DIGITS_END, b"CLOCK %s 00000\n", b"CLOCK 000000 %s\n", b"DISPLAY T001 %s\n", b"ALTER T001 REG %s 00000000\n",
            b"ALTER T001 REG 1 %s\n", b"ALTER T001 BYTE %s 00\n", b"ALTER T001 BYTE 010000 %s\n", b"KEY T001 PF%s\n", b"KEY T001 PA%s\n"]


def sized() -> Iterator[tuple[str, bytes]]:
    """Names, numbers and texts of every length."""
    names = [b"A" * n for n in (0, 1, 4, 5, 8, 9)] + [b"@#$9", b"9", b"a", b"T00.", b"T-1", b"T_1", "TÄ".encode(), b"T\x00", b"*"]
    for line in NAMED:
        for name in names:
            yield f"{line!r} of {name!r}", line % name + TAIL
    for line in NUMBERED:
        for number in [digit * times for times in range(11) for digit in (b"0", b"1", b"9", b"A")]:
            yield f"{line!r} of {number!r}", line % number + TAIL
    for count in range(21):
        for text in (b"%d" % count, b"%02d" % count):
            yield f"PF{text!r}", b"KEY T001 PF" + text + b"\n" + TAIL
            yield f"REG {text!r}", b"ALTER T001 REG " + text + b" 00010000\n" + TAIL
    words = [b" LIST", b" DISASM", b" list", b" ", b" *"]
    for wanted in words + [first + second for first in words for second in words] + [b" LIST DISASM LIST", b" LISTDISASM"]:
        yield f"a source with {wanted!r}", SOURCE.replace(b" LIST DISASM", wanted, 1) + TAIL
    for length in (79, 80, 65520, 65521):
        yield f"a storage of {length}", b"IMAGE A %d\n07FE\n/*\n" % length + TAIL
    for size in (4095, 4096, 4097, 4098):
        for end in (b"\n", b"\r\n", b"\r\r\n"):
            yield f"a comment of {size}", b"*" * size + end + TAIL
            yield f"digits of {size}", b"IMAGE A 80\n" + b"0" * size + end + b"/*\n" + TAIL
            yield f"a source's line of {size}", b"SOURCE P\n" + b" " * size + end + b"/*\n" + TAIL
    for size in (0, 1, 1919, 1920, 1921):
        for character in (b"A", b" ", b"~"):
            yield f"a key's text of {size}", b"KEY T001 ENTER " + character * size + b"\n" + TAIL
    for code in range(256):
        if code != 0x0A:
            yield f"a key's text of {code:02X}", b"KEY T001 ENTER A" + bytes([code]) + b"B\n" + TAIL


def scripts() -> dict[str, bytes]:
    """Each script after HEAD by what it is; of some there are two alike."""
    found: dict[str, bytes] = {}
    for what, script in [*mutations(), *nested(), *sized()]:
        found[what if what not in found else f"{what}, {len(found)}"] = script
    return found


def main(words: list[str]) -> int:
    check = Check(__name__, __doc__, words, "cicsedf")
    kinds = ("done", "with a bad line", "with some other source")
    cases = [Case(what, partial(tried, check.program(), script)) for what, script in scripts().items()]
    return check.report(cases, {f"scripts {kind}": 100 for kind in kinds})
