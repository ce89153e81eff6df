"""Spoils lines of 2,000 sources, and sees that the fault which `cicsedf` reports is one of those that FAULTS of `cicslook` reports. Each
source is an example's with one to four of its lines spoiled. The fault with which `cicsedf` refuses one is among those that FAULTS of
`cicslook` reports of it, each of a statement of its own or of a line of it, in the lines' order, with the line's text and the part at fault
between >> and << at its column; of a source that `cicsedf` accepts FAULTS reports none, and of one of too many lines its first line too
many. A second run of the same script of `cicslook` writes the same.

Then 160 programs of `adapt/by-hand` with 2 to 20 faults put into them, of 20 kinds: all are reported in one run; and programs with
one fault each that others would follow from: that is reported, and the part at fault is the one that was put there in 19 of 20. Of
either, at most one line that isn't due in so many sources."""
import bisect
import glob
import os
import random
import re
from collections import Counter
from collections.abc import Callable, Iterator
from dataclasses import dataclass
from functools import partial
from typing import NamedTuple

from cics.child import lines_of, read, run
from checks.common import Case, Check, Counts, Wrong, require
from checks.examples import FOLDER, blocks_of, examples, lessons, lines_in, text_of

COUNT = 2_000
LONG = [*["*"] * 10_499, "         END"]  # more lines than are kept
SEED = "faulty sources"
REPORTED = re.compile(r"cicsedf: line ([0-9]+): (\w+)\n")
FAULT = re.compile(r"> ([0-9]+):([0-9]+) (MissingOption [A-Z]+(?: OR [A-Z]+)*|\w+) (.*)")
CHARACTERS = {chr(c) for c in range(32, 127)} - set("[\\]^`{}~")
NOTE = re.compile(r"> [0-9]+:[0-9]+ NOTE ")
NO_INSTRUCTIONS = {"DS", "DC", "EQU", "USING", "DROP", "END", "LTORG", "EJECT", "SPACE", "TITLE", "PRINT", "COPY"}
WORDS = ["AP", "MVCL", "LA", "DC", "DS", "EQU", "CSECT", "DSECT", "USING", "DROP", "LTORG", "END", "EXEC", "B", "MVC", "SLR"]
OPERANDS = ["NOWHERE", "1,2,3", "R16,0", "=F'4", "X'1G'", "0(,1)", "CL300' '", "CICS RETURN NOW", "CICS SUSPEND X(1)", "65536(1)", "'", "99999999999",
            "TOTAL(4),=C'1'", "A(", "CICS READQ TS", "CICS SEND TEXT FROM(X) LENGTH(=H'4') FROM(X)", "4,=A(NOWHERE)", "70000C' '", "-1(2)"]


Lines = list[str]


class Fault(NamedTuple):
    """A fault that FAULTS reports: its line counted from 1, its kind, the column, and the text with the part between signs."""

    number: int
    kind: str
    column: int
    text: str


class Due(NamedTuple):
    """A fault that was put into a source: its line counted from 1, its kind, and the part at fault."""

    number: int
    kind: str
    part: str


Planted = tuple[Lines, list[Due]]  # a source with the faults that were put into it


def sources() -> list[Lines]:
    """The lines of each SOURCE block of the examples."""
    blocks = [block for name in [*examples(), *lessons()] for block in blocks_of(lines_in(name), ("SOURCE ",))]
    return [block[1:-1] for block in blocks if block[0].startswith("SOURCE ") and block[-1] == "/*" and len(block) > 5]


def cut(line: str) -> tuple[str, str, str]:
    """A line's name, operation and operand, each with the blanks after it."""
    name, operation, operand = re.findall(r"(\S* *)(\S* *)(.*)", line)[0]
    return name, operation, operand


def operation_of(line: str) -> str:
    return cut(line)[1].strip()


def spoiled_line(draw: random.Random, line: str) -> str:
    """A line with one thing about it made another."""
    name, operation, operand = cut(line)
    at = draw.randrange(len(line) + 1)
    ways: list[Callable[[], str]] = [
        lambda: line[:at] + line[at + 1 :],
        lambda: line[:at] + draw.choice("'(),*=+- A9a[") + line[at:],
        lambda: f"{line[:71]:71}X",
        lambda: line.lower(),
        lambda: name + f"{draw.choice(WORDS):{max(len(operation), 6)}}" + operand,
        lambda: name + operation + draw.choice(OPERANDS),
        lambda: f"{draw.choice(['TOTAL', 'R3', 'LONGERNAME', '9X', 'A']):8} " + operation + operand,
        lambda: line + line,
    ]
    return draw.choice(ways)()


def spoiled(draw: random.Random, lines: Lines) -> Lines:
    """A source with some of its lines spoiled, left out, doubled or exchanged. None of them ends the block."""
    lines = list(lines)
    for _ in range(draw.randint(1, 4)):
        at = draw.randrange(len(lines))
        what = draw.randrange(12)
        if what == 0 and len(lines) > 1:
            del lines[at]
        elif what == 1:
            lines.insert(at, lines[at])
        elif what == 2:
            lines.append(lines.pop(at))
        else:
            lines[at] = spoiled_line(draw, lines[at])
    return ["*" if line == "/*" else line for line in lines]


def refused(cicsedf: str, lines: Lines) -> tuple[int, str] | None:
    """The line of a source, counted from 1, and the fault with which `cicsedf` refuses it; None where it doesn't."""
    ended = run([cicsedf], text_of(["SOURCE P", *lines, "/*"]))
    reported = REPORTED.fullmatch(ended.reported.decode())
    if ended.status == 0 and not ended.reported:
        return None
    if ended.status != 1 or not reported or ended.out:
        raise Wrong(str(ended))
    return int(reported[1]) - 1, reported[2]


def faults(cicslook: str, all_lines: list[Lines]) -> list[list[Fault]]:
    """The faults that FAULTS reports of sources, for each a list."""
    lines: Lines = []
    firsts = []
    for source in all_lines:
        firsts.append(len(lines) + 1)
        lines += ["FAULTS P", *source, "/*"]
    ended, again = (run([cicslook], text_of(lines)) for _ in range(2))
    require(ended.is_well() and again == ended, str(ended))
    reported: list[list[Fault]] = [[] for _ in all_lines]
    found = [line for line in ended.lines() if not NOTE.match(line)]
    for line in found:
        fault = FAULT.fullmatch(line)
        require(fault or line == "> FAULTS P NONE", line)
        if fault:
            number, at = int(fault[1]), bisect.bisect_left(firsts, int(fault[1])) - 1
            reported[at].append(Fault(number - firsts[at], fault[3].split()[0], int(fault[2]), fault[4]))
    require(len(found) == sum(len(it) or 1 for it in reported), "a source has no line")
    return reported


def is_continued(line: str) -> bool:
    return len(line) > 71 and line[71] != " "


def begun(lines: Lines, number: int) -> int:
    """The line on which the statement of a line begins."""
    while 1 < number <= len(lines) and is_continued(lines[number - 2]) and not lines[number - 1][:15].strip():
        number -= 1
    return number


def part(line: str, column: int, text: str) -> str | None:
    """The part of a line that is marked from a column on; None where the text isn't the line with a part marked there."""
    line, rest = "".join(c if c in CHARACTERS else "." for c in line), text[column + 1 :]
    if text[: column + 1] != line[: column - 1] + ">>":
        return None
    ends = (at for at in range(len(rest)) if rest[at:].startswith("<<") and rest[:at] + rest[at + 2 :] == line[column - 1 :])
    return next((rest[:at] for at in ends), None)


def is_as_due(lines: Lines, wanted: tuple[int, str] | None, reported: list[Fault]) -> bool:
    """Whether what FAULTS reports of a source is what it must be, by the fault that `cicsedf` reports."""
    texts = [*lines, "/*"]
    begins = [begun(lines, it.number) for it in reported]
    found = [(number, it.kind) for begin, it in zip(begins, reported) for number in (it.number, begin)]
    is_there = wanted in found if wanted else reported == []
    is_text = all(it.number <= len(texts) and part(texts[it.number - 1], it.column, it.text) is not None for it in reported)
    return is_there and is_text and begins == sorted(begins)


# planted faults


# What is put after a statement of the control section: lines, and which of them is at fault, why, and the part.
R72 = f"{'         LR    1,1':39} A REMARK THAT GOES ON INTO COLUMN 72"
EXCLUDED = "         EXEC CICS WRITEQ TS QUEUE('JOBS') FROM(0(1)) LENGTH(=H'8')"
PLANTS = {
    "an unknown operation": (["         MVX   0(1,1),0(1)"], 0, "UnknownOperation", "MVX"),
    "an unknown symbol": (["         LA    1,ZZNONE"], 0, "UndefinedSymbol", "ZZNONE"),
    "register 16": (["         LA    16,0"], 0, "ValueOutOfRange", "16"),
    "an operand missing": (["         AR    4"], 0, "BadOperand", "4"),
    "an operand too many": (["         LR    1,1,1"], 0, "BadOperand", "1,1,1"),
    "an address in two bytes": (["         DC    AL2(*)"], 0, "NotRelocatable", "AL2(*)"),
    "a constant too long": (["         DC    CL300' '"], 0, "ValueOutOfRange", "CL300' '"),
    "an unknown type": (["         DC    Q'1'"], 0, "BadOperand", "Q'1'"),
    "a name twice": (["ZZA{0}   DS    0H", "ZZA{0}   DS    0H"], 1, "DuplicateSymbol", "ZZA{0}"),
    "a name that is none": (["9ZZ      DS    0H"], 0, "BadName", "9ZZ"),
    "a character without a code": (["         CLI   0(1),C'['"], 0, "BadCharacter", "."),
    "81 columns": ([f"{'* A COMMENT':80}.."], 0, "TooLong", ".."),
    "a remark in column 72": ([R72, "         LR    1,1"], 1, "BadContinuation", "LR"),
    "an unknown command": (["         EXEC CICS STARTBR FILE('X')"], 0, "UnknownCommand", "STARTBR"),
    "an unknown option": (["         EXEC CICS SUSPEND NOW"], 0, "UnknownOption", "NOW"),
    "a missing option": (["         EXEC CICS READQ TS QUEUE('JOBS') INTO(0(1))"], 0, "MissingOption", "READQ TS"),
    "two options that exclude each other": ([f"{EXCLUDED:71}X", "               MAIN AUXILIARY"], 1, "Conflict", "AUXILIARY"),
    "a name too long": (["         EXEC CICS RETURN TRANSID('NEXT01')"], 0, "BadArgument", "TRANSID('NEXT01')"),
    "an EQU at fault": (["ZZE{0}   EQU   ZZNONE+1", "ZZF{0}   EQU   ZZE{0}+1", "         LA    1,ZZF{0}"], 0, "UndefinedSymbol", "ZZNONE"),
    "a literal at fault": (["         L     1,=FL5'1'"], 0, "ValueOutOfRange", "=FL5'1'"),
}
PLANTED = 160
MANY, ONE = 3, 4  # of so many sources with many faults, and with one that others would follow from, one may have a line that isn't due
PARTS = 20  # of so many faults one may have another part than was put there


def programs() -> list[Lines]:
    """Programs as shops had them, adapted."""
    return [lines_of(read(path).decode()) for path in sorted(glob.glob(os.path.join(FOLDER, "adapt/by-hand/*.asm")))]


def places(lines: Lines) -> list[int]:
    """After which lines of a program others may be put: statements of the control section, and their continuations' last lines."""
    found, is_control, continues = [], False, False
    for at, line in enumerate(lines):
        operation = "" if continues or line.startswith("*") else operation_of(line)
        is_control = {"CSECT": True, "START": True, "DSECT": False, "LTORG": False}.get(operation, is_control)
        continues = is_continued(line) and (continues or not line.startswith("*"))
        if operation == "END":
            break
        if is_control and not continues and not line.startswith("*") and operation not in ("CSECT", "START"):
            found.append(at)
    return found


def planted(draw: random.Random, lines: Lines) -> Planted:
    """A program with 2 to 20 faults put into it, and the lines that are due, counted from 1, with their faults and the parts."""
    at = sorted(draw.sample(places(lines), draw.randint(2, 20)))
    made, due = list[str](), list[Due]()
    for number, line in enumerate(lines):
        made.append(line)
        if number in at:
            put, faulty, kind, word = PLANTS[draw.choice(list(PLANTS))]
            due.append(Due(len(made) + faulty + 1, kind, word.format(f"{number:03}")))
            made += [text.format(f"{number:03}") for text in put]
    return made, due


Change = Callable[[random.Random, Lines], Planted | None]  # a program with one fault that others would follow from, where it has the place


def statement_of(lines: Lines, *operations: str) -> int | None:
    """The first line of one of these operations."""
    return next((at for at, line in enumerate(lines) if not line.startswith("*") and operation_of(line) in operations), None)


def misspelled(right: str, wrong: str) -> Change:
    def change(_draw: random.Random, lines: Lines) -> Planted | None:
        at = statement_of(lines, right)
        if at is None:
            return None
        name, found, operand = cut(lines[at])
        return [*lines[:at], name + f"{wrong:{len(found)}}" + operand, *lines[at + 1 :]], [Due(at + 1, "UnknownOperation", wrong)]

    return change


def put(lines: Lines, at: int, others: Lines) -> Lines:
    return [*lines[: at + 1], *others, *lines[at + 1 :]]


def not_resumed(draw: random.Random, lines: Lines) -> Planted:
    """A DSECT after a statement that an instruction follows."""
    may = places(lines)
    at = draw.choice([at for at in may[:-1] if at + 1 in may and operation_of(lines[at + 1]) not in NO_INSTRUCTIONS])
    return put(lines, at, ["ZZSECT   DSECT", "ZZFIELD  DS    F"]), [Due(at + 4, "BadOperand", operation_of(lines[at + 1]))]


def without_register(_draw: random.Random, lines: Lines) -> Planted | None:
    """A USING whose register isn't known."""
    at = statement_of(lines, "USING")
    if at is None:
        return None
    name, operation, operand = cut(lines[at])
    changed = name + operation + re.sub(",.*", ",ZZBASE", operand)
    return [*lines[:at], changed, *lines[at + 1 :]], [Due(at + 1, "UndefinedSymbol", "ZZBASE")]


def boxed(draw: random.Random, lines: Lines) -> Planted:
    """A remark that goes on into column 72, above a box of comments."""
    at = draw.choice(places(lines))
    return put(lines, at, [R72, *["*" * 72] * 6]), [Due(at + 3, "BadContinuation", "*" * 15)]


def prologue(_draw: random.Random, lines: Lines) -> Planted | None:
    """A macro of the shop's after the CSECT."""
    at = statement_of(lines, "CSECT", "START")
    if at is None:
        return None
    return put(lines, at, ["         DFHEIENT CODEREG=(3),DATAREG=(13)"]), [Due(at + 2, "UnknownOperation", "DFHEIENT")]


def equated(draw: random.Random, lines: Lines) -> Planted:
    """An EQU at fault, and others on its name."""
    at = draw.choice(places(lines))
    others = ["ZZB      EQU   ZZNONE", *[f"ZZC{k}     EQU   ZZB+{k}" for k in range(5)], "         LA    1,ZZC4"]
    return put(lines, at, others), [Due(at + 2, "UndefinedSymbol", "ZZNONE")]


CAUSES: list[Change] = [misspelled("CSECT", "CSET"), misspelled("DSECT", "DSCT"), not_resumed, not_resumed, not_resumed, without_register,
                        boxed, boxed, prologue, equated]


@dataclass
class Share:
    """Sources with faults put into them. Of so many sources one may have a line that isn't due, and of so many faults one another part than
    was put there."""

    sources: list[Planted]
    sources_a_line: int

    def judge(self, cicslook: str) -> Counts:
        found = faults(cicslook, [lines for lines, _ in self.sources])
        parts = missed = others = 0
        wrong = []
        for (lines, due), reported in zip(self.sources, found):
            kinds = {(it.number, it.kind): part(lines[it.number - 1], it.column, it.text) for it in reported if it.number <= len(lines)}
            wanted = {(it.number, it.kind): it.part for it in due}
            others += len(kinds.keys() - wanted.keys())
            wrong += [f"{kind} isn't reported of {lines[number - 1]}" for number, kind in wanted.keys() - kinds.keys()]
            parts += sum(kinds[it] != wanted[it] for it in wanted.keys() & kinds.keys())
        count = sum(len(due) for _, due in self.sources)
        missed = len(wrong)
        if missed or others * self.sources_a_line > len(self.sources) or parts * PARTS > count:
            raise Wrong(f"{missed} of {count} faults not reported, {others} lines that aren't due, {parts} other parts", *wrong)
        return Counter({"sources with faults put into them": len(self.sources), "faults put there": count, "lines that aren't due": others})


def with_one_cause(draw: random.Random) -> Iterator[Planted]:
    """Programs with one fault each that others would follow from."""
    for lines in programs():
        yield from filter(None, [cause(draw, lines) for cause in CAUSES])


def too_many_lines(cicsedf: str, cicslook: str) -> Counts:
    """A source of too many lines is refused for the first line too many."""
    found = refused(cicsedf, LONG), faults(cicslook, [LONG])[0]
    require(found == ((10_001, "TooLong"), [(10_001, "TooLong", 1, ">>*<<")]), str(found))
    return Counter()


def tried(cicsedf: str, lines: Lines, reported: list[Fault]) -> Counts:
    """What FAULTS reports of a spoiled source must have the fault that `cicsedf` reports."""
    wanted = refused(cicsedf, lines)
    if not is_as_due(lines, wanted, reported):
        raise Wrong(f"cicsedf reports {wanted}, FAULTS {reported}", *lines)
    return Counter({"refused": int(wanted is not None), "with several faults": int(len(reported) > 1)})


def cases(cicsedf: str, cicslook: str) -> Iterator[Case]:
    draw, whole = random.Random(SEED), sources()
    spoiled_sources = [spoiled(draw, draw.choice(whole)) for _ in range(COUNT)]
    for number, (lines, reported) in enumerate(zip(spoiled_sources, faults(cicslook, spoiled_sources)), 1):
        yield Case(f"spoiled source {number}", partial(tried, cicsedf, lines, reported))
    yield Case("too many lines", partial(too_many_lines, cicsedf, cicslook))
    all_programs = programs()
    many = Share([planted(draw, draw.choice(all_programs)) for _ in range(PLANTED)], MANY)
    yield Case("many faults", partial(many.judge, cicslook))
    yield Case("one fault that others would follow from", partial(Share(list(with_one_cause(draw)), ONE).judge, cicslook))


def main(words: list[str]) -> int:
    check = Check(__name__, __doc__, words, "cicsedf", "cicslook")
    return check.report(cases(check.program(), check.program(1)), {"refused": 1, "faults put there": 1})
