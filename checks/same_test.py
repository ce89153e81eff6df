"""Compares what `companions/cics-same` prints of an old and a new source with what is due. They are equal ones; a longer one with the same
screens; a wrong digit; an abend; one that doesn't come to rest, one that runs without a command; a faulty one. And of a record's layout
that is changed in two programs, or in one of them (lesson 14)."""
import os
import re
import tempfile
from collections import Counter
from dataclasses import dataclass
from functools import partial

from cics.child import TOP, read, run
from checks.common import Case, Check, Counts, require
from checks.examples import FOLDER
from cics.files import put_file

CHANGING, LAYOUT = os.path.join(FOLDER, "lessons/changing"), os.path.join(FOLDER, "lessons/14-layout")
OLD = read(f"{CHANGING}/pgm7.asm").decode()
SAME = (0, 4)  # statuses: nothing differs, but by cicsedf it isn't known whether changed lines were run
SCREENS = "compared after each key: answers, ends of tasks and screens; *"
LOOP = "L1       EXEC  CICS SUSPEND\n         B     L1\nL3       MVC   W4"


@dataclass(frozen=True)
class Due:
    """The status, and the lines printed, of which * stands for anything."""

    status: int
    lines: list[str]

    def judge(self, words: list[str]) -> Counts:
        ended = run([os.path.join(TOP, "companions/cics-same"), *words])
        patterns = [re.escape(line).replace(r"\*", ".*") for line in self.lines]
        lines = ended.lines()
        is_told = len(patterns) == len(lines) and all(map(re.fullmatch, patterns, lines))
        require(ended.status == self.status and is_told, str(ended))
        return Counter({"the same" if self.status in SAME else "otherwise": 1})


SOURCES = {  # what a new source is, its text, and what is printed
    "equal": (OLD, Due(0, ["same after 2 keys; no line is changed", SCREENS])),
    "longer": (read(f"{CHANGING}/pgm7-enq.asm").decode(), Due(4, ["same after 2 keys; 3 changed lines, *", SCREENS])),
    "a wrong digit": (OLD.replace("LA    4,1(0,4)", "LA    4,2(0,4)"),
                      Due(1, ["line *, KEY T002 ENTER TICK: SCREEN T002 differs", "old: 01|TICKET 00002", "new: 01|TICKET 00003"])),
    "an abend": (OLD.replace("L1       MVC", "L1       DC    H'0'\n         MVC"),
                 Due(1, ["line *, KEY T001 ENTER TICK:", "old: T001 Ended", "new: T001 Abended ASRA"])),
    "no rest": (OLD.replace("L1       MVC   W4", LOOP),
                Due(1, ["line *, KEY T001 ENTER TICK:", "old: T001 Ended", "new: T001 doesn't come to rest within * turns"])),
    "a loop": (OLD.replace("L1       MVC", "L1       B     L1\n         MVC"),
               Due(1, ["line *, KEY T001 ENTER TICK:", "old: T001 Ended", "new: T001 Abended AICA"])),
    "faulty": (OLD.replace("CVB ", "CVX "), Due(2, ["* can't be run: *new.asm:*: UnknownOperation"])),
}
LAYOUTS = {  # in which programs the layout is changed, and what is printed
    ("ADD", "SHOW"): Due(4, ["same after 4 keys; * changed lines, *", SCREENS]),
    ("ADD",): Due(1, ["line *, KEY T001 ENTER SHOW 1: SCREEN T001 differs", "old: 01|BOLTS    00400 00250", "new: 01|BOLTS    00004 0.002"]),
}


def source_tried(program: str, text: str, due: Due) -> Counts:
    with tempfile.TemporaryDirectory() as folder:
        path = os.path.join(folder, "new.asm")
        put_file(path, text.encode())
        return due.judge([f"{CHANGING}/pgm7.script", "PGM7", f"{CHANGING}/pgm7.asm", path, program])


def layout_tried(program: str, programs: tuple[str, ...], due: Due) -> Counts:
    files = [f"{name}={LAYOUT}/{name.lower()}.asm:{LAYOUT}/{name.lower()}-wide.asm" for name in programs]
    return due.judge([f"{LAYOUT}/stock.script", "--cicsedf", program, *(word for file in files for word in ("--source", file))])


def main(words: list[str]) -> int:
    check = Check(__name__, __doc__, words, "cicsedf")
    program = check.program()
    cases = [Case(what, partial(source_tried, program, text, due)) for what, (text, due) in SOURCES.items()]
    cases += [Case(f"a layout in {' and '.join(names)}", partial(layout_tried, program, names, due)) for names, due in LAYOUTS.items()]
    return check.report(cases)
