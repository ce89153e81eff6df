"""Has tool_machine place each of some sources while each allocation of the first pass is refused,
one in each run. The answer must then be Memory, and that of a second call, which has all memory, as without a refusal.
"""
from collections import Counter
from functools import partial

from cics.child import Ended
from checks.common import Check, Counts, require
from checks.examples import each_of, text_of
from checks.refusing import Sweep, library

NO_MEMORY = Ended(0, b"out of memory\n", b"")
PROGRAM = ["P CSECT", " USING P,15", " MVC 8(2,13),=C'AB'", " L 1,=F'1'"]
SOURCES = {
    "literals": ("7 statements", [*PROGRAM, " LH 2,=H'2'", " A 1,=F'1'", " END"]),
    "two pools": ("8 statements", [*PROGRAM, " LTORG", " LH 2,=H'2'", " A 1,=F'1'", " END"]),
    "a section resumed": ("9 statements", ["P CSECT", " L 1,X", "D DSECT", "X DS F,C", "P CSECT", " LR 1,2", "D DSECT", " DS 0D,H", " END"]),
    "groups of literals": ("5 statements", ["P CSECT", " B =F'1'", " BR =H'1'", " CLC =CL8'A',=2FL3'1,2'", " END"]),
    "items and symbols": (
        "10 statements",
        ["P START 0", "X DS 3F,C", "Y DC F'1,2',CL256'A'", "E EQU X+2-L'Y", "S EQU *", " DFHREGS", " COPY DFHAID", "DFHEISTG DSECT", " DS 80X", " END"],
    ),
    "a fault": ("2 ValueOutOfRange", ["E EQU X'FFFFFFFF'", "F EQU E+E", " END"]),
    "two faults": ("4 BadOperand", ["P CSECT", " L 99,NOWHERE", " DC F'X'", "X DS ZZ", " EQU 1", " END"]),
}


def calls(path: str, program: str, name: str, turns: int) -> Sweep:
    """The sweep of a number of calls over a source, of which the last one's answer is printed."""
    answer, lines = SOURCES[name]
    sweep = Sweep(path, [program], Ended(0, f"{answer}\n".encode(), b""), "memory", text_of(["MEASURE pass1", str(turns), *lines]))
    sweep.run_whole()
    return sweep


def swept(path: str, program: str, name: str) -> Counts:
    """Each allocation of the first call over a source must be answered as it should be."""
    none, once, twice = (calls(path, program, name, turns) for turns in (0, 1, 2))
    each = twice.count - once.count
    require(each > 0 and once.run(0) == once.wanted, f"without a failure: {once.run(0)}, {each} allocations")
    for nth in range(none.count + 1, none.count + 1 + each):
        require(once.run(nth) == NO_MEMORY, f"allocation {nth}: {once.run(nth)}")
        require(twice.run(nth) == twice.wanted, f"allocation {nth}, and once more: {twice.run(nth)}")
    return Counter({"allocations refused": each})


def main(words: list[str]) -> int:
    check = Check(__name__, __doc__, words, "tool_machine")
    with library() as path:
        return check.report(each_of(SOURCES, partial(swept, path, check.program())), {"allocations refused": 1})
