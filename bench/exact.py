"""Counts how often what `cics-adapt` writes for each instruction fits into one turn of 65,536 instructions, for operand lengths that matter, and
prints a table of it. It is the difference between a turn that has the instruction once and one that has it twice, as AHEAD counts them. No
part of the gate."""
import re
from dataclasses import dataclass

from cics.adapting import adapted
from cics.assembler_files import encoded
from cics.child import run
from cics.cli import say
from cics.sources import SourceText
from checks.common import Check
from checks.measuring import failing

TURN = 65_536  # instructions of a turn
AT_ONCE = 15  # programs of a script
LENGTHS = (1, 4, 8, 16, 64, 256)
BESIDE = "         LA    1,1"  # an instruction of two bytes is done together with the one beside it
INSTRUCTIONS = re.compile(r"^> INSTRUCTIONS (\d+)", re.M)
NUMBERS = {1: "1C", 2: "123C", 4: "0012345C", 8: "000000000012345C", 16: "0000000000000000000000000012345C"}
TAIL = """         EXEC  CICS RETURN
         LTORG
DFHEISTG DSECT
A        DS    XL256
         DS    0D
B        DS    XL256
         END""".split("\n")


@dataclass(frozen=True)
class Row:
    """A statement, what it is called in the table, and what is done before it."""

    what: str
    statement: str
    setup: list[str]


def packed(operation: str, first: int, second: int) -> Row:
    setup = [f"         MVC   A({first}),=X'{NUMBERS[first]}'", f"         MVC   B({second}),=X'{NUMBERS[second]}'"]
    return Row(f"{operation} of {first} and {second}", f"{operation:<5} A({first}),B({second})", setup)


def rows() -> list[Row]:
    found = [Row(f"{one} of {length}", f"{one:<5} A({length}),B", []) for one in ("OC", "NC", "MVZ", "MVN") for length in LENGTHS]
    found += [Row(f"MVCIN of {length}", f"MVCIN A({length}),B+{length - 1}", []) for length in LENGTHS]
    found += [packed(one, length, least) for one in ("AP", "SP", "CP", "ZAP") for length in (4, 8, 16) for least in sorted({min(length, 4), length})]
    found += [packed(one, *both) for one in ("MP", "DP") for both in ((8, 2), (16, 8))]
    found += [Row(f"SRP of {length}", f"SRP   A({length}),2,0", packed("SRP", length, 1).setup) for length in (4, 8, 16)]
    pattern = "         MVC   A({}),=X'40{}'"
    found += [Row(f"{one} of {length}", f"{one:<5} A({length}),B", [pattern.format(length, "20" * (length - 1)), f"         MVC   B(8),=X'{NUMBERS[8]}'"])
              for one in ("ED", "EDMK") for length in (8, 16)]
    for one in ("MVCL", "CLCL"):
        for length in (8, 80, 240):
            setup = ["         LA    4,A", "         LA    8,B", f"         LA    5,{length}", f"         LA    9,{length}"]
            found.append(Row(f"{one} of {length}", f"{one:<5} 4,8", setup))
    found.append(Row("MVO of 8 and 4", "MVO   A(8),B(4)", []))
    found += [Row(text, text, []) for text in ("N     4,B", "O     4,B", "X     4,B", "AL    4,B", "SL    4,B", "MH    4,B", "CLM   4,7,B", "CS    4,5,B",
                                                 "CDS   4,8,B", "TS    B", "XI    B,1", "NR    4,5", "OR    4,5", "ALR   4,5", "SLR   4,5", "LPR   4,5",
                                                 "LNR   4,5", "SLDL  4,8", "SRDL  4,8", "SLDA  4,8")]
    return found


def source_of(row: Row, times: int) -> list[str]:
    new = adapted(SourceText(["P        CSECT", *row.setup, *[*row.setup, f"         {row.statement}", BESIDE] * times, *TAIL]), "P.asm", [])
    left = [str(entry) for entry in new.log.told if entry.is_left]
    if left:
        raise failing(row.statement, left[0])
    return new.lines()


def counted(program: str, sources: list[list[str]]) -> list[int]:
    """How many instructions the first turn of each program has."""
    lines: list[str] = []
    for at, source in enumerate(sources):
        name = f"T{at}"
        lines += [f"SOURCE {name}", *source, "/*", f"TRANSACTION {name} {name}", f"TERMINAL {name}", f"KEY {name} ENTER {name}", f"AHEAD {name} 1"]
    ended = run([program], encoded(lines))
    found = [int(one) for one in INSTRUCTIONS.findall(ended.out.decode("latin-1"))]
    if len(found) != len(sources):
        raise failing(program, f"{len(found)} turns of {len(sources)}: {ended.reported.decode('latin-1')}")
    return found


def main(words: list[str]) -> int:
    program = Check(__name__, __doc__, words, "cicslook").program()
    all_rows = rows()
    sources = [source_of(row, times) for row in all_rows for times in (1, 2)]
    found = [number for at in range(0, len(sources), AT_ONCE) for number in counted(program, sources[at : at + AT_ONCE])]
    say("| What | Instructions | In one turn |")
    say("|---|---|---|")
    for at, row in enumerate(all_rows):
        number = found[2 * at + 1] - found[2 * at] - len(row.setup) - 1
        say(f"| {' '.join(row.what.split())} | {number} | {TURN // max(number, 1):,} |")
    return 0
