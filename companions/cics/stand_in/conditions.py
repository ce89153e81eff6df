"""HANDLE and IGNORE CONDITION of what stand-ins meet: a table in the working storage, and the routine that goes by it."""
import re
from dataclasses import dataclass, field

from cics.commands import HANDLED
from cics.exact.aids import ANY, CODES, Keys, field_of
from cics.operands import CONDITIONS
from cics.stand_in.eib import Absent
from cics.stand_in.map_programs import filled
from cics.stand_in.requests import ABENDS, BLOCK, Call, NotStoodIn, called
from cics.statements import Line

# The conditions that made programs meet, by number; ERROR serves those that have none of their own.
MET = {"ERROR", "DSIDERR", "FILENOTFOUND", "NOTFND", "DUPREC", "INVREQ", "ENDFILE", "LENGERR", "QZERO", "ENDDATA", "QIDERR", "MAPFAIL", "NOSPACE"}
IGNORED = "X'80'"
PUSH, POP = "$SP", "$SU"
TABLE, KEPT, DEPTH, DEEPEST = "$SHT", "$SHS", "$SHD", 4


def entry_of(number: int) -> str:
    return f"$SH{number:03}"


@dataclass
class Table:
    """The conditions of a source's HANDLE and IGNORE that stand-ins meet, by their numbers."""

    numbers: list[int] = field(default_factory=list)
    is_pushed: bool = False

    def take(self, call: Call) -> None:
        """Takes the conditions that a command names."""
        if call.command.name in ("HANDLE CONDITION", "IGNORE CONDITION"):
            named = [CONDITIONS[unit.word] for unit in call.command.units[call.command.words :] if unit.word in MET]
            self.numbers = sorted({*self.numbers, *named}, key=lambda number: (number == 1, number))
        self.is_pushed = self.is_pushed or call.command.name == "PUSH HANDLE"

    def storage(self) -> list[str]:
        lines = [f"{TABLE}     DS    0F", *(f"{entry_of(number)}   DS    F" for number in self.numbers)]
        if self.is_pushed and self.numbers:
            lines += [f"{KEPT}     DS    {DEEPEST * len(self.numbers)}F", f"{DEPTH}     DS    H"]
        return lines


def handled(call: Call) -> list[Line]:
    """What stands for HANDLE or IGNORE CONDITION: the table's entries, and the command itself for the conditions that it takes."""
    is_ignored = call.command.name == "IGNORE CONDITION"
    made, others = [], []
    for unit in call.command.units[call.command.words :]:
        number = CONDITIONS.get(unit.word)
        if unit.word in MET and number is not None:
            entry = entry_of(number)
            if is_ignored:
                made.append(Line("MVI", f"{entry},{IGNORED}"))
            elif unit.argument:
                made += [Line("LA", f"0,{unit.argument}"), Line("ST", f"0,{entry}")]
            else:
                made.append(Line("XC", f"{entry},{entry}"))
        if unit.word in HANDLED or unit.word not in MET:
            others.append(unit.text())
    return [*made, *([Line("EXEC", f"CICS {call.command.name} {' '.join(others)}")] if others else [])]


def kept_too(call: Call, table: Table) -> list[Line]:
    """PUSH and POP HANDLE, which keep the table too."""
    if call.words & {"RESP", "NOHANDLE"}:
        raise NotStoodIn(f"{call.command.name} with RESP or NOHANDLE: the table would not be kept by it", "handles")
    routine = PUSH if call.command.name == "PUSH HANDLE" else POP
    return [Line("EXEC", f"CICS {call.command.name}"), *called(routine)] if table.numbers else [Line("EXEC", f"CICS {call.command.name}")]


def keys_lines(keys: Keys | None) -> list[str]:
    """The branch by the key after RECEIVE MAP, as HANDLE AID says; ENTER isn't any key."""
    if keys is None or not keys.names:
        return []
    lines = ["         CLC   $SRFN,=X'1802'", "         BNE   $SCN"]
    for at, key in enumerate(keys.names):
        compared, branch = (CODES["ENTER"], "BE") if key == ANY else (CODES[key], "BNE")
        lines += [f"         CLI   EIBAID-DFHEIBLK(2),X'{compared:02X}'", f"         {branch:<5} $SCK{at}",
                  f"         ICM   0,15,{field_of(key)}-{BLOCK}(1)", "         BC    7,$SCG", f"$SCK{at:<4} DS    0H"]
    return lines


def table_lines(table: Table) -> list[str]:
    """The branch by the condition; ERROR, the last one, serves all."""
    lines: list[str] = []
    for at, number in enumerate(table.numbers):
        if number != CONDITIONS["ERROR"]:
            lines += [f"         CLC   $SRRESP,=F'{number}'", f"         BNE   $SCE{at}"]
        lines += [f"         ICM   0,15,{entry_of(number)}", "         BC    7,$SCG", f"$SCE{at:<4} DS    0H"]
    return lines


def routine(table: Table, keys: Keys | None, absent: Absent) -> list[str]:
    """The routine after each request: the EIB, keys, and conditions by the table."""
    return filled("routine.asm", {"@@EIB@@": absent.lines(), "@@KEYS@@": keys_lines(keys), "@@TABLE@@": table_lines(table),
                                  "@@CODE@@": [ABENDS["program"]]})


def text_routine(program: str) -> list[str]:
    """What drops the map that is kept, since a text takes its place."""
    return filled("text.asm", {"@@NAME@@": [program]})


def push_routines(table: Table) -> list[str]:
    """PUSH and POP of the table."""
    size = 4 * len(table.numbers)
    lines = filled("push.asm", {"@@CODE@@": [ABENDS["handles"]]})
    return [re.sub(r"(\d\*)?@@SIZE@@", lambda found: str(int((found[1] or "1*")[0]) * size), line) for line in lines]
