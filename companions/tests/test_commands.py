"""Drawn EXEC statements as shops write them, with gaps, lines, remarks and sequence numbers that are drawn: what cics-adapt makes of each has
its words, each argument as it is due, and its remarks stand above it."""
import random
import re
from dataclasses import dataclass

from cics.adapting import adapted
from cics.sources import SourceText
from cics.statements import joined
from tests.case import TestCase

STATEMENTS = 400  # how many are drawn
ROOM = 70  # columns that a drawn line may have
HEAD = ["P        CSECT"]
TAIL = ["AREA     DS    CL20", "W        DS    H", "LEN      EQU   8", "BLANK    EQU   C' '", "         DFHREGS", "         END"]
REMARKS = ["THE FIRST ONE", "SHOW IT", "AGAIN, AND AGAIN.", "IT'S HERE", "UNTIL IT IS READ", "* * *", "80 BYTES", "X"]

# Arguments, each with what is due for it.
AREAS = {"AREA": "AREA", "0(4)": "0(4)", "AREA+2": "AREA+2", "=C'HELLO (THERE'": "=C'HELLO (THERE'"}
HALFWORDS = {"80": "=H'80'", "L'AREA": "=AL2(L'AREA)", "LEN": "=AL2(LEN)", "=H'5'": "=H'5'", "W": "W", "L'AREA-2": "=AL2(L'AREA-2)", "2*LEN": "=H'16'"}
BYTES = {"X'00'": "=X'00'", "C' '": "=C' '", "BLANK": "=AL1(BLANK)"}
NONE = {"": ""}
COMMANDS = {
    "SEND TEXT": {"FROM": AREAS, "LENGTH": HALFWORDS, "ERASE": NONE, "FREEKB": NONE},
    "WRITEQ TS": {"QUEUE": {"'Q'": "'Q'", "AREA": "AREA"}, "FROM": AREAS, "LENGTH": HALFWORDS, "ITEM": HALFWORDS, "REWRITE": NONE, "NOHANDLE": NONE},
    "LINK": {"PROGRAM": {"'PGM'": "'PGM'"}, "COMMAREA": {"AREA": "AREA"}, "LENGTH": HALFWORDS, "RESP": {"W": "W"}},
    "GETMAIN": {"SET": {"5": "5", "R5": "R5"}, "LENGTH": HALFWORDS, "INITIMG": BYTES, "NOSUSPEND": NONE},
    "RETURN": {"TRANSID": {"'TRN1'": "'TRN1'"}, "COMMAREA": {"AREA": "AREA"}, "LENGTH": HALFWORDS}}


@dataclass
class Drawn:
    """A drawn statement: its lines, the words that are due, and its remarks."""

    lines: list[str]
    due: str
    remarks: list[str]


def unit(word: str, argument: str, draw: random.Random) -> str:
    """A word with its argument, and blanks at some of the parentheses."""
    if not argument:
        return word
    before, first, last = (draw.choice(["", "", " "]) for _ in range(3))
    return f"{word}{before}({first}{argument}{last})"


def drawn(seed: int) -> Drawn:
    draw = random.Random(f"command {seed}")
    command, options = draw.choice(list(COMMANDS.items()))
    words = draw.sample(list(options), len(options))
    lines, remarks, due = [f"{draw.choice(['', 'LABEL']):<8} EXEC{draw.choice([' ', '  '])}CICS {command}"], list[str](), [f"CICS {command}"]
    for at, word in enumerate(words):
        argument = draw.choice(list(options[word]))
        due.append(f"{word}({options[word][argument]})" if argument else word)
        text = unit(word, argument, draw)
        if len(lines[-1]) + 2 + len(text) > ROOM or at and draw.random() < 0.35:
            remarks += remark_put(lines, draw) if at else []
            lines.append(" " * draw.choice([15, 15, 16, 20]) + text)
        else:
            lines[-1] += " " * draw.choice([1, 1, 1, 2]) + text
    remarks += remark_put(lines, draw)
    numbers = [f"{seed:08}" if seed % 3 == 0 else "" for _ in lines]
    marked = [line.ljust(71) + ("X" if at + 1 < len(lines) else " ") + numbers[at] for at, line in enumerate(lines)]
    return Drawn([line.rstrip() for line in marked], " ".join(due), remarks)


def remark_put(lines: list[str], draw: random.Random) -> list[str]:
    """Perhaps a remark at the end of the last line."""
    remark, gap = draw.choice(REMARKS), draw.choice([2, 3, 6])
    if draw.random() < 0.6 or len(lines[-1]) + gap + len(remark) > ROOM:
        return []
    lines[-1] += " " * gap + remark
    return [remark]


def plain(text: str) -> str:
    """Words with one blank between them, and none before a parenthesis; what is between apostrophes stays."""
    parts = re.split(r"((?<!L)'[^']*')", text)
    return "".join(part if at % 2 else re.sub(r" +(?=\()", "", re.sub(r" +", " ", part)) for at, part in enumerate(parts)).strip()


def failure_of(seed: int) -> str | None:
    one = drawn(seed)
    result = adapted(SourceText([*HEAD, *one.lines, *TAIL]), "OLD.asm", [])
    lines = result.lines()[len(HEAD) : -len(TAIL)]
    remarks = [line[1:72].strip() for line in lines if line.startswith("*")]
    found = joined([line for line in lines if not line.startswith("*")])
    is_well = plain(found[found.index("CICS") :]) == plain(one.due) and remarks == one.remarks and not result.log.has_left()
    return None if is_well else "\n".join([f"the command drawn by {seed}:", *one.lines, "is", *lines, "where due is", one.due])


class CommandsTest(TestCase):
    def test_drawn(self) -> None:
        self.none_of([failure for seed in range(STATEMENTS) if (failure := failure_of(seed))])
