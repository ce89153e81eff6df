"""Scripts for CHOICES: drawn ones, and programs of the examples with keys that were chosen for them."""
import os
import random
import re
from dataclasses import dataclass, field

from cics.child import TOP, run
from cics.key_sets import expanded
from checks.common import require
from checks.examples import FOLDER, actions, text_of

SEED = 1
MARK = "SCREEN ####"  # no terminal of a script has this name
EXAMPLES = {"ordent": 8, "browse": 7, "stkbrws": 5}  # and how many states lists of at most three keys lead to
SETTLED = 40  # turns in which a task that began before CHOICES comes to rest
SIZES = ((2, 4), (3, 3), (3, 3), (3, 4), (4, 2), (4, 3))  # keys, and keys of a list
LOOKS = ["TASKS", "TERMINALS", "QUEUES", "RESOURCES", "AREAS", "STORAGE 001000 16", "STORAGE 200000 1024"]
SEEN = ("QUEUE Q", "QUEUES", "STORAGE 001000 8", "RESOURCES", "SCREEN T001", "AREAS T001")
TESTS = ("CLI   EIBAID,X'F3'", "CLI   LINE,C'A'", "CLI   COUNT+3,1")
STEPS = {  # statements of a step
    "show": ["         EXEC  CICS SEND TEXT FROM(=C'{r}') LENGTH(=H'1') ERASE"],
    "show count": ["         STC   5,LINE", "         OI    LINE,X'F0'", "         EXEC  CICS SEND TEXT FROM(LINE) LENGTH(=H'1') ERASE"],
    "show line": ["         EXEC  CICS SEND TEXT FROM(LINE) LENGTH(=H'4')"],
    "write": ["         EXEC  CICS WRITEQ TS QUEUE('Q') FROM(=C'{r}') LENGTH(=H'1')"],
    "read": ["         MVC   LEN,=H'4'", "         EXEC  CICS READQ TS QUEUE('Q') INTO(LINE) LENGTH(LEN)"],  # abends, where there is none
    "delete": ["         EXEC  CICS DELETEQ TS QUEUE('Q')"],  # and this one too
    "own": ["         EXEC  CICS ENQ RESOURCE(=C'{r}') LENGTH(=H'1')"],
    "release": ["         EXEC  CICS DEQ RESOURCE(=C'{r}') LENGTH(=H'1')"],
    "ask": ["         MVC   LEN,=H'4'", "         EXEC  CICS RECEIVE INTO(LINE) LENGTH(LEN) NOHANDLE"],
    "ask again": 2 * ["         MVC   LEN,=H'4'", "         EXEC  CICS RECEIVE INTO(LINE) LENGTH(LEN) NOHANDLE"],
    "add": ["         EXEC  CICS ADDRESS CWA(6)", "         L     7,0(6)", "         LA    7,1(7)", "         C     7,=F'{k}'", "         BL    A{n}",
            "         SR    7,7", "A{n}       ST    7,0(6)"],
    "give way": ["         EXEC  CICS SUSPEND"],
    "exit": ["         EXEC  CICS HANDLE ABEND LABEL(OVER)"],
    "fail": ["         DC    H'0'"],
}
SPIN = ["S{n}       EXEC  CICS SUSPEND", "         B     S{n}"]
TASK_NUMBER = ["         EXEC  CICS ADDRESS CWA(6)", "         MVC   8(4,6),EIBTASKN"]
COUNTING = ["         SR    5,5", "         LH    4,EIBCALEN", "         LTR   4,4", "         BZ    KEEP", "         L     4,DFHEICAP",
            "         L     5,0(0,4)", "         LA    5,1(0,5)", "         C     5,=F'2'", "         BL    KEEP", "         SR    5,5",
            "KEEP     ST    5,COUNT"]
OWNING = [line.format(r="A") for step in ("own", "ask again") for line in STEPS[step]]  # it owns a resource while its operator reads
ENDS = ("", "", " TRANSID('P0')", " TRANSID('P1')", " TRANSID('P0') COMMAREA(COUNT)\n               LENGTH(=H'4')")


def program(name: str, draw: random.Random, has_one_number: bool) -> list[str]:
    """A program of two to five steps, some of them for one key, one input or one count alone."""
    lines = ["DFHEISTG DSECT", "LEN      DS    H", "LINE     DS    CL4", "COUNT    DS    F", f"{name:8} CSECT"]
    lines += draw.choice([COUNTING, STEPS["ask"], OWNING, OWNING, list[str]()])
    shows = [STEPS["show"], STEPS["show count"], STEPS["show line"]]
    steps = [*STEPS.values(), *([SPIN] if draw.random() < 0.3 else []), *([] if has_one_number else [TASK_NUMBER])]
    for number in range(draw.randint(2, 5)):
        words = {"k": draw.choice((2, 4)), "r": draw.choice("AB"), "n": number}
        step = draw.choice(steps)
        test = [f"         {draw.choice(TESTS)}", f"         BNE   E{number}"] if draw.random() < 0.6 or step in (SPIN, STEPS["fail"]) else []
        lines += [*test, *(line.format(**words) for line in step), *([f"E{number}       DS    0H"] if test else [])]
    lines += [line.format(r=draw.choice("AB")) for line in draw.choice(shows)] if draw.random() < 0.7 else []
    first, *more = f"OVER     EXEC  CICS RETURN{draw.choice(ENDS)}".split("\n")
    return [*lines, first.ljust(71) + "-" if more else first, *more, "         END"]


@dataclass(frozen=True)
class Script:
    """A script: its lines up to CHOICES, its terminals, what the block asks, and the looks that show what its programs keep. The lines that end
    EDF are those of each state's list."""

    lines: list[str]
    terminals: list[str]
    key_lines: list[str]
    depth: int
    most: int | None = None  # states that may be kept, where it is said
    has_one_number: bool = True
    sights: list[str] = field(default_factory=list)
    off: list[str] = field(default_factory=list)
    looks: list[str] = field(default_factory=lambda: ["QUEUE Q"])

    def keys(self) -> list[str]:
        """The keys that its lines stand for."""
        return [key for line in self.key_lines for key in expanded(line)]

    def screens(self) -> list[str]:
        return [f"SCREEN {terminal}" for terminal in self.terminals]

    def block(self) -> list[str]:
        heading = f"CHOICES {self.depth}{f' {self.most}' if self.most else ''}{' ONE NUMBER' if self.has_one_number else ''}"
        return [heading, *self.key_lines, *self.sights, "/*"]

    def all_looks(self) -> list[str]:
        """What shows as much of the region as looks can."""
        return [*LOOKS, *self.looks, *(f"TASK {terminal}" for terminal in self.terminals)]

    def answered(self, cicslook: str) -> list[str]:
        """What CHOICES answers."""
        return parts_of(cicslook, self.lines, self.block())[1]


def drawn_script(number: int) -> Script:
    """A script with two programs, and perhaps a task that began before CHOICES, and EDF."""
    draw = random.Random(f"{SEED} {number}")
    terminals = ["T001", "T002"][: draw.choice((1, 1, 2, 2))]
    has_one_number = draw.random() < 0.6
    lines, off = list[str](), list[str]()
    for name in ("P0", "P1"):
        lines += [f"SOURCE {name}", *program(name, draw, has_one_number), "/*", f"TRANSACTION {name} {name}"]
    lines += [f"TERMINAL {terminal}" for terminal in terminals]
    if draw.random() < 0.3:
        terminal = draw.choice(terminals)
        lines += [f"KEY {terminal} ENTER P0", *[f"TURN {terminal}"] * draw.choice((1, *[SETTLED] * 7))]
    if draw.random() < 0.2:
        lines.append(f"EDF {terminals[-1]} ON")
        off = [f"EDF {terminals[-1]} OFF"]
    count, depth = draw.choice(SIZES)
    if draw.random() < 0.1:
        key_lines, depth = [f"KEY {draw.choice(terminals)} ENTER P{{#}}"], 2
    else:
        key_lines = some_keys(draw, terminals, count)
    most = draw.randint(2, 12) if draw.random() < 0.25 else None
    sights = draw.sample(SEEN, draw.randint(1, 3)) if draw.random() < 0.4 else []
    return Script(lines, terminals, key_lines, depth, most, has_one_number, sights, off)


def some_keys(draw: random.Random, terminals: list[str], count: int) -> list[str]:
    """Lines that stand for so many keys, the first of them one that attaches P0."""
    lines = ["KEY T001 ENTER P0"]
    while count > len(lines):
        terminal = draw.choice(terminals)
        pair = draw.choice(("ENTER {P1|P0 A}", "{PF3|ENTER} A", "{CLEAR|PF3}", "ENTER P{1|0}", "PF3 {P1|}"))
        if count - len(lines) >= 2 and draw.random() < 0.5:
            lines.append(f"KEY {terminal} {pair}")
            count -= 1
        else:
            lines.append([*expanded(f"KEY {terminal} {pair}")][draw.randrange(2)])
    return lines


def example(words: list[str], key_lines: list[str], looks: list[str]) -> Script:
    """A program of the examples, as cics-run has it, with keys."""
    ended = run([os.path.join(TOP, "companions/cics-run"), *words, "--key", "CLEAR", "--script"])
    require(ended.is_well(), str(ended))
    lines = ended.lines()
    last = max(at for at, line in enumerate(lines) if line.startswith("KEY T001 "))
    terminals = [line.split(" ")[1] for line in lines if line.startswith("TERMINAL ")]
    return Script(turns_of(lines[:last]), terminals, key_lines, 3, looks=looks)


def example_script(name: str) -> Script:
    """One of three programs of the examples, with keys that were chosen for it."""
    adapted = os.path.join(FOLDER, "adapt")
    if name == "ordent":
        return example([f"{adapted}/by-hand/ordent.asm", "--tran", "ORD1=ORDENT"],
                       ["KEY T001 ENTER ORD1{| C00001 A1000 005| C00001 A1000 0X5}", "KEY T001 {CLEAR|PF3}"], ["QUEUE ORDQT001"])
    if name == "stkbrws":
        return example([f"{adapted}/by-hand/stkbrws.asm", "--tran", "STKB=STKBRWS", "--queue", f"STOCK={adapted}/data/stock"],
                       ["KEY T001 ENTER STKB{| B2000}", "KEY T001 {PF7|PF8|PF3}"], ["QUEUE STOCK"])
    return Script(actions("lessons/12-browse/browse")[0], ["T001"], ["KEY T001 ENTER TOWN", "KEY T001 {PF7|PF8|PF3}"], 3)


def script_of(name: str) -> Script:
    """A script by its case's name."""
    return drawn_script(int(name.removeprefix("script "))) if name.startswith("script ") else example_script(name)


def parts_of(program: str, *parts: list[str]) -> list[list[str]]:
    """What a program writes for each of some parts of a script."""
    ended = run([program], text_of([line for part in parts for line in (*part, MARK)]))
    require(ended.is_well(), str(ended))
    written: list[list[str]] = [[]]
    for line in ended.lines():
        if line == f"{MARK} NONE":
            written.append([])
        else:
            written[-1].append(line)
    return written


def turns_of(moves: list[str]) -> list[str]:
    """A state's list as `cicsedf` does it: each RUN as so many turns."""
    lines: list[str] = []
    for line in moves:
        found = re.fullmatch("RUN ([A-Z0-9@#$]+) ([0-9]+)", line)
        lines += [f"TURN {found[1]}"] * int(found[2]) if found else [line]
    return lines
