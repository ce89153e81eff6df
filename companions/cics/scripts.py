"""Scripts: their lines, put together into actions as `cicslook` reads them."""
import itertools
import re
from dataclasses import dataclass, field
from functools import cached_property

from cics.child import encoded, lines_of

BLOCKS = ("IMAGE", "SOURCE", "FAULTS", "ORDERS", "CHOICES")
EVENTS = ("IMAGE", "SOURCE", "TRANSACTION", "TERMINAL", "CLOCK", "KEY", "TURN", "EDF", "ALTER", "RUN")
OF_TERMINALS = ("KEY", "TURN", "EDF", "ALTER", "RUN", "TERMINAL")  # events whose first operand is a terminal
OF_CICSLOOK = ("RUN", "WATCH", "COVER", "COVERED", "QUEUES", "QUEUE", "PROGRAMS", "TASKS", "RESOURCES", "TERMINALS", "COMMAND", "AHEAD", "TASK",
               "FIELD", "FIELDS", "AREAS", "STORAGE", "WHERE", "ABEND", "SYMBOL", "SYMBOLS", "XREF", "FAULTS", "ORDERS", "CHOICES", "HELP")
RUN = re.compile(r"RUN (?P<terminal>[A-Z0-9@#$]{1,4})(?: (?P<turns>[1-9][0-9]{0,3}))?"
                 r"(?P<stop> BEFORE ABEND| TO [A-Z0-9@#$]{1,8} (?!0+$)[0-9]{1,5})?")
RUN_TURNS = 1_000  # of a RUN without a number
MOST_TURNS, LONGEST = 4_096, 4_096  # of a RUN; bytes of a line
BLOCK_END = "/*"
NAMING = re.compile(r"^(?:TERMINAL|SCREEN) (.*)", re.M)
LETTERS = "@ABCDEFGHIJKLMNOPQRSTUVWXYZ0123456789#$"  # of names


@dataclass
class Action:
    """What a line of a script asks, or a block."""

    line: int  # the number of its first line, from 1
    lines: list[str]
    comments: list[str] = field(default_factory=list)  # those in front of it
    file: str = ""  # the script, where it is known
    block_file: str = ""  # of a block whose lines come from another file that one

    def place(self, at: int) -> str:
        """Where one of its lines stands, the first being 0."""
        if self.block_file and at > 0:
            return f"{self.block_file}:{min(at, max(1, len(self.lines) - 2))}"
        return f"{self.file}:{self.line + at}" if self.file else f"line {self.line + at}"

    @cached_property
    def text(self) -> str:
        """Its first line. Lines of `cicslook` alone may be in lower case."""
        text = self.lines[0].removesuffix("\r")
        return text.upper() if text.split(" ")[0].upper() in OF_CICSLOOK else text

    @property
    def words(self) -> list[str]:
        return self.text.split(" ")

    @property
    def word(self) -> str:
        return self.words[0]

    @property
    def terminal(self) -> str | None:
        """The terminal of an event."""
        return self.words[1] if self.word in OF_TERMINALS and len(self.words) > 1 else None

    @property
    def is_event(self) -> bool:
        """Whether it is an event: a RUN that can't be read is a bad look."""
        return self.word in EVENTS and (self.word != "RUN" or self.turns is not None)

    @property
    def is_open(self) -> bool:
        """Whether it is a block that isn't ended."""
        return self.word in BLOCKS and (len(self.lines) < 2 or self.lines[-1].removesuffix("\r") != BLOCK_END)

    @property
    def turns(self) -> int | None:
        """How many turns a RUN asks at the most; None for any other line, and for a RUN that is a bad look."""
        found = RUN.fullmatch(self.text)
        turns = int(found["turns"] or RUN_TURNS) if found else 0
        return turns if 0 < turns <= MOST_TURNS else None

    @property
    def block(self) -> list[str]:
        """The lines of a block that is ended, between its first and its last one."""
        return [line.removesuffix("\r") for line in self.lines[1:-1]]


def is_silent(line: str) -> bool:
    """Whether a line is empty or a comment."""
    bare = line.removesuffix("\r")
    return (bare.startswith("*") or not bare) and (4 * len(bare) <= LONGEST or len(encoded(bare)) <= LONGEST)


def actions_of(text: str, file: str = "") -> list[Action]:
    """The actions of a script, in order; a block that isn't ended is its lines up to the end."""
    found: list[Action] = []
    comments: list[str] = []
    block: Action | None = None
    for number, line in enumerate(lines_of(text), 1):
        bare = line.removesuffix("\r")
        if block:
            block.lines.append(line)
            block = None if bare == BLOCK_END else block
        elif is_silent(line):
            comments += [bare.lstrip("*").strip()] if bare else []
        else:
            found.append(Action(number, [line], comments, file))
            comments = []
            block = found[-1] if found[-1].word in BLOCKS else None
    return found


def free_name(text: str) -> str | None:
    """The name of a terminal that a script neither defines nor looks at; none where it has all of them."""
    named = {word for found in NAMING.finditer(text) for word in found[1].split()}
    names = map("".join, itertools.product(LETTERS, repeat=4))
    return next((name for name in names if name not in named), None)
