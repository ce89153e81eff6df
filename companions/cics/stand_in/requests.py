"""What is written for a command that a made program does: a request in the working storage, a LINK, and what comes of it."""
from dataclasses import dataclass, field

from cics.commands import Command, Unit, command_of, without_blanks
from cics.program import Program
from cics.statements import Line, Statement, joined, parsed
from cics.texts import is_decimal

BLOCK, LENGTH = "$SR", 64  # the request, and its bytes
ROUTINE, TEXT_ROUTINE = "$SC", "$ST"
ARGUMENTS, SCRATCH = "$SRA", "$SRX"
OWN = "$S"  # the names of what is written begin so
NO_HANDLE = 0x01

FIELDS = f"""{BLOCK}      DS    0D
$SRFN    DS    XL2
$SROPT   DS    X
$SRHOW   DS    X
$SRNAM   DS    CL8
$SRSET   DS    CL8
$SRRESP  DS    F
$SRABC   DS    CL4
$SREIB   DS    A
$SRA     DS    5A
$SRCUR   DS    H
$SRX     DS    H
$SRR2    DS    F
$SR14    DS    F""".split("\n")

# The codes of the abends at statements for which nothing stands, by why.
ABENDS = {"ROLLBACK": "SIRB", "GENERIC": "SIGN", "RRN": "SIRR", "RBA": "SIRA", "page": "SIPG", "name": "SINM", "option": "SIOP", "command": "SICM",
          "map": "SIMP", "key": "SIKY", "program": "SIPR", "handles": "SIPH", "length": "SILN", "file": "SIFL"}


class NotStoodIn(Exception):
    """Why nothing stands for a command, and the reason by which its abend has its code."""

    def __init__(self, why: str, reason: str = "option") -> None:
        super().__init__(why)
        self.reason = reason


@dataclass
class Call:
    """A command of a source, with its words."""

    statement: Statement
    command: Command
    program: Program

    @property
    def options(self) -> list[Unit]:
        return self.command.units[1:]

    @property
    def words(self) -> set[str]:
        return {unit.word for unit in self.options}

    def argument(self, *words: str) -> str | None:
        """The argument of the first of these options that the command has."""
        found = next((unit.argument for word in words for unit in self.options if unit.word == word and unit.argument is not None), None)
        return without_blanks(found) if found is not None else None

    def has(self, word: str) -> bool:
        return word in self.words

    def only(self, known: set[str], reasons: dict[str, str]) -> None:
        """Refuses a command that has other options than these; `reasons` has what some of them are."""
        for unit in self.options:
            if unit.word in reasons:
                raise NotStoodIn(f"{unit.word}: nothing stands for it", reasons[unit.word])
        for unit in self.options:
            if unit.word not in known:
                raise NotStoodIn(f"{unit.word}: no option of {self.command.name} for which something stands")

    def constant(self, *words: str) -> str | None:
        """A name in apostrophes; one that is known only when it runs is refused."""
        text = self.argument(*words)
        if text is None:
            return None
        if len(text) < 3 or text[0] != "'" or text[-1] != "'":
            raise NotStoodIn(f"{words[0]}({text}): a name that is known only when it runs", "name")
        return text[1:-1].strip()

    def halfword(self, text: str | None) -> str | None:
        """An argument that is a number as a halfword in storage."""
        if text is None or text.startswith("="):
            return text
        value = self.program.layout.evaluated(text, self.program.here(self.statement))
        if value is None or not value.is_absolute():
            return text
        return f"=H'{text}'" if is_decimal(text) and int(text) < 32768 else f"=AL2({text})"

    def length_area(self) -> tuple[str | None, list[Line]]:
        """The halfword of LENGTH that a command writes to, and what is written in front: a number is put into one that nothing else uses."""
        text = self.argument("LENGTH")
        value = self.halfword(text)
        if value is None or value == text:
            return text, []
        return SCRATCH, [Line("MVC", f"{SCRATCH},{value}")]

    def how(self) -> int:
        return NO_HANDLE if self.words & {"RESP", "NOHANDLE"} else 0


@dataclass
class Request:
    """What is asked of a made program."""

    what: str
    function: int
    program: str
    first: str
    second: str = ""
    options: int = 0
    arguments: dict[int, str] = field(default_factory=dict)
    before: list[Line] = field(default_factory=list)
    pointer: str | None = None  # the register that gets an address

    def lines(self, call: Call) -> list[Line]:
        made = [Line("MVC", f"$SRFN(4),=X'{self.function:04X}{self.options:02X}{call.how():02X}'"),
                Line("MVC", f"$SRNAM(16),=CL16'{self.first:<8}{self.second:<8}'"), *self.before]
        for number, argument in sorted(self.arguments.items()):
            made += [Line("LA", f"0,{argument}"), Line("ST", f"0,{ARGUMENTS}+{4 * number}" if number else f"0,{ARGUMENTS}")]
        made += [Line("EXEC", f"CICS LINK PROGRAM('{self.program}') COMMAREA({BLOCK}) LENGTH(=H'{LENGTH}') NOHANDLE"), *called(ROUTINE)]
        resp, second = call.argument("RESP"), call.argument("RESP2")
        made += [Line("MVC", f"{with_length(resp)},$SRRESP")] if resp else []
        made += [Line("XC", f"{with_length(second)},{second}")] if second else []
        made += [Line("L", f"{self.pointer},{ARGUMENTS}")] if self.pointer else []
        return made


def with_length(text: str, length: int = 4) -> str:
    """An address as the first operand of MVC, with a length: X is X(4), 0(5) is 0(4,5)."""
    if not text.endswith(")"):
        return f"{text}({length})"
    first, _, base = text[:-1].rpartition("(")
    return f"{first}({length},{base.rpartition(',')[2]})"


def called(routine: str) -> list[Line]:
    return [Line("L", f"15,=A({routine})"), Line("BALR", "14,15")]


def call_of(statement: Statement, program: Program) -> Call | None:
    if statement.operation != "EXEC" or statement.is_comment or statement.origin.order in program.broken:
        return None
    read = parsed(statement.origin, statement.written())
    command = command_of(joined(read.lines), read.columns.operand)
    if command is None or not command.words or command.units[0].word != "CICS":
        return None
    return Call(read, command, program)
