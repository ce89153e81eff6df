"""What the statements of a source do with what another one defines: which ones take a datum's own bytes, and which use the names of a section."""
import re
from collections.abc import Iterable, Sequence

from cics.instructions import INSTRUCTIONS
from cics.statements import Statement
from cics.texts import cut, places_of

SECTIONS = ("CSECT", "START", "DSECT")
NEVER_TAKES = ("LA", "DC", "DS", "EQU", "USING")  # what an address or a value is made of
LONG = 6  # bytes of an instruction whose parentheses have a length, not a register
BY_BYTES = ("TR", "TRT", "EX")  # whose second operand is taken at a place that registers or bytes say
LENGTH_OF = re.compile(r"(?<![A-Z0-9@#$])L'[A-Z@#$][A-Z0-9@#$]*")
WORD = re.compile(r"[A-Z@#$][A-Z0-9@#$]*")


def outside(text: str) -> str:
    """A text without what is in apostrophes, and without lengths of names."""
    bare = LENGTH_OF.sub("", text)
    return "".join(one for one, place in zip(bare, places_of(bare)) if not place.is_text)


def names_in(text: str) -> list[str]:
    return WORD.findall(outside(text))


def takes(one: Statement, names: Iterable[str]) -> bool:
    """Whether a statement that is run takes the bytes at these names wherever it is run: by no register, no address and no other byte."""
    if one.operation == "EXEC":
        return True
    named = [at for at, operand in enumerate(cut(one.operand)) if {*names_in(operand)} & {*names}]
    operands = cut(one.operand)
    instruction = INSTRUCTIONS.get(one.operation)
    is_plain = all("(" not in outside(operands[at]) for at in named) or instruction is not None and instruction.length == LONG
    return one.operation not in NEVER_TAKES and is_plain and not (one.operation in BY_BYTES and 1 in named)


def sections_of(statements: Sequence[Statement]) -> dict[int, str]:
    """The section in which the statement on each line stands; empty before the first."""
    found, section = dict[int, str](), ""
    for one in statements:
        section = one.name if one.operation in SECTIONS else section
        found[one.origin.number] = section
    return found


def base_of(one: Statement, statements: Sequence[Statement]) -> str:
    """The section that a USING makes addressable: the one in which its place is defined, or its own."""
    sections = sections_of(statements)
    name = next(iter(names_in(cut(one.operand)[0])), "")
    line = next((other.origin.number for other in statements if name and other.name == name), one.origin.number)
    return sections[line]
