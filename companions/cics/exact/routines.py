"""The routines that calls go to: blocks of assembler text, of which a program gets those that it uses."""
import functools
import os
import re
from dataclasses import dataclass, field

from cics.files import read_own

FOLDER = os.path.dirname(os.path.abspath(__file__))
FILES = ("common.asm", "logic.asm", "arithmetic.asm", "moves.asm", "swap.asm", "edit.asm", "decimal.asm")
APART = ("logic.asm", "arithmetic.asm", "moves.asm")  # whose routines need none of the others', so that they may have their own constants
OWN_COPY = "Z"  # at the end of the name of a constant of theirs
BEGIN, COMMENT = "*---- ", "*"
HEADING = "*---- WRITTEN BY CICS-ADAPT"  # in front of what stands at a program's end
ORDER = ("EQUATES", "ROUTINE", "PART", "DATA")  # the order of blocks in a program: a base reaches forward only
CODE = ("ROUTINE", "PART")
NAME = re.compile(r"\$X[A-Z0-9]*")


@dataclass
class Block:
    """A block: its kind, a macro's name, and its lines."""

    kind: str
    name: str
    file: str
    lines: list[str] = field(default_factory=list)

    def defines(self) -> list[str]:
        return [line.split(" ", 1)[0] for line in self.lines if line[0] != " "]

    def uses(self) -> set[str]:
        return {name for line in self.lines for name in NAME.findall(line[len(line.split(" ", 1)[0]) :])}


@functools.cache
def blocks() -> list[Block]:
    """All blocks, with their macros expanded."""
    found: list[Block] = []
    for file in FILES:
        for line in read_own(os.path.join(FOLDER, file)).splitlines():
            if line.startswith(BEGIN):
                kind, _, name = line.removeprefix(BEGIN).partition(" ")
                found.append(Block(kind, name, file))
            elif not line.startswith(COMMENT):
                found[-1].lines.append(line)
    macros = {block.name: block.lines for block in found if block.kind == "MACRO"}
    return [Block(block.kind, block.name, block.file, expanded(block.lines, macros)) for block in found if block.kind != "MACRO"]


def expanded(lines: list[str], macros: dict[str, list[str]]) -> list[str]:
    found: list[str] = []
    for line in lines:
        words = line[9:].split()
        if not words or words[0] not in macros:
            found.append(line)
            continue
        first, *others = macros[words[0]]
        found += [line[:9].rstrip().ljust(9) + first[9:] if line[0] != " " else first, *others]
    return found


def routine_names() -> set[str]:
    """The names of the routines that stubs call."""
    return {name for block in blocks() if block.kind == "ROUTINE" for name in block.defines()[:1]}


@dataclass(frozen=True)
class Text:
    """What a program gets: fields for its working storage, and what comes after its own text."""

    storage: list[str]
    routines: list[str]


def text_for(names: set[str], *, is_split: bool = False) -> Text:
    """The blocks that define these names, and all that they use. `is_split`: in two parts, each with its constants, of which each is shorter
    than a base reaches."""
    taken = closed(names)
    storage = [line for block in taken if block.kind == "STORAGE" for line in block.lines]
    if not is_split:
        return Text(storage, ordered(taken, ORDER))
    first = [block for block in taken if block.file in APART and block.kind in CODE]
    second = [block for block in taken if block.kind in CODE and block not in first]
    equates = [line for block in taken if block.kind == "EQUATES" for line in block.lines]
    return Text(storage, [*equates, *with_copies([*first, *constants(first, taken)]), *ordered([*second, *constants(second, taken)], ORDER)])


def closed(names: set[str]) -> list[Block]:
    where = {name: block for block in blocks() for name in block.defines()}
    wanted, open_names = set(names), list(names)
    while open_names:
        block = where[open_names.pop()]
        new = (block.uses() | set(block.defines())) - wanted
        wanted |= new
        open_names += new
    return [block for block in blocks() if wanted & set(block.defines())]


def ordered(taken: list[Block], kinds: tuple[str, ...]) -> list[str]:
    return [line for kind in kinds for block in taken if block.kind == kind for line in block.lines]


def constants(code: list[Block], taken: list[Block]) -> list[Block]:
    """The constants that blocks use, and those that these use."""
    used = {name for block in code for name in block.uses()}
    data = [block for block in taken if block.kind == "DATA"]
    while more := {name for block in data if used & set(block.defines()) for name in block.uses()} - used:
        used |= more
    return [block for block in data if used & set(block.defines())]


def with_copies(taken: list[Block]) -> list[str]:
    """The lines of blocks, their constants by names of their own."""
    names = {name for block in taken if block.kind == "DATA" for name in block.defines()}
    return [NAME.sub(lambda found: found[0] + OWN_COPY if found[0] in names else found[0], line) if "*" != line[0] else line
            for line in ordered(taken, ORDER)]
