"""Assembler files as the programs take them: the sources that stand in them one after the other, each for a block of a script."""
from collections.abc import Sequence
from dataclasses import dataclass
from typing import NoReturn

from cics.child import run
from cics.cli import Failure, name_of
from cics.scripts import BLOCK_END, LONGEST
from cics.sources import read_source
from cics.statements import Statement, is_comment_line, statements_of
from cics.texts import is_name

CUT = 100  # bytes of a longer line that are given: it has more columns than a source's line in any case


@dataclass(frozen=True)
class Source:
    """A source in a file: the number of the line before its first one, its lines, and the name of its control section."""

    path: str
    before: int
    lines: list[str]
    name: str

    def block(self, word: str) -> list[str]:
        """The source as a block of a script."""
        return [f"{word} {self.name}", *(line if len(line) <= LONGEST else line[:CUT] for line in self.lines), BLOCK_END]


def section_of(statements: list[Statement]) -> str:
    """The name of the control section; without one, or where it can't be a program's, a name that no source has to have."""
    names = (one.name for one in statements if one.operation in ("CSECT", "START", "DFHEIENT") and is_name(one.name))
    return next(names, "NONAME")


def sources_of_lines(path: str, lines: list[str]) -> list[Source]:
    """Each source up to its END; comments and blank lines after the last END are no source."""
    found: list[Source] = []
    begin = 0
    while begin < len(lines) and (not found or not all(is_comment_line(line) for line in lines[begin:])):
        statements = statements_of(lines[begin:], path)
        ends = (one.origin.number + len(one.lines) - 1 for one in statements if one.operation == "END" and not one.is_comment)
        count = next(ends, len(lines) - begin)
        found.append(Source(path, begin, lines[begin : begin + count], section_of(statements)))
        begin += count
    return found


def refuse_mark(name: str) -> NoReturn:
    raise Failure(f"{name}:1: a byte order mark in front of the text, X'EFBBBF': take it out, as cics-adapt does")


def refuse_block_end(name: str, lines: Sequence[str]) -> None:
    """A line that ends a block would give the rest to the script that the source stands in."""
    for number, line in enumerate(lines, 1):
        if line.removesuffix("\r") == BLOCK_END:
            raise Failure(f"{name}:{number}: a line /* ends the source's block: take it out")


def sources_of_file(path: str) -> list[Source]:
    source, name = read_source(path), name_of(path)
    if source.has_mark:
        refuse_mark(name)
    refuse_block_end(name, source.lines)
    return sources_of_lines(name, source.lines) or [Source(name, 0, [], "NONAME")]


def encoded(lines: list[str]) -> bytes:
    """Lines of a script as bytes, each character one byte."""
    return "".join(f"{line}\n" for line in lines).encode("latin-1", errors="replace")


def run_script(script: list[str], cicslook: str) -> list[str]:
    """What cicslook writes for a script, which must end well."""
    ended = run([cicslook], encoded(script))
    if not ended.is_well():
        raise Failure(f"{cicslook}: {ended.why()}")
    return ended.out.decode("latin-1").rstrip("\n").split("\n")
