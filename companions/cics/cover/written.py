"""Which statements of a source cics-adapt put in: its routines with the stubs that call them, and what fills an instruction's place behind the
branch to its stub."""
from collections.abc import Iterator, Sequence
from dataclasses import replace

from cics.cover.counts import Covered
from cics.exact.routines import HEADING
from cics.statements import Statement, statements_of

OWN = ("$X", "$S")  # how the names begin that are put in
SECTIONS = ("CSECT", "START", "DSECT")
FILLER = ("NOPR", "0")


def in_routines(statements: Sequence[Statement]) -> Iterator[int]:
    """The lines of the statements behind the comment that stands in front of routines; behind a name that isn't put in they are the user's."""
    is_behind, is_put_in = False, True
    for one in statements:
        is_behind |= one.is_comment and one.lines[0].startswith(HEADING)
        if one.name and one.operation not in SECTIONS:
            is_put_in = one.name.startswith(OWN)
        if is_behind and is_put_in and not one.is_comment:
            yield one.origin.number


def in_places(statements: Sequence[Statement]) -> Iterator[int]:
    """The lines of what stands behind a branch to a stub, which nothing runs."""
    code = [one for one in statements if not one.is_comment]
    for before, one in zip(code, code[1:]):
        if before.operation == "B" and before.operand.startswith(OWN) and (one.operation, one.operand) == FILLER:
            yield one.origin.number


def written_lines(lines: Sequence[str]) -> set[int]:
    """The lines, from 1, whose statements are none of the user's."""
    if not any(line.startswith(HEADING) for line in lines):
        return set()
    statements = statements_of([*lines], "")
    return {*in_routines(statements), *in_places(statements)}


def without_written(one: Covered) -> Covered:
    """A program's counts, but for those of what cics-adapt wrote."""
    written = written_lines(one.source())
    lines = [replace(line, runs=None, branch=None) if at in written else line for at, line in enumerate(one.lines, 1)]
    return replace(one, lines=lines)
