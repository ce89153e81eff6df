"""A source as shops have it, rewritten where what is refused here has an exact equivalent."""
from collections.abc import Callable
from dataclasses import dataclass
from typing import Protocol

from cics.areas import rewritten_exec
from cics.bases import with_other_base
from cics.commands import names_of_commands
from cics.copying import Copying, refuse_long
from cics.data import rewritten_data, rewritten_equate, with_addresses_joined
from cics.exact.writing import Written, written_exactly
from cics.from_cics import advice
from cics.instructions import INSTRUCTIONS, STATEMENTS
from cics.layout import Layout
from cics.log import Log
from cics.operands import RESP, rewritten_operands, with_numbers_of_resp
from cics.overlays import without_overlays
from cics.own_macros import Expansion
from cics.plain_lines import tell_broken, without_tabs
from cics.program import Program
from cics.rewritings import Rewritings
from cics.sources import SourceText
from cics.statements import (CONTINUED, MARK, Origin, Statement, comment_of, is_continued, statements_of)
from cics.symbols import tell_undefined
from cics.texts import CODED, is_name

MOST_LINES, MOST_COLUMNS = 10_000, 80
Rewrite = Callable[[Statement, Program], list[Statement]]


class Replacing(Protocol):
    """What stands for commands that aren't here: members of COPY that are made, and statements in their place."""

    def members(self) -> dict[str, list[str]]: ...
    def replaced(self, groups: list[list[Statement]], program: Program) -> list[list[Statement]]: ...
    def finished(self, statements: list[Statement], program: Program) -> None: ...


@dataclass(frozen=True)
class Group:
    """A statement as it was read, and what it becomes."""

    old: Statement
    new: list[Statement]

    def lines(self, *, is_kept: bool) -> list[str]:
        """Its lines; the old ones first, as comments, where they are kept and nothing else shows them."""
        made = [line for one in self.new for line in one.written()]
        is_shown = self.old in self.new or all(one.is_comment for one in self.new)
        kept = [comment_of(line) for line in self.old.lines] if is_kept and not is_shown else []
        return kept + made

    def origins(self, *, is_kept: bool) -> list[Origin]:
        """Of each line the statement that it comes from: of what is done at the program's end for another statement that one."""
        made = [one.origin for one in self.new for _ in one.written()]
        return [self.old.origin] * (len(self.lines(is_kept=is_kept)) - len(made)) + made


@dataclass(frozen=True)
class Adapted:
    """What a source becomes: its statements in groups, and what is told."""

    groups: list[Group]
    log: Log
    is_kept: bool

    def lines(self) -> list[str]:
        return [line for group in self.groups for line in group.lines(is_kept=self.is_kept)]

    def origins(self) -> list[Origin]:
        """Of each line the statement that it comes from."""
        return [origin for group in self.groups for origin in group.origins(is_kept=self.is_kept)]


def rewrite_of(statement: Statement) -> Rewrite | None:
    """The rewriting for a statement's operation."""
    if statement.operation in ("DS", "DC"):
        return rewritten_data
    if statement.operation == "EQU":
        return rewritten_equate
    if statement.operation == "EXEC":
        return rewritten_exec
    return rewritten_operands if statement.operation in INSTRUCTIONS or statement.operation in ("USING", "END") else None


def rewritten(statement: Statement, program: Program) -> list[Statement]:
    """What a statement becomes; a change that the rewriting itself doesn't tell is told by the new text."""
    rewrite = None if statement.is_comment or statement.operation in ("USING", "END") and not statement.operand else rewrite_of(statement)
    if rewrite is None or statement.origin.order in program.broken:
        return [statement]
    is_resp = statement.operation in ("DC", "EQU") and RESP in statement.operand
    new = rewrite(statement.changed(operand=with_numbers_of_resp(statement.operand)) if is_resp else statement, program)
    if new != [statement] and statement.operation != "EXEC":
        texts = [f"{one.operation} {one.operand}" for one in new]
        program.log.changed(statement.origin, f"{statement.operation} {statement.operand}", "; ".join(texts))
    return new


def adapted(source: SourceText, name: str, folders: list[str], *, is_kept: bool = False, stand_ins: Replacing | None = None) -> Adapted:
    refuse_long(source.lines, name)
    log = Log()
    told_of_file(source, name, log)
    read = statements_of(without_tabs(source.lines, name, log), name)
    old = Expansion(log).expanded(Copying(folders, log, stand_ins.members() if stand_ins else {}).expanded(read))
    program = Program(Layout([]), log, is_kept)
    program.broken = tell_broken(old, log)
    macros = Rewritings(program)
    groups = [Group(one, with_told(one, macros, log)) for one in old]
    groups = with_stand_ins(groups, program, stand_ins) if stand_ins else groups
    statements = [one for group in groups for one in group.new]
    program.layout = Layout(statements)
    based = with_other_base(statements, program)
    if based is not statements:
        statements, program.layout = based, Layout(based)
    program.commands = names_of_commands(statements)
    tell_undefined(statements, program)
    statements = with_addresses_joined(statements, program)
    ordered = without_overlays(statements, program)
    found = grouped(ordered, [group.old for group in groups], program)
    exact = written_exactly([group.new for group in found], program)
    result = Adapted([Group(group.old, new) for group, new in zip(found, exact.groups)], log, is_kept)
    tell_left(result, program, exact, name)
    if stand_ins:
        stand_ins.finished([one for group in result.groups for one in group.new], program)
    return result


def with_stand_ins(groups: list[Group], program: Program, stand_ins: Replacing) -> list[Group]:
    """The groups, with what stands for commands that aren't here."""
    statements = [one for group in groups for one in group.new]
    program.layout = Layout(statements)
    program.commands = names_of_commands(statements)
    replaced = stand_ins.replaced([group.new for group in groups], program)
    return [Group(group.old, new) for group, new in zip(groups, replaced)]


def grouped(statements: list[Statement], old: list[Statement], program: Program) -> list[Group]:
    """Statements, each rewritten; those that come from one statement together."""
    found: list[Group] = []
    for one in statements:
        if not found or found[-1].old.origin.order != one.origin.order:
            found.append(Group(old[one.origin.order], []))
        found[-1].new.extend(rewritten(one, program))
    return found


def with_told(statement: Statement, macros: Rewritings, log: Log) -> list[Statement]:
    """What a macro becomes, told."""
    new = [statement] if statement.is_comment else macros.rewritten(statement)
    if new != [statement]:
        last = new[-1]
        text = "a comment" if last.is_comment else f"{last.name} {last.operation} {last.operand}".strip()
        log.changed(statement.origin, f"{statement.operation} {statement.operand}".strip(), text)
    return new


def told_of_file(source: SourceText, name: str, log: Log) -> None:
    if source.is_ebcdic:
        log.changed(Origin(name, 1, 0), "a file of EBCDIC records (cp037)", "lines")
    if source.has_mark:
        log.changed(Origin(name, 1, 0), "a byte order mark in front", "none")
    if source.is_mixed:
        log.changed(Origin(name, 1, 0), "a carriage return at the end of some lines", "none")


# ---- what is left


def tell_left(result: Adapted, program: Program, exact: Written, name: str) -> None:
    """Tells what the new source still has that isn't accepted."""
    control: list[str] = []
    for group in result.groups:
        for one in group.new:
            tell_lines(one, program)
            if not one.is_comment:
                tell_operation(one, program, control, exact)
    operations = [one.operation for group in result.groups for one in group.new if not one.is_comment]
    last = result.groups[-1].old.origin if result.groups else Origin(name, 1, 0)
    if "END" not in operations:
        program.left(last, "there is no END")
    tell_size(result, program)


def tell_size(result: Adapted, program: Program) -> None:
    written = 0
    for group in result.groups:
        written += len(group.lines(is_kept=result.is_kept))
        if written > MOST_LINES:
            program.left(group.old.origin, f"the source has more than {MOST_LINES} lines")
            return


def tell_lines(statement: Statement, program: Program) -> None:
    lines = statement.written()
    for line in lines:
        if line == "/*":
            program.left(statement.origin, "a line /* would end the source's block")
        if len(line) > MOST_COLUMNS:
            program.left(statement.origin, f"more than {MOST_COLUMNS} columns{advice('Lines', 'more than 80 columns')}")
        odd = sorted({character for character in line[: MARK + 1] if character not in CODED})
        if odd:
            shown = ", ".join("a tab" if character == "\t" else f"X'{ord(character):02X}'" for character in odd)
            program.left(statement.origin, f"no EBCDIC code for {shown}{advice('Lines', 'tab characters; characters without a code')}")
    if not statement.is_comment and is_continued(lines[-1]) and statement.origin.order not in program.broken:
        program.left(statement.origin, f"continued, but columns 1 to {CONTINUED} of the next line aren't blank, or there is none")


def tell_operation(statement: Statement, program: Program, control: list[str], exact: Written) -> None:
    """Tells an operation that isn't there, with what to write instead."""
    operation, name = statement.operation, statement.name
    row = INSTRUCTIONS.get(operation)
    if len(name) > 8 and is_name(name[:8]):
        program.left(statement.origin, f"{name}: a name of more than eight characters; write: one of at most eight")
    if operation != operation.upper() or name != name.upper():
        write = advice("Assembler statements", "lower-case names")
        program.left(statement.origin, f"{f'{name} {operation}'.strip()}: small letters{write}")
    elif row is not None and not row.is_known:
        why = exact.why.get(statement.origin.order, "not one of the instructions that are here")
        program.left(statement.origin, f"{operation}: {why}{advice('Instructions', operation)}")
    elif operation in ("CSECT", "START") and control and name not in control:
        program.left(statement.origin, f"{operation} {name}: a second control section{advice('Assembler statements', 'several CSECTs')}")
    elif row is None and operation not in STATEMENTS and operation not in ("ORG", "DFHEIENT", "DFHEIRET"):
        tell_unknown(statement, program)
    if operation in ("CSECT", "START"):
        control.append(name)


def tell_unknown(statement: Statement, program: Program) -> None:
    operation = statement.operation
    write = advice("Assembler statements", operation) or advice("Macros and members", operation) or advice("Instructions", operation)
    text = f"{operation} {statement.operand}".strip() if operation in ("PUSH", "POP", "CNOP") else operation
    program.left(statement.origin, f"{text}: no operation that is here{write}" if operation else "there is no operation")
