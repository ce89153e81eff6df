"""Rewritings of the operands of instructions, and of USING and END."""
import re
from dataclasses import dataclass

from cics.data import rewritten_literal
from cics.expressions import Kind, is_plain, leftmost, read_expression, worked_out
from cics.from_cics import advice
from cics.instructions import INSTRUCTIONS, MASKS
from cics.program import Program
from cics.statements import Statement
from cics.texts import closing, cut

# The numbers of conditions, by which DFHRESP stands for them. Those that commands here can't meet are compared with, too.
CONDITIONS = {"NORMAL": 0, "ERROR": 1, "RDATT": 2, "WRBRK": 3, "EOF": 4, "EODS": 5, "EOC": 6, "INBFMH": 7, "ENDINPT": 8, "NONVAL": 9, "NOSTART": 10,
              "TERMIDERR": 11, "DSIDERR": 12, "FILENOTFOUND": 12, "NOTFND": 13, "DUPREC": 14, "DUPKEY": 15, "INVREQ": 16, "IOERR": 17, "NOSPACE": 18,
              "NOTOPEN": 19, "ENDFILE": 20, "ILLOGIC": 21, "LENGERR": 22, "QZERO": 23, "SIGNAL": 24, "QBUSY": 25, "ITEMERR": 26, "PGMIDERR": 27,
              "TRANSIDERR": 28, "ENDDATA": 29, "INVTSREQ": 30, "EXPIRED": 31, "RETPAGE": 32, "RTEFAIL": 33, "RTESOME": 34, "TSIOERR": 35,
              "MAPFAIL": 36, "INVERRTERM": 37, "INVMPSZ": 38, "IGREQID": 39, "OVERFLOW": 40, "INVLDC": 41, "NOSTG": 42, "JIDERR": 43, "QIDERR": 44,
              "NOJBUFSP": 45, "DSSTAT": 46, "SELNERR": 47, "FUNCERR": 48, "UNEXPIN": 49, "NOPASSBKRD": 50, "NOPASSBKWR": 51, "SYSIDERR": 53,
              "ISCINVREQ": 54, "ENQBUSY": 55, "ENVDEFERR": 56, "IGREQCD": 57, "SESSIONERR": 58, "SYSBUSY": 59, "SESSBUSY": 60, "NOTALLOC": 61,
              "CBIDERR": 62, "INVEXITREQ": 63, "INVPARTNSET": 64, "INVPARTN": 65, "PARTNFAIL": 66, "USERIDERR": 69, "NOTAUTH": 70}
RESP = "DFHRESP("
WITHIN = re.compile(r"DFHRESP\(([A-Z]+)\)")


@dataclass(frozen=True)
class Operand:
    """An operand: its statement, its number in it, and its text."""

    statement: Statement
    number: int
    text: str


def without_resp(operand: Operand, program: Program) -> str:
    """DFHRESP(c) as `=F'n'`."""
    name = operand.text[len(RESP) : -1]
    if name in CONDITIONS:
        return f"=F'{CONDITIONS[name]}'"
    program.left(operand.statement.origin, f"{operand.text}: no condition of this name is known")
    return operand.text


def with_numbers_of_resp(text: str) -> str:
    """A text with a number for each DFHRESP(c) of a condition that is known."""
    return WITHIN.sub(lambda found: str(CONDITIONS.get(found[1], found[0])), text)


def worked_part(text: str, operand: Operand, program: Program) -> str:
    """A part in an operand's parentheses."""
    return program.worked(text, program.here(operand.statement), operand.statement.origin) if text else text


def implied_length(operand: Operand, program: Program) -> str:
    """A length in parentheses, where the operand's own is implied and would be another one in the new source."""
    found = read_expression(operand.text)
    row = INSTRUCTIONS.get(operand.statement.operation)
    if found is None or row is None or operand.number not in row.implied:
        return ""
    term = leftmost(found.expression)
    length = program.layout.length(term.text) if term.kind is Kind.SYMBOL else None
    return f"({length})" if length is not None and length != program.layout.new_length(term.text) else ""


def tell_place(literal: Operand, program: Program) -> None:
    """Tells a literal that is the first operand of an instruction."""
    if literal.number == 0:
        write = advice("Assembler statements", "a literal as the first operand")
        program.left(literal.statement.origin, f"{literal.text}: a literal as the first operand{write}")


def tell_unread(operand: Operand, program: Program) -> None:
    """Tells an operand that is no expression with parentheses after it."""
    if operand.statement.operation == "USING":
        program.left(operand.statement.origin, f"USING {operand.text}: no place that can be read here; write: a place alone")
    elif operand.text:
        program.left(operand.statement.origin, f"{operand.text}: no operand that can be read here")


def tell_absolute(operand: Operand, program: Program) -> None:
    """Tells a base that is a number."""
    value = program.layout.evaluated(operand.text, program.here(operand.statement))
    if value is not None and value.is_number():
        program.left(operand.statement.origin, f"USING {operand.text}: an absolute base{advice('Assembler statements', 'USING of an absolute base')}")


def rewritten_operand(operand: Operand, program: Program) -> str:
    text = operand.text
    if RESP in text and not (text.startswith(RESP) and text.endswith(")")):
        text = with_numbers_of_resp(text)
    if text.startswith("="):
        tell_place(operand, program)
        return rewritten_literal(text, operand.statement, program)
    if text.startswith(RESP) and text.endswith(")"):
        return without_resp(operand, program)
    found = read_expression(text)
    rest = text[found.end :] if found else ""
    if found is None or rest and (rest[0] != "(" or closing(rest, 0) != len(rest) - 1):
        tell_unread(operand, program)
        return text
    if operand.statement.operation == "USING" and operand.number == 0:
        tell_absolute(operand, program)
    if rest:
        rest = f"({','.join(worked_part(part, operand, program) for part in cut(rest[1:-1]))})"
    else:
        rest = implied_length(operand, program)
    first = text[: found.end]
    if not is_plain(found.expression, program.layout):
        worked = worked_out(found.expression, program.layout, program.here(operand.statement))
        if worked is None:
            program.left(operand.statement.origin, f"{first}: not all of it is a number that is known before")
        first = worked or first
    return first + rest


def has_expression(old: str, new: str) -> bool:
    """Whether an operand has an expression that was worked out, so that its old text is kept as a remark."""
    is_length_added = new.startswith(old)
    return old != new and not is_length_added and RESP not in old and not old.startswith("=Y")


def rewritten_operands(statement: Statement, program: Program) -> list[Statement]:
    """The operands of an instruction, USING or END, each rewritten; a branch on a register with a name of its own as BCR."""
    old = cut(statement.operand)[: 1 if statement.operation == "END" else None]
    if statement.operation == "END" and old != cut(statement.operand):
        statement = statement.changed(operand=old[0])
    new = [rewritten_operand(Operand(statement, at, text), program) for at, text in enumerate(old)]
    worked = [before for before, after in zip(old, new) if has_expression(before, after)]
    remark = f"{' '.join(worked)} {statement.remark}".strip()
    mask = MASKS.get(statement.operation)
    if mask is not None:
        return [statement.changed(operation="BCR", operand=",".join([str(mask), *new]), remark=remark)]
    return [statement] if old == new else [statement.changed(operand=",".join(new), remark=remark)]
