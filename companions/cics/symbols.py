"""Symbols that a source uses and doesn't define, as far as this is known before it is assembled."""
from collections.abc import Iterator

from cics.commands import command_of
from cics.exact.aids import FIELD
from cics.expressions import Kind, read_expression, terms_of
from cics.from_cics import advice
from cics.instructions import INSTRUCTIONS, STATEMENTS
from cics.layout import AIDS, EIB, WORKING_STORAGE
from cics.operands import RESP
from cics.program import Program
from cics.statements import Statement, joined, parsed
from cics.texts import cut

OF_EIB = "EIB"  # names of fields of the EIB begin so
GIVEN = {*EIB, "DFHEIPL", "DFHEITP", "DFHEICAP", "DFHEIBLK", "DFHEI1", WORKING_STORAGE}  # by the translator


def names_in(text: str) -> Iterator[str]:
    """The symbols of an operand: of its expression, and of those in its parentheses."""
    if RESP in text:  # told where it is rewritten
        return
    text = text[text.index("A(") + 2 : -1] if text.startswith("=") and "A(" in text and text.endswith(")") else text
    found = None if text.startswith("=") else read_expression(text)
    if found is None:
        return
    yield from (term.name() for term in terms_of(found.expression) if term.kind in (Kind.SYMBOL, Kind.LENGTH))
    if text[found.end : found.end + 1] == "(":
        for part in cut(text[found.end + 1 : -1]):
            yield from names_in(part)


def operands_of(statement: Statement) -> list[str]:
    """What of a statement may name symbols."""
    if statement.operation == "EXEC":
        read = parsed(statement.origin, statement.written())
        command = command_of(joined(read.lines), read.columns.operand)
        units = command.units[command.words :] if command else []
        return [unit.argument for unit in units if unit.argument and unit.argument[0] != "'"]
    if statement.operation in INSTRUCTIONS or statement.operation in ("USING", "DROP", "EQU"):
        return cut(statement.operand) if statement.operand else []
    return []


def tell_later(code: list[Statement], program: Program) -> None:
    """Tells each EQU of a symbol that is defined only below it."""
    above = set(GIVEN)
    for one in code:
        if one.operation == "EQU" and one.operand:
            later = [name for name in names_in(cut(one.operand)[0]) if name in program.layout.symbols and name not in above]
            if later:
                program.left(one.origin, f"{later[0]}: defined only below; write: the EQU after it")
        above |= {one.name} | ({f"R{number}" for number in range(16)} if one.operation == "DFHREGS" else set())
        above |= set(AIDS) if one.operation == "COPY" and one.operand == "DFHAID" else set()


def tell_undefined(statements: list[Statement], program: Program) -> None:
    """Tells the symbols that nothing defines, each once: fields of the EIB that aren't here in any case, others where the source is whole."""
    code = [one for one in statements if not one.is_comment]
    known = STATEMENTS | set(INSTRUCTIONS)
    is_whole = all(one.operation in known and (one.operation != "COPY" or one.operand == "DFHAID") for one in code)
    seen: set[str] = set()
    tell_later(code, program)
    for one in code:
        for name in (name for text in operands_of(one) for name in names_in(text)):
            if name in seen or name in GIVEN or name in program.layout.symbols or name.startswith(FIELD):  # such a field is put in later
                continue
            seen.add(name)
            if name.startswith(OF_EIB):
                write = advice("Fields of the EIB", name) or advice("Fields of the EIB", "those of terminal control")
                program.left(one.origin, f"{name}: no field of the EIB that is here{write}")
            elif is_whole:
                program.left(one.origin, f"{name}: not defined")
