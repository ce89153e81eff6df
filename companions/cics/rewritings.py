"""Rewritings of statements that shops have and the assembler here hasn't: macros of CICS, of registers, and modes."""
from dataclasses import replace

from cics.from_cics import advice
from cics.program import Program
from cics.statements import Columns, Statement, new_comment, new_statement
from cics.texts import cut, is_decimal

COMMENTS = {"AMODE", "RMODE", "ACONTROL"}  # statements that change nothing here
REGISTERS = {"REGEQU", "EQUREGS", "YREGS"}
BASES = {"CODEREG": "3", "DATAREG": "13", "EIBREG": "11"}  # the registers that hold the bases here, by the options of DFHEIENT


def words_of(statement: Statement) -> list[str]:
    """The operands of a macro, which may go on in another line after a comma and blanks."""
    operand, rest = statement.operand, statement.remark
    while operand.endswith(",") and rest:
        word, _, rest = rest.partition(" ")
        operand, rest = operand + word, rest.lstrip()
    return cut(operand) if operand else []


def entered(statement: Statement, program: Program) -> list[Statement]:
    """`name DFHEIENT` is `name CSECT`, and loads the registers that it names as bases; without a name it is nothing."""
    loaded: list[Statement] = []
    for word in words_of(statement):
        option, _, registers = word.partition("=")
        numbers = [text.removeprefix("R") for text in registers.strip("()").split(",")]
        is_known = option in BASES and all(is_decimal(text) and 2 <= int(text) <= 12 or text == BASES[option] for text in numbers)
        if not is_known or option != "CODEREG" and len(numbers) > 1 or not statement.name and numbers != [BASES[option]]:
            program.left(statement.origin, f"DFHEIENT {word}: no bases that can be loaded here{advice('Macros and members', 'DFHEIENT')}")
            return [statement]
        loaded += bases(statement, option, numbers)
    remark = statement.remark if not statement.operand.endswith(",") else ""
    made = [statement.changed(operation="CSECT", operand="", remark=remark)] if statement.name else [statement.made_comment()]
    return [*made, *loaded]


def bases(statement: Statement, option: str, numbers: list[str]) -> list[Statement]:
    """What loads the registers of an option of DFHEIENT: other ones than those that hold the bases here, and further ones of the program."""
    usual, place = BASES[option], {"CODEREG": statement.name, "DATAREG": "DFHEISTG", "EIBREG": "DFHEIBLK"}[option]
    first, *others = numbers
    made = []
    if first != usual:
        made += [("LR", f"{first},{usual}"), ("USING", f"{place},{first}")]
    for at, number in enumerate(others, 1):
        made += [("LA", f"{number},2048(,{numbers[at - 1]})"), ("LA", f"{number},2048(,{number})"), ("USING", f"{place}+{4096 * at},{number}")]
    if usual not in numbers:
        made.append(("DROP", usual))
    return [new_statement(statement, operation, operand) for operation, operand in made]


def returned(statement: Statement, program: Program) -> list[Statement]:
    """DFHEIRET is EXEC CICS RETURN."""
    if statement.operand:
        program.left(statement.origin, f"DFHEIRET {statement.operand}: RETURN here gives no code back")
        return [statement]
    remark = [new_comment(statement, f"*        {statement.remark}")] if statement.remark else []
    return [*remark, replace(statement.changed(operation="EXEC", operand="CICS RETURN", remark=""), columns=Columns())]


class Rewritings:
    """Rewrites statement after statement; it knows whether DFHEISTG has begun."""

    def __init__(self, program: Program) -> None:
        self.program, self.has_storage = program, False

    def rewritten(self, statement: Statement) -> list[Statement]:
        operation = statement.operation
        if operation == "DSECT" and statement.name == "DFHEISTG":
            self.has_storage = True
        if operation in COMMENTS or operation == "DFHEIEND" or statement.operation in ("PUSH", "POP") and statement.operand == "PRINT":
            return [statement.made_comment()]
        if operation == "DFHEISTG":
            return self.storage(statement)
        if operation == "DFHEIENT":
            return entered(statement, self.program)
        if operation == "DFHEIRET":
            return returned(statement, self.program)
        if operation in REGISTERS:
            return [statement.changed(operation="DFHREGS", operand="")]
        if operation in ("END", "DROP") and statement.operand == ",":
            return [statement.changed(operand="", remark="")]
        return [statement]

    def storage(self, statement: Statement) -> list[Statement]:
        """DFHEISTG alone is `DFHEISTG DSECT`, and nothing where that stands already."""
        if self.has_storage:
            return [statement.made_comment()]
        self.has_storage = True
        return [statement.changed(name="DFHEISTG", operation="DSECT", operand="")]
