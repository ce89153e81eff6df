"""A program that changes register 3, which holds its base since it names no other one: the base in a register that it doesn't use."""
from cics.commands import command_of
from cics.expressions import read_expression
from cics.from_cics import advice
from cics.instructions import INSTRUCTIONS
from cics.program import Program
from cics.statements import Statement, joined, new_statement, parsed
from cics.texts import cut

USUAL, OTHERS = 3, (12, 10, 9, 8, 7, 6, 5, 4, 2)  # where the base is, and where it may be instead
CONTROL = ("CSECT", "START")
MOST_LOADED = 4  # registers that LM gives new contents; more are those that were saved
RANGES, PAIRS = {"LM", "STM", "LCTL", "STCTL"}, set("MR M DR D SRDA SRDL SLDL SLDA MVCL CLCL CDS".split())
CHANGED = set("LR LA L LH IC ICM AR A AH SR S SH LCR LTR SRL SLL SRA SLA CVB BAL BALR BCT BCTR XR BAS BASR N O X NR OR AL ALR SL SLR MH LPR LNR CS "
              "BXLE BXH".split())
STORED = set("ST STH STC STCM CVD C CH CL CLM EX".split())
THREE = {"BXLE", "BXH", "CS", "CDS"}  # with two registers in front of the address
IMPLIED = {"TRT": {1, 2}, "EDMK": {1}}  # registers that no operand names
BY_COMMANDS = {"SET", "CWA"}  # options whose argument is a register


def is_absent(statement: Statement) -> bool:
    return statement.is_comment or not statement.operand


def changed_by(statement: Statement, program: Program) -> set[int] | None:
    """The registers that a statement changes; none where one isn't known before."""
    operands = [] if is_absent(statement) else cut(statement.operand)
    operation = statement.operation
    if operation == "EXEC" and operands:
        return numbers_in([argument for word, argument in registers_of(statement) if word in BY_COMMANDS], program)
    if operation in IMPLIED:
        return IMPLIED[operation]
    if operation not in CHANGED | PAIRS | {"LM"} or not operands:
        return set()
    first = program.layout.number(operands[0], None)
    if first is None:
        return None
    if operation == "LM":
        last = program.layout.number(operands[1], None) if len(operands) > 1 else None
        return None if last is None else {(first + at) % 16 for at in range((last - first) % 16 + 1)}
    if operation in PAIRS:
        second = program.layout.number(operands[1], None) if operation in ("MVCL", "CLCL") and len(operands) > 1 else None
        return {first, first + 1, *({second, second + 1} if second is not None else ())}
    return {first}


def named_by(statement: Statement, program: Program) -> set[int] | None:
    """The registers that a statement may use; none where one isn't known before."""
    operation = statement.operation
    if is_absent(statement):
        return set()
    if operation == "EXEC":
        return numbers_in([argument for _, argument in registers_of(statement)], program)
    operands = cut(statement.operand)
    if operation in ("USING", "DROP"):
        return numbers_in(operands[1:] if operation == "USING" else operands, program)
    if operation not in INSTRUCTIONS:
        return set()
    row = INSTRUCTIONS[operation]
    is_first = row.length == 2 or operation in CHANGED | STORED | PAIRS | RANGES
    registers = operands if row.length == 2 else operands[: (1 if is_first else 0) + (operation in RANGES | THREE)]
    based = [part for at, text in enumerate(operands) for part in inside(text)[1 if at in row.implied else 0 :] if part]
    found, changed = numbers_in([*registers, *based], program), changed_by(statement, program)
    if found is None or changed is None:
        return None
    if operation in RANGES and len(operands) > 1:
        first, last = (program.layout.number(text, None) or 0 for text in operands[:2])
        found |= {(first + at) % 16 for at in range((last - first) % 16 + 1)}
    return found | changed | ({number + 1 for number in found} if operation in PAIRS | THREE else set())


def inside(text: str) -> list[str]:
    """What stands in the parentheses of an operand: a base and an index, or a length in front of a base."""
    read = None if text.startswith("=") else read_expression(text)
    return cut(text[read.end + 1 : -1]) if read is not None and text[read.end : read.end + 1] == "(" else []


def registers_of(statement: Statement) -> list[tuple[str, str]]:
    """The arguments of a command that are registers, and the bases in others, each with its option."""
    read = parsed(statement.origin, statement.written())
    command = command_of(joined(read.lines), read.columns.operand)
    given = [(unit.word, unit.argument) for unit in (command.units if command else []) if unit.argument]
    return [(word, part) for word, text in given for part in ([text] if word in BY_COMMANDS else inside(text)) if part]


def numbers_in(texts: list[str], program: Program) -> set[int] | None:
    """The numbers up to 15 that texts are; none where one isn't known before."""
    found = set()
    for text in texts:
        number = program.layout.number(text, None)
        if number is None:
            return None
        found |= {number} if 0 <= number <= 15 else set()
    return found


def with_other_base(statements: list[Statement], program: Program) -> list[Statement]:
    """The statements, with the base in another register where one of them changes register 3; told where there is none."""
    at = next((at for at, one in enumerate(statements) if one.operation in CONTROL and not one.is_comment), None)
    is_translated = any(one.operation == "EXEC" and not one.is_comment for one in statements)
    if at is None or not is_translated or any(has_own_base(one, statements[at].name, program) for one in statements):
        return statements
    is_saved = any(one.operation == "STM" and USUAL in (named_by(one, program) or ()) for one in statements)
    changing = next((one for one in statements if is_changing(one, program, is_saved=is_saved)), None)
    if changing is None:
        return statements
    control, free = statements[at], free_register(statements, program)
    if free is None or not control.name:
        program.left(changing.origin, f"{changing.operation} {changing.operand}: it changes register {USUAL}, the program's base"
                                      f"{advice('Macros and members', 'DFHEIENT, DFHEISTG and DFHEIEND')}")
        return statements
    program.log.changed(control.origin, f"register {USUAL}, the base, which line {changing.origin.number} changes", f"register {free}")
    made = [("LR", f"{free},{USUAL}"), ("USING", f"{control.name},{free}"), ("DROP", str(USUAL))]
    return [*statements[: at + 1], *(new_statement(control, operation, operand) for operation, operand in made), *statements[at + 1 :]]


def is_changing(statement: Statement, program: Program, *, is_saved: bool) -> bool:
    """Whether a statement changes register 3. LM of it with many others, or where STM saves it, loads what it was."""
    changed = changed_by(statement, program) or set()
    return USUAL in changed and not (statement.operation == "LM" and (is_saved or len(changed) > MOST_LOADED))


def has_own_base(statement: Statement, section: str, program: Program) -> bool:
    """Whether a statement says something of register 3 as a base, or makes another one the base of the program's beginning."""
    if statement.is_comment or statement.operation not in ("USING", "DROP"):
        return False
    operands = cut(statement.operand) if statement.operand else []
    registers = operands[1:] if statement.operation == "USING" else operands
    is_of_program = statement.operation == "USING" and operands[:1] in ([section], ["*"])
    return not operands or is_of_program or any(program.layout.number(text, None) in (USUAL, None) for text in registers)


def free_register(statements: list[Statement], program: Program) -> int | None:
    """A register that the program doesn't use."""
    used: set[int] = {0, 1, USUAL, 11, 13, 14, 15}
    for one in statements:
        named = named_by(one, program)
        if named is None:
            return None
        used |= named
    return next((number for number in OTHERS if number not in used), None)
