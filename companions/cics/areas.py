"""ADDRESS and ASSIGN of what is known here before: areas that no terminal and no transaction has, the EIB and the COMMAREA."""
from dataclasses import dataclass

from cics.commands import OF_ALL, Command, Unit, command_of, lines_of_command, rewritten_command
from cics.program import Program
from cics.statements import Statement, joined, new_statement, parsed
from cics.texts import is_name

NO_AREA = "=X'FF000000'"  # the address of an area that isn't there
ADDRESSES = {"TCTUA": ("L", NO_AREA), "TWA": ("L", NO_AREA), "EIB": ("LA", "DFHEIBLK"), "COMMAREA": ("L", "DFHEICAP")}
ASSIGNED = {"TCTUALENG": ("(2)", "=H'0'"), "TWALENG": ("(2)", "=H'0'"), "CWALENG": ("(2)", "=H'512'"), "OPID": ("(3)", "=CL3' '")}


@dataclass(frozen=True)
class Known:
    """What is written for options of a command, and those options."""

    lines: list[tuple[str, str]]
    units: list[Unit]


def known_in(statement: Statement, command: Command, program: Program) -> Known:
    """The options of ADDRESS and ASSIGN whose answer is known here."""
    found = Known([], [])
    for unit in command.units[command.words :]:
        argument = unit.argument or ""
        if command.name == "ADDRESS" and unit.word in ADDRESSES and program.layout.number(argument, program.here(statement)) in range(16):
            operation, operand = ADDRESSES[unit.word]
            found.lines.append((operation, f"{argument},{operand}"))
        elif command.name == "ASSIGN" and unit.word in ASSIGNED and is_name(argument):
            length, value = ASSIGNED[unit.word]
            found.lines.append(("MVC", f"{argument}{length},{value}"))
        else:
            continue
        found.units.append(unit)
    return found


def rewritten_exec(old: Statement, program: Program) -> list[Statement]:
    """An EXEC statement, rewritten: what is known of it here is loaded or moved, behind what is left of it."""
    statement = parsed(old.origin, old.written())
    begin = statement.columns.operand
    command = command_of(joined(statement.lines), begin)
    known = known_in(statement, command, program) if command else None
    if command is None or known is None or not known.units:
        return rewritten_command(old, program)
    is_whole = all(unit in known.units or unit.word in OF_ALL - {"RESP"} for unit in command.units[command.words :])
    for unit, (operation, operand) in zip(known.units, known.lines):
        program.log.changed(statement.origin, unit.text(), f"{operation} {operand}, as it is known here")
    named = [statement.name if is_whole and at == 0 else "" for at in range(len(known.lines))]
    made = [new_statement(statement, operation, operand, name) for name, (operation, operand) in zip(named, known.lines)]
    if is_whole:
        return [statement.made_comment(), *made]
    command.units = [unit for unit in command.units if unit not in known.units]
    return [*rewritten_command(statement.with_lines(lines_of_command(statement, command, begin)), program), *made]
