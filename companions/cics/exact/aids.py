"""HANDLE AID: a field of the working storage for each key, which HANDLE AID sets, and after each RECEIVE the branch by EIBAID. PUSH HANDLE
keeps the fields in a stack, and clears them; POP HANDLE gets them back."""
from dataclasses import dataclass, field

from cics.commands import AID, Command, command_of
from cics.from_cics import advice
from cics.layout import AIDS
from cics.program import Program
from cics.statements import Line, Statement, joined, new_statement, parsed, written_for

FIELD, ANY = "$XK", "ANYKEY"
CODES = {name.removeprefix("DFH"): code for name, code in AIDS.items()}
WITHOUT = {"NOHANDLE", "RESP"}  # a RECEIVE with one of these goes by no key
PUSH, POP = "PUSH HANDLE", "POP HANDLE"
TOP, STACK, LEVELS = "$XKTOP", "$XKSTK", 16  # how many bytes of the stack are used; the stack; how often PUSH may come before POP, here


@dataclass
class Keys:
    """The keys of a source's HANDLE AID."""

    names: list[str] = field(default_factory=list)
    has_stack: bool = False

    def storage(self) -> list[str]:
        stack = [f"{TOP:<8} DS    F", f"{STACK:<8} DS    {LEVELS}XL{self.size()}"] if self.has_stack else []
        return [*(f"{field_of(name):<8} DS    A" for name in self.names), *stack]

    def size(self) -> int:
        """How many bytes the fields of all keys have, one after the other."""
        return 4 * len(self.names)

    def first(self) -> str:
        return field_of(self.names[0])


def field_of(key: str) -> str:
    return f"{FIELD}{key[:5]}"


def command_in(statement: Statement) -> Command | None:
    if statement.operation != "EXEC" or statement.is_comment:
        return None
    read = parsed(statement.origin, statement.written())
    return command_of(joined(read.lines), read.columns.operand)


def keys_of(statements: list[Statement], program: Program) -> Keys | None:
    """The keys that are handled; none, and told, where the source does what isn't written here."""
    found, handled = Keys(), [(one, command) for one in statements if (command := command_in(one)) and command.name == AID]
    for one, command in handled:
        for unit in command.units[command.words :]:
            if unit.word in CODES or unit.word == ANY:
                found.names += [unit.word] if unit.word not in found.names else []
            elif unit.word not in WITHOUT or unit.argument is not None:
                tell(handled, f"{unit.word}: no key that is known here", program)
                return None
    found.has_stack = PUSH in program.commands
    found.names.sort(key=lambda name: name == ANY)
    return found


def tell(handled: list[tuple[Statement, Command]], why: str, program: Program) -> None:
    for one, _ in handled:
        program.left(one.origin, f"EXEC CICS HANDLE AID: {why}{advice('Commands', AID)}")


def with_aids(groups: list[list[Statement]], program: Program) -> tuple[list[list[Statement]], list[str]]:
    """The statements of each group, and the fields that are needed."""
    keys = keys_of([one for group in groups for one in group], program)
    if not keys or not keys.names:
        return groups, []
    return [[new for one in group for new in with_aid(one, keys, program)] for group in groups], keys.storage()


def with_aid(statement: Statement, keys: Keys, program: Program) -> list[Statement]:
    command = command_in(statement)
    if command is None:
        return [statement]
    options = command.units[command.words :]
    if command.name == AID:
        made = [line for unit in options if unit.word not in WITHOUT for line in set_key(unit.word, unit.argument)]
        program.log.changed(statement.origin, f"EXEC {statement.operand}", "fields that are looked at after RECEIVE")
        return written_for(statement, (Line(*one) for one in made), is_kept=program.is_kept)
    if command.name in (PUSH, POP):
        made = pushed(keys) if command.name == PUSH else popped(keys) if keys.has_stack else []
        if made:
            program.log.changed(statement.origin, f"EXEC {statement.operand}", "itself, and what keeps the fields of HANDLE AID")
        return [statement, *(new_statement(statement, operation, operand) for operation, operand in made)]
    if command.name != "RECEIVE" or any(unit.word in WITHOUT for unit in options):
        return [statement]
    program.log.changed(statement.origin, f"EXEC {statement.operand}", "itself, and branches by EIBAID after it")
    return [statement, *(new_statement(statement, operation, operand) for key in keys.names for operation, operand in by_key(key))]


def set_key(key: str, label: str | None) -> list[tuple[str, str]]:
    name = field_of(key)
    return [("LA", f"0,{label}"), ("ST", f"0,{name}")] if label else [("XC", f"{name},{name}")]


def pushed(keys: Keys) -> list[tuple[str, str]]:
    """The fields onto the stack, and cleared; nothing where it is full, as PUSH HANDLE does nothing then."""
    size, first = keys.size(), keys.first()
    stacked = [("ST", f"0,{TOP}"), ("LA", f"1,{STACK}(1)"), ("MVC", f"0({size},1),{first}"), ("XC", f"{first}({size}),{first}")]
    return [("L", f"1,{TOP}"), ("LA", f"0,{size}(,1)"), ("CH", f"0,=H'{LEVELS * size}'"), ("BH", "*+24"), *stacked]


def popped(keys: Keys) -> list[tuple[str, str]]:
    """The fields back from the stack, where something is on it."""
    size = keys.size()
    return [("L", f"1,{TOP}"), ("SH", f"1,=H'{size}'"), ("BM", "*+18"), ("ST", f"1,{TOP}"), ("LA", f"1,{STACK}(1)"),
            ("MVC", f"{keys.first()}({size}),0(1)")]


def by_key(key: str) -> list[tuple[str, str]]:
    """The branch of a key; ENTER isn't any key."""
    compared = CODES["ENTER"] if key == ANY else CODES[key]
    return [("CLI", f"EIBAID,{compared}"), ("BE" if key == ANY else "BNE", "*+10"), ("ICM", f"1,15,{field_of(key)}"), ("BCR", "7,1")]
