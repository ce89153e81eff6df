"""Where each statement of a source stands when it is assembled here: the places of instructions, of commands, of constants and of literals,
and which base registers reach them. The source is one that the assembler takes, but for instructions that it hasn't."""
import hashlib
import re
from dataclasses import dataclass, field

from cics.commands import command_of
from cics.constants import item_of, size_of
from cics.expressions import Chain, Kind, Value, read_expression, terms_of, value_of, whole
from cics.instructions import INSTRUCTIONS
from cics.layout import AIDS, OF_COMMANDS, WORKING_STORAGE
from cics.statements import Statement, joined, parsed
from cics.texts import cut, is_decimal

FARTHEST = 4095  # from a base
WORD, CALL, POINTER = 8, 14, 4  # bytes of a command: each word of its list, the call, and what loads a pointer
POINTERS = ("SET", "CWA")
POOL = (8, 4, 2, 1)  # the order of literals in a pool, by what their length is a multiple of


@dataclass
class Section:
    """A section: its place, as a chain of its own, and its counter."""

    chain: Chain
    offset: int = 0

    def value(self) -> Value:
        return Value(self.offset, {self.chain: 1})


@dataclass(frozen=True)
class Base:
    """A register that USING has declared, and the place that it holds."""

    register: int
    place: Value


@dataclass(frozen=True)
class Spot:
    """A statement's place, the one after it, and the bases in use there. `control` is the section's name where it is the control section."""

    begin: Value
    end: Value
    bases: tuple[Base, ...]

    def reaches(self, place: Value) -> bool:
        return any(distance.is_number() and 0 <= distance.number <= FARTHEST
                   for distance in (place.plus(base.place, -1) for base in self.bases))


@dataclass
class Unknown(Exception):
    """What of a source has no size that is known here."""

    statement: Statement

    def why(self) -> str:
        return f"the place of {self.statement.operation} in line {self.statement.origin.number} isn't known before"


class Sizes:
    """The places of statements, by their number in the list, and of symbols and literals."""

    def __init__(self, statements: list[Statement]) -> None:
        self.statements = statements
        self.later: dict[str, Value] = {}  # places of symbols that a USING names before they are defined
        self.is_open = False
        self.place_all(statements)
        if self.is_open:
            self.later = self.symbols
            self.place_all(statements)

    def place_all(self, statements: list[Statement]) -> None:
        self.sections: dict[str, Section] = {}
        self.symbols: dict[str, Value] = {}
        self.lengths: dict[str, int] = {}
        self.spots: dict[int, Spot] = {}
        self.pool: list[str] = []
        self.literals: list[dict[str, Value]] = [{}]  # of each pool
        self.pools: dict[int, int] = {}  # the number of the pool of each statement
        self.bases: dict[int, Value] = {}
        self.control, self.now = "", ""
        self.is_translated = any(one.operation == "EXEC" for one in statements if not one.is_comment)
        for at, statement in enumerate(statements):
            if not statement.is_comment:
                self.place(at, statement)
        if self.control:
            self.now = self.control
            self.put_pool()

    # ---- what is asked

    def value(self, name: str) -> Value | None:
        return self.symbols.get(name)

    def length(self, name: str) -> int | None:
        return self.lengths.get(name)

    def new_length(self, name: str) -> int | None:
        return self.lengths.get(name)

    def evaluated(self, text: str, here: Value | None) -> Value | None:
        expression = whole(text)
        return value_of(expression, self, here) if expression else None

    def literal(self, at: int, text: str) -> Value | None:
        """The place of a literal that a statement has."""
        return self.literals[self.pools.get(at, 0)].get(text)

    def unreached(self, at: int) -> list[str]:
        """The operands of an instruction or command that no base in use reaches."""
        statement, spot = self.statements[at], self.spots.get(at)
        if spot is None or statement.operation not in INSTRUCTIONS and statement.operation != "EXEC":
            return []
        return [text for text in addresses_of(statement) if not self.is_reached(at, text, spot)]

    def is_reached(self, at: int, text: str, spot: Spot) -> bool:
        if text.startswith("="):
            place = self.literal(at, literal_of(text))
        else:
            found = read_expression(text)
            is_based = found is not None and text[found.end :].count(",") == 1 or found is None
            place = None if found is None or is_based else value_of(found.expression, self, spot.begin)
        return place is None or place.is_absolute() or spot.reaches(place)

    # ---- how it is made

    def section(self) -> Section:
        return self.sections[self.now]

    def enter(self, statement: Statement) -> None:
        self.now = statement.name
        is_new = self.now not in self.sections
        if is_new:
            self.sections[self.now] = Section(Chain(self.now, 0, 8))
            self.symbols.setdefault(self.now, self.section().value())
            self.lengths.setdefault(self.now, 1)
        if statement.operation == "DSECT":
            if is_new and self.now == WORKING_STORAGE and self.is_translated:
                self.section().offset = OF_COMMANDS
                for name, offset in (("DFHEIPL", 0), ("DFHEITP", 72), ("DFHEICAP", 76)):
                    self.symbols[name] = Value(offset, {self.section().chain: 1})
                    self.lengths[name] = 4
            return
        if not self.control and self.is_translated:
            self.bases |= {3: Value(0, {Chain(self.now, 0, 8): 1}), 13: Value(0, {Chain(WORKING_STORAGE, 0, 8): 1}),
                           11: Value(0, {Chain("DFHEIBLK", 0, 8): 1})}
        self.control = self.control or self.now

    def align(self, unit: int) -> None:
        section = self.section()
        section.offset += -section.offset % unit

    def define(self, name: str, value: Value, length: int) -> None:
        if name:
            self.symbols.setdefault(name, value)
            self.lengths.setdefault(name, length)

    def place(self, at: int, statement: Statement) -> None:
        operation = statement.operation
        if operation in ("CSECT", "START", "DSECT"):
            self.enter(statement)
        elif operation in ("DS", "DC"):
            self.place_data(at, statement)
        elif operation == "EQU":
            self.equate(at, statement)
        elif operation in INSTRUCTIONS or operation == "EXEC":
            self.place_instruction(at, statement)
        elif operation == "LTORG":
            self.place_pool(at, statement)
        elif operation == "DFHREGS":
            for number in range(16):
                self.define(f"R{number}", Value(number), 1)
        elif operation == "COPY" and statement.operand == "DFHAID":
            for name, code in AIDS.items():
                self.define(name, Value(code), 1)
        elif operation == "USING":
            self.use(statement)
            if self.now in self.sections:
                self.spot(at, self.section().value())
        elif operation == "DROP":
            for text in cut(statement.operand) if statement.operand else [str(number) for number in list(self.bases)]:
                value = self.evaluated(text, None)
                self.bases.pop(value.number if value else -1, None)

    def use(self, statement: Statement) -> None:
        place, *registers = cut(statement.operand)
        value = self.evaluated(place, self.section().value() if self.now in self.sections else None) or self.later_value(place)
        self.is_open = self.is_open or value is None
        for number, text in enumerate(registers):
            register = self.evaluated(text, None)
            if value is not None and register is not None:
                self.bases[register.number] = value.plus(Value(4096 * number), 1)

    def later_value(self, place: str) -> Value | None:
        """A place that is named before it is defined, by the symbols of the pass before."""
        expression, symbols = whole(place), self.symbols
        self.symbols = {**self.later, **symbols}
        value = value_of(expression, self, None) if expression else None
        self.symbols = symbols
        return value

    def spot(self, at: int, begin: Value) -> None:
        self.spots[at] = Spot(begin, self.section().value(), tuple(Base(*one) for one in self.bases.items()))

    def place_instruction(self, at: int, statement: Statement) -> None:
        if self.now not in self.sections:
            raise Unknown(statement)
        self.align(2)
        begin = self.section().value()
        row = INSTRUCTIONS.get(statement.operation)
        self.pools[at] = len(self.literals) - 1
        if row:
            self.section().offset += row.length
            self.define(statement.name, begin, row.length)
        else:
            self.section().offset += self.command_size(statement)
            self.define(statement.name, begin, 2)
        for text in addresses_of(statement):
            if text.startswith("="):
                self.want(literal_of(text))
        self.spot(at, begin)

    def want(self, literal: str) -> None:
        if literal not in self.pool:
            self.pool.append(literal)

    def command_size(self, statement: Statement) -> int:
        words = words_of_command(statement)
        self.want(f"=X'{hashlib.sha256(words.key.encode()).hexdigest()[: 2 * words.block]}'")
        self.want("=V(DFHEI1)")
        return WORD * words.words + CALL + POINTER * words.pointers

    def place_data(self, at: int, statement: Statement) -> None:
        if self.now not in self.sections:
            raise Unknown(statement)
        begin: Value | None = None
        first = 1
        for number, text in enumerate(cut(statement.operand)):
            item = item_of(text)
            if item is None or any(part and not is_decimal(part) for part in (item.duplication, item.modifier)):
                raise Unknown(statement)
            size = size_of(item, int(item.modifier) if item.modifier else None)
            self.align(size.alignment)
            if number == 0:
                begin, first = self.section().value(), size.copy
            self.section().offset += size.copy * int(item.duplication or "1")
        if begin is None:
            raise Unknown(statement)
        self.define(statement.name, begin, first)
        self.spot(at, begin)

    def equate(self, at: int, statement: Statement) -> None:
        here = self.section().value() if self.now in self.sections else None
        expression = whole(statement.operand)
        value = value_of(expression, self, here) if expression else None
        if value is None:
            raise Unknown(statement)
        term = terms_of(expression)[0] if expression else None
        length = self.lengths.get(term.text, 1) if term and term.kind is Kind.SYMBOL else 1
        self.define(statement.name, value, length)
        if here is not None:
            self.spot(at, here)

    def place_pool(self, at: int, statement: Statement) -> None:
        self.now = self.control or self.now
        if self.now not in self.sections:
            raise Unknown(statement)
        if self.pool:
            self.align(8)
        begin = self.section().value()
        self.define(statement.name, begin, 1)
        self.put_pool()
        self.spot(at, begin)

    def put_pool(self) -> None:
        """The literals so far, in their order."""
        if self.pool:
            self.align(8)
        sizes = {text: self.literal_size(text) for text in self.pool}
        placed = self.literals[-1]
        for unit in POOL:
            for text in self.pool:
                if text not in placed and sizes[text] % unit == 0:
                    placed[text] = self.section().value()
                    self.section().offset += sizes[text]
        self.pool = []
        self.literals.append({})

    def literal_size(self, text: str) -> int:
        item = item_of(text[1:])
        if item is None or any(part and not is_decimal(part) for part in (item.duplication, item.modifier)):
            return 8
        return size_of(item, int(item.modifier) if item.modifier else None).copy * int(item.duplication or "1")


def literal_of(text: str) -> str:
    """A literal without an index after it."""
    found = re.fullmatch(r"(=.*\))\(\w+\)|(=.*')\(\w+\)", text)
    return (found[1] or found[2]) if found else text


def addresses_of(statement: Statement) -> list[str]:
    """The operands of a statement that may be addresses."""
    if statement.operation != "EXEC":
        return cut(statement.operand) if statement.operand else []
    return words_of_command(statement).addresses


@dataclass
class Words:
    """What a command's list has: words, pointers to be loaded after it, addresses, and how long its block is; `key` is alike where that is."""

    key: str
    words: int = 1
    pointers: int = 0
    block: int = 3
    addresses: list[str] = field(default_factory=list)


def words_of_command(old: Statement) -> Words:
    statement = parsed(old.origin, old.written())
    command = command_of(joined(statement.lines), statement.columns.operand)
    if command is None:
        raise Unknown(old)
    flags = [f"{unit.word}{'' if unit.argument is None else '()'}" for unit in command.units[command.words :]]
    found = Words(" ".join([command.name, *(flags if command.name.endswith("CONDITION") else sorted(flags))]))
    is_conditions = command.name.endswith("CONDITION")
    for unit in command.units[command.words :]:
        argument = unit.argument
        if is_conditions and unit.word not in ("RESP", "NOHANDLE"):
            found.block += 2
        if argument is None:
            continue
        found.words += 1
        if unit.word in POINTERS:
            found.pointers += 1
        elif argument.startswith("'"):
            found.addresses.append(f"=CL{4 if unit.word in ('TRANSID', 'ABCODE') else 8}{argument.strip()}")
        else:
            found.addresses.append(argument)
    return found
