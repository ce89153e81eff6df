"""Where the statements of a source as shops have it stand, and what its symbols are: as far as this is known before it is assembled."""
from dataclasses import dataclass, field

from cics.constants import Size, item_of, size_of
from cics.expressions import Chain, Kind, Term, Value, is_plain, leftmost, value_of, whole
from cics.instructions import INSTRUCTIONS
from cics.statements import Statement
from cics.texts import cut

AIDS = {"DFHENTER": 0x7D, "DFHCLEAR": 0x6D, "DFHPA1": 0x6C, "DFHPA2": 0x6E, "DFHPF10": 0x7A, "DFHPF11": 0x7B, "DFHPF12": 0x7C}
AIDS |= {f"DFHPF{number}": 0xF0 + number for number in range(1, 10)}
EIB = {"EIBTIME": 4, "EIBDATE": 4, "EIBTRNID": 4, "EIBTASKN": 4, "EIBTRMID": 4, "EIBCALEN": 2, "EIBAID": 1, "EIBFN": 2, "EIBRCODE": 6,
       "EIBRSRCE": 8, "EIBRESP": 4}
WORKING_STORAGE, OF_COMMANDS = "DFHEISTG", 80  # the section, and what the translator puts at its beginning
NOTHING = {"TITLE", "PRINT", "EJECT", "SPACE", "USING", "DROP", "END"}  # statements after which the place is as before


@dataclass(frozen=True)
class Symbol:
    """A symbol: its value, its length attribute by the assembler's manual, and the one that it has in the new source."""

    value: Value | None
    length: int | None
    new_length: int | None


@dataclass(frozen=True)
class Placed:
    """Where a statement stands: its first byte, the place after its last, and the first byte of each of its items."""

    begin: Value
    end: Value
    items: list[Value] = field(default_factory=list)


@dataclass
class Counter:
    """A section's location counter. `highest` is the highest place of the chain so far, after which ORG without an operand goes on."""

    chain: Chain
    offset: int = 0
    highest: int = 0

    def here(self) -> Value:
        return Value(self.offset, {self.chain: 1})

    def go_to(self, offset: int) -> None:
        self.offset, self.highest = offset, max(self.highest, offset)


class Layout:
    """The places of a source's statements, by their `order`, and its symbols. It is asked while it is made, too."""

    def __init__(self, statements: list[Statement]) -> None:
        self.symbols: dict[str, Symbol] = {}
        self.placed: dict[int, Placed] = {}
        self.counters: dict[str, Counter] = {}
        self.section: str | None = None
        self.chains = 0
        self.bases: dict[int, str] = {}  # the place that each register holds by USING
        self.bases_at: dict[int, dict[int, str]] = {}  # those at constants, by their order
        self.is_translated = any(one.operation == "EXEC" for one in statements)
        for statement in statements:
            if not statement.is_comment:
                self.place(statement)
        if self.is_translated:
            for name, length in EIB.items():
                self.define(name, self.new_chain("DFHEIBLK", 1), length)

    # ---- what is asked

    def value(self, name: str) -> Value | None:
        return self.symbols[name].value if name in self.symbols else None

    def length(self, name: str) -> int | None:
        return self.symbols[name].length if name in self.symbols else None

    def new_length(self, name: str) -> int | None:
        return self.symbols[name].new_length if name in self.symbols else None

    def here(self, statement: Statement) -> Value | None:
        placed = self.placed.get(statement.origin.order)
        return placed.begin if placed else None

    def evaluated(self, text: str, here: Value | None) -> Value | None:
        expression = whole(text)
        return value_of(expression, self, here) if expression else None

    def number(self, text: str, here: Value | None) -> int | None:
        """The number that a decimal or an expression is."""
        value = self.evaluated(text, here)
        return value.number if value and value.is_number() else None

    # ---- how it is made

    def new_chain(self, section: str, alignment: int) -> Value:
        self.chains += 1
        return Value(0, {Chain(section, self.chains, alignment): 1})

    def define(self, name: str, value: Value | None, length: int | None, new_length: int | None = None) -> None:
        if name:
            self.symbols.setdefault(name, Symbol(value, length, length if new_length is None else new_length))

    def counter(self) -> Counter | None:
        return self.counters.get(self.section) if self.section is not None else None

    def begin_chain(self, alignment: int) -> None:
        """What comes next is at a multiple of this, and nothing else is known of its place."""
        if self.section is not None:
            chain, = self.new_chain(self.section, alignment).places
            self.counters[self.section] = Counter(chain)

    def align(self, unit: int) -> None:
        counter = self.counter()
        if counter and counter.chain.alignment % unit == 0:
            counter.go_to(counter.offset + -counter.offset % unit)
        elif counter:
            self.begin_chain(unit)

    def place(self, statement: Statement) -> None:
        operation = statement.operation
        if operation in ("CSECT", "START", "DSECT"):
            self.enter(statement)
        elif operation in ("USING", "DROP"):
            self.use(statement)
        elif operation in ("DS", "DC"):
            self.place_data(statement)
        elif operation == "EQU":
            self.equate(statement)
        elif operation == "ORG":
            self.go_back(statement)
        elif operation == "DFHREGS":
            for number in range(16):
                self.define(f"R{number}", Value(number), 1)
        elif operation == "COPY" and statement.operand == "DFHAID":
            for name, code in AIDS.items():
                self.define(name, Value(code), 1)
        elif operation in INSTRUCTIONS or operation == "EXEC":
            self.place_instruction(statement)
        elif operation not in NOTHING:
            self.begin_chain(8 if operation == "LTORG" else 1)
            self.begin_chain(1)

    def enter(self, statement: Statement) -> None:
        self.section = statement.name
        if self.is_translated and statement.operation != "DSECT" and not self.bases:
            self.bases = {3: statement.name, 13: WORKING_STORAGE, 11: "DFHEIBLK"}
        if self.section in self.counters:
            return
        self.begin_chain(8)
        counter = self.counters[self.section]
        self.define(self.section, counter.here(), 1)
        if self.section == WORKING_STORAGE and self.is_translated:
            counter.go_to(OF_COMMANDS)

    def use(self, statement: Statement) -> None:
        """USING and DROP."""
        operands = cut(statement.operand) if statement.operand else []
        if statement.operation == "DROP":
            for register in [self.number(text, None) for text in operands] if operands else list(self.bases):
                self.bases.pop(-1 if register is None else register, None)
            return
        for at, text in enumerate(operands[1:]):
            register = self.number(text, None)
            if register is not None:
                self.bases[register] = f"{operands[0]}+{4096 * at}" if at else operands[0]

    def place_instruction(self, statement: Statement) -> None:
        self.align(2)
        if counter := self.counter():
            row = INSTRUCTIONS.get(statement.operation)
            self.define(statement.name, counter.here(), row.length if row else 1)
            self.placed[statement.origin.order] = Placed(counter.here(), counter.here())
        self.begin_chain(2)

    def place_data(self, statement: Statement) -> None:
        """The items of a DS or DC; what can't be known of one begins a new chain after it."""
        items: list[Value] = []
        first: int | None = None
        self.bases_at[statement.origin.order] = dict(self.bases)
        for number, text in enumerate(cut(statement.operand)):
            size = self.size(text)
            self.align(size.alignment if size else 1)
            counter = self.counter()
            if counter:
                items.append(counter.here())
            if number == 0 and size:
                first = size.first
            copies = self.copies(text)
            if counter and size and copies is not None:
                counter.go_to(counter.offset + size.copy * copies)
            else:
                self.begin_chain(1)
        after = self.counter()
        if items and after:
            self.placed[statement.origin.order] = Placed(items[0], after.here(), items)
        self.define(statement.name, items[0] if items else None, first)

    def size(self, text: str) -> Size | None:
        item, counter = item_of(text), self.counter()
        if item is None:
            return None
        modifier = self.number(item.modifier, counter.here() if counter else None) if item.modifier else None
        return None if item.modifier and modifier is None else size_of(item, modifier)

    def copies(self, text: str) -> int | None:
        item, counter = item_of(text), self.counter()
        if item is None or not item.duplication:
            return 1 if item else None
        return self.number(item.duplication, counter.here() if counter else None)

    def equate(self, statement: Statement) -> None:
        parts = cut(statement.operand)
        expression, counter = whole(parts[0]), self.counter()
        if expression is None:
            self.define(statement.name, None, None)
            return
        here = counter.here() if counter else None
        term = leftmost(expression)
        length = self.attribute(term, new=False)
        if len(parts) > 1 and parts[1]:
            length = self.number(parts[1], here)
        new_length = self.attribute(term, new=True) if is_plain(expression, self) else 1
        if counter:
            self.placed[statement.origin.order] = Placed(counter.here(), counter.here())
        self.symbols.setdefault(statement.name, Symbol(value_of(expression, self, here), length, new_length))

    def attribute(self, term: Term, *, new: bool) -> int | None:
        """The length attribute of an expression of EQU with this leftmost term."""
        if term.kind is not Kind.SYMBOL:
            return 1
        return self.new_length(term.text) if new else self.length(term.text)

    def go_back(self, statement: Statement) -> None:
        counter = self.counter()
        if counter is None:
            return
        if not statement.operand or statement.operand.startswith(","):
            counter.offset = counter.highest
            return
        value = self.evaluated(statement.operand, counter.here())
        if value and value.places == {counter.chain: 1}:
            counter.go_to(value.number)
            self.placed[statement.origin.order] = Placed(value, value)
        else:
            self.begin_chain(1)
