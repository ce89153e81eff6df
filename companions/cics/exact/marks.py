"""What of a program goes to places of its code, executes, takes or uses them, found by place: through EQU, DS 0H, `+n`, and registers whose
value is known."""
from collections.abc import Iterator
from dataclasses import dataclass, field
from enum import Enum

from cics.bases import changed_by
from cics.exact.held import ADDRESS, BY_REGISTER, Held
from cics.exact.places import BRANCHES, LINKS, based, length_of, number_of, parts_of, texts_of
from cics.exact.sizes import Sizes
from cics.expressions import Kind, Term, Value, leftmost, read_expression, terms_of, value_of
from cics.instructions import INSTRUCTIONS
from cics.layout import WORKING_STORAGE
from cics.program import Program
from cics.statements import Statement
from cics.texts import cut

LARGEST = 2**24  # an address; what is above it in a word is something else
NO_PLACES = {"EQU", "USING", "DROP", "DSECT", "CSECT", "START", "LTORG"}
OF_DATA = set("LH CVB SRL SRA SLL SLA M D MR DR MH SRDA SRDL SLDL SLDA TRT EDMK".split())  # what leaves no place
ADDED_TO = set("A S AH SH AL SL BCTR BCT N O X IC MVCL CLCL BXLE BXH CS CDS".split())  # what changes a register by something in storage or a count
ADDED = set("AR SR ALR SLR XR NR OR LCR LPR LNR".split())  # by a register
LOADED = {"L", "LM", "LR", "LTR", "ICM"}  # what may be a place that was kept
LOADING = LINKS | {"L", "LM", "LR", "LTR", "EXEC"}  # what gives a register a place that is known, or one that was kept


class Way(Enum):
    GOING = "goes to it"
    TAKING = "has its address"
    EXECUTING = "executes it"
    USING = "uses its bytes"
    LENGTH = "uses its length"


VERBS = {Way.GOING: "branches", Way.EXECUTING: "executes", Way.TAKING: "takes an address", Way.USING: "uses bytes of the code"}


@dataclass(frozen=True)
class Mark:
    """A place of the code, as its offset and the one after it, what a statement does with it, and that statement's line."""

    begin: int
    end: int
    way: Way
    line: int


@dataclass(frozen=True)
class Range:
    """Places from an offset on of which a statement means some, it isn't known which."""

    begin: int
    way: Way
    line: int
    why: str


@dataclass
class Marks:
    marks: list[Mark] = field(default_factory=list)
    ranges: list[Range] = field(default_factory=list)
    literal_line: int | None = None  # that of an instruction that takes the address of a literal

    def at(self, begin: int, end: int, *ways: Way) -> Mark | None:
        """A mark in one of these ways that has a byte of a range."""
        return next((one for one in self.marks if one.way in ways and one.begin < end and begin < one.end), None)

    def range_over(self, place: int, way: Way) -> Range | None:
        return next((one for one in self.ranges if one.way is way and one.begin <= place), None)


class Marking:
    """Finds all marks of a program."""

    def __init__(self, statements: list[Statement], sizes: Sizes, held: Held, program: Program) -> None:
        self.statements, self.sizes, self.held, self.program = statements, sizes, held, program
        self.found = Marks()
        self.skips: list[tuple[int, Statement]] = []  # branches so many bytes behind what a register holds
        self.branching: set[int] = set()  # registers by which is branched
        for at, one in enumerate(statements):
            if not one.is_comment and one.operation not in NO_PLACES:
                self.statement(at, one)
            elif one.operation == "EQU" and one.operand:
                self.lengths(one)
        self.computed()

    # ---- operands

    def statement(self, at: int, one: Statement) -> None:
        spot = self.sizes.spots.get(at)
        if one.operation in LINKS and spot is not None:
            self.put(spot.end, 1, Way.TAKING, one)
        if not one.operand:
            return
        self.lengths(one)
        if one.operation == "LA" and cut(one.operand)[-1].startswith("=") and self.is_counted_from(at, one):
            self.found.literal_line = one.origin.number
        if one.operation not in ("DC", "DS"):
            operands = texts_of(one) if one.operation == "EXEC" else cut(one.operand)
            for number, text in enumerate(operands):
                if not text.startswith("="):
                    self.operand(at, one, number, text)
        inside = [text for text in texts_of(one) if one.operation in ("DC", "DS") or "A(" in one.operand]
        for text in inside:
            place = self.expression(at, text)
            if place is not None:
                self.put(place, 1, Way.TAKING, one)

    def is_counted_from(self, at: int, one: Statement) -> bool:
        """Whether a register that has a literal's address is used for bytes behind that literal, or is added to, before it is loaded again."""
        register, size = number_of(cut(one.operand)[0], self.sizes), self.sizes.literal_size(cut(one.operand)[-1])
        for other in self.statements[at + 1 :]:
            if other.is_comment or not other.operand or other.operation not in INSTRUCTIONS:
                continue
            uses = [found.displacement for text in cut(other.operand) if (found := based(text, self.sizes)) and found.base == register]
            if any(displacement >= size for displacement in uses):
                return True
            if register in (changed_by(other, self.program) or ()):
                return other.operation not in LOADING and not (other.operation == "LA" and not uses)
        return False

    def operand(self, at: int, one: Statement, number: int, text: str) -> None:
        way = way_of(one, number)
        if way is None:
            return
        length = length_of(one, number, self.sizes) if way is Way.USING else 1
        parts = parts_of(text)
        first = self.expression(at, text, is_number=True)
        if parts is None or first is None:
            return
        row = INSTRUCTIONS.get(one.operation)
        is_indexed = row is not None and row.length == 4 and not is_shift_like(one, row.implied)
        registers = [part for part in parts if part]
        if not first.is_number():
            self.named(one, text, first, length, way, is_indexed=is_indexed and bool(registers))
        elif registers:
            self.based(at, one, first, parts, length, way)

    def is_in_code(self, text: str) -> bool:
        """Whether an instruction stands at the symbol with which an expression begins."""
        read = read_expression(text)
        first = self.sizes.value(leftmost(read.expression).text) if read else None
        return first is not None and any(spot.begin == first and self.statements[at].operation in INSTRUCTIONS for at, spot in self.sizes.spots.items())

    def named(self, one: Statement, text: str, place: Value, length: int, way: Way, *, is_indexed: bool) -> None:
        if way is Way.EXECUTING and not self.is_code(place) and WORKING_STORAGE not in place.sections():
            # a DSECT may be based on the code
            self.found.ranges.append(Range(0, way, one.origin.number, f"the EX in line {one.origin.number} goes by a register"))
        elif is_indexed and self.is_code(place):
            if way is not Way.USING or self.is_in_code(text):
                self.found.ranges.append(Range(place.number, way, one.origin.number, f"line {one.origin.number} {VERBS[way]} by an index"))
        else:
            self.put(place, length, way, one)

    def based(self, at: int, one: Statement, displacement: Value, parts: list[str], length: int, way: Way) -> None:
        """An operand by registers: a mark where the sum is known, else where it matters a range over all."""
        is_length_first = INSTRUCTIONS[one.operation].length == 6 if one.operation in INSTRUCTIONS else False
        registers = [part for number, part in enumerate(parts) if part and not (is_length_first and number == 0 and len(parts) == 2)]
        values = [self.register_value(at, part) for part in registers]
        known = [value for value in values if value is not None]
        if registers and len(known) == len(values):
            total = displacement
            for value in known:
                total = total.plus(value, 1)
            self.put(total, length, way, one)
        elif way is Way.EXECUTING:
            self.found.ranges.append(Range(0, way, one.origin.number, f"the EX in line {one.origin.number} goes by a register"))
        elif way is Way.GOING:
            self.branch_by_register(one, displacement, registers)

    def register_value(self, at: int, text: str) -> Value | None:
        register = number_of(text, self.sizes)
        if register is None:
            return None
        return Value(0) if register == 0 else self.held.value(at, register)

    def branch_by_register(self, one: Statement, displacement: Value, registers: list[str]) -> None:
        if len(registers) > 1:
            self.found.ranges.append(Range(0, Way.GOING, one.origin.number, f"line {one.origin.number} branches by an index"))
        elif displacement.number:
            self.skips.append((displacement.number, one))
        self.branching |= {number_of(text, self.sizes) or 0 for text in registers}

    def lengths(self, one: Statement) -> None:
        for text in cut(one.operand) if one.operation != "EXEC" else []:
            for term in all_terms(text):
                place = self.sizes.value(term.name()) if term.kind is Kind.LENGTH else None
                if place is not None:
                    self.put(place, 1, Way.LENGTH, one)

    def expression(self, at: int, text: str, *, is_number: bool = False) -> Value | None:
        spot = self.sizes.spots.get(at)
        read = read_expression(text)
        value = value_of(read.expression, self.sizes, spot.begin if spot else None) if read else None
        return None if value is None or value.is_number() and not is_number else value

    def is_code(self, place: Value) -> bool:
        return list(place.sections().items()) == [(self.sizes.control, 1)]

    def put(self, place: Value, length: int, way: Way, one: Statement) -> None:
        if self.is_code(place):
            begin = place.number % LARGEST
            self.found.marks.append(Mark(begin, begin + length, way, one.origin.number))

    # ---- places that are computed

    def computed(self) -> None:
        """Returns that skip: each so far behind each place that a register may have; and registers that are added to."""
        taken = [mark for mark in self.found.marks if mark.way is Way.TAKING]
        for count, one in self.skips:
            self.found.marks += [Mark(mark.begin + count, mark.end + count, Way.GOING, one.origin.number) for mark in taken]
        for one in self.statements:
            if not one.is_comment and one.operation in BY_REGISTER | {"BALR", "BASR", "BCTR"} and one.operand:
                self.branching |= {number_of(cut(one.operand)[-1], self.sizes) or 0}
        branching = self.with_sources(self.branching - {0})
        for at, one in enumerate(self.statements):
            if not one.is_comment and one.operand and self.is_computing(at, one, branching):
                self.found.ranges.append(Range(0, Way.GOING, one.origin.number, f"line {one.origin.number} changes a register by which is branched"))

    def with_sources(self, branching: set[int]) -> set[int]:
        """Registers by which is branched, and those from which these are loaded, also through storage."""
        while True:
            more = set(branching)
            for one in self.statements:
                operands = cut(one.operand) if one.operand and not one.is_comment else []
                first = number_of(operands[0], self.sizes) if len(operands) > 1 else None
                if one.operation in ("LR", "LTR") and first in more:
                    more.add(number_of(operands[1], self.sizes) or 0)
                if one.operation == "L" and first in more and not operands[1].startswith("="):
                    more |= self.stored_in(operands[1])
            if more == branching:
                return branching
            branching = more

    def stored_in(self, text: str) -> set[int]:
        found = set()
        for one in self.statements:
            operands = cut(one.operand) if one.operand and not one.is_comment and one.operation == "ST" else []
            if len(operands) == 2 and operands[1] == text:
                found.add(number_of(operands[0], self.sizes) or 0)
        return found

    def is_computing(self, at: int, one: Statement, branching: set[int]) -> bool:
        """Whether a statement gives one of these registers a place that isn't marked."""
        changed = changed_by(one, self.program)
        if changed is None or not changed & branching or one.operation in LOADING:
            return False
        return not all(self.is_plain(at, one, register) for register in changed & branching)

    def is_plain(self, at: int, one: Statement, register: int) -> bool:
        """Whether what a statement gives a register is no place, or one that is marked."""
        operands = cut(one.operand)
        first, second = (number_of(text, self.sizes) for text in (operands[0], operands[-1]))
        if one.operation in OF_DATA or one.operation in ("SR", "XR", "SLR") and first == second or self.is_of_data_behind(at, register):
            return True
        if one.operation in ("SR", "SLR"):
            return self.is_data(at, first)
        if one.operation in ADDED:
            return self.is_data(at, first) and self.is_data(at, second)
        if one.operation == "ICM" and number_of(operands[1], self.sizes) in (7, 15):
            return True
        if one.operation in ADDED_TO or one.operation == "ICM":
            return self.is_data(at, register)
        if one.operation != "LA" or len(operands) != 2:
            return False
        registers = [part for part in parts_of(operands[1]) or [] if part]
        place = self.expression(at, operands[1])
        if place is not None and registers and self.is_code(place):
            return False
        if self.held.address(at, operands[1]) is not None or not registers:
            return True
        return all(self.is_data(at, number_of(part, self.sizes)) for part in registers)

    def is_of_data_behind(self, at: int, register: int) -> bool:
        """Whether USING says behind a statement that a register addresses something else than the code."""
        spot = next((self.sizes.spots[number] for number in range(at + 1, len(self.statements))
                     if number in self.sizes.spots and self.statements[number].operation in INSTRUCTIONS), None)
        return spot is not None and any(base.register == register and not self.is_code(base.place) for base in spot.bases)

    def is_data(self, at: int, register: int | None) -> bool:
        """Whether a register certainly holds no place, by what stands in front of a statement without a label or a branch to elsewhere between."""
        while register is not None and at > 0 and not self.statements[at].name:
            at -= 1
            one = self.statements[at]
            if one.is_comment:
                continue
            changed = changed_by(one, self.program)
            if one.operation == "EXEC" or one.operation in LINKS or changed is None:
                return False
            if register in changed:
                text = cut(one.operand)[-1]
                is_number = one.operation == "L" and text.startswith("=") and not ADDRESS.fullmatch(text)
                is_place = one.operation == "LA" and self.is_place(at, text)
                return is_number or one.operation not in LOADED and not is_place and self.is_plain(at, one, register)
        return False

    def is_place(self, at: int, text: str) -> bool:
        value = self.held.address(at, text)
        return value is not None and self.is_code(value)


def is_shift_like(one: Statement, implied: tuple[int, ...]) -> bool:
    """Whether what is in parentheses isn't an index: of the formats RS and SI."""
    return one.operation in RS_AND_SI or implied != ()


RS_AND_SI = set("SRL SLL SRA SLA SRDA STM LM STCM ICM TM MVI NI CLI OI SLDL SRDL SLDA BXLE BXH CLM CS CDS LCTL STCTL XI TS STCK".split())


def way_of(one: Statement, number: int) -> Way | None:
    """What a statement does with the place that its operand is."""
    if one.operation == "EXEC":
        return Way.GOING if "HANDLE" in one.operand.split() else Way.USING
    if one.operation == "END":
        return Way.GOING
    row = INSTRUCTIONS.get(one.operation)
    if row is None or row.length == 2:
        return None
    if one.operation in BRANCHES:
        return Way.GOING if number == len(cut(one.operand)) - 1 else None
    if one.operation == "LA":
        return Way.TAKING if number else None
    if one.operation == "EX":
        return Way.EXECUTING if number else None
    if one.operation in ("TR", "TRT") and number == 1:
        return None
    return Way.USING


def all_terms(text: str) -> Iterator[Term]:
    found = read_expression(text.removeprefix("=A").strip("()") if text.startswith("=A(") else text)
    if found is None:
        return
    yield from terms_of(found.expression)
    for part in parts_of(text) or []:
        if part:
            yield from all_terms(part)


def taken_and_used(statements: list[Statement], sizes: Sizes, begin: int, end: int) -> int | None:
    """The line that uses storage by a register into which a place of the code was loaded in front of it, before it is changed."""
    for at, one in enumerate(statements):
        if one.is_comment or one.operation not in ("LA", "L") or not one.operand:
            continue
        register, address = (*cut(one.operand), "")[:2]
        literal = ADDRESS.fullmatch(address)
        text = literal["inside"] if literal else address if one.operation == "LA" else ""
        read = read_expression(text) if text else None
        place = value_of(read.expression, sizes, sizes.spots[at].begin if at in sizes.spots else None) if read else None
        if place is None or place.is_number() or set(place.sections()) != {sizes.control} or not begin <= place.number < end:
            continue
        line = line_by(at, number_of(register, sizes), statements, sizes)
        if line is not None:
            return line
    return None


def line_by(at: int, register: int | None, statements: list[Statement], sizes: Sizes) -> int | None:
    """The line of the first statement behind another that uses storage by a register, before something is loaded into it."""
    for one in statements[at + 1 :]:
        if one.is_comment or not one.operand or one.operation not in INSTRUCTIONS:
            continue
        operands = cut(one.operand)
        bases = [number_of(part, sizes) for text in operands for part in (parts_of(text) or [])[-1:] if part]
        if one.operation not in BRANCHES | {"LA", "EX"} and register in bases:
            return one.origin.number
        if one.operation in ("LA", "L", "LR", "LH") and number_of(operands[0], sizes) == register:
            return None
    return None
