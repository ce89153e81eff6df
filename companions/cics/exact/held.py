"""What registers are known to hold at each statement, and whether a base in use holds the place that USING says."""
import re
from dataclasses import dataclass, field

from cics.bases import changed_by
from cics.exact.places import BRANCHES, LINKS, number_of, parts_of, texts_of
from cics.exact.sizes import Base, Sizes, Spot
from cics.expressions import Value, read_expression, value_of
from cics.instructions import MASKS
from cics.program import Program
from cics.statements import Statement
from cics.texts import cut

ADDRESS = re.compile(r"=A\((?P<inside>[^,]*)\)")
COUNT = re.compile(r"=[FH]'(?P<number>\d{1,5})'")
BY_REGISTER = {"BR", "BCR", *MASKS}
GOING = BRANCHES | BY_REGISTER | LINKS | {"BCTR"}
SIGNS = {"A": 1, "AH": 1, "S": -1, "SH": -1}
ENDING = {"B", "BR"}  # nothing goes on behind them
OF_COMMANDS = (0, 1, 14, 15)  # registers that each command changes


@dataclass
class State:
    """The values that are known, and the bases that don't hold their place, each with the line that changed it."""

    values: dict[int, Value] = field(default_factory=dict)
    wrong: dict[int, int] = field(default_factory=dict)


class Held:
    """What registers hold, in the order of the text: a label makes all values unknown; a base that is in use is taken to hold its place there,
    unless the program goes anywhere while that base holds something else."""

    def __init__(self, statements: list[Statement], sizes: Sizes, program: Program) -> None:
        self.statements, self.sizes, self.program = statements, sizes, program
        self.places: dict[int, list[Value]] = {}  # those that USING says of each register
        self.known: dict[int, dict[int, Value]] = {}
        self.wrong_at: dict[int, dict[int, int]] = {}
        self.spoiled: dict[int, int] = {}
        self.saved: dict[str, dict[int, Value]] = {}
        self.loaded: set[int] = {3, 11, 13}
        for spot in sizes.spots.values():
            for base in spot.bases:
                if self.is_code(base.place) and base.place not in self.places.setdefault(base.register, []):
                    self.places[base.register].append(base.place)
        self.only_kept = kept_alone(statements)
        self.entered = self.named_places()
        self.scan()

    # ---- what is asked

    def reason(self, at: int, register: int) -> str | None:
        """Why a base may not hold its place at a statement."""
        if len(self.places.get(register, [])) > 1:
            return f"register {register}, the base, has another place elsewhere"
        line = self.spoiled.get(register, self.wrong_at.get(at, {}).get(register))
        return None if line is None else f"line {line} changes register {register}, the base"

    def value(self, at: int, register: int) -> Value | None:
        """What a register holds at a statement, where that is known."""
        known = self.known.get(at, {}).get(register)
        if known is not None or register in self.wrong_at.get(at, {}) or register in self.spoiled:
            return known
        spot = self.sizes.spots.get(at)
        return next((base.place for base in spot.bases if base.register == register), None) if spot else None

    def is_code(self, place: Value) -> bool:
        return set(place.sections()) == {self.sizes.control}

    # ---- how it is found

    def named_places(self) -> set[int]:
        """The offsets of all places of the code that operands name."""
        found = set()
        for at, one in enumerate(self.statements):
            spot = self.sizes.spots.get(at)
            for text in texts_of(one) if one.operation not in ("EQU", "USING") else []:
                read = read_expression(text)
                place = value_of(read.expression, self.sizes, spot.begin if spot else None) if read else None
                if place is not None and not place.is_number() and self.is_code(place):
                    found.add(place.number % 2**24)
        return found

    def scan(self) -> None:
        control = next((spot.begin for at, spot in sorted(self.sizes.spots.items()) if self.is_code(spot.begin)), None)
        state = State({3: control.plus(Value(control.number), -1)} if control else {})
        for at, one in enumerate(self.statements):
            spot = self.sizes.spots.get(at)
            if one.is_comment or spot is None or not self.is_code(spot.begin):
                continue
            if spot.begin.number in self.entered:
                state.values = {}
            self.known[at], self.wrong_at[at] = dict(state.values), dict(state.wrong)
            if one.operation == "EXEC" or one.operation in GOING:
                self.goes(spot, state)
            self.step(at, one, spot, state)

    def goes(self, spot: Spot, state: State) -> None:
        in_use = {base.register for base in spot.bases if self.is_code(base.place)} | self.loaded
        for register, line in state.wrong.items():
            if register in in_use:
                self.spoiled.setdefault(register, line)

    def step(self, at: int, one: Statement, spot: Spot, state: State) -> None:
        operands = cut(one.operand) if one.operand else []
        changed = changed_by(one, self.program)
        registers = range(16) if changed is None else changed
        new = {register: self.new_value(at, one, operands, register) for register in registers}
        if one.operation in ("ST", "STM") and len(operands) > 1:
            self.save(at, operands)
        if one.operation in LINKS and operands[1:] not in (["0"], ["R0"]):
            state.values = {}
        for register, value in new.items():
            state.values.pop(register, None)
            if value is not None:
                state.values[register] = value
            if value is not None and self.places.get(register) == [value]:
                state.wrong.pop(register, None)
                self.loaded.add(register)
            elif register in self.places:
                state.wrong[register] = one.origin.number
        if one.operation == "EXEC":
            for register in OF_COMMANDS:
                state.values.pop(register, None)
        if one.operation in ENDING:
            state.values, state.wrong = {}, {}

    def new_value(self, at: int, one: Statement, operands: list[str], register: int) -> Value | None:
        """What a statement puts into a register."""
        if one.operation in LINKS:
            return self.sizes.spots[at].end
        if one.operation in ("L", "LM") and operands[-1] in self.saved:
            return self.saved[operands[-1]].get(register)
        if len(operands) != 2:
            return None
        if one.operation in ("LR", "LTR"):
            source = number_of(operands[1], self.sizes)
            return None if source is None else self.value(at, source)
        if one.operation == "LA":
            return self.address(at, operands[1])
        if one.operation == "L" and (literal := ADDRESS.fullmatch(operands[1])):
            return self.address(at, literal["inside"])
        count = COUNT.fullmatch(operands[1])
        before = self.value(at, register)
        sign = SIGNS.get(one.operation)
        return before.plus(Value(int(count["number"])), sign) if sign and count and before else None

    def address(self, at: int, text: str) -> Value | None:
        """The place that an operand is: an expression, D(B), D(,B) or D(B,)."""
        parts = parts_of(text)
        read = read_expression(text)
        first = value_of(read.expression, self.sizes, self.sizes.spots[at].begin) if read else None
        if parts is None or first is None:
            return None
        registers = [number_of(part, self.sizes) for part in parts if part]
        if not registers:
            return first
        if len(registers) > 1 or registers[0] is None or not first.is_number():
            return None
        base = self.value(at, registers[0])
        return base.plus(first, 1) if base is not None else None

    def save(self, at: int, operands: list[str]) -> None:
        """What is kept in a field that is only used to keep it."""
        first, last, text = number_of(operands[0], self.sizes), number_of(operands[-2], self.sizes), operands[-1]
        if first is None or last is None or text not in self.only_kept:
            return
        registers = [(first + one) % 16 for one in range((last - first) % 16 + 1)]
        self.saved[text] = {one: value for one in registers if (value := self.value(at, one)) is not None}


def kept_alone(statements: list[Statement]) -> set[str]:
    """The fields that one ST or STM stores, and that nothing else uses but L and LM of the same registers."""
    uses: dict[str, list[tuple[str, str]]] = {}
    for one in statements:
        if one.is_comment or not one.operand or one.operation in ("EQU", "USING"):
            continue
        for text in [one.operand] if one.operation == "EXEC" else cut(one.operand):
            read = read_expression(text)
            uses.setdefault(text if read and read.end == len(text) else "", []).append((one.operation, one.operand.partition(",")[0]))
            for name in re.findall(r"[A-Z@#$][A-Z0-9@#$]*", text) if read is None or read.end < len(text) or "+" in text else []:
                uses.setdefault(name, []).append(("", ""))
    return {text for text, found in uses.items()
            if sum(operation in ("ST", "STM") for operation, _ in found) == 1 and {operation for operation, _ in found} <= {"ST", "L", "STM", "LM"}
            and len({register for _, register in found}) == 1}


def chosen(bases: tuple[Base, ...], place: Value) -> int | None:
    """The base by which the assembler addresses a place: the nearest, and of these the one with the highest number."""
    near = [(distance.number, -base.register) for base in bases if (distance := place.plus(base.place, -1)).is_number()]
    reaching = [one for one in near if 0 <= one[0] <= 4095]
    return -min(reaching)[1] if reaching else None
