"""Places of a program at which instructions are done elsewhere: a branch as long as they are, to a stub at the program's end, which does them
and branches back behind them."""
from dataclasses import dataclass, field

from cics.bases import changed_by
from cics.exact.marks import Marks, Way
from cics.exact.places import LINKS
from cics.exact.site import AFTER
from cics.exact.sizes import Base, Sizes
from cics.expressions import Value
from cics.instructions import INSTRUCTIONS
from cics.program import Program
from cics.statements import Line, Statement, new_statement
from cics.texts import cut

STUB, PLACE = "$X", "$XP"  # what the names of a stub and of a place without a name begin with, before a number
BRANCH, FILLER = 4, 2  # bytes of B and of NOPR
LINKED = {"BAS", "BASR"}  # done last of what is done together, since the link is the place behind it
STAYING = LINKS | {"EXEC"}  # what isn't done elsewhere, since it takes its own place
ENDING = {"B", "BR"}


@dataclass
class Together:
    """Statements that are done by one stub, by their numbers, one behind the other."""

    numbers: list[int]
    doubt: str | None = None  # why it isn't shown that nothing goes between them
    is_in_place: bool = False  # what is written stands there itself

    def name(self, number: int) -> str:
        return f"{STUB}{number:03d}"


class Joining:
    """Puts instructions of two bytes together with one beside them."""

    def __init__(self, statements: list[Statement], sizes: Sizes, marks: Marks, program: Program, bodies: dict[int, list[Line]]) -> None:
        self.statements, self.sizes, self.marks, self.program, self.bodies = statements, sizes, marks, program, bodies
        self.order = [at for at, one in enumerate(statements) if not one.is_comment]
        self.index = {at: number for number, at in enumerate(self.order)}
        self.sites: list[Together] = []
        self.taken: dict[int, Together] = {}
        self.alone: set[int] = set()  # instructions of two bytes with none beside them

    def length(self, at: int) -> int:
        return INSTRUCTIONS[self.statements[at].operation].length

    def all(self) -> list[Together]:
        for at in sorted(self.bodies):
            if at not in self.taken:
                site = self.site_of(at)
                if site is None:
                    self.alone.add(at)
                    continue
                self.sites = [one for one in self.sites if not set(one.numbers) & set(site.numbers)] + [site]
                self.taken |= {number: site for number in site.numbers}
        return self.sites

    def site_of(self, at: int) -> Together | None:
        if self.length(at) >= BRANCH:
            return Together([at], is_in_place=is_in_place(self.bodies[at], self.length(at)))
        found = [site for site in (self.with_next(at), self.with_last(at)) if site is not None]
        return next((site for site in found if site.doubt is None), found[0] if found else None)

    def with_next(self, at: int) -> Together | None:
        if self.statements[at].operation in LINKED:
            return None
        number = self.index[at] + 1
        after = self.order[number] if number < len(self.order) else None
        if after is None or after in self.taken or not self.is_moved(after) or not self.is_next(at, after):
            return None
        return Together([at, after], self.doubt(after))

    def with_last(self, at: int) -> Together | None:
        number = self.index[at] - 1
        before = self.order[number] if number >= 0 else None
        if before is None or not self.is_moved(before) or not self.is_next(before, at):
            return None
        site = self.taken.get(before)
        if site is None:
            return Together([before, at], self.doubt(at))
        if self.statements[before].operation in LINKED:
            return None
        return Together([*site.numbers, at], site.doubt or self.doubt(at))

    def is_moved(self, at: int) -> bool:
        """Whether a statement may be done elsewhere."""
        one = self.statements[at]
        if one.operation not in INSTRUCTIONS or one.operation in STAYING and at not in self.bodies:
            return False
        if at in self.bodies:
            return True
        spot, changed = self.sizes.spots.get(at), changed_by(one, self.program)
        is_base = spot is None or changed is None or any(base.register in changed for base in spot.bases if self.is_code(base))
        texts = cut(one.operand) if one.operand else []
        has_place = any("*" in text or text.startswith("=") and self.marks.literal_line is not None for text in texts)
        return INSTRUCTIONS[one.operation].is_known and not is_base and not has_place and not self.is_used(at)

    def is_used(self, at: int) -> bool:
        spot = self.sizes.spots[at]
        return self.marks.at(spot.begin.number, spot.end.number, Way.EXECUTING, Way.USING, Way.LENGTH) is not None

    def is_code(self, base: Base) -> bool:
        return set(base.place.sections()) == {self.sizes.control}

    def is_next(self, first: int, second: int) -> bool:
        """Whether nothing stands between two statements, and nothing that is known goes between them."""
        one, other = self.sizes.spots.get(first), self.sizes.spots.get(second)
        if one is None or other is None or one.end != other.begin or self.statements[second].name or one.bases != other.bases:
            return False
        return self.marks.at(other.begin.number, other.begin.number + 1, Way.GOING, Way.TAKING) is None

    def doubt(self, at: int) -> str | None:
        found = self.marks.range_over(self.sizes.spots[at].begin.number, Way.GOING)
        return f"{found.why}, and may go to a place in it" if found else None


def is_in_place(body: list[Line], length: int) -> bool:
    """Whether what is written for an instruction isn't longer than it is."""
    return sum(INSTRUCTIONS[line.operation].length for line in body) <= length


def fillers(count: int) -> list[Line]:
    return [Line("NOPR", "0")] * (count // FILLER)


@dataclass(frozen=True)
class Stub:
    """A stub: its name, the bases in use, and its lines, each with the statement that it is for."""

    name: str
    bases: tuple[Base, ...]
    lines: list[tuple[Statement, Line]]


@dataclass
class Writing:
    """What is written at each place, by the statement's number, and the stubs."""

    at_places: dict[int, tuple[str, list[Line]]] = field(default_factory=dict)  # a name, and lines
    stubs: list[Stub] = field(default_factory=list)


def written_at(number: int, site: Together, statements: list[Statement], sizes: Sizes, bodies: dict[int, list[Line]], writing: Writing) -> None:
    first = site.numbers[0]
    spot, end = sizes.spots[first], sizes.spots[site.numbers[-1]].end
    length = end.number - spot.begin.number
    if site.is_in_place:
        used = sum(INSTRUCTIONS[line.operation].length for line in bodies[first])
        writing.at_places[first] = (statements[first].name, [*bodies[first], *fillers(length - used)])
        return
    name, label = site.name(number), statements[first].name or f"{PLACE}{number:03d}"
    after = f"{label}+{length}"
    writing.at_places[first] = (label, [Line("B", name), *fillers(length - BRANCH)])
    for at in site.numbers[1:]:
        writing.at_places[at] = ("", [])
    lines = [(statements[at], line) for at in site.numbers for line in bodies.get(at, [Line(statements[at].operation, statements[at].operand)])]
    lines = [(one, Line(line.operation, line.operand.replace(AFTER, after))) for one, line in lines]
    if lines[-1][1].operation not in ENDING or statements[site.numbers[-1]].operation in ("BXLE", "BXH"):
        lines.append((statements[site.numbers[-1]], Line("B", after)))
    writing.stubs.append(Stub(name, spot.bases, lines))


def place_text(place: Value) -> str | None:
    """A base's place, as USING has it."""
    if place.is_number():
        return str(place.number)
    if len(place.places) != 1:
        return None
    (chain, weight), = place.places.items()
    return f"{chain.section}+{place.number}" if weight == 1 and place.number else chain.section if weight == 1 and place.number == 0 else None


def stub_statements(stubs: list[Stub], near: Statement) -> list[Statement]:
    """The stubs, with USING of their bases."""
    found: list[Statement] = []
    bases: tuple[Base, ...] | None = None
    for stub in stubs:
        if stub.bases != bases:
            found.append(new_statement(near, "DROP"))
            bases = stub.bases
            found += [new_statement(near, "USING", f"{text},{base.register}") for base in bases if (text := place_text(base.place))]
        found += [new_statement(one, line.operation, line.operand, stub.name if at == 0 else "") for at, (one, line) in enumerate(stub.lines)]
    return found
