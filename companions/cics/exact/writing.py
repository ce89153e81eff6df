"""A program's instructions that the region hasn't, written exactly: what is written for each, and the routines at the program's end."""
from dataclasses import dataclass, field

from cics.bases import changed_by
from cics.exact import arithmetic, logic, moves, packed
from cics.exact.aids import with_aids
from cics.exact.held import Held, chosen
from cics.exact.marks import Marking, Marks, Way, taken_and_used
from cics.exact.places import changes_base, reason_by_storage
from cics.exact.routines import HEADING, Text, text_for
from cics.exact.site import AFTER, NotExact, Site
from cics.exact.sizes import Sizes, Unknown
from cics.exact.stubs import Joining, Together, Writing, stub_statements, written_at
from cics.instructions import INSTRUCTIONS
from cics.layout import WORKING_STORAGE
from cics.program import Program
from cics.statements import Line, Statement, comment_of, new_comment, new_statement, parsed
from cics.texts import cut

FORMS = {**packed.FORMS, **logic.FORMS, **moves.FORMS, **arithmetic.FORMS}
OPERANDS = {"SRP": 3, "CLM": 3, "CS": 3, "CDS": 3, "BXLE": 3, "BXH": 3, "TS": 1}  # how many instructions have that haven't two
OWN, ADDRESS_OF = "$X", "$@"  # names of what is written begin so; those of routines' addresses
CONTROL = ("CSECT", "START")


@dataclass
class Plan:
    """What is written for each statement, by its number, and why nothing is for others. `far`: stubs that call by an address in a literal, by the
    number of their first statement."""

    lines: dict[int, list[Line]] = field(default_factory=dict)
    refused: dict[int, str] = field(default_factory=dict)
    far: set[int] = field(default_factory=set)
    new_far: set[int] = field(default_factory=set)
    storage: list[str] = field(default_factory=list)  # fields that are needed beside those of routines
    is_split: bool = False  # the routines stand in two parts
    sites: list[Together] = field(default_factory=list)
    fillers: dict[int, int] = field(default_factory=dict)  # bytes behind each LTORG whose literals stand in a stub now

    def refuse(self, at: int, why: str) -> None:
        self.lines.pop(at, None)
        self.refused.setdefault(at, why)

    def routines(self) -> set[str]:
        """The routines that are called, and the names that are used beside them."""
        operands = [part for lines in self.lines.values() for line in lines for part in line.operand.replace("(", ",").split(",")]
        return {name for name in operands if name.startswith(OWN)}


@dataclass(frozen=True)
class Written:
    """The statements of each group, and for each of those that were left why."""

    groups: list[list[Statement]]
    why: dict[int, str]  # by the statement's order


def candidates_of(statements: list[Statement]) -> set[int]:
    rows = [(at, INSTRUCTIONS.get(one.operation)) for at, one in enumerate(statements) if not one.is_comment and one.operation in FORMS]
    return {at for at, row in rows if row is not None and not row.is_known}


def reason_for_all(statements: list[Statement]) -> str | None:
    code = [one for one in statements if not one.is_comment]
    if any(one.name.startswith((OWN, ADDRESS_OF)) for one in code):
        return f"the source has names that begin with {OWN} already; write: adapt the source that they were put into"
    if all(one.operation != "EXEC" for one in code):
        return "a source without EXEC has no working storage"
    if all(one.operation != "END" for one in code) or all(one.operation not in CONTROL for one in code):
        return "there is no END, or no control section"
    return None


def bodies_of(statements: list[Statement], program: Program) -> Plan:
    """What each candidate is written as, without regard to where it stands."""
    candidates, plan = candidates_of(statements), Plan()
    own = frozenset({one.name for one in statements if one.operation in CONTROL and not one.is_comment} | {WORKING_STORAGE, "DFHEIBLK"})
    why = reason_for_all(statements) if candidates else None
    for at in candidates:
        try:
            if why:
                raise NotExact(why)
            site = Site(statements[at], cut(statements[at].operand) if statements[at].operand else [], program, own)
            if any("*" in text and not text.startswith("=") for text in site.operands):
                raise NotExact("an operand has *, the place")
            site.need(OPERANDS.get(statements[at].operation, 2))
            plan.lines[at] = FORMS[statements[at].operation](site)
        except NotExact as fault:
            plan.refuse(at, str(fault))
    return plan


@dataclass
class Found:
    """What is found of a program: where its statements stand, what its registers hold, and what it does with its places."""

    sizes: Sizes
    held: Held
    marks: Marks


def planned(statements: list[Statement], plan: Plan, program: Program) -> Found | None:
    """Takes from a plan what can't be written so, and puts the rest together; nothing where a place isn't known."""
    try:
        sizes = Sizes(statements)
    except Unknown as unknown:
        refuse_all(plan, unknown.why())
        return None
    held = Held(statements, sizes, program)
    found = Found(sizes, held, Marking(statements, sizes, held, program).found)
    for at in list(plan.lines):
        why = reason_at(at, statements, found, program)
        if why is not None:
            plan.refuse(at, why)
    storage = reason_by_storage(statements, sizes, held)
    if storage is not None:
        refuse_all(plan, storage)
    base = next((one for one in statements if not one.is_comment and changes_base(one, sizes)), None)
    if base is not None:
        refuse_all(plan, f"line {base.origin.number} may change register 13, the base of DFHEISTG")
    return found


def reason_at(at: int, statements: list[Statement], found: Found, program: Program) -> str | None:
    """Why a statement has to stay, by what the program does with its place."""
    spot, one = found.sizes.spots.get(at), statements[at]
    if spot is None:
        return "its place isn't known before"
    begin, end = spot.begin.number, spot.end.number
    for way, text in ((Way.EXECUTING, "it is the target of the EX in line {}"), (Way.USING, "its bytes are used in line {}"),
                      (Way.LENGTH, "its length is used in line {}")):
        mark = found.marks.at(begin, end, way)
        if mark is not None:
            return text.format(mark.line)
    within = found.marks.at(begin + 1, end, Way.GOING, Way.TAKING)
    if within is not None:
        return f"line {within.line} means a place within it"
    line = taken_and_used(statements, found.sizes, begin, end)
    if line is not None:
        return f"its bytes may be used in line {line}"
    changed = changed_by(one, program) or set()
    base = next((base.register for base in spot.bases if base.register in changed and found.held.is_code(base.place)), None)
    return None if base is None else f"it changes register {base}, a base of the program"


def by_literal(at: int, statements: list[Statement], found: Found) -> str | None:
    """Why a statement with a literal may not be written exactly: the program takes the address of one, from which it may count."""
    line = found.marks.literal_line
    has_one = any(text.startswith("=") for text in cut(statements[at].operand))
    return f"line {line} has the address of a literal, and its own stands elsewhere" if line is not None and has_one else None


def doubts_of(plan: Plan, found: Found, statements: list[Statement], made: "Made", new: Sizes) -> dict[int, str]:
    """Why it isn't shown that what is written for a statement is exact."""
    doubts: dict[int, str] = {}
    for site in plan.sites:
        for at in site.numbers:
            begin = found.sizes.spots[at].begin.number
            executed = found.marks.range_over(begin, Way.EXECUTING)
            used = found.marks.range_over(begin, Way.USING)
            why = next((one.why for one in (executed, used) if one), None) or site.doubt or by_literal(at, statements, found)
            stub = new.value(made.flat[made.places[site.numbers[0]]].operand) if not site.is_in_place else None
            if stub is not None and why is None:
                register = chosen(found.sizes.spots[at].bases, stub)
                why = found.held.reason(at, register) if register is not None else None
            if why is not None:
                doubts[at] = why
    return doubts


def refuse_all(plan: Plan, why: str) -> None:
    for at in list(plan.lines):
        plan.refuse(at, why)


def near_or_far(lines: list[Line], is_far: bool) -> list[Line]:
    if not is_far:
        return lines
    found: list[Line] = []
    for line in lines:
        is_call = line.operation == "BAL" and line.operand.startswith(f"14,{OWN}")
        found += [Line("L", f"14,{ADDRESS_OF}{line.operand[5:]}"), Line("BALR", "14,14")] if is_call else [line]
    return found


def addresses(writing: Writing) -> list[str]:
    """The addresses of routines by which stubs call them."""
    called = dict.fromkeys(line.operand.partition(",")[2] for stub in writing.stubs for _, line in stub.lines
                           if line.operation == "L" and line.operand.startswith(f"14,{ADDRESS_OF}"))
    return [f"{name:<8} DC    A({OWN}{name.removeprefix(ADDRESS_OF)})" for name in called]


def ending(end: Statement, section: str, text: Text, writing: Writing) -> list[Statement]:
    """What comes in front of END."""
    def lines(*texts: str) -> list[Statement]:
        return [parsed(end.origin, [line.rstrip()]) for line in texts]

    storage = [f"{WORKING_STORAGE:<8} DSECT", *text.storage] if text.storage else []
    routines = [f"{section:<8} CSECT", "         DROP", "         USING DFHEISTG,13", *text.routines] if text.routines else []
    first = [f"{section:<8} CSECT", "         LTORG", *addresses(writing)]
    stubs = [*lines(*first), *stub_statements(writing.stubs, end), *lines("         LTORG")] if writing.stubs else []
    return [new_comment(end, HEADING), *stubs, *lines(*storage, *routines)]


def writing_of(plan: Plan, statements: list[Statement], sizes: Sizes) -> Writing:
    writing = Writing()
    number = 0
    for site in sorted(plan.sites, key=lambda one: one.numbers[0]):
        number += 0 if site.is_in_place else 1
        is_far = site.numbers[0] in plan.far
        written_at(number, site, statements, sizes, {at: near_or_far(lines, is_far) for at, lines in plan.lines.items()}, writing)
    return writing


@dataclass
class Made:
    """What a plan leads to: the statements of each group, all of them, and where each old one stands there."""

    groups: list[list[Statement]]
    flat: list[Statement]
    places: dict[int, int]  # by the old statement's number the new one's, of those that stay and of what is written first for others
    stubs: dict[int, int]  # by the number of a statement of a stub that of the first one of its site


def written_by(groups: list[list[Statement]], plan: Plan, sizes: Sizes | None, program: Program) -> Made:
    """All statements, by a plan."""
    statements = [one for group in groups for one in group]
    section = next((one.name for one in statements if one.operation in CONTROL and not one.is_comment), "")
    needed = text_for(plan.routines(), is_split=plan.is_split)
    writing = writing_of(plan, statements, sizes) if sizes else Writing()
    text = Text([*plan.storage, *needed.storage], needed.routines)
    made = Made([], [], {}, {})
    at, has_ended = 0, False
    for group in groups:
        begin = len(made.flat)
        for one in group:
            if at in writing.at_places:
                made.flat += [new_comment(one, comment_of(line)) for line in one.written()] if not program.is_kept or not writing.at_places[at][1] else []
                name, lines = writing.at_places[at]
                if lines:
                    made.places[at] = len(made.flat)
                made.flat += [new_statement(one, line.operation, line.operand, name if number == 0 else "") for number, line in enumerate(lines)]
            elif one.operation == "END" and not one.is_comment and (text.storage or writing.stubs) and not has_ended:
                made.flat += ending(one, section, text, writing)
                made.places[at] = len(made.flat)
                made.flat.append(one)
                has_ended = True
            else:
                made.places[at] = len(made.flat)
                made.flat.append(one)
                if at in plan.fillers:
                    made.flat.append(new_statement(one, "DS", f"XL{plan.fillers[at]}"))
            at += 1
        made.groups.append(made.flat[begin:])
    return made


def settled(groups: list[list[Statement]], plan: Plan, found: Found | None, program: Program) -> tuple[Made, dict[int, str]]:
    """What is written, with near calls where a base reaches the routine, far ones where it reaches the literal, else none; and the doubts."""
    old = [one for group in groups for one in group]
    while True:
        if found is not None:
            joining = Joining(old, found.sizes, found.marks, program, plan.lines)
            plan.sites = joining.all()
            for at in joining.alone:
                plan.refuse(at, "it has two bytes, and no instruction stands beside it that can be done together with it")
        made = written_by(groups, plan, found.sizes if found else None, program)
        if not plan.lines or found is None:
            return made, {}
        try:
            sizes = Sizes(made.flat)
        except Unknown as unknown:
            refuse_all(plan, unknown.why())
            continue
        if is_changed(plan, old, made, found.sizes, sizes):
            continue
        return made, doubts_of(plan, found, old, made, sizes)


def is_changed(plan: Plan, old: list[Statement], made: Made, before: Sizes, after: Sizes) -> bool:
    """Whether a plan has been changed, since a base doesn't reach something, or something would stand elsewhere."""
    return (is_unreached(plan, made, after) or refuse_far_storage(after, plan) or refuse_rarest(made.flat, after, plan)
            or is_filled(plan, old, made, before, after) or refuse_moved(plan, old, made, before, after))


def refuse_moved(plan: Plan, old: list[Statement], made: Made, before: Sizes, after: Sizes) -> bool:
    """Refuses all, where a statement would stand elsewhere."""
    for at, spot in before.spots.items():
        number = made.places.get(at)
        new = after.spots.get(number) if number is not None else None
        if new is not None and new.begin != spot.begin and plan.lines:
            refuse_all(plan, f"line {old[at].origin.number} would stand elsewhere")
            return True
    return False


def is_filled(plan: Plan, old: list[Statement], made: Made, before: Sizes, after: Sizes) -> bool:
    """Puts as many bytes behind an LTORG as it has less than it had."""
    for at, one in enumerate(old):
        if one.is_comment or one.operation != "LTORG" or at not in before.spots or at in plan.fillers:
            continue
        new = after.spots[made.places[at]]
        less = before.spots[at].end.number - new.end.number
        if less > 0:
            plan.fillers[at] = less
            return True
    return False


def is_unreached(plan: Plan, made: Made, sizes: Sizes) -> bool:
    """Whether a plan has been changed, since a base doesn't reach something that is written."""
    named = {one.name: number for number, one in enumerate(made.flat) if one.name.startswith(OWN) and not one.is_comment}
    away = [(site, made.places[site.numbers[0]]) for site in plan.sites if not site.is_in_place]
    far = [(site, sizes.unreached(at)[0]) for site, at in away if sizes.unreached(at)]
    for site, text in far:
        refuse_site(plan, site, f"no base in use reaches {text}, its stub at the program's end")
    if far:
        return True
    reasons = [(site, unreached_in(named[made.flat[at].operand], site, plan, made, sizes)) for site, at in away]
    is_changed, plan.new_far = bool(plan.new_far), set()
    for site, why in [] if is_changed else reasons:
        if why:
            refuse_site(plan, site, why)
            is_changed = True
    return is_changed


def own_unreached(sizes: Sizes, at: int) -> list[str]:
    """What isn't reached of a statement that is written; the program's own operands have the bases that they had."""
    return [text for text in sizes.unreached(at) if text.startswith((OWN, ADDRESS_OF, "=", "*"))]


def unreached_in(begin: int, site: Together, plan: Plan, made: Made, sizes: Sizes) -> str | None:
    """Why a stub can't be there. A routine that isn't reached is called by its address next time."""
    for number in range(begin, len(made.flat)):
        one = made.flat[number]
        if number > begin and (one.name or one.operation in ("DROP", "LTORG")):
            return None
        unreached = own_unreached(sizes, number)
        if unreached and one.operation == "BAL" and unreached[0].startswith(OWN) and site.numbers[0] not in plan.far:
            plan.new_far.add(site.numbers[0])
            plan.far.add(site.numbers[0])
        elif unreached:
            return f"no base in use reaches {unreached[0]} from the program's end"
    return None


def refuse_site(plan: Plan, site: Together, why: str) -> None:
    for at in site.numbers:
        if at in plan.lines:
            plan.refuse(at, why)


def refuse_rarest(flat: list[Statement], sizes: Sizes, plan: Plan) -> bool:
    """Puts the routines in two parts, where together they are longer than a base reaches; else refuses what calls the one called least."""
    end = next((at for at, one in enumerate(flat) if one.is_comment and one.lines == [HEADING]), len(flat))
    if not any(own_unreached(sizes, at) for at in range(end, len(flat))):
        return False
    if not plan.is_split:
        plan.is_split = True
        return True
    called: dict[str, list[int]] = {}
    for at, lines in plan.lines.items():
        for line in lines:
            if line.operation == "BAL" and line.operand.startswith(f"14,{OWN}"):
                called.setdefault(line.operand[3:], []).append(at)
    if not called:
        return False
    rarest = min(called, key=lambda name: (len(called[name]), name))
    for at in called[rarest]:
        plan.refuse(at, "the routines for all that is called would be longer than a base reaches")
    return True


def refuse_far_storage(sizes: Sizes, plan: Plan) -> bool:
    """Refuses what needs fields of the working storage, where those would be out of reach of register 13."""
    last = max((value.number for name, value in sizes.symbols.items() if name.startswith(OWN) and WORKING_STORAGE in value.sections()), default=0)
    if last + 32 <= 4096:
        return False
    is_changed = False
    for at, lines in list(plan.lines.items()):
        routines = {line.operand[3:] for line in lines if line.operation == "BAL"}
        if routines and text_for(routines).storage:
            plan.refuse(at, f"{WORKING_STORAGE} is so long that register 13 doesn't reach what is put at its end")
            is_changed = True
    return is_changed


def tell_far_fields(statements: list[Statement], program: Program) -> None:
    """Tells that register 13 doesn't reach the fields that are put at the end of the working storage."""
    try:
        sizes = Sizes(statements)
    except Unknown:
        return
    far = [name for name, value in sizes.symbols.items() if name.startswith(OWN) and WORKING_STORAGE in value.sections() and value.number + 4 > 4096]
    if far:
        program.left(statements[-1].origin, f"{WORKING_STORAGE} is so long that register 13 doesn't reach {far[0]}, which is put at its end; write: "
                                            "large fields last, in storage of GETMAIN")


def tell_changes(statements: list[Statement], plan: Plan, doubts: dict[int, str], program: Program) -> None:
    """Tells each statement that is written otherwise, and of which it isn't shown that it is exact."""
    for site in plan.sites:
        for at in site.numbers:
            one, lines = statements[at], plan.lines.get(at)
            routine = next((line.operand[3:] for line in lines or [] if line.operation == "BAL" and OWN in line.operand), None)
            texts = [f"{line.operation} {line.operand}".replace(AFTER, "the place behind") for line in lines or []]
            text = f"a call of {routine}" if routine else "; ".join(texts)
            if lines is None:
                text = "done together with what stands beside it"
            exact = "" if at in doubts or lines is None else ", which is exact"
            program.log.changed(one.origin, f"{one.operation} {one.operand}", text + exact)
            if at in doubts:
                program.log.not_shown(one.origin, doubts[at])


def written_exactly(groups: list[list[Statement]], program: Program) -> Written:
    """The statements of each group, with the instructions that the region hasn't written exactly."""
    groups, storage = with_aids(groups, program)
    statements = [one for group in groups for one in group]
    plan = bodies_of(statements, program)
    plan.storage = [*program.fields, *storage]
    found = planned(statements, plan, program) if plan.lines else None
    made, doubts = settled(groups, plan, found, program)
    tell_changes(statements, plan, doubts, program)
    if not plan.lines and plan.storage:
        tell_far_fields(made.flat, program)
    return Written(made.groups, {(statements[at].origin.order): why for at, why in plan.refused.items()})
