"""ORG that goes back over DS, to lay other names on a field: the same fields by `DS 0..` in the order of their places."""
from dataclasses import dataclass, replace

from cics.constants import item_of
from cics.expressions import Chain, terms_of, whole
from cics.from_cics import advice
from cics.patches import NotLaidOut, is_last, patched_at, place_of
from cics.program import Program
from cics.statements import Statement, new_statement
from cics.texts import cut

MAY_STAND = {"DS", "EQU", "ORG", "SPACE", "EJECT", "TITLE", "PRINT"}  # statements that an overlay may have
ENDS = {"CSECT", "START", "DSECT", "END"}


@dataclass(frozen=True)
class Field:
    """A DS or EQU of an overlay, with the comments above it; its first place, and the one after its last."""

    statement: Statement
    above: list[Statement]
    begin: int
    end: int


@dataclass(frozen=True)
class Overlay:
    """The statements from the first field that is gone back to, up to the ORG that goes on after all; and the comments under the last
    field."""

    begin: int
    end: int
    fields: list[Field]
    below: list[Statement]


def begin_of_overlay(statements: list[Statement], at: int, chain: Chain, target: int, program: Program) -> int:
    """The first statement that has bytes after the place to which ORG goes back."""
    first = at
    for number in range(at - 1, -1, -1):
        one = statements[number]
        if one.is_comment:
            continue
        if one.operation not in MAY_STAND:
            break
        if one.operation != "DS":
            continue
        placed = program.layout.placed.get(one.origin.order)
        if placed is None or placed.end.places != {chain: 1} or placed.end.number <= target:
            break
        first = number
    return first


def overlay_at(statements: list[Statement], at: int, program: Program) -> Overlay:
    """The overlay whose first ORG this is."""
    placed = program.layout.placed.get(statements[at].origin.order)
    if placed is None:
        raise NotLaidOut("the place to which it goes back isn't known before")
    chain, = placed.begin.places
    end = next((number for number in range(at, len(statements)) if is_last(statements[number]) or statements[number].operation in ENDS),
               len(statements))
    target = min(place_of(one, chain, program).begin.number for one in statements[at:end] if one.operation == "ORG")
    begin = begin_of_overlay(statements, at, chain, target, program)
    if begin == at or place_of(statements[begin], chain, program).begin.number > target:
        raise NotLaidOut("it doesn't go back over DS alone")
    found = Overlay(begin, end, [], [])
    for one in statements[begin:end]:
        add(one, found, chain, program)
    return found


def add(statement: Statement, overlay: Overlay, chain: Chain, program: Program) -> None:
    """Adds a statement to an overlay: a field with what is above it, or what is above the next one."""
    if statement.operation in ("DS", "EQU"):
        placed = place_of(statement, chain, program)
        overlay.fields.append(Field(statement, list(overlay.below), placed.begin.number, placed.end.number))
        overlay.below.clear()
    elif statement.operation == "ORG":
        overlay.below.extend([statement.made_comment()] if program.is_kept else [])
    elif statement.is_comment or statement.operation in MAY_STAND:
        overlay.below.append(statement)
    else:
        raise NotLaidOut(f"{statement.operation} stands in it")


def symbols_of(statement: Statement) -> set[str]:
    expressions = [whole(part) for part in cut(statement.operand)]
    return {term.name() for one in expressions if one for term in terms_of(one)}


def are_defined_above(fields: list[Field]) -> bool:
    """Whether each EQU comes after what it uses."""
    names = [field.statement.name for field in fields]
    return all(field.statement.operation != "EQU" or not symbols_of(field.statement) & set(names[at:]) for at, field in enumerate(fields))


def without_bytes(statement: Statement) -> Statement:
    """A field without bytes: its first item, no times."""
    item = item_of(cut(statement.operand)[0])
    if item is None:
        raise NotLaidOut(f"DS {statement.operand} can't be read")
    return statement.changed(operand=replace(item, duplication="0").text())


def bytes_between(near: Statement, count: int) -> list[Statement]:
    return [new_statement(near, "DS", f"XL{count}")] if count > 0 else []


def laid_in_order(fields: list[Field]) -> list[Statement]:
    """The fields in the order of their places: one has its bytes where the next begins after them, else none; DS XLn is between."""
    ordered = sorted(fields, key=lambda field: field.begin)
    if not are_defined_above(ordered):
        raise NotLaidOut("an EQU in it would come before what it uses")
    found: list[Statement] = []
    at, last = ordered[0].begin, max(field.end for field in ordered)
    for number, field in enumerate(ordered):
        following = ordered[number + 1].begin if number + 1 < len(ordered) else last
        found += [*bytes_between(field.statement, field.begin - at), *field.above]
        at = max(at, field.begin)
        if field.end <= following:
            found.append(field.statement)
            at = field.end
        elif field.statement.name:
            found.append(without_bytes(field.statement))
    return [*found, *bytes_between(ordered[-1].statement, last - at)]


def without_overlays(statements: list[Statement], program: Program) -> list[Statement]:
    """A source without the ORGs that can be written otherwise. One that goes on after all where nothing has gone back changes nothing."""
    found, at, is_back = list(statements), 0, False
    while at < len(found):
        one = found[at]
        at += 1
        if one.operation != "ORG":
            continue
        if is_last(one) and not is_back:
            found[at - 1] = one.made_comment()
            program.log.changed(one.origin, f"ORG {one.operand}".strip(), "a comment")
            continue
        try:
            if is_last(one):
                raise NotLaidOut("it ends one that is left")
            at = put_in_order(found, overlay_at(found, at - 1, program), one, program)
        except NotLaidOut as why:
            after = None if is_last(one) else put_together(found, at - 1, one, program)
            if after is not None:
                at = after
                continue
            is_back = True
            program.left(one.origin, f"ORG {one.operand}".strip() + f": {why}{advice('Assembler statements', 'ORG')}")
    return found


def put_in_order(found: list[Statement], overlay: Overlay, org: Statement, program: Program) -> int:
    """Puts an overlay's fields in order; returns where the source goes on."""
    has_end = overlay.end < len(found) and is_last(found[overlay.end])
    last = [found[overlay.end].made_comment()] if has_end and program.is_kept else []
    made = [*laid_in_order(overlay.fields), *overlay.below, *last]
    for one in found[overlay.begin : overlay.end + has_end]:
        new = next((it for it in made if it.origin.order == one.origin.order and it.name == one.name and it.operation == one.operation), None)
        if one is not org and not one.is_comment and new != one:
            program.log.changed(one.origin, f"{one.operation} {one.operand}".strip(), f"{new.operation} {new.operand}" if new else "nothing")
    found[overlay.begin : overlay.end + has_end] = made
    program.log.changed(org.origin, f"ORG {org.operand}", "the fields in the order of their places, by DS 0.. and DS XLn")
    return overlay.begin + len(made)


def put_together(found: list[Statement], at: int, org: Statement, program: Program) -> int | None:
    """Puts constants together over which an ORG goes back; returns where the source goes on, or nothing where that can't be done."""
    try:
        patched = patched_at(found, at, program)
    except NotLaidOut:
        return None
    found[patched.begin : patched.end] = patched.statements
    program.log.changed(org.origin, f"ORG {org.operand}", "the bytes of all constants, as they are at the end")
    return patched.begin + len(patched.statements)
