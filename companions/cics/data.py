"""Rewritings of DS, DC, EQU and literals."""
import re
from dataclasses import dataclass, replace

from cics.constants import Item, is_lone_mark, item_of, size_of
from cics.expressions import Kind, Value, is_plain, read_expression, terms_of, value_of, whole, worked_out
from cics.from_cics import advice
from cics.program import Program
from cics.statements import Statement, new_statement
from cics.texts import cut

STATEMENTS = "Assembler statements"
WRITTEN_OUT = "FHPXBAY"  # types of which each value becomes an item
MOST_ITEMS = 4096
DIGITS_OF = {"X": set("0123456789ABCDEF "), "B": set("01 ")}
WHOLE = re.compile(r"[+-]?[0-9]+")


@dataclass(frozen=True)
class Piece:
    """An item of the new source. `is_even`: it has to be put at an even place."""

    item: Item
    is_even: bool = False


@dataclass(frozen=True)
class Context:
    """Where an item stands: its statement, its place, and whether it is a literal."""

    program: Program
    statement: Statement
    here: Value | None
    is_literal: bool = False

    def left(self, text: str) -> None:
        self.program.left(self.statement.origin, text)

    def worked(self, text: str) -> str:
        return self.program.worked(text, self.here, self.statement.origin)


def with_numbers(item: Item, context: Context) -> Item:
    """Duplication, length and values that are expressions, worked out."""
    values = item.values()
    if item.kind in "AY" and values:
        item = item.of(",".join(context.worked(value) for value in values))
    return replace(item, duplication=factor(item.duplication, context), modifier=factor(item.modifier, context))


def factor(text: str, context: Context) -> str:
    """A duplication or length in parentheses as a number."""
    if not text.startswith("("):
        return text
    number = context.program.layout.number(text[1:-1], context.here)
    if number is None or number < 0:
        context.left(f"{text}: not a number that is known before{advice(STATEMENTS, 'duplication')}")
        return text
    return str(number)


def has_star(item: Item) -> bool:
    expressions = [whole(value) for value in item.values()] if item.kind in "AY" else []
    return any(term.kind is Kind.STAR for one in expressions if one for term in terms_of(one))


def own_table(item: Item, context: Context) -> list[Piece] | None:
    """`T DC 256AL1(*-T)`, by its own name: the bytes of all copies; the first one is an item, so that the length attribute stays. It is a
    fullword where the old one is aligned as that."""
    name, copies = context.statement.name, int(item.duplication or "1")
    length = int(item.modifier or ("2" if item.kind == "Y" else "4"))
    expressions = [whole(value) for value in item.values()]
    if not name or any(one is None or all(term.text != name for term in terms_of(one)) for one in expressions):
        return None
    if context.here is None or not 1 <= length * copies * len(expressions) <= MOST_ITEMS:
        return None
    texts = []
    for at in range(copies * len(expressions)):
        here = context.here.plus(Value(length * at), 1)
        expression = expressions[at % len(expressions)]
        value = value_of(expression, context.program.layout, here) if expression else None
        if value is None or not value.is_number():
            return None
        texts.append(f"{value.number % 256**length:0{2 * length}X}")
    first, others = Item("", "X", "", f"'{texts[0]}'"), "".join(texts[1:])
    if item.kind == "A" and not item.modifier:
        first = Item("", "F", "", f"'{int.from_bytes(bytes.fromhex(texts[0]), 'big', signed=True)}'")
    is_even = item.kind == "Y" and not item.modifier
    return [Piece(first, is_even), *([Piece(Item("", "X", "", f"'{others}'"))] if others else [])]


def each_alone(item: Item, context: Context) -> list[Item]:
    """The values of an item as an item each."""
    values = item.values()
    if item.kind not in WRITTEN_OUT or len(values) < 2:
        return [item]
    copies = int(item.duplication or "1")
    if context.is_literal or copies * len(values) > MOST_ITEMS:
        left = "a literal; write: a DC of them" if context.is_literal else f"too many copies{advice(STATEMENTS, 'several values in A')}"
        context.left(f"{item.text()}: several values in {left}")
        return [item]
    if copies == 0:
        return [item.of(values[0])]
    return [replace(item.of(value), duplication="") for value in values * copies]


def with_bases(item: Item, context: Context) -> Item:
    """Type S as the number that base and displacement are, where they are known before; else as it is."""
    values = [base_and_displacement(value, context) for value in item.values()]
    if item.kind != "S" or item.modifier not in ("", "2") or not values or None in values:
        return item
    return replace(item, kind="A" if item.modifier else "Y", value=f"({','.join(map(str, values))})")


def base_and_displacement(value: str, context: Context) -> int | None:
    found = read_expression(value)
    layout = context.program.layout
    if found is None:
        return None
    place = value_of(found.expression, layout, context.here)
    if value[found.end :]:
        base = layout.number(value[found.end + 1 : -1], context.here)
        is_one = place is not None and place.is_number() and base is not None and 0 <= base <= 15 and 0 <= place.number < 4096
        return 4096 * base + place.number if is_one and place is not None and base is not None else None
    rows = []
    for register, text in layout.bases_at.get(context.statement.origin.order, {}).items():
        held = layout.evaluated(text, None)
        if text == "DFHEIBLK":
            continue
        if place is None or held is None:
            return None
        if held.sections() == place.sections():
            distance = place.plus(held, -1)
            if not distance.is_number():
                return None
            rows += [(distance.number, -register)] if 0 <= distance.number < 4096 else []
    return -4096 * min(rows)[1] + min(rows)[0] if rows else None


def without_y(item: Item, is_ds: bool) -> Piece:
    """Type Y: H in a DS, AL2 at an even place in a DC or literal; YLn is ALn."""
    if item.kind != "Y":
        return Piece(item)
    if item.modifier:
        return Piece(replace(item, kind="A"))
    return Piece(replace(item, kind="H", value="")) if is_ds else Piece(replace(item, kind="A", modifier="2"), True)


def is_refused(item: Item, context: Context) -> bool:
    """Whether an item can't be written here; told, with what to write."""
    is_dc = context.is_literal or context.statement.operation == "DC"
    length = 2 if item.kind == "Y" and not item.modifier else int(item.modifier or "4")
    if item.kind == "V" and item.value != "(DFHEI1)" and is_dc:
        context.left(f"{item.text()}: the address of another program; write: EXEC CICS LINK PROGRAM('{item.value[1:-1]}')")
        return True
    if item.kind == "V" and item.modifier and is_dc:
        context.left(f"{item.text()}: an address in {item.modifier} bytes{advice(STATEMENTS, 'a place in fewer')}")
        return True
    if item.kind in "AY" and any(is_no_place(value, context) for value in item.values()):
        context.left(f"{item.text()}: no place, but a sum or a difference of several")
        return True
    if item.kind in "ESZQL" or item.kind == "D" and is_dc:
        context.left(f"{item.text()}: type {item.kind}{advice(STATEMENTS, 'types D')}")
        return True
    if item.kind in "AY" and length < 4 and any(context.program.is_place(value, context.here) for value in item.values()):
        context.left(f"{item.text()}: a place in fewer than four bytes{advice(STATEMENTS, 'a place in fewer')}")
        return True
    if item.kind in "FHP" and not all(WHOLE.fullmatch(value) for value in item.values()):
        context.left(f"{item.text()}: not a whole number{advice(STATEMENTS, 'a point or an exponent')}")
        return True
    if item.kind in DIGITS_OF and not all(set(value) <= DIGITS_OF[item.kind] for value in item.values()):
        context.left(f"{item.text()}: a digit that is none")
        return True
    if item.kind == "C" and is_lone_mark(with_pairs(item.value[1:-1])):
        context.left(f"{item.text()}: an ampersand or apostrophe alone in a text; write: two of them")
        return True
    return False


def is_no_place(text: str, context: Context) -> bool:
    """Whether an expression is neither a number nor one place and a number."""
    value = context.program.layout.evaluated(text, context.here)
    return value is not None and list(value.sections().values()) not in ([], [1])


def with_pairs(text: str) -> str:
    """A text between apostrophes with two ampersands for each that stands alone."""
    return text.replace("&&", "&").replace("&", "&&")


def without_lone(item: Item) -> Item:
    return item.of(with_pairs(item.value[1:-1])) if item.kind == "C" and item.value else item


def starred(old: Item, context: Context) -> list[Piece]:
    """An item with `*` in a duplicated value, or in one of several that are worked out."""
    item = replace(old, duplication=factor(old.duplication, context), modifier=factor(old.modifier, context))
    is_dc = context.statement.operation == "DC" and not context.is_literal
    table = own_table(item, context) if is_dc and "(" not in item.duplication + item.modifier else None
    if table is None:
        context.left(f"{old.text()}: a duplicated place: each copy is alike here{advice(STATEMENTS, '* in a duplicated constant')}")
    return table or [Piece(old)]


def is_starred(item: Item, context: Context) -> bool:
    is_several = any(is_worked(value, context.program) for value in item.values()) and len(item.values()) > 1
    return has_star(item) and (item.duplication not in ("", "1") or is_several)


def pieces_of(text: str, context: Context) -> list[Piece]:
    """What an item becomes."""
    old = item_of(text)
    if old is None:
        context.left(f"{text}: no item that can be read here{advice(STATEMENTS, 'types D')}")
        return []
    if is_starred(old, context):
        return starred(old, context)
    item = with_bases(without_lone(with_numbers(old, context)), context)
    if "(" in item.duplication + item.modifier or is_refused(item, context):
        return [Piece(item)]
    is_ds = context.statement.operation == "DS" and not context.is_literal
    return [without_y(one, is_ds) for one in each_alone(item, context)]


def rewritten_data(statement: Statement, program: Program) -> list[Statement]:
    """DS and DC: each item rewritten; before one that has to be at an even place comes `DS 0H`."""
    placed = program.layout.placed.get(statement.origin.order)
    groups: list[list[Piece]] = [[]]
    has_worked = False
    texts = cut(statement.operand)
    for at, text in enumerate(texts):
        here = placed.items[at] if placed and at < len(placed.items) else None
        context = Context(program, statement, here)
        if at and three_bytes_after(texts[at - 1], text, context):
            continue
        joined = three_bytes_after(text, texts[at + 1], context) if at + 1 < len(texts) else None
        if joined and at == 0 and statement.name:
            return named_apart(statement, program)
        pieces = [Piece(joined)] if joined else pieces_of(text, context)
        if not pieces:
            return [statement]
        old = item_of(text)
        has_worked = has_worked or bool(old) and any(is_worked(part, program) for part in parts_of(old))
        for piece in pieces:
            if piece.is_even and groups[-1] and not groups[-1][-1].is_even:
                groups.append([])
            groups[-1].append(piece)
    made = [",".join(piece.item.text() for piece in group) for group in groups]
    if made == [statement.operand] and not groups[0][0].is_even:
        return [statement]
    return with_even_places(statement, groups, made, statement.operand if has_worked else "")


def three_bytes_after(first: str, second: str, context: Context) -> Item | None:
    """A byte, and the three bytes of a place after it, as the four bytes of the place and a multiple of 16,777,216."""
    byte, place = item_of(first), item_of(second)
    if context.statement.operation != "DC" or byte is None or place is None or byte.duplication or place.duplication:
        return None
    if place.kind != "A" or place.modifier != "3" or not context.program.is_place(place.value[1:-1], context.here):
        return None
    number = number_of_byte(byte, context)
    expression = whole(place.value[1:-1])
    if number is None or expression is None or not is_plain(expression, context.program.layout) or has_star(place):
        return None
    return Item("", "A", "4", f"({place.value[1:-1]}+{number * 2**24})")


def with_addresses_joined(statements: list[Statement], program: Program) -> list[Statement]:
    """The statements, with the three bytes of a place joined to a byte in the DC just above, so that both are written as four."""
    found: list[Statement] = []
    for one in statements:
        above = found[-1] if found else None
        if above is not None and is_joined(above, one, program):
            program.log.changed(one.origin, f"DC {one.operand}", "joined to the DC above")
            found[-1] = above.changed(operand=f"{above.operand},{one.operand}")
            found.append(one.made_comment())
        else:
            found.append(one)
    return found


def is_joined(above: Statement, below: Statement, program: Program) -> bool:
    if above.is_comment or below.is_comment or above.operation != "DC" or below.operation != "DC" or below.name or not above.operand:
        return False
    return three_bytes_after(cut(above.operand)[-1], cut(below.operand)[0], Context(program, below, program.here(below))) is not None


def number_of_byte(item: Item, context: Context) -> int | None:
    """The number that an item of one byte has."""
    values = item.values()
    if len(values) != 1 or item.modifier not in ("", "1"):
        return None
    if item.kind == "A" and item.modifier:
        number = context.program.layout.number(values[0], context.here)
        return None if number is None else number % 256
    expression = whole(f"{item.kind}'{item.value[1:-1]}'") if item.kind in "XBC" else None
    value = value_of(expression, context.program.layout, None) if expression else None
    return value.number if value and value.number < 256 and (item.modifier or size_of(item, None).copy == 1) else None


def named_apart(statement: Statement, program: Program) -> list[Statement]:
    """The name on a DS of no bytes with its length attribute, and the constants after it."""
    length = program.layout.new_length(statement.name) or 1
    return [new_statement(statement, "DS", f"0XL{length}", statement.name), *rewritten_data(statement.changed(name=""), program)]


def parts_of(item: Item | None) -> list[str]:
    """What an item has that may be an expression to be worked out."""
    return [item.duplication, item.modifier, *(item.values() if item.kind in "AY" else [])] if item else []


def is_worked(text: str, program: Program) -> bool:
    expression = whole(text)
    return expression is not None and not is_plain(expression, program.layout)


def with_even_places(statement: Statement, groups: list[list[Piece]], made: list[str], old: str) -> list[Statement]:
    found: list[Statement] = []
    for at, operand in enumerate(made):
        if groups[at][0].is_even:
            found.append(new_statement(statement, "DS", "0H"))
        if at == 0:
            found.append(statement.changed(operand=operand, remark=f"{old} {statement.remark}".strip()))
        else:
            found.append(new_statement(statement, statement.operation, operand))
    return found


def rewritten_literal(text: str, statement: Statement, program: Program) -> str:
    """A literal with its sign."""
    pieces = pieces_of(text[1:], Context(program, statement, program.here(statement), is_literal=True))
    return f"={pieces[0].item.text()}" if pieces else text


def rewritten_equate(statement: Statement, program: Program) -> list[Statement]:
    """EQU: its expression worked out, and without the length attribute that it gives; what uses that is rewritten by itself."""
    first, *others = cut(statement.operand)
    expression = whole(first)
    if expression is None:
        return [statement]
    if others and program.layout.length(statement.name) is None:
        program.left(statement.origin, f"EQU {statement.operand}: its length isn't known before{advice(STATEMENTS, 'EQU x,len')}")
        return [statement]
    is_kept = is_plain(expression, program.layout)
    operand = first if is_kept else worked_out(expression, program.layout, program.here(statement))
    if operand is None:
        program.left(statement.origin, f"{first}: not all of it is a number that is known before")
        return [statement]
    if operand == statement.operand:
        return [statement]
    remark = statement.remark if is_kept else f"{statement.operand} {statement.remark}".strip()
    return [statement.changed(operand=operand, remark=remark)]
