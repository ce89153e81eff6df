"""A statement that is to be written otherwise, and what may be written for it."""
from dataclasses import dataclass

from cics.constants import item_of, size_of
from cics.expressions import Kind, leftmost, read_expression
from cics.program import Program
from cics.statements import Line, Statement
from cics.texts import closing, cut


AFTER = "$AFTER"  # the place behind an instruction, in what is written for it


class NotExact(Exception):
    """Why nothing is written for a statement."""


@dataclass(frozen=True)
class Parts:
    """An operand: its first expression, and the parts in its parentheses; none where it has no parentheses."""

    first: str
    inside: list[str]

    def is_based(self) -> bool:
        return len(self.inside) > 0


@dataclass(frozen=True)
class Site:
    statement: Statement
    operands: list[str]
    program: Program
    own: frozenset[str]  # the sections that are there as long as the program runs

    def need(self, count: int) -> None:
        if "" in self.operands:
            raise NotExact("an operand is empty")
        if len(self.operands) != count:
            raise NotExact(f"{len(self.operands)} operands, where {count} are due")

    def number(self, text: str) -> int | None:
        return self.program.layout.number(text, self.program.here(self.statement))

    def register(self, text: str, *, is_changed: bool = False) -> int:
        number = self.number(text)
        if number is None or not 0 <= number <= 15:
            raise NotExact(f"{text}: no register that is known before")
        if is_changed and number == 13:
            raise NotExact("it changes register 13, the base of DFHEISTG")
        return number

    def pair(self, text: str, *, is_changed: bool = True) -> int:
        number = self.register(text)
        if number % 2:
            raise NotExact(f"{text}: an odd register, so interruption 6")
        if is_changed and number == 12:
            raise NotExact("it changes register 13, the base of DFHEISTG")
        return number

    def parts(self, text: str) -> Parts:
        if text.startswith("="):
            return Parts(text, [])
        found = read_expression(text)
        if found is None:
            raise NotExact(f"{text}: no address that can be read")
        rest = text[found.end :]
        if rest and (rest[0] != "(" or closing(rest, 0) != len(rest) - 1):
            raise NotExact(f"{text}: no address that can be read")
        return Parts(text[: found.end], cut(rest[1:-1]) if rest else [])

    def bytes_at(self, text: str) -> str:
        """An operand S or D(B) with a length of one."""
        parts = self.parts(text)
        if not parts.is_based():
            return f"{parts.first}(1)"
        return f"{parts.first}(1,{parts.inside[-1]})"

    def length(self, text: str) -> int | None:
        """The length of an operand S, S(L), D(L,B) or D(,B), or of a literal, where it is known before."""
        if text.startswith("="):
            item = item_of(text[1:])
            modifier = self.number(item.modifier) if item and item.modifier else None
            return size_of(item, modifier).first if item and (modifier or not item.modifier) else None
        parts = self.parts(text)
        if parts.is_based() and parts.inside[0]:
            return self.number(parts.inside[0])
        found = read_expression(parts.first)
        term = leftmost(found.expression) if found else None
        if term is None or term.kind is Kind.STAR:
            return None
        return self.program.layout.new_length(term.text) if term.kind is Kind.SYMBOL else 1

    def address(self, text: str) -> str:
        """An operand S, S(L), D(L,B) or D(,B) without its length."""
        parts = self.parts(text)
        if len(parts.inside) == 2 and parts.inside[1] and self.number(parts.first) is None:
            raise NotExact(f"{text}: no displacement that is known before")
        return f"{parts.first}({parts.inside[1]})" if len(parts.inside) == 2 else parts.first

    def is_there(self, address: str, length: int | None) -> bool:
        """Whether the bytes of an operand S, S(B) or D(B) are there in any case: a literal, or a field of the program's own."""
        found = None if address.startswith("=") else read_expression(address)
        if found is None:
            return address.startswith("=")
        term = leftmost(found.expression)
        first, value = self.program.layout.value(term.text), self.program.layout.evaluated(address, None)
        room = self.program.layout.length(term.text)
        if term.kind is not Kind.SYMBOL or first is None or value is None or room is None or length is None:
            return False
        offset = value.plus(first, -1)
        return set(value.sections()) <= self.own and offset.is_number() and 0 <= offset.number <= room - length


def touched(site: Site, operand: str) -> list[Line]:
    """A move of an operand S, S(L), D(L,B) or D(,B) to itself, so that it is at the statement that a byte of it isn't there."""
    address = site.address(operand)
    return [] if site.is_there(address, site.length(operand)) else [Line("MVC", f"{operand},{address}")]


def touched_source(site: Site, address: str, length: int | None) -> list[Line]:
    """The same of an operand S or D(B) of a length."""
    if site.is_there(address, length):
        return []
    if length is None:
        raise NotExact(f"{address}: its length isn't known before")
    parts = site.parts(address)
    return [Line("MVC", f"{parts.first}({length}{''.join(f',{base}' for base in parts.inside)}),{address}")]


def touched_word(site: Site, address: str, length: int = 4) -> list[Line]:
    """A load of a word or halfword at an address of format RX, as `touched`."""
    return [] if site.is_there(address, length) else [Line("L" if length == 4 else "LH", f"14,{address}")]


def call(routine: str, *encoded: Line, before: list[Line] | None = None, is_interrupted: bool = False) -> list[Line]:
    """A call of a routine: the instruction that has the operands comes after it, and isn't done. `before`: what is done before it."""
    end = Line("EX", "0,$XF") if is_interrupted else Line("L", "14,$X14")
    return [Line("ST", "14,$X14"), *(before or []), Line("BAL", f"14,{routine}"), *encoded, end]


def call_of_fields(routine: str, site: Site, lengths: tuple[int, int]) -> list[Line]:
    """A call of a routine with two packed fields, copied at the statement."""
    first, second = (site.address(text) for text in site.operands)
    copies = [Line("MVC", f"$XB({lengths[1]}),{second}"), Line("MVC", f"$XA({lengths[0]}),{first}")]
    return call(routine, before=copies, is_interrupted=True)
