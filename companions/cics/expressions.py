"""Expressions of the assembler, with signs, `*`, `/` and parentheses, and what they are worked out to be."""
import functools
from collections.abc import Mapping
from dataclasses import dataclass, field
from enum import Enum
from typing import Protocol

from cics.texts import DIGITS, LETTERS, NAME, is_length_attribute

LARGEST = 2**32  # no number of a source is as large
SIGNED = 2**31  # nor is what is worked out: the assembler does that in a fullword with a sign
MOST_TERMS, MOST_DEPTH = 200, 50  # of an expression that is read here, more than any assembler takes


@dataclass(frozen=True)
class Chain:
    """Places whose differences are known: between two of them are only DS, DC and EQU. Its first place is a multiple of `alignment`."""

    section: str
    number: int
    alignment: int


@dataclass(frozen=True)
class Value:
    """A number, and how often the first place of each chain is added to it."""

    number: int
    places: Mapping[Chain, int] = field(default_factory=dict)

    def is_number(self) -> bool:
        return not self.places

    def sections(self) -> dict[str, int]:
        """The weight of each section; no section, where the value is absolute."""
        weights: dict[str, int] = {}
        for chain, weight in self.places.items():
            weights[chain.section] = weights.get(chain.section, 0) + weight
        return {section: weight for section, weight in weights.items() if weight}

    def is_absolute(self) -> bool:
        return not self.sections()

    def plus(self, other: "Value", sign: int) -> "Value":
        chains = {**self.places, **other.places}
        weights = {chain: self.places.get(chain, 0) + sign * other.places.get(chain, 0) for chain in chains}
        return Value(self.number + sign * other.number, {chain: weight for chain, weight in weights.items() if weight})


class Kind(Enum):
    NUMBER = "a self-defining term"
    SYMBOL = "a symbol"
    STAR = "the place"
    LENGTH = "a length attribute"


@dataclass(frozen=True)
class Term:
    kind: Kind
    text: str

    def name(self) -> str:
        return self.text.removeprefix("L'") if self.kind is Kind.LENGTH else self.text


@dataclass(frozen=True)
class Operation:
    operator: str
    left: "Expression"
    right: "Expression"


@dataclass(frozen=True)
class Group:
    """What is in parentheses."""

    inside: "Expression"


@dataclass(frozen=True)
class Signed:
    """An expression after a leading sign."""

    sign: str
    of: "Expression"


Expression = Term | Operation | Group | Signed


class NotOne(Exception):
    """The text is no expression."""


@dataclass(frozen=True)
class Read:
    """An expression, and where it ends."""

    expression: Expression
    end: int


class Reader:
    """Reads an expression from the left."""

    def __init__(self, text: str) -> None:
        self.text, self.at, self.terms, self.depth = text, 0, 0, 0

    def is_next(self, characters: str) -> bool:
        return self.at < len(self.text) and self.text[self.at] in characters

    def take(self) -> str:
        self.at += 1
        return self.text[self.at - 1]

    def sum(self) -> Expression:
        found = self.product()
        while self.is_next("+-"):
            found = Operation(self.take(), found, self.product())
        return found

    def product(self) -> Expression:
        found = self.factor()
        while self.is_next("*/"):
            found = Operation(self.take(), found, self.factor())
        return found

    def factor(self) -> Expression:
        if not self.is_next("+-("):
            return self.term()
        self.depth += 1
        if self.depth > MOST_DEPTH:
            raise NotOne
        found: Expression = Signed(self.take(), self.factor()) if self.is_next("+-") else self.group()
        self.depth -= 1
        return found

    def group(self) -> Group:
        self.take()
        inside = self.sum()
        if not self.is_next(")"):
            raise NotOne
        self.take()
        return Group(inside)

    def term(self) -> Term:
        self.terms += 1
        if self.terms > MOST_TERMS:
            raise NotOne
        if self.is_next("*"):
            return Term(Kind.STAR, self.take())
        if self.text[self.at + 1 : self.at + 2] == "'":
            return self.with_apostrophe()
        kind, allowed = (Kind.NUMBER, DIGITS) if self.is_next(DIGITS) else (Kind.SYMBOL, NAME)
        begin = self.at
        while self.is_next(allowed):
            self.at += 1
        if begin == self.at:
            raise NotOne
        return Term(kind, self.text[begin : self.at])

    def with_apostrophe(self) -> Term:
        """L'NAME, or X'..', B'..' or C'..'."""
        begin = self.at
        if is_length_attribute(self.text, begin + 1) and self.text[begin + 2] in LETTERS:
            self.at += 2
            while self.is_next(NAME):
                self.at += 1
            return Term(Kind.LENGTH, self.text[begin : self.at])
        if not self.is_next("XBC"):
            raise NotOne
        self.at = end_of_text(self.text, begin + 1)
        return Term(Kind.NUMBER, self.text[begin : self.at])


def end_of_text(text: str, at: int) -> int:
    """The place after a text that begins with the apostrophe here."""
    while (at := text.find("'", at + 1)) >= 0:
        if text[at + 1 : at + 2] != "'":
            return at + 1
        at += 1
    raise NotOne


@functools.lru_cache(maxsize=1 << 14)
def read_expression(text: str) -> Read | None:
    """The expression with which a text begins."""
    reader = Reader(text)
    try:
        return Read(reader.sum(), reader.at)
    except NotOne:
        return None


def whole(text: str) -> Expression | None:
    """The expression that a text is."""
    found = read_expression(text)
    return found.expression if found and found.end == len(text) else None


class Names(Protocol):
    """What is known of symbols."""

    def value(self, name: str) -> Value | None: ...

    def length(self, name: str) -> int | None: ...

    def new_length(self, name: str) -> int | None: ...


def number_of(text: str) -> int | None:
    """The number that a self-defining term is; None where it is too large."""
    inside = text[2:-1]
    if text[0] == "C":
        code = inside.replace("''", "'").replace("&&", "&").encode("cp037", errors="replace")
        return int.from_bytes(code, "big") if len(code) <= 4 else None
    digits, base = (text, 10) if text[0] in DIGITS else (inside, 16 if text[0] == "X" else 2)
    try:
        number = int(digits, base)
    except ValueError:
        return None
    return number if number < LARGEST else None


def value_of(expression: Expression, names: Names, here: Value | None) -> Value | None:
    """An expression's value, with the place where it stands; None where it isn't known."""
    match expression:
        case Group(inside):
            return value_of(inside, names, here)
        case Signed(sign, of):
            value = value_of(of, names, here)
            return value and Value(0).plus(value, 1 if sign == "+" else -1)
        case Operation(operator, left, right):
            values = value_of(left, names, here), value_of(right, names, here)
            return combined(operator, *values)
        case Term(Kind.STAR, _):
            return here
        case Term(Kind.SYMBOL, name):
            return names.value(name)
        case Term(Kind.LENGTH, _):
            length = names.length(expression.name())
            return None if length is None else Value(length)
        case Term(_, text):
            number = number_of(text)
            return None if number is None else Value(number)


def combined(operator: str, left: Value | None, right: Value | None) -> Value | None:
    if left is None or right is None:
        return None
    if operator in "+-":
        found = left.plus(right, 1 if operator == "+" else -1)
    elif left.is_number() and right.is_number():
        found = Value(left.number * right.number if operator == "*" else quotient(left.number, right.number))
    else:
        return None
    return found if -SIGNED <= found.number < SIGNED else None


def quotient(dividend: int, divisor: int) -> int:
    """The quotient without its fraction; 0 where the divisor is 0."""
    if divisor == 0:
        return 0
    size = abs(dividend) // abs(divisor)
    return size if (dividend < 0) == (divisor < 0) else -size


def terms_of(expression: Expression) -> list[Term]:
    match expression:
        case Group(inside) | Signed(_, inside):
            return terms_of(inside)
        case Operation(_, left, right):
            return terms_of(left) + terms_of(right)
    return [expression]


def leftmost(expression: Expression) -> Term:
    return terms_of(expression)[0]


def is_kept(term: Term, names: Names) -> bool:
    """Whether a term means the same in the new source."""
    return term.kind is not Kind.LENGTH or names.length(term.name()) == names.new_length(term.name())


def is_plain(expression: Expression, names: Names) -> bool:
    """Whether an expression may stay: it is a sum of terms that mean the same in the new source."""
    match expression:
        case Term():
            return is_kept(expression, names)
        case Operation("+" | "-", left, right):
            return is_plain(left, names) and is_plain(right, names)
    return False


@dataclass(frozen=True)
class Summand:
    sign: int
    of: Expression


def summands(expression: Expression, sign: int = 1) -> list[Summand]:
    """What an expression is the sum of, without parentheses."""
    match expression:
        case Group(inside):
            return summands(inside, sign)
        case Signed(mark, of):
            return summands(of, sign if mark == "+" else -sign)
        case Operation("+" | "-", left, right):
            return summands(left, sign) + summands(right, sign if expression.operator == "+" else -sign)
    return [Summand(sign, expression)]


def text_of_number(number: int) -> str:
    """A number as an expression that has no leading sign."""
    return str(number) if number >= 0 else f"0-{-number}"


def summand_text(summand: Summand, names: Names, here: Value | None) -> str | None:
    """A summand with its sign in front."""
    of = summand.of
    if isinstance(of, Term) and is_kept(of, names):
        return ("+" if summand.sign > 0 else "-") + of.text
    value = value_of(of, names, here)
    if value is None or not value.is_number():
        return None
    number = summand.sign * value.number
    return f"+{number}" if number >= 0 else f"-{-number}"


def worked_out(expression: Expression, names: Names, here: Value | None) -> str | None:
    """An expression as a number, or as a sum of plain terms; None where it can't be written so."""
    value = value_of(expression, names, here)
    if value is not None and value.is_number():
        return text_of_number(value.number)
    parts = [summand_text(summand, names, here) for summand in summands(expression)]
    text = "".join(part or "" for part in parts)
    if None in parts:
        return None
    return text[1:] if text[0] == "+" else f"0{text}"
