"""Items of DS and DC, and literals after their sign: duplication, type, length modifier and value."""
from dataclasses import dataclass, replace

from cics.texts import DIGITS, closing, cut, is_decimal, quoted_length

ALIGNED = {"F": 4, "H": 2, "A": 4, "V": 4, "D": 8, "E": 4, "Y": 2, "S": 2, "Q": 4, "L": 8}  # types to their own unit, which is their length
OWN_LENGTH = {**ALIGNED, "L": 16}
ADDRESSES = "AYSVQ"  # types whose values stand in parentheses
SEVERAL = "FHPXBAYDES"  # types of which an item may have several values
KINDS = "CXBFHPZAVDEYSQL"
MOST_DIGITS = 10  # of a duplication or a length: those of 2^32


@dataclass(frozen=True)
class Item:
    """An item by its parts as they are written: `duplication` and `modifier` (without its L) a decimal or in parentheses, `value` with
    its apostrophes or parentheses; each may be empty."""

    duplication: str
    kind: str
    modifier: str
    value: str

    def text(self) -> str:
        return f"{self.duplication}{self.kind}{'L' if self.modifier else ''}{self.modifier}{self.value}"

    def values(self) -> list[str]:
        """The values between its apostrophes or parentheses; none where it has no value."""
        inside = self.value[1:-1]
        if not self.value:
            return []
        return cut(inside) if self.kind in ADDRESSES else inside.split(",") if self.kind in SEVERAL else [inside]

    def of(self, value: str) -> "Item":
        return replace(self, value=f"({value})" if self.kind in ADDRESSES else f"'{value}'")


@dataclass(frozen=True)
class Size:
    """What an item takes: its alignment, the length of its first value (the length attribute), and that of one copy with all values."""

    alignment: int
    first: int
    copy: int


def item_of(text: str) -> Item | None:
    duplication_end = end_of_factor(text, 0)
    kind = text[duplication_end : duplication_end + 1]
    if kind == "" or kind not in KINDS:
        return None
    after = duplication_end + 1
    has_modifier = text[after : after + 1] == "L" and text[after + 1 : after + 2] != "'"
    modifier_end = end_of_factor(text, after + 1) if has_modifier else after
    item = Item(text[:duplication_end], kind, text[after + 1 : modifier_end], text[modifier_end:])
    is_empty = has_modifier and not item.modifier
    is_long = any(is_decimal(part) and len(part) > MOST_DIGITS for part in (item.duplication, item.modifier))
    return None if is_empty or is_long or not is_one_value(item) else item


def end_of_factor(text: str, at: int) -> int:
    """Where a duplication or a length ends: a decimal, or something in parentheses."""
    if text[at : at + 1] == "(":
        end = closing(text, at)
        return at if end is None else end + 1
    while text[at : at + 1] in set(DIGITS):
        at += 1
    return at


def is_one_value(item: Item) -> bool:
    value = item.value
    if not value:
        return True
    if item.kind in ADDRESSES:
        return value[0] == "(" and closing(value, 0) == len(value) - 1
    return len(value) > 1 and value[0] == "'" == value[-1]


def length_of_value(item: Item, value: str) -> int:
    """The length of a value without a modifier."""
    if item.kind in OWN_LENGTH:
        return OWN_LENGTH[item.kind]
    digits = len(value.strip("+-").replace(".", ""))
    units = {"C": quoted_length(value), "X": (digits + 1) // 2, "B": (digits + 7) // 8, "P": digits // 2 + 1, "Z": digits}
    return units.get(item.kind, 1)


def size_of(item: Item, modifier: int | None) -> Size:
    """An item's size, with the number that its modifier is."""
    values = item.values() or [""]
    if modifier is not None:
        return Size(1, modifier, modifier * len(values))
    lengths = [length_of_value(item, value) if item.value else OWN_LENGTH.get(item.kind, 1) for value in values]
    return Size(ALIGNED.get(item.kind, 1), lengths[0], sum(lengths))


def is_lone_mark(text: str) -> bool:
    """Whether a text between apostrophes has an apostrophe or an ampersand that isn't doubled."""
    rest = text.replace("''", "").replace("&&", "")
    return "'" in rest or "&" in rest
