"""Texts of the assembler's language: which characters are in apostrophes, and how deep in parentheses each stands."""
from collections.abc import Iterator
from dataclasses import dataclass

LETTERS = "ABCDEFGHIJKLMNOPQRSTUVWXYZ@#$"
DIGITS = "0123456789"
NAME = LETTERS + DIGITS
SMALL = "abcdefghijklmnopqrstuvwxyz"
CODED = set(NAME + SMALL + " .<(+|&!*);-/,%_>?:'=\"")  # the characters that have a code


@dataclass(frozen=True)
class Place:
    """A character's place: how many parentheses are open around it, and whether it is in apostrophes, these included."""

    depth: int
    is_text: bool


def is_length_attribute(text: str, at: int) -> bool:
    """Whether the apostrophe here is that of L'NAME, which begins no text."""
    is_term = text[at - 1 : at] == "L" and text[at - 2 : at - 1] not in set(NAME)
    return is_term and text[at + 1 : at + 2] in set(LETTERS)


def places_of(text: str, begin: int = 0) -> Iterator[Place]:
    """The place of each character, one after the other, from a place on at which neither a text nor a name has begun."""
    depth, is_text = 0, False
    for at in range(begin, len(text)):
        character = text[at]
        opens_or_closes = character == "'" and (is_text or not is_length_attribute(text, at))
        was_text, is_text = is_text, is_text != opens_or_closes
        inside = was_text or is_text
        if character == ")" and not inside:
            depth = max(0, depth - 1)
        yield Place(depth, inside)
        if character == "(" and not inside:
            depth += 1


def cut(text: str, mark: str = ",") -> list[str]:
    """A text cut at a mark, where it is outside apostrophes and parentheses."""
    parts, begin = [], 0
    for at, place in enumerate(places_of(text)):
        if text[at] == mark and place == Place(0, False):
            parts.append(text[begin:at])
            begin = at + 1
    return [*parts, text[begin:]]


def end_of_operand(text: str, begin: int) -> int:
    """Where an operand ends that begins here: at the first blank outside apostrophes."""
    places = enumerate(places_of(text, begin), begin)
    return next((at for at, place in places if text[at] == " " and not place.is_text), len(text))


def closing(text: str, begin: int) -> int | None:
    """Where the parenthesis that opens here is closed."""
    places = enumerate(places_of(text, begin), begin)
    return next((at for at, place in places if at > begin and text[at] == ")" and place == Place(0, False)), None)


def is_name(text: str) -> bool:
    return 1 <= len(text) <= 8 and text[0] in LETTERS and all(character in NAME for character in text)


def is_decimal(text: str) -> bool:
    return text != "" and all(character in DIGITS for character in text)


def quoted_length(text: str) -> int:
    """How many characters a text between apostrophes is: two apostrophes count as one, and two ampersands."""
    return len(text.replace("''", "'").replace("&&", "&"))
