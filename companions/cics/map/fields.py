"""The fields of maps into which an operator may type, by the programs that stand for mapsets, and what is typed into each."""
import re
from collections.abc import Iterable, Iterator, Sequence
from dataclasses import dataclass

from cics.stand_in.counts import is_made
from cics.statements import statements_of

HEAD = re.compile(r"CL8'(?P<map>[^' ]+) *',A\(\w+\),H'\d+',.*")
ROW = re.compile(r"H'\d+',H'(?P<length>\d+)',X'(?P<attribute>[0-9A-F]{2})[0-9A-F]{2}',H'\d+',A\(\w+\),CL12'(?P<name>[^' ]+) *'")
PROTECTED, NUMERIC = 0x20, 0x10  # of an attribute
DIGIT, LETTER = "9", "Z"
NO_KEYBOARD = "SIKY"  # the abend of a key that no keyboard gives, as one for a field that isn't on the screen


@dataclass(frozen=True)
class MapField:
    """A field: its map, its name, how many characters it has, and whether it is one for numbers."""

    map: str
    name: str
    length: int
    is_numeric: bool

    def values(self) -> list[str]:
        """What is typed: it is full, one short of that, of one character, of the other kind, and erased."""
        own, other = (DIGIT, LETTER) if self.is_numeric else (LETTER, DIGIT)
        texts = [own * self.length, own * (self.length - 1), "1" if self.is_numeric else LETTER, other * self.length, ""]
        return [*dict.fromkeys(texts)]


def fields_in(lines: Sequence[str]) -> Iterator[MapField]:
    """The fields of a mapset's maps that aren't protected."""
    of_map = ""
    for one in statements_of([*lines], ""):
        head, row = (HEAD.fullmatch(one.operand), ROW.fullmatch(one.operand)) if one.operation == "DC" else (None, None)
        of_map = head["map"] if head else of_map
        if row and not int(row["attribute"], 16) & PROTECTED:
            yield MapField(of_map, row["name"], int(row["length"]), int(row["attribute"], 16) & NUMERIC > 0)


def fields_of(sources: Iterable[Sequence[str]]) -> list[MapField]:
    """The fields of all mapsets' programs among some sources."""
    return [field for lines in sources if is_made(lines) for field in fields_in(lines)]


def typed_into(fields: Sequence[MapField]) -> Iterator[str]:
    """Keys' texts: each value in a field by itself, and in all fields of a map."""
    for field in fields:
        yield from (f"{field.name}={value}" for value in field.values())
    for name in dict.fromkeys(field.map for field in fields):
        together = [field for field in fields if field.map == name]
        if len(together) > 1:
            yield ";".join(f"{field.name}={field.values()[0]}" for field in together)


def untyped(fields: Sequence[MapField], keys: Iterable[str]) -> list[MapField]:
    """The fields into which none of some keys types."""
    named = {part.partition("=")[0] for key in keys for part in re.split(r"[ ;]", key) if "=" in part}
    return [field for field in fields if field.name not in named]
