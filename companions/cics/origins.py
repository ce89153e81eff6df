"""Where the lines of an adapted source come from: a file with a line for each, `NUMBER FILE:LINE`, after its mark."""
import re
from collections.abc import Sequence
from dataclasses import dataclass, field

from cics.cli import Failure, read_file
from cics.files import Mark
from cics.statements import Origin

MAP = Mark("cics-adapt", "* cics-adapt --map ")
COMMENT = "* "
NAMED = re.compile(r"\bLINE (\d{5})\b")
LINE = re.compile(r"(\d+) (.+):(\d+)")


@dataclass(frozen=True)
class Place:
    file: str
    line: int


@dataclass(frozen=True)
class Origins:
    """The place from which each line comes, by its number from 1. Where they are of one file among several it is named, and so is its
    program."""

    places: dict[int, Place] = field(default_factory=dict)
    file: str = ""
    program: str = ""

    def place(self, file: str, line: int) -> Place:
        """Where a line comes from; itself, where nothing is known of it."""
        return self.places.get(line, Place(file, line)) if self.file in ("", file) else Place(file, line)

    def led_back(self, text: str) -> str:
        """A line of a look that names a line of the source, with the place from which that comes."""
        found = NAMED.search(text)
        place = self.places.get(int(found[1])) if found else None
        return f"{text} OF {place.file}:{place.line}" if place else text


def text_of(origins: Sequence[Origin]) -> str:
    """The lines of such a file, for the origins of lines."""
    return "".join(f"{number} {origin.file}:{origin.number}\n" for number, origin in enumerate(origins, 1))


def read_origins(path: str | None) -> Origins:
    """What such a file says; nothing where none is given."""
    if path is None:
        return Origins()
    places: dict[int, Place] = {}
    for number, line in enumerate(read_file(path).decode("latin-1").splitlines(), 1):
        if number == 1 and line.startswith(COMMENT):
            continue
        found = LINE.fullmatch(line)
        if found is None or int(found[1]) != len(places) + 1:
            raise Failure(f"{path}:{number}: {line[:40]}: not of a file that cics-adapt --map wrote")
        places[len(places) + 1] = Place(found[2], int(found[3]))
    return Origins(places)
