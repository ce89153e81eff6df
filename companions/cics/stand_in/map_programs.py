"""The program that stands for a mapset: its maps as tables, and what sends and receives them."""
import functools
import os

from cics.files import read_own
from cics.queues import statement_lines
from cics.stand_in.counts import MADE
from cics.stand_in.mapsets import Field, Justified, Map, Mapset
from cics.statements import MARK

FOLDER = os.path.dirname(os.path.abspath(__file__))
NAMED, RIGHT, ZEROS = 0x80, 0x40, 0x20
NO_CURSOR = 0xFFFF
CODES = range(0x40, 0x100, 16)


@functools.cache
def assembler_text(name: str) -> list[str]:
    return read_own(os.path.join(FOLDER, name)).splitlines()


def filled(name: str, given: dict[str, list[str]]) -> list[str]:
    """An assembler text with what stands for each @@NAME@@: lines for a line, a word within one."""
    found: list[str] = []
    for line in assembler_text(name):
        word = line.strip()
        if word in given and word.startswith("@@"):
            found += given[word]
            continue
        text, mark = line[:MARK], line[MARK:]
        for key, lines in given.items():
            text = text.replace(key, lines[0]) if key in text else text
        found.append(text.rstrip().ljust(MARK) + mark if mark else text)
    return found


@functools.cache
def codes() -> list[str]:
    """A table's bytes from X'40' on, each its own place."""
    return [f"         DC    X'{''.join(f'{code:02X}' for code in range(first, first + 16))}'" for first in CODES]


def initial_of(one: Field) -> str | None:
    """The constant of what stands in a field at first; of a group what its parts have, each in its place."""
    if not one.parts:
        return one.initial.constants(one.length) if one.initial else None
    if not any(part.initial for part in one.parts):
        return None
    texts: list[str] = []
    at = 0
    for part in one.parts:
        if part.begin > at:
            texts.append(f"XL{part.begin - at}'00'")
        texts.append(part.initial.constants(part.length) if part.initial else f"XL{part.length}'00'")
        at = part.begin + part.length
    return ",".join(texts)


def row(one: Field, number: int, label: str, of_map: Map) -> list[str]:
    """The table's line of an occurrence of a field, from 0."""
    flags = NAMED * bool(one.name) | RIGHT * (one.justified is Justified.RIGHT) | ZEROS * (one.fill == "0")
    name = one.name if one.occurs == 1 else f"{one.name}({number + 1})"
    offset = one.offset + number * (3 + len(of_map.extended) + one.length)
    bits = f"{one.attribute:02X}{flags:02X}"
    return statement_lines("", "DC", f"H'{one.positions()[number]}',H'{one.length}',X'{bits}',H'{offset}',A({label}),CL12'{name or ' '}'")


def table(of_map: Map, at: int, count: int) -> list[str]:
    """A map's table, and its texts after it; `at` is its number, and `count` that of all."""
    cursor = of_map.cursor()
    following = f"M{at + 1}" if at + 1 < count else "0"
    rows = [(one, number) for one in of_map.by_position() for number in range(one.occurs)]
    place = NO_CURSOR if cursor is None else cursor
    lines = statement_lines(f"M{at}", "DC",
                            f"CL8'{of_map.name}',A({following}),H'{len(rows)}',AL2({place}),H'{len(of_map.extended)}',H'{of_map.length}'")
    texts: list[str] = []
    for at_row, (one, number) in enumerate(rows):
        label = f"T{at}I{at_row}" if one.length else "0"
        lines += row(one, number, label, of_map)
        texts += statement_lines(label, "DC", initial_of(one) or f"XL{one.length}'00'") if one.length else []
    return [*lines, *texts, "         DS    0F"]


def map_program(mapset: Mapset) -> list[str]:
    """The program that stands for a mapset."""
    tables = [line for at, one in enumerate(mapset.maps) for line in table(one, at, len(mapset.maps))]
    head = [f"{MADE}MAPSET {mapset.name}: MADE BY CICS-ADAPT FROM ITS DFHMSD", f"* MAPS {' '.join(one.name for one in mapset.maps)}"[:71],
            "* WHAT DIFFERS FROM CICS IS IN DOCS/STAND-INS.MD"]
    given = {"@@NAME@@": [f"{mapset.name:<8}"], "@@CODES@@": codes(), "@@MAPS@@": tables}
    return [*head, *field_comments(mapset), *filled("maps.asm", given)]


def field_comments(mapset: Mapset) -> list[str]:
    """A comment for each place into which something may be typed, by which a terminal knows its name and colour."""
    lines = []
    for of_map in mapset.maps:
        for one in of_map.by_position():
            for number, position in enumerate(one.positions()):
                name = one.name if one.occurs == 1 else f"{one.name}({number + 1})"
                if name or one.colour:
                    lines.append(f"*FIELD {of_map.name} {name or '-'} {position} {one.length} {one.colour or '-'}")
    return lines
