"""BMS sources read: DFHMSD, DFHMDI and DFHMDF. What isn't taken as CICS takes it is told by its line and column."""
import re
from dataclasses import dataclass, field

from cics.constants import is_lone_mark
from cics.log import Log
from cics.plain_lines import capitals, without_tabs
from cics.sources import read_source
from cics.stand_in.macros import MacroCall, Macros, Operand, Spot
from cics.stand_in.map_words import AGAINST, LISTS, OPERANDS, TOLD, words_of
from cics.stand_in.mapsets import (BRIGHT, COLUMNS, DARK, DETECTABLE, EXTENDED, LONGEST, MODIFIED, NUMERIC, OF_EXTATT, PROTECTED, ROWS, SIZE, Field,
                                   Justified, Map, Mapset, Part, Text, lay_out)
from cics.statements import Origin
from cics.texts import CODED, cut, is_decimal, is_name

MOST_DIGITS, MOST_NAME = 5, 7  # of a number; of a name, to which the symbolic map puts a letter
OF_LISTING = ("PRINT", "TITLE", "EJECT", "SPACE")
OF_MAPS = re.compile(r"\S* +(DFHMSD|DFHMDI|DFHMDF)\b")
HEXADECIMAL = re.compile(r"'?((?:[0-9A-Fa-f]{2})+)'?")
WHOLE = f"({ROWS},{COLUMNS})"


@dataclass(frozen=True)
class Word:
    """A word of an operand's value, and its place in it."""

    text: str
    place: int


def words_in(value: str) -> list[Word]:
    """The words of a value, as (A,B) or A."""
    is_list = value.startswith("(") and value.endswith(")")
    found, at = [], int(is_list)
    for text in cut(value[1:-1] if is_list else value):
        found.append(Word(text, at))
        at += len(text) + 1
    return found


def listed(text: str) -> list[str]:
    return [word.text for word in words_in(text) if word.text]


def number(text: str, least: int, most: int) -> int | None:
    """A decimal between two numbers."""
    is_one = is_decimal(text) and len(text) <= MOST_DIGITS and least <= int(text) <= most
    return int(text) if is_one else None


@dataclass
class Reading:
    """The reading of a mapset's source."""

    macros: Macros
    log: Log
    mapset: Mapset | None = None
    defaults: dict[str, str] = field(default_factory=dict)  # the operands of DFHMSD
    names: dict[str, MacroCall] = field(default_factory=dict)  # of the symbolic maps, and what they come from
    taken: dict[int, MacroCall] = field(default_factory=dict)  # the places of the map that is read, and what is there
    has_final: bool = False

    def refuse(self, spot: Spot, why: str) -> None:
        self.macros.refuse(spot, why)

    def read(self) -> None:
        for call in self.macros.calls():
            if call.operation == "END":
                self.look_after(call.origin.number)
                return
            self.take(call)

    def look_after(self, number_of_end: int) -> None:
        """Tells macros of maps after END."""
        for at, line in enumerate(self.macros.lines[number_of_end:], number_of_end + 1):
            if OF_MAPS.match(capitals(line)):
                self.refuse(Spot(at, 1), "it stands after END, where nothing is read")
                return

    def take(self, call: MacroCall) -> None:
        takes = {"DFHMSD": self.set, "DFHMDI": self.map, "DFHMDF": self.field}.get(call.operation)
        if takes is None:
            if call.operation not in OF_LISTING:
                self.refuse(call.spot, f"{call.operation}: no macro of maps" if call.operation else "there is no operation")
        elif self.has_final:
            self.refuse(call.spot, f"{call.operation} after TYPE=FINAL, where nothing is read")
        else:
            for one in call.operands:
                self.look(call, one)
            takes(call)

    # ---- operands

    def look(self, call: MacroCall, one: Operand) -> None:
        """Looks at an operand: whether it is known, and each of its words."""
        if one.key not in OPERANDS[call.operation]:
            self.refuse(one.spots[0], f"{call.operation} {one.key}: no operand that is known here")
            return
        if one.key in TOLD:
            self.log.stands_in(call.origin, f"{one.key}={one.value}", "it has no effect")
        known, words = words_of(call.operation, one.key), words_in(one.value)
        if not known:
            return
        for at, word in enumerate(words):
            if word.text not in known:
                self.refuse(one.spot(word.place), f"{one.key}={word.text}: it may be {', '.join(known)}")
            elif at and one.key not in LISTS:
                self.refuse(one.spot(word.place), f"{one.key}={one.value}: one word may be given")
            else:
                against = self.against(word, words[:at])
                if against:
                    self.refuse(one.spot(word.place), f"{one.key}={one.value}: {word.text} and {against} aren't given together")

    @staticmethod
    def against(word: Word, before: list[Word]) -> str:
        """A word in front that a word may not be given with."""
        return next((other.text for other in before for group in AGAINST if {word.text, other.text} <= group), "")

    def name(self, text: str, spot: Spot, what: str) -> None:
        if not is_name(text) or len(text) > MOST_NAME:
            self.refuse(spot, f"{what} has a name of 1 to {MOST_NAME} letters and digits, beginning with a letter")

    def number(self, call: MacroCall, key: str, least: int, most: int, usual: int) -> int:
        """An operand that is a number; what is usual where it isn't given."""
        text = call.given().get(key)
        if text is None:
            return usual
        found = number(text, least, most)
        if found is None:
            self.refuse(call.spot_of(key), f"{key}={text}: it is {least} to {most}" if least < most else f"{key}={text}: it is {least}")
        return usual if found is None else found

    def pair(self, call: MacroCall, key: str, first: int, second: int) -> tuple[int, int] | None:
        """An operand of two numbers, each from 1 to a most."""
        value = call.given()[key]
        words = words_in(value)
        numbers = [number(word.text, 1, most) for word, most in zip(words, (first, second))]
        if len(words) == 2 and value.startswith("(") and numbers[0] is not None and numbers[1] is not None:
            return numbers[0], numbers[1]
        odd = next((word.place for word, found in zip(words, numbers) if found is None), 0) if len(words) == 2 else 0
        self.refuse(call.spot_of(key, odd), f"{key}={value}: it is (line,column), with a line of 1 to {first} and a column of 1 to {second}")
        return None

    # ---- the mapset, and its maps

    def set(self, call: MacroCall) -> None:
        given = call.given()
        if given.get("TYPE") == "FINAL":
            self.has_final = True
            if self.mapset is None:
                self.refuse(call.spot, "TYPE=FINAL, and no mapset is in front of it")
            return
        if self.mapset is not None:
            self.refuse(call.spot, "a second mapset; each has a file of its own")
            return
        self.name(call.name, Spot(call.origin.number, 1), "a mapset")
        if "TYPE" not in given:
            self.refuse(call.spot, "DFHMSD without TYPE")
        self.mapset = Mapset(self.macros.path, call.name, [], given.get("STORAGE") != "AUTO")
        self.defaults = given
        if given.get("LANG", "ASM") in words_of("DFHMSD", "LANG")[1:]:
            self.log.stands_in(call.origin, f"LANG={given['LANG']}", "the symbolic maps are those of ASM")

    def usual(self, call: MacroCall, key: str) -> str:
        """An operand of a map, or else that of its mapset."""
        return call.given().get(key, self.defaults.get(key, ""))

    def extended(self, call: MacroCall) -> list[str]:
        """The extended attributes that a symbolic map has, in the order in which they stand there."""
        for given in (call.given(), self.defaults):
            if given.get("EXTATT") == "YES":
                return list(OF_EXTATT)
            if "DSATTS" in given:
                words = listed(given["DSATTS"])
                return [word for word in EXTENDED if word in words]
        return []

    def map(self, call: MacroCall) -> None:
        if self.mapset is None:
            self.refuse(call.spot, "DFHMDI without DFHMSD")
            return
        self.name(call.name, Spot(call.origin.number, 1), "a map")
        size = self.pair(call, "SIZE", ROWS, COLUMNS) if "SIZE" in call.given() else None
        if "SIZE" not in call.given():
            self.log.stands_in(call.origin, "DFHMDI without SIZE", f"it is {WHOLE}")
        rows, columns = size or (ROWS, COLUMNS)
        line, column = (self.place(call, key, most) for key, most in (("LINE", ROWS - rows + 1), ("COLUMN", COLUMNS - columns + 1)))
        made = Map(call.origin, call.name, [], listed(self.usual(call, "CTRL")), self.extended(call), self.usual(call, "TIOAPFX") == "YES", line, column,
                   rows, columns, colour_of(self.usual(call, "COLOR")))
        self.mapset.maps.append(made)
        self.taken = {}
        self.keep_names(call, call.name, [call.name + letter for letter in "SIOEL"])

    def place(self, call: MacroCall, key: str, most: int) -> int:
        if call.given().get(key) in ("NEXT", "SAME"):
            self.refuse(call.spot_of(key), f"{key}={call.given()[key]}: a place that is known only when pages are built")
            return 1
        return self.number(call, key, 1, most, 1)

    def keep_names(self, call: MacroCall, name: str, names: list[str]) -> None:
        """Keeps names of the symbolic maps; one that is there already is told."""
        there = next((one for one in names if one in self.names), None)
        if name and there:
            other = self.names[there]
            where = f"line {other.origin.number}"
            why = f"{name} is there twice, first in {where}" if other.name == name else f"{there}, by {name}, is a name of {other.shown()} in {where}, too"
            self.refuse(Spot(call.origin.number, 1), why)
        self.names |= dict.fromkeys(names, call) if name else {}

    # ---- fields

    def field(self, call: MacroCall) -> None:
        if self.mapset is None or not self.mapset.maps:
            self.refuse(call.spot, "DFHMDF without DFHMDI")
            return
        of_map, given = self.mapset.maps[-1], call.given()
        if call.name:
            self.name(call.name, Spot(call.origin.number, 1), "a field")
        position, initial = self.position(call, of_map), self.initial(call)
        length = self.length(call, initial)
        if position is None or length is None:
            return
        made = Field(call.origin, call.name, position, length, attribute_of(given), "IC" in listed(given.get("ATTRB", "")), initial, *justified_of(given),
                     colour=colour_of(given.get("COLOR", "")) or of_map.colour)
        made.occurs = self.number(call, "OCCURS", 1, SIZE // (length + 1), 1)
        if not self.is_within(call, made, of_map):
            return
        if "GRPNAME" in given:
            self.join(call, made, of_map)
        else:
            of_map.fields.append(made)
            letters = ["L", "F", "A", "I", "O", *(EXTENDED[word] for word in of_map.extended), *(["D"] if made.occurs > 1 else [])]
            self.keep_names(call, call.name, [call.name + letter for letter in letters])
            self.occupy(call, range(position, position + made.occurs * (length + 1)))

    def position(self, call: MacroCall, of_map: Map) -> int | None:
        """The place of a field's attribute on the screen, from 0."""
        value = call.given().get("POS")
        if value is None:
            self.refuse(call.spot, "DFHMDF without POS")
            return None
        if value.startswith("("):
            pair = self.pair(call, "POS", of_map.rows, of_map.columns)
            row, column = (pair[0] - 1, pair[1] - 1) if pair else (0, 0)
            found = pair is not None
        else:
            if of_map.columns != COLUMNS:
                self.refuse(call.spot_of("POS"), f"POS={value} in a map of {of_map.columns} columns; write: POS=(line,column)")
                return None
            place = number(value, 0, of_map.rows * COLUMNS - 1)
            if place is None:
                self.refuse(call.spot_of("POS"), f"POS={value}: it is 0 to {of_map.rows * COLUMNS - 1}, or (line,column)")
            row, column = divmod(place or 0, COLUMNS)
            found = place is not None
        return (row + of_map.line - 1) * COLUMNS + column + of_map.column - 1 if found else None

    def is_within(self, call: MacroCall, made: Field, of_map: Map) -> bool:
        """Whether a field ends within its map; what goes past the map is told."""
        end = made.position + made.occurs * (made.length + 1) - 1
        last = (of_map.line + of_map.rows - 1) * COLUMNS
        key = "OCCURS" if made.occurs > 1 else "LENGTH" if "LENGTH" in call.given() else "INITIAL" if "INITIAL" in call.given() else "XINIT"
        if end >= last:
            self.refuse(call.spot_of(key), f"{call.shown()}: it goes past the map's last place, line {of_map.rows} of {of_map.rows}")
        elif of_map.columns < COLUMNS and made.position // COLUMNS * COLUMNS + of_map.column + of_map.columns - 2 < end:
            self.refuse(call.spot_of(key), f"{call.shown()}: it goes past the map's last column, {of_map.columns}, into what is beside it")
        else:
            return True
        return False

    def length(self, call: MacroCall, initial: Text | None) -> int | None:
        """How many places a field has: LENGTH, or what INITIAL or XINIT has."""
        has = initial.length() if initial else 0
        text = call.given().get("LENGTH")
        if text is None and initial is None:
            if "INITIAL" not in call.given() and "XINIT" not in call.given():
                self.refuse(call.spot, "DFHMDF without LENGTH, and without INITIAL, whose length it would have")
            return None
        found = has if text is None else number(text, 0, LONGEST)
        key = "LENGTH" if text is not None else "XINIT" if "XINIT" in call.given() else "INITIAL"
        if found is None or found > LONGEST:
            self.refuse(call.spot_of(key), f"{key}={text}: it is 0 to {LONGEST}" if text is not None else f"more than {LONGEST} characters")
            return None
        if has > found:
            key = "XINIT" if "XINIT" in call.given() else "INITIAL"
            self.refuse(call.spot_of(key), f"{key} has {has} characters, and LENGTH is {found}")
        return found

    def initial(self, call: MacroCall) -> Text | None:
        """What stands in a field at first."""
        given = call.given()
        if "XINIT" in given:
            found = HEXADECIMAL.fullmatch(given["XINIT"])
            if "INITIAL" in given:
                self.refuse(call.spot_of("XINIT"), "INITIAL and XINIT aren't given together")
            elif found is None:
                self.refuse(call.spot_of("XINIT"), f"XINIT={given['XINIT']}: it is an even number of hexadecimal digits")
            return Text(bytes=found[1].upper()) if found else None
        if "INITIAL" not in given:
            return None
        value = given["INITIAL"]
        inside = value[1:-1]
        why = "an empty text" if value == "''" else "write: a text between apostrophes"
        if len(value) < 3 or value[0] != "'" or value[-1] != "'":
            self.refuse(call.spot_of("INITIAL"), f"INITIAL={value}: {why}")
            return None
        if is_lone_mark(inside):
            self.refuse(call.spot_of("INITIAL"), "an ampersand or apostrophe alone in INITIAL; write: two of them")
        odd = next((at for at, character in enumerate(inside, 1) if character not in CODED), None)
        if odd is not None:
            self.refuse(call.spot_of("INITIAL", odd), f"INITIAL has {value[odd]!r}, for which there is no code; write: XINIT")
        return Text("".join(one if one in CODED else "." for one in inside.replace("''", "'").replace("&&", "&")))

    def join(self, call: MacroCall, made: Field, of_map: Map) -> None:
        """Makes a field a part of its group, which the first of them begins."""
        group = call.given()["GRPNAME"]
        if made.occurs > 1:
            self.refuse(call.spot_of("OCCURS"), "OCCURS and GRPNAME aren't given together")
            return
        last = of_map.fields[-1] if of_map.fields else None
        parts = [call.name + letter for letter in "IO"]
        if last is None or last.name != group or not last.parts:
            self.name(group, call.spot_of("GRPNAME"), "a group")
            of_map.fields.append(made)
            made.parts = [Part(call.name, 0, made.length, made.initial)]
            made.name = group
            self.keep_names(call, group, [group + letter for letter in ["L", "F", "A", "I", "O", *(EXTENDED[word] for word in of_map.extended)]])
            self.keep_names(call, call.name, parts)
            self.occupy(call, range(made.position, made.position + made.length + 1))
            return
        begin = made.position - last.position
        if begin < last.length:
            self.refuse(call.spot_of("POS"), f"{call.shown()}: it doesn't follow what is before it in the group {group}")
            return
        if begin + made.length > LONGEST:
            self.refuse(call.spot_of("GRPNAME"), f"the group {group} has more than {LONGEST} characters")
            return
        self.keep_names(call, call.name, parts)
        self.occupy(call, range(last.position + last.length + 1, made.position + made.length + 1))
        last.parts.append(Part(call.name, begin, made.length, made.initial))
        last.length = begin + made.length

    def occupy(self, call: MacroCall, places: range) -> None:
        """Takes a field's places; one that another field has is told."""
        there = next((self.taken[place] for place in places if place in self.taken), None)
        if there:
            self.refuse(call.spot_of("POS"), f"{call.shown()}: it has places of {there.shown()} in line {there.origin.number}")
        self.taken |= dict.fromkeys(places, call)


def colour_of(text: str) -> str:
    return next(iter(listed(text)), "")


def attribute_of(given: dict[str, str]) -> int:
    words = listed(given.get("ATTRB", "ASKIP"))
    bits = PROTECTED * ("PROT" in words) | (PROTECTED | NUMERIC) * ("ASKIP" in words) | NUMERIC * ("NUM" in words)
    display = DARK if "DRK" in words else BRIGHT if "BRT" in words else DETECTABLE * ("DET" in words)
    return bits | display | MODIFIED * ("FSET" in words)


def justified_of(given: dict[str, str]) -> tuple[Justified, str]:
    """To which side what is typed goes, and with what the rest is filled: of NUM to the right, with zeros."""
    words = listed(given.get("JUSTIFY", ""))
    is_numeric = "NUM" in listed(given.get("ATTRB", ""))
    is_right = "RIGHT" in words or is_numeric and "LEFT" not in words
    is_zero = "ZERO" in words or is_right and "BLANK" not in words
    return Justified.RIGHT if is_right else Justified.LEFT, "0" if is_zero else " "


def read_mapset(path: str, log: Log) -> Mapset | None:
    """The mapset of a source; what isn't taken is told."""
    raw = read_source(path).lines
    macros = Macros(path, without_tabs(raw, path, log), raw, log)
    reading = Reading(macros, log)
    reading.read()
    mapset = reading.mapset
    if mapset is None:
        log.refused(Origin(path, 1, 0), 1, "there is no DFHMSD")
        return None
    if not reading.has_final:
        reading.refuse(Spot(max(len(raw), 1), 1), "there is no DFHMSD TYPE=FINAL at the end")
    for of_map in mapset.maps:
        lay_out(of_map)
        if not of_map.fields and not log.has_refused():
            log.refused(of_map.origin, 1, f"DFHMDI {of_map.name}: it has no field")
    if not mapset.maps and not log.has_refused():
        log.refused(Origin(path, 1, 0), 1, f"DFHMSD {mapset.name}: it has no map")
    return mapset
