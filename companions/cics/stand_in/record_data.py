"""Data of files read as records. Each thing that is no such value is told by its line and column; then there are no records."""
import difflib
import re
from collections.abc import Iterator
from dataclasses import dataclass

from cics.cli import name_of, read_file
from cics.log import Log
from cics.plain_lines import capitals
from cics.sources import BYTE_ORDER_MARK
from cics.stand_in.records import MOST_INDEX, FileDefinition, Form, RecordField
from cics.stand_in.values import BLANK, Odd, cell_bytes, coded, constant_bytes, empty_bytes, shown
from cics.statements import Origin
from cics.texts import cut, is_name

COMMA, QUOTE, OTHERS = ",", '"', ";\t|"  # what separates values and what is around them; what stands between them elsewhere
PRINTED = set(range(0x20, 0x7F))
HOW_READ = {Form.FIELDS: "by values of the fields that the first line names", Form.LINES: "each a line", Form.BYTES: "as bytes of the record's length"}
HOW_FORM = "write: form=fields, form=lines or form=bytes in --file"


@dataclass(frozen=True)
class Cell:
    """A value of a row: its text, the column where that begins, from 0, and whether it stands between quotes."""

    text: str
    at: int
    is_quoted: bool = False

    def column(self, place: int) -> int:
        """The column of one of its characters; a quote in it is two in the line."""
        return self.at + place + (self.text[:place].count(QUOTE) if self.is_quoted else 0)


@dataclass(frozen=True)
class Read:
    """A record as it was read: where its key stands, from 1, and its bytes."""

    line: int
    column: int
    data: bytes


@dataclass
class Data:
    """The data of a file that are read, and where faults are told."""

    file: FileDefinition
    log: Log
    has_faults: bool = False
    how: str = ""  # in which form they were read

    def refuse(self, line: int, column: int, why: str) -> None:
        self.has_faults = True
        self.log.refused(Origin(name_of(self.file.path), line, line), column, why)

    # ---- which form they have

    def read(self, data: bytes) -> list[Read]:
        if not data.removeprefix(BYTE_ORDER_MARK):
            self.refuse(1, 1, f"there is nothing; for a file without records write: --file {self.file.name}=,key=..")
            return []
        form = self.file.form or self.form_of(data)
        if form is None:
            return []
        self.how = HOW_READ[form]
        if form is Form.BYTES:
            return self.of_bytes(data)
        lines = lines_of_text(data)
        return self.of_rows(lines) if form is Form.FIELDS else self.of_lines(lines)

    def form_of(self, data: bytes) -> Form | None:
        """The form that data have by themselves; none, and told, where there may be two."""
        first = lines_of_text(data)[0]
        if self.file.path.lower().endswith(".csv") or is_heading(first, self.file):
            return Form.FIELDS
        if b"\n" in data or data.startswith(BYTE_ORDER_MARK):
            return Form.LINES
        is_whole, is_text = len(data) % self.file.length == 0, set(data) <= PRINTED
        if is_whole and is_text:
            self.refuse(1, 1, f"a line of text, or bytes of {len(data) // self.file.length} records; {HOW_FORM}")
            return None
        if not is_whole and not is_text:
            self.refuse(1, 1, f"{len(data)} bytes are neither lines of text nor records of {self.file.length} bytes; {HOW_FORM}")
            return None
        return Form.BYTES if is_whole else Form.LINES

    def of_bytes(self, data: bytes) -> list[Read]:
        length = self.file.length
        if len(data) % length:
            self.refuse(1, len(data) - len(data) % length + 1, f"{len(data) % length} bytes are left after records of {length}")
        return [Read(1, at + self.file.key_begin + 1, data[at : at + length]) for at in range(0, len(data), length)]

    # ---- lines

    def of_lines(self, lines: list[str]) -> list[Read]:
        found = []
        for number, line in enumerate(lines, 1):
            try:
                found.append(self.of_line(line, number))
            except Odd as why:
                self.refuse(number, why.at + 1, str(why))
        return found

    def of_line(self, line: str, number: int) -> Read:
        """Reads a line as a record: constants follow =; anything else is text. A text that begins with = is written with two."""
        if not line:
            raise Odd(0, "an empty line; a record of blanks is =C' '")
        if line.startswith("=") and not line.startswith("=="):
            data, column = constants_bytes(line), 1
        else:
            skipped = int(line.startswith("=="))
            text = line[skipped:]
            if len(text) > self.file.length:
                raise Odd(skipped + self.file.length, f"{len(text)} characters, where a record of {self.file.name} has {self.file.length} bytes")
            data, column = shifted(text, skipped).ljust(self.file.length, BLANK), skipped + self.file.key_begin
        least = self.file.key_begin + self.file.key_length
        if not least <= len(data) <= self.file.length:
            raise Odd(0, f"a record of {self.file.name} has {least} to {self.file.length} bytes, and this one {len(data)}")
        return Read(number, column + 1, data)

    # ---- rows

    def of_rows(self, lines: list[str]) -> list[Read]:
        fields = self.fields_of(lines[0])
        return [] if self.has_faults else [read for number, line in enumerate(lines[1:], 2) for read in self.of_row(line, number, fields)]

    def fields_of(self, line: str) -> list[RecordField]:
        """The fields that the first line names."""
        found: list[RecordField] = []
        names = {one.name: one for one in self.file.fields if one.name}
        other = re.search(f"[{OTHERS}]", line)
        if other:
            self.refuse(1, other.start() + 1, f"{other[0]!r} in the line that names the fields; write commas between them")
            return []
        try:
            for cell in cells_of(line):
                name, column = cell.text.strip(" "), cell.at + 1 + len(cell.text) - len(cell.text.lstrip(" "))
                why = why_no_field(name, names, found)
                if why:
                    self.refuse(1, column, why)
                else:
                    found.append(names[name])
        except Odd as why:
            self.refuse(1, why.at + 1, str(why))
        if not self.has_faults and (lacking := lacking_key(self.file, found)):
            self.refuse(1, len(line) + 1, f"{lacking}, of the key, isn't among these fields")
        return found

    def of_row(self, line: str, number: int, fields: list[RecordField]) -> Iterator[Read]:
        """The record of a row; none where something is told."""
        try:
            cells = cells_of(line)
            if len(cells) > len(fields):
                raise Odd(cells[len(fields)].at, f"{len(cells)} values for {len(fields)} fields")
            if len(cells) < len(fields) or not line:
                names = ", ".join(one.name for one in fields[len(cells) if line else 0 :])
                raise Odd(len(line), f"no value of {shown(names)[1:-1]}")
        except Odd as why:
            self.refuse(number, why.at + 1, str(why))
            return
        data = self.empty(fields)
        is_whole, columns = True, [cell.at for cell, one in zip(cells, fields) if self.file.is_of_key(one)]
        for cell, one in zip(cells, fields):
            try:
                if self.file.is_of_key(one) and not cell.text.strip(" "):
                    raise Odd(0, f"no value of {one.name}, of the key")
                data[one.begin : one.begin + one.length] = cell_bytes(cell.text, one.kind, one.length)
            except Odd as why:
                self.refuse(number, cell.column(why.at) + 1, f"{one.name}: {why}")
                is_whole = False
        if is_whole:
            yield Read(number, min(columns) + 1, bytes(data))

    def empty(self, given: list[RecordField]) -> bytearray:
        """A record in which nothing is given: of fields that share bytes the first one's, unless another is given."""
        data, taken = bytearray(BLANK * self.file.length), {at for one in given for at in one.places()}
        for one in self.file.fields:
            if taken.isdisjoint(one.places()):
                data[one.begin : one.begin + one.length] = empty_bytes(one.kind, one.length // one.copies) * one.copies
                taken.update(one.places())
        return data

    # ---- all of them

    def look(self, records: list[Read]) -> None:
        """Tells keys that are there twice, and records for which the index has no room."""
        seen: dict[bytes, Read] = {}
        for one in records:
            key = self.file.key(one.data)
            if key in seen:
                first = seen[key]
                where = f"line {first.line}" if first.line < one.line else f"byte {first.column}"
                self.refuse(one.line, one.column, f"the key {shown(key.decode('cp037'))} is there twice, first in {where}")
            else:
                seen[key] = one
        most = (MOST_INDEX - 2) // (self.file.key_length + 2)
        if len(records) > most:
            self.refuse(records[most].line, records[most].column, f"{len(records)} records; for more than {most} the index of keys has no room")


def records_of(file: FileDefinition, log: Log) -> list[bytes]:
    """The records of a file's data, in key order; what isn't taken is told, and then there are none."""
    if not file.path:
        return []
    data = Data(file, log)
    found = data.read(read_file(file.path))
    if not data.has_faults:
        data.look(found)
    if not data.has_faults:
        what = "1 record" if len(found) == 1 else f"{len(found)} records"
        log.read(Origin(name_of(file.path), 1, 0), f"{what} of {file.name}, {data.how}")
    return [] if data.has_faults else sorted((one.data for one in found), key=file.key)


def lines_of_text(data: bytes) -> list[str]:
    """The lines of a text without their ends. A byte order mark in front is none of it."""
    data = data.removeprefix(BYTE_ORDER_MARK)
    try:
        text = data.decode()
    except UnicodeDecodeError:
        text = data.decode("latin-1")
    return [line.removesuffix("\r") for line in text.removesuffix("\n").split("\n")]


def is_heading(line: str, file: FileDefinition) -> bool:
    """Whether a first line means to name fields: one of its words does, or it has several words, all like names."""
    words = [capitals(word.strip(f" {QUOTE}")) for word in re.split(f"[,{OTHERS}]", line)]
    names = {one.name for one in file.fields if one.name}
    return any(word in names for word in words) or len(words) > 1 and all(is_name(word) for word in words)


def cells_of(line: str) -> list[Cell]:
    """The values of a row: between commas, or between quotes, within which two stand for one."""
    found, at = [], 0
    while True:
        cell, at = quoted_cell(line, at) if line[at : at + 1] == QUOTE else plain_cell(line, at)
        found.append(cell)
        if at == len(line):
            return found
        at += 1


def plain_cell(line: str, begin: int) -> tuple[Cell, int]:
    end = line.find(COMMA, begin)
    text = line[begin : end if end >= 0 else len(line)]
    if QUOTE in text:
        raise Odd(begin + text.index(QUOTE), "a quote within a value; write: the value between quotes, and two for each in it")
    return Cell(text, begin), begin + len(text)


def quoted_cell(line: str, begin: int) -> tuple[Cell, int]:
    found = re.compile(r'"((?:[^"]|"")*)"').match(line, begin)
    if found is None:
        raise Odd(begin, "this quote isn't closed in its line")
    if line[found.end() : found.end() + 1] not in ("", COMMA):
        raise Odd(found.end(), "something between a closing quote and the comma")
    return Cell(found[1].replace('""', QUOTE), begin + 1, True), found.end()


def why_no_field(name: str, names: dict[str, RecordField], found: list[RecordField]) -> str:
    """Why a word of the first line names no field, or none that may be given; empty where it does."""
    if not name:
        return "no field's name"
    if name not in names:
        near = [capitals(name)] if capitals(name) in names else difflib.get_close_matches(capitals(name), names, 1)
        return f"{shown(name)[1:-1]} is no field of the record" + (f"; {near[0]}?" if near else "")
    one = names[name]
    if one in found:
        return f"{name} is there twice"
    if one.copies > 1 and one.kind in "PFH":
        return f"{name} is {one.copies} numbers, which no value gives; write the records as constants after ="
    shares = next((other.name for other in found if not set(one.places()).isdisjoint(other.places())), None)
    return f"{name} has bytes of {shares}, which is given, too" if shares else ""


def lacking_key(file: FileDefinition, fields: list[RecordField]) -> str:
    """The field of the key that isn't given; empty where its bytes are all given."""
    given = {at for one in fields for at in one.places()}
    for at in range(file.key_begin, file.key_begin + file.key_length):
        if at not in given:
            return next((one.name for one in file.fields if one.name and at in one.places()), f"byte {at} of the record")
    return ""


def shifted(text: str, skipped: int) -> bytes:
    """A text's bytes. A fault's column counts the skipped characters, which stand in front of the text in its line."""
    try:
        return coded(text)
    except Odd as why:
        raise Odd(skipped + why.at, str(why)) from None


def constants_bytes(line: str) -> bytes:
    """The bytes of the constants of a line, after its =."""
    data, at = b"", 1
    for text in cut(line[1:]):
        try:
            data += constant_bytes(text, len(data))
        except Odd as why:
            raise Odd(at + why.at, str(why)) from None
        at += len(text) + 1
    return data
