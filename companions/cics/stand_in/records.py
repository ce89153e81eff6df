"""Files as they are given: a record's fields, where its key is, and how its data are written for the program of files."""
import re
from dataclasses import dataclass, field
from enum import Enum

from cics.cli import MISUSED, Failure
from cics.constants import Item, item_of
from cics.expressions import Value
from cics.layout import Layout
from cics.statements import Statement
from cics.texts import CODED, cut, is_name

MOST_KEY, MOST_RECORD, MOST_INDEX = 200, 32_000, 32_767
HOW = ("write: --file NAME=DATA,key=FIELD, or NAME=,key=FIELD for an empty one; record=NAME where the record isn't found by itself, form=fields, "
       "form=lines or form=bytes where the data's form isn't")
OPTIONS = ("key", "record", "form")
PIECE, SHORT = 100, 4  # bytes of a constant; characters that are given as such


class Form(Enum):
    """How data give records: by values of fields, by lines that are records, or by bytes."""

    FIELDS = "fields"
    LINES = "lines"
    BYTES = "bytes"


@dataclass(frozen=True)
class RecordField:
    """A field of a record: its place, how long it is, its type, and of how many copies it is."""

    name: str
    begin: int
    length: int
    kind: str
    copies: int = 1

    def places(self) -> range:
        """The bytes of the record that it is."""
        return range(self.begin, self.begin + self.length)


@dataclass(frozen=True)
class FileDefinition:
    """A file: its record's length, the place and length of its key, the record's fields, the path of its data, if it has some, and their form,
    where that is given."""

    name: str
    length: int
    key_begin: int
    key_length: int
    fields: list[RecordField]
    path: str
    form: Form | None = None

    def key(self, record: bytes) -> bytes:
        return record[self.key_begin : self.key_begin + self.key_length]

    def is_of_key(self, one: RecordField) -> bool:
        """Whether a field has bytes of the key."""
        return one.begin < self.key_begin + self.key_length and self.key_begin < one.begin + one.length


@dataclass(frozen=True)
class GivenFile:
    """What a word of --file says."""

    name: str
    path: str
    key: str
    record: str
    form: Form | None = None

    @staticmethod
    def of(word: str) -> "GivenFile":
        name, equals, rest = word.partition("=")
        path, *others = rest.split(",")
        options = dict(text.partition("=")[::2] for text in others)
        form = next((one for one in Form if one.value == options.get("form")), None)
        is_known = len(options) == len(others) and set(options) <= set(OPTIONS) and ("form" in options) == (form is not None)
        if not equals or not is_name(name) or not is_known or not options.get("key"):
            raise Failure(f"--file {word}: {HOW}", MISUSED)
        return GivenFile(name, path, options["key"], options.get("record", ""), form)


@dataclass(frozen=True)
class Place:
    """A DS of a source: its statement's name, its item, and where it is."""

    name: str
    item: Item
    begin: Value
    length: int  # of all copies
    one: int  # of one copy


@dataclass
class Source:
    """A source's statements with their places."""

    statements: list[Statement]
    layout: Layout
    places: list[Place] = field(default_factory=list)

    def __post_init__(self) -> None:
        for one in self.statements:
            placed = self.layout.placed.get(one.origin.order)
            if one.operation == "DS" and placed and not one.is_comment:
                for number, (text, begin) in enumerate(zip(cut(one.operand), placed.items)):
                    item, size, copies = item_of(text), self.layout.size(text), self.layout.copies(text)
                    if item and size and copies is not None:
                        self.places.append(Place(one.name if number == 0 else "", item, begin, size.copy * copies, size.copy))

    def named(self, name: str) -> Place | None:
        return next((one for one in self.places if one.name == name), None)

    def file(self, given: GivenFile) -> FileDefinition | None:
        """The file, by the record in this source that has its key; none where there is no such field."""
        key = self.named(given.key)
        if key is None:
            return None
        begin, length = self.record(given, key)
        inside = [one for one in self.places if one.begin.places == begin.places and 0 <= one.begin.number - begin.number and one.length > 0
                  and one.begin.number - begin.number + one.length <= length]
        fields = [RecordField(one.name, one.begin.number - begin.number, one.length, one.item.kind, one.length // one.one) for one in inside]
        definition = FileDefinition(given.name, length, key.begin.number - begin.number, key.one, fields, given.path, given.form)
        if key.one > MOST_KEY or length > MOST_RECORD:
            raise Failure(f"--file {given.name}: a key has at most {MOST_KEY} bytes here, a record {MOST_RECORD}", MISUSED)
        return definition

    def record(self, given: GivenFile, key: Place) -> tuple[Value, int]:
        """Where the record begins, and its length: a DS around the key, or the section that the key is in."""
        around = [one for one in self.places if one.name and one is not key and one.begin.places == key.begin.places
                  and one.begin.number <= key.begin.number and key.begin.number + key.one <= one.begin.number + one.one and one.one > key.one]
        chosen = [one for one in around if one.name == given.record] if given.record else around[-1:]
        if chosen:
            return chosen[0].begin, chosen[0].one
        section = next(iter(key.begin.places)).section
        first = self.layout.value(section)
        if given.record not in ("", section) or first is None or first.places != key.begin.places or section == "DFHEISTG":
            raise Failure(f"--file {given.name}: no record around {given.key}: neither a DS 0CLn nor a DSECT; {HOW}", MISUSED)
        end = max(one.begin.number + one.length for one in self.places if one.begin.places == first.places)
        return first, end - first.number


def file_of(given: GivenFile, sources: list[Source]) -> FileDefinition:
    found = next((file for source in sources if (file := source.file(given))), None)
    if found is None:
        raise Failure(f"--file {given.name}: no source has a field {given.key}", MISUSED)
    return found


def constants_of(data: bytes) -> list[str]:
    """Bytes as constants: C'..' for runs of characters, X'..' for the rest."""
    text = data.decode("cp037")
    kinds = "".join("C" if character in CODED else "X" for character in text)
    for found in re.finditer("C+", kinds):
        if found.end() - found.start() < SHORT:
            kinds = kinds[: found.start()] + "X" * (found.end() - found.start()) + kinds[found.end() :]
    runs = [(found.start(), found.end()) for found in re.finditer(rf"C{{1,{PIECE}}}|X{{1,{PIECE}}}", kinds)]
    return [f"C'{doubled(text[begin:end])}'" if kinds[begin] == "C" else f"X'{data[begin:end].hex().upper()}'" for begin, end in runs]


def doubled(text: str) -> str:
    return text.replace("'", "''").replace("&", "&&")


def queue_lines(file: FileDefinition, records: list[bytes]) -> list[str]:
    """The lines of a file for --queue: the index, then the records."""
    entries = b"".join(file.key(record) + (at + 2).to_bytes(2, "big") for at, record in enumerate(records))
    return ["=" + ",".join(constants_of(item)) for item in (len(records).to_bytes(2, "big") + entries, *records)]


def table_rows(files: dict[str, FileDefinition]) -> list[str]:
    """The lines of the file program's table."""
    return [f"         DC    CL8'{one.name}',H'{one.key_length}',H'{one.key_begin}',H'{one.length}',H'{one.key_begin + one.key_length}'"
            for one in files.values()]
