"""Test data: files whose lines become the items of temporary storage queues, by a program that is written into a script.

A line of a file is an item: its characters by their codes, and a byte that stands for no character here as it is. A line that begins
with `=` is an item given by constants, as `=CL5'A1000',PL4'125'`; one that begins with `==` is the text from the second on.
"""
from dataclasses import dataclass, field

from cics.child import lines_of
from cics.cli import MISUSED, Failure, name_of, read_file
from cics.constants import item_of, size_of
from cics.sources import BYTE_ORDER_MARK
from cics.statements import CONTINUED, LAST, MARK, put
from cics.texts import CODED, cut, is_decimal

MOST_BYTES, MOST_ITEMS, LONGEST = 40_000, 1_500, 32_767  # of a program, and of an item
LOADER, TRANSACTION, TERMINAL = "$QLOAD", "$QL", "$QLD"


@dataclass(frozen=True)
class Given:
    """A queue and the file of its items, as they are given: NAME=FILE."""

    queue: str
    path: str


@dataclass(frozen=True)
class Item:
    """An item: its constants, about how many bytes they have, and the file and the line that give it."""

    queue: str
    constants: list[str]
    size: int
    place: str


def given_of(words: list[str]) -> list[Given]:
    found = []
    for word in words:
        queue, equals, path = word.partition("=")
        if not equals or not (1 <= len(queue) <= 8 and all(character in CODED and character != "=" for character in queue)):
            raise Failure(f"--queue {word}: write: --queue NAME=FILE, the name of 1 to 8 characters", MISUSED)
        found.append(Given(queue, path))
    return found


def text_constants(line: str) -> list[str]:
    """A text's constants: C'..' for what has characters, X'..' for the rest."""
    found: list[str] = []
    begin = 0
    while begin < len(line):
        is_text = line[begin] in CODED
        end = begin
        while end < len(line) and (line[end] in CODED) == is_text:
            end += 1
        piece = line[begin:end]
        doubled = piece.replace("'", "''").replace("&", "&&")
        found.append(f"C'{doubled}'" if is_text else f"X'{piece.encode('latin-1').hex().upper()}'")
        begin = end
    return found


def constants_size(path: str, number: int, constants: list[str]) -> int:
    """About how many bytes constants have; a line that has none is a failure."""
    total = 0
    for text in constants:
        item = item_of(text)
        modifiers = [part for part in (item.duplication, item.modifier) if part] if item else []
        if item is None or not item.value or not all(map(is_decimal, modifiers)):
            raise Failure(f"{path}:{number}: {text}: no constant; after = write constants, as CL5'A1000',PL4'125', or == for a text")
        size = size_of(item, int(item.modifier) if item.modifier else None)
        total += size.copy * int(item.duplication or "1") + size.alignment - 1
    return total


def items_of(given: Given) -> list[Item]:
    data = read_file(given.path)
    if data.startswith(BYTE_ORDER_MARK):
        raise Failure(f"{given.path}:1: a byte order mark in front of the text, X'EFBBBF': take it out")
    found = []
    for number, line in enumerate(lines_of(data.decode("latin-1")), 1):
        line = line.removesuffix("\r")
        is_given = line.startswith("=") and not line.startswith("==")
        constants = cut(line[1:]) if is_given else text_constants(line.removeprefix("=") if line.startswith("==") else line)
        size = constants_size(given.path, number, constants) if is_given else len(line)
        if not 1 <= size <= LONGEST:
            raise Failure(f"{given.path}:{number}: an item has 1 to {LONGEST} bytes")
        found.append(Item(given.queue, constants, size, f"{name_of(given.path)}:{number}"))
    return found


def statement_lines(name: str, operation: str, operand: str) -> list[str]:
    """A statement as lines, continued where it is long."""
    text = put(put(name, 9, operation), 15, operand)
    lines, rest = [text[:LAST]], text[LAST:]
    while rest:
        lines[-1] = lines[-1].ljust(MARK) + "X"
        lines.append(" " * CONTINUED + rest[: LAST - CONTINUED])
        rest = rest[LAST - CONTINUED :]
    return lines


CODE = """
         L     5,=A(QUEUES)
QUEUE    CLI   0(5),X'00'              AFTER THE LAST QUEUE?
         BE    LOADED
         L     4,8(,5)
ITEM     SR    6,6
         ICM   6,3,0(4)                THE ITEM'S LENGTH
         BZ    NEXT
         STH   6,ITEMLEN
         EXEC  CICS WRITEQ TS QUEUE(0(5)) FROM(2(4)) LENGTH(ITEMLEN)
         LA    4,2(6,4)
         B     ITEM
NEXT     LA    5,12(,5)
         B     QUEUE
LOADED   EXEC  CICS RETURN
         LTORG
""".strip("\n").split("\n")


def item_lines(at: int, item: Item) -> list[str]:
    """The statements of an item: its length, and its constants."""
    return [*statement_lines("", "DC", f"AL2(E{at}-S{at})"), *statement_lines(f"S{at}", "DC", ",".join(item.constants)), f"E{at:<7} EQU   *"]


@dataclass
class Loader:
    """A program that loads test data: its source, its transaction, how many turns it needs, and which items' lines are whose, by their numbers
    from 1."""

    name: str
    transaction: str
    lines: list[str]
    turns: int
    places: dict[int, str] = field(default_factory=dict)

    def add(self, lines: list[str], place: str) -> None:
        self.places |= dict.fromkeys(range(len(self.lines) + 1, len(self.lines) + len(lines) + 1), place)
        self.lines += lines

    def place(self, line: int) -> str:
        """Of which line of a file of test data a line of the program is."""
        return self.places.get(line, self.name)


def loader_of(name: str, transaction: str, items: list[Item]) -> Loader:
    """A program that writes items to their queues."""
    queues = list(dict.fromkeys(item.queue for item in items))
    lines = ["* WRITES THE ITEMS OF TEST DATA TO THEIR QUEUES", "DFHEISTG DSECT", "ITEMLEN  DS    H", f"{name:<8} CSECT", *CODE]
    lines.append("QUEUES   DS    0F")
    for number, queue in enumerate(queues):
        doubled = queue.replace("'", "''").replace("&", "&&")
        lines += statement_lines("", "DC", f"CL8'{doubled}',A(Q{number})")
    loader = Loader(name, transaction, [*lines, "         DC    X'00'"], 2 * len(items) + 2)
    for number, queue in enumerate(queues):
        loader.lines.append(f"Q{number:<7} DS    0C")
        for at, item in enumerate(items):
            if item.queue == queue:
                loader.add(item_lines(at, item), item.place)
        loader.lines.append("         DC    AL2(0)")
    loader.lines.append("         END")
    return loader


def loaders_of(given: list[Given]) -> list[Loader]:
    """The programs that load test data; more than one where there is too much for one."""
    parts: list[list[Item]] = [[]]
    for item in (item for one in given for item in items_of(one)):
        if len(parts[-1]) >= MOST_ITEMS or sum(other.size for other in parts[-1]) + item.size > MOST_BYTES:
            parts.append([])
        parts[-1].append(item)
    full = [part for part in parts if part]
    names = [f"{LOADER}{number}" for number in range(1, len(full) + 1)]
    return [loader_of(name, f"{TRANSACTION}{chr(ord('A') + at)}", part) for at, (name, part) in enumerate(zip(names, full))]
