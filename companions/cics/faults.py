"""The faults and notes of sources, as `FAULTS` of cicslook finds them."""
import re
from dataclasses import dataclass, replace

from cics.assembler_files import Source, run_script
from cics.layout import WORKING_STORAGE
from cics.looks import Fault as Row
from cics.origins import Origins, Place
from cics.statements import statements_of

WORD = re.compile(r">>(?P<word>.*?)<<")  # in a line of FAULTS the part at fault


@dataclass(frozen=True)
class Fault:
    """A fault or a note: where it is, and what."""

    file: str
    line: int
    column: int
    kind: str
    text: str
    length: int = 0  # of the part at fault, in its line; 0 where it isn't known

    def is_note(self) -> bool:
        return self.kind == "note"

    def of(self, origins: Origins) -> "Fault":
        """The fault at the line from which its own comes; its column isn't known there."""
        place = origins.place(self.file, self.line)
        return self if place == Place(self.file, self.line) else replace(self, file=place.file, line=place.line, column=0, length=0)

    def __str__(self) -> str:
        place = f"{self.file}:{self.line}:{self.column}:"
        return f"{place} {self.kind}: {self.text}" if self.text else f"{place} {self.kind}"


@dataclass(frozen=True)
class Block:
    """A source's block in a script: its lines go from the one after `first` on."""

    source: Source
    first: int

    def has(self, line: int) -> bool:
        return self.first < line <= self.first + len(self.source.lines) + 1

    def fault(self, found: Row) -> Fault:
        line = found.line - self.first
        word, text = WORD.search(found.text), found.text.strip()
        kind = "note" if found.kind == "NOTE" else found.kind.split()[0]
        shown = text if kind == "note" else found.missing or (word["word"] if word else text)
        part = word["word"] if word else text.partition(" IS ")[0]
        number = self.source.before + min(line, max(len(self.source.lines), 1))
        return Fault(self.source.path, number, found.column, kind, shown, len(part))


REFUSED = re.compile(r"PROGRAM (?P<name>\S+) (?:REFUSED (?P<kind>\S+)|AT .*)")


def place_of(source: Source, kind: str) -> tuple[int, int, int]:
    """The line by which a program is refused, with the column and the length of what it is called there: its working storage, its END, or
    else its first statement."""
    code = [one for one in statements_of(source.lines, "") if not one.is_comment]
    fitting = {"StgLength": [one for one in code if one.name == WORKING_STORAGE], "EntryOutside": [one for one in code if one.operation == "END"]}
    found = next(iter([*fitting.get(kind, []), *code]), None)
    if found is None:
        return source.before + 1, 1, 0
    name = found.name or found.operation
    return source.before + found.origin.number, found.lines[0].find(name) + 1, len(name)


def refusals_of(sources: list[Source], cicslook: str) -> list[Fault]:
    """The programs that the region refuses of faultless sources, which are defined one after the other: FAULTS loads none."""
    script = [line for source in sources for line in source.block("SOURCE")]
    replies = [found for found in map(REFUSED.fullmatch, run_script(script, cicslook)) if found] if script else []
    found = []
    for source, reply in zip(sources, replies):
        if kind := reply["kind"]:
            line, column, length = place_of(source, kind)
            found.append(Fault(source.path, line, column, kind, f"the program {source.name} is refused", length))
    return found


def faultless_of(sources: list[Source], faults: list[Fault]) -> list[Source]:
    """The sources that have no fault; notes are none."""
    lines = {(fault.file, fault.line) for fault in faults if not fault.is_note()}
    return [source for source in sources
            if not any((source.path, source.before + number) in lines for number in range(1, max(len(source.lines), 1) + 1))]


def all_faults_of(sources: list[Source], cicslook: str) -> list[Fault]:
    """The faults and notes of sources, and which of those without a fault are refused as programs."""
    faults = faults_of(sources, cicslook)
    return [*faults, *refusals_of(faultless_of(sources, faults), cicslook)]


def faults_of(sources: list[Source], cicslook: str) -> list[Fault]:
    script: list[str] = []
    blocks = []
    for source in sources:
        blocks.append(Block(source, len(script) + 1))
        script += source.block("FAULTS")
    found = Row.all_in(run_script(script, cicslook))
    return [next(block for block in blocks if block.has(row.line)).fault(row) for row in found]
