"""What is wrong with files, sources and scripts: each fault with the line that has it."""
from collections.abc import Sequence
from dataclasses import dataclass

from cics.adapting import adapted
from cics.assembler_files import Source, sources_of_file
from cics.child import decoded, encoded
from cics.cli import STANDARD_INPUT, Paint, name_of, read_file
from cics.explaining import kinds
from cics.faults import Fault, all_faults_of
from cics.origins import Origins
from cics.script_reading import bad_lines, bare_lines
from cics.scripts import actions_of
from cics.sources import read_source
from cics.texts import is_name

SCRIPT = ".script"
NO_NAME = "NONAME"
LONGEST = 200  # characters of a line that are shown


@dataclass(frozen=True)
class Found:
    """A fault, and the line that has it; none where it isn't known."""

    fault: Fault
    line: str | None

    def plain(self) -> list[str]:
        return [str(self.fault)]

    def marked(self, paint: Paint) -> list[str]:
        """The fault, its line, and a mark under the part at fault."""
        fault = self.fault
        colour = "yellow" if fault.is_note() else "red"
        place = ":".join(map(str, (fault.file, fault.line, fault.column) if fault.column else (fault.file, fault.line)))
        head = f"{paint.of(place, 'bold')}: {paint.of(fault.kind, colour)}{f': {fault.text}' if fault.text else ''}"
        if self.line is None or not fault.column or fault.column > LONGEST:
            return [head]
        shown = "".join(one if one.isprintable() else "." for one in self.line[:LONGEST])
        margin = f"{fault.line:5} | "
        length = max(1, min(fault.length, len(shown) - fault.column + 1))
        return [head, f"{margin}{shown}", f"{'':5} | " + " " * (fault.column - 1) + paint.of("^" * length, colour)]


def in_bytes(text: str) -> str:
    """A text of which each character stands for a byte."""
    return encoded(text).decode("latin-1")


def sources_in(path: str, text: str) -> list[Source]:
    """The sources of a script's blocks, where they stand in the script."""
    found = []
    for action in actions_of(text):
        if action.word == "SOURCE" and not action.is_open:
            name = action.words[1] if len(action.words) > 1 and is_name(action.words[1]) else NO_NAME
            found.append(Source(path, action.line, list(map(in_bytes, action.block)), name))
    return found


def faults_of_script(path: str, cicslook: str) -> list[Found]:
    """The bad lines of a script, and the faults of its sources."""
    text = decoded(read_file(path))
    lines, name = bare_lines(text), name_of(path)
    bad = [Fault(name, one.number, one.reason.column, one.reason.kind, one.reason.text, one.reason.length) for one in bad_lines(lines)]
    faults = all_faults_of(sources_in(name, text), cicslook)
    return [Found(fault, lines[fault.line - 1] if fault.line <= len(lines) else "") for fault in sorted([*bad, *faults], key=lambda one: one.line)]


def faults_of_sources(path: str, cicslook: str, origins: Origins) -> list[Found]:
    found = []
    sources = sources_of_file(path)
    lines = {source.before + number: line for source in sources for number, line in enumerate(source.lines, 1)}
    for fault in all_faults_of(sources, cicslook):
        place = fault.of(origins)
        found.append(Found(place, lines.get(fault.line) if place == fault else None))
    return found


def found_in(paths: Sequence[str], scripts: Sequence[str], cicslook: str, origins: Origins) -> list[Found]:
    """All that is wrong with some files, of which some are scripts."""
    return [one for path in paths for one in
            (faults_of_script(path, cicslook) if path in scripts else faults_of_sources(path, cicslook, origins))]


def adaptable(path: str, found: Sequence[Found]) -> int:
    """How many of a source's faulty lines cics-adapt rewrites."""
    told = adapted(read_source(path), name_of(path), []).log.told
    changed = {one.origin.number for one in told if not one.is_left and one.origin.file == name_of(path)}
    faulty = {one.fault.line for one in found if one.fault.file == name_of(path) and not one.fault.is_note()}
    return len(changed & faulty)


def hints(found: Sequence[Found], sources: Sequence[str]) -> list[str]:
    """What else there is on what was found: the files whose faults cics-adapt takes away, and how more is said of a kind."""
    lines = []
    for path in dict.fromkeys(sources):
        if path != STANDARD_INPUT and (count := adaptable(path, found)):
            lines.append(f"{path}: cics-adapt rewrites {count} of the faulty lines")
    named = dict.fromkeys(one.fault.kind for one in found if one.fault.kind in kinds())
    return lines + ([f"What a kind means, and what to write instead: cics-check --explain {next(iter(named))}"] if named else [])
