"""What was run of sources that stand in files: told by the lines of those, or, of adapted ones, of the files that they come from."""
import os
from collections.abc import Mapping, Sequence
from dataclasses import replace

from cics.assembler_files import Source
from cics.cli import Failure
from cics.cover.counts import Coverage, Covered, Line
from cics.origins import Origins, Place
from cics.sources import read_source
from cics.statements import statements_of


def in_file(one: Covered, source: Source) -> Covered:
    """A program's counts at the lines of the file that it was read from."""
    lines = [replace(line, place=Place(source.path, source.before + at), number=str(source.before + at)) for at, line in enumerate(one.lines, 1)]
    return replace(one, lines=lines)


def end_of(lines: Sequence[Line]) -> Place | None:
    """Where the END of a source stands; none where it has none."""
    ends = (at.origin.number for at in statements_of([line.text for line in lines], "") if at.operation == "END" and not at.is_comment)
    return next((lines[number - 1].place for number in ends), None)


def by_origin(lines: Sequence[Line]) -> dict[Place, Line]:
    """The statements by the lines that they come from: of those that come from one line, the first. What comes from END is what cics-adapt
    added, its routines."""
    end, found = end_of(lines), dict[Place, Line]()
    for line in lines:
        if line.runs is not None and line.place != end:
            found.setdefault(line.place, line)
    return found


def text_of_file(path: str) -> list[str]:
    """A file's lines; none where it can't be read, as one that isn't there any more."""
    try:
        return read_source(path).lines if os.path.isfile(path) else []
    except Failure:
        return []


def lines_of_file(file: str, of_file: Mapping[int, Line], main: str) -> list[Line]:
    """The lines of a file with their counts; of the file that isn't there those alone that have one."""
    texts = dict(enumerate(text_of_file(file), 1)) or {number: line.text for number, line in sorted(of_file.items())}
    found = []
    for number, text in texts.items():
        known = of_file.get(number)
        name = str(number) if file == main else f"{file}:{number}"
        if known or file == main:
            found.append(Line(Place(file, number), name, text, known.runs if known else None, known.branch if known else None))
    return found


def led_back(one: Covered, origins: Origins) -> Covered:
    """A program's counts at the lines from which its own come."""
    lines = [replace(line, place=origins.place(line.place.file, line.place.line)) for line in one.lines]
    found, files = by_origin(lines), dict.fromkeys(line.place.file for line in lines)
    if not found:
        return one
    end = end_of(lines)
    main = end.file if end else next(iter(files))
    made = [line for file in [main, *(file for file in files if file != main)]
            for line in lines_of_file(file, {place.line: it for place, it in found.items() if place.file == file}, main)]
    return replace(one, lines=made)


def of_sources(coverage: Coverage, sources: Sequence[Source], origins: Origins) -> Coverage:
    """What was run of sources, by the lines of their files."""
    by_name = {source.name: source for source in reversed(sources)}
    programs = [in_file(one, by_name[one.name]) for one in coverage.programs]
    return Coverage([led_back(one, origins) if origins.places and one.name == origins.program else one for one in programs], coverage.faults)
