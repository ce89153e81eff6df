"""The two versions of programs that are compared, by the words of cics-same: a script with sources replaced, or two scripts."""
import contextlib
from collections.abc import Iterator
from dataclasses import dataclass

from cics.assembler_files import refuse_block_end, refuse_mark
from cics.child import decoded, lines_of
from cics.cli import MISUSED, Failure, name_of, read_file
from cics.same import Fault, NewSource, Sources, steps_of
from cics.scripts import Action

FORMS = "write: cics-same SCRIPT PROGRAM OLD NEW, cics-same SCRIPT --source PROGRAM=OLD:NEW, or cics-same OLD.script NEW.script"


@dataclass(frozen=True)
class Side:
    """One of the two: what it is called, and what is asked of it."""

    name: str
    steps: list[Action]


@contextlib.contextmanager
def running(name: str) -> Iterator[None]:
    """What can't be run is told by its name."""
    try:
        yield
    except Fault as why:
        raise Fault(f"{name} can't be run: {why}") from None


def wrong(text: str) -> Failure:
    return Failure(f"{text}; {FORMS}", MISUSED)


def text_of(path: str) -> str:
    try:
        return decoded(read_file(path))
    except Failure as why:
        raise Failure(str(why), MISUSED) from None


def source_of(path: str) -> NewSource:
    """A source that a block can have."""
    text, name = text_of(path), name_of(path)
    if text.startswith("\ufeff"):
        refuse_mark(name)
    refuse_block_end(name, lines_of(text))
    return NewSource(name, lines_of(text))


def side_of(script: str, sources: dict[str, str], name: str) -> Side:
    """A script with the files of sources by their names."""
    replacing = Sources({program: source_of(path) for program, path in sources.items()})
    steps = steps_of(text_of(script), replacing, name_of(script))
    missing = sorted(set(sources) - replacing.found)
    if missing:
        raise Failure(f"{name_of(script)}: it has no SOURCE {missing[0]}", MISUSED)
    return Side(name, steps)


def of_sources(script: str, given: list[str]) -> list[Side]:
    """The sides by what --source gives: PROGRAM=OLD:NEW."""
    old, new = {}, {}
    for word in given:
        program, _, files = word.partition("=")
        old[program], colon, new[program] = files.partition(":")
        if not colon:
            raise wrong(f"--source {word}")
    return [side_of(script, files, ", ".join(files.values())) for files in (old, new)]


def sides_of(words: list[str], given: list[str]) -> list[Side]:
    """The two sides by the words, and by what --source gives."""
    if given:
        if len(words) != 1:
            raise wrong(f"{len(words)} files with --source")
        return of_sources(words[0], given)
    if len(words) == 2:
        return [side_of(path, {}, path) for path in words]
    if len(words) != 4:
        raise wrong(f"{len(words)} words")
    script, program, *paths = words
    return [side_of(script, {program: path}, path) for path in paths]
