"""The two programs: where they stand, and which of them a program is."""
import os
import re
from dataclasses import dataclass

from cics.child import TOP, Child, Overdue, decoded

SECONDS = 5.0  # for a program to say what it is
VERSION = re.compile(r"(?P<name>cicsedf|cicslook) (?P<version>\d\S*)")
USAGE = re.compile(r"(?P<name>cicsedf|cicslook): usage: ")


@dataclass(frozen=True)
class Identity:
    """Which of the two a program is, and its version where it says that."""

    name: str
    version: str | None


def is_executable(path: str) -> bool:
    return os.access(path, os.X_OK) and not os.path.isdir(path)


def places_of_program(name: str) -> list[str]:
    """Where a program may stand: in a release beside the companions' folder, in the repository where it is built."""
    return [os.path.join(TOP, "bin", name), os.path.join(TOP, f"crates/{name}/out/{name}")]


def found_program(name: str) -> str | None:
    return next((path for path in places_of_program(name) if is_executable(path)), None)


def beside(path: str, name: str) -> str:
    """The program of a name that was built with the one at a path: it stands in the same folder, or in its own crate's."""
    folder = os.path.dirname(os.path.abspath(path))
    crates = os.path.dirname(os.path.dirname(folder))
    places = [os.path.join(folder, name), os.path.join(crates, name, "out", name)]
    return next((place for place in places if is_executable(place)), places[-1])


def identify(path: str) -> Identity | None:
    """Which of the two programs stands at a path, by what it answers to --version: its name and version, or, where it takes no such word,
    its line of usage. None for any other program; an OSError where it can't be run."""
    try:
        with Child([path, "--version"], seconds=SECONDS) as child:
            ended = child.end()
    except Overdue:
        return None
    said, status = (VERSION.match(decoded(ended.out)), 0) if ended.status == 0 else (USAGE.match(decoded(ended.reported)), 2)
    return Identity(said["name"], said.groupdict().get("version")) if said and ended.status == status else None
