"""The version of a release: the places that have it. It is the one in VERSION, and docs/CHANGES.md says first what it brought."""
import os
import re

from cics.child import TOP
from cics.cli import Failure
from cics.files import put_file
from repository import text_of

CHANGES = "docs/CHANGES.md"
PLACES = {  # the files with expressions of what is in front of a version there; of the changes the first heading counts
    "VERSION": r"\A",
    "README.md": r"(?<=\bcicsedf-)",
    "crates/cicslook/src/main.rt": r'(?<="cicslook )',
    "docs/LOOKS.md": r"(?<=`cicslook )",
    CHANGES: r"(?<=^## )",
}
NUMBER = r"\d+\.\d+\.\d+"
UNRELEASED = re.compile(rf"^Not released yet: the programs still call themselves ({NUMBER})\.\n\n", re.M)


def found_in(path: str, top: str) -> list[str]:
    """The versions in a file; of the changes the newest, or the one of which they say that it is still the programs'."""
    text = text_of(os.path.join(top, path))
    found = re.findall(PLACES[path] + NUMBER, text, re.M)
    return (UNRELEASED.findall(text) or found)[:1] if path == CHANGES else found


def newest(top: str = TOP) -> str:
    """The newest version of the changes."""
    return next(found[0] for found in re.finditer(PLACES[CHANGES] + NUMBER, text_of(os.path.join(top, CHANGES)), re.M))


def disagreements(top: str = TOP) -> list[str]:
    """The files that have another version than VERSION, or none."""
    due = text_of(os.path.join(top, "VERSION")).strip()
    found = {path: found_in(path, top) for path in PLACES}
    return [f"{path} has {', '.join(versions) or 'no version'}, and VERSION {due}" for path, versions in found.items() if {*versions} != {due}]


def refuse_unreleased() -> None:
    """Ends where the places disagree, or the changes say that their newest version isn't released."""
    if faults := disagreements():
        raise Failure("; ".join(faults))
    if UNRELEASED.search(text_of(os.path.join(TOP, CHANGES))):
        raise Failure(f"{CHANGES} says that its newest version isn't released yet: write it to all places by ./release --as VERSION")


def write_version(version: str) -> list[str]:
    """Writes a version to all its places; the files that it changed. The changes must have it as their newest."""
    if version != newest():
        raise Failure(f"{CHANGES} doesn't begin with what {version} brought")
    changed = []
    for path, front in PLACES.items():
        old = text_of(os.path.join(TOP, path))
        new = UNRELEASED.sub("", old) if path == CHANGES else re.sub(front + NUMBER, version, old, flags=re.M)
        if new != old:
            put_file(os.path.join(TOP, path), new.encode())
            changed.append(path)
    return changed
