"""Calls of the companions by their words, as a user has them, and files for them."""
import contextlib
import fnmatch
import os
import subprocess
import tempfile
from collections.abc import Iterator, Mapping, Sequence
from dataclasses import dataclass, field

from cics.child import Ended
from tests.case import CICSLOOK, COMPANIONS

SOURCE = "P        CSECT\n         EXEC  CICS RETURN\n         END\n"
FAULTY = SOURCE.replace("RETURN", "RETERN")
SCRIPT = f"SOURCE P\n{SOURCE}/*\nTRANSACTION P P\nTERMINAL T001\nKEY T001 ENTER P\nRUN T001\n"
FILES = {"p.asm": SOURCE, "f.asm": FAULTY, "s.script": SCRIPT}


def put(folder: str, files: Mapping[str, str | bytes]) -> None:
    """Writes files, a byte for each character of a text."""
    for name, content in files.items():
        path = os.path.join(folder, name)
        os.makedirs(os.path.dirname(path), exist_ok=True)
        with open(path, "wb") as file:
            file.write(content.encode("latin-1") if isinstance(content, str) else content)


@contextlib.contextmanager
def folder_of(files: Mapping[str, str | bytes]) -> Iterator[str]:
    with tempfile.TemporaryDirectory() as folder:
        put(folder, files)
        yield folder


def program(folder: str, script: str) -> str:
    """A program that answers to --version as cicslook does, and else runs a script of the shell."""
    path = os.path.join(folder, "program")
    put(folder, {"program": f'#!/bin/sh\n[ $# = 0 ] || exec {CICSLOOK} "$@"\n{script}\n'})
    os.chmod(path, 0o755)
    return path


def called(companion: str, words: Sequence[str], folder: str, *, given: bytes = b"", redirected: str = "", largest: int | None = None) -> Ended:
    """How a call ends, perhaps with a redirection of the shell, or with a limit of what a file may have."""
    limit = f"ulimit -f {largest // 512}; " if largest else ""
    command = ["/bin/sh", "-c", f'{limit}exec "$@" {redirected}', "sh", os.path.join(COMPANIONS, companion), *words]
    ran = subprocess.run(command, cwd=folder, input=given, capture_output=True, timeout=300, check=False)
    return Ended(ran.returncode, ran.stdout, ran.stderr)


@dataclass(frozen=True)
class Call:
    """A call in a folder with these files, and how it ends: its status, its output, in which * stands for anything, and words that are in
    what is told on standard error."""

    what: str
    companion: str
    words: list[str]
    status: int
    out: list[str]
    files: dict[str, str] = field(default_factory=dict)
    told: str = ""


def is_line(due: str, line: str) -> bool:
    return fnmatch.fnmatchcase(line, due.replace("[", "[[]").replace("?", "[?]"))


def failure_of(call: Call, programs: list[str]) -> str | None:
    with folder_of(call.files) as folder:
        ended = called(call.companion, [*call.words, *programs], folder)
    lines = ended.out.decode("latin-1").splitlines()
    is_out = len(lines) == len(call.out) and all(map(is_line, call.out, lines))
    is_told = call.told in ended.reported.decode() and (call.told != "" or ended.reported == b"")
    is_well = ended.status == call.status and is_out and is_told and b"Traceback" not in ended.reported
    return None if is_well else "\n".join([f"{call.what}: status {ended.status}, {ended.reported.decode()!r}", *lines])


def failures_of(calls: list[Call], programs: list[str]) -> list[str]:
    return [failure for call in calls if (failure := failure_of(call, programs))]
