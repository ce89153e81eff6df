"""The examples: their scripts, and how the run of each ends."""
import glob
import os
import re
from collections.abc import Callable, Iterable
from functools import partial

from cics.child import TOP, Ended, encoded, lines_of, read, run
from cics.transcripts import is_of_page
from checks.common import Case, Counts, Wrong
from checks.plain_scripts import is_look_in, plain_of

FOLDER = os.path.join(TOP, "examples")
FAULT = re.compile(rb"(cicsedf: line )([0-9]+)(.*)", re.S)


def path_of(name: str, kind: str = "script") -> str:
    """The file of an example: its script, or its transcript, stderr or status."""
    return os.path.join(FOLDER, f"{name}.{kind}")


def names_of(*patterns: str) -> list[str]:
    return [path.removesuffix(".script") for pattern in patterns for path in sorted(glob.glob(f"{pattern}.script", root_dir=FOLDER))]


def examples() -> list[str]:
    return names_of("*", "cases/*", "sources/*")


def lessons() -> list[str]:
    """The names of the examples that are lessons. They are long, and what they do the others do too: few checks take them."""
    return names_of("lessons/*/*")


def looks() -> list[str]:
    """The names of the examples that show looks, CHOICES and ORDERS, which are scripts of `cicslook` alone. Most lessons are such scripts too."""
    return names_of("looks/*", "choices/*", "orders/*")


def each_of(names: Iterable[str], attempt: Callable[[str], Counts]) -> list[Case]:
    return [Case(name, partial(attempt, name)) for name in names]


def script_of(name: str) -> bytes:
    return read(path_of(name))


def lines_in(name: str) -> list[str]:
    return lines_of(script_of(name).decode())


def lines_of_script(script: bytes) -> list[str]:
    """The lines of a script; of an empty one an empty line."""
    return script.decode().removesuffix("\n").split("\n")


def text_of(lines: Iterable[str]) -> bytes:
    return encoded("".join(f"{line}\n" for line in lines))


def has_looks(name: str) -> bool:
    """Whether an example has a look or RUN outside its blocks: it is a script of `cicslook` alone."""
    return is_look_in(lines_in(name))


def wanted(name: str) -> Ended:
    """How the run of an example ends: NAME.transcript is written, NAME.stderr is written on standard error, and
    NAME.status is the status; where one of the latter two is missing, nothing is written there, and the status is 0."""
    paths = [path_of(name, kind) for kind in ("stderr", "status")]
    reported, status = (read(path) if os.path.exists(path) else b"" for path in paths)
    return Ended(int(status or b"0"), read(path_of(name, "transcript")), reported)


def plain(name: str) -> tuple[bytes, Ended]:
    """The script of an example as `cicsedf` runs it, without looks, bad ones too, and with the turns of each RUN in its place, and how that
    run ends."""
    due = wanted(name)
    if not has_looks(name):
        return script_of(name), due
    script, transcript, numbers = plain_of(lines_in(name), due.lines())
    fault = FAULT.fullmatch(due.reported)
    if fault and fault[3].startswith(b": BadLook"):
        return text_of(script), Ended(0, text_of(transcript), b"")
    reported = b"%s%d%s\n" % (fault[1], numbers[int(fault[2]) - 1], fault[3].partition(b"\n")[0]) if fault else due.reported
    return text_of(script), Ended(due.status, text_of(transcript), reported)


def actions(name: str) -> tuple[list[str], list[str]]:
    """The lines of an example without comments and empty lines: up to its first key, and from it on."""
    lines = [line for line in lines_in(name) if line and not line.startswith("*")]
    first = next(at for at, line in enumerate(lines) if line.startswith("KEY"))
    return lines[:first], lines[first:]


def blocks_of(lines: Iterable[str], verbs: tuple[str, ...] = ("IMAGE ", "SOURCE ")) -> list[list[str]]:
    """A script's lines, those of a block together."""
    found: list[list[str]] = []
    is_inside = False
    for line in lines:
        if is_inside:
            found[-1].append(line)
        else:
            found.append([line])
        is_inside = line != "/*" and (is_inside or line.startswith(verbs))
    return found


def reported_of(terminals: Iterable[str], transcript: Iterable[str]) -> list[str]:
    """The lines written for terminals; a page's lines belong to the line in front of them."""
    reported, is_theirs, names = [], False, set(terminals)
    for line in transcript:
        if not is_of_page(line):
            words = line.split()
            is_theirs = len(words) > 1 and words[1] in names
        if is_theirs:
            reported.append(line)
    return reported


def transcript_of(program: str, lines: Iterable[str]) -> list[str]:
    """The transcript of a script that must end well, as lines."""
    ended = run([program], text_of(lines))
    if not ended.is_well():
        raise Wrong(str(ended))
    return ended.lines()
