"""Scripts as tests: what their screens show, compared with what is kept of it beside them."""
import difflib
import os
import re
import xml.etree.ElementTree as xml
from collections import Counter
from collections.abc import Iterator, Sequence
from dataclasses import asdict, dataclass, field
from typing import NoReturn

from cics.child import decoded, lines_of
from cics.cli import MISUSED, Failure, Paint, read_file
from cics.cover.asking import Asked, as_alone, coverage_in, why_not
from cics.cover.counts import Coverage
from cics.files import Mark, old_bytes, write_file
from cics.scripts import actions_of
from cics.shown import as_file, shown, why_kept, with_screens
from cics.together import Run, run_together

JUNIT = Mark("cics-test", '<?xml version="1.0" encoding="utf-8"?><!-- cics-test ', " -->")
SCRIPT, SCREENS = ".script", ".screens"
UNWRITABLE = re.compile("[^\t\n\x20-\ud7ff\ue000-\ufffd]")  # what XML has no character for
SAID = {"same": "ok", "written": "written", "unchanged": "unchanged", "differs": "differs", "missing": "has no .screens; write them by --write",
        "failed": "isn't done to its end", "empty": "tests nothing: it presses no key", "unread": "isn't tested"}
WELL = ("same", "written", "unchanged")
UNREAD = "unread"  # it, or what is kept of it, can't be read or written


@dataclass(frozen=True)
class Outcome:
    """What came of a script."""

    script: str
    outcome: str  # a word of SAID
    seconds: float
    why: str = ""
    difference: list[str] = field(default_factory=list)

    def is_well(self) -> bool:
        return self.outcome in WELL

    def said(self) -> str:
        return f"{SAID[self.outcome]}: {self.why}" if self.why else SAID[self.outcome]

    def lines(self, paint: Paint) -> list[str]:
        said = paint.of(self.said(), "green" if self.is_well() else "red")
        colours = {"-": "red", "+": "green", "@": "bold"}
        return [f"{self.script}: {said}", *(paint.of(line, colours[line[0]]) if line[0] in colours else line for line in self.difference)]

    def as_object(self) -> dict[str, object]:
        return {**asdict(self), "seconds": round(self.seconds, 3)}


def scripts_in(place: str) -> list[str]:
    """The scripts of a folder and of the folders in it, in order; a script is itself."""
    if place.endswith(SCRIPT) and not os.path.isdir(place):
        return [place]
    if not os.path.isdir(place):
        raise Failure(f"{place}: no such folder, nor a file NAME{SCRIPT}")
    found = [os.path.join(folder, name) for folder, _, names in os.walk(place, onerror=untold) for name in names if name.endswith(SCRIPT)]
    if not found:
        raise Failure(f"{place}: no file NAME{SCRIPT} is in it, so nothing is tested", MISUSED)
    return sorted(found)


def untold(why: OSError) -> NoReturn:
    """A folder that can't be read: nobody knows what isn't tested."""
    raise Failure(f"{why.filename}: {why.strerror}")


def screens_of(script: str) -> str:
    return script.removesuffix(SCRIPT) + SCREENS


@dataclass(frozen=True)
class Test:
    """A script, and whether what it shows is written beside it."""

    script: str
    text: str
    writes: bool
    is_forced: bool = False  # over what has another form than screens

    def outcome(self, run: Run) -> Outcome:
        why = why_not(run.ended, run.why)
        if why or run.ended is None:
            return Outcome(self.script, "failed", run.seconds, why)
        if all(action.word != "KEY" for action in actions_of(self.text)):
            return Outcome(self.script, "empty", run.seconds)
        lines = shown(self.text, run.ended.lines())
        try:
            return self.kept(lines, run.seconds) if self.writes else self.compared(lines, run.seconds)
        except Failure as fault:
            return Outcome(self.script, UNREAD, run.seconds, str(fault))

    def compared(self, lines: list[str], seconds: float) -> Outcome:
        if not os.path.exists(screens_of(self.script)):
            return Outcome(self.script, "missing", seconds)
        kept = [line.removesuffix("\r") for line in lines_of(decoded(read_file(screens_of(self.script))))]
        differing = [line.rstrip("\n") for line in difflib.unified_diff(kept, lines, screens_of(self.script), self.script, lineterm="")]
        return Outcome(self.script, "differs" if kept != lines else "same", seconds, difference=differing)

    def kept(self, lines: list[str], seconds: float) -> Outcome:
        path, data = screens_of(self.script), as_file(lines)
        old = old_bytes(path, why_kept, f"what {self.script} shows", is_forced=self.is_forced)
        if old != data:
            write_file(path, data, why_kept, f"what {self.script} shows", is_forced=self.is_forced)
        return Outcome(self.script, "unchanged" if old == data else "written", seconds)


@dataclass(frozen=True)
class Read:
    """Scripts that were read, each as a test, and why others can't be, by their names."""

    tests: list[Test]
    unread: dict[str, str]


def tests_of(scripts: Sequence[str], *, writes: bool, is_forced: bool) -> Read:
    found = Read([], {})
    for path in scripts:
        try:
            found.tests.append(Test(path, decoded(read_file(path)), writes, is_forced))
        except Failure as why:
            found.unread[path] = str(why)
    return found


def tested(scripts: Sequence[str], cicslook: str, at_once: int, *, writes: bool, is_forced: bool = False,
           covered: dict[str, Coverage] | None = None) -> Iterator[Outcome]:
    """What comes of each script, where it is known, one that can't be read too; `covered` takes what each runs."""
    read = tests_of(scripts, writes=writes, is_forced=is_forced)
    for path, why in read.unread.items():
        if covered is not None:
            covered[path] = Coverage(faults={path: "it can't be read; nothing of it is counted"})
        yield Outcome(path, UNREAD, 0.0, why)
    asked = [Asked(test.script, with_screens(test.text)) for test in read.tests]
    for run in run_together([cicslook], [one.text if covered is None else one.script() for one in asked], at_once):
        test, one = read.tests[run.number], asked[run.number]
        if covered is not None:
            covered[test.script] = coverage_in(one, run)
            run = as_alone(one, run)
        yield test.outcome(run)


def summary(outcomes: Sequence[Outcome]) -> str:
    """How many there are of each kind, in a line."""
    counts = Counter(one.outcome for one in outcomes)
    words = {"same": "ok", "missing": "without .screens", "failed": "not done to the end", "empty": "testing nothing", "differs": "differing",
             UNREAD: "not tested"}
    found = ", ".join(f"{counts[kind]} {words.get(kind, kind)}" for kind in SAID if counts[kind])
    return f"{len(outcomes)} script{'s' if len(outcomes) != 1 else ''}: {found}"


def writable(text: str) -> str:
    return UNWRITABLE.sub("?", text)


def junit(outcomes: Sequence[Outcome]) -> bytes:
    """The outcomes in the form of JUnit: what differs is a failure, what can't be tested an error."""
    seconds = f"{sum(one.seconds for one in outcomes):.3f}"
    failures = sum(one.outcome == "differs" for one in outcomes)
    errors = sum(not one.is_well() for one in outcomes) - failures
    counts = {"tests": str(len(outcomes)), "failures": str(failures), "errors": str(errors), "time": seconds}
    top = xml.Element("testsuites", counts)
    suite = xml.SubElement(top, "testsuite", {"name": "cics-test", **counts})
    for one in outcomes:
        folder, name = os.path.split(one.script)
        words = {"classname": writable(folder.replace(os.sep, ".").strip(".")) or ".", "name": writable(name.removesuffix(SCRIPT)),
                 "file": writable(one.script), "time": f"{one.seconds:.3f}"}
        case = xml.SubElement(suite, "testcase", words)
        if not one.is_well():
            found = xml.SubElement(case, "failure" if one.outcome == "differs" else "error", {"type": one.outcome, "message": writable(one.said())})
            found.text = writable("\n".join(one.difference))
    xml.indent(top)
    text = xml.tostring(top, encoding="unicode")
    return JUNIT.marked(f"{text}\n".encode())
