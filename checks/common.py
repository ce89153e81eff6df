"""What the checks have in common: their words, the cases that they try side by side, and how they report."""
import argparse
import glob
import importlib
import importlib.util
import os
import resource
import shlex
import signal
import time
from collections import Counter
from collections.abc import Callable, Iterable, Iterator, Mapping, Sequence
from concurrent.futures import Future, ThreadPoolExecutor
from contextlib import suppress
from dataclasses import dataclass, field
from typing import NoReturn

from cics.child import BYTES, TOP, Gone, Overdue, read
from cics.cli import Failure, Words, run_main, say
from cics.programs import is_executable

SHOWN = 20  # of the cases that failed so many are shown
DRAWN_BY = 1984  # what a check draws is the same in each run

Counts = Counter[str]  # how many of what a case tried


class Wrong(Exception):
    """What is wrong with a case, a line each."""


def require(well: object, what: str) -> None:
    """What is wrong, where it isn't well."""
    if not well:
        raise Wrong(what)


@dataclass(frozen=True)
class Case:
    """What a check tries: a name, by which it is run alone, and how: what it did is counted, or what is wrong is raised."""

    name: str
    attempt: Callable[[], Counts]


@dataclass
class Outcome:
    """What came of a case: what it did, what is wrong, and whether a program didn't end or answer, so that nothing is tried after it."""

    name: str
    counts: Counts = field(default_factory=Counter)
    wrong: tuple[str, ...] = ()
    is_overdue: bool = False


def outcome_of(case: Case) -> Outcome:
    try:
        return Outcome(case.name, case.attempt())
    except Wrong as what:
        return Outcome(case.name, wrong=what.args)
    except Overdue as what:
        return Outcome(case.name, wrong=(str(what),), is_overdue=not isinstance(what, Gone))


def outcomes_of(cases: list[Case], at_once: int) -> list[Outcome]:
    """What comes of cases, in their order, so many at once; none is begun after one that is overdue. A signal leaves no program running."""
    outcomes: list[Outcome] = []
    with ThreadPoolExecutor(at_once) as pool:
        tried = [pool.submit(outcome_of, case) for case in cases]
        try:
            for future in tried:
                outcomes.append(future.result())
                if outcomes[-1].is_overdue:
                    break
        except BaseException:
            pool.shutdown(wait=False, cancel_futures=True)
            end_children(tried)
            raise
        finally:
            pool.shutdown(wait=False, cancel_futures=True)
    return outcomes


def end_children(tried: list[Future[Outcome]]) -> None:
    """Ends the programs that cases run, and those that they still start, until no case is tried any more."""
    while not all(it.done() for it in tried):
        for path in glob.glob("/proc/self/task/*/children"):
            with suppress(OSError):  # a thread or a program that has ended meanwhile
                for child in read(path).split():
                    os.kill(int(child), signal.SIGKILL)
        time.sleep(0.05)


def program_at(path: str) -> str:
    if not is_executable(path):
        raise Failure(f"no program stands at {path}: ./prove or .ci/run builds it")
    return os.path.abspath(path)


def built(crate: str, name: str | None = None) -> str:
    """A program of a crate, as `rt ci` leaves it."""
    return program_at(os.path.join(TOP, f"crates/{crate}/out/{name or crate}"))


class Check:
    """A check's command: the words that it was given, and its report."""

    def __init__(self, module: str, text: str | None, words: Sequence[str], *programs: str, flags: Mapping[str, str] | None = None,
                 numbers: Mapping[str, tuple[int, str]] | None = None, texts: Mapping[str, str] | None = None, required: Sequence[str] = ()) -> None:
        self.name, self.given, self.crates = module.replace(".", "/").replace("_", "-"), words, programs
        parser = Words(self.command(), text or "")
        for word in required:
            parser.add_argument(word, metavar=word.upper())
        for program in programs:
            parser.add_argument(program, nargs="?", metavar=program.upper(), help=f"instead of crates/{program}/out/{program}")
        parser.add_argument("--only", metavar="CASE", help="try the case of this name alone")
        parser.add_argument("--each", action="store_true", help="show what was done in each case")
        parser.add_argument("--jobs", type=int, default=len(os.sched_getaffinity(0)), metavar="N", help="so many cases at once")
        for flag, help_text in (flags or {}).items():
            parser.add_argument(f"--{flag}", action="store_true", help=help_text)
        for number, (default, help_text) in (numbers or {}).items():
            parser.add_argument(f"--{number}", type=int, default=default, metavar="N", help=help_text)
        for word, help_text in (texts or {}).items():
            parser.add_argument(f"--{word}", metavar=word.upper(), help=help_text)
        self.asked: argparse.Namespace = parser.parse_intermixed_args(list(words))
        self.jobs, self.only = max(1, self.asked.jobs), self.asked.only
        resource.setrlimit(resource.RLIMIT_FSIZE, (BYTES, resource.getrlimit(resource.RLIMIT_FSIZE)[1]))

    def command(self) -> str:
        """How it is started."""
        return f"checks/check {self.name.removeprefix('checks/')}"

    def program(self, at: int = 0) -> str:
        """A program that was given, or else that of its crate."""
        crate = self.crates[at]
        path = getattr(self.asked, crate)
        return program_at(path) if path else built(crate)

    def has(self, flag: str) -> bool:
        return bool(getattr(self.asked, flag))

    def number(self, name: str) -> int:
        return int(getattr(self.asked, name))

    def text(self, name: str) -> str | None:
        given: str | None = getattr(self.asked, name)
        return given

    def report(self, cases: Iterable[Case], least: Mapping[str, int] | None = None) -> int:
        """Tries the cases, and says at the end what was done and what is wrong. Of some things there must be so many."""
        try:
            tried = [case for case in cases if self.only in (None, case.name)]
        except Wrong as what:
            say(f"{self.name}: FAILED, {what}")
            return 1
        outcomes = outcomes_of(tried, self.jobs)
        counts: Counts = sum((outcome.counts for outcome in outcomes), Counter())
        failed = [outcome for outcome in outcomes if outcome.wrong]
        lines = [f"{it.name}: {counted(it.counts) or 'as due'}" for it in outcomes if self.has("each") and not it.wrong]
        lines += [line for outcome in failed[:SHOWN] for line in self.shown(outcome)]
        missing = {} if self.only or failed else {what: count for what, count in (least or {}).items() if counts[what] < count}
        lines += [f"FAILED: {counts[what]} {what}, where at least {count} are due" for what, count in missing.items()]
        if not tried:
            lines.append(f"FAILED: no case is called {self.only}" if self.only else "FAILED: there is no case")
        if len(outcomes) < len(tried):
            lines.append(f"FAILED: {len(tried) - len(outcomes)} cases weren't tried after that")
        done = ", ".join(filter(None, [f"{len(outcomes):,} cases", counted(counts)]))
        wrong = len(failed) + len(missing) + (not tried)
        say(*lines, f"{self.name}: {done}; {wrong or 'none'} FAILED")
        return int(wrong > 0)

    def shown(self, outcome: Outcome) -> Iterator[str]:
        """The lines on a case that failed."""
        first, *others = outcome.wrong
        yield f"{outcome.name}: FAILED, {first}"
        yield from others
        yield f"  alone: {self.command()} {shlex.join([*self.words_of_all(), '--only', outcome.name])}"

    def words_of_all(self) -> list[str]:
        """The words without those that ask for a case alone."""
        at = next((at for at, word in enumerate(self.given) if word == "--only"), len(self.given))
        return [*self.given[:at], *self.given[at + 2 :]]


def counted(counts: Counts) -> str:
    return ", ".join(f"{count:,} {what}" for what, count in counts.items())


def start(command: str, words: list[str]) -> NoReturn:
    """Starts the module of a command, as checks/run or bench/loops."""
    module = command.replace("-", "_").replace("/", ".")
    if importlib.util.find_spec(module) is None:
        raise SystemExit(f"{command}: there is no such check")
    main: Callable[[list[str]], int] = importlib.import_module(module).main
    run_main(command, lambda: main(words))
