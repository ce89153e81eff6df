"""Runs programs while calls of the C library fail, for the checks that try that.

refuse.c, which makes them fail, is compiled and preloaded into the program. Where allocations fail, a program is run once for all tries: each
is a child of that run from the call on that fails.
"""
import contextlib
import os
import select
import shlex
import shutil
import signal
import tempfile
import threading
from collections import Counter
from collections.abc import Callable, Iterator
from contextlib import contextmanager
from dataclasses import dataclass
from typing import Self

from cics.child import TOP, Ended, Overdue, read, run, signals_held
from cics.cli import Failure
from checks.common import SHOWN, Counts, Wrong, require
from checks.examples import path_of, wanted

MOST = 2_000  # of more calls not each is refused in turn, unless all are asked for
FIRST = 500  # how many of them are, after which a fixed choice is
MANY = 100_000  # of more calls only so few, evenly spread: each run takes seconds
FEW = 50
SECONDS = 60.0  # by the clock, in which a try must end
PIPES = (100, 101)  # what the run's descriptors are
SOURCE = os.path.join(TOP, "checks/refuse.c")
ALL = {"all": f"of more than {MOST:,} calls each fails in turn, not a fixed choice"}


@contextmanager
def library() -> Iterator[str]:
    """Compiles refuse.c. Where that can't be done, nothing can be refused: the check fails."""
    name = os.environ.get("CC") or "cc"
    word, *options = shlex.split(name)
    compiler = shutil.which(word)
    if compiler is None:
        raise Failure(f"there is no C compiler {name} for refuse.c: install one, as gcc and libc6-dev")
    with tempfile.TemporaryDirectory() as folder:
        path = os.path.join(folder, "refuse.so")
        ended = run([compiler, *options, "-O2", "-shared", "-fPIC", "-o", path, SOURCE])
        if ended.status != 0 or not os.path.exists(path):
            why = ended.reported.decode(errors="replace")
            raise Failure(f"{name} doesn't compile refuse.c: install gcc and libc6-dev, or another that does\n{why}".strip())
        yield path


@dataclass
class Sweep:
    """Runs of a command of which one kind of call fails; refuse.c has the settings. `wanted` is how it ends without a
    failure, and `given` what is on its standard input."""

    library: str
    command: list[str]
    wanted: Ended
    calls: str
    given: bytes = b""
    short: int = 0
    piece: int = 0
    count: int = 0

    def environment(self, nth: int, **more: str) -> dict[str, str]:
        """What a run reads of its settings."""
        settings = {"REFUSE_CALLS": self.calls, "REFUSE_SHORT": str(self.short), "REFUSE_PIECE": str(self.piece), "REFUSE_NTH": str(nth)}
        return {**os.environ, **settings, "LD_PRELOAD": self.library, **more}

    def run(self, nth: int, **more: str) -> Ended:
        """How a run ends whose call of that number fails."""
        return run(self.command, self.given, self.environment(nth, **more))

    def ends(self, numbers: list[int]) -> Iterator[tuple[int, Ended]]:
        """How runs end of which one call fails each, in the order of their numbers."""
        if self.calls != "memory":
            yield from ((nth, self.run(nth)) for nth in numbers)
            return
        with Tries(self) as tries:
            yield from ((nth, tries.ended(nth)) for nth in numbers)

    def is_front_of_lines(self, out: bytes) -> bool:
        """Whether lines of the transcript were written, from its first on."""
        return self.wanted.out.startswith(out) and (out == b"" or out.endswith(b"\n"))

    def numbers(self, is_all: bool) -> list[int]:
        """The numbers of the calls to be refused: each; of very many the first, a fixed choice of those after, and the last; of more still a
        few from the first to the last."""
        every = range(1, self.count + 1)
        if is_all or self.count <= MOST:
            return list(every)
        if self.count > MANY:
            return [1 + (self.count - 1) * nth // FEW for nth in range(FEW + 1)]
        return [n for n in every if n <= FIRST or n * 7919 % 101 < 4 or n == self.count]

    def run_whole(self) -> Ended:
        """How a run ends in which no call fails; its calls are counted."""
        path = f"{self.library}.{threading.get_ident()}"
        ended = self.run(0, REFUSE_COUNT=path)
        if os.path.exists(path):
            self.count = int(read(path))
            os.remove(path)
        return ended

    def try_whole(self) -> None:
        """The run in which no call fails must end as it should, and calls of it be counted: without any, refuse.c doesn't reach the
        program."""
        ended = self.run_whole()
        require(ended == self.wanted, f"without a failure: {ended}")
        require(self.count, f"no call is counted as {self.calls}: refuse.c does not reach {self.command[0]}")

    def tried(self, judge: "Judge", is_all: bool = False) -> Counts:
        """How many runs ended as which of the judge's words, each call refused in turn."""
        self.try_whole()
        words: Counts = Counter()
        wrong = []
        for nth, ended in self.ends(self.numbers(is_all)):
            word = judge(self, nth, ended)
            words[word or "wrong"] += 1
            wrong += [] if word else [f"{self.calls} {nth} of {self.count}: {ended}"]
        if wrong:
            raise Wrong(*wrong[:SHOWN])
        return words


class Tries:
    """A run of a sweep's command that is forked at each call which is to fail: the child ends as a run does of which that call fails."""

    def __init__(self, sweep: Sweep) -> None:
        self.sweep, self.child = sweep, 0
        self.files = [os.memfd_create(name) for name in ("given", "out", "reported")]
        os.pwrite(self.files[0], sweep.given, 0)
        (asked, self.asks), (self.answers, answered) = os.pipe(), os.pipe()
        self.pipes = [self.asks, self.answers]
        streams = [(os.POSIX_SPAWN_DUP2, file, number) for number, file in enumerate(self.files)]
        streams += [(os.POSIX_SPAWN_DUP2, file, number) for file, number in zip((asked, answered), PIPES)]
        environment = sweep.environment(0, REFUSE_TRIES="{} {}".format(*PIPES))
        try:
            with signals_held() as mask:
                self.child = os.posix_spawn(sweep.command[0], sweep.command, environment, file_actions=streams, setpgroup=0, setsigmask=mask,
                                            setsigdef=[signal.SIGPIPE, signal.SIGXFSZ])
        finally:
            os.close(asked)
            os.close(answered)

    def __enter__(self) -> Self:
        return self

    def __exit__(self, *_: object) -> None:
        for file in (*self.pipes, *self.files):
            os.close(file)
        with contextlib.suppress(ProcessLookupError):
            os.killpg(self.child, signal.SIGKILL)
        os.waitpid(self.child, 0)

    def ended(self, nth: int) -> Ended:
        """How the run ends if the call of that number fails, which comes after the one that was asked for last."""
        with contextlib.suppress(BrokenPipeError):  # it has ended: then there is no answer
            os.write(self.asks, b"%d\n" % nth)
        line = os.read(self.answers, 64) if select.select([self.answers], [], [], SECONDS)[0] else None
        if not line:
            why = f"no end within {SECONDS:g} seconds" if line is None else "the run ended in front of it"
            raise Overdue(f"{' '.join(self.sweep.command)}: {self.sweep.calls} {nth} of {self.sweep.count}: {why}")
        out, reported = (os.pread(file, os.fstat(file).st_size, 0) for file in self.files[1:])
        return Ended(os.waitstatus_to_exitcode(int(line)), out, reported)


Judge = Callable[[Sweep, int, Ended], str | None]  # it has a word for each run that ended as it should, and none for others


def of_example(path: str, program: str, name: str, calls: str, short: int = 0, piece: int = 0) -> Sweep:
    """The sweep of an example."""
    return Sweep(path, [program, path_of(name)], wanted(name), calls, short=short, piece=piece)


def judge_same(sweep: Sweep, _nth: int, ended: Ended) -> str | None:
    """The word for runs that must be as without a failure."""
    return "the same" if ended == sweep.wanted else None
