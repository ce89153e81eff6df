"""The programs as children: runs to their end, and children that are given lines and whose answers are read.

No run may take longer, and none may write more, than any of theirs needs. A program that doesn't end, or doesn't answer, ends the caller
with a line that says so. Whatever ends the caller, a signal too, no child is left running.
"""
import contextlib
import functools
import math
import os
import select
import signal
import subprocess
import threading
import time
from collections.abc import Callable, Iterable, Iterator, Mapping, Sequence
from functools import partial
from types import TracebackType
from typing import NamedTuple

from cics.files import read as read

TOP = os.path.dirname(os.path.dirname(os.path.dirname(os.path.abspath(__file__))))
SECONDS = 20.0  # of a processor: no run may take longer, and no answer, but one that is given more
BYTES = 1 << 25  # no answer may have more, and no run may write more to a file, where the system is asked to end it
MARK = "@@@@"  # a terminal's name, where no other is given
PROGRAMS = ("cicsedf", "cicslook")
ENDING = (signal.SIGINT, signal.SIGTERM, signal.SIGHUP)  # signals that end a caller


class Ended(NamedTuple):
    """How a run ended: its status, which is negative for a signal, and what it wrote on standard output and on standard error."""

    status: int
    out: bytes
    reported: bytes

    def is_well(self) -> bool:
        return self.status == 0 and self.reported == b""

    def lines(self) -> list[str]:
        return lines_of(decoded(self.out))

    def why(self) -> str:
        """What it said when it ended, in a line: the line in front of what follows, or its status."""
        said = decoded(self.reported).partition("\n")[0].strip()
        return said or (f"status {self.status}" if self.status >= 0 else f"ended by {signal.Signals(-self.status).name}")

    def __str__(self) -> str:
        return f"status {self.status}, {self.out[:100]!r}, {self.reported[:200]!r} on standard error"


class Overdue(SystemExit):
    """The line on a program that didn't end, or didn't answer. Nothing is tried after it."""


class Gone(Overdue):
    """The line on a program that ended where an answer was due, and how it ended: its output is what it wrote after the last answer."""

    def __init__(self, line: str, ended: Ended) -> None:
        super().__init__(line)
        self.ended = ended


def decoded(data: bytes) -> str:
    """A text of the programs. Bytes that are no UTF-8 come back as they were from `encoded`."""
    return data.decode(errors="surrogateescape")


def encoded(text: str) -> bytes:
    return text.encode(errors="surrogateescape")


def text_of(lines: Iterable[str]) -> str:
    return "".join(f"{line}\n" for line in lines)


def lines_of(text: str) -> list[str]:
    """A text's lines; bytes after the last line feed are a line too."""
    lines = text.split("\n")
    return lines if lines[-1] else lines[:-1]


@functools.cache
def files_of(_process: int, _thread: int) -> list[int]:
    """The three standard files of the runs of a thread, in memory."""
    return [os.memfd_create(name) for name in ("given", "out", "reported")]


def emptied(file: int) -> bytes:
    """What was written to a file, which is emptied."""
    written = os.pread(file, os.fstat(file).st_size, 0)
    os.ftruncate(file, 0)
    os.lseek(file, 0, os.SEEK_SET)
    return written


def seconds_taken(child: int) -> float:
    """The processor seconds that a child took; all there are, of one that is gone."""
    try:
        words = read(f"/proc/{child}/stat").rpartition(b")")[2].split()
    except OSError:
        return math.inf
    return (int(words[11]) + int(words[12])) / os.sysconf("SC_CLK_TCK")


class Patience:
    """How long a child may take: so many processor seconds, since on a busy machine it has but a part of one; and so many by the clock, if it
    does next to no work in them."""

    def __init__(self, child: int, seconds: float) -> None:
        self.child, self.seconds = child, seconds
        self.begun = self.seen = seconds_taken(child)

    def ends(self) -> bool:
        """Whether it ends, when so many seconds have gone by since it was asked last."""
        taken = seconds_taken(self.child)
        worked, self.seen = taken - self.seen, taken
        return taken - self.begun > self.seconds or not worked > self.seconds / 100


def ends_in_time(child: int, seconds: float = SECONDS) -> bool:
    handle, patience = os.pidfd_open(child), Patience(child, seconds)
    try:
        while not select.select([handle], [], [], seconds)[0]:
            if patience.ends():
                return False
        return True
    finally:
        os.close(handle)


@contextlib.contextmanager
def signals_held() -> Iterator[set[signal.Signals]]:
    """Signals that end the caller wait while a child begins, so that none comes before the child is known. Gives the signals that waited
    before; where there are threads nothing is held, since another one would get them."""
    held = signal.pthread_sigmask(signal.SIG_BLOCK, ENDING if threading.active_count() == 1 else ())
    mask = {number for number in held if isinstance(number, signal.Signals)}
    try:
        yield mask
    finally:
        signal.pthread_sigmask(signal.SIG_SETMASK, held)


def run(command: Sequence[str | bytes], given: bytes = b"", environment: Mapping[str, str] | None = None,
        seconds: float = SECONDS) -> Ended:
    """Runs a command to its end, over what it is given on standard input. Signals that Python ignores have their effect on it."""
    files = files_of(os.getpid(), threading.get_ident())
    left = memoryview(given)
    while left:
        left = left[os.write(files[0], left) :]
    os.lseek(files[0], 0, os.SEEK_SET)
    streams = [(os.POSIX_SPAWN_DUP2, file, number) for number, file in enumerate(files)]
    signals = [signal.SIGPIPE, signal.SIGXFSZ]
    child, is_in_time, status, out, reported = 0, False, 0, b"", b""
    try:
        with signals_held() as mask:
            child = os.posix_spawn(command[0], list(command), environment or os.environ, file_actions=streams, setsigdef=signals, setsigmask=mask)
        is_in_time = ends_in_time(child, seconds)
    finally:  # a signal to the caller comes here too
        if child and not is_in_time:
            os.kill(child, signal.SIGKILL)
        if child:
            status = os.waitstatus_to_exitcode(os.waitpid(child, 0)[1])
            _, out, reported = (emptied(file) for file in files)
    if not is_in_time or status == -signal.SIGXFSZ:
        why = f"it writes more than {BYTES} bytes" if is_in_time else f"no end within {seconds:g} seconds"
        raise Overdue(f"{' '.join(map(str, command))}: {why}")
    return Ended(status, out, reported)


class Child:
    """A program that is given lines, and whose answers are read.

    After lines it is asked for the screen of a terminal that no script has, the mark; the answer to that ends the answer to the lines, and
    nothing is changed by it. The pipes never block: who waits for several things reads and writes when `output` and `input` are ready.
    """

    def __init__(self, command: Sequence[str], mark: str = MARK, seconds: float = SECONDS) -> None:
        self.name, self.seconds, self.typed = " ".join(command), seconds, "nothing"
        self.marked(mark)
        self.unsent, self.unread, self.count = bytearray(), b"", 0  # how many lines it was given, with the questions
        self.reported = os.memfd_create("reported")
        self.process = self.begun(command)
        assert self.process.stdin and self.process.stdout
        self.input, self.output = self.process.stdin, self.process.stdout
        for pipe in (self.input, self.output):
            os.set_blocking(pipe.fileno(), False)

    def marked(self, mark: str) -> None:
        """Takes another terminal as the mark."""
        self.question, self.answer = f"SCREEN {mark}", f"SCREEN {mark} NONE"

    def begun(self, command: Sequence[str]) -> subprocess.Popen[bytes]:
        """The process; where a signal comes meanwhile, it isn't left."""
        process: subprocess.Popen[bytes] | None = None
        try:
            with signals_held() as mask:
                restored = partial(signal.pthread_sigmask, signal.SIG_SETMASK, mask) if threading.active_count() == 1 else None
                process = subprocess.Popen(command, stdin=subprocess.PIPE, stdout=subprocess.PIPE, stderr=self.reported, bufsize=0,
                                           start_new_session=True, preexec_fn=restored)
            return process
        except BaseException:
            if process:
                process.kill()
                process.wait()
            raise

    def __enter__(self) -> "Child":
        return self

    def __exit__(self, _kind: type[BaseException] | None, _what: BaseException | None, _where: TracebackType | None) -> None:
        self.close()

    def close(self) -> None:
        """Ends it, whatever it does."""
        self.process.kill()
        self.process.wait()
        self.input.close()
        self.output.close()
        os.close(self.reported)

    def put(self, text: str) -> None:
        """Has a text of whole lines given to it at the next flush."""
        data = encoded(text)
        self.count += data.count(b"\n")
        self.unsent += data

    def send(self, text: str) -> None:
        """Gives it a text of whole lines, as far as its pipe takes it now."""
        self.put(text)
        self.flush()

    def flush(self) -> None:
        """Gives it what the pipe takes of what is left."""
        try:
            while self.unsent:
                del self.unsent[: os.write(self.input.fileno(), self.unsent[:65536])]
        except BlockingIOError:
            pass
        except BrokenPipeError:
            self.unsent.clear()  # that it has ended is seen by what it writes

    def receive(self) -> bytes:
        """Takes what it has written: nothing, where it has ended."""
        piece = os.read(self.output.fileno(), 1 << 20)
        self.unread += piece
        return piece

    def exchange(self, until: float) -> bytes:
        """Waits up to a moment for what can be read or written; returns what was read."""
        reads, writes, _ = select.select([self.output], [self.input] if self.unsent else [], [], max(0.0, until - time.monotonic()))
        if not reads and not writes:
            raise Overdue(f"{self.name}: no answer within {self.seconds:g} seconds, after {self.typed!r}")
        if writes:
            self.flush()
        piece = self.receive() if reads else b""
        if reads and not piece:
            raise self.gone()
        return piece

    def read_until(self, is_done: Callable[[], bool], seconds: float | None = None) -> None:
        """Takes what it writes up to what is waited for."""
        allowed, left = seconds or self.seconds, BYTES
        until, patience = time.monotonic() + allowed, Patience(self.process.pid, allowed)
        while not is_done():
            try:
                left -= len(self.exchange(until))
            except Overdue as why:
                if isinstance(why, Gone) or patience.ends():
                    raise
                until = time.monotonic() + allowed
            if left < 0:
                raise Overdue(f"{self.name}: too many bytes are answered, after {self.typed!r}")

    def gone(self) -> Gone:
        """How it ended, where it was to answer."""
        ended = self.ended()
        return Gone(f"{self.name}: {ended.why()}, after {self.typed!r}", ended)

    def ended(self) -> Ended:
        if not ends_in_time(self.process.pid, self.seconds):
            raise Overdue(f"{self.name}: no end within {self.seconds:g} seconds, after {self.typed!r}")
        return Ended(self.process.wait(), self.unread, os.pread(self.reported, BYTES, 0))

    def type(self, *lines: str) -> None:
        """Gives it lines, without a question after them."""
        self.typed = lines[-1] if lines else self.typed
        self.send(text_of(lines))

    def taken(self) -> list[str]:
        """The whole lines that were read."""
        whole, _, self.unread = self.unread.rpartition(b"\n")
        return decoded(whole).split("\n") if whole else []

    def line(self) -> str:
        self.read_until(lambda: b"\n" in self.unread)
        line, _, self.unread = self.unread.partition(b"\n")
        return decoded(line)

    def read_to(self, length: int) -> None:
        """Takes what it writes until a number of bytes are unread, or it has ended."""
        try:
            self.read_until(lambda: len(self.unread) >= length)
        except Gone:
            pass

    def ask(self, *lines: str, seconds: float | None = None) -> list[str]:
        """The lines that are answered to lines."""
        return self.ask_each([lines], seconds)[0]

    def ask_each(self, texts: Sequence[Sequence[str]], seconds: float | None = None) -> list[list[str]]:
        """The lines that are answered to each of some texts, all of which are given at once."""
        answers: list[list[str]] = [[]]
        for text in texts:
            self.typed = text[-1] if text else self.typed
            self.put(f"{text_of(text)}{self.question}\n")
        self.flush()

        def are_all() -> bool:
            for line in self.taken():
                if line == self.answer:
                    answers.append([])
                else:
                    answers[-1].append(line)
            return len(answers) > len(texts)

        try:
            self.read_until(are_all, seconds)
        except Gone as gone:
            rest = encoded(text_of(answers[-1])) + gone.ended.out
            raise Gone(str(gone), gone.ended._replace(out=rest)) from None
        return answers[:-1]

    def end(self, *lines: str) -> Ended:
        """How it ends, when no more than these lines is given."""
        if lines:
            self.type(*lines)
        try:
            while self.unsent:
                self.exchange(time.monotonic() + self.seconds)
            self.input.close()
            self.read_until(lambda: False)
        except Gone as gone:
            return gone.ended
        raise AssertionError  # there is no other way out
