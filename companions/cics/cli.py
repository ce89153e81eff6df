"""What the companions' commands have in common: their words, their output, and how they end.

Each fault is one line on standard error, `tool: what: why`.
"""
import argparse
import functools
import io
import os
import signal

import sys
from collections.abc import Callable
from types import FrameType
from typing import IO, NoReturn

from cics.child import TOP, Overdue
from cics.failure import FAILED as FAILED, Failure as Failure, why_of as why_of
from cics.files import read_input, read_noted, read_own, write_all
from cics.programs import Identity, found_program, identify, is_executable, places_of_program

DONE, FOUND, MISUSED = 0, 1, 2  # statuses, as FAILED is; of a signal it is 128 and its number
UNRUN = 4  # that of what says how much was run, where it isn't all that is asked for
STANDARD_INPUT = "-"
VERSION_FILE = os.path.join(TOP, "VERSION")


class Interrupted(BaseException):
    """A signal that ends a command."""

    def __init__(self, number: int) -> None:
        super().__init__()
        self.number = number


def version() -> str:
    try:
        return read_own(VERSION_FILE).strip()
    except OSError:
        return "unknown"


class Words(argparse.ArgumentParser):
    """The words of a command; a fault in them is a line that says what to write."""

    def __init__(self, name: str, text: str) -> None:
        super().__init__(prog=name, description=text, allow_abbrev=False, formatter_class=argparse.RawDescriptionHelpFormatter)
        self.add_argument("--version", action="version", version=f"{name} {version()}")

    def add_program(self, *names: str) -> None:
        """The words by which other programs are given than those that stand with the companions."""
        for name in names or ("cicslook",):
            self.add_argument(f"--{name}", metavar="PATH", help=f"the program {name}, where it isn't the one beside the companions")

    def add_force(self) -> None:
        """The word by which a file is replaced that the companion didn't write, or that was changed since."""
        self.add_argument("--force", action="store_true", help="writes over a file that it didn't write, or that was changed since; not over one that is read")

    def error(self, message: str) -> NoReturn:
        usage = " ".join(self.format_usage().split()).removeprefix("usage: ")
        raise SystemExit(ended(f"{self.prog}: {message}; write: {usage}", MISUSED))

    def _print_message(self, message: str, file: IO[str] | None = None) -> None:
        """Help and version are written as all output is."""
        write_out(message.encode())


def ended(line: str, status: int) -> int:
    """Writes a line on standard error, and returns a status."""
    try:
        sys.stderr.write(line.replace("\n", "\\n") + "\n")
        sys.stderr.flush()
    except (OSError, ValueError, AttributeError):  # nobody may be left to be told
        pass
    return status


def has_looks(path: str) -> bool:
    """Whether the program at a path is cicslook."""
    identity = identity_of(path)
    return identity is not None and identity.name == "cicslook"


def program_path(given: str | None, *names: str) -> str:
    """A program of one of these names: the one that is given, or the first that stands with the companions. It is asked what it is."""
    path = given or next(filter(None, map(found_program, names)), None)
    if path is None or not is_executable(path):
        where = given or " or ".join(map(os.path.relpath, places_of_program(names[0])))
        raise Failure(f"{where}: no program stands there; ./prove builds it, or write: --{names[0]} PATH")
    identity = identity_of(os.path.abspath(path))
    if identity is None or identity.name not in names:
        found = f"it is {identity.name}" if identity else "to --version it answers something else"
        raise Failure(f"{path}: it isn't {' or '.join(names)}: {found}")
    return os.path.abspath(path)


@functools.cache
def identity_of(path: str) -> Identity | None:
    """Which program stands at a path, which is asked once."""
    try:
        return identify(path)
    except OSError as why:
        raise Failure(f"{path}: {why_of(why)}") from None


def read_file(path: str) -> bytes:
    """The bytes of a file, or of standard input."""
    try:
        return read_input() if path == STANDARD_INPUT else read_noted(path)
    except (OSError, ValueError) as why:
        raise Failure(f"{name_of(path)}: {why_of(why)}") from None


def name_of(path: str) -> str:
    return "standard input" if path == STANDARD_INPUT else path


def write_out(data: bytes) -> None:
    try:
        write_all(1, data)
    except OSError as why:
        raise Failure(f"standard output: {why.strerror}") from None


def say(*lines: str) -> None:
    """Writes lines on standard output; bytes that are no UTF-8 as they were."""
    write_out("".join(f"{line}\n" for line in lines).encode(errors="surrogateescape"))


class Paint:
    """Colours, where standard output is a terminal that has them, and NO_COLOR isn't set; elsewhere none."""

    CODES = {"bold": "1", "red": "1;31", "yellow": "1;33", "green": "32"}

    def __init__(self, *, has_colours: bool | None = None) -> None:
        wanted = not os.environ.get("NO_COLOR") and os.environ.get("TERM") not in (None, "", "dumb")
        self.has_colours = wanted and is_terminal(sys.stdout) if has_colours is None else has_colours

    def of(self, text: str, colour: str) -> str:
        return f"\x1b[{self.CODES[colour]}m{text}\x1b[0m" if self.has_colours else text


def is_terminal(stream: IO[str] | None) -> bool:
    """Whether a standard file is a terminal; one may be closed."""
    try:
        return stream is not None and stream.isatty()
    except ValueError:
        return False


class Progress:
    """How much is done of something, on a terminal; nothing elsewhere."""

    def __init__(self, count: int, what: str) -> None:
        self.count, self.what = count, what
        self.is_shown = is_terminal(sys.stderr)

    def __enter__(self) -> "Progress":
        self.show(0)
        return self

    def __exit__(self, *_: object) -> None:
        self.clear()

    def show(self, done: int) -> None:
        self.write(f"\r{done} of {self.count} {self.what}\x1b[K")

    def clear(self) -> None:
        self.write("\r\x1b[K")

    def write(self, text: str) -> None:
        if self.is_shown:
            try:
                sys.stderr.write(text)
                sys.stderr.flush()
            except OSError:
                self.is_shown = False


def interrupt(number: int, _frame: FrameType | None) -> NoReturn:
    raise Interrupted(number)


def hold_standard_files() -> None:
    """Puts something that can't be read, or written, where a standard file is closed, so that no other file comes into its place."""
    for number, way in enumerate((os.O_WRONLY, os.O_RDONLY, os.O_WRONLY)):
        try:
            os.fstat(number)
        except OSError:
            os.open(os.devnull, way)


def run_main(name: str, main: Callable[[], int]) -> NoReturn:
    """Runs a command to its end: a failure is a line and a status, and so is a signal."""
    hold_standard_files()
    if isinstance(sys.stderr, io.TextIOWrapper):
        sys.stderr.reconfigure(errors="backslashreplace")
    try:
        for number in (signal.SIGTERM, signal.SIGHUP):
            if signal.getsignal(number) is signal.SIG_DFL:
                signal.signal(number, interrupt)
        status = main()
    except Failure as why:
        status = ended(f"{name}: {why}", why.status)
    except Overdue as why:
        status = ended(f"{name}: {why}", FAILED)
    except KeyboardInterrupt:
        status = ended(f"{name}: interrupted", 128 + signal.SIGINT)
    except Interrupted as why:
        status = ended(f"{name}: ended by {signal.Signals(why.number).name}", 128 + why.number)
    except (MemoryError, RecursionError) as why:
        status = ended(f"{name}: {type(why).__name__}: the input is too large", FAILED)
    sys.exit(status)
