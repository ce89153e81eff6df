"""The files of the companions: every one is read and written by this module.

A file that is read is noted, by its device and inode, whatever name it has. None that was read is written over, nor one that was written in
this run for another use. One that is there is replaced only where the same companion wrote it and nobody changed it since, which the mark in its
first line says, with the sum of the rest; --force replaces it whoever wrote it. A new file is written beside the old one, whole, and then has
its name. What is kept of a conversation or a session is a new file, which grows by whole lines.
"""
import errno
import hashlib
import os
import stat
import sys
import tempfile
from collections.abc import Callable
from contextlib import suppress
from dataclasses import dataclass, field

from cics.failure import Failure, why_of

STREAMS = ("standard input, which is read", "standard output, which is written", "standard error, which is written")
OWNER_ONLY = 0o600
DIGITS = 16  # of the sum in a mark
Judge = Callable[[bytes], str]  # why a file that is there, and has these bytes, stays as it is; empty where it may be replaced


@dataclass
class Noted:
    """The files of this run by their devices and inodes, and who may read each of those that were read."""

    read: set[tuple[int, int]] = field(default_factory=set)
    written: dict[tuple[int, int], str] = field(default_factory=dict)  # and for which use
    mode: int = 0o666

    def reading(self, file: int, *, is_own: bool = False) -> None:
        """Notes a file that is read; of one of the companions' own parts not who may read it."""
        found = os.fstat(file)
        if stat.S_ISREG(found.st_mode):
            self.read.add(place_of(found))
            self.mode &= 0o666 if is_own else found.st_mode

    def writing(self, file: int, use: str) -> None:
        """Notes a file that is new in this run, whatever had its inode before."""
        place = place_of(os.fstat(file))
        self.read.discard(place)
        self.written[place] = use


NOTED = Noted()


def place_of(found: os.stat_result) -> tuple[int, int]:
    return found.st_dev, found.st_ino


def read_noted(path: str) -> bytes:
    """The bytes of a user's file."""
    with open(path, "rb") as file:
        NOTED.reading(file.fileno())
        return file.read()


def read_input() -> bytes:
    """The bytes of standard input."""
    NOTED.reading(sys.stdin.fileno())
    return sys.stdin.buffer.read()


def read_own(path: str) -> str:
    """The text of a file that belongs to the companions."""
    with open(path, encoding="utf-8") as file:
        NOTED.reading(file.fileno(), is_own=True)
        return file.read()


def read(path: str) -> bytes:
    """The bytes of a file that no user gives, as one of /proc."""
    with open(path, "rb") as file:
        return file.read()


def sum_of(data: bytes) -> str:
    return hashlib.sha256(data).hexdigest()


@dataclass(frozen=True)
class Mark:
    """The first line of what a companion writes: its name between two texts, and the sum of all that follows."""

    maker: str
    before: str
    after: str = ""

    def line(self, rest: bytes) -> bytes:
        return f"{self.before}{sum_of(rest)[:DIGITS]}{self.after}\n".encode()

    def marked(self, data: bytes) -> bytes:
        return self.line(data) + data

    def why_kept(self, old: bytes) -> str:
        """Why a file isn't replaced: it is another's, or was changed."""
        first, _, rest = old.partition(b"\n")
        first, due = first + b"\n", self.line(rest)
        if len(first) != len(due) or not (first.startswith(self.before.encode()) and first.endswith(f"{self.after}\n".encode())):
            return f"it is there, and {self.maker} didn't write it"
        return "" if first == due else f"it was changed since {self.maker} wrote it"


def page_mark(maker: str) -> Mark:
    return Mark(maker, f"<!DOCTYPE html><!-- {maker} ", " -->")


def status_of(path: str) -> os.stat_result | None:
    """The status of what a path leads to; none, where nothing is there."""
    try:
        return os.stat(path)
    except FileNotFoundError:
        return None
    except (OSError, ValueError) as why:
        raise Failure(f"{path}: {why_of(why)}") from None


def refuse_used(path: str, found: os.stat_result, use: str) -> None:
    """Refuses to write to what is read in this run, or is written for another use; a device or a pipe may be both."""
    if not stat.S_ISREG(found.st_mode):
        return
    if place_of(found) in NOTED.read:
        raise Failure(f"{path}: it is read, so it isn't written")
    other = NOTED.written.get(place_of(found), use)
    if other != use:
        raise Failure(f"{path}: {other} is written to it, so {use} isn't")
    for number, said in enumerate(STREAMS):
        with suppress(OSError):
            stream = os.fstat(number)
            if stat.S_ISREG(stream.st_mode) and place_of(stream) == place_of(found):
                raise Failure(f"{path}: it is {said}, so it isn't written")


def old_bytes(path: str, judge: Judge, use: str, *, is_forced: bool = False) -> bytes | None:
    """What a file has that may be replaced; none where no file is there."""
    found = status_of(path)
    if found is None or not stat.S_ISREG(found.st_mode):
        return None
    refuse_used(path, found, use)
    try:
        with open(path, "r+b") as file:  # so that one that may not be written stays, too
            old = file.read()
    except OSError as why:
        raise Failure(f"{path}: {why_of(why)}") from None
    why_kept = judge(old) if old and not is_forced else ""  # an empty file has nothing to lose
    if why_kept:
        raise Failure(f"{path}: {why_kept}; write another name, or --force")
    return old


def write_file(path: str, data: bytes, judge: Judge, use: str, *, is_forced: bool = False) -> None:
    """Writes a file, whole or not at all. Who may not read all that was read may not read it."""
    old = old_bytes(path, judge, use, is_forced=is_forced)
    found = status_of(path)
    try:
        if found is not None and old is None:  # a device or a pipe; a folder can't be opened
            with open(path, "wb", buffering=0) as file:
                write_all(file.fileno(), data)
        else:
            write_beside(os.path.realpath(path), data, file_mode(found) & NOTED.mode | OWNER_ONLY, use)
    except (OSError, ValueError) as why:
        raise Failure(f"{path}: {why_of(why)}") from None


def file_mode(found: os.stat_result | None) -> int:
    """Who may read a new file: by the mask, and by the one that it replaces."""
    mask = os.umask(0)
    os.umask(mask)
    return 0o666 & ~mask & (found.st_mode if found else 0o666) | OWNER_ONLY


def write_beside(path: str, data: bytes, mode: int, use: str) -> None:
    handle, made = tempfile.mkstemp(prefix=".cics-", dir=os.path.dirname(path))
    try:
        with os.fdopen(handle, "wb", buffering=0) as file:
            write_all(file.fileno(), data)
            os.fchmod(file.fileno(), mode)
            os.replace(made, path)
            NOTED.writing(file.fileno(), use)
    except BaseException:
        with suppress(FileNotFoundError):
            os.remove(made)
        raise


def write_all(file: int, data: bytes) -> None:
    left = memoryview(data)
    while left:
        left = left[os.write(file, left) :]


def put_file(path: str, data: bytes) -> None:
    """Writes a file of the repository, or of a folder that was made for it, whatever is there: no companion does so with a user's."""
    try:
        write_beside(os.path.realpath(path), data, file_mode(status_of(path)), path)
    except (OSError, ValueError) as why:
        raise Failure(f"{path}: {why_of(why)}") from None


def make_folder(path: str) -> None:
    try:
        os.makedirs(path, exist_ok=True)
    except OSError as why:
        raise Failure(f"{path}: {why_of(why)}") from None


class Record:
    """A new file that grows by whole lines, each of which is there as soon as it is added, whatever ends the run. None but its owner may read
    it. Where a device or a pipe has the name, that is written to."""

    def __init__(self, path: str, use: str) -> None:
        found = status_of(path)
        if found is not None:
            refuse_used(path, found, use)
        is_new = found is None or stat.S_ISREG(found.st_mode) or stat.S_ISDIR(found.st_mode)
        self.name, self.size, self.is_file = path, 0, is_new
        self.file = open(path, "xb" if is_new else "wb", buffering=0, opener=lambda name, flags: os.open(name, flags, OWNER_ONLY))
        NOTED.writing(self.file.fileno(), use)

    def add(self, data: bytes) -> None:
        """Adds whole lines, or nothing of them."""
        found = os.fstat(self.file.fileno())
        if self.is_file and (found.st_nlink == 0 or found.st_size != self.size):
            raise OSError(errno.ESTALE, "it was changed since")
        try:
            write_all(self.file.fileno(), data)
        except OSError:
            with suppress(OSError):
                self.file.truncate(self.size)
                self.file.seek(self.size)
            raise
        self.size += len(data)

    def remove(self) -> None:
        """Removes it, where nothing came of it."""
        if self.is_file:
            os.remove(self.name)
