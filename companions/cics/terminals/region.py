"""The region: the program as a child, and the record of what it is sent, which is a script with the same transcript.
Looks are sent too, but neither kept nor digested: they change nothing, and cicsedf doesn't know them."""
import contextlib
import hashlib
import itertools
import time
from collections.abc import Generator
from enum import Enum
from typing import Any, NamedTuple

from cics.child import Child, Gone, Overdue, encoded
from cics.files import Record

LARGEST, ROOM = 16 << 20, 64 << 10  # bytes of a script, and those of them that stay free
MUCH = 14 << 20  # bytes, of which people are warned
FULL = "THE SESSION IS FULL: A SCRIPT HAS AT MOST 16 MIB"
TO_END = 10  # seconds, for the child to do what it was sent

Answer = Enum("Answer", "NONE LINE LINES")  # to a request: nothing, a line, or lines whose end is reported by the mark

class Request(NamedTuple):
    text: str
    answer: Answer = Answer.LINE
    is_kept: bool = True

# What asks the region: it yields requests and gets their answers, lines or a line, or yields None to rest.
Work = Generator[Request | None, Any, Any]

class Fault(Exception):
    """Why the session ends. The text is for people; the status is that of the companion."""
    status = 1

class Full(Fault):
    status = 0  # the session is as long as it may be, which is no failure

class RegionEnded(Fault):
    """The child has ended."""

def new_record(path: str | None) -> Record:
    """The record of a session: a new file."""
    for number in itertools.count(1):
        with contextlib.suppress(*(() if path else (FileExistsError,))):
            return Record(path or f"session-{number:03}.script", "--session")
    raise AssertionError  # numbers have no end

class Region:
    """A child that is asked one thing after the other, without waiting for it."""

    def __init__(self, program: str, path: str | None, mark: str, digests: list[tuple[int, str]]) -> None:
        self.sent, self.request = 0, Request("", Answer.NONE)
        self.digest, self.received, self.digests = hashlib.sha256(), 0, list(digests)
        self.record = new_record(path)
        self.child = Child([program], mark)

    def ask(self, request: Request) -> None:
        """Keeps a request, unless it is a look, and sends it."""
        text = self.text_of(request)
        size = len(encoded(text))
        if self.sent + size + ROOM > LARGEST:
            raise Full(FULL)
        if request.is_kept:
            self.keep(text)
        self.sent, self.request = self.sent + size, request
        self.lines: list[str] = []
        self.child.send(text)

    def text_of(self, request: Request) -> str:
        text = request.text if not request.text or request.text.endswith("\n") else f"{request.text}\n"
        return text + (f"{self.child.question}\n" if request.answer is Answer.LINES else "")

    def keep(self, text: str) -> None:
        """Writes lines to the record, or nothing of them."""
        try:
            self.record.add(encoded(text))
        except OSError as fault:
            raise Fault(f"THE SESSION CAN'T BE KEPT: {fault}") from None

    def has_answered(self) -> bool:
        """Whether the answer to what was asked is complete."""
        if self.request.answer is Answer.LINES:
            return self.lines[-1:] == [self.child.answer]
        return self.request.answer is Answer.NONE or bool(self.lines)

    def answer(self) -> str | list[str]:
        """A line, or the lines in front of the mark."""
        return self.lines[:-1] if self.request.answer is Answer.LINES else "".join(self.lines)

    def read(self) -> None:
        """Takes what the child has written."""
        data = self.child.receive()
        if not data:
            raise RegionEnded
        self.take(data)
        self.lines += self.child.taken()

    def take(self, data: bytes) -> None:
        """Digests what belongs to the transcript; that of a session that goes on must be as it was at each of its ends."""
        if not self.request.is_kept:
            return
        while self.digests and self.received + len(data) >= self.digests[0][0]:
            (length, wanted), digest = self.digests.pop(0), self.digest.copy()
            digest.update(data[: length - self.received])
            if digest.hexdigest() != wanted:
                self.digests.clear()
                raise Fault("the transcript isn't the one that the session ended with")
        self.digest.update(data)
        self.received += len(data)

    def finish(self) -> str:
        """Lets the child do what it was sent, reads it to its end, and keeps the transcript's digest. Returns how it ended, where that wasn't well."""
        until, child = time.monotonic() + TO_END, self.child
        with child:
            try:
                while child.unsent:
                    self.take(child.exchange(until))
                child.input.close()
                while True:
                    self.take(child.exchange(until))
            except Gone as gone:
                reported = "" if gone.ended.status == 0 else gone.ended.why()
            except Overdue as why:
                reported = str(why)
        with contextlib.suppress(Fault):  # it was reported before
            self.keep(f"* The transcript has {self.received} bytes, SHA-256 {self.digest.hexdigest()}.\n")
        return reported
