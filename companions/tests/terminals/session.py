"""Sessions of the companion for the tests, each of whose scripts must give the same transcript; and what the tests expect."""
import contextlib
import hashlib
import os
import re
import signal
import socket
import subprocess
import tempfile
import threading
import time
import unittest
from collections.abc import Callable, Sequence
from functools import partial, update_wrapper
from types import TracebackType

from cics.child import read
from tests.calling import called, folder_of, put
from tests.case import CICSEDF as PROGRAM
from tests.case import CICSLOOK as LOOKER
from tests.case import COMPANIONS
from tests.terminals.client import LIMITS, Either, Kind, RawTerminal, kinds_of_terminals

GATEWAY = f"{COMPANIONS}/cics-terminals"
Test = Callable[[], object]
Loader = Callable[[unittest.TestLoader, unittest.TestSuite, str | None], unittest.TestSuite]
TESTS: list[tuple[str, str, Test]] = []  # of the modules that were read, each with its module and its name


def test(function: Test) -> Test:
    TESTS.append((function.__module__, function.__name__, function))
    return function


def test_with_each(function: Callable[[Kind], None]) -> Callable[[Kind], None]:
    """A test with each kind of terminal."""
    for kind in kinds_of_terminals():
        with_kind = update_wrapper(partial(function, kind), function)
        TESTS.append((function.__module__, f"{function.__name__} with {kind.__name__}", with_kind))
    return function


def a_first_session() -> None:
    """It says how slow this machine is now, and each later one too."""
    with Session("TERMINAL T001\n"):
        pass


def tests_of(module: str) -> Loader:
    """What unittest asks a module for: its tests, after a first session."""
    tests = [(where, name, it) for where, name, it in [(module, "a first session", a_first_session), *TESTS] if where == module]
    return lambda *_: unittest.TestSuite(unittest.FunctionTestCase(it, description=name) for _, name, it in tests)


def expect(what: object, found: object, wanted: object) -> None:
    assert found == wanted, f"{what}: {found!r} in place of {wanted!r}"


def expect_page(terminal: Either, page: dict[int, str]) -> None:
    """The terminal's screen has these rows, by their numbers, and no others."""
    expect("screen", {at: row for at, row in enumerate(terminal.rows(), 1) if row}, page)


def expect_pages(terminal: Either, *pages: tuple[str, str, dict[int, str]]) -> None:
    """The terminal has a page after each text and key."""
    for text, key, page in pages:
        expect_page(terminal.enter(text, key), page)


class Session:
    """The companion over a set-up. At its end it is reported to end, and its session is replayed."""

    def __init__(self, *parts: str, options: Sequence[str] = (), is_whole: bool = True, has_digest: bool = True,
                 ends_itself: bool = False, status: int = 0, largest: int | None = None, resumes: Sequence[str] | None = None,
                 is_verbatim: bool = True, sources: dict[str, str] | None = None) -> None:
        self.folder = tempfile.TemporaryDirectory()
        self.setup, self.script = f"{self.folder.name}/setup.script", f"{self.folder.name}/session.script"
        self.is_over, self.port, self.is_verbatim = False, 0, is_verbatim and resumes is None and sources is None
        self.is_whole, self.has_digest, self.ends_itself, self.status = is_whole, has_digest, ends_itself, status
        self.terminals: list[Either] = []
        self.reported: list[str] = []
        put(self.folder.name, {"setup.script": "".join(parts).encode(), **(sources or {})})
        limit = f"ulimit -f {largest // 512}; " if largest else ""
        begins = [self.setup] if resumes is None else ["--resume", self.setup, *resumes]
        for name in filter(lambda name: name.endswith(".asm"), sources or {}):  # those without a set-up
            begins = [f"{self.folder.name}/{name}"]
        words = [*begins, "--port", "0", "--session", self.script, "--cicslook", LOOKER, *options]
        command = ["/bin/sh", "-c", limit + 'exec "$@"', "sh", GATEWAY, *words]
        self.process = subprocess.Popen(command, stdout=subprocess.PIPE, stderr=subprocess.PIPE, text=True)
        assert self.process.stdout and self.process.stderr
        self.output, self.error = self.process.stdout, self.process.stderr
        self.is_small, self.begun = sum(map(len, parts)) < 65536, time.monotonic()
        self.watch = threading.Thread(target=self.kill_late, daemon=True)
        self.watch.start()

    def kill_late(self) -> None:
        """Ends the companion when the time of all sessions is over: then a test that still waits for it fails."""
        while self.process.poll() is None:
            if LIMITS.is_over():
                self.process.kill()
            time.sleep(0.5)

    def __enter__(self) -> "Session":
        for line in self.output:
            self.reported.append(line.rstrip("\n"))
            found = re.fullmatch(r"Terminals may connect: c3270 127\.0\.0\.1:(\d+)\n", line)
            if found:
                self.port = int(found[1])
                if self.is_small:
                    LIMITS.measured(time.monotonic() - self.begun)
                self.output.readline()
                return self
        raise AssertionError(f"it doesn't listen: {self.reported}, {self.error.read()}")

    def __exit__(self, kind: type[BaseException] | None, fault: BaseException | None, trace: TracebackType | None) -> None:
        try:
            for terminal in self.terminals:
                terminal.close()
            if kind is None and not self.is_over:
                self.end()
        finally:
            self.process.kill()
            self.process.communicate()
            self.folder.cleanup()

    def terminal(self, kind: str = "IBM-3279-2-E", buffer: int | None = None) -> RawTerminal:
        terminal = RawTerminal(self.port, kind, buffer)
        self.terminals.append(terminal)
        return terminal.begin()

    def made(self, make: Kind, kind: str = "IBM-3279-2-E") -> Either:
        """A terminal of one of the tests' kinds."""
        self.terminals.append(make(self.port, kind))
        return self.terminals[-1].begin()

    def child(self) -> int:
        """The process of the region."""
        return int(read(f"/proc/{self.process.pid}/task/{self.process.pid}/children"))

    def lines(self) -> list[str]:
        """The session's script so far, after the set-up."""
        return read(self.script).removeprefix(read(self.setup)).decode().split("\n")

    def tell_to_end(self) -> None:
        """Sends a signal, where none was sent and the session doesn't end by itself."""
        if not self.ends_itself:
            self.ends_itself = True
            self.process.send_signal(signal.SIGTERM)

    def end(self) -> None:
        """It ends in order, and the session's script gives the transcript whose digest it ends with."""
        self.is_over = True
        self.tell_to_end()
        expect("status", self.process.wait(LIMITS.seconds()), self.status)
        expect("mode", os.stat(self.script).st_mode & 0o777, 0o600)
        ran = subprocess.run([PROGRAM, self.script], capture_output=True, timeout=LIMITS.seconds(), check=False)
        expect("replay", (ran.returncode, ran.stderr), (0, b""))
        expect("last line", self.lines()[-1], "")
        if self.has_digest:
            self.compare(ran.stdout)

    def compare(self, transcript: bytes) -> None:
        """The session begins with the set-up, and ends with the digest of the transcript, or of what came of it."""
        found = re.fullmatch(r"\* The transcript has (\d+) bytes, SHA-256 ([0-9a-f]{64})\.", self.lines()[-2])
        assert found, self.lines()[-2]
        assert not self.is_verbatim or read(self.script).startswith(read(self.setup)), "the session doesn't begin with the set-up"
        count = int(found[1])
        assert count == len(transcript) if self.is_whole else count <= len(transcript), f"{count} bytes of {len(transcript)}"
        expect("transcript", hashlib.sha256(transcript[:count]).hexdigest(), found[2])


def refused(text: str, *words: str, options: Sequence[str] = (), status: int = 1) -> str:
    """What is reported of a set-up with which there is no session; no other file is left."""
    with folder_of({"setup.script": text.encode()}) as folder:
        ended = called("cics-terminals", [*words, "setup.script", "--port", "0", "--cicslook", LOOKER, *options], folder)
        expect("status, output, files", (ended.status, ended.out, os.listdir(folder)), (status, b"", ["setup.script"]))
        return ended.reported.decode().removeprefix("cics-terminals: ")


def exchange(connection: socket.socket, sent: str, wanted: str) -> None:
    """Sends bytes in hexadecimal, and looks at the bytes that are answered."""
    connection.sendall(bytes.fromhex(sent))
    length, answer = len(bytes.fromhex(wanted)), b""
    while len(answer) < length:
        data = connection.recv(length - len(answer))
        assert data, f"closed after {answer.hex()}"
        answer += data
    expect(f"answer to {sent}", answer.hex(" ").upper(), wanted)


def connected(session: Session) -> socket.socket:
    return socket.create_connection(("127.0.0.1", session.port), LIMITS.seconds())


def rest(connection: socket.socket) -> bytes:
    """All that comes up to the end."""
    data = b""
    with contextlib.suppress(ConnectionResetError):  # what was sent isn't all read
        while more := connection.recv(65536):
            data += more
    return data


def expect_refusal(session: Session, kind: str, text: str) -> None:
    """A terminal that isn't given is reported why, once; any key closes."""
    late = RawTerminal(session.port, kind)
    expect_page(late.begin(), {24: text})
    late.socket.sendall(b"\xFF\xFB\x19")  # agreed to again
    begun = time.monotonic()
    expect("the end", rest(late.press("PF3").socket), b"")
    assert time.monotonic() - begun < 5 * LIMITS.scale, "a key doesn't close"
    late.close()


def expect_end(terminal: RawTerminal, text: str) -> None:
    """The terminal is reported why the session ends; any key closes."""
    while terminal.rows()[23] != text:
        terminal.take_screen()
    expect("the end", rest(terminal.press().socket), b"")
