"""Tests of what must not disturb the others, and of each end of a session."""
import contextlib
import os
import random
import select
import signal
import time

from tests.terminals.client import CODES, LIMITS, RawTerminal
from tests.terminals.programs import BUSY, LOOP, RET1_IMAGE, RETURN, TALK, page_source
from tests.terminals.session import Session, connected, exchange, expect, expect_end, expect_page, rest, test, tests_of


@test
def the_region_is_killed() -> None:
    with Session(TALK, LOOP, is_whole=False, ends_itself=True, status=1) as session:
        terminals = [session.terminal() for _ in range(3)]
        terminals[0].enter("talk")
        terminals[1].type("loop").press()
        os.kill(session.child(), signal.SIGKILL)
        for terminal in terminals:
            expect_end(terminal, " REGION ENDED: ended by SIGKILL")


@test
def drawn_records() -> None:
    """Records of any bytes, and any bytes: a neighbour goes on."""
    generator = random.Random(3270)
    with Session(TALK, RET1_IMAGE) as session:
        neighbour = session.terminal().enter("talk")
        for number in range(40):
            fuzzer = session.terminal()
            try:
                for _ in range(12):
                    fuzzer.send(drawn_record(generator))
                    fuzzer.wait()
                fuzzer.socket.sendall(generator.randbytes(generator.choice((1, 100, 5000, 70000))))
                fuzzer.close()
            except OSError:
                pass  # it was cut
            expect_page(neighbour.enter(f"round {number}"), {1: f"ROUND {number}", 24: " WAITING"})


def drawn_record(generator: random.Random) -> bytes:
    """A record: a key or not, some fields, and characters that have codes or not."""
    aid = generator.choice(bytes.fromhex("7D7D7DF1F5F67A7B7C4C6D6C6E6BC1C2C2C7C860880100FF"))
    record = bytes([aid]) + generator.randbytes(generator.choice((0, 1, 2, 2, 2)))
    for _ in range(generator.randrange(4)):
        at = CODES[generator.randrange(1920)], generator.randbytes(2), b"\x40\xC1"
        record += generator.choice((b"", b"\x11" + generator.choice(at)))
        word = generator.choice(("TALK", "RET1", "CEDF", "NOOP", "END", "T001", "0F", "TASKS", "CEBR", "")).encode("cp037")
        record += generator.choice((word, word, generator.randbytes(generator.randrange(20))))
    return record


@test
def a_client_that_never_reads() -> None:
    """It is cut when too much waits to be sent, and others go on."""
    with Session(page_source("FULL", ["X" * 80] * 24), TALK) as session:
        deaf = session.terminal(buffer=4096).enter("", "CLEAR").enter("full")
        neighbour = session.terminal().enter("talk")
        deaf.socket.sendall(b"\xC1\xFF\xEF" * 5000)
        cut = select.poll()
        cut.register(deaf.socket, 0)
        assert cut.poll(LIMITS.seconds() * 1000), "it isn't cut"
        expect_page(neighbour.enter("on"), {1: "ON", 24: " WAITING"})


@test
def limits_of_a_connection() -> None:
    """Too long a record or suboption cuts; of too many that don't negotiate the oldest is, and each when its time is over."""
    with Session(TALK) as session:
        neighbour = session.terminal().enter("talk")
        long = session.terminal()
        long.send(b"\x7D" + b"\0" * 8191)
        long.wait()
        long.socket.sendall(b"\x7D" + b"\0" * 8192)
        expect("the end", rest(long.socket), b"")
        with connected(session) as connection:
            connection.sendall(b"\xFF\xFA\x18" + b"x" * 257)
            assert b"\xFF\xFD\x18".startswith(rest(connection))
        begun = time.monotonic()
        idle = [connected(session) for _ in range(15)]
        for connection in idle:
            exchange(connection, "", "FF FD 18")
        unread = RawTerminal(session.port, "IBM-DYNAMIC@NONE")
        expect_page(unread.begin(), {24: " TERMINAL NONE IS TAKEN, OR THERE IS NONE OF THIS NAME"})
        late = session.terminal().enter("talk")
        expect("the end of the oldest", rest(idle[0]), b"")
        for connection in (idle[1], unread.socket):
            connection.setblocking(False)
            with contextlib.suppress(BlockingIOError):
                raise AssertionError(f"another makes room: {connection.recv(1)!r}")
            connection.settimeout(LIMITS.seconds())
        for connection in [*idle[1:], unread.socket]:
            expect("the end", rest(connection), b"")
            assert 9 < time.monotonic() - begun, "it is closed before its 10 seconds"
        for connection in [*idle, unread.socket]:
            connection.close()
        for terminal in (neighbour, late):
            expect_page(terminal.enter("on"), {1: "ON", 24: " WAITING"})


@test
def a_signal_in_mid_turn() -> None:
    with Session(BUSY, TALK) as session:
        first, second = session.terminal(), session.terminal()
        first.type("busy").press()
        expect_page(second.enter("talk"), {1: "TALK", 24: " WAITING"})
        second.type("not done").press()
        session.tell_to_end()
        for terminal in (first, second):
            expect_end(terminal, " THE SESSION HAS ENDED")


@test
def a_session_that_is_not_kept() -> None:
    """A line that can't be written isn't sent: what was sent is a script."""
    with Session(RETURN, largest=8192, has_digest=False, ends_itself=True, status=1) as session:
        terminal = session.terminal()
        while not any(terminal.enter("ret1").rows()):
            pass
        expect_end(terminal, " THE SESSION CAN'T BE KEPT: .Errno 27. File too large")


load_tests = tests_of(__name__)
