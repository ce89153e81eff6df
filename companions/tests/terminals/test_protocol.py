"""Tests of telnet and of the data stream as bytes."""
import os
import shutil
import socket
import subprocess

from cics.terminals.connections import user_of
from tests.terminals.client import LIMITS, Kind
from tests.terminals.programs import RETURN, TALK
from tests.terminals.session import Session, connected, exchange, expect, expect_page, rest, test, test_with_each, tests_of


KINDS = [f"IBM-{family}-{model}{extended}" for family in (3278, 3279) for model in range(2, 6) for extended in ("", "-E")]
NEGOTIATION = bytes.fromhex("FFFB18 FFFA1800") + b"IBM-3279-2-E" + bytes.fromhex("FFF0 FFFB19FFFD19FFFB00FFFD00")


@test
def negotiation_of_each_model() -> None:
    """All have colours but the 3278; when each terminal was used, the one that was left first is given again."""
    with Session(RETURN) as session:
        for at, kind in enumerate(KINDS + ["IBM-DYNAMIC"]):
            greeting = f"TERMINAL T{at % 16 + 1:03}".encode("cp037").hex(" ").upper()
            page = "1D F0" if "3278" in kind else "29 02 C0 F0 42 F4"
            with connected(session) as connection:
                exchange(connection, "", "FF FD 18")
                exchange(connection, "FF FB 18", "FF FA 18 01 FF F0")
                exchange(connection, "FF FB 27", "FF FE 27")
                exchange(connection, "FF FD 27", "FF FC 27")
                exchange(connection, "FF FA 18 00" + kind.encode().hex() + "FF F0", "FF FD 19 FF FB 19 FF FD 00 FF FB 00")
                exchange(connection, "FF FB 19 FF FD 19 FF FB 00 FF FD 00",
                         f"F5 C3 11 5C F0 40 {greeting} 11 40 40 1D 40 11 5C F0 1D F8 11 5D 7F {page} 11 40 C1 13 FF EF")
                # attention does nothing; a key that means nothing paints without the message; CLEAR is for the region
                exchange(connection, "FF F3 01 6C 61 02 FF EF", "F5 C3 11 40 40 13 FF EF")
                exchange(connection, "6D FF EF", "F5 C3 11 40 40 13 FF EF")
                connection.shutdown(socket.SHUT_WR)
                expect("the end", rest(connection), b"")


@test_with_each
def a_page_on_each_model(make: Kind) -> None:
    with Session(TALK) as session:
        for at, kind in enumerate(KINDS):
            terminal = session.made(make, kind)
            expect_page(terminal, {24: f" TERMINAL T{at + 1:03}"})
            expect_page(terminal.enter("talk " + "x" * 80), {1: "TALK", 2: "X" * 80, 24: " WAITING"})


@test
def terminals_of_other_kinds() -> None:
    with Session(RETURN) as session:
        for kind in (b"IBM-3277-2", b"IBM-3278-6", b"IBM-3279", b"VT100", b"", b"IBM-3279-2-E@", b"IBM-3279-2-E@T001 "):
            with connected(session) as connection:
                connection.sendall(b"\xFF\xFB\x18\xFF\xFA\x18\x00" + kind + b"\xFF\xF0")
                reported = rest(connection).removeprefix(bytes.fromhex("FFFD18FFFA1801FFF0"))
                expect(kind, reported, b"This is a service for terminals of the types IBM-3278 and IBM-3279, models 2 to 5.\r\n")
        for refusal in (b"\xFF\xFC\x18", b"\xFF\xFB\x18\xFF\xFE\x19", b"\xFF\xFC\x00"):
            with connected(session) as connection:
                connection.sendall(refusal)
                assert rest(connection).endswith(b"This is a service for 3270 terminals, as c3270 is one.\r\n"), refusal


@test
def web_pages() -> None:
    """What isn't a terminal sends data before all is agreed on: it is cut, and no key of it is taken."""
    key = b"\x7D\x40\x40\x11\x40\xC1" + "RET1".encode("cp037") + b"\xFF\xEF"
    with Session(RETURN) as session:
        requests = [b"%s / HTTP/1.1\r\nHost: localhost\r\n\r\n" % method for method in (b"POST", b"GET", b"PUT", b"OPTIONS")]
        for early in [*requests, b"\xFF\xEF", b"\xFF\xFF", key, b"\xFF\xFB\x18POST", NEGOTIATION[:-3] + b"x"]:
            with connected(session) as connection:
                connection.sendall(early + b"\xFF\xEF" + NEGOTIATION + key + key)
                assert b"TERMINAL".decode().encode("cp037") not in rest(connection), early
        if shutil.which("curl"):
            words = ["curl", "--silent", "--max-time", f"{LIMITS.seconds():.0f}", "--http0.9", "--data-binary", "@-"]
            ran = subprocess.run([*words, f"http://127.0.0.1:{session.port}/"], input=NEGOTIATION + key, capture_output=True, check=False)
            assert ran.returncode != 28, ran
        expect("keys", [line for line in session.lines() if line.startswith(("KEY", "* T"))], [])
        with connected(session) as connection:
            connection.sendall(NEGOTIATION + key)  # this one negotiates first
            expect("page", rest_of_page(connection), 2)
            connection.shutdown(socket.SHUT_WR)
        expect("keys", [line for line in session.lines() if line.startswith("KEY")], ["KEY T001 ENTER RET1"])


def rest_of_page(connection: socket.socket) -> int:
    """How many records came, up to the second."""
    data = b""
    while data.count(b"\xFF\xEF") < 2:
        data += connection.recv(4096)
    return data.count(b"\xFF\xEF")


@test
def other_users() -> None:
    """A peer of another user is refused; --any-user lets it in. Only root can try it."""
    with socket.create_server(("127.0.0.1", 0)) as server:
        other = socket.create_connection(server.getsockname())
        near, there = server.accept()
        knows = os.path.exists("/proc/net/tcp")
        expect("one's own", user_of(near.getsockname(), there), os.getuid() if knows else None)
        other.close()
        expect("a closed one", user_of(near.getsockname(), there), -1 if knows else None)
        near.close()
    asks = ("import socket, sys; s = socket.create_connection(('127.0.0.1', int(sys.argv[1]))); "
            "sys.stdout.buffer.write(s.recv(3)); s.settimeout(60); sys.stdout.buffer.write(s.recv(99) if len(sys.argv) > 2 else b'')")
    if os.getuid() != 0 or not os.path.exists("/proc/net/tcp"):
        return
    asked = b"\xFF\xFD\x18"
    for options, reported in ((), asked + b"This is a service for the user who began it.\r\n"), (("--any-user",), asked):
        with Session(RETURN, options=options) as session:
            words = ["/usr/bin/env", "python3", "-c", asks, str(session.port), *([] if options else ["all"])]
            ran = subprocess.run(words, capture_output=True, user=65534, timeout=LIMITS.seconds(), check=True)
            expect("reported", ran.stdout, reported)


load_tests = tests_of(__name__)
