"""The connections: telnet with the 3270 data stream (RFC 1576), and the one loop in which all that comes is taken."""
import errno
import os
import re
import selectors
import signal
import socket
import struct
import sys
import time
import traceback
from enum import Enum
from collections.abc import Callable
from typing import Any

from cics.files import read
from cics.terminals.data_stream import BLANK, Painting, free_rows
from cics.terminals.region import MUCH, Fault, Region, Request, Work
from cics.terminals.terminal import Terminal
from cics.terminals.turns import FAULT, REST, Owner

IAC, DONT, DO, WONT, WILL, SB, SE, END_OF_RECORD = 0xFF, 0xFE, 0xFD, 0xFC, 0xFB, 0xFA, 0xF0, 0xEF
BINARY, TERMINAL_TYPE, END_OF_RECORDS, IS, SEND = 0x00, 0x18, 0x19, 0, 1  # options; in a suboption
AGREED = {(WILL, END_OF_RECORDS), (DO, END_OF_RECORDS), (WILL, BINARY), (DO, BINARY)}
NEEDED, REFUSAL = {TERMINAL_TYPE, END_OF_RECORDS, BINARY}, {WILL: DONT, DO: WONT}
TYPES = re.compile(rb"(?:IBM-327(?P<family>[89])-[2-5](?:-E)?|IBM-DYNAMIC)(?:@(?P<lu>[!-~]+))?", re.IGNORECASE)
PIECES = re.compile(
    rb"(?P<data>[^\xFF]+)|\xFF(?:(?P<same>\xFF)|(?P<end>\xEF)|(?P<verb>[\xFB-\xFE])(?P<option>.)|"
    rb"\xFA(?P<suboption>(?:[^\xFF]|\xFF[^\xF0])*)\xFF\xF0|[^\xFF\xEF\xFA-\xFE])", re.DOTALL)

LONGEST_RECORD, LONGEST_SUBOPTION, MOST_UNSENT, MOST_UNFINISHED = 8192, 256, 65536, 16  # bytes; connections without one
SOCK_DIAG, BY_FAMILY, REQUEST, ANY_STATE, NO_COOKIE = 4, 20, 1, 0xFFFFFFFF, 0xFFFFFFFF  # of linux/sock_diag.h and linux/netlink.h
TO_NEGOTIATE, TO_READ, TO_CLOSE = 10, 10, 2  # seconds
WARNING = "THE SESSION HAS 14 OF AT MOST 16 MIB: IT WILL END SOON"

def user_of(here: tuple[str, int], there: tuple[str, int]) -> int | None:
    """The user who has the other end of a connection: -1 where it is closed; None where the system doesn't say. It is asked for this
    connection alone; where that can't be, the list of all is read, which is the longer the more there are."""
    try:
        return asked_user(here, there)
    except OSError:
        return listed_user(here, there)

def asked_user(here: tuple[str, int], there: tuple[str, int]) -> int:
    """The user of the socket at the other end, by sock_diag(7)."""
    ends = [struct.pack("!HH", there[1], here[1]), socket.inet_aton(there[0]).ljust(16, b"\0"), socket.inet_aton(here[0]).ljust(16, b"\0")]
    question = struct.pack("=BBBxI", socket.AF_INET, socket.IPPROTO_TCP, 0, ANY_STATE) + b"".join(ends) + struct.pack("=III", 0, NO_COOKIE, NO_COOKIE)
    with socket.socket(socket.AF_NETLINK, socket.SOCK_RAW, SOCK_DIAG) as asked:
        asked.settimeout(1)
        asked.send(struct.pack("=IHHII", 16 + len(question), BY_FAMILY, REQUEST, 0, 0) + question)
        answer = asked.recv(8192)
    if struct.unpack_from("=H", answer, 4)[0] != BY_FAMILY:
        number = -struct.unpack_from("=i", answer, 16)[0]
        if number != errno.ENOENT:
            raise OSError(number, os.strerror(number))
        return -1
    user, inode = struct.unpack_from("=II", answer, 16 + 64)
    return int(user) if inode else -1  # a closed one would be root's

def listed_user(here: tuple[str, int], there: tuple[str, int]) -> int | None:
    ends = [f"{int.from_bytes(socket.inet_aton(host), sys.byteorder):08X}:{port:04X}" for host, port in (there, here)]
    paths = [path for path in ("/proc/net/tcp", "/proc/net/tcp6") if os.path.exists(path)]
    for path in paths:
        for fields in map(str.split, read(path).decode("ascii").splitlines()):
            if fields[1].endswith(ends[0]) and fields[2].endswith(ends[1]):
                return int(fields[7]) if fields[9] != "0" else -1
    return -1 if paths else None

class Cut(Exception):
    """The connection is to be closed at once."""

# A connection has no terminal yet; has one; is shown why it has none, or no longer, and any key closes; isn't read any more.
Phase = Enum("Phase", "NEGOTIATING SERVED REFUSED CLOSING")

class Client:
    """A connection: it negotiates, then its records are its operator's keys, each taken when the one before is answered."""

    def __init__(self, service: "Service", connection: socket.socket) -> None:
        self.service, self.socket = service, connection
        self.raw, self.record, self.unsent = bytearray(), bytearray(), bytearray([IAC, DO, TERMINAL_TYPE])
        self.agreed: set[tuple[int, int]] = set()
        self.lu: str | None = None
        self.terminal: Terminal | None = None
        self.phase = Phase.NEGOTIATING
        self.is_asked = self.is_busy = self.has_colours = False  # for its type; its last key isn't answered; by its type
        self.deadline: float | None = time.monotonic() + TO_NEGOTIATE

    def do(self, action: Callable[..., None], *words: Any) -> None:
        """Does something with the connection, unless it is closed; where it isn't then, its next event is waited for."""
        if self not in self.service.clients:
            return
        try:
            action(*words)
        except (Cut, OSError):
            self.service.drop(self)
        except Exception:  # a fault of this program ends this connection alone
            traceback.print_exc()
            if self.terminal:
                self.service.owner.leave(self.terminal)
                self.dismiss(FAULT)
            else:
                self.service.drop(self)
        else:
            events = (0 if self.is_busy else selectors.EVENT_READ) | (selectors.EVENT_WRITE if self.unsent else 0)
            self.service.watch(self.socket, events, lambda it: self.do(self.write if it & selectors.EVENT_WRITE else self.receive))

    def send(self, data: bytes) -> None:
        self.unsent += data
        self.write()
        if len(self.unsent) > MOST_UNSENT:
            raise Cut

    def write(self) -> None:
        try:
            while self.unsent:
                del self.unsent[: self.socket.send(self.unsent)]
        except BlockingIOError:
            return
        if self.phase is Phase.CLOSING:
            self.socket.shutdown(socket.SHUT_WR)

    def paint(self, painting: Painting, alarm: bool = False) -> None:
        self.send(painting.orders(alarm, self.has_colours).replace(b"\xFF", b"\xFF\xFF") + bytes([IAC, END_OF_RECORD]))

    def show(self, painting: Painting, alarm: bool) -> None:
        """Answers with what is to be painted; then the next record may be taken."""
        self.is_busy = False
        self.do(self.paint, painting, alarm)
        self.do(self.parse)

    def close_with(self, whom: str) -> None:
        """Says to what isn't let in what this is for, and closes when that is sent."""
        self.phase, self.deadline = Phase.CLOSING, time.monotonic() + TO_CLOSE
        self.send(f"This is a service for {whom}.\r\n".encode())

    def refuse(self, text: str) -> None:
        """Shows why there is no terminal. Any key closes, or that it has been read."""
        self.phase, self.is_busy, self.deadline = Phase.REFUSED, False, time.monotonic() + TO_READ
        self.paint(Painting(BLANK, free_rows(BLANK), text))

    def dismiss(self, text: str) -> None:
        self.terminal = None
        self.do(self.refuse, text)

    def receive(self) -> None:
        data = self.socket.recv(4096)
        if not data:
            raise Cut
        if self.phase is not Phase.CLOSING:
            self.raw += data
            self.parse()

    def parse(self) -> None:
        """Takes pieces up to the end of a record."""
        while not self.is_busy and self.phase is not Phase.CLOSING and (piece := PIECES.match(self.raw)):
            self.take(piece)
            del self.raw[: piece.end()]
        if not self.is_busy and len(self.raw) > LONGEST_SUBOPTION + 3:
            raise Cut

    def take(self, piece: "re.Match[bytes]") -> None:
        """A piece of what came. Attention, and all commands that aren't named here, do nothing.
        No terminal sends data while it negotiates; a web page's request is data from its first byte on, the method's name."""
        data = piece["data"] or piece["same"] or b""
        self.record += data
        is_early = self.phase is Phase.NEGOTIATING and (data or piece["end"])
        if is_early or len(self.record) > LONGEST_RECORD or len(piece["suboption"] or b"") > LONGEST_SUBOPTION:
            raise Cut
        if piece["verb"]:
            self.take_option(piece["verb"][0], piece["option"][0])
        elif piece["suboption"]:
            self.take_type(piece["suboption"])
        elif piece["end"]:
            record, self.record = bytes(self.record), bytearray()
            if self.phase is Phase.REFUSED:
                raise Cut
            if self.terminal and record:
                self.is_busy = True
                self.service.owner.press(self.terminal, record)

    def take_option(self, verb: int, option: int) -> None:
        if (verb, option) == (WILL, TERMINAL_TYPE):
            if not self.is_asked:
                self.is_asked = True
                self.send(bytes([IAC, SB, TERMINAL_TYPE, SEND, IAC, SE]))
        elif (verb, option) in AGREED:
            self.agreed.add((verb, option))
            self.begin()
        elif option in NEEDED and verb in (WONT, DONT):
            self.close_with("3270 terminals, as c3270 is one")
        elif verb in REFUSAL:
            self.send(bytes([IAC, REFUSAL[verb], option]))

    def take_type(self, suboption: bytes) -> None:
        if suboption[:2] != bytes([TERMINAL_TYPE, IS]) or self.lu is not None:
            return
        found = TYPES.fullmatch(suboption[2:])
        if not found:
            return self.close_with("terminals of the types IBM-3278 and IBM-3279, models 2 to 5")
        self.lu, self.has_colours = (found["lu"] or b"").decode().upper(), found["family"] != b"8"
        self.send(bytes([IAC, DO, END_OF_RECORDS, IAC, WILL, END_OF_RECORDS, IAC, DO, BINARY, IAC, WILL, BINARY]))
        self.begin()

    def begin(self) -> None:
        """Takes a terminal when all is agreed on."""
        if self.agreed != AGREED or self.lu is None or self.phase is not Phase.NEGOTIATING:
            return
        self.terminal = self.service.owner.connect(self, self.lu)
        if not self.terminal:
            named = f"TERMINAL {self.lu} IS TAKEN, OR THERE IS NONE OF THIS NAME"
            return self.refuse(named if self.lu else "ALL TERMINALS ARE TAKEN")
        self.phase, self.is_busy, self.deadline = Phase.SERVED, True, None

class Service:
    """The loop: the child's pipes, the clients and signals. It gives the owner of the region what it waits for."""
    region: Region
    owner: Owner  # when the set-up is done
    work: Work
    request: Request | None

    def __init__(self, port: int, has_any_user: bool = False) -> None:
        self.selector = selectors.DefaultSelector()
        self.clients: list[Client] = []  # the oldest first
        self.is_open, self.is_ended, self.has_any_user, self.listener = False, False, has_any_user, socket.socket()
        self.listener.setsockopt(socket.SOL_SOCKET, socket.SO_REUSEADDR, 1)
        self.listener.setblocking(False)
        self.listener.bind(("127.0.0.1", port))  # this machine alone
        self.port = self.listener.getsockname()[1]
        self.signals = socket.socketpair()  # a signal ends the loop, wherever it waits
        for end in self.signals:
            end.setblocking(False)
        signal.set_wakeup_fd(self.signals[1].fileno(), warn_on_full_buffer=False)
        for number in (signal.SIGTERM, signal.SIGINT, signal.SIGHUP):
            signal.signal(number, self.end)
        self.watch(self.signals[0], selectors.EVENT_READ, self.end)

    def end(self, *_: Any) -> None:
        self.is_ended = True

    def begin(self, owner: Owner) -> None:
        """Listens for clients of an owner."""
        try:
            self.listener.listen()
        except OSError as fault:
            raise Fault(f"port {self.port}: {fault}") from None
        self.owner, self.is_open = owner, True
        self.watch(self.listener, selectors.EVENT_READ, self.accept)

    def accept(self, _events: int) -> None:
        try:
            connection, there = self.listener.accept()
        except OSError:
            return
        connection.setblocking(False)
        connection.setsockopt(socket.SOL_SOCKET, socket.SO_SNDBUF, MOST_UNSENT)
        connection.setsockopt(socket.IPPROTO_TCP, socket.TCP_NODELAY, 1)
        unfinished = [client for client in self.clients if client.terminal is None]
        if len(unfinished) >= MOST_UNFINISHED:
            self.drop(unfinished[0])
        client = Client(self, connection)
        self.clients.append(client)
        is_let_in = self.has_any_user or user_of(connection.getsockname(), there) in (None, 0, os.getuid())
        client.do(client.write) if is_let_in else client.do(client.close_with, "the user who began it")

    def drop(self, client: Client) -> None:
        if client in self.clients:
            self.clients.remove(client)
            self.watch(client.socket, 0, None)
            client.socket.close()
            if client.terminal:
                self.owner.leave(client.terminal)

    def watch(self, file: Any, events: int, handler: Callable[[int], None] | None) -> None:
        """Waits for these events of a file, or for none."""
        if file in self.selector.get_map():
            self.selector.unregister(file)
        if events:
            self.selector.register(file, events, handler)

    def run(self, work: Work) -> Fault | None:
        """Works until a signal comes, or a fault, which is returned."""
        self.work = work
        self.watch(self.region.child.output, selectors.EVENT_READ, lambda _events: self.region.read())
        try:
            self.go_on(None)
            while not self.is_ended:
                self.proceed()
                self.wait()
        except Fault as fault:
            return fault
        return None

    def proceed(self) -> None:
        """Gives the owner what it waits for, as long as there is something."""
        while bool(self.owner.jobs) if self.request is REST else self.region.has_answered():
            self.go_on(None if self.request is REST else self.region.answer())
            if self.is_open and self.region.sent > MUCH and not self.owner.warning:
                self.owner.warning = WARNING
                print(WARNING, flush=True)

    def go_on(self, answer: Any) -> None:
        self.request = self.work.send(answer)
        if self.request:
            self.region.ask(self.request)

    def wait(self) -> None:
        child = self.region.child
        self.watch(child.input, selectors.EVENT_WRITE if child.unsent else 0, lambda _events: child.flush())
        deadlines = [client.deadline for client in self.clients if client.deadline]
        for key, events in self.selector.select(max(0, min(deadlines) - time.monotonic()) if deadlines else None):
            key.data(events)
        for client in [it for it in self.clients if it.deadline and it.deadline <= time.monotonic()]:
            self.drop(client)

    def farewell(self, text: str, seconds: float) -> None:
        """Shows all terminals a text, for some seconds or up to a key of each."""
        for key in list(self.selector.get_map().values()):
            self.selector.unregister(key.fileobj)
        for client in list(self.clients):
            if client.phase is Phase.SERVED:
                client.do(client.refuse, text)
            else:
                self.drop(client)
        until = time.monotonic() + seconds
        while self.clients and (left := until - time.monotonic()) > 0:
            for selected, events in self.selector.select(left):
                selected.data(events)
