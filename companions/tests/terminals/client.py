"""Terminals for the tests: one of their own, which keeps its screen as a 3270 does, and s3270 where it is installed."""
import shutil
import socket
import subprocess
import time


class Limits:
    """What no answer may take longer than: as many times the start of a session as it is on an idle machine.

    Each session's start is measured, since a machine may become busy meanwhile.
    """

    def __init__(self) -> None:
        self.scale, self.begun = 1.0, time.monotonic()

    def measured(self, seconds: float) -> None:
        """A session began to listen after so long; on an idle machine after less than 0.2 seconds."""
        self.scale = min(max(self.scale, seconds / 0.2), MOST_SLOWER)

    def seconds(self) -> float:
        return 20 * self.scale

    def is_over(self) -> bool:
        """Whether the time that all sessions have together is over."""
        return time.monotonic() > self.begun + 200 * self.scale


MOST_SLOWER = 16.0  # than an idle machine
LIMITS = Limits()
KEYS = {"ENTER": 0x7D, "CLEAR": 0x6D, "PA1": 0x6C, "PA2": 0x6E, "PA3": 0x6B, "SYSREQ": 0x01}
KEYS |= {f"PF{at}": code for at, code in enumerate(bytes.fromhex("F1F2F3F4F5F6F7F8F97A7B7CC1C2C3C4C5C6C7C8C94A4B4C"), 1)}
SHORT = {"CLEAR", "PA1", "PA2", "PA3"}
SIZE = 1920


def six_bits(value: int) -> int:
    """The code of six bits: a letter or a digit where there is one, else the bits after 01."""
    is_graphic = 0x30 <= value <= 0x39 or 1 <= value & 15 <= 9 and value != 0x21
    return value | (0xC0 if is_graphic else 0x40)


ADDRESSES = {bytes([six_bits(at >> 6), six_bits(at & 63)]): at for at in range(SIZE)}
CODES = {at: code for code, at in ADDRESSES.items()}


class RawTerminal:
    """A terminal over a socket: its characters are their codes, and null where none is."""

    def __init__(self, port: int, kind: str = "IBM-3279-2-E", buffer: int | None = None) -> None:
        self.socket = socket.socket()
        if buffer:
            self.socket.setsockopt(socket.SOL_SOCKET, socket.SO_RCVBUF, buffer)
        self.socket.settimeout(LIMITS.seconds())
        self.socket.connect(("127.0.0.1", port))
        self.kind, self.raw, self.reported = kind, b"", b""
        self.codes, self.cursor = bytearray(SIZE), 0
        self.attributes: dict[int, int] = {}
        self.colours: dict[int, int] = {}
        self.modified: set[int | None] = set()
        self.is_locked, self.has_rung, self.writes = True, False, 0

    def begin(self) -> "RawTerminal":
        """Negotiates, up to the first screen."""
        return self.wait()

    def close(self) -> None:
        self.socket.close()

    # ---- what comes

    def need(self, count: int) -> bytes:
        """The next bytes that come."""
        while len(self.raw) < count:
            data = self.socket.recv(65536)
            if not data:
                raise EOFError(f"closed, after {self.reported!r}")
            self.raw += data
        taken, self.raw = self.raw[:count], self.raw[count:]
        return taken

    def answer(self, verb: int, option: int) -> None:
        """Agrees to what a 3270 terminal agrees to."""
        if verb in (0xFD, 0xFB):
            self.socket.sendall(bytes([0xFF, 0xFB if verb == 0xFD else 0xFD, option]))

    def next_record(self) -> bytes:
        """The next record; commands of telnet in front of it are answered."""
        record = b""
        while True:
            byte = self.need(1)
            if byte != b"\xFF":
                record += byte
                self.reported = record
                continue
            command = self.need(1)[0]
            if command == 0xFF:
                record += b"\xFF"
            elif command == 0xEF:
                return record
            elif command == 0xFA:
                assert self.need(4) == b"\x18\x01\xFF\xF0"
                self.socket.sendall(b"\xFF\xFA\x18\x00" + self.kind.encode() + b"\xFF\xF0")
            else:
                self.answer(command, self.need(1)[0])

    def take_screen(self) -> None:
        """Takes a record, which must be an Erase/Write."""
        record = self.next_record()
        assert record[0] == 0xF5 and record[1] in (0xC3, 0xC7), record[:2].hex()
        self.codes, self.attributes, self.colours, self.modified, self.cursor = bytearray(SIZE), {}, {}, set(), 0
        self.is_locked, self.has_rung = False, record[1] == 0xC7
        self.writes += 1
        at, position = 2, 0
        while at < len(record):
            if record[at] == 0x11:
                position, at = ADDRESSES[record[at + 1 : at + 3]], at + 3
            elif record[at] == 0x13:
                self.cursor, at = position, at + 1
            elif record[at] == 0x1D:
                self.start_field(position, record[at + 1])
                position, at = (position + 1) % SIZE, at + 2
            elif record[at] == 0x29:
                assert (record[at + 1], record[at + 2], record[at + 4]) == (2, 0xC0, 0x42), record[at : at + 6].hex()
                self.start_field(position, record[at + 3])
                self.colours[position] = record[at + 5]
                position, at = (position + 1) % SIZE, at + 6
            else:
                self.codes[position], position, at = record[at], (position + 1) % SIZE, at + 1

    def start_field(self, position: int, attribute: int) -> None:
        self.attributes[position], self.codes[position] = attribute, 0
        if attribute & 0x01:
            self.modified.add(position)

    def governing(self, row: int, column: int) -> int | None:
        """The position of the attribute that a place has; rows and columns from 1."""
        return self.field((row - 1) * 80 + column - 1)

    def wait(self) -> "RawTerminal":
        """Waits for the unlocked keyboard."""
        while self.is_locked:
            self.take_screen()
        return self

    def wait_painted(self) -> "RawTerminal":
        """Waits for a screen that no key asked for."""
        self.take_screen()
        return self

    def rows(self) -> list[str]:
        text = self.codes.replace(b"\0", b"\x40").decode("cp037")
        return [text[at : at + 80].rstrip() for at in range(0, SIZE, 80)]

    # ---- what is typed

    def field(self, position: int) -> int | None:
        """The attribute's position of the field that a position is in; None on an unformatted screen."""
        if not self.attributes:
            return None
        before = [at for at in self.attributes if at <= position]
        return max(before or self.attributes)

    def move(self, row: int, column: int) -> "RawTerminal":
        """Puts the cursor to a row and a column, from 1."""
        self.cursor = (row - 1) * 80 + column - 1
        return self

    def type(self, text: str) -> "RawTerminal":
        for code in text.encode("cp037"):
            field = self.field(self.cursor)
            is_protected = field is not None and self.attributes[field] & 0x20
            assert self.cursor not in self.attributes and not is_protected, "a protected field"
            self.codes[self.cursor] = code
            self.modified.add(field)
            self.cursor = (self.cursor + 1) % SIZE
        return self

    def data(self) -> bytes:
        """What is sent after the cursor's address."""
        if not self.attributes:
            return bytes(self.codes).replace(b"\0", b"")
        out = b""
        for field in sorted(it for it in self.modified if it is not None):
            end = next((at for at in range(field + 1, field + SIZE) if at % SIZE in self.attributes), field + SIZE)
            codes = bytes(self.codes[at % SIZE] for at in range(field + 1, end))
            out += b"\x11" + CODES[(field + 1) % SIZE] + codes.replace(b"\0", b"")
        return out

    def send(self, record: bytes) -> None:
        self.socket.sendall(record.replace(b"\xFF", b"\xFF\xFF") + b"\xFF\xEF")
        self.is_locked = True

    def press(self, key: str = "ENTER") -> "RawTerminal":
        """Presses a key, without waiting for the answer."""
        if key == "SYSREQ":
            self.send(bytes.fromhex("016C6102"))
        else:
            self.send(bytes([KEYS[key]]) + (b"" if key in SHORT else CODES[self.cursor] + self.data()))
        return self

    def enter(self, text: str = "", key: str = "ENTER") -> "RawTerminal":
        """Types a text, presses a key, and waits for the answer."""
        return self.type(text).press(key).wait()


class S3270:
    """The same terminal as s3270 has it."""

    def __init__(self, port: int, kind: str = "IBM-3279-2-E") -> None:
        kind, _, lu = kind.partition("@")
        model = [kind.removeprefix("IBM-").removesuffix("-E")] if kind != "IBM-DYNAMIC" else ["3279-5", "-oversize", "150x50"]
        host = f"{lu}@127.0.0.1:{port}" if lu else f"127.0.0.1:{port}"
        command = ["s3270", "-model", *model, host]
        self.process = subprocess.Popen(command, stdin=subprocess.PIPE, stdout=subprocess.PIPE, text=True)
        assert self.process.stdin and self.process.stdout
        self.input, self.output = self.process.stdin, self.process.stdout

    def begin(self) -> "S3270":
        return self.wait()

    def close(self) -> None:
        self.input.close()
        self.output.close()
        self.process.wait(LIMITS.seconds())

    def do(self, action: str) -> list[str]:
        """What an action of s3270 writes."""
        self.input.write(action + "\n")
        self.input.flush()
        lines = []
        while (line := self.output.readline().rstrip("\n")) not in ("ok", "error", ""):
            lines.append(line)
        assert line == "ok", f"{action}: {lines}"
        return [line.removeprefix("data: ") for line in lines if line.startswith("data: ")]

    def wait(self) -> "S3270":
        self.do(f"Wait({LIMITS.seconds():.0f},Unlock)")
        return self

    def rows(self) -> list[str]:
        return [row.rstrip() for row in self.do("Ascii1(1,1,24,80)")]

    def move(self, row: int, column: int) -> "S3270":
        self.do(f"MoveCursor1({row},{column})")
        return self

    def type(self, text: str) -> "S3270":
        if text:
            quoted = text.replace("\\", "\\\\").replace('"', '\\"')
            self.do(f'String("{quoted}")')
        return self

    def press(self, key: str = "ENTER") -> "S3270":
        action = f"{key[:2]}({key[2:]})" if key[:2] in ("PA", "PF") else key.capitalize() + "()"
        self.do(action.replace("Sysreq", "SysReq"))
        return self

    def enter(self, text: str = "", key: str = "ENTER") -> "S3270":
        return self.type(text).press(key).wait()


Either = RawTerminal | S3270
Kind = type[Either]


def kinds_of_terminals() -> list[Kind]:
    return [RawTerminal, S3270] if shutil.which("s3270") else [RawTerminal]
