"""EDF's pages as they are due, for the checks of this folder, and the storage that they show."""
from collections.abc import Iterable, Iterator

from checks.assembling import Assembly

CHARACTERS = "ABCDEFGHIJKLMNOPQRSTUVWXYZabcdefghijklmnopqrstuvwxyz0123456789 .<(+|&!$*);-/,%_>?:#@'=\""
SHOWN = {character.encode("cp037")[0]: character for character in CHARACTERS}
KEYS = "ENTER GO ON  PF3 END  PF4 SUPPRESS  PF5 STORAGE  PF6 USER  PF9 STOP  PF10 BACK"


def shown(data: Iterable[int | None]) -> str:
    """Bytes as characters: a period for one without, a hyphen for one that is absent."""
    return "".join("-" if byte is None else SHOWN.get(byte, ".") for byte in data)


def digits(data: Iterable[int | None]) -> str:
    return "".join("--" if byte is None else f"{byte:02X}" for byte in data)


class Storage:
    """The areas of storage, by their least places: programs from 010000, what a task has from 200000."""

    def __init__(self) -> None:
        self.areas: dict[int, bytearray] = {}

    def place(self, data: bytes, first: int = 0x200000) -> int:
        """Puts bytes where they are due."""
        at = first
        while any(start < at + len(data) and at < start + len(other) for start, other in self.areas.items()):
            at += 16
        self.areas[at] = bytearray(data)
        return at

    def program(self, assembly: Assembly) -> int:
        at = self.place(bytes(len(assembly.text)), 0x010000)
        self.areas[at] = bytearray(assembly.loaded(at))
        return at

    def free(self, at: int) -> None:
        del self.areas[at]

    def write(self, at: int, data: bytes) -> None:
        start = next(start for start, other in self.areas.items() if start <= at < start + len(other))
        self.areas[start][at - start : at - start + len(data)] = data

    def read(self, at: int, size: int) -> list[int | None]:
        """A number of bytes, None for each that is absent."""
        return [self.byte(k) for k in range(at, at + size)]

    def byte(self, at: int) -> int | None:
        return next((data[at - start] for start, data in self.areas.items() if start <= at < start + len(data)), None)


class Task:
    """A task as a display shows it: `registers` by their numbers, all others zero."""

    def __init__(self, storage: Storage, terminal: str, transaction: str, program: str, number: int, entry: int, eib: int, stg: int) -> None:
        self.storage, self.terminal, self.transaction, self.program, self.number = storage, terminal, transaction, program, number
        self.code, self.next, self.function, self.condition, self.aid, self.calen = 0, entry, 0, 0, 0x7D, 0
        self.registers = {3: entry, 15: entry, 13: stg, 11: eib}

    def page(self, status: str, command: str, arguments: Iterable[str] = (), last: str | None = None) -> list[str]:
        names = f"TRANSACTION {self.transaction:<4}  PROGRAM {self.program:<8}"
        lines = {1: f"{names}  TASK {self.number:07}  TERMINAL {self.terminal}", 2: f"STATUS {status}", 3: f"COMMAND {command}"}
        lines |= dict(enumerate(arguments, 4))
        for k in range(0, 16, 4):
            lines[15 + k // 4] = " ".join([f"R{k:02}", *(f"{self.registers.get(k + j, 0):08X}" for j in range(4))])
        lines[19] = f"CC {self.code}  NEXT {self.next:06X}"
        lines[20] = f"EIBFN {self.function:04X}  EIBRESP {self.condition:08X}  EIBAID {self.aid:02X}  EIBCALEN {self.calen:04X}"
        lines |= {21: last, 24: KEYS} if last else {24: KEYS}
        return [f"DISPLAY {self.terminal}", *(f"{number:02}|{text.rstrip()}" for number, text in lines.items())]

    def before(self, command: str) -> list[str]:
        """The main page before a command, whose list is at R1."""
        return self.page("ABOUT TO EXECUTE COMMAND", command, self.arguments())

    def after(self, command: str, condition: str) -> list[str]:
        return self.page("COMMAND EXECUTION COMPLETE", command, (), f"RESPONSE {condition}")

    def arguments(self) -> Iterator[str]:
        at = self.registers.get(1, 0)
        for k in range(11):
            word = [byte for byte in self.storage.read(at + 4 * k, 4) if byte is not None]
            if len(word) < 4:
                return
            place = int.from_bytes(bytes(word[1:]), "big")
            data = self.storage.read(place, 16)
            yield f"ARG {k:02} {place:06X}  {digits(data)}  {shown(data)}"
            if word[0] & 0x80:
                return

    def storage_page(self, at: int, size: int) -> list[str]:
        """The storage page, of a DFHEISTG of whole lines."""
        lines = {1: f"WORKING STORAGE {at:06X} LENGTH {size:06X}"}
        for k in range(0, min(size, 352), 16):
            data = self.storage.read(at + k, 16)
            words = " ".join(digits(data[j : j + 4]) for j in range(0, 16, 4))
            lines[2 + k // 16] = f"{at + k:06X}  {words}  {shown(data)}"
        return [f"DISPLAY {self.terminal}", *(f"{number:02}|{text.rstrip()}" for number, text in lines.items())]
