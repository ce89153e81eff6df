"""Images of programs, made without an assembler: instructions, constants after them, and commands by their argument lists."""
from collections.abc import Callable, Sequence
from typing import NamedTuple

ENTRY = 0x800  # the entry of the interface
LIST = 0  # the argument list is at the beginning of DFHEISTG, which R13 addresses


class Place(NamedTuple):
    """Where an operand is: "own", in DFHEISTG; "pointer", at the address that is there; "data" of the image; or at a "label" of it."""

    kind: str
    at: int | str


def own(at: int) -> Place:
    return Place("own", at)


def half(number: int) -> bytes:
    return number.to_bytes(2, "big")


class Image:
    """An image: code after its entry, which a base register addresses, then data."""

    def __init__(self, base: int) -> None:
        self.base, self.code, self.data, self.commands = base, b"", b"", 0
        self.fixes: list[tuple[int, Place]] = []
        self.labels: dict[int | str, int] = {}

    def put(self, data: bytes) -> Place:
        """Data on a full word."""
        self.data += b"\0" * (-len(self.data) % 4) + data
        return Place("data", len(self.data) - len(data))

    def rx(self, operation: int, register: int, place: Place) -> None:
        """An instruction with an address in storage."""
        if place.kind == "own":
            assert isinstance(place.at, int)
            self.code += bytes([operation, register << 4]) + half(0xD << 12 | place.at)
        else:
            self.fixes.append((len(self.code) + 2, place))
            self.code += bytes([operation, register << 4, 0, 0])

    def label(self, name: str) -> None:
        self.labels[name] = len(self.code)

    def listed(self, block: bytes, arguments: Sequence[Place]) -> None:
        """A command, whose list is built in DFHEISTG; R14 is where it goes on."""
        self.commands += 1
        self.rx(0x41, 0, self.put(block))
        self.rx(0x50, 0, own(LIST))
        for k, place in enumerate(arguments, 1):
            self.rx(0x58 if place.kind == "pointer" else 0x41, 0, own(int(place.at)) if place.kind == "pointer" else place)
            self.rx(0x50, 0, own(LIST + 4 * k))
        self.code += bytes([0x96, 0x80]) + half(0xD << 12 | LIST + 4 * len(arguments))
        self.rx(0x41, 1, own(LIST))
        after = f"after {self.commands}"
        self.rx(0x41, 14, Place("label", after))
        self.code += bytes([0x47, 0xF0]) + half(ENTRY)
        self.label(after)

    def command(self, function: int, option: int = 0, arguments: Sequence[Place] = ()) -> None:
        self.listed(half(function) + bytes([option, 0]), arguments)

    def conditions(self, function: int, number: int, label: str | None) -> None:
        """HANDLE or IGNORE CONDITION of one condition."""
        block = half(function) + bytes([1, 0, number, 0x80 if label else 0])
        self.listed(block, [Place("label", label)] if label else [])

    def loop(self, count: int, body: Callable[["Image"], None]) -> None:
        """What a body makes, so many times, with the count in R2."""
        self.rx(0x58, 2, self.put(count.to_bytes(4, "big")))
        top = f"loop at {len(self.code)}"
        self.label(top)
        body(self)
        self.rx(0x46, 2, Place("label", top))

    def image(self) -> bytes:
        start = len(self.code) + -len(self.code) % 8
        code = bytearray(self.code)
        for at, place in self.fixes:
            offset = start + int(place.at) if place.kind == "data" else self.labels[place.at]
            code[at : at + 2] = half(self.base << 12 | offset)
        return bytes(code) + b"\0" * (start - len(self.code)) + self.data
