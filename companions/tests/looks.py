"""What sources become, as cicslook shows it: their symbols, and what comes of a key."""
from typing import NamedTuple

from cics.assembler_files import encoded
from cics.child import run
from tests.case import CICSLOOK


class Place(NamedTuple):
    """Where a name is, and its length attribute."""

    offset: int
    length: int


def symbols_of(lines: list[str], *looks: str) -> dict[str, Place]:
    """The symbols of a source P, by SYMBOLS, or by looks in its place."""
    ended = run([CICSLOOK], encoded(["SOURCE P", *lines, "/*", *(looks or ["SYMBOLS P"])]))
    shown = [line.split() for line in ended.lines() if line.startswith("> SYMBOL '")]
    return {words[2].strip("'"): Place(int(words[4], 16), int(words[words.index("LENGTH") + 1])) for words in shown}


def keyed(lines: list[str], *looks: str, key: str = "ENTER P", transaction: str = "P") -> list[str]:
    """What is written of a source P, of a key with its transaction, and of looks after that."""
    script = ["SOURCE P", *lines, "/*", f"TRANSACTION {transaction} P", "TERMINAL T001", f"KEY T001 {key}", "RUN T001 4096", *looks]
    return run([CICSLOOK], encoded(script)).lines()
