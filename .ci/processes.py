"""The processes of the machine: which are below one, and what each has taken."""
import os
from collections.abc import Iterator
from dataclasses import dataclass

TICKS = os.sysconf("SC_CLK_TCK")
PAGE = os.sysconf("SC_PAGE_SIZE")


@dataclass(frozen=True)
class Process:
    """A process, by number and time of its start: its parent, its own seconds and those of its children that have ended, the memory that it
    holds, and whether it runs, or would if a processor or a disk were free."""

    number: int
    began: str
    parent: int
    own: float
    ended: float
    memory: int
    is_active: bool

    def command(self) -> list[str]:
        """Its words; none where it has ended."""
        try:
            with open(f"/proc/{self.number}/cmdline", "rb") as file:
                return file.read().decode(errors="replace").split("\0")
        except OSError:
            return []


def processes() -> Iterator[Process]:
    for number in filter(str.isdigit, os.listdir("/proc")):
        try:
            with open(f"/proc/{number}/stat", encoding="utf-8", errors="replace") as file:
                words = file.read().rpartition(")")[2].split()
        except OSError:
            continue
        if words[0] != "Z":
            own, ended = (sum(map(int, words[at : at + 2])) / TICKS for at in (11, 13))
            yield Process(int(number), words[19], int(words[1]), own, ended, int(words[21]) * PAGE, words[0] in "RD")


def below(above: int) -> list[Process]:
    """The processes that a process has begun, and those that these have."""
    children: dict[int, list[Process]] = {}
    for it in processes():
        children.setdefault(it.parent, []).append(it)
    found, waiting = list[Process](), [above]
    while waiting:
        its = children.get(waiting.pop(), [])
        found += its
        waiting += [it.number for it in its]
    return found
