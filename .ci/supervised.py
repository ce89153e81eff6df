"""Runs a command for the gate, within limits of processor seconds, of time without work, and of memory, and leaves nothing running.

All that the command begins is below this process, also what leaves its session or outlives what began it: so it is counted, and ended. How it
ended goes to a file: the status, why it was ended if it was, the processor seconds of all, and the most memory that one process held."""
import ctypes
import json
import os
import resource
import signal
import sys
import time
from dataclasses import asdict, dataclass
from types import FrameType

from processes import below
from repository import write

SUBREAPER, DEATH_SIGNAL = 36, 1  # of prctl
WORK = 0.05  # of a processor, below which nothing is done, unless something of it waits for one
STOPS = (signal.SIGTERM, signal.SIGINT, signal.SIGHUP)
GRACE = 2.0  # seconds in which what a command left may end by itself
STOPPED = "stopped"


@dataclass(frozen=True)
class Limits:
    """Processor seconds of all that is begun, seconds of the clock without work, and bytes that one process may hold."""

    processor: float
    idle: float
    memory: float


@dataclass(frozen=True)
class Ended:
    """How a command ended. `why` has why it was ended from without; `left` is how many processes it left running."""

    status: int
    seconds: float
    memory: float
    why: str = ""
    left: int = 0


class Stop(Exception):
    """The gate ends."""


def adopt() -> None:
    """Makes what this process's children leave behind its own children."""
    ctypes.CDLL(None).prctl(SUBREAPER, 1, 0, 0, 0)


def end_with(parent: int) -> None:
    """Has this process stopped when its parent ends."""
    ctypes.CDLL(None).prctl(DEATH_SIGNAL, signal.SIGTERM, 0, 0, 0)
    if os.getppid() != parent:
        raise Stop


def reaped() -> dict[int, int]:
    """The statuses of the children that have ended since, of which note is taken."""
    found: dict[int, int] = {}
    while True:
        try:
            number, status = os.waitpid(-1, os.WNOHANG)
        except ChildProcessError:
            return found
        if not number:
            return found
        found[number] = os.waitstatus_to_exitcode(status)


def end_all() -> None:
    """Ends all that is below this process, until nothing is. Nothing stops it."""
    for number in STOPS:
        signal.signal(number, signal.SIG_IGN)
    while found := below(os.getpid()):
        for it in found:
            try:
                os.kill(it.number, signal.SIGKILL)
            except ProcessLookupError:
                continue
        reaped()
        time.sleep(0.01)
    reaped()


def spent() -> float:
    """The processor seconds of this process's children that have ended."""
    usage = resource.getrusage(resource.RUSAGE_CHILDREN)
    return usage.ru_utime + usage.ru_stime


class Watch:
    """What the processes below this one have done, and why they must be ended."""

    def __init__(self, limits: Limits) -> None:
        self.limits, self.seconds, self.memory = limits, 0.0, 0.0
        self.mark, self.marked = 0.0, time.monotonic()
        self.looks = self.active = 0  # since then, and in how many of them something ran or waited to run

    def fault(self) -> str:
        found = below(os.getpid())
        self.seconds = max(self.seconds, spent() + sum(it.own + it.ended for it in found))
        self.memory = max([self.memory, *(it.memory for it in found)])
        now = time.monotonic()
        if self.seconds > self.limits.processor:
            return f"it took more than {self.limits.processor:g} processor seconds"
        if self.memory > self.limits.memory:
            return f"a process took more than {self.limits.memory / 1e9:g} GB"
        self.looks, self.active = self.looks + 1, self.active + any(it.is_active for it in found)
        is_over = now - self.marked > self.limits.idle
        if self.seconds - self.mark > WORK * self.limits.idle or is_over and 2 * self.active > self.looks:
            self.mark, self.marked, self.looks, self.active = self.seconds, now, 0, 0
        elif is_over:
            return f"it hangs: next to no work in {self.limits.idle:g} seconds"
        return ""


def outlived() -> int:
    """Ends the processes that a command left and that don't end by themselves; how many they are."""
    until = time.monotonic() + GRACE
    while (left := len(below(os.getpid()))) and time.monotonic() < until:
        reaped()
        time.sleep(0.05)
    end_all()
    return left


def supervised(command: list[str], limits: Limits) -> Ended:
    """Runs a command; how it ended, once nothing of it runs."""
    watch, why, status, pause, left = Watch(limits), "", None, 0.02, 0
    try:
        begun = os.posix_spawnp(command[0], command, os.environ, setsigdef=[signal.SIGPIPE, signal.SIGXFSZ])
        while status is None and not why:
            status = reaped().get(begun)
            why = why if status is not None else watch.fault()
            time.sleep(pause)
            pause = min(0.5, 1.5 * pause)
        left = outlived() if not why else 0
    except Stop:
        why = STOPPED
    except OSError as fault:
        why = f"it can't be run: {fault}"
    end_all()
    return Ended(-signal.SIGKILL if status is None else status, max(spent(), watch.seconds), watch.memory, why, left)


def stop(_number: int, _frame: FrameType | None) -> None:
    raise Stop


def main(words: list[str]) -> int:
    path, parent, processor, idle, memory, *command = words
    for number in STOPS:
        signal.signal(number, stop)
    try:
        adopt()
        end_with(int(parent))
        ended = supervised(command, Limits(float(processor), float(idle), float(memory)))
    except Stop:
        end_all()
        return 1
    write(path, json.dumps(asdict(ended)))
    return 0


if __name__ == "__main__":
    sys.exit(main(sys.argv[1:]))
