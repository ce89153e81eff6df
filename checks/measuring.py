"""What runs of programs take: user CPU, time and memory."""
import os
import resource
import tempfile
import time
from collections.abc import Sequence
from dataclasses import dataclass

from cics.child import Ended, read, run
from cics.cli import FOUND, Failure
from checks.common import program_at

TIME = "/usr/bin/time"
SECONDS = 600  # no run that is measured takes longer


@dataclass(frozen=True)
class Taken:
    """How a run ended, and what it took: seconds, those of user CPU, and its peak memory in KiB."""

    ended: Ended
    seconds: float
    user: float
    peak: int


def taken(command: Sequence[str], given: bytes = b"") -> Taken:
    """What a run takes. GNU time starts it, so that this program's memory isn't counted."""
    with tempfile.TemporaryDirectory() as folder:
        used = os.path.join(folder, "used")
        began, before = time.monotonic(), resource.getrusage(resource.RUSAGE_CHILDREN).ru_utime
        ended = run([program_at(TIME), "--quiet", "-o", used, "-f", "%M", *command], given, seconds=SECONDS)
        seconds, user = time.monotonic() - began, resource.getrusage(resource.RUSAGE_CHILDREN).ru_utime - before
        return Taken(ended, seconds, user, int(read(used)))


def well(what: str, it: Taken) -> Taken:
    if not it.ended.is_well():
        raise failing(what, str(it.ended))
    return it


def failing(what: str, why: str) -> Failure:
    """That what is measured doesn't do what it should."""
    return Failure(f"{what}: {why}", FOUND)


def growth(numbers: Sequence[float]) -> list[str]:
    """How many times each number is the one before it."""
    return [f"{after / max(before, 0.001):.2f}" for before, after in zip(numbers, numbers[1:])]
