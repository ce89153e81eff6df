"""Doing something again whenever a file changes, until a signal ends it."""
import os
import time
from collections.abc import Callable, Iterable

from cics.cli import Failure, ended

SECONDS = 0.3  # between two looks at the files
Stamps = dict[str, tuple[int, int]]


def stamps_of(paths: Iterable[str]) -> Stamps:
    """When each file was changed last, and its length; one that isn't there has none."""
    found = {}
    for path in paths:
        try:
            status = os.stat(path)
        except OSError:
            continue
        found[path] = (status.st_mtime_ns, status.st_size)
    return found


def changed_from(paths: Callable[[], Iterable[str]], stamps: Stamps) -> Stamps:
    """Waits for a change, and until no further one comes."""
    now = stamps
    while now == stamps:
        time.sleep(SECONDS)
        now = stamps_of(paths())
    last: Stamps = {}
    while now != last:
        last = now
        time.sleep(SECONDS)
        now = stamps_of(paths())
    return now


def watch(name: str, paths: Callable[[], Iterable[str]], act: Callable[[], object]) -> int:
    """Does something now, and after each change of the files. What can't be done is told, and tried again after the next one."""
    stamps = stamps_of(paths())
    while True:
        try:
            act()
        except Failure as why:
            ended(f"{name}: {why}", why.status)
        ended(f"{name}: waits for a change; Ctrl-C ends it", 0)
        stamps = changed_from(paths, stamps)
