"""Scripts that are run at once, each by a child of its own."""
import os
import select
import time
from collections.abc import Iterator, Sequence
from dataclasses import dataclass, field

from cics.child import BYTES, SECONDS, Child, Ended, Gone, Overdue, Patience


@dataclass(frozen=True)
class Run:
    """How one of some scripts ended: its number among them, what it wrote, or why it didn't end, and how long it took."""

    number: int
    ended: Ended | None
    why: str
    seconds: float


@dataclass
class Running:
    """A script that a child runs, to its end."""

    number: int
    child: Child
    left: int = BYTES  # bytes that it may still write
    begun: float = field(default_factory=time.monotonic)
    until: float = 0.0
    patience: Patience = field(init=False)

    def __post_init__(self) -> None:
        self.until = self.begun + self.child.seconds
        self.patience = Patience(self.child.process.pid, self.child.seconds)

    def given(self) -> None:
        """Gives it what its pipe takes; after all of it, it is told that no more comes."""
        self.child.flush()
        if not self.child.unsent:
            self.child.input.close()

    def moved(self, ready: Sequence[object]) -> bool:
        """Takes what it has written, and gives it more; whether it goes on."""
        if self.child.input in ready:
            self.given()
        if self.child.output not in ready:
            self.wait()
            return True
        piece = self.child.receive()
        self.left -= len(piece)
        if self.left < 0:
            raise Overdue(f"{self.child.name}: it writes more than {BYTES} bytes")
        return piece != b""

    def wait(self) -> None:
        """Waits no longer for one that doesn't end."""
        if time.monotonic() > self.until:
            if self.patience.ends():
                raise Overdue(f"{self.child.name}: no end within {self.child.seconds:g} seconds")
            self.until = time.monotonic() + self.child.seconds

    def result(self, ended: Ended | None, why: str = "") -> Run:
        return Run(self.number, ended, why, time.monotonic() - self.begun)


def processors() -> int:
    """How many processors there are for this program."""
    return len(os.sched_getaffinity(0))


def begun(number: int, command: Sequence[str], script: str) -> Running:
    child = Child(command, seconds=SECONDS)
    try:
        child.send(script)
        running = Running(number, child)
        running.given()
        return running
    except BaseException:
        child.close()
        raise


def run_together(command: Sequence[str], scripts: Sequence[str], at_once: int) -> Iterator[Run]:
    """Runs each of some scripts, so many at once, and gives each where it ends. Whatever ends the caller, none is left running."""
    waiting, running = list(reversed(list(enumerate(scripts)))), list[Running]()
    try:
        while waiting or running:
            while waiting and len(running) < at_once:
                number, script = waiting.pop()
                running.append(begun(number, command, script))
            outputs = [one.child.output for one in running]
            inputs = [one.child.input for one in running if one.child.unsent]
            reads, writes, _ = select.select(outputs, inputs, [], 1.0)
            for one in [*running]:
                found = result_of(one, [*reads, *writes])
                if found:
                    running.remove(one)
                    one.child.close()
                    yield found
    finally:
        for one in running:
            one.child.close()


def result_of(one: Running, ready: Sequence[object]) -> Run | None:
    """How one ended, where it has."""
    try:
        return None if one.moved(ready) else one.result(one.child.ended())
    except Gone as gone:
        return one.result(gone.ended)
    except Overdue as why:
        return one.result(None, str(why))
