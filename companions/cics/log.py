"""What is told of a source: each change, each stand-in, how data are read, each thing that is left as it is,
and each that is refused, by file and line."""
from dataclasses import dataclass, field

from cics.statements import Origin

LONGEST = 110  # characters of a change that is told
CHANGED, STANDS_IN, READ, LEFT, REFUSED = "changed", "stands in", "read", "left", "refused"
NOT_SHOWN = "changed, not shown to be exact here"


@dataclass(frozen=True)
class Told:
    """A line on standard error; of what is refused also the column, from 1."""

    origin: Origin
    text: str
    verb: str
    column: int = 0

    @property
    def is_left(self) -> bool:
        return self.verb == LEFT

    @property
    def is_refused(self) -> bool:
        return self.verb == REFUSED

    def __str__(self) -> str:
        place = f"{self.origin.file}:{self.origin.number}" + (f":{self.column}" if self.column else "")
        return f"{place}: {self.verb}: {self.text}"


@dataclass
class Log:
    told: list[Told] = field(default_factory=list)
    seen: set[Told] = field(default_factory=set)

    def changed(self, origin: Origin, old: str, new: str) -> None:
        self.told.append(Told(origin, f"{shortened(old)} is now {shortened(new)}", CHANGED))

    def stands_in(self, origin: Origin, old: str, text: str) -> None:
        self.told.append(Told(origin, f"{shortened(old)}: {text}", STANDS_IN))

    def read(self, origin: Origin, text: str) -> None:
        self.told.append(Told(origin, text, READ))

    def not_shown(self, origin: Origin, why: str) -> None:
        self.told.append(Told(origin, why, NOT_SHOWN))

    def left(self, origin: Origin, text: str) -> None:
        entry = Told(origin, text, LEFT)
        if entry not in self.seen:
            self.seen.add(entry)
            self.told.append(entry)

    def refused(self, origin: Origin, column: int, text: str) -> None:
        entry = Told(origin, text, REFUSED, column)
        if entry not in self.seen:
            self.seen.add(entry)
            self.told.append(entry)

    def has_refused(self) -> bool:
        return any(entry.is_refused for entry in self.told)

    def has_left(self) -> bool:
        """Whether something is left, or isn't shown to be exact."""
        return any(entry.verb in (LEFT, NOT_SHOWN) for entry in self.told)

    def has_stand_in(self) -> bool:
        return any(entry.verb == STANDS_IN for entry in self.told)

    def lines(self) -> list[str]:
        return [str(entry) for entry in sorted(self.told, key=place_of)]


def place_of(entry: Told) -> tuple[int, int, int]:
    """By what lines are sorted: by their statements, what is refused of one by its place."""
    return (entry.origin.order, entry.origin.number, entry.column) if entry.is_refused else (entry.origin.order, 0, 0)


def shortened(text: str) -> str:
    return text if len(text) <= LONGEST else f"{text[:LONGEST]} .."
