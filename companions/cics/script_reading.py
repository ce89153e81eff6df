"""A script read line by line: what each line is, and why it is bad, as cicslook reads it. After a bad line the reading goes on, as far as that
tells more."""
from collections.abc import Sequence
from dataclasses import dataclass, field

from cics.child import encoded
from cics.line_forms import FORMS, Reason, Search, may_stand_in_search, read_as, reason_in_image, reason_of
from cics.scripts import BLOCK_END, BLOCKS, LONGEST, is_silent

SEARCHES = ("ORDERS", "CHOICES")  # blocks with keys and looks


@dataclass(frozen=True)
class BadLine:
    """A bad line of a script, by its number from 1."""

    number: int
    line: str
    reason: Reason


@dataclass
class Reading:
    """What has been read of a script: the block that is open, if there is one."""

    block: str = ""  # its word
    first: int = 0  # the number of its first line
    opening: str = ""
    count: int = 0  # lines that were read
    search: Search = field(default_factory=lambda: Search(""))  # of a block of ORDERS or CHOICES

    def line(self, text: str) -> Reason | None:
        """Reads a line, without its end; says why it is bad."""
        self.count += 1
        if self.block:
            return self.inside(text)
        reason = reason_of(text)
        word = read_as(text).split(" ")[0]
        if word in BLOCKS and not is_silent(text):
            self.block, self.first, self.opening, self.search = word, self.count, text, Search(word)
        return reason

    def inside(self, text: str) -> Reason | None:
        if text == BLOCK_END:
            self.block = ""
            return None
        reason = self.reason_inside(text)
        word = read_as(text).split(" ")[0]
        if word in FORMS and (self.block == "IMAGE" or self.block in SEARCHES and not may_stand_in_search(word)):
            self.block = ""  # its /* is most likely missing
        return reason

    def reason_inside(self, text: str) -> Reason | None:
        if self.block == "IMAGE":
            return reason_in_image(text)
        if self.block in SEARCHES:
            return self.search.line(text)
        return Reason(f"more than {LONGEST} bytes") if len(encoded(text)) > LONGEST else None

    def unended(self) -> BadLine | None:
        """The first line of a block that isn't ended where the script is."""
        reason = Reason(f"the script ends before the /* of this {self.block}", 1, len(self.block))
        return BadLine(self.first, self.opening, reason) if self.block else None


def bare_lines(text: str) -> list[str]:
    """A script's lines, each without its end: a carriage return before a line feed is part of that."""
    *ended, rest = text.split("\n")
    return [line.removesuffix("\r") for line in ended] + ([rest] if rest else [])


def bad_lines(lines: Sequence[str]) -> list[BadLine]:
    reading = Reading()
    found = [BadLine(number, line, reason) for number, line in enumerate(lines, 1) if (reason := reading.line(line))]
    last = reading.unended()
    return sorted([*found, last], key=lambda one: one.number) if last else found
