"""What `rt ci` tells while it runs: a line for each crate, and in front of it, from a line `== CRATE` on, the prover's report."""
import re
from dataclasses import dataclass

TOLD = re.compile(r"rt: (\w+) (proved|is kept|NOT PROVED)")


@dataclass(frozen=True)
class Told:
    """What is told of a crate: that it is proved, or was by an earlier run, or isn't; and the prover's report where it isn't."""

    crate: str
    how: str
    report: str = ""

    def is_proved(self) -> bool:
        return self.how != "NOT PROVED"


class Progress:
    def __init__(self) -> None:
        self.report: list[str] = []

    def read(self, line: str) -> Told | None:
        """What a line tells, if it tells something of a crate."""
        if line.startswith("== "):
            self.report.clear()
        self.report.append(line)
        found = TOLD.match(line)
        if not found:
            return None
        return Told(found[1], found[2], "".join(self.report) if found[2] == "NOT PROVED" else "")
