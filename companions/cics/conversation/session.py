"""What has been done in a conversation: each line by one child of cicslook, and kept so that it can be done again."""
from collections.abc import Callable, Sequence
from dataclasses import dataclass, field

from cics.child import Child, text_of
from cics.line_forms import read_as
from cics.looks import Fault
from cics.scripts import Action, actions_of, free_name

SEARCH = 600.0  # seconds of a processor that CHOICES or ORDERS may take
DEFINED = {"TERMINAL": "terminals", "TRANSACTION": "transactions", "PROGRAM": "programs"}


@dataclass
class Names:
    terminals: list[str] = field(default_factory=list)
    transactions: list[str] = field(default_factory=list)
    programs: list[str] = field(default_factory=list)

    def see(self, lines: Sequence[str]) -> None:
        """Takes the names of what an answer says is defined."""
        for line in lines:
            words = line.split(" ")
            if words[0] in DEFINED and len(words) > 2 and words[2] in ("AT", "DEFINED"):
                getattr(self, DEFINED[words[0]]).append(words[1])


@dataclass
class Session:
    """One child, and what it was given: as it was typed, and as `cicsedf` has it, without looks and with the turns of each RUN."""

    child: Child
    typed: list[str] = field(default_factory=list)
    plain: list[str] = field(default_factory=list)
    names: Names = field(default_factory=Names)
    events: int = 0  # lines that changed the region, or may have
    terminal: str = ""  # of the last event
    when_kept: Callable[[], None] = lambda: None  # what is done whenever something is kept

    def done(self, lines: Sequence[str]) -> list[str]:
        """What is answered to a line, or a block, that is good; it is kept."""
        action = actions_of(text_of(lines))
        if not action:
            self.keep(lines, lines)
            return []
        self.avoid_mark(lines)
        first, started = self.child.count, len(self.typed)
        seconds = SEARCH if action[0].word in ("CHOICES", "ORDERS") else None
        answer = self.child.ask(*lines, seconds=seconds)
        if action[0].word == "FAULTS":
            answer = [renumbered(line, started - first) for line in answer]
        self.names.see(answer)
        self.keep(lines, plain_lines(action[0], answer))
        self.events += action[0].is_event
        self.terminal = action[0].terminal or self.terminal
        return answer

    def looked(self, *lines: str) -> list[str]:
        """What is answered to a look that isn't the script's."""
        self.avoid_mark(lines)
        return self.child.ask(*lines)

    def keep(self, typed: Sequence[str], plain: Sequence[str]) -> None:
        self.typed += typed
        self.plain += plain
        self.when_kept()

    def avoid_mark(self, lines: Sequence[str]) -> None:
        """Has the child ask for another terminal, where a line names the one that it asks for."""
        mark = self.child.question.split(" ")[1]
        if any(mark in line for line in lines):
            self.child.marked(free_name(text_of([*self.typed, *lines])) or mark)


def renumbered(line: str, by: int) -> str:
    """A line of FAULTS by the numbers of the kept script."""
    found = Fault.read(line)
    return line.replace(str(found.line), str(found.line + by), 1) if found else line


def plain_lines(action: Action, answer: Sequence[str]) -> list[str]:
    """What cicsedf is given in the place of a line, by what was answered: of a RUN its turns, and of a look a comment."""
    if action.word == "RUN":
        return [f"TURN {action.terminal}" for line in answer if line.startswith(f"TURN {action.terminal} ")]
    if action.is_event or action.word in ("SCREEN", "DISPLAY"):
        return action.lines
    return [f"* {read_as(action.text)}"]
