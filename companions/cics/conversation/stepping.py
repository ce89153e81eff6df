"""The words of a debugger, over what cicslook has: `step` is AHEAD, one instruction after the other, and TURN where none is left; `break` and
`continue` are RUN TO a line."""
from collections.abc import Callable
from dataclasses import dataclass, field

from cics.conversation.session import Session
from cics.line_forms import capitals, reason_of
from cics.looks import Instruction
from cics.transcripts import reply_of

MEANT = "write: step, next or continue, and a terminal's name"
MOST = 256  # instructions that AHEAD writes
STAYS = ("Idle", "NoSuchTerminal", "Waiting", "Held")  # answers to a turn that does nothing


class Misused(Exception):
    """Why a word can't be done, with what to write."""


@dataclass
class Ahead:
    """The instructions of a terminal's next turn that are still to be shown."""

    events: int  # how many events there had been
    instructions: list[str]
    seen: set[tuple[str, int]] = field(default_factory=set)  # programs and lines that it has come to


@dataclass
class Debugger:
    session: Session
    at: tuple[str, int] | None = None  # the program and the line of the break
    ahead: dict[str, Ahead] = field(default_factory=dict)
    stopped: dict[str, int] = field(default_factory=dict)  # terminals that stand at the break, and the number of events then

    def words(self) -> dict[str, Callable[[list[str]], list[str]]]:
        """What is done for each word, with the words after it."""
        return {"step": self.step, "s": self.step, "next": self.next, "n": self.next, "break": self.set_break, "b": self.set_break,
                "delete": self.delete, "d": self.delete, "continue": self.go_on, "c": self.go_on}

    def terminal(self, words: list[str]) -> str:
        """The terminal that is named; else the one of the last event, or the first."""
        names = self.session.names.terminals
        name = capitals(words[0]) if words else self.session.terminal or (names[0] if names else "")
        if len(words) > 1 or not name:
            raise Misused(MEANT if words or names else "no terminal is defined; write: TERMINAL T001")
        if name not in names:
            raise Misused(f"no terminal is {name}; there is {', '.join(names) or 'none'}")
        return name

    def step(self, words: list[str]) -> list[str]:
        """The next instruction of the next turn, with the fields that its line names; the turn, where none is left."""
        name = self.terminal(words)
        ahead = self.ahead.get(name)
        if ahead is None or ahead.events != self.session.events:
            lines = self.session.looked(f"AHEAD {name} {MOST}")
            if reply_of(lines[0].removeprefix("> ")) in STAYS:
                return lines[:1]
            ahead = Ahead(self.session.events, [line for line in lines if line.startswith("> INSTRUCTION ")])
            self.ahead[name] = ahead
            if not ahead.instructions:
                return [*self.session.looked(f"COMMAND {name}"), *self.session.done([f"TURN {name}"])]
            count = int(next(line for line in lines if line.startswith("> INSTRUCTIONS ")).split(" ")[2])
            if count > len(ahead.instructions):
                return [f"? {count - len(ahead.instructions)} instructions of the turn aren't shown", *self.instruction(name, ahead)]
        return self.instruction(name, ahead) if ahead.instructions else self.session.done([f"TURN {name}"])

    def instruction(self, name: str, ahead: Ahead) -> list[str]:
        line = ahead.instructions.pop(0)
        found = Instruction.read(line)
        place = (found.program, found.line) if found else ("", 0)
        is_new = found is not None and place not in ahead.seen
        ahead.seen.add(place)
        at = self.session.looked(f"AHEAD {name} AT {place[0]} {place[1]}") if is_new else []
        return [line, *(one for one in at[1:] if one.startswith("> FIELD "))] if at[1:2] == [line] else [line]

    def next(self, words: list[str]) -> list[str]:
        return self.session.done([f"TURN {self.terminal(words)}"])

    def set_break(self, words: list[str]) -> list[str]:
        """Where `continue` ends; without words, where that is."""
        if words:
            name, line = (capitals(words[0]), words[1]) if len(words) == 2 else ("", "")
            reason = reason_of(f"RUN T001 TO {name} {line}")
            if not name or reason:
                raise Misused(f"{reason.text}; write: break PROGRAM LINE" if name and reason else "write: break PROGRAM LINE")
            if name not in self.session.names.programs:
                raise Misused(f"no program is {name}; there is {', '.join(self.session.names.programs) or 'none'}")
            self.at = (name, int(line))
        return [f"? continue ends in front of {self.at[0]} line {self.at[1]}" if self.at else "? no break; write: break PROGRAM LINE"]

    def delete(self, words: list[str]) -> list[str]:
        if words:
            raise Misused("write: delete, without a word after it")
        self.at = None
        return ["? no break"]

    def go_on(self, words: list[str]) -> list[str]:
        """RUN to the break, or to the task's end; one that stands at the break already first goes over it."""
        name = self.terminal(words)
        if self.at is None:
            return self.session.done([f"RUN {name}"])
        stands = self.stopped.get(name) == self.session.events
        answer = self.session.done([f"TURN {name}"]) if stands else []
        program, line = self.at
        answer += self.session.done([f"RUN {name} TO {program} {line}"])
        if answer and answer[-1].startswith(f"> RUN {name} STOPPED BEFORE "):
            self.stopped[name] = self.session.events
            answer += self.session.looked(f"AHEAD {name} AT {program} {line}")
        return answer
