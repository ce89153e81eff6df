"""What is known of a terminal and its task, learned from each line of the session and its answer."""
from dataclasses import dataclass, field
from enum import Enum
from typing import Protocol

from cics.terminals.data_stream import BLANK, Painting, free_rows
from cics.terminals.edf import Session
from cics.terminals.looks import Pages

WITHOUT_REST = 2000  # turns of a task, after which its operator is asked

# Replies to a turn after which the task doesn't go on by itself; those that did nothing; those of a task that is no more.
AT_REST, DID_NOTHING, NO_TASK = {"Held", "Idle", "Ended", "Abended"}, {"Waiting", "Held", "Idle"}, {"Idle", "Ended", "Abended"}
NOT_PERFORMED = DID_NOTHING | {"AtCommand", "TookExit", "Abended"}  # those after which a screen stays blank
LEAVES_STOP = {"ENTER", "PF3", "PF4", "PF12"}  # keys after which a turn says what came of them

# A task: there is none, or EDF has stopped it; its next turn may do something; it waits; it had many turns without rest.
State = Enum("State", "RESTING RUNNING WAITING PAUSED")

class Client(Protocol):
    """What an operator sits at: it is shown what is painted, and dismissed with a text where the terminal is taken away."""

    def show(self, painting: Painting, alarm: bool) -> None: ...
    def dismiss(self, text: str) -> None: ...

@dataclass(eq=False)
class Terminal:
    """A terminal of the region, and its operator."""
    name: str
    client: Client | None = None
    state: State = State.RESTING
    turns: int = 0  # without rest
    tried: int = 0  # how many turns were given to all when it was found waiting
    has_task: bool = False
    is_abended: bool = False  # its last task
    is_owed: bool = False  # a key isn't answered yet
    is_stirred: bool = False  # since it was tried, another terminal did something
    is_blanked: bool = False  # by CLEAR, until a command is performed that sends a page
    is_sending: bool = True  # the command that is due sends one, as far as is known
    is_used: bool = False  # a key was given here, or EDF is on where another was
    left_at: float = 0.0
    pressed_at: float = 0.0
    edf: Session = field(default_factory=Session)
    painting: Painting = field(default_factory=lambda: Painting(BLANK, free_rows(BLANK)))
    reported: tuple[str | None, str] = (None, "")  # the message and the greeting that were painted last
    is_warned: bool = False  # that the session is nearly full
    looking: Pages | None = None
    draft: bytes | None = None  # a record that couldn't be given, and is painted as it was typed

    def learn(self, words: list[str], reply: str, turns: int) -> bool:
        """Takes what a line's first word asked, by its other words and the reply; whether others may go on by it."""
        if words[0] == "TURN":
            return self.learn_turn(reply, turns)
        if words[0] == "KEY":
            return self.learn_key(words[2], words[3], reply)
        if words[0] == "EDF" and reply == "Closed" and self.state is State.RESTING and (self.has_task or self.edf.is_stopped):
            self.state, self.turns = State.RUNNING, 0  # its next turn says what came of it
        if words[0] == "EDF" and reply in ("Started", "Closed"):
            self.edf = Session(is_on=reply == "Started")
        if words[0] == "DISPLAY" and reply != "NONE" and not self.edf.is_stopped:
            self.edf.stop()
        if words[0] == "ALTER" and reply == "Altered":
            self.edf.altered.append(" ".join(words[2:]).strip())
            if words[2] == "NOP":
                self.edf.is_stopped, self.edf.newer, self.state = False, 0, State.RUNNING
            return True
        return False

    def learn_turn(self, reply: str, turns: int) -> bool:
        self.turns = 1 if self.state is State.WAITING else self.turns + 1
        self.has_task = self.has_task and reply not in NO_TASK
        self.is_abended = self.is_abended or reply == "Abended"
        if self.is_sending and reply not in NOT_PERFORMED:
            self.is_blanked = False
        if reply == "Waiting":
            self.state, self.is_stirred, self.tried = State.WAITING, False, turns
        elif reply in AT_REST:
            self.state = State.RESTING
        else:
            self.state = State.PAUSED if self.turns >= WITHOUT_REST else State.RUNNING
        return reply not in DID_NOTHING

    def learn_key(self, key: str, text: str, reply: str) -> bool:
        self.turns, self.is_used = 0, True
        if reply in ("Attached", "Given"):
            self.has_task, self.state, self.is_abended = True, State.RUNNING, False
        elif reply == "ToEdf":
            if not self.edf.is_stopped:
                self.edf.stop()  # since its screen was painted
            self.edf.press(key, text, self.has_task)
            self.edf = Session() if key == "PF3" else self.edf
            self.state = State.RUNNING if key in LEAVES_STOP else self.state
            return key == "PF12"
        elif reply == "NoSuchTransaction" and key == "CLEAR":
            self.is_blanked = True
        return False
