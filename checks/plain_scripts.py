"""Scripts of `cicslook` as scripts of `cicsedf`: without the looks, and with the turns in place of each RUN that it did.

What RUN did is read from the transcript: each of its turns wrote a TURN line. It ended (docs/LOOKS-RUNS.md, "RUN") at one that was answered Idle,
Waiting, Held, Ended, Abended or NoSuchTerminal; at one after which EDF stopped the task, so that a further turn would be answered Held; or
where it says that the task is still running, that it stopped in front of an abend or of a line, or that the line has no statement.
"""
import re
from dataclasses import dataclass, field

from cics.scripts import OF_CICSLOOK
from cics.transcripts import RUN_ENDS, is_of_page

BLOCKS = ("IMAGE", "SOURCE", "FAULTS", "ORDERS", "CHOICES")
RUN = re.compile(r"RUN [A-Z0-9@#$]{1,4}(?: ([0-9]{1,5}))?(?: BEFORE ABEND| TO [A-Z0-9@#$]{1,8} (?!0+$)[0-9]{1,5})?")
CHANGE = re.compile(r"> WATCH [0-9A-F]{6} [0-9]+ FROM ")  # what an event changed of the bytes that are watched
RUN_ENDED = re.compile(r"> RUN \S+ (?:STOPPED|STILL|TO) ")
MOST_TURNS = 4096
PAGED = ("SCREEN", "DISPLAY")


def is_head(line: str, head: str) -> bool:
    return line == head or line.startswith(f"{head} ")


@dataclass
class Action:
    """A line of a script or a whole block, the number of its first line, and what the transcript has of it. Looks in a row are one
    action, with the comments between them."""

    number: int
    lines: list[str]
    answer: list[str] = field(default_factory=list)

    def words(self) -> list[str]:
        """Its words: the lines of `cicslook` alone may be in lower case."""
        words = self.lines[0].split(" ")
        return [word.upper() for word in words] if words[0].upper() in OF_CICSLOOK else words

    def is_silent(self) -> bool:
        """Whether it is an empty line or a comment."""
        return not self.lines[0] or self.lines[0].startswith("*")

    def is_run(self) -> bool:
        """Whether it is a RUN, and no bad look that begins with this word."""
        found = RUN.fullmatch(" ".join(self.words()))
        return bool(found and 0 < int(found[1] or 1) <= MOST_TURNS)

    def is_look(self) -> bool:
        return self.words()[0] in OF_CICSLOOK and not self.is_run()

    def head(self) -> str:
        """How the line of the transcript begins that answers it."""
        word, *names = self.words()
        first = {"RUN": "TURN", **dict.fromkeys(BLOCKS, "PROGRAM")}.get(word, word)
        return ">" if self.is_look() else "CLOCK SET" if word == "CLOCK" else " ".join([first, *names[:1]])

    def is_answered(self) -> bool:
        """Whether its answer is there, where one is due: a faulty line has none. A RUN may end in front of its first turn."""
        return self.is_silent() or any(is_head(line, self.head()) or self.is_run() for line in self.answer)


def actions_of(lines: list[str]) -> list[Action]:
    """A script's actions, empty lines and comments."""
    actions: list[Action] = []
    is_inside = False
    for number, line in enumerate(lines, 1):
        if is_inside:
            actions[-1].lines.append(line)
            is_inside = line != "/*"
        else:
            actions.append(Action(number, [line]))
            is_inside = actions[-1].words()[0] in BLOCKS
            if actions[-1].is_look():
                join_looks(actions)
    return actions


def join_looks(actions: list[Action]) -> None:
    """Joins the last action, a look, to the look before it where only empty lines and comments are between."""
    before = next((at for at in range(len(actions) - 2, -1, -1) if not actions[at].is_silent()), None)
    if before is not None and actions[before].is_look():
        actions[before].lines += [line for action in actions[before + 1 :] for line in action.lines]
        del actions[before + 1 :]


def taken_by(action: Action, left: list[str]) -> int:
    """How many of the lines that are left of a transcript answer an action."""
    if action.is_silent():
        return 0
    if action.is_look():
        return next((at for at, line in enumerate(left) if not line.startswith("> ") or RUN_ENDED.match(line)), len(left))
    if action.is_run():
        return taken_by_run(action.words()[1], left)
    at = next((at for at, line in enumerate(left) if is_head(line, action.head())), None)
    if at is None:
        return len(left)  # a fault ended the run here
    end = at + 1
    while action.words()[0] in PAGED and end < len(left) and is_of_page(left[end]):
        end += 1
    return after_changes(left, end)


def after_changes(left: list[str], end: int) -> int:
    """The first line from one on that is no change of an event in front of it."""
    return next((at for at in range(end, len(left)) if not CHANGE.match(left[at])), len(left))


def taken_by_run(terminal: str, left: list[str]) -> int:
    turns = 0
    for at, line in enumerate(left):
        *head, reply = line.split(" ")[:3]
        if CHANGE.match(line):
            continue
        if line.startswith(f"> RUN {terminal} "):
            return at + 1
        if head != ["TURN", terminal] or (turns and reply == "Held"):
            return at
        turns += 1
        if reply in RUN_ENDS:
            return after_changes(left, at + 1)
    return len(left)


def answered(lines: list[str], transcript: list[str]) -> list[Action]:
    """A script's actions, each with its answer: the transcript's lines in their order. After a fault the answers are empty."""
    actions, done = actions_of(lines), 0
    for action in actions:
        action.answer = transcript[done : done + taken_by(action, transcript[done:])]
        done += len(action.answer)
    return actions


def is_look_in(lines: list[str]) -> bool:
    """Whether a script has a look or RUN: it is one of `cicslook` alone."""
    return any(action.words()[0] in OF_CICSLOOK for action in actions_of(lines))


def plain_of(lines: list[str], transcript: list[str]) -> tuple[list[str], list[str], list[int]]:
    """The script and its transcript for `cicsedf`, and the number that each line of the script has there, 0 for one that it hasn't."""
    script: list[str] = []
    written: list[str] = []
    numbers: list[int] = []
    for action in answered(lines, transcript):
        answer = [line for line in action.answer if not line.startswith("> ")]
        own = [] if action.is_look() else [f"TURN {action.words()[1]}"] * len(answer) if action.is_run() else action.lines
        is_same = len(own) == len(action.lines)
        numbers += [len(script) + 1 + at if is_same else len(script) + 1 if own else 0 for at in range(len(action.lines))]
        script += own
        written += answer
    return script, written, numbers
