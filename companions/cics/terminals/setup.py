"""What a region begins with: a set-up script, or a session that was kept, which goes on.
It is sent in pieces, between which RUN lines are done as the turns that they ask for: the record has these, and not the RUN."""
import re
from collections.abc import Iterator

from cics.cli import FOUND, MISUSED, Failure, say
from cics.scripts import OF_CICSLOOK, RUN, RUN_TURNS, Action, actions_of, free_name
from cics.terminals.region import Answer, Fault, Region, Request, Work
from cics.transcripts import RUN_ENDS, reply_of

OF_SESSION = {"EDF", "ALTER", "DISPLAY"}  # lines that a set-up hasn't: the session makes them
ANSWER = re.compile(r"(?:PROGRAM|TRANSACTION|TERMINAL|KEY|TURN|EDF|ALTER|SCREEN|DISPLAY) \S+.*|CLOCK SET")
DIGEST = re.compile(r"\* The transcript has (\d{1,9}) bytes, SHA-256 ([0-9a-f]{64})\.")
DIFFERS = "the transcript isn't the one that the session ended with"

class SetUp:
    """A script's lines, and those that do something. Faults of its form end the program."""

    def __init__(self, path: str, text: str, is_session: bool = False, back: int = 0) -> None:
        self.path, self.is_session = path, is_session
        self.sources: dict[str, list[str]] = {}  # of the programs that were defined
        self.sent, self.first = 0, 0  # lines that were sent before the piece that is being done, and the script's before it
        if is_session:
            text = text[: text.rfind("\n") + 1]  # one that was killed may end within a line
        name = free_name(text)
        if name is None:
            raise Failure(f"{path}: it has a terminal of each name")
        self.free_name, self.lines = name, text.split("\n")
        self.actions = list(self.found(text))
        if self.lines[-1]:
            raise self.fault(len(self.lines), "the last line isn't ended by a line feed")
        if back:
            self.go_back(back)
        digests = [DIGEST.fullmatch(line) for line in self.lines] if is_session else []
        self.digests = [(int(it[1]), it[2]) for it in digests if it]

    def go_back(self, count: int) -> None:
        """Leaves out all from one of the last keys on."""
        keys = [at for at, action in enumerate(self.actions) if action.word == "KEY"]
        if len(keys) < count:
            raise Failure(f"{self.path}: there are only {len(keys)} keys to go back", MISUSED)
        self.lines[self.actions[keys[-count]].line - 1 :] = [""]
        del self.actions[keys[-count] :]

    def found(self, text: str) -> Iterator[Action]:
        """The lines that do something. A look is none: the record would have it, and cicsedf doesn't know it."""
        for action in actions_of(text):
            run = RUN.fullmatch(action.text)
            if action.word in OF_SESSION and not self.is_session:
                raise self.fault(action.line, f"a set-up only begins a region; {action.word} is for the session that follows")
            if action.word == "RUN" and (not run or run["stop"] or action.turns is None):
                raise self.fault(action.line, "RUN, a terminal, and perhaps how many turns, at most 4096")
            if action.word in OF_CICSLOOK and action.word != "RUN":
                raise self.fault(action.line, f"{action.word} is a look, which no session has: take it out, and look at a terminal by PF14")
            if action.is_open:
                raise self.fault(action.line, "the block isn't ended by a line /*")
            yield action

    def fault(self, number: int, why: str) -> Failure:
        return Failure(f"{self.path}: line {number}: {why}", FOUND)

    def failure_of(self, reported: str) -> Failure:
        """What the child reports of a line, by its number in the script."""
        found = re.fullmatch(r"cicsedf: line (\d+): (.*)", reported)
        return self.fault(int(found[1]) - self.sent + self.first, found[2]) if found else Failure(f"{self.path}: {reported}", FOUND)

    def begun(self, region: Region) -> Work:
        """Sends the pieces, each up to a RUN or the end; returns each line that does something with its answer."""
        done: list[tuple[str, str]] = []
        piece: list[Action] = []
        for action in [*self.actions, None]:
            if action and action.word != "RUN":
                piece.append(action)
                continue
            self.sent, last = region.child.count, action.line - 1 if action else len(self.lines) - 1
            answers = yield Request("\n".join([*self.lines[self.first : last], ""]), Answer.LINES)
            for it, answer in zip(piece, filter(ANSWER.fullmatch, answers)):
                self.report(it, answer)
                done.append((it.text, answer))
            piece, self.first = [], last + 1
            if action and action.terminal:
                done += yield from turns(action.terminal, action.turns or RUN_TURNS)
        if region.digests:
            raise Fault(DIFFERS)
        return done

    def report(self, action: Action, answer: str) -> None:
        """Keeps the source of a program that is defined; what is refused, a key too, is reported."""
        reply = reply_of(answer)
        if action.word == "SOURCE" and reply == "AT":
            self.sources[answer.split()[1]] = action.block
        is_refused = reply == "REFUSED" or action.word == "KEY" and reply not in ("Attached", "Given")
        if is_refused and not self.is_session:
            say(f"{self.path}: line {action.line}: {answer}")

def turns(terminal: str, most: int) -> Work:
    """What RUN of cicslook does: turns up to one after which the task doesn't go on."""
    done, line = [], f"TURN {terminal}"
    for _ in range(most):
        done.append((line, (yield Request(line))))
        if reply_of(done[-1][1]) in RUN_ENDS:
            break
    return done
