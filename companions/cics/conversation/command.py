"""The command cics-look: its words, what it reads, what it keeps, and how it ends."""
import contextlib
import os
import sys
from collections.abc import Iterator, Sequence

from cics.child import Child, decoded, encoded, lines_of, text_of
from cics.cli import DONE, FOUND, STANDARD_INPUT, Failure, Paint, Words, ended, name_of, program_path, read_file, say, why_of
from cics.conversation.completion import Completion
from cics.conversation.session import Session
from cics.conversation.talk import OWN_LINE, Talk
from cics.files import Record
from cics.script_reading import bad_lines, bare_lines
from cics.scripts import actions_of, free_name

NAME = "cics-look"
HISTORY = 1000  # lines that are remembered


def given_words(text: str) -> Words:
    words = Words(NAME, text)
    words.add_argument("script", metavar="SCRIPT", nargs="?", help="a script, from whose end the conversation goes on; - for standard input")
    words.add_argument("--keep", metavar="FILE", help="keeps all that was done, as a script of cicsedf: each RUN as the turns that it did, no looks")
    words.add_argument("--keep-typed", metavar="FILE", help="keeps the lines as they were typed, as a script of cicslook")
    words.add_program()
    return words


class Kept:
    """A new file in which a conversation is kept, line by line."""

    def __init__(self, path: str, use: str, *, is_typed: bool) -> None:
        self.path, self.is_typed, self.count = path, is_typed, 0
        try:
            self.record = Record(path, use)
        except FileExistsError:
            raise Failure(f"{path}: it is there, and a conversation is kept in a new file") from None
        except OSError as why:
            raise Failure(f"{path}: {why_of(why)}") from None

    def follow(self, session: Session) -> None:
        """Adds what was done since."""
        lines = session.typed if self.is_typed else session.plain
        try:
            self.record.add(encoded(text_of(lines[self.count :])))
        except OSError as why:
            raise Failure(f"{self.path}: {why_of(why)}") from None
        self.count = len(lines)


class Keeper:
    """The files in which a conversation is kept: those that grow with it, and those that are asked for in it."""

    def __init__(self, session: Session, given: Sequence[tuple[str | None, str, bool]]) -> None:
        self.session = session
        self.kept: list[Kept] = []
        self.asked_for: dict[str, Kept] = {}
        try:
            for path, use, is_typed in given:
                self.kept += [Kept(path, use, is_typed=is_typed)] if path is not None else []
        except Failure:
            for one in self.kept:
                one.record.remove()
            raise

    def all(self) -> None:
        for one in self.kept:
            one.follow(self.session)

    def asked(self, path: str) -> str:
        """Writes all that was done to a new file; asked once more, to the same one what was done since."""
        if path not in self.asked_for:
            self.asked_for[path] = Kept(path, "keep", is_typed=False)
        self.asked_for[path].follow(self.session)
        return f"{path} is written, {len(self.session.plain)} lines"


def history_path() -> str:
    state = os.environ.get("XDG_STATE_HOME") or os.path.expanduser("~/.local/state")
    return os.path.join(state, "cicsedf", "cics-look-history")


@contextlib.contextmanager
def editing(session: Session, talk: Talk) -> Iterator[None]:
    """Lines that are edited, completed, and remembered from one conversation to the next."""
    try:
        import readline  # pylint: disable=import-outside-toplevel
    except ImportError:  # a Python without it
        yield
        return
    completion, found = Completion(session), list[str]()

    def complete(_text: str, number: int) -> str | None:
        if number == 0:
            line = readline.get_line_buffer()[: readline.get_endidx()]
            found[:] = [] if talk.block else completion.candidates(line)
        return found[number] if number < len(found) else None

    readline.set_completer_delims(" ")
    readline.set_completer(complete)
    readline.parse_and_bind("tab: complete")
    readline.set_history_length(HISTORY)
    with contextlib.suppress(OSError):
        readline.read_history_file(history_path())
    try:
        yield
    finally:
        with contextlib.suppress(OSError):
            os.makedirs(os.path.dirname(history_path()), mode=0o700, exist_ok=True)
            readline.write_history_file(history_path())


def typed_at_terminal(talk: Talk) -> Iterator[str]:
    """The lines that are typed, or pasted; Ctrl-C drops one, and the block that is open."""
    while True:
        try:
            yield from input(talk.prompt()).split("\n")
        except EOFError:
            say("")
            return
        except KeyboardInterrupt:
            say("")
            talk.drop()


def given_lines() -> Iterator[str]:
    """The lines of a standard input that is no terminal."""
    try:
        for line in sys.stdin.buffer:
            yield decoded(line).removesuffix("\n").removesuffix("\r")
    except (OSError, ValueError) as why:
        raise Failure(f"standard input: {why}") from None


def is_terminal() -> bool:
    return sys.stdin.isatty() and sys.stdout.isatty()


def held(talk: Talk, lines: Iterator[str]) -> None:
    for line in lines:
        talk.line(line)
        if talk.is_over:
            break
    talk.end()


def refuse_bad(script: str, path: str) -> None:
    """Refuses a script with bad lines, which is no beginning."""
    bad = bad_lines(bare_lines(script))
    for one in bad:
        ended(f"{name_of(path)}:{one.number}:{one.reason.column}: {one.reason}", FOUND)
    if bad:
        raise Failure(f"{name_of(path)}: a bad script is no beginning", FOUND)


def begun(session: Session, script: str) -> None:
    """Does a script, from whose end the conversation goes on."""
    number = 1
    for action in actions_of(script):
        for line in lines_of(script)[number - 1 : action.line - 1]:
            session.keep([line.removesuffix("\r")], [line.removesuffix("\r")])
        say(*session.done([line.removesuffix("\r") for line in action.lines]))
        number = action.line + len(action.lines)


def main(text: str) -> int:
    given = given_words(text).parse_args()
    script = decoded(read_file(given.script)) if given.script is not None else ""
    refuse_bad(script, given.script or "")
    with Child([program_path(given.cicslook, "cicslook")], free_name(script) or "") as child:
        session = Session(child)
        keeper = Keeper(session, [(given.keep, "--keep", False), (given.keep_typed, "--keep-typed", True)])
        session.when_kept = keeper.all
        paint = Paint()
        talk = Talk(session, lambda lines: say(*(paint.of(line, "yellow") if line.startswith(OWN_LINE) else line for line in lines)), keeper.asked)
        begun(session, script)
        if is_terminal() and given.script != STANDARD_INPUT:
            with editing(session, talk):
                held(talk, typed_at_terminal(talk))
        else:
            held(talk, given_lines())
    return FOUND if talk.bad and not is_terminal() else DONE
