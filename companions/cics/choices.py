"""CHOICES of `cicslook`: a block of it as it is asked, with its keys, and what is answered: states, screens, and the keys between them.

A state is the region at rest; keys are numbered from 1. The first line says how many states and screens there are, or that there are more
states than may be kept. Of each state follow the shortest list of keys, as lines of a script, an arrow for each key that can be pressed
there, and what is to be seen, where no state before shows the same.
"""
import re
from collections.abc import Sequence
from dataclasses import dataclass, field

from cics.key_sets import MOST_KEYS, MOST_LINES, count_of, expanded, is_spoilt
from cics.orders import Asked, answered
from cics.queues import Loader
from cics.same import Fault
from cics.scripts import BLOCK_END, Action, is_silent
from cics.transcripts import of_look

DEPTH, STATES = 8, 10_000  # keys of a list, and states, where no others are asked for
MOST_DEPTH, MOST_STATES = 64, 1_000_000
HEADING = re.compile(r"CHOICES (?P<depth>[0-9]{1,2})(?: (?P<states>[0-9]{1,7}))?(?P<one> ONE NUMBER)?")
FOUND = re.compile(r"CHOICES KEYS (?P<depth>[0-9]+) STATES (?P<states>[0-9]+) SCREENS (?P<screens>[0-9]+)"
                   r"(?P<one> ONE NUMBER)?(?P<shows> NUMBERS SHOW)?(?P<closed> CLOSED)?")
CUT = re.compile(r"CHOICES MORE THAN (?P<states>[0-9]+) STATES, ALL OF (?P<depth>[0-9]+) KEYS SCREENS (?P<screens>[0-9]+)"
                 r"(?P<one> ONE NUMBER)?(?P<shows> NUMBERS SHOW)?")
STATE = re.compile(r"STATE ([0-9]+) SCREEN ([0-9]+)")
ARROW = re.compile(r"KEY ([0-9]+) TO ([0-9]+|MORE)")
INCIDENT = re.compile(r"(ABENDS|ANSWERS) (\S+) (\S+)")
PRESS = re.compile(r"EDF \S+ OFF|KEY .*|RUN \S+ [0-9]+")
RUNNING = "STILL RUNNING"
SHOW, KEYS_SHOW = "NUMBERS SHOW", "NUMBERS SHOW BY KEYS"  # in place of a state's list, and after its arrows


@dataclass(frozen=True)
class Incident:
    """What came of a key: a task ended by an abend, or the key was refused."""

    terminal: str
    what: str  # the abend's code, or the answer
    is_abend: bool

    def line(self) -> str:
        return f"{'ABENDS' if self.is_abend else 'ANSWERS'} {self.terminal} {self.what}"


@dataclass
class Arrow:
    """A key that can be pressed in a state, by its number, and the state that it leads to: None where that isn't written."""

    key: int
    to: int | None
    incidents: list[Incident] = field(default_factory=list)


@dataclass
class State:
    """A state: its number and its screen's, its shortest list as lines of a script, its arrows, and what is to be seen of it. With ONE NUMBER
    numbers of tasks that count on may show: then the list isn't written, or one of the keys does something else after it."""

    number: int
    screen: int
    moves: list[str] = field(default_factory=list)
    arrows: list[Arrow] = field(default_factory=list)
    text: list[str] = field(default_factory=list)
    list_differs: bool = False
    keys_differ: bool = False

    def keys(self) -> list[str]:
        """The keys of its shortest list."""
        return [line for line in self.moves if line.startswith("KEY ")]

    def is_running(self) -> bool:
        """Whether it isn't at rest; then no key can be pressed."""
        return RUNNING in self.text


@dataclass
class Choices:
    """What CHOICES answered. `most` is how many states could be kept, where there are more; then all lists of at most `depth` keys are known.
    States are in the order of their shortest lists, so that the n-th has the number n."""

    depth: int
    screens: int
    has_one_number: bool = False
    is_closed: bool = False
    most: int | None = None
    states: list[State] = field(default_factory=list)
    numbers_show: bool = False

    def state(self, number: int) -> State:
        return self.states[number - 1]

    def shared(self) -> dict[int, list[State]]:
        """The states of each screen, by its number."""
        found: dict[int, list[State]] = {}
        for state in self.states:
            found.setdefault(state.screen, []).append(state)
        return found


@dataclass(frozen=True)
class Question:
    """What is asked: the heading's words, KEY lines with their sets, and what is to be seen; nothing stands for all screens."""

    lines: list[str]
    seen: list[str] = field(default_factory=list)
    depth: int = DEPTH
    states: int = STATES
    has_one_number: bool = False

    def heading(self) -> str:
        return f"CHOICES {self.depth} {self.states}{' ONE NUMBER' if self.has_one_number else ''}"

    def keys(self) -> list[str]:
        """The keys by their numbers, the first at place 0."""
        return [key for line in self.lines for key in expanded(line)]

    def block(self, line: int = 0) -> Action:
        """The block of it, as one that stands at a line of a script."""
        return Action(line, [self.heading(), *self.lines, *self.seen, BLOCK_END])


def question_of(block: Action) -> Question:
    """What a block of a script asks. A fault where its heading is none."""
    found = HEADING.fullmatch(block.text)
    if found is None or not (1 <= int(found["depth"]) <= MOST_DEPTH and 1 <= int(found["states"] or STATES) <= MOST_STATES):
        raise Fault(f"line {block.line}: {block.text}; write: CHOICES keys, or CHOICES keys states, and where it is wanted ONE NUMBER")
    lines = [line for line in block.block if not is_silent(line)]
    keys = [line for line in lines if line.startswith("KEY ")]
    return Question(keys, [line for line in lines if line not in keys], int(found["depth"]), int(found["states"] or STATES), found["one"] is not None)


def why_not(question: Question) -> str | None:
    """Why there is nothing to ask, or more than may be asked."""
    spoilt = next((line for line in question.lines if is_spoilt(line)), None)
    count = sum(map(count_of, question.lines)) if not spoilt else 0
    if not question.lines:
        return "there are no keys"
    if spoilt:
        return f"{spoilt}: a {{ without a }} after it"
    if len(question.lines) > MOST_LINES:
        return f"{len(question.lines)} lines with keys; at most {MOST_LINES}"
    return f"{count} keys; at most {MOST_KEYS}" if count > MOST_KEYS else None


def incident_of(line: str) -> Incident | None:
    found = INCIDENT.fullmatch(line)
    return Incident(found[2], found[3], found[1] == "ABENDS") if found else None


def read_state(state: State, lines: Sequence[str]) -> None:
    """Reads what is written of a state, after its first line: its list, then its arrows with what came of them, then its text."""
    for at, line in enumerate(lines):
        arrow, incident = ARROW.fullmatch(line), incident_of(line)
        if arrow:
            state.arrows.append(Arrow(int(arrow[1]), None if arrow[2] == "MORE" else int(arrow[2])))
        elif incident and state.arrows:
            state.arrows[-1].incidents.append(incident)
        elif PRESS.fullmatch(line) and not state.arrows:
            state.moves.append(line)
        elif line == SHOW and not state.arrows:
            state.list_differs = True
        elif line == KEYS_SHOW:
            state.keys_differ = True
        else:
            state.text = [*lines[at:]]
            return


def first_line(line: str) -> Choices:
    """What the first line says. A fault where it is none of CHOICES."""
    if found := FOUND.fullmatch(line):
        return Choices(int(found["depth"]), int(found["screens"]), found["one"] is not None, found["closed"] is not None,
                       numbers_show=found["shows"] is not None)
    if cut := CUT.fullmatch(line):
        return Choices(int(cut["depth"]), int(cut["screens"]), cut["one"] is not None, most=int(cut["states"]),
                       numbers_show=cut["shows"] is not None)
    raise Fault(line or "CHOICES writes nothing")


def read_choices(lines: Sequence[str]) -> Choices:
    """What CHOICES answered, by its lines. A fault where they are none of it."""
    first, *rest = of_look(lines) or [""]
    choices = first_line(first)
    begins = [at for at, line in enumerate(rest) if STATE.fullmatch(line)]
    texts: dict[int, list[str]] = {}
    for begin, end in zip(begins, [*begins[1:], len(rest)]):
        found = STATE.fullmatch(rest[begin])
        assert found
        state = State(int(found[1]), int(found[2]))
        read_state(state, rest[begin + 1 : end])
        state.text = texts.setdefault(state.screen, state.text)
        choices.states.append(state)
    if [state.number for state in choices.states] != [*range(1, len(begins) + 1)] or len(texts) != choices.screens:
        raise Fault(f"{first}: {len(begins)} states and {len(texts)} screens are written")
    return choices


def choices_of(command: list[str], before: list[Action], block: Action, loaders: list[Loader]) -> Choices:
    """What a block of CHOICES answers where a script has come to it. A fault where the script doesn't."""
    return read_choices(answered(command, Asked(before, block), loaders))


def why_vacuous(answers: Sequence[Choices]) -> str | None:
    """Why answers say nothing: in all of them no key leads to another state."""
    is_vacuous = all(one.most is None and len(one.states) < 2 for one in answers)
    return "no key leads to another state, so nothing is seen: choose other keys" if is_vacuous else None


def counted(count: int, name: str) -> str:
    return f"{count} {name}{'s' if count != 1 else ''}"


def meaning(choices: Choices) -> list[str]:
    """What the first line says, in sentences."""
    states = f"{counted(len(choices.states), 'state')}, which show {counted(choices.screens, 'screen')}"
    keys = counted(choices.depth, "key")
    if choices.most is not None:
        said = [f"There are more states than {choices.most}, so all lists of at most {keys} are here, and no longer ones: {states} (MORE THAN)."]
    elif choices.is_closed:
        said = [f"No list of these keys, of any length, leads to anything else than {states} (CLOSED)."]
    else:
        said = [f"All lists of at most {keys} lead to {states}. Longer ones lead to more."]
    if choices.has_one_number:
        said.append("Each key begins with the same task number; with numbers that count on each state's list was tried, and one key more (ONE NUMBER).")
    if choices.numbers_show:
        differ = [state.number for state in choices.states if state.list_differs or state.keys_differ]
        of = f"state {differ[0]}" if len(differ) == 1 else f"{len(differ)} states, the first {differ[0]},"
        said.append(f"With numbers that count on the list or a key of {of} does something else (NUMBERS SHOW).")
    return said
