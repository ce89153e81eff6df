"""Where tasks abended: a list of keys is done as a script, then the key after which a task abends, turn by turn as CHOICES does it, and the look
ABEND says the place."""
from collections.abc import Iterator
from dataclasses import dataclass, field

from cics.child import Child, encoded, run, text_of
from cics.choices import Arrow, Choices, Incident, State
from cics.cli import Progress
from cics.map.asking import Subject
from cics.map.fields import NO_KEYBOARD
from cics.orders import performed
from cics.same import Depth, Region, child_of
from cics.scripts import MOST_TURNS
from cics.stand_in.abends import request_line
from cics.looks import place_in
from cics.transcripts import LOOK, RESTS, of_look, reply_of

MOST = 200  # abends that are looked at
IDLE = (*RESTS, "NoSuchTerminal")  # a turn that can't be made


@dataclass
class Abend:
    """An abend after a key in a state: what ABEND writes, the program and the line, and the lines of a script that lead there."""

    state: int
    key: int
    incident: Incident
    cause: list[str] = field(default_factory=list)
    place: tuple[str, int] | None = None
    moves: list[str] = field(default_factory=list)

    def where(self, sources: dict[str, list[str]]) -> str:
        """The place, and the statement there; empty where it isn't known."""
        if self.place is None:
            return ""
        program, line = self.place
        lines = sources.get(program, [])
        statement = " ".join(lines[line - 1][:71].split()) if 0 < line <= len(lines) else ""
        return f"{program} line {line}{f': {statement}' if statement else ''}"


def found_in(choices: Choices) -> Iterator[tuple[State, Arrow, Incident]]:
    """The abends of an answer: those of a key between two screens once, in the first state that has it. One by a key that no keyboard gives is
    no abend of the program."""
    seen: set[tuple[int, int, int, str, str]] = set()
    for state in choices.states:
        for arrow in state.arrows:
            to = choices.state(arrow.to).screen if arrow.to is not None else 0
            for incident in arrow.incidents:
                name = (state.screen, arrow.key, to, incident.terminal, incident.what)
                if incident.is_abend and incident.what != NO_KEYBOARD and name not in seen:
                    seen.add(name)
                    yield state, arrow, incident


def turned(child: Child, terminals: list[str], incident: Incident) -> list[str]:
    """Makes the turns after a key, each by the first terminal that can act, up to the abend; returns them as RUN lines. There are none
    where the abend doesn't come."""
    runs: list[tuple[str, int]] = []
    for _ in range(MOST_TURNS):
        answers = ((terminal, child.ask(f"TURN {terminal}")[0]) for terminal in terminals)
        terminal, answer = next(((one, answer) for one, answer in answers if reply_of(answer) not in IDLE), ("", ""))
        if not terminal:
            return []
        if runs and runs[-1][0] == terminal:
            runs[-1] = (terminal, runs[-1][1] + 1)
        else:
            runs.append((terminal, 1))
        if answer.split(" ")[1:] == [incident.terminal, "Abended", incident.what]:
            return [f"RUN {one} {count}" for one, count in runs]
    return []


def looked_at(command: list[str], subject: Subject, abend: Abend, state: State, key: str) -> None:
    """Looks where an abend is, after a state's list and the key."""
    asked = subject.asked()
    if state.list_differs:
        return
    with child_of(command, [*asked.before, asked.block]) as child:
        performed(Region(child, Depth.SCREENS), asked.before, [])
        child.ask(*state.moves, key)
        runs = turned(child, subject.terminals, abend.incident)
        if not runs:
            return
        terminal = abend.incident.terminal
        abend.moves = [*state.moves, key, *runs]
        abend.cause = of_look(child.ask(f"ABEND {terminal}"))
    abend.place = place_in(abend.cause)
    abend.cause += request_line(abend.cause, [*subject.text, *abend.moves], terminal,
                                lambda script: of_look([line for line in run(command, encoded(text_of(script))).lines() if line.startswith(LOOK)]))


def abends_of(cicslook: str, subject: Subject, choices: Choices) -> list[Abend]:
    """The abends of an answer, each with its place as far as it is known."""
    keys, found = subject.question.keys(), [*found_in(choices)]
    abends = [Abend(state.number, arrow.key, incident) for state, arrow, incident in found]
    with Progress(min(MOST, len(found)), "abends are looked at") as progress:
        for at, (abend, (state, arrow, _)) in enumerate(zip(abends[:MOST], found)):
            looked_at([cicslook], subject, abend, state, keys[arrow.key - 1])
            progress.show(at + 1)
    return abends
