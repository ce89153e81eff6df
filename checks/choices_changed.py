"""Answers of CHOICES that are changed, each in one way."""
import copy
import itertools
from collections.abc import Callable

from cics.choices import Choices, Incident
from checks.choices_tried import Lists, Walk

Change = Callable[[Choices, Lists], bool]  # changes an answer; whether there is something to change


def other_arrow(choices: Choices, _lists: Lists) -> bool:
    """An arrow leads to another state."""
    arrow = next((it for state in choices.states for it in state.arrows if it.to), None)
    if arrow and arrow.to:
        arrow.to = arrow.to % len(choices.states) + 1
    return arrow is not None and len(choices.states) > 1


def missing_arrow(choices: Choices, _lists: Lists) -> bool:
    """A key that can be pressed has no arrow."""
    state = next((state for state in reversed(choices.states) if state.arrows), None)
    return state is not None and bool(state.arrows.pop())


def missing_state(choices: Choices, _lists: Lists) -> bool:
    """The last state isn't written, and what leads there leads to MORE."""
    last = choices.states.pop()
    for arrow in (it for state in choices.states for it in state.arrows if it.to == last.number):
        arrow.to = None
    choices.screens = len(choices.shared())
    choices.is_closed = False
    return bool(choices.states) and choices.depth > 0


def make_one(choices: Choices, number: int) -> None:
    """The last state isn't written, and what leads there leads to another one."""
    last = choices.states.pop()
    for arrow in (it for state in choices.states for it in state.arrows if it.to == last.number):
        arrow.to = number
    choices.screens = len(choices.shared())


def states_made_one(choices: Choices, _lists: Lists) -> bool:
    """The last state is said to be the first, which shows something else."""
    is_other = choices.states[-1].screen > 1
    make_one(choices, 1)
    return is_other


def alike_made_one(choices: Choices, _lists: Lists) -> bool:
    """The last state is said to be one that shows the same; without one number they may differ in it alone, which no look shows."""
    screen = choices.states[-1].screen
    number = next(state.number for state in choices.states if state.screen == screen)
    is_other = number < len(choices.states) and choices.has_one_number
    make_one(choices, number)
    return is_other


def said_closed(choices: Choices, _lists: Lists) -> bool:
    """CLOSED is said where it isn't so, and the other way."""
    choices.is_closed = not choices.is_closed
    return choices.most is None


def missing_incident(choices: Choices, _lists: Lists) -> bool:
    """An abend or a refusal isn't written."""
    arrow = next((it for state in choices.states for it in state.arrows if it.incidents), None)
    return arrow is not None and bool(arrow.incidents.pop())


def other_incident(choices: Choices, _lists: Lists) -> bool:
    """An abend has another code, or a refusal another answer."""
    arrow = next((it for state in choices.states for it in state.arrows if it.incidents), None)
    if arrow:
        first = arrow.incidents[0]
        arrow.incidents[0] = Incident(first.terminal, "AEI9" if first.is_abend else "AlreadyHeldInput", first.is_abend)
    return arrow is not None


def other_text(choices: Choices, _lists: Lists) -> bool:
    """A line more is seen of the last state's screen."""
    choices.states[-1].text.append("01|ANOTHER")
    return True


def states_exchanged(choices: Choices, _lists: Lists) -> bool:
    """Two states have each other's number."""
    if len(choices.states) < 3:
        return False
    one, other = choices.states[-2:]
    renumbered = {one.number: other.number, other.number: one.number}
    for arrow in (it for state in choices.states for it in state.arrows if it.to):
        arrow.to = renumbered.get(arrow.to or 0, arrow.to)
    one.number, other.number = other.number, one.number
    choices.states[-2:] = [other, one]
    return True


def other_turns(choices: Choices, _lists: Lists) -> bool:
    """A state's list has a turn more."""
    state = choices.states[-1]
    if not state.moves or not state.moves[-1].startswith("RUN "):
        return False
    *words, count = state.moves[-1].split(" ")
    state.moves[-1] = " ".join([*words, str(int(count) + 1)])
    return True


def other_screen(choices: Choices, _lists: Lists) -> bool:
    """A state is said to show what the first one shows."""
    state = next((state for state in choices.states if state.screen > 1 and len(choices.shared()[state.screen]) > 1), None)
    if state:
        last = choices.shared()[state.screen][-1]
        last.screen, last.text = 1, choices.states[0].text
    return state is not None


def state_doubled(choices: Choices, lists: Lists) -> bool:
    """What the last state's first key leads to is said to be another state, in which all is as in the one that it is."""
    walk, last = Walk(lists, choices), choices.states[-1]
    list(walk.differences())
    arrow = next((it for it in last.arrows if it.to), None)
    end = lists.end((*walk.first[last.number], arrow.key)) if arrow else None
    if arrow is None or arrow.to is None or end is None or len(walk.first[last.number]) >= choices.depth or not lists.are_told_apart():
        return False
    state = copy.deepcopy(choices.state(arrow.to))
    state.number = arrow.to = len(choices.states) + 1
    state.moves = [line for key, its in itertools.groupby(end.moves) for line in as_run(key, [*its])]
    choices.states.append(state)
    return True


def as_run(line: str, lines: list[str]) -> list[str]:
    """Turns of one terminal in a row as the RUN that does them; other lines as they are."""
    return [f"RUN {line.split(' ')[1]} {len(lines)}"] if line.startswith("TURN ") else lines


CHANGES: list[Change] = [other_arrow, missing_arrow, missing_state, states_made_one, alike_made_one, said_closed, missing_incident, other_incident,
                         other_text, states_exchanged, other_turns, other_screen, state_doubled]
