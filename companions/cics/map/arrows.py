"""Arrows between screens: what the keys of all states of a screen lead to."""
from collections.abc import Sequence
from dataclasses import dataclass, field

from cics.choices import Choices, State


@dataclass
class Between:
    """Keys that lead from a screen to another, 0 being one that isn't written, with the same incidents: the keys' numbers, and the states in
    which they lead there."""

    screen: int
    to: int
    incidents: tuple[str, ...] = ()
    keys: dict[int, None] = field(default_factory=dict)
    states: dict[int, None] = field(default_factory=dict)

    def kind(self) -> str:
        """By what it is drawn: an abend, a refused key, or neither."""
        words = {incident.split(" ")[0] for incident in self.incidents}
        return "abends" if "ABENDS" in words else "refused" if "ANSWERS" in words else ""


def arrows_of(choices: Choices) -> list[Between]:
    """The arrows between screens, those from the first screen first."""
    found: dict[tuple[int, int, tuple[str, ...]], Between] = {}
    for state in choices.states:
        for arrow in state.arrows:
            to = choices.state(arrow.to).screen if arrow.to is not None else 0
            incidents = tuple(it.line() for it in arrow.incidents)
            one = found.setdefault((state.screen, to, incidents), Between(state.screen, to, incidents))
            one.keys[arrow.key] = None
            one.states[state.number] = None
    return sorted(found.values(), key=lambda one: one.screen)


def levels_of(choices: Choices) -> dict[int, int]:
    """Of each screen the least number of keys that lead to it."""
    keys = {1: 0}
    for state in choices.states:
        for arrow in state.arrows:
            if arrow.to is not None:
                keys.setdefault(arrow.to, keys.get(state.number, 0) + 1)
    return {screen: min(keys.get(state.number, 0) for state in states) for screen, states in choices.shared().items()}


def prefix_of(state: State, numbers: dict[tuple[str, ...], int]) -> tuple[int, list[str]]:
    """The state whose list a state's list goes on from, by its last key, and the lines after that; 0 where there is none."""
    at = max((place for place, line in enumerate(state.moves) if line.startswith("KEY ")), default=None)
    before = numbers.get(tuple(state.moves[:at]), 0) if at is not None else 0
    return (before, state.moves[at:]) if before else (0, state.moves)


def lists_of(choices: Choices) -> list[tuple[int, list[str]]]:
    """Of each state the one from which its list goes on, and its lines after that one's."""
    numbers = {tuple(state.moves): state.number for state in choices.states if not state.list_differs}
    return [prefix_of(state, numbers) for state in choices.states]


def short(keys: Sequence[str], terminals: Sequence[str]) -> list[str]:
    """Keys without KEY, and without the terminal where there is one alone."""
    left = f"KEY {terminals[0]} " if len(terminals) == 1 else "KEY "
    return [key.removeprefix(left) if key.startswith(left) else key.removeprefix("KEY ") for key in keys]
