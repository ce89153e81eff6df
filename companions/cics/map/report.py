"""The map as lines, and as an object."""
from collections import Counter
from collections.abc import Iterator, Sequence
from dataclasses import dataclass

from cics.choices import Choices, State, counted, meaning
from cics.map.abends import MOST, Abend
from cics.map.arrows import Between, arrows_of, levels_of, lists_of, short
from cics.map.asking import Subject
from cics.map.fields import fields_of, untyped
from cics.stand_in.counts import count_in, said
from cics.transcripts import is_of_page

MOST_SHOWN = 6  # keys, or states, that a line has


@dataclass
class Map:
    """What is told: what was asked, what was answered, and where tasks abended."""

    subject: Subject
    choices: Choices
    abends: list[Abend]

    def said(self) -> list[str]:
        """What the first line says, in sentences, how many stand-ins and keys there were, and of how many abends it isn't told where they are."""
        count = counted(len(self.subject.question.keys()), "key")
        proposed = " They are proposed by what the sources compare, so others may lead elsewhere." if self.subject.proposals else ""
        left = [f"Of {len(self.abends)} abends it is told of the first {MOST} where they are."] if len(self.abends) > MOST else []
        return [*said(count_in(self.subject.sources.values())), f"{count}.{proposed}", *self.unasked(), *meaning(self.choices), *left]

    def unasked(self) -> list[str]:
        """What no key asks, which even CLOSED says nothing of: fields into which none types, and what isn't proposed."""
        fields = untyped(fields_of(self.subject.sources.values()), self.subject.question.keys())
        names = [f"of {name} {', '.join(field.name for field in fields if field.map == name)}" for name in dict.fromkeys(field.map for field in fields)]
        lines = [f"No key types into these fields of maps: {'; '.join(names)}."] if names else []
        return lines + [f"Not proposed: {what}." for what in (self.subject.proposals.missing if self.subject.proposals else [])]

    def keys(self) -> list[str]:
        return short(self.subject.question.keys(), self.subject.terminals)


def shown(words: Sequence[str]) -> str:
    """Words, of many the first ones."""
    rest = len(words) - MOST_SHOWN
    return ", ".join(words[:MOST_SHOWN]) + (f" and {rest} more" if rest > 0 else "")


def numbered(numbers: Sequence[int]) -> str:
    """States by their numbers."""
    return f"state{'s' if len(numbers) > 1 else ''} {shown([*map(str, numbers)])}"


def rows_in(text: Sequence[str]) -> list[str]:
    """The rows of a text that aren't blank."""
    return [row for line in text if is_of_page(line) and (row := " ".join(line[3:].split()))]


def titles_of(shared: dict[int, list[State]]) -> dict[int, str]:
    """By what each screen is known in a line: the first of its rows that the fewest screens have."""
    rows = {screen: rows_in(states[0].text) for screen, states in shared.items()}
    counts = Counter(row for found in rows.values() for row in {*found})
    return {screen: min(found, key=lambda row: counts[row], default="") for screen, found in rows.items()}


def arrow_line(one: Between, found: Map, states: int) -> str:
    """A line on an arrow; of abends where they are."""
    keys = found.keys()
    named = shown([keys[number - 1] for number in one.keys])
    of_states = f", in {numbered([*one.states])}" if len(one.states) < states else ""
    places = {abend.incident.line(): where for abend in found.abends if abend.state in one.states and abend.key in one.keys
              if (where := abend.where(found.subject.sources))}
    told = "; ".join(f"{incident} at {places[incident]}" if incident in places else incident for incident in one.incidents)
    return f"  {named} -> {f'SCREEN {one.to}' if one.to else 'MORE'}{of_states}{f': {told}' if told else ''}"


def lines_of_map(found: Map) -> Iterator[str]:
    """The map as lines: what it is of, then of each screen a line, and a line for each arrow from it."""
    yield from found.said()
    shared, levels, arrows = found.choices.shared(), levels_of(found.choices), arrows_of(found.choices)
    titles = titles_of(shared)
    for screen, states in shared.items():
        running = ", STILL RUNNING" if states[0].is_running() else ""
        title = f": {titles[screen]}" if titles[screen] else ""
        yield f"SCREEN {screen} by {counted(levels[screen], 'key')}, {numbered([state.number for state in states])}{running}{title}"
        yield from (arrow_line(one, found, len(states)) for one in arrows if one.screen == screen)


def numbers_in(state: State) -> dict[str, bool]:
    """Where numbers of tasks show by a state's list, or by a key there."""
    return {name: True for name, differs in (("listDiffers", state.list_differs), ("keysDiffer", state.keys_differ)) if differs}


def data_of(found: Map) -> dict[str, object]:
    """The map as an object, for --json and for the page."""
    choices, subject = found.choices, found.subject
    shared, levels, lists = choices.shared(), levels_of(choices), lists_of(choices)
    titles = titles_of(shared)
    return {
        "name": subject.name,
        "said": found.said(),
        "depth": choices.depth,
        "most": choices.most,
        "closed": choices.is_closed,
        "oneNumber": choices.has_one_number,
        "terminals": subject.terminals,
        "keys": subject.question.keys(),
        "proposed": subject.proposals.lines if subject.proposals else None,
        "notProposed": subject.proposals.missing if subject.proposals else None,
        "script": subject.text,
        "screens": [{"number": number, "level": levels[number], "text": states[0].text, "running": states[0].is_running(),
                     "title": titles[number], "states": [state.number for state in states]} for number, states in shared.items()],
        "states": [{"screen": state.screen, "from": before, "lines": lines, **numbers_in(state), "arrows": [
            [arrow.key, arrow.to or 0, *([[it.line() for it in arrow.incidents]] if arrow.incidents else [])] for arrow in state.arrows]}
            for state, (before, lines) in zip(choices.states, lists)],
        "abends": [{"state": one.state, "key": one.key, "what": one.incident.line(), "where": one.where(subject.sources), "cause": one.cause,
                    "moves": one.moves} for one in found.abends],
    }
