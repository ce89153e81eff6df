"""What differs: two films whose events are paired by their keys, and the outcomes of ORDERS."""
from __future__ import annotations

from dataclasses import dataclass

from cics.film.recorder import Event, Film, Lines, Shown
from cics.transcripts import is_of_page, reply_of

SHOWN = ("screen ", "queue ", "item ")  # names of what a user sees or a later task finds
Ranges = list[tuple[int, int]]


@dataclass
class Pairs:
    """Two films side by side: at each step which event of each is shown, and the step at which the first difference in what is shown is
    there in both; none where none is. `marked` are the events that bring it."""

    steps: list[tuple[int, int]]
    differs: int | None = None
    marked: tuple[int, int] | None = None


@dataclass
class Part:
    """A film's events from a key on, up to the next: their places, and what is shown at the end."""

    events: list[tuple[int, Event]]
    shown: Shown

    def answers(self) -> Lines:
        """What the key was answered, and how tasks ended."""
        texts = [line for _, event in self.events for line in event.answer]
        return [line for line in texts if line.startswith("KEY ") or reply_of(line) in ("Ended", "Abended")]

    def brings(self, names: set[str]) -> int:
        """The event that changed one of these last; the part's last one where none did."""
        places = [at for at, event in self.events if names & set(event.changes)]
        return places[-1] if places else self.events[-1][0]


def parts_of(film: Film) -> list[Part]:
    """What is in front of the first key, and what comes with each key."""
    shown = {key: lines for key, lines in film.before.items() if key.startswith(SHOWN)}
    parts = [Part([], dict(shown))]
    for at, event in enumerate(film.events):
        if event.text.startswith("KEY "):
            parts.append(Part([], {}))
        shown |= {key: lines for key, lines in event.changes.items() if key.startswith(SHOWN)}
        parts[-1].events.append((at, event))
        parts[-1].shown = {key: lines for key, lines in shown.items() if lines}
    return parts


def pairs_of(old: Film, new: Film) -> Pairs:
    """The events of two films, paired from key to key: the shorter part waits at its last event. Where first events are left out they are paired
    by their numbers, and nothing is marked."""
    if old.left_out or new.left_out:  # then keys are left out too
        length = max(len(old.events), len(new.events))
        return Pairs([(min(at, len(old.events) - 1), min(at, len(new.events) - 1)) for at in range(length)])
    pairs = Pairs([])
    sides = parts_of(old), parts_of(new)
    last = [0, 0]
    for at in range(max(map(len, sides))):
        parts = [side[at] if at < len(side) else Part([], {}) for side in sides]
        for step in range(max(len(part.events) for part in parts)):
            for which, part in enumerate(parts):
                last[which] = part.events[min(step, len(part.events) - 1)][0] if part.events else last[which]
            pairs.steps.append((last[0], last[1]))
        if pairs.differs is None and at:
            mark(pairs, parts[0], parts[1])
    return pairs


def mark(pairs: Pairs, old: Part, new: Part) -> None:
    """Marks what differs at the end of two parts, if anything."""
    names = {key for key in {**old.shown, **new.shown} if old.shown.get(key) != new.shown.get(key)} if old.events and new.events else set[str]()
    if names or old.answers() != new.answers():
        pairs.differs = len(pairs.steps) - 1
        if old.events and new.events:
            pairs.marked = first, second = old.brings(names), new.brings(names)
            pairs.differs = next(at for at, (one, other) in enumerate(pairs.steps) if one >= first and other >= second)


def key_of(line: str, heading: str) -> str:
    """By which a line of an outcome is the same line of another: a row of a page by its page and number, others by their first words."""
    return f"{heading} {line[:2]}" if is_of_page(line) else " ".join(line.split()[:2]) if line[:1].isalpha() else line[:6]


def keyed(text: Lines) -> dict[str, int]:
    """The place of each line of an outcome, by its key."""
    found: dict[str, int] = {}
    heading = ""
    for at, line in enumerate(text):
        heading = heading if is_of_page(line) else line
        key = key_of(line, heading)
        found[next(name for name in (f"{key} {count}" for count in range(len(text))) if name not in found)] = at
    return found


def differing(line: str, others: Lines) -> Ranges:
    """Where a line has other characters than some of the others."""
    found: Ranges = []
    for at in range(len(line)):
        if any(other[at : at + 1] != line[at] for other in others):
            found = [*found[:-1], (found[-1][0], at + 1)] if found and found[-1][1] == at else [*found, (at, at + 1)]
    return found or ([(0, len(line))] if any(other != line for other in others) else [])


def marks_of(texts: list[Lines]) -> list[list[Ranges]]:
    """Of each outcome's lines what isn't the same in all of them; an outcome that differs has a mark in any case."""
    keys = [keyed(text) for text in texts]
    marks: list[list[Ranges]] = [[[] for _ in text] for text in texts]
    for one, text in enumerate(texts):
        for key, at in keys[one].items():
            others = [texts[k][keys[k][key]] for k in range(len(texts)) if key in keys[k]]
            marks[one][at] = differing(text[at], others) if len(others) == len(texts) else [(0, len(text[at]))]
        if text and not any(marks[one]) and any(other != text for other in texts):
            marks[one] = [[(0, len(line))] for line in text]
    return marks
