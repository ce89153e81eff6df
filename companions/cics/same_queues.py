"""Queues compared by their bytes, wherever CHOICES or ORDERS lead: which looks show them. QUEUES names them, and QUEUE has of each item the first
bytes in characters; an item that these don't show whole is looked at by itself.
"""
from collections.abc import Callable, Iterable, Iterator, Sequence
from dataclasses import dataclass, field

from cics.looks import Item, Queue, WholeItem
from cics.same import digits_of

MOST_LOOKS, MOST_SHOWN = 64, 64  # of a block; bytes of an item that QUEUE shows
OF_ALL = "QUEUES"
Texts = Iterable[Sequence[str]]  # what is seen of each state, or of each outcome, of both
Ask = Callable[[list[str]], tuple[list[str] | None, list[Sequence[str]]]]  # by looks: how both differ, if they do, and those texts


@dataclass
class Queues:
    """How queues differ, if they do, and what of them nobody could look at."""

    difference: list[str] | None = None
    unseen: list[str] = field(default_factory=list)


def named_in(texts: Texts) -> list[str]:
    """The queues, each by how it is shown."""
    return [*dict.fromkeys(found.shown for text in texts for found in Queue.all_in(text))]


def is_exact(length: int, text: str) -> bool:
    """Whether QUEUE shows an item whole: a period may stand for a byte that has no character. In digits, X'..', each byte is seen."""
    return length <= MOST_SHOWN and (text.startswith("X'") or "." not in text)


def inexact_in(text: Sequence[str]) -> Iterator[tuple[str, int]]:
    """The items that a text doesn't show whole, each by its queue and its number."""
    queue = ""
    for line in text:
        if listed := Queue.read(line):
            queue = listed.shown
        elif (item := Item.read(line)) and not is_exact(item.length, item.text or ""):
            yield queue, item.number


def label_of(line: str, queue: str) -> str:
    """What a line on a queue is of; empty of any other line."""
    if whole := WholeItem.read(line):
        return f"item {whole.number} of queue {whole.shown}"
    if item := Item.read(line):
        return f"item {item.number} of queue {queue}"
    return "a queue" if Queue.read(line) or line == f"{OF_ALL} NONE" else ""


def unseen(items: Sequence[tuple[str, int]], room: int) -> list[str]:
    """What is said of items that don't fit into one block."""
    number, queue = items[room][1], items[room][0]
    return [f"bytes of {len(items) - room} items weren't compared, that is, those which look alike in characters, as of item {number} of queue {queue}: "
            f"a block has at most {MOST_LOOKS} looks"]


def queues_compared(ask: Ask, own: int = 0, *, at_once: bool) -> Queues:
    """Compares queues where `ask` does by looks. `own`: how many looks each block has anyhow; `at_once`: what is seen has to be seen by one
    block, as where nothing says which of the old outcomes is which of the new ones."""
    if own >= MOST_LOOKS:
        return Queues(unseen=[f"queues weren't compared: a block has at most {MOST_LOOKS} looks, and this one has them"])
    different, texts = ask([OF_ALL])
    names = named_in(texts)
    looks = [OF_ALL, *(f"QUEUE {digits_of(name)}" for name in names)]
    room = MOST_LOOKS - own - len(looks)
    if different or not names:
        return Queues(different)
    if room < 0:
        return Queues(unseen=[f"the items of {len(names)} queues weren't compared: a block has at most {MOST_LOOKS} looks"])
    different, texts = ask(looks)
    items = [*dict.fromkeys(item for text in texts for item in inexact_in(text))]
    if different or not items:
        return Queues(different)
    exact = [f"QUEUE {digits_of(queue)} {number}" for queue, number in items]
    if at_once:
        different, _ = ask([*looks, *exact[:room]])
        return Queues(different, unseen(items, room) if len(items) > room else [])
    for begin in range(0, len(exact), MOST_LOOKS):
        different, _ = ask(exact[begin : begin + MOST_LOOKS])
        if different:
            break
    return Queues(different)
