"""Makes the page of films: one file of HTML, with its data as JSON, its script and its style."""
from __future__ import annotations

import os
from dataclasses import asdict
from typing import Any

from cics.film.pairs import marks_of, pairs_of
from cics.film.recorder import Event, Film, Lines, Search, Shown
from cics.film.sources import Source
from cics.pages import assembled, json_of

MAKER = "cics-film"
FOLDER = os.path.dirname(os.path.abspath(__file__))
MOST_BYTES = 30_000_000  # of a page
MOST_OF_LIST = 1_000_000  # of the film of a list of moves


def patch_of(before: Lines, now: Lines) -> Lines | dict[str, str]:
    """What a text became: the lines that differ, by their places, where these are few."""
    if len(before) == len(now):
        changed = {str(at): new for at, (old, new) in enumerate(zip(before, now)) if old != new}
        if 2 * len(changed) < len(now):
            return changed
    return now


def changes_of(shown: Shown, event: Event) -> dict[str, Lines | dict[str, str]]:
    """An event's changes as the page has them; `shown` is what was there before, and is brought up to it."""
    found = {key: patch_of(shown.get(key, []), lines) for key, lines in event.changes.items()}
    shown.update(event.changes)
    return found


def event_data(shown: Shown, event: Event) -> dict[str, Any]:
    data: dict[str, Any] = {"line": event.line, "text": event.text, "answer": " ".join(event.answer), "changes": changes_of(shown, event)}
    for key in ("turn", "terminal", "comments", "ran", "passed", "arrivals"):
        if value := getattr(event, key):
            data[key] = value
    return data


def source_data(source: Source) -> dict[str, Any]:
    """What the page knows of a source, whose lines are the script's."""
    fields = {key: [asdict(it) for it in found] for key, found in (("fields", source.fields), ("cwa", source.cwa))}
    origins = {"from": source.origins} if source.origins else {}
    return {"name": source.name, "first": source.first, "count": len(source.lines), "types": source.types, "runs": source.runs, **fields, **origins}


def search_data(search: Search, before: int) -> dict[str, Any]:
    """What the page knows of an ORDERS, in front of which it has so many events."""
    found = search.found
    marks = iter(marks_of([seen for _, seen, _ in search.lists if seen]))
    lists: list[dict[str, Any]] = [{"what": what, "seen": seen, "moves": moves, "marks": next(marks) if seen else []} for what, seen, moves in search.lists]
    for at, film in search.films.items():
        data = film_data(film)
        lists[at] |= {"film": data} if len(json_of(data)) <= MOST_OF_LIST else {}
    return {"line": search.line, "before": before, "states": found.states, "most": found.most, "lists": lists}


def film_data(film: Film) -> dict[str, Any]:
    shown = dict(film.before)
    return {
        "name": film.name,
        "script": film.script,
        "leftOut": film.left_out,
        "before": film.before,
        "terminals": film.terminals,
        "sources": {name: source_data(source) for name, source in film.sources.items()},
        "fault": film.fault,
        "events": [event_data(shown, event) for event in film.events],
        "searches": [search_data(it, max(0, it.done - film.left_out)) for it in film.searches],
    }


def without_first(film: Film, count: int) -> None:
    """Leaves out the first events of a film."""
    for event in film.events[:count]:
        film.before = {**film.before, **event.changes}
    film.before = {key: lines for key, lines in film.before.items() if lines}
    film.events, film.left_out = film.events[count:], film.left_out + count


def excess(film: Film, most: int) -> int:
    """How many of a film's first events are too many for a number of bytes."""
    data = film_data(film)
    sizes = [len(json_of(event)) + 1 for event in data["events"]]
    left, count = sum(sizes) + len(json_of({**data, "events": []})) - most, 0
    while left > 0 and count < len(sizes):
        left, count = left - sizes[count], count + 1
    return count


def fit(film: Film, most: int) -> int:
    """Leaves out the first events, where a film takes more bytes than it may; returns how many."""
    left_out = 0
    while count := excess(film, most):
        without_first(film, count)
        left_out += count
    return left_out


def page_of(films: list[Film]) -> tuple[str, list[int]]:
    """The page, and how many of each film's first events it has no room for."""
    left_out = [fit(it, MOST_BYTES // len(films) - (1 << 16)) for it in films]
    data = [film_data(it) for it in films]
    if len(films) == 2:
        data[0]["pairs"] = asdict(pairs_of(*films))
    return assembled(MAKER, FOLDER, {"DATA": json_of(data)}), left_out
