"""The command `cics-film`."""
from __future__ import annotations

import functools
import os
import sys
import time
import webbrowser
from collections.abc import Callable

from cics.child import MARK, Child, Gone, decoded, lines_of
from cics.cli import DONE, FOUND, MISUSED, STANDARD_INPUT, Failure, Words, ended, name_of, program_path, read_file, write_out
from cics.files import page_mark, write_file
from cics.film.page import MAKER, page_of
from cics.film.recorder import MOST_EVENTS, Film, Recorder
from cics.origins import Origins, read_origins
from cics.scripts import Action, actions_of, free_name

NAME = "cics-film"
ABOUT = """Makes a page of a run: every event of a script, forward and back, in a browser.

Status 0: the page has all of the run. 1: the script has a fault, and the page the run up to it. 2: wrong words. 3: no page is made."""
MOST_LINES = 1_000_000  # of sources, which FIELDS looks through
MOST_ORDERS = 32  # films of what a script's ORDERS give
ALL_ARRIVALS = 20_000  # at lines in all of a film, of which AHEAD AT is asked
MOST_WITH_ARRIVALS = 2_000  # events of a script, where it is asked
SECONDS = 60.0  # no answer may take longer, but that of a search
SOON = 2  # seconds, after which it is reported how long a film takes


def words_of(name: str = NAME) -> Words:
    words = Words(name, ABOUT)
    words.add_argument("script", nargs="+", help="a script of cicsedf or cicslook, - for standard input; two are shown side by side")
    words.add_argument("-o", dest="out", metavar="FILE", help="the page's file, - for standard output (the first script's name with .html)")
    words.add_argument("--map", metavar="[PROGRAM=]FILE", action="append", default=[],
                       help="of a program's source, or of the only one, what cics-adapt wrote by --map: lines have the numbers of the old source")
    words.add_argument("--open", action="store_true", help="has the browser open it")
    words.add_force()
    words.add_program()
    return words


def progress(name: str, most: int) -> Callable[[int], None]:
    """Reports on standard error how long a film takes that takes more than two seconds: a bar where it is a terminal, else a line."""
    began, last = time.monotonic(), [0.0]

    def report(done: int) -> None:
        now = time.monotonic()
        if now - began < SOON or now - last[0] < 0.5 or last[0] and not sys.stderr.isatty():
            return
        last[0] = now
        left = f"about {(now - began) / done * max(0, most - done):.0f} s more"
        if sys.stderr.isatty():
            bar = "#" * (20 * done // max(most, done))
            print(f"\r{NAME}: {name}: [{bar:20}] {done:,} of at most {most:,} events, {left}  ", end="", file=sys.stderr, flush=True)
        else:
            print(f"{NAME}: {name}: at most {most:,} events, {left}", file=sys.stderr, flush=True)

    return report


def events_of(actions: list[Action], path: str, mark: str) -> int:
    """How many events a script has: where it has a RUN, whose turns nobody knows before, it is run once without questions."""
    if not any(it.turns for it in actions):
        return sum(it.is_event for it in actions)
    with Child([path], mark) as child:
        recorder = Recorder(child, Film("", []), skipped=1 << 62)
        recorder.perform(actions)
        return recorder.done


@functools.cache
def has_look(path: str, look: str) -> bool:
    """Whether a program has a look: of a line that is none it says what is meant."""
    with Child([path]) as child:
        try:
            return not child.ask(look.replace("TERM", MARK))[0].startswith("> ? ")
        except Gone:
            return False


def filmed(name: str, text: str, path: str) -> Film:
    """Films a script by the program at a path, and what its ORDERS give: each list of moves in the place of its ORDERS, from the event before."""
    film = filmed_alone(name, text, path)
    for search in film.searches:
        for at, (what, _, moves) in enumerate(search.lists):
            if moves and sum(len(it.films) for it in film.searches) < MOST_ORDERS:
                lines = "".join(f"{line}\n" for line in [*lines_of(text)[: search.line - 1], *moves])
                search.films[at] = filmed_alone(f"{name}, {what}", lines, path, max(0, search.done - 1))
    return film


def filmed_alone(name: str, text: str, path: str, least_skipped: int = 0) -> Film:
    """Films a script, or what comes after some of its events."""
    actions = actions_of(text)
    mark = free_name(text)
    if mark is None:
        raise Failure(f"{name_of(name)}: it has a terminal of each name")
    events = events_of(actions, path, mark)
    skipped = max(least_skipped, events - MOST_EVENTS)
    if skipped > least_skipped:
        ended(f"{NAME}: {name} has {events:,} events: the last {MOST_EVENTS:,} are filmed", DONE)
    film = Film(os.path.basename(name) if name != "-" else "standard input", [it.removesuffix("\r") for it in lines_of(text)], left_out=skipped)
    with Child([path], mark, SECONDS) as child:
        recorder = Recorder(child, film, skipped, progress(name, events))
        recorder.lines_left = MOST_LINES if has_look(path, "FIELDS TERM") else 0
        recorder.has_instructions = has_look(path, "AHEAD TERM 1")
        recorder.lines_to_count = MOST_LINES if has_look(path, "COVER ON") else 0
        recorder.arrivals_left = ALL_ARRIVALS if events <= MOST_WITH_ARRIVALS and has_look(path, "AHEAD TERM AT A 1") else 0
        recorder.perform(actions)
    return film


def map_of(word: str) -> tuple[str, Origins]:
    """A word of --map: the program, or none, and where the lines of its source come from."""
    program, equals, path = word.rpartition("=")
    return (program if equals else "", read_origins(path))


def with_origins(film: Film, program: str, origins: Origins) -> None:
    """Puts in where the lines of a program's source come from; without a program, those of the only source."""
    found = [it for it in film.sources.values() if it.lines and program in ("", it.name)]
    if len(found) != 1:
        names = ", ".join(it.name for it in film.sources.values() if it.lines) or "it has none"
        raise Failure(f"--map {program}: {film.name} has {len(found)} such sources; write: --map PROGRAM=FILE, the program one of {names}", MISUSED)
    places = [origins.places.get(line) for line in range(1, len(found[0].lines) + 1)]
    found[0].origins = [f"{place.file}:{place.line}" if place else "" for place in places]


def main() -> int:
    given = words_of().parse_args()
    if len(given.script) > 2:
        words_of().error("at most two scripts")
    path = program_path(given.cicslook, "cicslook")
    maps = [map_of(word) for word in given.map]
    films = [filmed(it, decoded(read_file(it)), path) for it in given.script]
    for film in films:
        for program, origins in maps:
            with_origins(film, program, origins)
    first = given.script[0]
    out = given.out or (STANDARD_INPUT if first == STANDARD_INPUT else f"{first.removesuffix('.script')}.html")
    status = written(films, out, is_forced=given.force)
    if given.open and out != STANDARD_INPUT:
        webbrowser.open(f"file://{os.path.abspath(out)}")
    return status


def written(films: list[Film], out: str, *, is_forced: bool = False) -> int:
    """Writes the page of films of scripts, and reports what it lacks."""
    page, left_out = page_of(films)
    if out == STANDARD_INPUT:
        write_out(page.encode())
    else:
        write_file(out, page.encode(), page_mark(MAKER).why_kept, "-o", is_forced=is_forced)
    for film, count in zip(films, left_out):
        if count:
            ended(f"{NAME}: {film.name}: the page has no room for its first {count:,} events", DONE)
        if film.fault:
            ended(f"{NAME}: {film.name}, line {film.fault[0]}: {film.fault[1]}: the page has the run up to it", DONE)
    return FOUND if any(film.fault for film in films) else DONE
