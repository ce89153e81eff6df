"""Lists of keys of a script, each tried by runs of its own, and how an answer of CHOICES differs from what they lead to."""
import itertools
import re
from collections.abc import Iterator, Sequence
from dataclasses import dataclass

from cics.choices import KEYS_SHOW, RUNNING, SHOW, Arrow, Choices, State, read_choices
from cics.same import Fault
from cics.scripts import MOST_TURNS
from cics.transcripts import RESTS
from checks.choices_drawn import Script, parts_of, turns_of
from checks.common import Wrong, require

SCREEN_ROW = re.compile(r"ROW \d\d X'[0-9A-F]+'")  # a row of a screen, and an item with its rows, in digits
ITEM, ITEM_ROW = re.compile(r"QUEUE .* ITEM \d+ LENGTH \d+"), re.compile(r"[0-9A-F]{4} [0-9A-F]{2}")
SHORT, AGAIN = 40, 12  # turns of the first terminal that are tried at first, and after each turn of another one
Keys = tuple[int, ...]  # a list of keys, by their numbers


@dataclass(frozen=True)
class End:
    """What a list of keys leads to: its lines as keys and turns, what came of its last key, what the tasks do, the text that is due of it, and
    what all looks show."""

    moves: list[str]
    incidents: list[str]
    tasks: dict[str, str]
    text: list[str]
    looks: list[str]

    def can_press(self, key: str) -> bool:
        return RUNNING not in self.text and self.tasks.get(key.split(" ")[1], "").endswith(("NO TASK", "WAITING FOR INPUT"))


class Lists:
    """Lists of keys of a script, each tried by runs of its own."""

    def __init__(self, script: Script, cicsedf: str, cicslook: str) -> None:
        self.script, self.cicsedf, self.cicslook = script, cicsedf, cicslook
        self.keys = script.keys()
        self.ends: dict[Keys, End | None] = {}

    def end(self, keys: Keys) -> End | None:
        """What a list leads to; None where one of its keys can't be pressed when it comes."""
        if keys not in self.ends:
            before, key = (self.end(keys[:-1]), self.keys[keys[-1] - 1]) if keys else (None, "")
            if not keys:
                self.ends[keys] = self.begun()
            elif before and before.can_press(key):
                self.ends[keys] = self.pressed(before.moves, key)
            else:
                self.ends[keys] = None
        return self.ends[keys]

    def every(self) -> Iterator[Keys]:
        """Each list of at most as many keys as are asked, the shortest first, but those of which a key can't be pressed before the last."""
        lists: list[Keys] = [()]
        for _ in range(self.script.depth + 1):
            yield from lists
            lists = [(*keys, number) for keys in lists if self.end(keys) for number in range(1, len(self.keys) + 1)]

    def begun(self) -> End:
        """What there is before any key."""
        turns = [f"TURN {terminal}" for terminal in self.script.terminals]
        answers = parts_of(self.cicsedf, [*self.script.lines, *self.script.off], turns)[1]
        return self.ended(self.script.off, [], any(line.split(" ")[2] not in RESTS for line in answers))

    def are_told_apart(self) -> bool:
        """Whether looks tell states apart that differ: with one number, and no task that began before and so has another one than a task of its
        terminal can have later."""
        begun = self.end(())
        return self.script.has_one_number and begun is not None and all(task.endswith("NO TASK") for task in begun.tasks.values())

    def pressed(self, before: list[str], key: str) -> End:
        """What a key leads to after other lines."""
        first, *others = self.script.terminals
        for short, again in ((SHORT, AGAIN), (MOST_TURNS + 1, AGAIN), (MOST_TURNS + 1, MOST_TURNS)):
            rounds = [it for other in others for it in (other, *[first] * again)] * short
            turns = [f"TURN {terminal}" for terminal in (*[first] * short, *rounds)]
            answers, screens = parts_of(self.cicsedf, [*self.script.lines, *before], [key, *turns], self.script.screens())[1:3]
            made = made_of(answers[1:], self.script.terminals)
            if made is not None:
                break
        if made is None:
            raise Wrong(f"{key}: turns of another order after {before}")
        is_running, made = len(made) > MOST_TURNS, made[:MOST_TURNS]
        moves = [*before, key, *(" ".join(line.split(" ")[:2]) for line in made)]
        return self.ended(moves, incidents_in([answers[0], *made]), is_running, None if is_running else screens)

    def ended(self, moves: list[str], incidents: list[str], is_running: bool, shown: list[str] | None = None) -> End:
        """What is seen after some lines, by both programs; the screens may be known by `cicsedf` already."""
        script = self.script
        screens = parts_of(self.cicsedf, [*script.lines, *moves], script.screens())[1] if shown is None else shown
        parts = parts_of(self.cicslook, [*script.lines, *moves], ["TASKS"], script.all_looks(), script.sights or script.screens(), script.screens())
        require(parts[4] == screens, f"{screens} by cicsedf, and {parts[4]} by cicslook, after {moves}")
        tasks, looks, text = ([line.removeprefix("> ") for line in part] for part in parts[1:4])
        waits = [re.sub(" TASK [0-9]{7}", "", line) for line in tasks if " WAITING FOR " in line]
        looks = without_numbers(looks) if script.has_one_number else looks
        doing = {line.split(" ")[0]: line for line in tasks}
        return End(moves, incidents, doing, [*waits, *[RUNNING] * is_running, *text], [*looks, *screens])


def without_numbers(looks: list[str]) -> list[str]:
    """What looks show but for tasks' numbers, which are in the fourth word of each EIB too."""
    eibs = {line.split(" ")[1] for line in looks if re.match("AREA .* EIB ", line)}
    return [line[:34] if line[:6] in eibs else re.sub(" (TASK|NUMBER) [0-9]{7}", "", line) for line in looks]


def made_of(answers: list[str], terminals: list[str]) -> list[str] | None:
    """Of turns that were tried those that did something, up to one more than may follow a key. None where one of them isn't the first
    terminal's that could act, or where it isn't seen that none can act after the last."""
    made, resting = list[str](), set[str]()
    for line in answers:
        terminal, reply = line.split(" ")[1:3]
        if reply in RESTS:
            resting.add(terminal)
            continue
        if not resting.issuperset(terminals[: terminals.index(terminal)]):
            return None
        made.append(line)
        resting.clear()
        if len(made) > MOST_TURNS:
            return made
    return made if resting.issuperset(terminals) else None


def incidents_in(lines: list[str]) -> list[str]:
    """How tasks abended, and a key was refused, by what was answered."""
    found: list[str] = []
    for line in lines:
        word, terminal, answer, *rest = line.split(" ")
        if word == "TURN" and answer == "Abended":
            found.append(f"ABENDS {terminal} {rest[0]}")
        elif word == "KEY" and answer not in ("Attached", "Given"):
            found.append(f"ANSWERS {terminal} {answer}")
    return found


# What CHOICES must write, by what it says.


def first_line(choices: Choices) -> str:
    number = " ONE NUMBER" * choices.has_one_number + " NUMBERS SHOW" * choices.numbers_show
    if choices.most is not None:
        return f"CHOICES MORE THAN {choices.most} STATES, ALL OF {choices.depth} KEYS SCREENS {choices.screens}{number}"
    closed = " CLOSED" * choices.is_closed
    return f"CHOICES KEYS {choices.depth} STATES {len(choices.states)} SCREENS {choices.screens}{number}{closed}"


def arrow_lines(arrow: Arrow) -> list[str]:
    return [f"KEY {arrow.key} TO {arrow.to or 'MORE'}", *(it.line() for it in arrow.incidents)]


def written(choices: Choices) -> list[str]:
    """The lines of an answer."""
    lines, came = [first_line(choices)], 0
    for state in choices.states:
        for arrow in state.arrows:
            show = [SHOW] * (state.list_differs or state.keys_differ)
            lines += [f"STATE {state.number}", *arrow_lines(arrow), *show] if arrow.incidents else []
    for state in choices.states:
        lines += [f"STATE {state.number} SCREEN {state.screen}", *([SHOW] if state.list_differs else state.moves)]
        lines += [line for arrow in state.arrows for line in arrow_lines(arrow)]
        lines += [KEYS_SHOW] * state.keys_differ
        lines += state.text if state.screen == came + 1 else []
        came = max(came, state.screen)
    return [f"> {line}" for line in lines]


def in_characters(text: Sequence[str]) -> list[str]:
    """A text without the bytes in digits that a block shows besides: no look of a script shows those of a screen."""
    found, is_item = [], False
    for line in text:
        is_item = ITEM.fullmatch(line) is not None or is_item and ITEM_ROW.match(line) is not None
        if not is_item and not SCREEN_ROW.fullmatch(line):
            found.append(line)
    return found


# How an answer differs from what was tried.


class Walk:
    """The arrows of an answer, followed by each list of keys, beside what the list led to."""

    def __init__(self, lists: Lists, choices: Choices) -> None:
        self.lists, self.choices, self.script = lists, choices, lists.script
        self.at: dict[Keys, int | None] = {}  # the state that a list leads to; None: it isn't written
        self.first: dict[int, Keys] = {}  # of each state the first list that leads there

    def differences(self) -> Iterator[str]:
        yield from self.of_first_line()
        for keys in self.lists.every():
            yield from self.of_list(keys)
        for number, keys in [*self.first.items()]:
            if len(keys) == self.script.depth:
                for key in range(1, len(self.lists.keys) + 1):
                    yield from self.of_list((*keys, key))
        yield from (f"state {state.number}: no list leads there" for state in self.choices.states if state.number not in self.first)
        yield from self.of_screens()
        yield from self.of_looks()
        yield from self.of_count()

    def of_first_line(self) -> Iterator[str]:
        script, choices = self.script, self.choices
        arrows = [arrow for state in choices.states for arrow in state.arrows]
        if choices.has_one_number != script.has_one_number:
            yield "ONE NUMBER is said otherwise than it is asked"
        if choices.most is None and choices.depth != script.depth:
            yield f"{choices.depth} keys, where {script.depth} are asked"
        if choices.most is not None and (choices.most != script.most or choices.depth > script.depth):
            yield f"more than {choices.most} states, all of {choices.depth} keys, where {script.block()[0]} is asked"
        if choices.most is None and choices.is_closed == any(arrow.to is None for arrow in arrows):
            yield f"{'' if choices.is_closed else 'not '}CLOSED"

    def of_list(self, keys: Keys) -> Iterator[str]:
        """How the last arrow of a list differs from what its last key did."""
        before = self.at.get(keys[:-1]) if keys else 1
        if before is None:
            return
        end, arrow = self.lists.end(keys), Arrow(0, 1)
        if keys:
            found = [it for it in self.choices.state(before).arrows if it.key == keys[-1]]
            if bool(found) != bool(end) or len(found) > 1:
                yield f"{keys}: {len(found)} arrows from state {before}, where the key can{'' if end else 't'} be pressed"
            if not found:
                return
            arrow = found[0]
        if end is None:
            return
        self.at[keys] = arrow.to
        if [it.line() for it in arrow.incidents] != end.incidents:
            yield f"{keys}: {end.incidents} come, and the arrow from state {before} has {arrow_lines(arrow)[1:]}"
        if arrow.to is None:
            yield from [f"{keys}: MORE"] if len(keys) <= self.choices.depth else []
        elif not 1 <= arrow.to <= len(self.choices.states):
            yield f"{keys}: there is no state {arrow.to}"
        else:
            yield from self.of_state(keys, end, self.choices.state(arrow.to))

    def of_state(self, keys: Keys, end: End, state: State) -> Iterator[str]:
        """How a state differs from what a list leads to that the arrows lead to it."""
        if state.number not in self.first:
            self.first[state.number] = keys
            if state.number != len(self.first):
                yield f"{keys}: is the first list of state {state.number}, and {len(self.first)} states have one"
            if turns_of(state.moves) != end.moves:
                yield f"{keys}: is the first list of state {state.number}, whose lines are {state.moves}, and not {end.moves}"
        if in_characters(state.text) != in_characters(end.text):
            yield f"{keys}: {end.text} is seen, and of state {state.number} {state.text} is written"
        first = self.lists.end(self.first[state.number])
        if first and first.looks != end.looks:
            yield f"{keys}: leads to state {state.number} as {self.first[state.number]}, and {set(end.looks) ^ set(first.looks)} differs"

    def of_screens(self) -> Iterator[str]:
        """Texts that are the same have one number, in the order in which they come first."""
        numbers: dict[tuple[str, ...], int] = {}
        for number in sorted(self.first):
            state = self.choices.state(number)
            due = numbers.setdefault(tuple(state.text), len(numbers) + 1)
            if state.screen != due:
                yield f"state {number}: screen {state.screen}, and not {due}"
        if len(numbers) != self.choices.screens:
            yield f"{self.choices.screens} screens, and not {len(numbers)}"

    def of_looks(self) -> Iterator[str]:
        """No two states look the same, where looks tell states apart."""
        seen: dict[tuple[str, ...], int] = {}
        for number, keys in self.first.items() if self.lists.are_told_apart() else ():
            end = self.lists.end(keys)
            other = seen.setdefault(tuple(end.looks if end else []), number)
            if other != number:
                yield f"states {other} and {number} look the same"

    def of_count(self) -> Iterator[str]:
        """There are as many states as may be kept, or fewer, and more are said where there are."""
        count, most = len(self.choices.states), self.script.most or 10_000
        ends = [self.lists.end(keys) for keys, state in self.at.items() if state is None]
        found = {*(tuple(end.looks) for end in ends if end)} - {*(tuple(end.looks) for end in map(self.lists.end, self.first.values()) if end)}
        if count > most or (self.choices.most is None and count + len(found) > most):
            yield f"{count} states and at least {len(found)} more, where {most} may be kept"
        if self.choices.most is not None and count + len(ends) <= most:
            yield f"more than {most} states, and by {len(self.at)} lists there are at most {count + len(ends)}"


def failures_of(lists: Lists, lines: list[str]) -> Iterator[str]:
    """How an answer differs from what was tried."""
    try:
        choices = read_choices(lines)
    except Fault as fault:
        yield f"no answer: {fault}"
        return
    if written(choices) != lines:
        yield f"written otherwise: {[pair for pair in itertools.zip_longest(written(choices), lines) if pair[0] != pair[1]][:1]}"
    yield from Walk(lists, choices).differences()
