"""Tries every list of keys of 20 drawn scripts, and of three programs of the examples, by a run of its own, and sees that CHOICES leads where
these lead. Drawn scripts have one or two terminals, programs that ask again, name the transaction that comes next, count in a COMMAREA, share a
queue, a resource and the common work area, abend, or never rest; and two to ten keys. CHOICES is asked for lists of at most two to four keys,
or for fewer states than there are. `cicsedf` presses the keys of each list, and after each state's list one more, and makes the turns; where
a key can be pressed, and what all looks show at the end, `cicslook` says without CHOICES. Each list's arrows must lead to a state that shows
what is seen there, with its abends and refused keys on the way; each state's list must be the first that leads there; no two states may look
the same by all looks, with one number and where no task began before; and the answer must be written as its page says. With --test it sees,
on changed answers to the same scripts, that each kind of change is told.

Of the three programs CHOICES is asked for lists of at most three keys: five keys of `ordent` have 8 states, four of `browse` (lesson 12) 7, and
five of `stkbrws` 5. Their 156, 85 and 156 lists have as many different ends by all looks, which the check sees too.

--count N are drawn (20).
"""
import copy
from collections import Counter
from functools import partial

from cics.choices import read_choices
from checks.choices_changed import CHANGES
from checks.choices_drawn import EXAMPLES, script_of
from checks.choices_tried import Lists, failures_of, written
from checks.common import Case, Check, Counts, Wrong, require

SCRIPTS, SHOWN = 20, 5  # drawn scripts, and differences shown of one


def tried(cicsedf: str, cicslook: str, name: str) -> Counts:
    """A script: CHOICES must lead where its lists lead."""
    script = script_of(name)
    lines, lists = script.answered(cicslook), Lists(script, cicsedf, cicslook)
    failures = list(failures_of(lists, lines))
    if failures:
        raise Wrong(f"{len(failures)} differences", *script.lines, *script.block(), *failures[:SHOWN])
    choices = read_choices(lines)
    arrows = [arrow for state in choices.states for arrow in state.arrows]
    found = [(keys, end) for keys, end in lists.ends.items() if end]
    waits = any(" WAITING FOR RESOURCE " in task for _, end in found for task in end.tasks.values())
    looks = {tuple(end.looks) for keys, end in found if len(keys) <= choices.depth}
    if name in EXAMPLES:
        require(len(choices.states) == len(looks) == EXAMPLES[name], f"{len(choices.states)} states, and {len(looks)} different ends")
    return Counter({"lists": len(found), "keys that can't be pressed": len(lists.ends) - len(found), "with a wait for a resource": int(waits),
                    "states": len(choices.states), "screens": choices.screens, "arrows": len(arrows),
                    "incidents": sum(len(arrow.incidents) for arrow in arrows), "closed": int(choices.is_closed),
                    "cut": int(choices.most is not None), "still running": sum(state.is_running() for state in choices.states)})


def told(cicsedf: str, cicslook: str, name: str) -> Counts:
    """A script whose answer is changed: each change must be told."""
    script = script_of(name)
    lines, lists = script.answered(cicslook), Lists(script, cicsedf, cicslook)
    counts, choices = Counts(), read_choices(lines)
    for change in CHANGES:
        changed = copy.deepcopy(choices)
        if not change(changed, lists):
            continue
        require(any(failures_of(lists, written(changed))), f"{change.__name__} isn't told")
        counts[change.__name__.replace("_", " ")] += 1
    left_out = [line for at, line in enumerate(lines) if at != 1]
    require(any(failures_of(lists, left_out)), "a line left out isn't told")
    return counts


def main(words: list[str]) -> int:
    numbers = {"count": (SCRIPTS, "so many drawn scripts")}
    check = Check(__name__, __doc__, words, "cicsedf", "cicslook", numbers=numbers, flags={"test": "see that changed answers are told"})
    is_test = check.has("test")
    attempt = partial(told if is_test else tried, check.program(), check.program(1))
    names = [*EXAMPLES, *(f"script {number}" for number in range(1, check.number("count") + 1))]
    cases = [Case(name, partial(attempt, name)) for name in names]
    least = [change.__name__.replace("_", " ") for change in CHANGES] if is_test else [
        "lists", "keys that can't be pressed", "with a wait for a resource", "states", "incidents", "closed", "cut", "still running"]
    return check.report(cases, dict.fromkeys(least, 1))
