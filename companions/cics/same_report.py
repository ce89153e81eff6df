"""What cics-same says of the two versions, by a script's keys, by ORDERS and by CHOICES."""
from collections.abc import Sequence
from dataclasses import dataclass, field, replace

from cics.choices import Question, choices_of
from cics.cli import DONE, FOUND, UNRUN, Failure, has_looks
from cics.cover.changes import Ran, Standing, standing
from cics.orders import Asked, Orders, asked_of, count_looks, counted_by_lists, report_of_orders, searched, with_looks
from cics.queues import Loader
from cics.same import Depth, Fault, compared_of, count_keys, report_of, seen
from cics.same_choices import Together, compared_by, counted, report_of_difference, same_by, why_unknown
from cics.same_queues import Queues, queues_compared
from cics.scripts import EVENTS, Action
from cics.sides import Side, running

BY_ORDERS = "compared of each outcome: abends, refused keys, tasks that wait, what the block looks at, and all queues by their bytes"
OF_ORDERS = "what is run was counted by the list of moves to each outcome alone, not by every order"


@dataclass(frozen=True)
class Report:
    """Whether nothing differs, the lines on it, what that stands on where it is known, and what nobody could look at."""

    is_same: bool
    lines: list[str]
    standing: Standing | None = None
    unseen: list[str] = field(default_factory=list)

    def status(self, *, even_unrun: bool) -> int:
        if not self.is_same:
            return FOUND
        is_run = even_unrun or self.standing is None or self.standing.is_all_run()
        return DONE if is_run and not self.unseen else UNRUN

    def as_object(self) -> dict[str, object]:
        found = {"changed": self.standing.changed, "never": self.standing.never, "unseen": self.unseen} if self.standing else {}
        return {"outcome": "same" if self.is_same else "differs", "lines": self.lines, **found}


def both_asked(sides: list[Side]) -> list[Asked]:
    """The last ORDERS of two scripts, which must be one."""
    found = []
    for side in sides:
        asked = asked_of(side.steps)
        if asked is None:
            raise Failure(f"{side.name}: the script has no ORDERS")
        found.append(asked)
    if found[0].block.lines != found[1].block.lines:
        raise Failure("the two scripts have different ORDERS")
    return found


@dataclass(frozen=True)
class Both:
    """The two sides with the program that runs them, and their test data."""

    sides: list[Side]
    program: str
    loaders: list[Loader]

    def names(self) -> list[str]:
        return [side.name for side in self.sides]

    def stands(self, old: Sequence[Ran], new: Sequence[Ran]) -> Standing:
        return standing([old, new], [side.steps for side in self.sides])


@dataclass(frozen=True)
class ByOrders(Both):
    """What the last ORDERS of the two finds."""

    asked: list[Asked]

    def found(self, looks: list[str]) -> list[Orders]:
        """What each finds, with more to be seen."""
        found = []
        for side, asked in zip(self.sides, self.asked):
            with running(side.name):
                found.append(searched([self.program], with_looks(asked, looks) if looks else asked, self.loaders))
        return found

    def difference(self, orders: list[Orders]) -> tuple[bool, list[str]]:
        return report_of_orders(self.asked[0].block.line, [*zip(self.names(), orders)])

    def queues(self, looks: list[str]) -> tuple[list[str] | None, list[Sequence[str]]]:
        """How they differ by looks at queues, and what is seen."""
        orders = self.found(looks)
        is_same, lines = self.difference(orders)
        return None if is_same else lines, [outcome.text for one in orders for outcome in one.outcomes]

    def report(self) -> Report:
        orders = self.found([])
        is_same, lines = self.difference(orders)
        queues = queues_compared(self.queues, count_looks(self.asked[0]), at_once=True) if is_same else Queues(lines)
        if queues.difference:
            return Report(False, queues.difference)
        old, new = (counted_by_lists([self.program], asked, found, self.loaders) for asked, found in zip(self.asked, orders))
        stands = self.stands(old.ran, new.ran)
        left = [f"and of {old.left + new.left} lists it wasn't"] if old.left + new.left else []
        counts = ", ".join([OF_ORDERS, *left])
        return Report(True, [f"{lines[0]}; {stands.said}", *stands.lines, counts, BY_ORDERS, *queues.unseen], stands, queues.unseen)


def orders_compared(sides: list[Side], program: str, loaders: list[Loader]) -> Report:
    """Compares what the last ORDERS of two scripts find, and queues by their bytes."""
    return ByOrders(sides, program, loaders, both_asked(sides)).report()


@dataclass(frozen=True)
class ByChoices(Both):
    """What CHOICES finds at the ends of the two scripts."""

    question: Question

    def befores(self) -> list[list[Action]]:
        return [[step for step in side.steps if step.word in EVENTS] for side in self.sides]

    def together(self, question: Question) -> Together:
        found = []
        for name, before in zip(self.names(), self.befores()):
            with running(name):
                found.append(choices_of([self.program], before, question.block(), self.loaders))
        old, new = found
        return Together(old, new)

    def queues(self, looks: list[str]) -> tuple[list[str] | None, list[Sequence[str]]]:
        """How they differ by looks at queues, and what is seen."""
        together = self.together(replace(self.question, seen=looks))
        found, states = together.first(), [*together.old.states, *together.new.states]
        return report_of_difference(found, self.question.keys()) if found else None, [state.text for state in states]

    def report(self) -> Report:
        keys, names, together = self.question.keys(), self.names(), self.together(self.question)
        if found := together.first():
            return Report(False, report_of_difference(found, keys))
        if why := why_unknown(together, names, keys):
            raise Fault(why)
        queues = queues_compared(self.queues, at_once=False)
        if queues.difference:
            return Report(False, queues.difference)
        old, new = (counted([self.program], before, answer, keys, self.loaders) for before, answer in zip(self.befores(), (together.old, together.new)))
        if old.front and (lines := report_of(old.front, new.front)):
            return Report(False, lines)
        stands = self.stands(old.ran, new.ran)
        said = f"{same_by(together, names, len(keys))}; {stands.said}"
        return Report(True, [said, *stands.lines, *compared_by(self.question, old.left + new.left), *queues.unseen], stands, queues.unseen)


def choices_compared(sides: list[Side], program: str, loaders: list[Loader], question: Question) -> Report:
    """Compares what CHOICES finds of two scripts, at their ends, and queues by their bytes."""
    same_keys(sides)
    return ByChoices(sides, program, loaders, question).report()


def same_keys(sides: list[Side]) -> None:
    old, new = ([step.lines[0] for step in side.steps if step.word == "KEY"] for side in sides)
    if old != new:
        raise Failure("the two scripts have different keys")


def compared(sides: list[Side], program: str, loaders: list[Loader], depth: Depth) -> Report:
    same_keys(sides)
    runs = []
    for side in sides:
        with running(side.name):
            runs.append(seen([program], side.steps, loaders, depth, counts=has_looks(program)))
    old, new = runs
    differing = report_of(old.pages, new.pages)
    if differing:
        return Report(False, differing)
    stands = standing([old.ran, new.ran], [side.steps for side in sides])
    count = count_keys(old.pages)
    first = f"same after {count} key{'s' if count != 1 else ''}; {stands.said}"
    return Report(True, [first, *stands.lines, compared_of(depth)], stands)
