"""EDF is begun and ended at each moment of some examples, whose stops are left by ENTER; without the
lines of EDF itself the transcript must be the example's."""
from collections import Counter
from collections.abc import Iterator
from functools import partial

from cics.child import Child, Ended
from checks.common import Case, Check, Counts, require
from checks.examples import actions, wanted

EXAMPLES = ["return", "cases/two-terminals", "cases/exit-taken-once", "cases/getmain-and-freemain", "cases/queue-read-by-two", "cases/receive-waits"]


class Session(Child):
    """The program as an operator has it, whose stops of EDF are counted and left."""

    stops = 0

    def ask_region(self, line: str) -> list[str]:
        """What the region answers to a line: stops of EDF in front of it are counted, and left by ENTER."""
        key = f"KEY {line.split()[1]}"
        answer = self.ask(line)
        while answer and answer[0].endswith((" Held", " ToEdf")):
            self.stops += 1
            reported = self.ask(f"{key} ENTER")
            if reported != [f"{key} ToEdf"]:
                return reported
            answer = self.ask(line)
        return answer


def tried(program: str, name: str, terminal: str, begin: int, end: int) -> Counts:
    """EDF is begun in front of one event of an example and ended in front of another: the rest must be as written."""
    head, events = actions(name)
    session = Session([program])
    with session:
        reported = session.ask(*head)
        for at, line in enumerate(events):
            if at == begin:
                require(session.ask(f"EDF {terminal} ON") == [f"EDF {terminal} Started"], "EDF isn't begun")
            if at == end:
                require(session.ask(f"EDF {terminal} OFF") == [f"EDF {terminal} Closed"], "EDF isn't ended")
            reported += session.ask_region(line)
        ended = session.end()
    require(ended == Ended(0, b"", b""), str(ended))
    require(reported == wanted(name).lines(), "without the lines of EDF it differs")
    return Counter({"stops met by a key or a turn": session.stops})


def cases(program: str) -> Iterator[Case]:
    """Where EDF begins and ends at each terminal of each example."""
    for name in EXAMPLES:
        _, events = actions(name)
        step = max(1, len(events) // 12)
        for terminal in sorted({line.split()[1] for line in events}):
            for begin in range(0, len(events), step):
                for end in range(begin + 1, len(events) + 2, step):
                    what = f"{name}, EDF {terminal} ON before event {begin + 1}, OFF before {end + 1}"
                    yield Case(what, partial(tried, program, name, terminal, begin, end))


def main(words: list[str]) -> int:
    check = Check(__name__, __doc__, words, "cicsedf")
    return check.report(cases(check.program()), {"stops met by a key or a turn": 1})
