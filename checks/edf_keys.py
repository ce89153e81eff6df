"""Presses each key at each kind of stop. It is EDF's, and what is shown, and what the next turn is answered, is as written."""
from collections import Counter
from collections.abc import Iterator
from dataclasses import dataclass
from functools import partial

from cics.child import Ended
from checks.common import Case, Check, Counts, Wrong, require
from checks.edf_anywhere import Session
from checks.examples import actions

KEYS = ["ENTER", "CLEAR", "PA1", "PA2"] + [f"PF{k}" for k in range(1, 13)]
LEAVES = {"ENTER", "PF3", "PF4"}  # these end the stop
ENDED = [  # what is shown of a task that PF12 ended
    "DISPLAY T001",
    "01|TRANSACTION       PROGRAM           TASK          TERMINAL T001",
    "02|STATUS TASK ABENDED",
    "21|ABEND XEDF",
    "24|ENTER GO ON  PF3 END  PF4 SUPPRESS  PF5 STORAGE  PF6 USER  PF9 STOP  PF10 BACK",
]
SHORTEST = {"Before": "AtCommand", "After": "Performed", "Exit": "TookExit", "Ended": "Ended", "Abended": "Abended"}
EXAMPLE = {"Before": "return", "After": "cases/popped-handles", "Exit": "cases/exit-taken-once", "Ended": "return", "Abended": "cases/exit-taken-once"}


def stop(session: Session, kind: str) -> None:
    """Goes on with a session up to a stop of a kind."""
    head, events = actions(EXAMPLE[kind])
    session.ask(*head, "EDF T001 ON")
    for line in events:
        reported = session.ask_region(line)
        if reported and reported[0].split()[2:3] == [SHORTEST[kind]]:
            return
    raise Wrong(f"{EXAMPLE[kind]} never stops so")


@dataclass
class Before:
    """What was shown before a key: the page, the one before it, and the screen; and whether the task is over."""

    page: list[str]
    older: list[str]
    screen: list[str]
    is_over: bool

    def is_followed_by(self, key: str, shown: list[str]) -> bool:
        """Whether what is shown after a key is due."""
        if key in LEAVES:
            return shown == ["DISPLAY T001 NONE"]
        if key == "PF12" and not self.is_over:
            return shown == ENDED
        if key == "PF5" and not self.is_over:
            return shown[1:] != [] and shown[1].startswith("01|WORKING STORAGE ")
        older = self.page if self.older == ["DISPLAY T001 NONE"] else self.older
        return shown == {"PF5": ["DISPLAY T001"], "PF6": ["DISPLAY T001", *self.screen[1:]], "PF10": older}.get(key, self.page)


def tried(program: str, kind: str, key: str) -> Counts:
    """A key at a stop must be EDF's, show what is due, and hold the task or let it go."""
    is_over = kind in ("Ended", "Abended")
    session = Session([program])
    with session:
        stop(session, kind)
        before = Before(session.ask("DISPLAY T001"), session.ask("DISPLAY T001 1"), session.ask("SCREEN T001"), is_over)
        reported = session.ask(f"KEY T001 {key}" + (" END" if key == "PF9" else ""))
        shown = session.ask("DISPLAY T001")
        turn = session.ask("TURN T001")
        ended = session.end()
    is_held = turn == ["TURN T001 Idle" if is_over or key == "PF12" else "TURN T001 Held"]
    is_due = before.is_followed_by(key, shown) and is_held == (is_over or key not in LEAVES)
    well = reported == ["KEY T001 ToEdf"] and is_due and ended == Ended(0, b"", b"")
    require(well, f"{reported}, {shown[:2]}, then {turn}, {ended}")
    return Counter()


def cases(program: str) -> Iterator[Case]:
    for kind in SHORTEST:
        for key in KEYS:
            yield Case(f"{key} at {kind}", partial(tried, program, kind, key))


def main(words: list[str]) -> int:
    check = Check(__name__, __doc__, words, "cicsedf")
    return check.report(cases(check.program()))
