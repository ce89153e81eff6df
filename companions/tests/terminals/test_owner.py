"""Tests of what the owner of the region asks, without a region."""
import contextlib
import io
import socket
from typing import Any

from cics.terminals.connections import Client
from cics.terminals.data_stream import Painting
from cics.terminals.region import Work
from cics.terminals.terminal import Terminal
from tests.terminals.session import expect, test, tests_of
from cics.terminals.turns import FAULT, IDLE, TAKEN_OVER, Owner


class Screen:
    """A client that has a screen alone, which keeps how often it was painted, and what it was dismissed with."""

    def __init__(self) -> None:
        self.paintings, self.dismissed = 0, ""

    def show(self, painting: Painting, alarm: bool) -> None:
        self.paintings += 1

    def dismiss(self, text: str) -> None:
        self.dismissed = text


BLANK, NONE = ["SCREEN T001"], ["DISPLAY T001 NONE"]  # answers


def expect_asked(work: Work, *asked: tuple[str, Any]) -> None:
    """The owner of the region asks these, each of which is answered so, and then rests."""
    answer = None
    for text, given in asked:
        request = work.send(answer)
        expect("asked", request and request.text, text)
        answer = given() if callable(given) else given
    expect("at last", work.send(answer), None)


def taken(owner: Owner, client: Screen) -> Terminal:
    """The terminal that a client gets."""
    terminal = owner.connect(client)
    assert terminal
    return terminal


def with_screen() -> tuple[Owner, Terminal, Screen, Work]:
    """An owner with a client, which has a terminal."""
    owner, screen = Owner(["T001", "T002"]), Screen()
    terminal, work = taken(owner, screen), owner.work()
    expect_asked(work, ("* T001 is taken", ""), ("SCREEN T001", BLANK))
    return owner, terminal, screen, work


def with_second(owner: Owner, work: Work) -> Terminal:
    """The terminal T002, for a second client."""
    other = taken(owner, Screen())
    expect_asked(work, ("* T002 is taken", ""), ("SCREEN T002", ["SCREEN T002"]))
    return other


ENTER, PF13, PF14, PF24 = b"\x7D\x40\x40", b"\xC1\x40\x40", b"\xC2\x40\x40", b"\x4C\x40\x40"


def entered(text: str) -> bytes:
    """ENTER after a text, on a page with a message."""
    return ENTER + b"\x11\x40\xC1" + text.encode("cp037")


@test
def a_stop_before_its_key() -> None:
    """EDF takes a key that was pressed when the task went on: then it goes on with the task."""
    owner, terminal, screen, work = with_screen()
    owner.press(terminal, PF24)
    expect_asked(work, ("EDF T001 ON", "EDF T001 Started"), ("DISPLAY T001", NONE), ("SCREEN T001", BLANK))
    owner.press(terminal, entered("TALK"))

    def meanwhile() -> str:
        owner.press(terminal, ENTER)
        return "TURN T001 AtCommand"

    expect_asked(work, ("KEY T001 ENTER TALK", "KEY T001 Attached"), ("TURN T001", meanwhile),
                 ("KEY T001 ENTER", "KEY T001 ToEdf"), ("TURN T001", "TURN T001 Performed NORMAL"),
                 ("TURN T001", "TURN T001 Held"), ("DISPLAY T001", ["DISPLAY T001"]))


@test
def a_client_that_is_gone() -> None:
    """What it has pressed isn't given, to another client's task either."""
    owner, terminal, screen, work = with_screen()
    owner.press(terminal, ENTER)
    owner.leave(terminal)
    owner.connect(Screen())
    expect_asked(work, ("* T001 is left", ""), ("* T001 is taken", ""), ("SCREEN T001", BLANK))


@test
def a_look_of_a_client_that_is_gone() -> None:
    """It isn't shown to the one that comes meanwhile."""
    owner, terminal, screen, work = with_screen()
    late = Screen()

    def meanwhile() -> list[str]:
        owner.leave(terminal)
        owner.connect(late, "T001")
        return ["> T001 NO TASK"]

    owner.press(terminal, PF14)
    expect_asked(work, ("TASKS", meanwhile), ("* T001 is left", ""), ("* T001 is taken", ""), ("SCREEN T001", BLANK))
    expect("shown", (late.paintings, terminal.looking, screen.paintings), (1, None, 1))


@test
def a_key_while_a_page_is_painted() -> None:
    """A page that nobody asked for isn't shown where a key comes meanwhile: that was pressed on the page before."""
    owner, terminal, screen, work = with_screen()
    owner.press(terminal, entered("TALK"))
    expect_asked(work, ("KEY T001 ENTER TALK", "KEY T001 Attached"), ("TURN T001", "TURN T001 Waiting"), ("SCREEN T001", BLANK))
    other = with_second(owner, work)

    def meanwhile() -> list[str]:
        expect("paintings", screen.paintings, 2)
        owner.press(terminal, entered("MORE"))
        return ["SCREEN T001", "24|ANOTHER PAGE"]

    def afterwards() -> str:
        expect("paintings", screen.paintings, 2)
        return "KEY T001 Attached"

    owner.press(other, entered("LETS"))
    expect_asked(work, ("KEY T002 ENTER LETS", "KEY T002 Attached"), ("TURN T002", "TURN T002 Ended"),
                 ("SCREEN T002", ["SCREEN T002"]), ("TURN T001", "TURN T001 Ended"), ("SCREEN T001", meanwhile),
                 ("KEY T001 ENTER MORE", afterwards), ("TURN T001", "TURN T001 Ended"), ("SCREEN T001", BLANK))


@test
def turns_between_keys() -> None:
    """Keys without end, each pressed while the one before is answered, don't keep a task from its turns."""
    owner, terminal, screen, work = with_screen()
    other = with_second(owner, work)

    def meanwhile() -> list[str]:
        owner.press(other, PF13)
        return ["SCREEN T002"]

    owner.press(terminal, entered("TALK"))
    owner.press(other, PF13)
    again = [("SCREEN T002", meanwhile), ("TURN T001", "TURN T001 Performed NORMAL")] * 3
    expect_asked(work, ("KEY T001 ENTER TALK", "KEY T001 Attached"), *again, ("SCREEN T002", ["SCREEN T002"]),
                 ("TURN T001", "TURN T001 Ended"), ("SCREEN T001", BLANK))


@test
def a_stop_that_nobody_saw() -> None:
    """The task of a terminal whose client is gone is stopped; EDF is ended from another terminal, and the task goes on."""
    owner, terminal, screen, work = with_screen()
    owner.press(terminal, PF24)
    expect_asked(work, ("EDF T001 ON", "EDF T001 Started"), ("DISPLAY T001", NONE), ("SCREEN T001", BLANK))
    owner.press(terminal, entered("TALK"))

    def leaves() -> str:
        owner.leave(terminal)
        return "TURN T001 AtCommand"

    expect_asked(work, ("KEY T001 ENTER TALK", "KEY T001 Attached"), ("TURN T001", leaves), ("* T001 is left", ""),
                 ("TURN T001", "TURN T001 Held"))
    other = with_second(owner, work)
    owner.press(other, entered("CEDF T001 OFF"))
    expect_asked(work, ("EDF T001 OFF", "EDF T001 Closed"), ("SCREEN T002", ["SCREEN T002"]), ("TURN T001", "TURN T001 Waiting"))


@test
def who_gets_a_terminal() -> None:
    """Unused ones come first, then those left longest; EDF that is on counts as use, and so does a key."""
    owner = Owner([f"T00{at}" for at in range(1, 6)])
    work = owner.work()
    screens = [Screen() for _ in range(9)]
    first, second, third = (taken(owner, screen) for screen in screens[:3])
    expect_asked(work, *(it for name in ("T001", "T002", "T003") for it in ((f"* {name} is taken", ""), (f"SCREEN {name}", BLANK))))
    owner.press(second, entered("TALK"))
    owner.press(first, PF24)
    expect_asked(work, ("KEY T002 ENTER TALK", "KEY T002 Attached"), ("EDF T001 ON", "EDF T001 Started"),
                 ("DISPLAY T001", NONE), ("SCREEN T001", BLANK), ("TURN T002", "TURN T002 Ended"), ("SCREEN T002", BLANK))
    for terminal in (second, first, third):
        owner.leave(terminal)
    names = [taken(owner, screen).name for screen in screens[3:8]]
    expect("terminals", names, ["T003", "T004", "T005", "T002", "T001"])
    expect("a sixth", owner.connect(screens[8]), None)


@test
def an_idle_terminal_is_taken_over() -> None:
    """By its name alone, and after its time; its last client is dismissed, and what that pressed isn't given."""
    owner, terminal, screen, work = with_screen()
    expect("by its name", owner.connect(Screen(), "T001"), None)
    expect("minutes", owner.idle, IDLE)
    owner.idle = 0.0
    other = Screen()
    expect("unnamed", taken(owner, other).name, "T002")
    expect("no other", owner.connect(Screen()), None)
    owner.press(terminal, ENTER)
    late = Screen()
    expect("terminal", owner.connect(late, "T001"), terminal)
    expect("dismissed", (screen.dismissed, other.dismissed, late.dismissed), (TAKEN_OVER, "", ""))
    expect_asked(work, ("* T002 is taken", ""), ("SCREEN T002", ["SCREEN T002"]), ("* T001 is left", ""),
                 ("* T001 is taken", ""), ("SCREEN T001", BLANK))
    expect("paintings", late.paintings, 1)


@test
def faults_of_the_companion() -> None:
    """What can't be: a record without a byte, and an exception while a connection is handled. The others go on."""
    with contextlib.redirect_stderr(io.StringIO()) as reported:
        a_fault_in_the_work()
        a_fault_in_a_handler()
    assert "IndexError" in reported.getvalue() and "ZeroDivisionError" in reported.getvalue()


def a_fault_in_the_work() -> None:
    """It ends its client."""
    owner, terminal, screen, work = with_screen()
    other = with_second(owner, work)
    owner.press(terminal, b"")
    owner.press(other, ENTER)
    expect_asked(work, ("KEY T002 ENTER", "KEY T002 Attached"), ("TURN T002", "TURN T002 Waiting"),
                 ("SCREEN T002", ["SCREEN T002"]), ("* T001 is left", ""))
    expect("dismissed", screen.dismissed, FAULT)


class Stub:
    """A service of one client."""

    def __init__(self) -> None:
        self.clients: list[Client] = []
        self.left: list[str] = []
        self.owner = self

    def leave(self, terminal: Terminal) -> None:
        self.left.append(terminal.name)

    def watch(self, *_: object) -> None:
        pass

    def drop(self, client: Client) -> None:
        self.clients.remove(client)


def a_fault_in_a_handler() -> None:
    """It ends the connection with a text, or without one where that has no terminal."""
    service, (near, far) = Stub(), socket.socketpair()
    client = Client(service, near)  # type: ignore[arg-type]
    service.clients, client.terminal = [client], Terminal("T001")
    client.do(divmod, 1, 0)
    expect("left", (service.left, client.terminal), (["T001"], None))
    expect("text", FAULT in far.recv(4096).decode("cp037"), True)
    client.do(divmod, 1, 0)
    expect("clients", service.clients, [])
    near.close()
    far.close()


load_tests = tests_of(__name__)
