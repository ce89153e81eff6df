"""Tests of several terminals."""
import concurrent.futures
import time

from tests.terminals.client import Kind, RawTerminal
from tests.terminals.programs import LOOP, RESOURCE, RETURN, TALK
from tests.terminals.session import Session, connected, expect, expect_page, expect_refusal, rest, test, test_with_each, tests_of
from tests.terminals.test_stops import XEDF


@test
def sixteen_at_once() -> str:
    """Sixteen converse at once, fifteen others don't finish their negotiation, and a seventeenth terminal is reported so."""
    with Session(TALK) as session:
        idle = [connected(session) for _ in range(15)]
        terminals = [session.terminal() for _ in range(16)]
        took, begun = [], time.monotonic()
        with concurrent.futures.ThreadPoolExecutor(16) as pool:
            for times in pool.map(converse, terminals, range(16)):
                took += times
        seconds = time.monotonic() - begun
        expect_refusal(session, "IBM-3279-2-E", " ALL TERMINALS ARE TAKEN")
        for connection in idle:
            connection.close()
        return f"{len(took) / seconds:.0f} keys a second, median {sorted(took)[len(took) // 2] * 1000:.1f} ms"


def converse(terminal: RawTerminal, number: int) -> list[float]:
    took = []
    terminal.enter("talk")
    for count in range(25):
        begun = time.monotonic()
        expect_page(terminal.enter(f"{number} says {count}"), {1: f"{number} SAYS {count}", 24: " WAITING"})
        took.append(time.monotonic() - begun)
    return took


@test
def dropped_and_taken_back() -> None:
    """A terminal whose client is gone keeps its task; it is given out last, or by its name."""
    with Session("TERMINAL A1\nTERMINAL B2\nTERMINAL C3\n", TALK) as session:
        first = session.terminal()
        first.enter("talk").enter("of cabbages").type("and kings").press().close()
        second = session.terminal()
        expect_page(second, {24: " TERMINAL B2"})
        session.terminal("IBM-3278-2@A1").close()
        expect_page(session.terminal(), {24: " TERMINAL C3"})
        third = session.terminal("IBM-3278-2@a1")
        expect("screen", third.rows()[23], " WAITING")
        expect_refusal(session, "IBM-3278-2@B2", " TERMINAL B2 IS TAKEN, OR THERE IS NONE OF THIS NAME")
        expect_page(third.enter("and queens"), {1: "AND QUEENS", 24: " WAITING"})


@test_with_each
def a_terminal_that_is_taken_over(make: Kind) -> None:
    """Where it is idle, by its name; its task goes on with the newcomer, and the last user is shown so."""
    with Session(TALK, options=["--idle", "0"]) as session:
        first = session.terminal().enter("talk").enter("of cabbages").type("and kings")
        second = session.made(make, "IBM-3279-2-E@T001")
        expect_page(second, {1: "OF CABBAGES", 24: " WAITING"})
        expect_page(first.wait_painted(), {24: " ANOTHER HAS TAKEN OVER THIS TERMINAL, WHICH WAS IDLE"})
        expect("the end", rest(first.press().socket), b"")
        expect_page(second.enter("and queens"), {1: "AND QUEENS", 24: " WAITING"})


@test_with_each
def a_terminal_by_its_name(make: Kind) -> None:
    with Session(TALK) as session:
        expect_page(session.made(make, "IBM-3279-2-E@T007"), {24: " TERMINAL T007"})
        expect_page(session.made(make), {24: " TERMINAL T001"})
        large = session.made(make, "IBM-DYNAMIC@T003")
        expect_page(large.enter("talk " + "y" * 1600).enter("on"), {1: "ON", 24: " WAITING"})


@test
def what_another_releases() -> None:
    """A waiting terminal is painted when another lets it go on, and its waiting isn't tried before."""
    with Session(RESOURCE, RETURN) as session:
        first, second = session.terminal(), session.terminal()
        expect_page(first.enter("hold"), {24: " WAITING"})
        expect_page(second.enter("take"), {24: " WAITING"})
        tries = session.lines().count("TURN T002")
        expect_page(second.enter("more"), {24: " AN INPUT IS HELD ALREADY"})
        expect("tries", session.lines().count("TURN T002"), tries)
        second.type("being typed")
        expect_page(first.enter("go on"), {})
        expect_page(second.wait_painted(), {1: "TAKEN"})


@test
def a_loop_of_suspends() -> None:
    """It is paused, goes on at any key, is caught by PF24 and ended by PF12; and one that waits is tried now and then."""
    with Session(LOOP, RESOURCE) as session:
        first, second, third = session.terminal(), session.terminal(), session.terminal()
        second.enter("hold")
        third.enter("take")
        for key in ("", "PF3", "PF13", "CLEAR"):
            expect_page(first.enter("" if key else "loop", key or "ENTER"), {24: " STILL RUNNING: ANY KEY GOES ON"})
        lines = session.lines()
        expect("turns", lines.count("TURN T001"), 8000)
        assert 8000 // 70 < lines.count("TURN T003") <= 8000 // 64 + 5, lines.count("TURN T003")
        expect("keys", [line for line in lines if line.startswith("KEY T001")], ["KEY T001 ENTER LOOP"])
        expect("paintings of the waiting", lines.count("SCREEN T003"), 2)
        expect("stop", first.enter("", "PF24").rows()[1:3], ["STATUS ABOUT TO EXECUTE COMMAND", "COMMAND SUSPEND"])
        expect_page(first.enter("", "PF12"), XEDF)


load_tests = tests_of(__name__)
