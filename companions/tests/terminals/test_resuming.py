"""Tests of sessions that go on, and of set-ups that begin with keys."""
import os
import re
import signal

from cics.child import read, run
from tests.case import CICSEDF as PROGRAM
from tests.case import CICSLOOK as LOOKER
from tests.terminals.client import LIMITS
from tests.terminals.programs import COUNTS, PSEUDO, RESOURCE, RETURN, TALK, TWO
from tests.terminals.session import Session, expect, expect_page, refused, test, tests_of


def kept(session: Session) -> str:
    return read(session.script).decode()


def killed(session: Session) -> str:
    """The session's file when the companion was killed, which leaves the beginning of a line."""
    session.is_over = True
    session.process.send_signal(signal.SIGKILL)
    session.process.wait(LIMITS.seconds())
    return kept(session) + "KEY T0"


@test
def a_killed_session_goes_on() -> None:
    """A conversation, a stop with an altered register, one that waits, a pseudo-conversation: all is as it was."""
    with Session(TALK, TWO, RESOURCE, PSEUDO, "".join(f"TERMINAL T00{at}\n" for at in range(1, 7))) as session:
        talking, stopped, holding, waiting, asked = (session.terminal() for _ in range(5))
        talking.enter("talk").enter("of cabbages")
        stopped.enter("cedf").enter("two").enter("end", "PF9").enter().enter("", "PF10").enter("", "PF11")
        stopped.move(15, 5).enter("0000abcd").enter("", "PF5")
        holding.enter("hold")
        waiting.enter("take")
        asked.enter("ask")
        pages = [terminal.rows() for terminal in (talking, stopped, holding, waiting, asked)]
        text = killed(session)
    with Session(text, resumes=()) as session:
        expect("new", session.terminal().rows()[23], " TERMINAL T006")
        terminals = [session.terminal(f"IBM-3279-2-E@T00{at}") for at in range(1, 6)]
        talking, stopped, holding, waiting, asked = terminals
        reported = [re.fullmatch(r"(T00\d) goes on: c3270 (T00\d)@127.0.0.1:\d+", session.output.readline().strip()) for _ in range(5)]
        expect("reported", [it and it[1] for it in reported], [f"T00{at}" for at in range(1, 6)])
        pages[1][23], pages[4][23] = " STOP 1 OF 2", pages[4][23] or " TERMINAL T005"
        expect("pages", [terminal.rows() for terminal in terminals], pages)
        expect_page(talking.enter("and kings"), {1: "AND KINGS", 24: " WAITING"})
        expect("register", stopped.enter("", "PF11").rows()[14][:12], "R00 0000ABCD")
        expect("marked", stopped.attributes[14 * 80 + 3], 0xC8)
        expect("stops", stopped.enter("ends", "PF9").rows()[22], " ENDS IS NO STOP CONDITION. STILL: END")
        expect("older", stopped.enter("", "PF10").rows()[23], " STOP 1 OF 2")
        expect_page(holding.enter("go on"), {})
        expect_page(waiting.wait_painted(), {1: "TAKEN"})
        expect_page(asked.enter("me"), {1: "ME", 24: " WAITING"})
        expect("beginning", kept(session).startswith(text.removesuffix("KEY T0")), True)


@test
def a_killed_region_goes_on() -> None:
    with Session(TALK, is_whole=False, ends_itself=True, status=1) as session:
        terminal = session.terminal().enter("talk").enter("to me")
        os.kill(session.child(), signal.SIGKILL)
        while "REGION ENDED" not in terminal.rows()[23]:
            terminal.take_screen()
        terminal.press()
        session.process.wait(LIMITS.seconds())
        text = kept(session)
    with Session(text, resumes=()) as session:
        terminal = session.terminal("IBM-3279-2-E@T001")
        expect_page(terminal, {1: "TO ME", 24: " WAITING"})
        expect("digests", sum("SHA-256" in line for line in kept(session).split("\n")), 1)
        expect_page(terminal.enter("more"), {1: "MORE", 24: " WAITING"})


@test
def an_ended_session_goes_on_twice() -> None:
    """What ended in order goes on, with a comment for each digest; another transcript than the one that was kept doesn't."""
    with Session(TALK) as session:
        session.terminal().enter("talk one")
        session.end()
        text = kept(session)
    for word in ("two", "three"):
        with Session(text, resumes=()) as session:
            expect_page(session.terminal("IBM-3279-2-E@T001").enter(word), {1: word.upper(), 24: " WAITING"})
            session.end()
            text = kept(session)
    expect("digests", text.count("SHA-256"), 3)
    expect("altered", refused_to_resume(text.replace("TALK ONE", "TALK NOW")), "the transcript isn't the one that the session ended with")
    cut = text.replace("KEY T001 ENTER THREE\n", "")
    expect("shorter", refused_to_resume(cut), "the transcript isn't the one that the session ended with")
    expect("unended", refused_to_resume(text + "SOURCE X\n"), f"line {text.count(chr(10)) + 1}: the block isn't ended by a line /*")
    expect("bad line", refused_to_resume(text + "HELLO\n"), f"line {text.count(chr(10)) + 1}: BadLine")


def refused_to_resume(text: str, *options: str, status: int = 1) -> str:
    """What is reported of a session that doesn't go on."""
    return refused(text, "--resume", options=options, status=status).removeprefix("setup.script: ").strip()


@test
def going_back() -> None:
    """The session is cut in front of the last keys, of whatever terminal; the file that was kept stays."""
    with Session(COUNTS, TALK) as session:
        first, second = session.terminal(), session.terminal()
        first.enter("put one")
        second.enter("talk of it")
        first.enter("put two")
        session.end()
        text = kept(session)
    for back, items in (("1", 1), ("2", 1), ("3", 0)):
        with Session(text, resumes=("--back", back)) as session:
            rows = session.terminal("IBM-3279-2-E@T001").enter("cebr kept").rows()
            expect("items", sum(row.startswith(" ITEM ") for row in rows), items)
            waiting = session.terminal("IBM-3279-2-E@T002").rows()
            expect("talking", waiting[0], "TALK OF IT" if back == "1" else "")
            expect("the old one", read(session.setup) == text.encode(), True)
    expect("too far", refused_to_resume(text, "--back", "4", status=2), "there are only 3 keys to go back")


@test
def set_ups_with_keys() -> None:
    """A queue is filled before anybody comes; RUN is kept as the turns that it did; what is refused is reported."""
    keys = "TERMINAL T001\nTERMINAL T002\nKEY T001 ENTER PUT ONE\nRUN T001\n* two\nKEY T001 ENTER PUT TWO\nRUN T001 1\n"
    others = "KEY T001 PF3\nRUN T001 4096\nKEY T002 ENTER NONE\nKEY T002 ENTER TALK\nTURN T002\nKEY T001 ENTER PUT THREE\n"
    with Session(COUNTS, TALK, keys, others, is_verbatim=False) as session:
        number = (COUNTS + TALK + keys).count("\n") + 1
        reported = {number: "KEY T001 AlreadyHeldInput", number + 2: "KEY T002 NoSuchTransaction"}
        expect("reported", session.reported[:-1], [f"{session.setup}: line {at}: {answer}" for at, answer in reported.items()])
        text = kept(session)
        expect("runs", re.findall("^RUN", text, re.M), [])
        begun = text.partition("* T00")[0].rpartition("SCREEN @@@@\n")[0].encode()
        ran = [run([PROGRAM], begun), run([LOOKER], read(session.setup))]
        turns = [re.findall(b"^(?:KEY|TURN) .*", it.out, re.M) for it in ran]
        expect("turns", turns[0], turns[1])
        first = session.terminal()
        expect_page(first, {24: " TERMINAL T001"})
        rows = first.enter("cebr kept").rows()
        expect("items", [row[17:] for row in rows if row.startswith(" ITEM ")], ["'PUT ONE'", "'PUT TWO'", "'PUT THREE'"])
        expect_page(session.terminal(), {1: "TALK", 24: " WAITING"})
    with Session(RETURN, "TERMINAL T001\nKEY T001 ENTER RET1\n") as session:
        expect_page(session.terminal(), {24: " TERMINAL T001"})


load_tests = tests_of(__name__)
