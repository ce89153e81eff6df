"""Tests of what a session begins with: looks are refused, what cics-run writes is a set-up, and sources need none."""
import tempfile

from cics.cli import Failure
from cics.scripts import OF_CICSLOOK
from cics.terminals.setup import SetUp
from tests.calling import called, folder_of
from tests.case import PROGRAMS
from tests.terminals.programs import RETURN
from tests.terminals.session import Session, expect, expect_page, refused, test, tests_of
from tests.test_same import SHOWER

BLOCKS = {"FAULTS": "FAULTS P\n/*\n", "ORDERS": "ORDERS\n/*\n", "WATCH": "WATCH 001000 4\n", "TASKS": "TASKS\n", "HELP": "HELP\n"}


def made(*words: str) -> str:
    """The script that cics-run makes of the program, its queue and words."""
    with folder_of({"s.asm": SHOWER, "q": "ONE\nTWO\n"}) as folder:
        return called("cics-run", ["s.asm", "--script", "--queue", "Q=q", *words], folder).out.decode()


@test
def looks_are_refused() -> None:
    """A session with a look wouldn't be a script of cicsedf."""
    for word in OF_CICSLOOK:
        if word != "RUN":
            for text in (BLOCKS.get(word, f"{word} T001\n"), BLOCKS.get(word, f"{word}\n").lower()):
                try:
                    SetUp("setup.script", RETURN + text)
                    raise AssertionError(text)
                except Failure as why:
                    expect(text, (str(why).partition(", ")[0], why.status), (f"setup.script: line 7: {word} is a look", 1))
    assert refused(RETURN + "TASKS\n").startswith("setup.script: line 7: TASKS is a look")


@test
def a_script_of_keys() -> None:
    """What cics-run writes with keys is a set-up; the terminal that loaded the queue is nobody's."""
    with Session(made("--key", "SHOW"), is_verbatim=False) as session:
        expect_page(session.terminal(), {1: "TWO", 24: " TERMINAL T001"})
        late = session.terminal()
        expect("a second one", late.rows()[23], " ALL TERMINALS ARE TAKEN")
        session.terminals.remove(late)
        late.close()


@test
def a_script_without_keys() -> None:
    script = made()
    expect("$QLD", "$QLD" in script, False)
    with Session(script, is_verbatim=False) as session:
        first, second = session.terminal(), session.terminal()
        expect_page(first, {24: " TERMINAL T001"})
        expect_page(second, {24: " TERMINAL T002"})
        expect_page(second.enter("show"), {1: "TWO"})


@test
def sources_alone() -> None:
    options = ["--tran", "X=SHOWER"]
    with Session(sources={"s.asm": SHOWER, "q": "ONE\nTWO\n"}, options=[*options, "--queue", "Q=/dev/null"]) as session:
        expect("T001", session.terminal().enter("x").rows()[23][:15], " ABENDED AEYH  ")
    with tempfile.NamedTemporaryFile("w", suffix=".data") as data:
        data.write("ONE\nTWO\n")
        data.flush()
        with Session(sources={"s.asm": SHOWER}, options=[*options, "--queue", f"Q={data.name}"]) as session:
            expect_page(session.terminal().enter("x"), {1: "TWO"})


@test
def faulty_sources() -> None:
    with folder_of({"s.asm": SHOWER.replace("=H'8'", "NOWHERE")}) as folder:
        ended = called("cics-terminals", ["s.asm", *PROGRAMS], folder)
    expect("reported", ended, (1, b"", b"s.asm:5:20: UndefinedSymbol: NOWHERE\n"))


load_tests = tests_of(__name__)
