"""Tests of looks at a terminal."""
import random
import re

from cics.child import TOP
from cics.terminals.looks import LOOKS, is_look, look_of
from tests.terminals.client import RawTerminal
from tests.terminals.programs import DIVIDES, FIELDS, JOBS, LOOP, PSEUDO, RET1_IMAGE, TALK
from tests.terminals.session import Session, expect, expect_page, test, tests_of

BACK = " CLEAR: THE SCREEN AS IT WAS"


def bright_rows(terminal: RawTerminal, rows: list[str]) -> list[str]:
    """The rows of a page that are bright, above the last two."""
    return [rows[at // 80] for at, attribute in terminal.attributes.items() if attribute == 0xF8 and at < 1760]


@test
def a_look_that_is_typed() -> None:
    """Its lines are a page, and CLEAR paints the screen as it was. The session has nothing of it."""
    with Session(JOBS, RET1_IMAGE) as session:
        terminal = session.terminal()
        terminal.enter("jobs").enter("", "CLEAR").enter("none")
        before = terminal.rows()
        lines = len(session.lines())
        expect_page(terminal.enter("queues", "PF14"), {1: " QUEUE 'JOBS' ITEMS 2 BYTES 25 READ 0", 24: BACK})
        expect_page(terminal.enter("queue jobs", "PF14"), {1: " QUEUE 'JOBS' ITEMS 2 BYTES 25 READ 0",
                    2: " ITEM 1 LENGTH 12 'OIL THE PUMP'", 3: " ITEM 2 LENGTH 13 'SHUT THE GATE'", 24: BACK})
        for key in ("ENTER", "PF1", "PF13", "PA1", "PF19", "PF20"):
            expect("rows", terminal.enter("", key).rows()[1], " ITEM 1 LENGTH 12 'OIL THE PUMP'")
        expect("refused", terminal.enter("queue jobs 0", "PF14").rows()[23], " NO SUCH LOOK: QUEUE JOBS 0")
        expect("rows", terminal.enter("", "CLEAR").rows(), before)
        expect("lines", [line for line in session.lines()[lines - 1 :] if line], [])
        expect("refused", terminal.enter("faults x", "PF14").rows()[23], " NO SUCH LOOK: FAULTS X")
        expect("refused", terminal.enter("run t001", "PF14").rows()[23], " NO SUCH LOOK: RUN T001")


@test
def pages_of_a_look() -> None:
    """PF19 and PF20 leaf in it; long lines go on in the next row; EDF is begun from it."""
    with Session(JOBS, RET1_IMAGE) as session:
        terminal = session.terminal().enter("storage 010000 1024", "PF14")
        first = terminal.rows()
        expect("first", (first[0][:7], first[21][:7], first[23]), (" 010000", " 010150", f" PAGE 1 OF 3: PF19 BACK, PF20 ON {BACK}"))
        expect("first", terminal.enter("", "PF19").rows(), first)
        expect("second", terminal.enter("", "PF20").rows()[0][:7], " 010160")
        last = terminal.enter("", "PF20").rows()
        expect("last", terminal.enter("", "PF20").rows(), last)
        expect("long", any(row.startswith(" AREA 010000") for row in last), True)
        expect("second", terminal.enter("", "PF19").rows()[0][:7], " 010160")
        expect_page(terminal.enter("", "PF24"), {24: " EDF AT T001 IS ON"})


@test
def why_a_task_abended() -> None:
    """PF14 alone shows the abend, and the source around its line, which is bright."""
    with Session(DIVIDES) as session:
        terminal = session.terminal()
        expect_page(terminal.enter("divi"), {24: " ABENDED ASRA  PF14: WHY"})
        rows = terminal.enter("", "PF14").rows()
        expect("why", rows[0].startswith(" ABEND T001 ASRA INTERRUPTION 9 FIXED-POINT DIVIDE"), True)
        bright = bright_rows(terminal, rows)
        expect("line", [row.split()[1:3] for row in bright], [["DR", "2,4"]])
        expect("tasks", rows[rows.index(bright[0]) :].count(" T001 NO TASK"), 1)
        expect_page(terminal.enter("", "CLEAR"), {24: " ABENDED ASRA  PF14: WHY"})
        # a condition: the bright line is the EXEC statement; the task after it has no abend
        expect_page(terminal.enter("quid"), {24: " ABENDED AEYH  PF14: WHY"})
        rows = terminal.enter("", "PF14").rows()
        expect("line", ["DELETEQ" in row for row in bright_rows(terminal, rows)], [True])
        terminal.enter("", "CLEAR").enter("fine")
        rows = terminal.enter("", "PF14").rows()
        expect("rows", rows[0], " T001 NO TASK")


@test
def what_is_due_here() -> None:
    """While a task waits: its command, and the source around it; and all tasks."""
    with Session(TALK, LOOP) as session:
        terminal = session.terminal().enter("talk")
        rows = terminal.enter("", "PF14").rows()
        expect("due", rows[0][:14], " RECEIVE INTO(")
        expect("line", ["RECEIVE" in row for row in bright_rows(terminal, rows)], [True])
        assert " T001 TALK TASK 0000001 LEVEL 01 WAITING FOR INPUT" in rows
        expect_page(terminal.enter("", "CLEAR"), {1: "TALK", 24: " WAITING"})
        second = session.terminal()
        expect_page(second.enter("loop"), {24: " STILL RUNNING: ANY KEY GOES ON"})
        assert "SUSPEND" in "".join(second.enter("", "PF14").rows())
        expect_page(second.enter("", "CLEAR"), {24: " STILL RUNNING: ANY KEY GOES ON"})


@test
def a_look_at_a_stop() -> None:
    """The command with its options, the source around it, the fields, the storage that EDF's page leaves out, areas, levels."""
    with Session(FIELDS) as session:
        terminal = session.terminal().enter("cedf")
        terminal.enter("flds")
        main = terminal.rows()
        rows = terminal.enter("", "PF14").rows()
        expect("command", rows[0][:14], " GETMAIN SET(2")
        bright = [re.sub(" +", " ", row).strip() for row in bright_rows(terminal, rows)]
        expect("line", bright, ["6 EXEC CICS GETMAIN SET(9) LENGTH(=H'500') INITIMG(=C'*')"])
        expect_page_line(terminal, r"NAME +20 2000B0  00000000 .*")
        expect_page_line(terminal, r"LEVEL 01 PROGRAM FLDS R14 01002E FLDS\+00002E DFHEISTG 200060 .*")
        expect("main", terminal.enter("", "CLEAR").rows(), main)
        terminal.enter().enter("", "PF14")
        expect_page_line(terminal, r"2001C0  00000000 .*")  # what is after the storage page's last line
        expect_page_line(terminal, r"2004.0  5C5C5C5C .*")
        terminal.enter("", "CLEAR").enter()
        while terminal.rows()[0][:11] == "TRANSACTION":
            terminal.enter()
        session.tell_to_end()


def expect_page_line(terminal: RawTerminal, wanted: str) -> None:
    """One of the pages of the look has a line like this; the first page is shown again."""
    rows = terminal.rows()
    found = re.search(r"PAGE (\d+) OF (\d+)", rows[23])
    for _ in range(int(found[2]) if found else 0):
        rows += terminal.enter("", "PF20").rows()
    assert any(re.fullmatch(wanted, row.strip()) for row in rows), (wanted, rows)
    for _ in range(int(found[2]) if found else 0):
        terminal.enter("", "PF19")


@test
def a_painting_waits_for_the_look() -> None:
    """What happens meanwhile isn't painted over a look, but afterwards."""
    with Session(TALK, "TERMINAL T001\nTERMINAL T002\n") as session:
        first, second = session.terminal(), session.terminal()
        first.enter("cedf t002")
        second.enter("talk").enter("tasks", "PF14")
        expect_page(first.enter("cedf t002 off"), {24: " EDF AT T002 IS OFF"})
        while session.lines().count("TURN T002") < 6:  # up to RECEIVE, which waits
            first.enter("", "PA3")
        writes = second.enter("", "PA3").writes
        expect_page(second.enter("", "CLEAR"), {1: "TALK", 24: " WAITING"})
        expect("paintings", second.writes, writes + 1)


@test
def words_of_operators() -> None:
    """CEMT and CEBR are looks where no task lives, and no transaction takes them."""
    with Session(JOBS, PSEUDO, TALK, TALK.replace("TALK", "CEBR")) as session:
        terminal = session.terminal()
        expect("tasks", terminal.enter("cemt inquire task").rows()[:2], [" T001 NO TASK", " T002 NO TASK"])
        expect("programs", terminal.enter("", "CLEAR").enter("cemt i prog").rows()[0][:13], " PROGRAM JOBS")
        expect_page(terminal.enter("", "CLEAR").enter("cemt discard"), {24: " NO SUCH TRANSACTION"})
        expect_page(terminal.enter("", "PA3").enter("cebr jobs"), {1: "CEBR JOBS", 24: " WAITING"})
        terminal.enter("end")
        expect_page(terminal.enter("talk").enter("cemt i task"), {1: "CEMT I TASK", 24: " WAITING"})
        terminal.enter("end")
        terminal.enter("ask")
        expect_page(terminal.enter("cemt i task"), {1: "CEMT I TASK", 24: " WAITING"})
    with Session(JOBS) as session:
        terminal = session.terminal().enter("jobs").enter("", "CLEAR")
        expect("queue", terminal.enter("cebr jobs").rows()[1], " ITEM 1 LENGTH 12 'OIL THE PUMP'")
        expect("queues", terminal.enter("", "CLEAR").enter("cebr").rows()[0], " QUEUE 'JOBS' ITEMS 2 BYTES 25 READ 0")
        expect("keys", [line for line in session.lines() if "CE" in line], ["KEY T001 ENTER CEBR JOBS", "KEY T001 ENTER CEBR"])


LOOKED_AT = ["QUEUES", "QUEUE JOBS", "QUEUE D1D6C2E240404040", "QUEUE JOBS 32767", "PROGRAMS", "TASKS", "RESOURCES", "COMMAND T001",
             "AHEAD T001", "AHEAD T001 256", "AHEAD T001 AT JOBS 99999", "AHEAD T001 AFTER 65536", "AHEAD T001 FIELDS AFTER 3",
             "TASK T001", "AREAS", "AREAS T001", "STORAGE 010000 4096", "ABEND T001", "SYMBOL JOBS LINE", "SYMBOLS JOBS", "XREF JOBS",
             "TERMINALS", "COVERED", "COVERED JOBS", "COVERED JOBS LINES",
             "HELP", "HELP FIELD", "FIELD T001 LINE", "FIELD T001 LINE 16", "FIELDS T001", "FIELDS T001 2", "WHERE 2000B4"]


@test
def spoiled_looks() -> None:
    """Each look spoiled at each byte is answered or refused, and a neighbour goes on."""
    generator = random.Random(14)
    expect("kinds", {line.split()[0] for line in LOOKED_AT}, {*LOOKS})
    with Session(JOBS, TALK) as session:
        neighbour, terminal = session.terminal().enter("talk"), session.terminal()
        for line in LOOKED_AT:
            assert is_look(line), line
            for at in range(len(line) + 1):
                drawn = generator.choice(" 09AFZ@#$.:'/*X-")
                for spoiled in (line[:at] + drawn + line[at + 1 :], line[:at] + drawn + line[at:], line[:at] + line[at + 1 :]):
                    row = terminal.enter("", "CLEAR").enter(spoiled, "PF14").rows()[23]
                    refused = f" NO SUCH LOOK: {spoiled.strip()}".rstrip()
                    expect("answer", row in (refused, ) or not is_look(spoiled.strip()) or "CLEAR: " in row, True)
            expect_page(neighbour.enter(line), {1: line, 24: " WAITING"})


@test
def the_table_of_looks() -> None:
    """It has what the manual has, but RUN, WATCH, COVER, FAULTS, CHOICES and ORDERS."""
    with open(f"{TOP}/docs/LOOKS.md", encoding="utf-8") as file:
        rows = re.findall(r"^\| (`[A-Z][^|]*) \|", file.read().partition("\n## ")[0], re.M)
    named = {line.split()[0] for row in rows for line in re.findall("`([^`]*)`", row)} - {"RUN", "WATCH", "COVER", "FAULTS", "CHOICES", "ORDERS", "/*"}
    expect("looks", {*LOOKS}, named)
    for line in ("STORAGE 010000 4097", "STORAGE 010000 0", "QUEUE JOBS 32768", "QUEUES ", "TASKS\nTASKS", "FAULTS X", "RUN T001", "WATCH OFF", ""):
        expect(line, is_look(line), False)
    expect("words", [look_of(words) for words in ("CEMT I TAS", "CEBR A B", "CEBR", "CEMT", "CEBR +")], ["TASKS", None, "QUEUES", None, None])


load_tests = tests_of(__name__)
