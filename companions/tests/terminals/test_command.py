"""Tests of the command: set-ups and options."""
import os
import re
import socket
import threading
import time

from tests.calling import folder_of, program, put
from tests.case import CICSEDF as PROGRAM
from tests.case import CICSLOOK as LOOKER
from tests.terminals.programs import RETURN, TALK
from tests.terminals.session import Session, expect, expect_end, expect_page, expect_refusal, refused, test, tests_of


@test
def faulty_set_ups() -> None:
    for text, reported in (
        (RETURN + "SOURCE P\n/\n", "7: the block isn't ended by a line /*"),
        (RETURN + "TERMINAL T001", "7: the last line isn't ended by a line feed"),
        (RETURN + "TERMINAL T001\nEDF T001 ON\n", "8: a set-up only begins a region; EDF is for the session that follows"),
        (RETURN + "* none\nHELLO\n", "8: BadLine"),
        (RETURN.replace("RETURN", "RETERN"), "3: UnknownCommand"),
        (RETURN + "TERMINAL T001 \n", "7: BadLine"),
        (RETURN + "TERMINAL T001\nKEY T001 ENTER RET1\nRUN T001\n\ntasks\n",
         "11: TASKS is a look, which no session has: take it out, and look at a terminal by PF14"),
        (RETURN + "RUN T001 4097\n", "7: RUN, a terminal, and perhaps how many turns, at most 4096"),
        ("RUN T001 \n", "1: RUN, a terminal, and perhaps how many turns, at most 4096"),
        ("*\n" * (8 << 20), "THE SESSION IS FULL: A SCRIPT HAS AT MOST 16 MIB"),
    ):
        expect("reported", refused(text), f"setup.script: line {reported}\n" if reported[0].isdigit() else f"setup.script: {reported}\n")
    with socket.create_server(("127.0.0.1", 0)) as taken:
        assert "Address already in use" in refused(RETURN, options=["--port", str(taken.getsockname()[1])], status=3)
    assert "/nowhere/cicslook: no program stands there" in refused(RETURN, options=["--cicslook", "/nowhere/cicslook"], status=3)
    assert "setup.script: it is read, so it isn't written" in refused(RETURN, options=["--session", "setup.script"], status=3)


@test
def programs_of_other_kinds() -> None:
    """What doesn't answer a look within five seconds is reported on a line, and no file is left: cicsedf is none that looks."""
    for other in (PROGRAM, "/bin/cat", "/bin/true", "/usr/bin/yes"):
        said = refused(RETURN, options=["--cicslook", other], status=3)
        assert said.startswith(f"{other}: it isn't cicslook: ") and said.count("\n") == 1, said
    with folder_of({"mute": "#!/bin/sh\nexec sleep 1000\n"}) as folder:
        path = f"{folder}/mute"
        os.chmod(path, 0o700)
        expect("reported", refused(RETURN, options=["--cicslook", path], status=3), f"{path}: it isn't cicslook: to --version it answers something else\n")


@test
def a_port_that_another_takes_meanwhile() -> None:
    """It was free when the companion began, and another listens on it when the set-up is done."""
    with socket.socket() as other, folder_of({}) as folder:
        other.setsockopt(socket.SOL_SOCKET, socket.SO_REUSEADDR, 1)
        other.bind(("127.0.0.1", 0))
        path = program(folder, f": >{folder}/begun\nuntil [ -e {folder}/go ]; do sleep 0.01; done\nexec {LOOKER}")

        def listen() -> None:
            while not os.path.exists(f"{folder}/begun"):
                time.sleep(0.01)
            other.listen()
            put(folder, {"go": ""})

        listening = threading.Thread(target=listen)
        listening.start()
        port = other.getsockname()[1]
        said = refused(RETURN, options=["--port", str(port), "--cicslook", path])
        listening.join()
        expect("reported", said, f"setup.script: port {port}: [Errno 98] Address already in use\n")


@test
def refused_definitions() -> None:
    """They are reported with their lines, and the session goes on; the set-up's own terminals stay."""
    others = "TERMINAL X\r\n* TERMINAL Y\n\nTERMINAL X\nTRANSACTION NONE NONE\nCLOCK 101500 84060\n"
    with Session(RETURN, RETURN, others) as session:
        reported = {7: "PROGRAM RET1 REFUSED Duplicate", 12: "TRANSACTION RET1 REFUSED Duplicate",
                16: "TERMINAL X REFUSED Duplicate", 17: "TRANSACTION NONE REFUSED NoProgram"}
        expect("reported", session.reported[:-1], [f"{session.setup}: line {line}: {text}" for line, text in reported.items()])
        expect_page(session.terminal().enter("ret1"), {})
        expect_refusal(session, "IBM-3279-2-E", " ALL TERMINALS ARE TAKEN")


@test
def mixed_and_clock() -> None:
    with Session(TALK, options=["--mixed", "--clock"]) as session:
        expect_page(session.terminal().enter("TALK aBc").enter("dEf"), {1: "dEf", 24: " WAITING"})
        assert re.search(r"\nCLOCK \d{6} \d{5}\nKEY T001 ENTER TALK aBc\n", "\n".join(session.lines()))
        expect("clocks", sum(line.startswith("CLOCK") for line in session.lines()), 1)


@test
def a_session_that_is_full() -> None:
    """It warns each terminal once, and ends in order before the script has 16 MiB, looks too; a set-up of that size is written
    while its answers are read."""
    listing = "SOURCE LIST LIST\n" + "* A COMMENT\n" * 9000 + "         END\n/*\n"
    size = (16 << 20) - (75 << 10)
    comments = "*" * 4000 + "\n"
    text = listing * 100 + RETURN
    with Session(text, comments * ((size - len(text)) // len(comments)), ends_itself=True) as session:
        terminal = session.terminal()
        warning = {24: " THE SESSION HAS 14 OF AT MOST 16 MIB: IT WILL END SOON"}
        expect_page(terminal, warning)
        expect_page(terminal.enter("", "CLEAR"), {})
        expect_page(session.terminal(), warning)
        while not any(terminal.enter("ret1 " + "x" * 1900).rows()):
            pass
        expect_end(terminal, " THE SESSION IS FULL: A SCRIPT HAS AT MOST 16 MIB")
        assert (16 << 20) - (70 << 10) < os.stat(session.script).st_size < 16 << 20


@test
def looks_that_fill_a_session() -> None:
    """The program reads them too: what they take is counted, though they aren't kept."""
    comments = ("*" * 4000 + "\n") * (((16 << 20) - (66 << 10)) // 4001)
    with Session(RETURN, comments, ends_itself=True) as session:
        terminal = session.terminal()
        while "MIB" not in terminal.enter("tasks", "PF14").rows()[23]:
            pass
        expect_end(terminal, " THE SESSION IS FULL: A SCRIPT HAS AT MOST 16 MIB")


load_tests = tests_of(__name__)
