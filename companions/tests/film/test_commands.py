"""Tests of the command: what it says, how it ends, and which files it leaves."""
import contextlib
import io
import os
import signal
import subprocess
import unittest.mock

from cics.child import TOP, Child, Overdue
from cics.film.command import progress
from tests.calling import called, folder_of, program
from tests.case import CICSLOOK as PROGRAM
from tests.case import TestCase, expect
from tests.film.trials import COMMAND

RETURN = f"{TOP}/examples/return.script"


def ran(*words: str, given: bytes = b"") -> tuple[int, str, str]:
    words = words if "--cicslook" in words else (*words, "--cicslook", PROGRAM)
    status, out, reported = called("cics-film", words, "/", given=given)
    return status, out.decode(), reported.decode()


class Terminal(io.StringIO):
    def isatty(self) -> bool:
        return True


class CommandsTest(TestCase):
    def test_commands_end_well(self) -> None:
        with folder_of({"bad.script": "TERMINAL T001\nTERMINAL t\n"}) as folder:
            late = program(folder, "read line\nexit 3")
            cases = [
                (["nowhere.script"], 3, "nowhere.script: No such file"),
                ([RETURN, "-o", "/dev/full"], 3, "No space left"),
                ([RETURN, "-o", f"{folder}/none/r.html"], 3, "No such file"),
                ([RETURN, "--cicslook", "/bin/true", "-o", f"{folder}/x.html"], 3, "/bin/true: it isn't cicslook"),
                ([RETURN, "--cicslook", "/nowhere/cicslook"], 3, "/nowhere/cicslook"),
                ([RETURN, "-o", f"{folder}/r.html"], 0, ""),
                ([f"{folder}/bad.script"], 1, "bad.script, line 2: BadLine: the page has the run up to it"),
                (["a", "b", "c"], 2, "at most two"),
                (["--version"], 0, ""),
            ]
            for words, status, said in cases:
                found, _, error = ran(*words)
                is_well = found == status and said in error and "Traceback" not in error and error.count("\n") <= 1
                expect(f"cics-film {words}", is_well, (found, error))
            expect("files", sorted(os.listdir(folder)) == ["bad.html", "bad.script", "program", "r.html"], os.listdir(folder))
            opened = subprocess.run([COMMAND, RETURN, "--open", "-o", f"{folder}/r.html", "--cicslook", PROGRAM], capture_output=True, text=True,
                                    env={**os.environ, "BROWSER": "/bin/echo %s"}, timeout=300, check=False)
            expect("--open", opened.returncode == 0 and opened.stdout == f"file://{folder}/r.html\n", opened)
            status, page, error = ran("-", given=b"TERMINAL T001\n")
            expect("standard output", (status, page[:15], error) == (0, "<!DOCTYPE html>", ""), (status, error))
            status, page, error = ran(RETURN, "-o", f"{folder}/l.html", "--cicslook", late)
            expect("a child that ends early", status == 1 and "status 3: the page has the run up to it" in error, (status, error))

    def test_pipes_that_close(self) -> None:
        """A pipe that is closed is a line and a status; a signal ends the command without a traceback."""
        reading, writing = os.pipe()
        os.close(reading)
        with subprocess.Popen([COMMAND, RETURN, "-o", "-", "--cicslook", PROGRAM], stdout=writing, stderr=subprocess.PIPE, text=True) as process:
            os.close(writing)
            _, error = process.communicate(timeout=300)
            expect("a closed pipe", process.returncode == 3 and error == "cics-film: standard output: Broken pipe\n", (process.returncode, error))
        with folder_of({}) as folder:
            os.mkfifo(f"{folder}/pipe")
            words = [COMMAND, f"{folder}/pipe", "-o", "/dev/null", "--cicslook", PROGRAM]
            with subprocess.Popen(words, stderr=subprocess.PIPE, text=True) as process:
                with open(f"{folder}/pipe", "w", encoding="ascii"):  # it reads now, or will: then the signal waits for the pipe's end
                    process.send_signal(signal.SIGINT)
                _, error = process.communicate(timeout=300)
                expect("a signal", (process.returncode, error) == (130, "cics-film: interrupted\n"), (process.returncode, error))

    def test_children_that_say_nothing(self) -> None:
        """A program that doesn't answer is a line and a status, after its time."""
        with Child(["/bin/cat"], seconds=0.2) as child:
            try:
                child.ask("TERMINAL T001")
                expect("a child that says nothing", False)
            except Overdue as why:
                expect("a child that says nothing", str(why) == "/bin/cat: no answer within 0.2 seconds, after 'TERMINAL T001'", why)

    def test_how_long_it_takes(self) -> None:
        """A film of more than two seconds says so: on a terminal by a bar, else by a line, once."""
        with unittest.mock.patch("time.monotonic", side_effect=[0, 1, 3, 4, 0, 1, 3, 4]):
            for kind, said in ((io.StringIO, "cics-film: x: at most 90 events, about 6 s more\n"),
                               (Terminal, "\rcics-film: x: [######              ] 30 of at most 90 events, about 6 s more  "
                                          "\rcics-film: x: [########            ] 40 of at most 90 events, about 5 s more  ")):
                with contextlib.redirect_stderr(kind()) as reported:
                    report = progress("x", 90)
                    for done in (10, 30, 40):
                        report(done)
                expect(f"how long it takes, {kind}", reported.getvalue() == said, reported.getvalue())
