"""What cics-test tells of scripts as tests: that they show what is kept of them, and whatever else comes of them is no success."""
import json
import os
import shutil
import tempfile
import time
import unittest.mock
import xml.etree.ElementTree as xml

from cics.child import TOP, Ended, lines_of, read
from cics.cli import Failure
from cics.script_tests import scripts_in
from cics.shown import shown, with_screens
from cics.together import processors, run_together
from tests.calling import Call, called, failures_of, folder_of, program, put
from tests.case import CICSLOOK, PROGRAMS, TestCase

LESSONS = os.path.join(TOP, "examples/lessons")
FAULTY = "12-browse/answer.script"  # the lesson's script that ends by a fault of its source
SOURCE = """SOURCE P
P        CSECT
         EXEC  CICS SEND TEXT FROM(T) LENGTH(=H'2') ERASE
         EXEC  CICS RETURN
T        DC    C'OK'
         END
/*
"""
SCRIPT = f"{SOURCE}TRANSACTION P P\nTERMINAL T001\nKEY T001 ENTER P\nRUN T001\n"
SCREENS = "KEY T001 ENTER P\nSCREEN T001\n01|OK\n"
NOTHING = "tests nothing: it presses no key"
CALLS = [
    Call("what is kept", "cics-test", ["."], 0, ["./a.script: ok", "1 script: 1 ok"], {"a.script": SCRIPT, "a.screens": SCREENS}),
    Call("with CR LF", "cics-test", ["."], 0, ["./a.script: ok", "1 script: 1 ok"], {"a.script": SCRIPT, "a.screens": SCREENS.replace("\n", "\r\n")}),
    Call("a script by its name", "cics-test", ["a.script"], 0, ["a.script: ok", "1 script: 1 ok"], {"a.script": SCRIPT, "a.screens": SCREENS,
                                                                                                    "b.script": ""}),
    Call("a difference", "cics-test", ["."], 1,
         ["./a.script: differs", "--- ./a.screens", "+++ ./a.script", "@@ -1,3 +1,3 @@", " KEY T001 ENTER P", " SCREEN T001", "-01|NO", "+01|OK",
          "1 script: 1 differing"], {"a.script": SCRIPT, "a.screens": SCREENS.replace("OK", "NO")}),
    Call("nothing kept", "cics-test", ["."], 1, ["./a.script: has no .screens; write them by --write", "1 script: 1 without .screens"],
         {"a.script": SCRIPT}),
    Call("no script", "cics-test", ["."], 2, [], {"a.asm": ""}, "cics-test: .: no file NAME.script is in it, so nothing is tested"),
    Call("no folder", "cics-test", ["none"], 3, [], {}, "cics-test: none: no such folder"),
    Call("no words", "cics-test", [], 2, [], {}, "write: cics-test"),
    Call("no jobs", "cics-test", [".", "--jobs", "0"], 2, [], {"a.script": SCRIPT}, "--jobs: a number from 1 to 200"),
    Call("a bad line", "cics-test", ["."], 1, ["./a.script: isn't done to its end: line 12: BadLine", "1 script: 1 not done to the end"],
         {"a.script": SCRIPT + "NONE\n", "a.screens": SCREENS}),
    Call("a bad look", "cics-test", ["."], 1, ["./a.script: isn't done to its end: line 12: BadLook", "1 script: *"],
         {"a.script": SCRIPT + "TASK\n", "a.screens": SCREENS}),
    Call("a block that isn't ended", "cics-test", ["."], 1, ["./a.script: isn't done to its end: line 1: BadLine", "1 script: *"],
         {"a.script": SOURCE[:-3], "a.screens": SCREENS}),
    Call("no key", "cics-test", ["."], 1, [f"./a.script: {NOTHING}", f"./b.script: {NOTHING}", "2 scripts: 2 testing nothing"],
         {"a.script": SOURCE, "a.screens": "", "b.script": f"{SOURCE}TRANSACTION P P\nTERMINAL T001\nRUN T001\nSCREEN T001\n",
          "b.screens": "SCREEN T001\n"}),
    Call("no key, so nothing is written", "cics-test", [".", "--write"], 1, [f"./a.script: {NOTHING}", "1 script: 1 testing nothing"],
         {"a.script": "TERMINAL T001\n"}),
    Call("keys in a comment and in a source", "cics-test", ["."], 1, [f"./a.script: {NOTHING}", "1 script: *"],
         {"a.script": f"* KEY T001 ENTER P\n{SOURCE.replace('/*', 'KEY T001 ENTER P' + chr(10) + '/*')}TERMINAL T001\n", "a.screens": "SCREEN T001\n"}),
    Call("a fault isn't written", "cics-test", [".", "--write"], 1, ["./a.script: isn't done *", "1 script: *"], {"a.script": SCRIPT + "NONE\n"}),
    Call("what is run", "cics-test", [".", "--cover"], 0,
         ["./a.script: ok", "P: 2 of 2 statements run, 100 %; 0 of 0 branches both ways", "1 script: 1 ok"], {"a.script": SCRIPT, "a.screens": SCREENS}),
    Call("what is run of two sources", "cics-test", [".", "--cover"], 1,
         ["./a.script: ok", "./b.script: differs", *["*"] * 7, "./c.script: ok",
          "P of ./a.script: 2 of 2 statements run, 100 %; 0 of 0 branches both ways", "P of ./b.script: 1 of 2 statements run, 50 %; 0 of 0 branches both ways",
          "  never run: 4", "2 programs: 3 of 4 statements run, 75 %; 0 of 0 branches both ways", "3 scripts: 2 ok, 1 differing"],
         {"a.script": SCRIPT, "a.screens": SCREENS, "b.script": SCRIPT.replace("         EXEC  CICS RETURN", "         DC    H'0'\n         EXEC  CICS RETURN"),
          "b.screens": SCREENS, "c.script": f"{SCRIPT}COVER OFF\n", "c.screens": SCREENS}),
    Call("what doesn't count", "cics-test", [".", "--cover"], 1,
         ["./a.script: isn't done to its end: line 12: BadLine", "./b.script: ok",
          "./a.script: it isn't done to its end: line 12: BadLine; nothing of it is counted",
          "./b.script: it defines no source, so nothing of it is counted", "2 scripts: 1 ok, 1 not done to the end"],
         {"a.script": SCRIPT + "NONE\n", "b.script": "TERMINAL T001\nKEY T001 CLEAR\n",
          "b.screens": "KEY T001 CLEAR\nT001 NoSuchTransaction\nSCREEN T001\n"}),
    Call("no end of the last line", "cics-test", ["."], 0, ["./a.script: ok", "1 script: 1 ok"], {"a.script": SCRIPT[:-1], "a.screens": SCREENS}),
]
TWO = "DC    H'0'"
SHOWN = {  # scripts, by what stands in P in the place of SEND, and what they show
    f"{SCRIPT}SCREEN T001\n": ["KEY T001 ENTER P", "SCREEN T001", "01|OK"],
    f"{SCRIPT}KEY T001 ENTER NONE\n": ["KEY T001 ENTER P", "KEY T001 ENTER NONE", "T001 NoSuchTransaction", "SCREEN T001", "01|OK"],
    SCRIPT.replace("EXEC  CICS RETURN", TWO): ["KEY T001 ENTER P", "T001 Abended ASRA", "SCREEN T001", "01|OK"],
    SCRIPT.replace("EXEC  CICS RETURN", "B     *"): ["KEY T001 ENTER P", "T001 Abended AICA", "SCREEN T001", "01|OK"],
    SCRIPT.replace("RUN T001", "TURN T001"): ["KEY T001 ENTER P", "SCREEN T001", "T001 is still running"],
    f"{SCRIPT}TRANSACTION Q Q\n": ["KEY T001 ENTER P", "TRANSACTION Q REFUSED NoProgram", "SCREEN T001", "01|OK"],
    f"{SCRIPT}EDF T001 ON\nKEY T001 ENTER P\nRUN T001\nKEY T001 ENTER\nDISPLAY T001\nSCREEN T001\n":
        ["KEY T001 ENTER P", "KEY T001 ENTER P", "SCREEN T001", "01|OK", "T001 is still running"],
    "".join(f"TERMINAL T{at:03}\n" for at in range(17)): ["TERMINAL T016 REFUSED Full", *[f"SCREEN T{at:03}" for at in range(16)],
                                                          "SCREEN T016 NONE"],
}


class ScriptTestsTest(TestCase):
    def test_calls(self) -> None:
        self.none_of(failures_of(CALLS, PROGRAMS))

    def test_what_cannot_be_read(self) -> None:
        """A script that can't be read, and one whose screens can't be, are told, and the others are tested."""
        with folder_of({"b.script": SCRIPT, "b.screens": SCREENS, "c.script": SCRIPT}) as folder:
            os.symlink("none", os.path.join(folder, "a.script"))
            os.mkdir(os.path.join(folder, "c.screens"))
            lines = ["./a.script: isn't tested: ./a.script: No such file or directory", "./b.script: ok",
                     "./c.script: isn't tested: ./c.screens: Is a directory"]
            count = "3 scripts: 1 ok, 2 not tested"
            calls: list[tuple[list[str], list[str]]] = [
                ([], [*lines, count]), (["--jobs", "1", "--junit", "f.xml"], [*lines, count]),
                (["--write"], [lines[0], "./b.script: unchanged", lines[2], "3 scripts: 1 unchanged, 2 not tested"])]
            for words, due in calls:
                ended = called("cics-test", [".", *words, *PROGRAMS], folder)
                self.assertEqual((ended.status, ended.lines(), ended.reported), (3, due, b""))
            self.assertEqual(xml.parse(os.path.join(folder, "f.xml")).getroot().get("errors"), "2")
            covered = called("cics-test", [".", "--cover", *PROGRAMS], folder)
            self.assertIn("./a.script: it can't be read; nothing of it is counted", covered.lines())

    def test_a_folder_that_cannot_be_read(self) -> None:
        """Nobody knows which scripts are in it, so it ends the run."""
        with folder_of({"a.script": SCRIPT, "a.screens": SCREENS}) as folder, unittest.mock.patch("os.scandir", side_effect=PermissionError(13, "no", folder)):
            with self.assertRaisesRegex(Failure, f"^{folder}: no$"):
                scripts_in(folder)

    def test_what_is_shown(self) -> None:
        for run in run_together([CICSLOOK], [with_screens(script) for script in SHOWN], processors()):
            script, due = [*SHOWN.items()][run.number]
            with self.subTest(script):
                assert run.ended is not None
                self.assertEqual((shown(script, run.ended.lines()), run.ended.reported), (due, b""))

    def test_written_and_tested(self) -> None:
        with folder_of({"a.script": SCRIPT}) as folder:
            os.chmod(os.path.join(folder, "a.script"), 0o600)
            for option, out in (("--write", "written"), ("--write", "unchanged"), ("--json", "["), ("--jobs=1", "ok")):
                ended = called("cics-test", [".", option, *PROGRAMS], folder)
                self.assertEqual((ended.status, ended.lines()[0].split(": ")[-1]), (0, out), ended)
            self.assertEqual(read(os.path.join(folder, "a.screens")).decode(), SCREENS)
            self.assertEqual(os.stat(os.path.join(folder, "a.screens")).st_mode & 0o777, 0o600)

    def test_json_with_cover(self) -> None:
        with tempfile.TemporaryDirectory() as folder:
            for name, text in (("a.script", SCRIPT), ("a.screens", SCREENS)):
                with open(os.path.join(folder, name), "w", encoding="ascii") as file:
                    file.write(text)
            found = json.loads(called("cics-test", ["a.script", "--cover", "--json", *PROGRAMS], folder).out)
        self.assertEqual(([one["outcome"] for one in found["tests"]], found["cover"]["programs"][0]["run"]), (["same"], 2))

    def test_runs_that_do_not_end(self) -> None:
        """One that doesn't end, and one that writes without end, are told, and the others are run."""
        with tempfile.TemporaryDirectory() as folder:
            command = [program(folder, f"read line\ncase $line in Y*) exec yes;; K*) kill -9 $$;; esac\nexec {CICSLOOK}")]
            runs = {run.number: run for run in run_together(command, ["YES\n", "KILL\n", "* ALL\nTERMINAL T001\n"], 2)}
        self.assertIn("it writes more than", runs[0].why)
        self.assertEqual(runs[1].ended and runs[1].ended.why(), "ended by SIGKILL")
        self.assertEqual(runs[2].ended, Ended(0, b"TERMINAL T001 DEFINED\n", b""))


class LessonsTest(TestCase):
    """The lessons' scripts as tests: written, tested again, and one made to fail."""

    def test_lessons(self) -> None:
        with tempfile.TemporaryDirectory() as folder:
            shutil.copytree(LESSONS, os.path.join(folder, "lessons"))
            os.remove(os.path.join(folder, "lessons", FAULTY))
            written = called("cics-test", ["lessons", "--write", *PROGRAMS], folder)
            count = len(lines_of(written.out.decode())) - 1
            self.assertEqual((written.status, written.reported), (0, b""), written)
            again = called("cics-test", ["lessons", "--cover", *PROGRAMS], folder)
            self.assertEqual(again.lines()[-1], f"{count} scripts: {count} ok")
            self.assertEqual(len([line for line in again.lines() if line.startswith("BOOK of lessons/06-lost-update/")]), 3)
            self.one_fails(folder, count)

    def one_fails(self, folder: str, count: int) -> None:
        path = os.path.join(folder, "lessons/06-lost-update/lost.screens")
        put(folder, {path: read(path).replace(b"LEFT: 07", b"LEFT: 06")})
        begun = time.monotonic()
        ended = called("cics-test", ["lessons", "--junit", "found.xml", "--json", *PROGRAMS], folder)
        seconds = time.monotonic() - begun
        self.assertEqual((ended.status, ended.reported), (1, b""))
        objects = json.loads(ended.out)
        self.assertEqual([one["script"] for one in objects if one["outcome"] != "same"], ["lessons/06-lost-update/lost.script"])
        suite = xml.parse(os.path.join(folder, "found.xml")).getroot()[0]
        self.assertEqual((suite.get("tests"), suite.get("failures"), suite.get("errors")), (f"{count}", "1", "0"))
        failed = [(case.get("classname"), case.get("name"), len(case)) for case in suite if len(case)]
        self.assertEqual(failed, [("lessons.06-lost-update", "lost", 1)])
        self.assertIn("-01|BOOKED. SEATS LEFT: 06\n", "".join(suite.itertext()))
        self.assertLess(seconds, 60)
