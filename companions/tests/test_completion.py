"""The completions of shells are as they are made of --help, and what bash completes by them; and --watch, --json and colours of the companions."""
import json
import os
import shutil
import signal
import subprocess
import time
import unittest

from cics.child import TOP, read
from cics.shells import completions, options_in
from tests.calling import FAULTY, FILES, SCRIPT, called, folder_of, put
from tests.case import COMPANIONS, PROGRAMS, TestCase

WITH_TRANSACTION = {**FILES, "s.script": SCRIPT.replace("TRANSACTION P", "TRANSACTION PT").replace("ENTER P", "ENTER PT")}
COMPLETED = {  # words, the last of which is completed, and what it may become
    ("cics-run", "--j"): "--json", ("cics-check", "--explain", "Conf"): "Conflict", ("cics-run", "p.asm", "--tran", ""): "P",
    ("cics-same", "s.script", "P"): "P PT", ("cics-test", "--wat"): "--watch", ("cics-film", "s.s"): "s.script", ("cicslook", "s.s"): "s.script"}
HELP = """usage: x

options:
  -h, --help            show this
  -o FILE               a file
  --long-name NAME=FILE
                        what it is
  --flag                a flag
"""


class CompletionTest(TestCase):
    def test_made(self) -> None:
        for name, text in completions().items():
            self.assertEqual(read(os.path.join(TOP, "completion", name)).decode(), text, f"{name}: completion/make writes it")

    def test_options(self) -> None:
        found = [(option.names, option.value, option.help) for option in options_in(HELP)]
        self.assertEqual(found, [(("-h", "--help"), "", "show this"), (("-o",), "FILE", "a file"), (("--long-name",), "NAME=FILE", "what it is"),
                                 (("--flag",), "", "a flag")])

    def test_bash(self) -> None:
        with folder_of(WITH_TRANSACTION) as folder:
            for words, due in COMPLETED.items():
                script = f'. {TOP}/completion/cicsedf.bash; COMP_WORDS=("$@"); COMP_CWORD={len(words) - 1}; _cics_words; echo "${{COMPREPLY[*]}}"'
                ran = subprocess.run(["bash", "-c", script, "bash", *words], cwd=folder, capture_output=True, text=True, check=False)
                self.assertEqual((ran.stdout.strip(), ran.stderr), (due, ""), words)

    def test_other_shells(self) -> None:
        for shell, name in (("zsh", "_cicsedf"), ("fish", "cicsedf.fish")):
            if shutil.which(shell):
                ran = subprocess.run([shell, "-n", os.path.join(TOP, "completion", name)], capture_output=True, text=True, check=False)
                self.assertEqual((ran.returncode, ran.stderr), (0, ""))


class JsonTest(TestCase):
    def test_run(self) -> None:
        with folder_of(WITH_TRANSACTION) as folder:
            ended = called("cics-run", ["p.asm", "--key", "P", "--key", "X", "--json", *PROGRAMS], folder)
            found = [(one["key"], one["answer"], one["end"], len(one["screen"]), one["well"]) for one in json.loads(ended.out)]
            due = [("ENTER P", "Attached", "Ended", 24, True), ("ENTER X", "NoSuchTransaction", "Idle", 24, False)]
            self.assertEqual((ended.status, found), (1, due))

    def test_same(self) -> None:
        with folder_of(WITH_TRANSACTION) as folder:
            for words, status, outcome in ((["p.asm", "p.asm"], 0, "same"), (["p.asm", "f.asm"], 2, "unknown")):
                ended = called("cics-same", ["s.script", "P", *words, "--json", *PROGRAMS], folder)
                self.assertEqual((ended.status, json.loads(ended.out)["outcome"]), (status, outcome), ended)


class WatchTest(TestCase):
    """Again whenever a file changes, until a signal."""

    def watched(self, folder: str, words: list[str], path: str, texts: list[str]) -> tuple[str, int]:
        """What is written while a file is given one text after the other, each when the one before was looked at; and the status."""
        waits = "waits for a change"
        with open(os.path.join(folder, "told"), "w+b") as told, open(os.path.join(folder, "out"), "w+b") as out:
            with subprocess.Popen([os.path.join(COMPANIONS, words[0]), *words[1:], *PROGRAMS], cwd=folder, stdout=out, stderr=told) as process:
                for count in range(1, len(texts) + 2):
                    until = time.monotonic() + 120
                    while read(told.name).decode().count(waits) < count and process.poll() is None and time.monotonic() < until:
                        time.sleep(0.1)
                    if count <= len(texts):
                        put(folder, {path: texts[count - 1]})
                process.send_signal(signal.SIGINT)
                process.wait(60)
            return read(out.name).decode(), process.returncode

    def test_check(self) -> None:
        with folder_of(WITH_TRANSACTION) as folder:
            out, status = self.watched(folder, ["cics-check", "p.asm", "--watch"], "p.asm", [FAULTY, f"{FAULTY}* MORE\n" + FAULTY])
        self.assertEqual((out.count("p.asm:2:21: UnknownCommand: RETERN\n"), out.count("p.asm:6:21:"), status), (2, 1, 130), out)

    def test_tests(self) -> None:
        with folder_of(WITH_TRANSACTION) as folder:
            out, status = self.watched(folder, ["cics-test", ".", "--watch"], "s.screens", ["KEY T001 ENTER PT\nSCREEN T001\n"])
        self.assertEqual((out.split("\n")[:4], status),
                         (["./s.script: has no .screens; write them by --write", "1 script: 1 without .screens", "./s.script: ok", "1 script: 1 ok"],
                          130))

    def test_misused(self) -> None:
        with folder_of(WITH_TRANSACTION) as folder:
            for words in (["cics-check", "-", "--watch"], ["cics-test", ".", "--write", "--watch"]):
                self.assertEqual(called(words[0], [*words[1:], *PROGRAMS], folder).status, 2)


class ColourTest(TestCase):
    @unittest.skipUnless(shutil.which("script"), "script, of util-linux, isn't installed")
    def test_at_a_terminal(self) -> None:
        with folder_of(WITH_TRANSACTION) as folder:
            for environment, is_coloured in (({"TERM": "xterm"}, True), ({"TERM": "xterm", "NO_COLOR": "1"}, False), ({"TERM": "dumb"}, False)):
                command = " ".join([os.path.join(COMPANIONS, "cics-check"), "f.asm", *PROGRAMS])
                ran = subprocess.run(["script", "-qc", command, "/dev/null"], cwd=folder, stdin=subprocess.DEVNULL, capture_output=True, check=False,
                                     env={"PATH": os.environ["PATH"], **environment})
                self.assertIn(b"^^^^^^", ran.stdout)
                self.assertEqual(b"\x1b[" in ran.stdout, is_coloured, ran.stdout)
