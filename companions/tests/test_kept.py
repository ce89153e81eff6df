"""Files that careless words would have destroyed, each of which stays; a conversation's file, which has each line as soon as it is done; and that
no other module of the companions opens a file."""
import ast
import glob
import os
import signal
import stat
import subprocess
import time
from collections.abc import Iterator
from dataclasses import dataclass

from cics.child import read
from tests.calling import SCRIPT, SOURCE, called, folder_of, put
from tests.case import COMPANIONS, PROGRAMS, TestCase
from tests.test_no_harm import COPYING, EXAMPLE, MAP, MEMBER, STAND_IN, contents, harmed

FILES = {"my.asm": SOURCE, "old.script": "* AN EARLIER CONVERSATION\n", "q.txt": "A1\n", "x.asm": SOURCE, "x.map": MAP, "s.script": SCRIPT, "u.asm": COPYING,
         "copy/M": MEMBER, "copy/OTHER": MEMBER}
RUN = ("x.asm", "--key", "P")


@dataclass(frozen=True)
class Case:
    """Words, and perhaps lines that are typed, how it ends, and what is said."""

    words: tuple[str, ...]
    status: int
    said: str
    typed: str = ""


CASES = [
    Case(("cics-look", *PROGRAMS), 1, "? my.asm: it is read, so it isn't written", "load my.asm\nkeep my.asm\n"),
    Case(("cics-look", "--keep", "my.asm", *PROGRAMS), 3, "my.asm: it is there, and a conversation is kept in a new file", "load my.asm\n"),
    Case(("cics-look", "--keep", "old.script", *PROGRAMS), 3, "old.script: it is there, and a conversation is kept in a new file"),
    Case(("cics-look", *PROGRAMS), 1, "? old.script: it is there, and a conversation is kept in a new file", "keep old.script\n"),
    Case(("cics-look", "--keep", "k", "--keep-typed", "k", *PROGRAMS), 3, "k: --keep is written to it, so --keep-typed isn't"),
    Case(("cics-run", *RUN, "--queue", "STOCK=q.txt", "--cover", "--html", "q.txt", *PROGRAMS), 3, "q.txt: it is read, so it isn't written"),
    Case(("cics-run", *RUN, "--map", "x.map", "--html", "x.map", *PROGRAMS), 3, "x.map: it is read, so it isn't written"),
    Case(("cics-run", *RUN, "--map", "x.map", "--lcov", "x.asm", *PROGRAMS), 3, "x.asm: it is read, so it isn't written"),
    Case(("cics-film", "s.script", "--map", "P=x.map", "-o", "x.map", *PROGRAMS), 3, "x.map: it is read, so it isn't written"),
    Case(("cics-adapt", "u.asm", "--copy", "copy", "--map", "copy/M"), 3, "copy/M: it is read, so it isn't written"),
    Case(("cics-adapt", "u.asm", "--copy", "copy", "--map", "copy/OTHER"), 3, "copy/OTHER: it is there, and cics-adapt didn't write it"),
    Case(("cics-cover", "s.script", "--html", "p", "--lcov", "p", *PROGRAMS), 3, "p: --html is written to it, so --lcov isn't"),
    Case(("cics-test", "s.script", "--junit", "q.txt", *PROGRAMS), 3, "q.txt: it is there, and cics-test didn't write it; write another name, or --force"),
]

OPENERS = {"open", "fdopen", "read_text", "write_text", "read_bytes", "write_bytes", "mkstemp", "mkdtemp", "NamedTemporaryFile", "TemporaryFile",
           "TemporaryDirectory", "FileIO", "put_file", "rename", "replace", "remove", "unlink", "truncate", "link", "symlink", "makedirs", "mkdir",
           "copy", "copyfile", "copytree", "copy2", "move", "rmtree", "chmod"}
OF_TEXTS = {"replace", "copy", "remove", "truncate", "move", "link"}  # methods of texts and lists too: calls of modules alone count
MODULES = {"os", "io", "shutil", "pathlib", "tempfile", "codecs"}
OTHERS = {"webbrowser.open", "self.open", "painting.open"}  # which open no file
ELSEWHERE = {  # files, and what they do to others than a user's
    "cics/cli.py": {"os.open"},  # the null device, in the place of a standard file that is closed
    "cics/conversation/command.py": {"os.makedirs"},  # the folder of the history of lines
}


def opened_in(text: str) -> Iterator[tuple[int, str]]:
    """The calls of a program that may open a file, with their lines."""
    for node in ast.walk(ast.parse(text)):
        if not isinstance(node, ast.Call):
            continue
        if isinstance(node.func, ast.Name) and node.func.id in OPENERS - OF_TEXTS:
            yield node.lineno, node.func.id
        if isinstance(node.func, ast.Attribute) and node.func.attr in OPENERS:
            whose = ast.unparse(node.func.value)
            if (whose in MODULES or node.func.attr not in OF_TEXTS) and f"{whose}.{node.func.attr}" not in OTHERS:
                yield node.lineno, f"{whose}.{node.func.attr}"


class OneModuleTest(TestCase):
    def test_one_module(self) -> None:
        """No other module than files.py opens a file, or makes, renames or removes one."""
        paths = [*glob.glob("cics/**/*.py", root_dir=COMPANIONS, recursive=True), *glob.glob("cics-*", root_dir=COMPANIONS)]
        self.assertGreater(len(paths), 100)
        found = [f"{path}:{line}: {what}" for path in sorted(paths) if path != "cics/files.py"
                 for line, what in opened_in(read(os.path.join(COMPANIONS, path)).decode()) if what not in ELSEWHERE.get(path, ())]
        self.none_of(found)

    def test_what_is_seen(self) -> None:
        text = "open('a')\nos.open('a', 0)\nio.open('a')\nPath('a').write_text('')\nos.replace('a', 'b')\n'a'.replace('b', 'c')\nwith Path('a').open(): pass\n"
        self.assertEqual([line for line, _ in sorted(opened_in(text))], [1, 2, 3, 4, 5, 7])


class KeptTest(TestCase):
    def test_cases(self) -> None:
        for case in CASES:
            with self.subTest(" ".join(case.words)), folder_of(FILES) as folder:
                before = contents(folder)
                ended = called(case.words[0], case.words[1:], folder, given=case.typed.encode())
                said = (ended.reported + ended.out).decode()
                self.assertEqual((ended.status, harmed(before)), (case.status, []), ended)
                self.assertIn(case.said, said)
                self.assertNotIn("Traceback", said)

    def test_stand_in(self) -> None:
        """A folder's files are written again; one that was changed since is told, and stays, with all others; --force replaces it."""
        words, path = [*STAND_IN, "--out", "shop"], "shop/partset.asm"
        with folder_of(EXAMPLE) as folder:
            self.assertEqual([called("cics-adapt", words, folder).status for _ in range(2)], [4, 4])
            made = contents(folder)
            ran = subprocess.run(["sha256sum", "--check", "--quiet", "stand-in.list"], cwd=os.path.join(folder, "shop"), check=False)
            self.assertEqual(ran.returncode, 0)
            put(folder, {path: "* MINE\n", "partinq.asm": EXAMPLE["partinq.asm"].replace("PART ENDED", "PART IS DONE")})
            changed = contents(folder)
            ended = called("cics-adapt", words, folder)
            self.assertIn(b"cics-adapt: shop/partset.asm: it was changed since cics-adapt wrote it; write another name, or --force\n", ended.reported)
            self.assertEqual((ended.status, contents(folder)), (3, changed))
            self.assertEqual(called("cics-adapt", [*words, "--force"], folder).status, 4)
            self.assertEqual(contents(folder)[os.path.join(folder, path)], made[os.path.join(folder, path)])
            put(folder, {"shop/stand-in.list": "partset.asm\n"})
            ended = called("cics-adapt", ["--stand-in", "partinq.asm", "--out", "shop"], folder)
            self.assertIn(b"partinq.asm: it is there, and stand-in.list doesn't name it", ended.reported)

    def test_screens(self) -> None:
        """--write replaces what has the form of screens, and nothing else; what a link leads to is none of its own."""
        with folder_of({"s.script": SCRIPT, "s.screens": "MY OWN NOTES\n", "t.script": SCRIPT, "t.screens": "KEY T001 ENTER Q\nSCREEN T001\n"}) as folder:
            ended = called("cics-test", ["s.script", "--write", *PROGRAMS], folder)
            self.assertEqual((ended.status, read(os.path.join(folder, "s.screens"))), (3, b"MY OWN NOTES\n"), ended)
            self.assertIn(b"s.screens: it is there, and doesn't begin as screens do; write another name, or --force", ended.out)
            self.assertEqual(called("cics-test", ["t.script", "--write", *PROGRAMS], folder).out, b"t.script: written\n1 script: 1 written\n")
            self.assertEqual(called("cics-test", ["s.script", "--write", "--force", *PROGRAMS], folder).out, b"s.script: written\n1 script: 1 written\n")
            os.remove(os.path.join(folder, "t.screens"))
            os.symlink("t.script", os.path.join(folder, "t.screens"))
            self.assertIn(b"t.screens: it is read, so it isn't written", called("cics-test", ["t.script", "--write", *PROGRAMS], folder).out)
            self.assertEqual(read(os.path.join(folder, "t.script")).decode(), SCRIPT)


class ConversationTest(TestCase):
    def begun(self, folder: str, *words: str) -> subprocess.Popen[bytes]:
        command = [os.path.join(COMPANIONS, "cics-look"), *words, *PROGRAMS]
        return subprocess.Popen(command, cwd=folder, stdin=subprocess.PIPE, stdout=subprocess.DEVNULL, stderr=subprocess.PIPE)

    def typed(self, process: subprocess.Popen[bytes], line: str, path: str, due: bytes) -> None:
        """Types a line, and waits until it is kept."""
        assert process.stdin
        process.stdin.write(f"{line}\n".encode())
        process.stdin.flush()
        until = time.monotonic() + 120
        while (not os.path.exists(path) or read(path) != due) and time.monotonic() < until:
            time.sleep(0.02)
        self.assertEqual(read(path), due)

    def test_killed(self) -> None:
        """What was done before a kill -9 is kept, and nobody else may read it."""
        with folder_of({}) as folder, self.begun(folder, "--keep", "k", "--keep-typed", "t") as process:
            path = os.path.join(folder, "k")
            self.typed(process, "TERMINAL T001", path, b"TERMINAL T001\n")
            self.typed(process, "TASKS", path, b"TERMINAL T001\n* TASKS\n")
            process.send_signal(signal.SIGKILL)
            process.wait(60)
            self.assertEqual(read(os.path.join(folder, "t")), b"TERMINAL T001\nTASKS\n")
            self.assertEqual(stat.S_IMODE(os.stat(path).st_mode), 0o600)

    def test_changed(self) -> None:
        """Where somebody changes the file meanwhile, that stays, and the conversation ends with a line."""
        with folder_of({}) as folder, self.begun(folder, "--keep", "k") as process:
            path = os.path.join(folder, "k")
            self.typed(process, "TERMINAL T001", path, b"TERMINAL T001\n")
            put(folder, {"k": "* MINE\n"})
            told = process.communicate(b"TERMINAL T002\n", 60)[1]
            self.assertEqual((process.returncode, told, read(path)), (3, b"cics-look: k: it was changed since\n", b"* MINE\n"))

    def test_asked_twice(self) -> None:
        """The same file, asked for once more, gets what was done since."""
        with folder_of({}) as folder:
            ended = called("cics-look", PROGRAMS, folder, given=b"TERMINAL T001\nkeep k\nTERMINAL T002\nkeep k\n")
            self.assertEqual((ended.status, read(os.path.join(folder, "k"))), (0, b"TERMINAL T001\nTERMINAL T002\n"), ended)
