"""How the companions end, and what they leave: no file that is there is harmed, no program goes on, no traceback is shown, and none says that all
is well where it wasn't done."""
import ast
import glob
import os
import shutil
import signal
import stat
import subprocess
import sys
import time

from cics.child import TOP, Ended, lines_of, read
from cics.scripts import LETTERS, free_name
from tests.calling import FILES, SCRIPT, called, folder_of, program
from tests.case import CICSEDF, COMPANIONS, PROGRAMS, TestCase

CALLS = {  # of each companion one that writes something on standard output
    "cics-adapt": ["p.asm"], "cics-check": ["f.asm", *PROGRAMS], "cics-film": ["s.script", "-o", "-", *PROGRAMS],
    "cics-run": ["p.asm", "--key", "P", *PROGRAMS], "cics-same": ["s.script", "s.script", *PROGRAMS], "cics-test": ["s.script", *PROGRAMS],
    "cics-look": ["s.script", *PROGRAMS], "cics-cover": ["s.script", *PROGRAMS],
    "cics-map": ["s.script", "--keys", f"{COMPANIONS}/tests/p.keys", *PROGRAMS], "cics-terminals": ["--help"]}
ASKING = [name for name in CALLS if name not in ("cics-adapt", "cics-terminals")]  # those that ask a program


def without_program(name: str) -> list[str]:
    return [word for word in CALLS[name] if word not in PROGRAMS]


class EndingTest(TestCase):
    def ends_by_a_line(self, ended: Ended, status: int, said: str) -> None:
        text = ended.reported.decode()
        self.assertEqual((ended.status, text.count("\n"), "Traceback" in text), (status, 1, False), text)
        self.assertIn(said, text)


class OutputTest(EndingTest):
    def test_a_closed_output(self) -> None:
        with folder_of(FILES) as folder:
            for name, words in CALLS.items():
                with self.subTest(name):
                    self.ends_by_a_line(called(name, words, folder, redirected=">&-"), 3, f"{name}: standard output: Bad file descriptor")

    def test_a_full_disk(self) -> None:
        with folder_of(FILES) as folder:
            for name, words in CALLS.items():
                with self.subTest(name):
                    self.ends_by_a_line(called(name, words, folder, redirected=">/dev/full"), 3, f"{name}: standard output: No space left on device")

    def test_no_standard_file(self) -> None:
        with folder_of(FILES) as folder:
            self.assertEqual(called("cics-check", ["f.asm", *PROGRAMS], folder, redirected="<&- >&- 2>&-").status, 3)


class FileTest(EndingTest):
    """Files that are there, and what is made of others."""

    def film(self, folder: str, out: str, *, largest: int | None = None) -> Ended:
        return called("cics-film", ["s.script", "-o", out, *PROGRAMS], folder, largest=largest)

    def test_a_page_that_may_not_be_written(self) -> None:
        with folder_of(FILES) as folder:
            path = os.path.join(folder, "page.html")
            shutil.copy(shutil.which("sleep") or "/bin/sleep", path)
            with subprocess.Popen([path, "100"]) as process:  # a program that runs may not be written
                self.ends_by_a_line(self.film(folder, "page.html"), 3, "cics-film: page.html: Text file busy")
                process.kill()
            self.assertEqual(read(path)[:4], b"\x7fELF")
            self.assertEqual(sorted(os.listdir(folder)), ["f.asm", "p.asm", "page.html", "s.script"])

    def test_a_page_for_which_there_is_no_room(self) -> None:
        with folder_of(FILES) as folder:
            self.assertEqual(self.film(folder, "page.html").status, 0)
            old = read(os.path.join(folder, "page.html"))
            self.ends_by_a_line(self.film(folder, "page.html", largest=4096), 3, "cics-film: page.html: File too large")
            self.assertEqual(read(os.path.join(folder, "page.html")), old)
            self.assertEqual(sorted(os.listdir(folder)), ["f.asm", "p.asm", "page.html", "s.script"])

    def test_a_page_in_the_place_of_its_script(self) -> None:
        with folder_of(FILES) as folder:
            os.symlink("s.script", os.path.join(folder, "link.html"))
            for name in ("s.script", "./s.script", "link.html"):
                self.ends_by_a_line(self.film(folder, name), 3, "it is read, so it isn't written")
            self.assertEqual(read(os.path.join(folder, "s.script")).decode(), SCRIPT)

    def test_who_may_read_it(self) -> None:
        """A kept session may hold passwords: who may not read it may not read its film."""
        with folder_of(FILES) as folder:
            for mode in (0o600, 0o640, 0o644):
                os.chmod(os.path.join(folder, "s.script"), mode)
                self.assertEqual(self.film(folder, f"{mode:o}.html").status, 0)
                self.assertEqual(stat.S_IMODE(os.stat(os.path.join(folder, f"{mode:o}.html")).st_mode), mode)

    def test_what_stands_beside(self) -> None:
        with folder_of(FILES) as folder:
            for _ in range(2):
                self.assertEqual(self.film(folder, "page.html").status, 0)
            self.assertEqual(sorted(os.listdir(folder)), ["f.asm", "p.asm", "page.html", "s.script"])


class ProgramTest(EndingTest):
    """Programs that aren't what they should be, and those that end or don't."""

    def test_another_program(self) -> None:
        with folder_of(FILES) as folder:
            for name in ASKING:
                for path in ("/bin/true", "/bin/cat", "/bin/false", CICSEDF):
                    if name == "cics-same" and path == CICSEDF:
                        continue
                    with self.subTest(name, path=path):
                        ended = called(name, [*without_program(name), "--cicslook", path], folder)
                        self.ends_by_a_line(ended, 2 if name == "cics-same" else 3, f"{path}: it isn't cicslook")

    def test_a_killed_program(self) -> None:
        with folder_of(FILES) as folder:
            words = ["--cicslook", program(folder, "kill -9 $$")]
            for name in ASKING:
                with self.subTest(name):
                    ended = called(name, [*without_program(name), *words], folder)
                    self.assertNotEqual(ended.status, 0, ended)
                    self.assertIn(b"ended by SIGKILL", ended.reported + ended.out)

    def test_signals(self) -> None:
        """A signal ends a companion by a line, and the program with it."""
        for number, status in ((signal.SIGINT, 130), (signal.SIGTERM, 143), (signal.SIGHUP, 129)):
            for name in ASKING:
                with self.subTest(name, signal=number.name), folder_of(FILES) as folder:
                    self.is_ended(folder, name, number, status)

    def is_ended(self, folder: str, name: str, number: signal.Signals, status: int) -> None:
        path = program(folder, f"echo $$ > {folder}/part; mv {folder}/part {folder}/pid; exec sleep 100")
        command = [os.path.join(COMPANIONS, name), *without_program(name), "--cicslook", path]
        with subprocess.Popen(command, cwd=folder, stdout=subprocess.PIPE, stderr=subprocess.PIPE) as process:
            while not os.path.exists(f"{folder}/pid"):
                time.sleep(0.01)
            child = int(read(f"{folder}/pid"))
            process.send_signal(number)
            _, reported = process.communicate(timeout=300)
        self.ends_by_a_line(Ended(process.returncode, b"", reported), status, f"{name}: ")
        with self.assertRaises(ProcessLookupError):
            os.kill(child, 0)


class WordsTest(EndingTest):
    def test_an_older_python(self) -> None:
        """What older ones read is of their language, and says which is needed."""
        for path in [os.path.join(COMPANIONS, name) for name in CALLS] + [os.path.join(COMPANIONS, "cics/__init__.py")]:
            ast.parse(read(path), feature_version=(3, 6))
        for name in CALLS:
            with self.subTest(name):
                older = f"import sys, runpy; sys.version_info = (3, 8, 1); sys.argv = ['{name}']; runpy.run_path('{COMPANIONS}/{name}', run_name='__main__')"
                ran = subprocess.run([sys.executable, "-B", "-c", older], capture_output=True, check=False)
                self.ends_by_a_line(Ended(ran.returncode, ran.stdout, ran.stderr), 3, f"{name}: Python 3.8: it needs Python 3.11 or later")

    def test_keys(self) -> None:
        cases = {"A\nB": "'\\n' has no code", "A[": "'[' has no code", "A\xe9": "has no code", "PF13": "no key is PF13; write", "pa3": "no key is PA3",
                 "X" * 1921: "more than 1920 characters"}
        with folder_of(FILES) as folder:
            for key, said in cases.items():
                with self.subTest(key):
                    self.ends_by_a_line(called("cics-run", ["p.asm", "--key", key, *PROGRAMS], folder), 2, said)

    def test_capitals(self) -> None:
        with folder_of(FILES) as folder:
            for words, line in ((["--key", "p x"], b"KEY T001 ENTER P X\n"), (["--mixed", "--key", "P x"], b"KEY T001 ENTER P x\n"),
                                (["--key", "P", "--key", "pf3"], b"KEY T001 PF3\n")):
                self.assertIn(line, called("cics-run", ["p.asm", "--script", *words], folder).out)

    def test_minutes_and_ports(self) -> None:
        with folder_of(FILES) as folder:
            for words in (["--idle", "-1"], ["--idle", "nan"], ["--idle", "inf"], ["--port", "65536"], ["--port", "-1"], ["--back", "1"]):
                with self.subTest(words):
                    self.ends_by_a_line(called("cics-terminals", ["s.script", *words], folder), 2, "write: cics-terminals")

    def test_names_of_terminals(self) -> None:
        """A mark is found where each of a thousand names is taken."""
        taken = "".join(f"TERMINAL @{at:03}\n" for at in range(1000)) + "SCREEN @@@@\n"
        self.assertNotIn(free_name(taken), {*taken.split()})
        self.assertEqual(len({*LETTERS}), 39)

    def test_standard_input(self) -> None:
        with folder_of(FILES) as folder:
            ended = called("cics-check", ["-", *PROGRAMS], folder, redirected="<f.asm")
        self.assertEqual((ended.status, ended.out[:17]), (1, b"standard input:2:"))

    def test_one_shebang(self) -> None:
        for path in [*glob.glob(f"{TOP}/companions/cics-*"), f"{TOP}/companions/test"]:
            self.assertEqual(lines_of(read(path).decode())[0], "#!/usr/bin/env -S python3 -B", path)
