"""The lesson of a shop's program: its sessions, command by command, in a folder that has what the repository has; what they write is what is kept."""
import os
import subprocess
import tempfile

from cics.child import TOP, lines_of, read
from tests.case import CICSLOOK, TestCase

LESSON = "examples/lessons/18-shop-program"
ASKING = ("cics-run", "cics-look", "cics-film", "cics-test")  # they ask cicslook


def commands_of(session: list[str]) -> list[tuple[list[str], list[str]]]:
    """The commands of a session, each with the lines that it writes; a backslash at the end of a line continues one."""
    found: list[tuple[list[str], list[str]]] = []
    for line in session:
        if line.startswith("$ "):
            found.append(([line.removeprefix("$ ")], []))
        elif found[-1][0][-1].endswith("\\"):
            found[-1][0].append(line)
        else:
            found[-1][1].append(line)
    return found


def written_by(command: list[str], folder: str) -> list[str]:
    text = "\n".join(command)
    for name in ASKING:
        text = text.replace(f"companions/{name} ", f"companions/{name} --cicslook {CICSLOOK} ")
    return subprocess.run(["/bin/sh", "-c", text], cwd=folder, capture_output=True, text=True, timeout=300, check=False).stdout.splitlines()


class LessonTest(TestCase):
    def written(self, name: str) -> None:
        with tempfile.TemporaryDirectory() as folder:
            for it in ("companions", "examples"):
                os.symlink(os.path.join(TOP, it), os.path.join(folder, it))
            for command, due in commands_of(lines_of(read(os.path.join(TOP, LESSON, f"{name}.session")).decode())):
                self.assertEqual(written_by(command, folder), due, command)

    def test_lesson(self) -> None:
        self.written("shop")

    def test_answers(self) -> None:
        self.written("answer")
