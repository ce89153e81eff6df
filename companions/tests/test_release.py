"""The archive of a release: the same content gives the same bytes; from it alone, in an empty folder where the PATH has nothing but
coreutils and Python, the first lesson runs, and the companions do; its sums are those of its files, each link of a page leads to a
file of it, and each of the manual's one page within it to a place; pages of man and the completion have each option, and that of `cicslook`
each of its lines."""
import glob
import io
import os
import posixpath
import re
import shutil
import subprocess
import sys
import tarfile
import tempfile
import unittest
from dataclasses import dataclass

from archive import FOLDERS, SINGLE, Content, manual_of, needed_of, of_repository, packed, programs_of
from cics.child import TOP, lines_of, read
from manual import converter
from cics.cli import Failure
from cics.programs import beside
from tests.calling import called
from tests.case import CICSLOOK, TestCase

COREUTILS = ("cat", "cp", "dirname", "env", "ls", "mkdir", "rm", "sha256sum", "sort", "uname")
FOLDER = "cicsedf-test"
MANUAL = "docs/manual.html"
LESSON = "examples/lessons/01-inquiry/inquiry"
COMPANIONS = ("cics-adapt", "cics-check", "cics-cover", "cics-film", "cics-look", "cics-map", "cics-run", "cics-same", "cics-test", "cics-terminals")


@dataclass(frozen=True)
class Command:
    """A command in the unpacked archive, the file whose text it writes (in this repository), and what else it has to write."""

    words: list[str]
    writes: str = ""
    has: str = ""


TO_FILE = re.compile(r'\]\(([^)\s]+)\)|href="([^"]*)"')
OPTION = re.compile(r"(?<![\w-])--[a-z-]+")

COMMANDS = [
    Command(["bin/cicslook", f"{LESSON}.script"], f"{LESSON}.transcript"),
    Command(["crates/cicslook/out/cicslook", f"{LESSON}.script"], f"{LESSON}.transcript"),
    Command(["bin/cicsedf", "examples/return.script"], "examples/return.transcript"),
    Command(["companions/cics-adapt", "examples/adapt/stkbrws.asm"], has="BNH   SHOWPAGE"),
    Command(["companions/cics-check", "examples/lessons/changing/pgm7.asm"]),
    Command(["companions/cics-run", "examples/lessons/changing/pgm7.asm", "--tran", "TICK=PGM7", "--key", "TICK"], has="01|TICKET 00001"),
    Command(["companions/cics-same", "examples/lessons/changing/pgm7.script", "PGM7", *["examples/lessons/changing/pgm7.asm"] * 2], has="same after 2 keys"),
    Command(["companions/cics-look", f"{LESSON}.script"], f"{LESSON}.transcript"),
    Command(["companions/cics-test", "examples/lessons/changing"], has="3 scripts: 3 ok"),
    Command(["companions/cics-film", f"{LESSON}.script", "-o", "-"], has="</html>"),
    Command(["companions/cics-map", "examples/lessons/02-menu/menu.script", "--one-number", "-o", "-"], has="</html>"),
    Command(["companions/cics-terminals", "--version"], has="cics-terminals "),
    Command(["sha256sum", "-c", "--quiet", "SHA256SUMS"]),
]


def paths() -> list[str]:
    """The files of the folders that a release is made of."""
    found = [path for folder in FOLDERS for path in glob.glob(f"{folder}**/*", root_dir=TOP, recursive=True)]
    return sorted(path for path in [*found, *SINGLE] if os.path.isfile(os.path.join(TOP, path)) and "__pycache__" not in path)


def contents_of(cicslook: str) -> list[Content]:
    programs = {"cicslook": cicslook, "cicsedf": beside(cicslook, "cicsedf")}
    contents = of_repository(paths())
    contents += programs_of(programs)
    try:
        converter()
    except Failure as why:
        print(f"the manual's one page isn't made: {why}")
        return contents
    return [*contents, manual_of(contents, "test")]


def failure_of(command: Command, folder: str, path: str) -> str | None:
    ran = subprocess.run([os.path.join(path, command.words[0]) if "/" not in command.words[0] else command.words[0], *command.words[1:]],
                         cwd=folder, env={"PATH": path}, capture_output=True, timeout=300, check=False)
    is_due = not command.writes or ran.stdout == read(os.path.join(TOP, command.writes))
    if ran.returncode == 0 and is_due and command.has in ran.stdout.decode():
        return None
    return f"from the archive, {' '.join(command.words)}: status {ran.returncode}, {ran.stdout[:100]!r}, {ran.stderr[:200]!r}"


def failures_unpacked(archive: bytes) -> list[str]:
    with tempfile.TemporaryDirectory() as folder, tempfile.TemporaryDirectory() as path:
        for name in COREUTILS:
            os.symlink(os.path.realpath(shutil.which(name) or f"/bin/{name}"), os.path.join(path, name))
        os.symlink(os.path.realpath(sys.executable), os.path.join(path, "python3"))
        with tarfile.open(fileobj=io.BytesIO(archive)) as file:
            file.extractall(folder)
        found = [failure_of(command, os.path.join(folder, FOLDER), path) for command in COMMANDS]
    return [failure for failure in found if failure]


def options_of(companion: str) -> set[str]:
    said = called(companion, ["--help"], TOP).out.decode()
    return set(OPTION.findall(said.partition("options:")[2])) - {"--help"} | {"--version"}


def failures_of_links(page: bytes) -> list[str]:
    """Links of the manual's one page to places that it doesn't have."""
    text = page.decode()
    places = set(re.findall(r'id="([^"]*)"', text))
    return [f"the manual's one page has no place {link}" for link in sorted(set(re.findall(r'href="#([^"]*)"', text)) - places)]


def failures_of_files(contents: list[Content]) -> list[str]:
    """Links of the archive's pages, and of the one page, to files that it doesn't have."""
    names = {one.path for one in contents}
    folders = {path[:at] for path in names for at in range(len(path)) if path[at] == "/"}
    found = []
    for one in contents:
        links = TO_FILE.findall(one.data.decode()) if one.path.endswith((".md", ".html")) and not one.is_link else []
        for page, attribute in links:
            link = (page or attribute).partition("#")[0]
            target = posixpath.normpath(posixpath.join(posixpath.dirname(one.path), link))
            if link and ":" not in link and target not in names | folders:
                found.append(f"{one.path} links to {link}, which isn't in the archive")
    return sorted({*found})


class ReleaseTest(TestCase):
    def test_unpacked(self) -> None:
        contents = contents_of(CICSLOOK)
        archive = packed(FOLDER, contents, 500_000_000)
        self.none_of(failures_unpacked(archive))
        self.none_of([failure for one in contents if one.path == MANUAL for failure in failures_of_links(one.data)])
        self.none_of(failures_of_files(contents))
        self.assertEqual(packed(FOLDER, list(reversed(contents)), 500_000_000), archive, "the same content gives other bytes")

    def test_pages(self) -> None:
        """A page of man and the completion have each option, and the completion no other."""
        completion = read(os.path.join(TOP, "completion/cicsedf.bash")).decode()
        for companion in COMPANIONS:
            options = options_of(companion)
            line = next((line for line in lines_of(completion) if line.strip().startswith(f"{companion})")), "")
            self.assertEqual(set(OPTION.findall(line)) - {"--help"}, options, f"the completion of {companion}")
            page = read(os.path.join(TOP, f"docs/man/{companion}.1")).decode().replace("\\-", "-")
            self.assertEqual({option for option in options if option not in page} - {"--cicsedf"}, set(), f"the page of man of {companion}")

    def test_lines(self) -> None:
        """The page of man of `cicslook` has its lines, and no others, by what HELP writes."""
        ran = subprocess.run([CICSLOOK], input="HELP\n", capture_output=True, text=True, check=False)
        page = read(os.path.join(TOP, "docs/man/cicslook.1")).decode().replace("\\-", "-")
        shown = page.partition(".nf\n")[2].partition("\n.fi")[0].split("\n")
        self.assertEqual({line.removeprefix("> ") for line in ran.stdout.splitlines()}, {*shown})

    def test_versions(self) -> None:
        due = read(os.path.join(TOP, "VERSION")).decode()
        self.assertEqual([called(companion, ["--version"], TOP).out.decode() for companion in COMPANIONS], [f"{it} {due}" for it in COMPANIONS])

    def test_others(self) -> None:
        """./release refuses programs that ./prove didn't build of these sources, or makes an archive of those that it did."""
        with tempfile.TemporaryDirectory() as folder:
            ran = subprocess.run([os.path.join(TOP, "release"), "--out", folder], capture_output=True, text=True, timeout=300, check=False)
            made = os.listdir(folder)
        lines = ran.stderr.splitlines()
        is_refused = ran.returncode == 1 and len(lines) == 1 and lines[0].startswith("release: ") and not made
        self.assertTrue(is_refused or ran.returncode == 0 and len(made) == 1, (ran, made))

    @unittest.skipUnless(shutil.which("objdump"), "objdump isn't installed")
    def test_needed(self) -> None:
        self.assertTrue(needed_of(CICSLOOK))
