"""What the tests share: the programs that are tested, and a case all of whose expectations are looked at."""
import os
import unittest

from cics.child import TOP
from cics.programs import beside, found_program, is_executable

COMPANIONS = os.path.join(TOP, "companions")


def tested(name: str) -> str:
    """A program that is tested: the one that stands where the given one does, or in the release or repository."""
    given = os.environ.get("TESTED_PROGRAM")
    path = beside(given, name) if given else found_program(name)
    if path is None or not is_executable(path):
        raise SystemExit(f"FAILED: no program stands at {path or name}")
    return path


CICSLOOK, CICSEDF = tested("cicslook"), tested("cicsedf")
PROGRAMS = ["--cicslook", CICSLOOK]
FAULTS: list[str] = []  # of the test that runs


def expect(what: str, holds: object, seen: object = "") -> None:
    """Notes what isn't so; the test goes on, and fails at its end."""
    if not holds:
        FAULTS.append(f"{what}: {seen!r}"[:2000])


class TestCase(unittest.TestCase):
    """A test that fails by all that it found."""

    maxDiff = None

    def setUp(self) -> None:
        FAULTS.clear()

    def tearDown(self) -> None:
        self.none_of(FAULTS)

    def none_of(self, failures: list[str]) -> None:
        if failures:
            self.fail("\n".join([f"{len(failures)} failures", *failures]))
