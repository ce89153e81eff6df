"""The branches on registers that have names of their own: what the program makes of their BCR is what GNU as makes of the branch, as
branches.table keeps it."""
import os

from cics.adapting import adapted
from cics.assembler_files import encoded
from cics.child import lines_of, read, run
from cics.instructions import MASKS
from cics.sources import SourceText
from tests.case import CICSLOOK, TestCase

TABLE = os.path.join(os.path.dirname(os.path.abspath(__file__)), "branches.table")


def table() -> dict[str, str]:
    """The bytes of each branch."""
    rows = [line.split() for line in lines_of(read(TABLE).decode()) if not line.startswith("*")]
    return {row[0]: row[1] for row in rows}


class BranchesTest(TestCase):
    def test_bytes(self) -> None:
        due = table()
        new = adapted(SourceText(["P        CSECT", *(f"         {name:<5} 14" for name in due), "         END"]), "OLD.asm", []).lines()
        ended = run([CICSLOOK], encoded(["SOURCE P LIST", *new, "/*"]))
        found = [line[7:23].strip() for line in ended.lines() if line[:6].strip()][: len(due)]
        self.none_of([f"{name}: {code}, where GNU as has {due[name]}" for name, code in zip(due, found) if code != due[name]])
        self.assertEqual((set(due), len(found)), (set(MASKS), len(due)))
