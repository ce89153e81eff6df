"""Programs as shops have them, in examples/adapt: what is told of each is the list that is kept, and without the statements that are left
the new source has no fault. A second time nothing changes. With the old text kept the statements are the same. And sources that are
accepted as they are stay so: those of the lessons and of examples/sources, but for what means something else there."""
import glob
import os

from cics.adapting import Adapted, adapted
from cics.assembler_files import encoded
from cics.child import TOP, lines_of, read, run
from cics.instructions import INSTRUCTIONS
from cics.scripts import actions_of
from cics.sources import SourceText, read_source
from cics.statements import Statement, comment_of
from tests.case import CICSLOOK, TestCase

FOLDER = os.path.join(TOP, "examples/adapt")
ACCEPTED = os.path.join(TOP, "examples")
TOLD = {"lessons/03-link/price": 3, "sources/absent-output": 1, "sources/without-an-end": 1, "sources/without-lines": 1}  # of accepted ones
WRITE = "; write: "  # what follows it in a line that is told is from a page of the manual


def stand_in(statement: Statement) -> str:
    """What stands for a statement that is left: its name, and what doesn't matter."""
    if statement.operation in ("COPY", "ORG"):
        return "*"
    operation = "NOPR  0" if statement.operation in INSTRUCTIONS or statement.operation == "EXEC" else "DS    0H"
    return f"{statement.name:<8} {operation}"


def without_left(result: Adapted) -> list[str]:
    """The lines of the new source, without the statements that are left."""
    left = {entry.origin.order for entry in result.log.told if entry.is_left}
    found: list[str] = []
    for group in result.groups:
        is_left = group.old.origin.order in left
        found += [stand_in(group.old)] if is_left else group.lines(is_kept=False)
    return found


def lost_in(result: Adapted, lines: list[str], path: str) -> list[str]:
    """The lines of a source that are neither in the new one, as they are or as a comment, nor told."""
    new, told_lines = set(result.lines()), {entry.origin.number for entry in result.log.told if entry.origin.file == path}
    firsts = {one.origin.number + at: one.origin.number for group in result.groups for one in (group.old,) for at in range(len(one.lines))
              if one.origin.file == path}
    return [line for number, line in enumerate(lines, 1) if line not in new and comment_of(line) not in new and firsts.get(number, number) not in told_lines]


def of_program(path: str) -> list[str]:
    name = os.path.basename(path)
    folders = [f"{FOLDER}/copy"]
    source = read_source(f"{path}.asm")
    result = adapted(source, f"{path}.asm", folders)
    wrong = []
    if [line.split(WRITE)[0].replace(f"{FOLDER}/", "") for line in result.log.lines()] != lines_of(read(f"{path}.told").decode()):
        wrong.append(f"{name}: told is not the list that is kept")
    if lost := lost_in(result, source.lines, f"{path}.asm"):
        wrong.append(f"{name}: neither written nor told: {lost}")
    if adapted(SourceText(result.lines()), f"{path}.asm", folders).lines() != result.lines():
        wrong.append(f"{name}: a second time it changes something")
    ended = run([CICSLOOK], encoded(["FAULTS P", *without_left(result), "/*"]))
    if ended.lines() != ["> FAULTS P NONE"]:
        wrong.append(f"{name}: faults of what isn't left: {ended.lines()[:3]}")
    kept = adapted(source, f"{path}.asm", folders, is_kept=True)
    statements = [[line for line in one.lines() if not line.startswith("*")] for one in (kept, result)]
    if statements[0] != statements[1]:
        wrong.append(f"{name}: with the old text kept the statements are others")
    return wrong


class ProgramsTest(TestCase):
    def test_of_shops(self) -> None:
        paths = sorted(path.removesuffix(".asm") for path in glob.glob(f"{FOLDER}/*.asm"))
        self.none_of([failure for path in paths for failure in of_program(path)])
        self.assertGreaterEqual(len(paths), 7)

    def test_accepted(self) -> None:
        """No source is changed, and no more is told than is due."""
        wrong = []
        for path in sorted(glob.glob(f"{ACCEPTED}/lessons/*/*.script") + glob.glob(f"{ACCEPTED}/sources/*.script")):
            name = path.removeprefix(f"{ACCEPTED}/").removesuffix(".script")
            blocks = [action.block for action in actions_of(read(path).decode()) if action.word == "SOURCE"]
            results = {tuple(block): adapted(SourceText(block), "OLD.asm", []) for block in blocks}
            count = sum(len(result.log.told) for result in results.values())
            changed = [block for block, result in results.items() if list(block) != result.lines()]
            if count != TOLD.get(name, 0) or changed and name not in TOLD:
                wrong.append(f"{name}: {count} lines told, {len(changed)} sources changed")
        self.none_of(wrong)
