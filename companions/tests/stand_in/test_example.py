"""The example's three files through cics-adapt --stand-in and cics-run: screens that were written by hand from the mapset, what is told, statuses,
and that nothing changes without the word."""
import os
import tempfile

from cics.child import TOP, Ended
from cics.statements import comment_of
from tests.calling import called, put
from tests.case import PROGRAMS, TestCase, expect

EXAMPLE = os.path.join(TOP, "examples/stand-in")
GIVEN = ["--stand-in", f"{EXAMPLE}/partinq.asm", "--bms", f"{EXAMPLE}/partset.bms", "--file", f"PARTS={EXAMPLE}/parts.csv,key=PRNUMBER", "--out"]
WORDS = [*GIVEN, "shop"]
RUN = ["shop/partinq.asm", "shop/partset.asm", "shop/sfile.asm", "--queue", "PARTS=shop/PARTS.queue"]

# Keys, and the screen after each.
EMPTY = {1: " PART INQUIRY", 3: " NUMBER .", 4: " NAME ...", 5: " ON HAND", 6: " PASSWORD"}
SCREENS: list[tuple[str, dict[int, str]]] = [
    ("PART", EMPTY),
    ("NUMBER=17", {**EMPTY, 3: " NUMBER . 00017", 4: " NAME ... BOLT, HEXAGONAL", 5: " ON HAND     1250", 24: " FOUND"}),
    ("NAME=SCREW;PASS=SECRET", {**EMPTY, 3: " NUMBER . 00017", 4: " NAME ... SCREW", 5: " ON HAND     1250", 24: " CHANGED"}),
    ("NUMBER=42;NAME=A;;B;PASS=X", {**EMPTY, 3: " NUMBER . 00042", 4: " NAME ... A;B", 5: " ON HAND     1250", 24: " THE PASSWORD IS WRONG"}),
    ("NUMBER=42;NAME=", {**EMPTY, 3: " NUMBER . 00042", 4: " NAME ... NUT", 5: " ON HAND    98000", 24: " FOUND"}),
    ("CLEAR", EMPTY),
    ("NUMBER=99", {**EMPTY, 3: " NUMBER . 00099", 24: " NO SUCH PART"}),
    ("NUMBER=17", {**EMPTY, 3: " NUMBER . 00017", 4: " NAME ... SCREW", 5: " ON HAND     1250", 24: " FOUND"}),
    ("PF3", {1: "PART ENDED"})]


class ExampleTest(TestCase):
    def setUp(self) -> None:
        super().setUp()
        temporary = tempfile.TemporaryDirectory()
        self.addCleanup(temporary.cleanup)
        self.folder = temporary.name

    def adapt(self, words: list[str]) -> Ended:
        return called("cics-adapt", words, self.folder)

    def read(self, name: str) -> list[str]:
        with open(os.path.join(self.folder, name), encoding="latin-1") as file:
            return file.read().splitlines()

    def test_screens(self) -> None:
        adapted = self.adapt(WORDS)
        expect("status", adapted.status == 4, adapted)
        expect("what it says", adapted.lines() == [" ".join(["cics-run", *RUN])], adapted.out)
        ran = called("cics-run", [*RUN, *(word for key, _ in SCREENS for word in ("--key", key)), *PROGRAMS], self.folder)
        due = ["STAND-INS: 7"]
        for key, screen in SCREENS:
            named = key if key in ("CLEAR", "PF3") else f"ENTER {key}"
            due += [f"KEY T001 {named}", *(f"{at:02}|{row}" for at, row in sorted(screen.items()))]
        self.assertEqual(ran.lines(), due)

    def test_told(self) -> None:
        told = self.adapt(WORDS).reported.decode().splitlines()
        kinds = [line.split(": ", 2)[1] for line in told]
        self.assertEqual((kinds.count("stands in"), kinds.count("left")), (7, 0))
        head = self.read("shop/partinq.asm")[:3]
        self.assertEqual(head[0], "*STAND-INS: 7 (FILES 3, MAPS 4)")
        self.assertIn("STAND-INS.MD", head[2])
        self.assertTrue(all(self.read(f"shop/{name}.asm")[0].startswith("*STAND-IN OF ") for name in ("partset", "sfile")))

    def test_statements_stay_as_comments(self) -> None:
        told = self.adapt(WORDS).reported.decode().splitlines()
        old, new = self.read(f"{EXAMPLE}/partinq.asm"), self.read("shop/partinq.asm")
        numbers = [int(line.split(":")[1]) for line in told if ": stands in: " in line]
        self.assertEqual([old[number - 1] for number in numbers if comment_of(old[number - 1]) not in new], [])

    def test_map_leads_back(self) -> None:
        self.adapt(WORDS)
        lines, places = self.read("shop/partinq.asm"), self.read("shop/partinq.map")
        self.assertEqual(len(lines), len(places))
        linked = [places[at] for at, line in enumerate(lines) if "LINK PROGRAM('PARTSET')" in line]
        self.assertEqual([int(place.rsplit(":", 1)[1]) for place in linked[:2]], [22, 43])

    def test_condition_that_is_not_handled(self) -> None:
        """Its abend is led to the statement that met it."""
        put(self.folder, {"p.asm": "".join(f"{line}\n" for line in self.read(f"{EXAMPLE}/partinq.asm")).replace("NOTFND(NONE)", "ENDFILE(NONE)")})
        self.adapt([word.replace(f"{EXAMPLE}/partinq.asm", "p.asm") for word in WORDS])
        words = ["shop/p.asm", *RUN[1:], "--map", "shop/p.map", "--key", "PART", "--key", "NUMBER=99", *PROGRAMS]
        lines = called("cics-run", words, self.folder).lines()
        self.assertIn("T001 Abended AEIM", lines)
        self.assertTrue(lines[-1].startswith("WHERE ") and lines[-1].endswith(" OF p.asm:26"), lines[-1])

    def test_statuses(self) -> None:
        self.assertEqual(self.adapt([f"{EXAMPLE}/partinq.asm"]).status, 1)  # maps and files are left
        self.assertEqual(self.adapt([f"{EXAMPLE}/partinq.asm", f"{EXAMPLE}/partinq.asm"]).status, 2)
        self.assertEqual(self.adapt([f"{EXAMPLE}/partinq.asm", "--bms", f"{EXAMPLE}/partset.bms"]).status, 2)
        self.assertEqual(self.adapt(["--stand-in", f"{EXAMPLE}/partinq.asm", "--bms", f"{EXAMPLE}/partset.bms"]).status, 1)  # no file is given
        self.assertEqual(self.adapt(["--stand-in", f"{EXAMPLE}/partinq.asm", "--bms", "nowhere.bms"]).status, 3)
        self.assertEqual(self.adapt(["--stand-in", "-"]).status, 2)
        self.assertEqual(self.adapt(["--stand-in", os.path.join(TOP, "examples/lessons/changing/pgm7.asm")]).status, 0)

    def test_files_that_are_there_stay(self) -> None:
        """Nothing is written over what is read, or over what an earlier run didn't write; what one wrote is written again."""
        self.assertEqual(self.adapt(WORDS).status, 4)
        self.assertEqual(self.adapt(WORDS).status, 4)
        for name in ("partset.asm", "PARTS.queue", "stand-in.list"):
            folder = os.path.join(self.folder, f"of-{name}")
            put(folder, {name: "mine\n"})
            ended = self.adapt([*GIVEN, folder])
            self.assertEqual((ended.status, os.listdir(folder), self.read(os.path.join(folder, name))), (3, [name], ["mine"]), ended)
        put(self.folder, {"PARTS.queue": "PRNUMBER\n00001\n"})
        ended = self.adapt([word.replace(f"{EXAMPLE}/parts.csv", "PARTS.queue").replace("shop", ".") for word in WORDS])
        self.assertEqual((ended.status, "it is read" in ended.reported.decode(), os.path.exists(os.path.join(self.folder, "sfile.asm"))),
                         (3, True, False), ended)

    def test_nothing_changes_without_a_command(self) -> None:
        path = os.path.join(TOP, "examples/lessons/changing/pgm7.asm")
        self.adapt(["--stand-in", path])
        self.assertEqual(self.read("stand-in/pgm7.asm"), self.adapt([path]).lines())

    def test_five_hundred_records(self) -> None:
        rows = "".join(f"{number:05},PART {number},{number}\n" for number in range(500, 0, -1))
        put(self.folder, {"parts.csv": f"PRNUMBER,PRNAME,PRHAND\n{rows}"})
        adapted = self.adapt([word.replace(f"{EXAMPLE}/parts.csv", "parts.csv") for word in WORDS])
        self.assertEqual(adapted.status, 4)
        for number in (1, 250, 500):
            ran = called("cics-run", [*RUN, "--key", "PART", "--key", f"NUMBER={number}", *PROGRAMS], self.folder)
            self.assertIn(f"04| NAME ... PART {number}", ran.lines())

    def test_again(self) -> None:
        """What it wrote is taken without a change."""
        self.adapt(WORDS)
        again = self.adapt(["shop/partinq.asm"])
        self.assertEqual((again.status, again.lines()), (0, self.read("shop/partinq.asm")))
