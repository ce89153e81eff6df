"""Tests of what is marked: of two films the first difference in what is shown, at events that are paired by keys; of outcomes each that differs."""
import shutil
import unittest

from cics.child import TOP, read
from cics.film.command import events_of, filmed
from cics.film.pairs import marks_of, pairs_of
from cics.film.recorder import Film
from cics.scripts import actions_of
from tests.case import CICSLOOK, TestCase
from tests.film.trials import data_of, page, script_ran

LESSON = f"{TOP}/examples/lessons/changing/pgm7"
OLD = read(f"{LESSON}.asm").decode()
LONGER = read(f"{LESSON}-enq.asm").decode()
WRONG = OLD.replace("LA    4,1(0,4)", "LA    4,2(0,4)")


def script(source: str) -> str:
    keys = "".join("KEY T001 ENTER TICK\nRUN T001\n" for _ in range(3))
    return f"SOURCE PGM7\n{source}/*\nTRANSACTION TICK PGM7\nTERMINAL T001\n{keys}"


def film(source: str) -> Film:
    return filmed("a script", script(source), CICSLOOK)


class PairsTest(TestCase):
    def test_a_longer_source(self) -> None:
        """The programs differ, and so do their turns; what is shown doesn't."""
        old, new = film(OLD), film(LONGER)
        pairs = pairs_of(old, new)
        self.assertEqual((pairs.differs, pairs.marked), (None, None))
        self.assertNotEqual(len(old.events), len(new.events))
        keys = [[at for at, event in enumerate(it.events) if event.text.startswith("KEY ")] for it in (old, new)]
        self.assertEqual([pair for pair in zip(*keys) if pair not in pairs.steps], [])
        self.assertEqual(pairs.steps[-1], (len(old.events) - 1, len(new.events) - 1))

    def test_a_difference_on_a_screen(self) -> None:
        old, new = film(OLD), film(WRONG)
        pairs = pairs_of(old, new)
        assert pairs.marked and pairs.differs is not None
        for it, at in zip((old, new), pairs.marked):
            self.assertIn("screen T001", it.events[at].changes)
        second = [at for at, event in enumerate(old.events) if event.text.startswith("KEY ")][1]
        self.assertGreater(pairs.marked[0], second, "the first ticket is the same")
        self.assertEqual(pairs.steps[pairs.differs], pairs.marked)

    def test_an_abend(self) -> None:
        old, new = film(OLD), film(OLD.replace("L1       MVC", "L1       DC    H'0'\n         MVC"))
        pairs = pairs_of(old, new)
        assert pairs.marked
        self.assertIn(" Abended ", new.events[pairs.marked[1]].answer[0])

    def test_in_a_page(self) -> None:
        found = data_of(page(("old", script(OLD)), ("new", script(WRONG))))[0]["pairs"]
        self.assertEqual(len(found["marked"]), 2)

    def test_films_that_are_cut(self) -> None:
        old, new = film(OLD), film(LONGER)
        new.left_out = 1
        self.assertEqual(pairs_of(old, new).steps[3], (3, 3))


class MarksTest(TestCase):
    def test_bytes(self) -> None:
        marks = marks_of([["001000  00000002  ....", "AREA 001000"], ["001000  00000001  ....", "AREA 001000"]])
        self.assertEqual(marks, [[[(15, 16)], []]] * 2)

    def test_the_same_lines_elsewhere(self) -> None:
        """Each line is in both, and the outcomes differ: both are marked."""
        one = ["SCREEN T001", "01|TICKET 00002", "SCREEN T002", "01|TICKET 00003"]
        other = ["SCREEN T001", "01|TICKET 00003", "SCREEN T002", "01|TICKET 00002"]
        self.assertEqual(marks_of([one, other]), [[[], [(14, 15)], [], [(14, 15)]]] * 2)

    def test_a_line_that_one_has_alone(self) -> None:
        one, other = ["SCREEN T001", "01|A"], ["SCREEN T001", "01|A", "02|B"]
        self.assertEqual(marks_of([one, other]), [[[(0, 11)], [(0, 4)]], [[], [], [(0, 4)]]])

    def test_none(self) -> None:
        self.assertEqual(marks_of([["SCREEN T001"], ["SCREEN T001"]]), [[[]], [[]]])


class EstimateTest(TestCase):
    def test_run_of_few_turns(self) -> None:
        """What a film takes is told by the turns that RUN does, not by those that it may do."""
        text = script(OLD).replace("RUN T001\n", "RUN T001 4096\n")
        self.assertEqual(events_of(actions_of(text), CICSLOOK, "@@@@"), len(filmed("a script", text, CICSLOOK).events))


class NoEventTest(TestCase):
    def test_a_film_of_no_event(self) -> None:
        for text in ("", "* a comment\n", "TASKS\n"):
            self.assertEqual(data_of(page(("nothing", text)))[0]["events"], [])
        found = data_of(page(("nothing", ""), ("something", "TERMINAL T001\n")))[0]["pairs"]
        self.assertEqual(found["steps"], [[0, 0]])

    @unittest.skipUnless(shutil.which("node"), "node isn't installed")
    def test_keys_of_a_page(self) -> None:
        """What the page says of where it is, after each key; none ends its script."""
        longer = data_of(page(("old", script(OLD)), ("new", script(LONGER))))[0]["pairs"]["steps"]
        cases: list[tuple[list[tuple[str, str]], list[str]]] = [
            ([("nothing", "")], ["no event"] * 5 + ["no event"]),
            ([("some", "TERMINAL T001\nTERMINAL T002\n")], ["event 1 of 2", "event 1 of 2", "event 2 of 2", "event 2 of 2", "event 1 of 2", "Copied."]),
            ([("nothing", ""), ("some", "TERMINAL T001\n")], ["step 1 of 1"] * 5 + ["no event"]),
            ([("old", script(OLD)), ("new", script(LONGER))], [f"step {at} of {len(longer)}" for at in (1, 1, 2, len(longer), 1)] + ["Copied."])]
        for texts, due in cases:
            with self.subTest(texts[0][0]):
                self.assertEqual(script_ran(page(*texts), "c", "ArrowRight", "End", "Home"), due)
