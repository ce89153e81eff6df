"""Instructions that the region hasn't: drawn cases done by what cics-adapt writes, against what the instruction leaves, by Hercules."""
from tests.case import TestCase
from tests.exact.drawing import FORMS
from tests.exact.running import results_of
from tests.exact.vectors import cases, kept, line_of

MOST = 50


class InstructionsTest(TestCase):
    def test_results(self) -> None:
        due = kept()
        self.assertEqual(set(due), set(FORMS))
        for operation, lines in due.items():
            numbers = [int(line.split(" ")[1]) for line in lines]
            drawn = cases(operation, numbers)
            found = [line_of(case, number, result) for number, case, result in zip(numbers, drawn, results_of(drawn))]
            self.none_of([f"{case.text}: {one}, where {other} is due" for case, one, other in zip(drawn, found, lines) if one != other])
            self.assertGreaterEqual(len(lines), MOST)
