"""Scripts of `cicslook` as scripts of `cicsedf`: where each RUN ended, by docs/LOOKS-RUNS.md; what is left of looks; and the number of each line."""
from dataclasses import dataclass

from cics.child import lines_of
from checks.plain_scripts import plain_of
from tests.case import TestCase


@dataclass(frozen=True)
class Case:
    """A script with RUN or looks and its transcript; what these are without, and the number that each line has then. / ends a line."""

    what: str
    script: str
    transcript: str
    plain: str
    written: str
    numbers: list[int]


A, P, END = "TURN T AtCommand/", "TURN T Performed NORMAL/", "TURN T Ended/"
CASES = [
    Case("RUN up to the end, a comment, and the next key", "KEY T ENTER X/RUN T/* END/KEY T ENTER X/",
         f"KEY T Attached/{A}{P}{A}{END}KEY T Attached/",
         "KEY T ENTER X/TURN T/TURN T/TURN T/TURN T/* END/KEY T ENTER X/", f"KEY T Attached/{A}{P}{A}{END}KEY T Attached/", [1, 2, 6, 7]),
    Case("RUN that does as many as it may, and a turn after it", "RUN T 2/TURN T/", f"{A}{P}> RUN T STILL RUNNING/{A}",
         "TURN T/TURN T/TURN T/", f"{A}{P}{A}", [1, 3]),
    Case("EDF's stop, at which RUN is answered Held", "RUN T/RUN T/TURN T/", f"{A}TURN T Held/TURN T Held/",
         "TURN T/TURN T/TURN T/", f"{A}TURN T Held/TURN T Held/", [1, 2, 3]),
    Case("a wait, and RUN of another terminal", "RUN T/RUN U/RUN T/", f"{A}TURN T Waiting/TURN U Idle/{P}{END}",
         "TURN T/TURN T/TURN U/TURN T/TURN T/", f"{A}TURN T Waiting/TURN U Idle/{P}{END}", [1, 3, 4]),
    Case("RUN after RUN, each to an end", "RUN T/RUN T/", "TURN T Abended ASRA/TURN T Idle/",
         "TURN T/TURN T/", "TURN T Abended ASRA/TURN T Idle/", [1, 2]),
    Case("RUN that ends in front of an abend, and again", "RUN T 5 BEFORE ABEND/RUN T BEFORE ABEND/TURN T/",
         f"{A}> RUN T STOPPED BEFORE ABEND ASRA/> RUN T STOPPED BEFORE ABEND ASRA/TURN T Abended ASRA/",
         "TURN T/TURN T/", f"{A}TURN T Abended ASRA/", [1, 0, 2]),
    Case("RUN to a line, which it is at then, and to one without a statement", "RUN T 5 TO P 14/run t to p 00014/TURN T/RUN T TO P 3/TASKS/",
         f"{A}> RUN T STOPPED BEFORE P LINE 00014/> RUN T STOPPED BEFORE P LINE 00014/{A}> RUN T TO P LINE 00003 NONE/> T NO TASK/",
         "TURN T/TURN T/", f"{A}{A}", [1, 0, 2, 0, 0]),
    Case("looks between, a block of one among them", "TASKS/FAULTS X/RUN/QUEUES//*/SCREEN T/COMMAND T/",
         "> T NO TASK/> 3 NoEnd QUEUES/SCREEN T/03|X/> COMMAND T NONE/",
         "SCREEN T/", "SCREEN T/03|X/", [0, 0, 0, 0, 0, 1, 0]),
    Case("looks with a comment between, and one after", "TASKS/* A//QUEUES/* B/TURN T/", "> TASKS NONE/> QUEUES NONE/TURN T Idle/",
         "* B/TURN T/", "TURN T Idle/", [0, 0, 0, 0, 1, 2]),
    Case("a source with a line RUN, and a listing", "RUN T/SOURCE P LIST/RUN      CSECT//*/TERMINAL T/",
         "TURN T NoSuchTerminal/LISTED/PROGRAM P AT 010000 LENGTH 000001/TERMINAL T DEFINED/",
         "TURN T/SOURCE P LIST/RUN      CSECT//*/TERMINAL T/",
         "TURN T NoSuchTerminal/LISTED/PROGRAM P AT 010000 LENGTH 000001/TERMINAL T DEFINED/", [1, 2, 3, 4, 5]),
    Case("a fault, after which nothing is answered", "RUN T/BAD/RUN T/SCREEN T/", "TURN T Idle/", "TURN T/BAD/SCREEN T/", "TURN T Idle/", [1, 2, 0, 3]),
]


def lines(text: str) -> list[str]:
    """The lines of a text of a case: an asterisk after two ends is the block's end."""
    return lines_of(text.replace("//*/", "/@/").replace("/", "\n").replace("@", "/*"))


class PlainScriptsTest(TestCase):
    def test_cases(self) -> None:
        for case in CASES:
            with self.subTest(case.what):
                self.assertEqual(plain_of(lines(case.script), lines(case.transcript)), (lines(case.plain), lines(case.written), case.numbers))
