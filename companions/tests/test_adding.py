"""A companion that is made as docs/COMPANIONS.md says ("Adding a companion"): `cics-ends`, which stands beside this file."""
from tests.calling import Call, failures_of
from tests.case import PROGRAMS, TestCase

SOURCE = "SOURCE P\nP        CSECT\n         EXEC  CICS RETURN\n         END\n/*\nSOURCE Q\nQ        CSECT\n         DC    H'0'\n         END\n/*\n"
SCRIPT = f"{SOURCE}TRANSACTION P P\nTRANSACTION Q Q\nTERMINAL T001\nKEY T001 ENTER P\nRUN T001\n"
ABENDS = f"{SCRIPT}KEY T001 ENTER Q\nRUN T001\n"
NAME = "tests/cics-ends"
CALLS = [
    Call("a task that ends", NAME, ["s.script"], 0, ["TURN T001 Ended"], {"s.script": SCRIPT}),
    Call("one that abends", NAME, ["s.script"], 1, ["TURN T001 Ended", "TURN T001 Abended ASRA"], {"s.script": ABENDS}),
    Call("a bad line", NAME, ["s.script"], 3, [], {"s.script": f"{SCRIPT}NONE\n"}, "cics-ends: "),
    Call("no file", NAME, ["s.script"], 3, [], {}, "cics-ends: s.script: No such file"),
    Call("wrong words", NAME, ["s.script", "--none"], 2, [], {}, "write: cics-ends"),
    Call("another program", NAME, ["s.script", "--cicslook", "/bin/true"], 3, [], {"s.script": SCRIPT}, "cics-ends: /bin/true: it isn't cicslook"),
]


class AddingTest(TestCase):
    def test_calls(self) -> None:
        for call in CALLS:
            self.none_of(failures_of([call], [] if "--cicslook" in call.words else PROGRAMS))
