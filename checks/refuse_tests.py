"""Runs tests of four libraries while each of their allocations is refused, one in each run. They are those of calls that may take memory,
as `rt ci` or `rt test` built them. Each run must pass: such a test accepts out of memory in place of any answer, and no other answer in
place of the one that is due. In the same module a test of these calls with ample memory accepts out of memory in place of none: it passes,
and fails with each allocation refused."""
from collections import Counter
from collections.abc import Iterator
from functools import partial

from cics.child import Ended
from checks.common import Case, Check, Counts, built
from checks.refusing import Judge, Sweep, judge_same, library

PASSED = Ended(0, b"\ntest result: ok\n", b"")  # how a test program ends whose test passed
AMPLE = "ample_memory_does_not_run_out"
ASSERTION = b"assertion failed: "  # what a test that is stopped by one writes
TESTS = {
    ("test_sources", "expression_memory"): ["a_refused_allocation_is_no_other_answer"],
    ("test_sources", "operand_memory"): ["a_refused_allocation_is_no_other_answer"],
    ("test_sources", "image_row"): ["a_refused_allocation_is_no_other_answer"],
    ("test_machine", "stores"): ["a_large_area", "keeps_all_when_refused"],
}


def judge_failed(_sweep: Sweep, _nth: int, ended: Ended) -> str | None:
    """The word for runs of a test that must fail: it answers the error, or an assertion of it doesn't hold."""
    return "failed" if ended.status > 0 or ASSERTION in ended.reported + ended.out else None


def swept(path: str, crate: str, test: str, judge: Judge) -> Counts:
    """A test must pass whole, and be with each allocation refused what the judge looks for."""
    words = Sweep(path, [built(crate, f"{crate}_tests"), test], PASSED, "memory").tried(judge)
    return Counter({"allocations refused": words.total()})


def cases(path: str) -> Iterator[Case]:
    for (crate, module), tests in TESTS.items():
        for test, judge in [*((test, judge_same) for test in tests), (AMPLE, judge_failed)]:
            yield Case(f"{crate}, {module}::{test}", partial(swept, path, crate, f"{module}::{test}", judge))


def main(words: list[str]) -> int:
    check = Check(__name__, __doc__, words)
    for crate in {crate for crate, _ in TESTS}:
        built(crate, f"{crate}_tests")
    with library() as path:
        return check.report(cases(path))
