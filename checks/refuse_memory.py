"""Runs each example, or with --looks each of those with looks, with each of its allocations
refused, one in each run (of more than 2,000 a fixed choice, unless --all is given). Each run must end with status 4,
its line on standard error, and the first lines of the transcript; or as it does without a refusal, where the line of the script that a
fault is of may not be shown. Of each example some run must end with status 4. With --looks, a RUN of two turns must end also after the first,
with the line of that turn written.
"""
from functools import partial

from cics.child import Ended, run
from checks.common import Case, Check, Counts, require
from checks.examples import each_of, examples, looks
from checks.refusing import ALL, Sweep, library, of_example

RUN = b"""IMAGE RET1 80
4100F01C5000F0189680F0184110F018
41E0080005EE0000000000000E080000
/*
TERMINAL T001
TRANSACTION RET1 RET1
KEY T001 ENTER RET1
RUN T001
"""
FIRST_TURN = 5  # lines of its transcript up to that of the first turn
SEARCHES = ("choices/tally", "orders/keys")  # of the examples with CHOICES and ORDERS those with lines of each kind
ENDED, AFTER_TURN, SAME = "refusals that end the run", "that end RUN after its first turn", "that change nothing"


def judge(sweep: Sweep, _nth: int, ended: Ended) -> str | None:
    status, out, reported = sweep.wanted
    if ended in (sweep.wanted, Ended(status, out, b"".join(reported.splitlines(True)[:1]))):
        return SAME
    is_reported = ended.status == 4 and ended.reported == b"cicsedf: memory\n" and sweep.is_front_of_lines(ended.out)
    return ENDED if is_reported else None


def judge_turns(sweep: Sweep, nth: int, ended: Ended) -> str | None:
    """The word for a run that ends after the first turn is another."""
    word = judge(sweep, nth, ended)
    return AFTER_TURN if word == ENDED and ended.out.count(b"\n") == FIRST_TURN else word


def swept(path: str, program: str, is_all: bool, name: str) -> Counts:
    """All of an example's runs must end as they should, and some with status 4."""
    words = of_example(path, program, name, "memory").tried(judge, is_all)
    require(words[ENDED], "no refusal ends the run")
    return words


def is_written_by_turns(path: str, program: str) -> Counts:
    """The line of RUN's first turn must be written before the second is done."""
    words = Sweep(path, [program], run([program], RUN), "memory", RUN).tried(judge_turns)
    require(words[AFTER_TURN], "no refusal ends it after its first turn")
    return words


def main(words: list[str]) -> int:
    check = Check(__name__, __doc__, words, "cicsedf", flags={**ALL, "looks": "of the examples with looks, by cicslook"})
    program, has_looks = check.program(), check.has("looks")
    names = [name for name in looks() if name in SEARCHES or not name.startswith(("choices/", "orders/"))] if has_looks else examples()
    with library() as path:
        cases = each_of(names, partial(swept, path, program, check.has("all")))
        cases += [Case("RUN", partial(is_written_by_turns, path, program))] if has_looks else []
        return check.report(cases, {ENDED: 1})
