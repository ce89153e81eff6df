"""Runs each example with each of its reads, and then of its writes, failing, or moving one byte alone.
Those of the folder of examples itself, and one of cases, are run so again while every read and write moves at most seven bytes, so that they
fail in mid-stream. Of more than 2,000 calls a fixed choice fails, unless --all is given.

A run whose read failed must end with status 3, its line on standard error, and the first lines of the transcript, all of them
where it was the read that finds the script's end. One whose write failed must end with status 3, its line, and a front of the
transcript, but not all of it; where it was the write of a fault's line, that line alone is missing. A read or a write that
moves fewer bytes must change nothing.
"""
from collections import Counter
from functools import partial

from cics.child import Ended
from checks.common import Case, Check, Counts, require
from checks.examples import each_of, examples
from checks.refusing import ALL, Sweep, judge_same, library, of_example

IN_PIECES = ["cases/edf-stopped"]
PIECE = 7


def judge_read(sweep: Sweep, nth: int, ended: Ended) -> str | None:
    is_reported = ended.status == 3 and ended.reported == b"cicsedf: read\n" and sweep.is_front_of_lines(ended.out)
    is_whole = nth != sweep.count or sweep.wanted.status != 0 or ended.out == sweep.wanted.out
    return "reported" if is_reported and is_whole else None


def judge_write(sweep: Sweep, _nth: int, ended: Ended) -> str | None:
    status, out, reported = sweep.wanted
    if ended.out == out:
        is_unreported = ended.status == status and reported.startswith(ended.reported) and ended.reported != reported
        return "unreported" if is_unreported else None
    return "reported" if ended.status == 3 and ended.reported == b"cicsedf: write\n" and out.startswith(ended.out) else None


def swept(path: str, program: str, is_all: bool, piece: int, name: str) -> Counts:
    """All of an example's runs must end as they should."""
    counts: Counts = Counter()
    for calls, judge in (("read", judge_read), ("write", judge_write)):
        for short, judge_it in ((0, judge), (1, judge_same)):
            sweep = of_example(path, program, name, calls, short, piece)
            if calls == "read" or any(sweep.wanted[1:]):
                runs = sweep.tried(judge_it, is_all)
                counts[f"short {calls}s" if short else f"failing {calls}s"] += runs.total()
    require(counts["failing reads"], "no read failed")
    return counts


def main(words: list[str]) -> int:
    check = Check(__name__, __doc__, words, "cicsedf", flags=ALL)
    program, is_all = check.program(), check.has("all")
    in_pieces = [name for name in examples() if "/" not in name or name in IN_PIECES]
    with library() as path:
        whole = each_of(examples(), partial(swept, path, program, is_all, 0))
        pieces = [Case(f"{name}, of {PIECE} bytes", partial(swept, path, program, is_all, PIECE, name)) for name in in_pieces]
        return check.report([*whole, *pieces], {"failing reads": 1, "failing writes": 1})
