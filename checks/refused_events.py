"""Runs lists of events through tool_region, which gives an event that is answered Memory once more,
with each of their allocations refused, one in each run (of more than 2,000 a fixed choice). What is printed, answers,
tasks, screens and displays, must be what is printed without a refusal: so an event that was answered Memory was none.

The lists are those of the program's crate, and the examples. Without a refusal their answers must be as written: as the
crate's file stdout has them, and as the examples' transcripts have them; and the same over both stores. Examples that fill
storage have no allocation refused here, which would take too long; refuse-memory has them.
"""
import os
import re
from collections import Counter
from collections.abc import Iterator
from functools import partial

from cics.child import TOP, read, run
from checks.common import Case, Check, Counts, require
from checks.examples import examples, script_of, wanted
from checks.refusing import ALL, Sweep, judge_same, library

CRATE = os.path.join(TOP, "crates/tool_region")
FILLING = {"cases/full-storage", "cases/getmain-without-a-place", "cases/no-storage-for-a-key", "cases/storage-exhausted"}
SOURCES = {"sources/return", "sources/literals"}


def lists() -> Iterator[tuple[str, bytes, bytes, bool]]:
    """Each list: its name, its events, what must be printed of it, and whether that is all."""
    parts = [re.findall(rb"^LIST [^\n]*\n(?:(?!LIST )[^\n]*\n)*", read(f"{CRATE}/{file}"), re.M) for file in ("stdin", "stdout")]
    for events, written in zip(*parts, strict=True):
        yield events.split(b"\n", 1)[0].decode(), events, written, True
    for name in examples():
        if (not name.startswith("sources/") or name in SOURCES) and wanted(name).status == 0:
            yield name, script_of(name), wanted(name).out, False


def swept(path: str, program: str, is_sweep_of_all: bool, name: str, events: bytes, written: bytes, is_all: bool) -> Counts:
    """The answers of a list must be those that are written, over both stores, and with each allocation refused."""
    ended = run([program], b"LISTS\n" + events)
    is_written = ended.out == written if is_all else ended.out.startswith(written)
    require(is_written and ended.is_well(), "the answers are not those that are written")
    require(run([program], b"LISTS\nFLAT\n" + events) == ended, "the answers are not the same over both stores")
    if name in FILLING:
        return Counter()
    words = Sweep(path, [program], ended, "memory", b"LISTS\n" + events).tried(judge_same, is_sweep_of_all)
    return Counter({"allocations refused": words.total()})


def main(words: list[str]) -> int:
    check = Check(__name__, __doc__, words, "tool_region", flags=ALL)
    with library() as path:
        sweep = partial(swept, path, check.program(), check.has("all"))
        return check.report((Case(name, partial(sweep, name, *rest)) for name, *rest in lists()), {"allocations refused": 1})
