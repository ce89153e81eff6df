"""Runs 10,000 hostile images by tool_region, which looks at the region after each event. It must end well, print no violation, and print
of each answer that must come how often it came: at least of those that bytes of any values don't reach."""
import os
import re
from collections import Counter
from collections.abc import Iterator
from functools import partial

from cics.child import TOP, Ended, read, run
from checks.common import Case, Check, Counts, Wrong

INPUT = os.path.join(TOP, "crates/tool_region/stdin")
IMAGES = 10_000
SECONDS = 280  # for all of them
DUE = {"Waiting", "Returned", "ITEMERR", "NOSTG", "NOSPACE", "ENQBUSY", "QIDERR"}


def material() -> bytes:
    """The hostile programs of the crate's input, which a line LISTS ends, for a number of images: the line after HOSTILE is their number."""
    lines = read(INPUT).split(b"\n")
    return b"\n".join([b"HOSTILE", b"%d" % IMAGES, *lines[2 : lines.index(b"LISTS")], b""])


def faults(ended: Ended, came: dict[str, int]) -> Iterator[str]:
    """What is wrong with the run, a line each."""
    if not ended.is_well():
        yield str(ended)
    yield from (line for line in ended.lines() if line.startswith("image "))
    if f"{IMAGES} images" not in ended.lines():
        yield "not all images were turned"
    yield from (f"{answer} never came" for answer in sorted(DUE | set(came)) if not came.get(answer))


def tried(program: str) -> Counts:
    ended = run([program], material(), seconds=SECONDS)
    came = {answer: int(times) for answer, times in re.findall(r"^(\w+) in all: (\d+)$", ended.out.decode(errors="replace"), re.M)}
    found = list(faults(ended, came))
    if found:
        raise Wrong(*found)
    return Counter({"hostile images": IMAGES, **{f"answers {answer}": came[answer] for answer in sorted(DUE)}})


def main(words: list[str]) -> int:
    check = Check(__name__, __doc__, words, "tool_region")
    return check.report([Case("hostile images", partial(tried, check.program()))])
