"""The loops of bench/loop-images, and runs of them by tool_machine, or by a program that it was before."""
import glob
import os
from collections.abc import Sequence

from cics.child import TOP, read
from checks.examples import text_of
from checks.measuring import Taken, failing, taken

FOLDER = os.path.join(TOP, "bench/loop-images")
NOTHING = b"not performed\n"
HEADINGS = {"tool_machine": ["MEASURE loops"], "tool_bench": ["loops"]}  # a program that was before reads none


def names() -> list[str]:
    return sorted(os.path.basename(path).removesuffix(".hex") for path in glob.glob(f"{FOLDER}/*.hex"))


def image_of(name: str) -> str:
    return "".join(read(f"{FOLDER}/{name}.hex").decode().split())


def performed(program: str, name: str, slices: int, front: Sequence[str] = ()) -> tuple[int, Taken]:
    """How many instructions a run performs of a loop, and what it takes, over the store that keeps what it fetches, where the program has
    it. Words in front of the program start it."""
    heading = HEADINGS.get(os.path.basename(program), [])
    for store in ("kept", "paged"):
        it = taken([*front, program], text_of([*heading, f"{store} {slices} {image_of(name)}"]))
        if it.ended.out != NOTHING:
            break
    if it.ended.status or not it.ended.out.endswith(b" instructions\n"):
        raise failing(program, f"it says {it.ended}")
    return int(it.ended.out.split()[0]), it
