"""Runs each example, the lessons and those with looks too, and compares what the program writes with the transcript. Of NAME.script what it
writes is compared with NAME.transcript, what it writes on standard error with NAME.stderr, and its status with NAME.status: where one of
the latter two is missing, nothing and 0. Of a script with looks or RUN, which only `cicslook` runs, both are taken without the looks and
with the turns that each RUN did in its place (`checks/plain_scripts.py`, by the transcript). With --looks, for `cicslook`, these scripts
are run as they are. Where a line has a fault `cicslook` writes the line itself too. With --write each example's files are written anew by
the program, and what changes is shown: of examples with looks or RUN with --looks, and of the others without it."""
import difflib
import glob
import os
from collections import Counter
from collections.abc import Iterator
from functools import partial
from itertools import islice

from cics.child import Ended, lines_of, read, run
from cics.cli import say
from checks.common import Case, Check, Counts, Wrong, require
from checks.examples import FAULT, FOLDER, each_of, examples, has_looks, lessons, looks, path_of, plain, wanted
from cics.files import put_file

KINDS = ("transcript", "stderr", "status")
SHOWN = 12  # lines of how a transcript differs


def with_line(due: Ended, script: bytes) -> Ended:
    """How a run of `cicslook` ends, which shows the line of a fault after what is reported of it."""
    fault = FAULT.fullmatch(due.reported)
    if not fault:
        return due
    line = script.split(b"\n")[int(fault[2]) - 1].removesuffix(b"\r")
    return Ended(due.status, due.out, due.reported + bytes(c if 32 <= c < 127 else ord(".") for c in line) + b"\n")


def as_written(program: str, is_plain: bool, shows_lines: bool, name: str) -> Counts:
    script, due = plain(name) if is_plain else (b"", wanted(name))
    due = with_line(due, script) if is_plain and shows_lines else due
    ended = run([program], script) if is_plain and has_looks(name) else run([program, path_of(name)])
    if ended != due:
        raise Wrong(str(ended), *islice(difference(name, due.out, ended.out), SHOWN))
    return Counter()


def no_strays(names: list[str]) -> Counts:
    """Sees that no file beside examples belongs to none."""
    files = [file for kind in KINDS for file in glob.glob(f"**/*.{kind}", root_dir=FOLDER, recursive=True)]
    strays = [file for file in files if os.path.splitext(file)[0] not in names]
    require(not strays, f"they belong to no example: {', '.join(strays)}")
    return Counter({"files": len(files)})


def difference(what: str, old: bytes, new: bytes) -> Iterator[str]:
    """The lines in which two texts differ, as diff -u shows them."""
    before, after = (lines_of(text.decode(errors="replace")) for text in (old, new))
    yield from difflib.unified_diff(before, after, f"{what}, as it is written", f"{what}, by the program", lineterm="")


def written_anew(program: str, name: str) -> Counts:
    """Writes an example's files where the program has something else, and shows what changes."""
    ended, changed = run([program, path_of(name)]), 0
    texts = dict(zip(KINDS, (ended.out, ended.reported, b"%d\n" % ended.status if ended.status else b"")))
    for kind, text in texts.items():
        path = path_of(name, kind)
        old = read(path) if os.path.exists(path) else b""
        if text.strip() != old.strip() or (kind == "transcript" and text != old):
            say(*difference(f"{name}.{kind}", old, text))
            if text or kind == "transcript":
                put_file(path, text)
            else:
                os.remove(path)
            changed += 1
    return Counter({"files written": changed})


def main(words: list[str]) -> int:
    flags = {"looks": "run those with looks or RUN, as they are", "write": "write the examples' files anew"}
    check = Check(__name__, __doc__, words, "cicsedf", flags=flags)
    program, every, is_plain = check.program(), examples() + looks() + lessons(), not check.has("looks")
    if check.has("write"):
        return check.report(each_of([name for name in every if has_looks(name) != is_plain], partial(written_anew, program)))
    shows_lines = run([program], b"QUEUES\n").is_well()  # cicslook does
    cases = each_of([name for name in every if is_plain or has_looks(name)], partial(as_written, program, is_plain, shows_lines))
    return check.report([*cases, Case("files beside examples", partial(no_strays, every))])
