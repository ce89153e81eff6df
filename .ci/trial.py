"""Tries wrong bodies over what `rt ci` has proved in a folder. A check of the crate with an edit is asked for the functions that it edits alone,
with what these call; where it edits something else, as a type or a constant, for the whole crate. The edit is refused where a goal is left
that isn't proved, in whatever function or lemma; a proof file that names what the edit took away says little of the contract."""
import os
import re
import shutil
import subprocess
import tempfile
from collections.abc import Collection
from concurrent.futures import ThreadPoolExecutor
from functools import partial

import measured
from progress import Progress
from rattle import Item, Unclear, items_of
from repository import check_words, text_of, write
from wrong_bodies import Edits, by_crate, crate_of, pairs_of

UNPROVED = re.compile(r"(?m)^note: src/\S+:\d+:\d+: (?:it is not proved |`search` found no proof )")
UNADMITTED = re.compile(r"(?m)^(?:\./)?proofs/\S+\.antt:\d+:\d+: error: (.*)")  # of any file of proofs, as of a lemma on a constant
NAMES = re.compile(r"has no field|is not in scope|has no `|(was|were) not (admitted|checked)")
NOT_PROVED = re.compile(r"(?m)^logic=not-proved\b")
ASKED = re.compile(r"(?m)^only=(\d+) proved=(\d+)$")  # of a check of some functions: how many were asked for, and how many are proved
NO_FUNCTION = re.compile(r"(?m)^rattle: error: `\w+` has no function `[^`]+`")


def is_unproved(said: str) -> bool:
    """Whether a check, of a crate or of some functions of it, ends with something that isn't proved."""
    asked = ASKED.search(said)
    return bool(NOT_PROVED.search(said) or asked and int(asked[2]) < int(asked[1]))


def is_refused(said: str) -> bool:
    """Whether it ends so, and finds a goal that isn't proved."""
    goals = UNPROVED.search(said) or any(not NAMES.search(it[1]) for it in UNADMITTED.finditer(said))
    return bool(goals) and is_unproved(said)


def path_of(path: str, function: Item) -> str:
    """The path by which a check calls a function of a source: a trait's name stands after its type's."""
    module = re.sub(r"(^|/)(lib|main|mod)$", "", path.removeprefix("src/").removesuffix(".rt")).replace("/", "::")
    return "::".join(filter(None, (module, function.owner + function.trait, function.name)))


def functions_edited(edit: str, crate: str) -> list[str]:
    """The paths of the functions that an edit of the crate in a folder edits; none where it edits something else too."""
    found = list[str]()
    for path, old, _ in pairs_of(text_of(edit)):
        text = text_of(f"{crate}/{path}")
        at, many = text.find(old), text.count(old)
        try:
            around = [it for it in items_of(text) if it.kind == "fn" and it.start < at + len(old) and at < it.end]
        except Unclear:
            around = []
        if many != 1 or not around:
            return []
        found += [path_of(path, it) for it in around]
    return [*dict.fromkeys(found)]


def ran(words: list[str], folder: str) -> tuple[int, str, float]:
    """A command's status, what it says, and the processor seconds that it and all that it began took."""
    with tempfile.TemporaryFile() as said:
        begun = subprocess.Popen(words, cwd=folder, stdin=subprocess.DEVNULL, stdout=said, stderr=subprocess.STDOUT)
        _, status, usage = os.wait4(begun.pid, 0)
        begun.returncode = os.waitstatus_to_exitcode(status)
        said.seek(0)
        return begun.returncode, said.read().decode(errors="replace"), usage.ru_utime + usage.ru_stime


def tried(repository: Edits, edit: str) -> tuple[bool, int]:
    """Whether an edit is refused, and the processor seconds of the check."""
    crate = crate_of(edit)
    words, functions = check_words(repository, crate), functions_edited(repository.edits[edit], f"{repository.root}/crates/{crate}")
    with tempfile.TemporaryDirectory(prefix="wrong-bodies-") as room:
        shutil.copytree(f"{repository.root}/crates/{crate}", room, ignore=shutil.ignore_patterns("out"), dirs_exist_ok=True)
        for path, text in repository.edited(edit).items():
            write(f"{room}/{path}", text)
        _, said, seconds = ran([*words, *(word for it in functions for word in ("--only", it))], room)
        if NO_FUNCTION.search(said):
            _, said, more = ran(words, room)
            seconds += more
    return is_refused(said), round(seconds)


def attempt_built(repository: Edits, edits: Collection[str], at_once: int = 1) -> dict[str, int | None]:
    """Tries edits over what `rt ci` has built in the repository's folder, says of each whether it is refused, and how many are and aren't. Gives
    those that are, with the seconds that they took."""
    refused: dict[str, int | None] = {}
    with ThreadPoolExecutor(at_once) as pool:
        for edit, (is_well, seconds) in zip(edits, pool.map(partial(tried, repository), edits)):
            refused |= {edit: seconds} if is_well else {}
            print(f"wrong body {edit}: {f'refused, {seconds} s' if is_well else 'NOT REFUSED'}", flush=True)
    print(f"{len(refused)} passed, {len(edits) - len(refused)} failed")
    return refused


def attempt(repository: Edits, edits: Collection[str]) -> dict[str, int | None]:
    """Has `rt ci` prove a copy of the crates that edits need, tries there those of the crates that are proved, and records those that are
    refused, which it gives."""
    jobs, progress = measured.one_job_each(), Progress()
    with tempfile.TemporaryDirectory(prefix="wrong-bodies-") as room:
        os.chmod(room, 0o711)  # `rt ci` runs programs as nobody
        copy = f"{room}/copy"
        repository.copy(copy, set[str]().union(*map(repository.below, by_crate(edits))))
        said = subprocess.run(["rt", "ci"], cwd=copy, env={**os.environ, **jobs}, capture_output=True, text=True, errors="replace", check=False).stdout
        told = [it for line in said.splitlines(True) if (it := progress.read(line))]
        print("".join(it.report for it in told), end="")
        proved = {it.crate for it in told if it.is_proved()}
        refused = attempt_built(Edits(copy, repository.logic, repository.costs), [it for it in edits if crate_of(it) in proved], int(jobs["RT_JOBS"]))
    repository.write(refused, repository.now())
    unproved = sorted({crate_of(it) for it in edits} - proved)
    print("".join(f"{it}: not proved, so its edits aren't tried\n" for it in unproved) + f"{len(refused)} of {len(edits)} edits refused", flush=True)
    return refused
