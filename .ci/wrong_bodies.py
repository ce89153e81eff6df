"""The wrong bodies of a repository, the edits crates/NAME/wrong/*.edit, and .ci/wrong.record, which has a line for each that was refused: crate
and edit; the hash of all that the prover read then; the processor seconds that the trial took, or `-`; and the time of the commit over
which it was tried, or `-`. These need no clock: they are compared with each other and with HEAD's alone. A merge may leave two lines of an
edit: the one with today's hash counts, and else the one tried later.

What the prover reads of an edit is the edit, its crate's sources, definitions and proofs, of the crates below their sources and definitions,
all without comments, the lines of crates.txt, and the toolchain's logic (a release of the toolchain with the same logic changes what its
search finds, not what is true of a wrong body). An edit is due where that hash isn't today's."""
import datetime
import functools
import glob
import hashlib
import os
import random
import re
import shutil
import subprocess
from collections.abc import Collection, Iterable
from dataclasses import dataclass
from typing import NamedTuple

import measured
from rattle import Unclear, read_of
from repository import Repository, logic, text_of, write

RECORD = ".ci/wrong.record"
DRAWN = 3
BUDGET = 125  # seconds of each processor
PART = 6  # a trial takes as many times less than its crate's proof
RECENT = 4 * 60 * 60  # seconds: what changed in them is tried always
REFUSED = re.compile(r"^wrong body (\w+/[\w.-]+): refused, (\d+) s$", re.M)
WRONG = "crates/*/wrong/*.edit"


class Line(NamedTuple):
    """What the record has of an edit."""

    read: str
    seconds: int | None = None
    tried: str = ""

    @classmethod
    def of(cls, read: str, seconds: str = "-", tried: str = "-") -> "Line":
        return cls(read, None if seconds == "-" else int(seconds), "" if tried == "-" else tried)

    def text(self) -> str:
        return f"{self.read} {'-' if self.seconds is None else self.seconds} {self.tried or '-'}"


@dataclass(frozen=True)
class Choice:
    """What a run of the gate tries: edits that are drawn, those that were added or changed lately, and the oldest of those that are due; and
    which of the due are left."""

    drawn: list[str]
    changed: list[str]
    oldest: list[str]
    left: list[str]
    seconds: int

    def tried(self) -> list[str]:
        return sorted({*self.drawn, *self.changed, *self.oldest})

    def words(self) -> str:
        return (f"wrong bodies: {len(self.tried())} are tried, of some {self.seconds:,} processor seconds: {len(self.drawn)} drawn, "
                f"{len(self.changed)} added or changed in the last hours before this commit, {len(self.oldest)} of those that are due")


class Misplaced(Exception):
    """Why an edit doesn't apply."""


def pairs_of(text: str) -> list[tuple[str, str, str]]:
    """An edit's pairs of old and new text, each with its file. A new text is on the line after its old one: of two old ones that follow each
    other the first would not be read, and what is tried would be no Rust."""
    path, found, waiting = "", list[tuple[str, str, str]](), list[str]()
    for line in [*text.splitlines(), ""]:
        word, _, rest = line.partition(":")
        if waiting and word != "new":
            raise Misplaced(f"an old text has no new one: {waiting[0][:60]}")
        if word == "file":
            path = rest.strip()
        elif word == "old":
            waiting.append(rest[1:])
        elif word == "new":
            if not waiting:
                raise Misplaced(f"no old text stands in front of: {line[:60]}")
            found.append((path, waiting.pop(), rest[1:]))
    if not found:
        raise Misplaced("it has no pair of old and new")
    return found


def crate_of(edit: str) -> str:
    return edit.split("/")[0]


def by_crate(edits: Iterable[str]) -> dict[str, list[str]]:
    found: dict[str, list[str]] = {}
    for it in edits:
        found.setdefault(crate_of(it), []).append(it)
    return found


class Edits(Repository):
    """A repository's edits, with what the prover reads of each crate."""

    def __init__(self, root: str = ".", its_logic: str | None = None, costs: measured.Measured | None = None) -> None:
        super().__init__(root)
        self.logic = its_logic or logic()
        self.costs = costs or measured.noted(f"{root}/.ci/MEASURED.md")
        self.edits = {name_of(it): it for it in sorted(glob.glob(f"{root}/{WRONG}"))}

    # What is read of an edit

    @functools.cache
    def read(self, crate: str, *folders: str) -> str:
        """The hash of what the prover reads of the crate's files in these folders, and of its line of crates.txt."""
        total = hashlib.sha256(f"{crate}: {' '.join(self.libraries[crate])}\n".encode())
        for path in sorted(it for folder in folders for it in glob.glob(f"{self.root}/crates/{crate}/{folder}/**/*.*t", recursive=True)):
            try:
                text = read_of(path, text_of(path))
            except Unclear:
                text = text_of(path)
            total.update(f"{os.path.relpath(path, self.root)}\n{len(text)}\n{text}\n".encode())
        return total.hexdigest()

    @functools.cache
    def seen(self, crate: str) -> str:
        below = sorted(self.below(crate) - {crate})
        return "\n".join([self.read(crate, "specs", "src", "proofs"), *(self.read(it, "specs", "src") for it in below)])

    @functools.cache
    def hash_of(self, edit: str) -> str:
        read = f"{self.logic}\n{text_of(self.edits[edit])}\n{self.seen(crate_of(edit))}"
        return hashlib.sha256(read.encode()).hexdigest()[:32]

    # The record

    @functools.cached_property
    def recorded(self) -> dict[str, Line]:
        path, found = f"{self.root}/{RECORD}", dict[str, Line]()
        for words in map(str.split, text_of(path).splitlines() if os.path.exists(path) else []):
            edit, line = words[0], Line.of(*words[1:])
            found[edit] = max(found.get(edit, line), line, key=lambda it: (self.is_todays(edit, it), it.tried))
        return found

    def is_todays(self, edit: str, line: Line) -> bool:
        return edit in self.edits and line.read == self.hash_of(edit)

    @functools.cached_property
    def due(self) -> list[str]:
        return [it for it in self.edits if it not in self.recorded or not self.is_todays(it, self.recorded[it])]

    def write(self, refused: dict[str, int | None], tried: str) -> None:
        """Writes the lines of the edits that were refused, with the seconds that each took, where they are known, and when they were tried;
        those of edits that are gone go."""
        lines = {it: its for it, its in self.recorded.items() if it in self.edits}
        for it in self.edits.keys() & refused.keys():
            seconds = refused[it] if refused[it] is not None or it not in lines else lines[it].seconds
            lines[it] = Line(self.hash_of(it), seconds, tried)
        write(f"{self.root}/{RECORD}", "".join(f"{it} {lines[it].text()}\n" for it in sorted(lines)))

    # What is tried

    def git(self, *words: str) -> str:
        """What git says, and nothing where it can't."""
        ran = subprocess.run(["git", *words], cwd=self.root, capture_output=True, text=True, check=False)
        return "" if ran.returncode else ran.stdout.strip()

    @functools.cached_property
    def draw(self) -> random.Random:
        """What draws, by HEAD's hash."""
        return random.Random(self.git("rev-parse", "HEAD"))

    def now(self) -> str:
        """The time of the commit over which edits are tried, to the minute."""
        time = self.git("log", "-1", "--format=%cI")
        return datetime.datetime.fromisoformat(time).astimezone(datetime.timezone.utc).strftime("%Y-%m-%dT%H:%MZ") if time else "-"

    def drawn(self) -> list[str]:
        return self.draw.sample(sorted(self.edits), min(DRAWN, len(self.edits)))

    def changed(self) -> list[str]:
        """The edits that a commit of the last hours before HEAD's, HEAD's itself, or what isn't committed yet, adds or changes; one that
        only has another name is as it was. So it makes no difference in how many commits a change is made."""
        before = self.before_changes() or "HEAD"
        paths = self.git("diff", "--name-only", "-M100%", "--diff-filter=AM", before, "--", WRONG).splitlines()
        paths += self.git("ls-files", "--others", "--exclude-standard", "--", WRONG).splitlines()
        return sorted({name_of(it) for it in paths} & self.edits.keys())

    def before_changes(self) -> str:
        """The newest commit that is older than HEAD's by RECENT, else the first one."""
        time = self.git("log", "-1", "--format=%ct")
        older = time and self.git("rev-list", "-1", f"--before={int(time) - RECENT}", "HEAD")
        return older or self.git("rev-list", "--max-parents=0", "HEAD").rpartition("\n")[2]

    def by_age(self) -> list[str]:
        """The edits that are due: those that were never tried, and then the others from the one on that was tried the longest ago; of
        one time those of a crate together."""
        return sorted(self.due, key=lambda it: (self.recorded[it].tried if it in self.recorded else "", it))

    def seconds_of(self, edits: Collection[str]) -> int:
        """The processor seconds that a trial of these edits is likely to take, once their crates are proved: of each what it took when it was
        last tried, and a part of its crate's proof where that isn't known."""
        lines = {it: self.recorded.get(it, Line("")) for it in edits}
        return sum(self.costs.of(crate_of(it)).proof // PART if line.seconds is None else line.seconds for it, line in lines.items())

    def choice(self, budget: int | None = None) -> Choice:
        """What a run of the gate tries, by a budget of processor seconds, else by the share of each processor. The oldest of those that are
        due goes in wherever anything is left of the budget, so none waits for ever; each other one where it fits."""
        budget = BUDGET * measured.processors() if budget is None else budget
        drawn, changed = sorted(self.drawn()), self.changed()
        chosen, oldest = {*drawn, *changed}, list[str]()
        for it in [edit for edit in self.by_age() if edit not in chosen]:
            if self.seconds_of(chosen) < budget and (not oldest or self.seconds_of({*chosen, it}) <= budget):
                chosen.add(it)
                oldest.append(it)
        left = [it for it in self.by_age() if it not in chosen]
        return Choice(drawn, changed, oldest, left, self.seconds_of(chosen))

    def words_on(self, left: Collection[str]) -> str:
        """How many edits are due and weren't tried, and how old the oldest of them is."""
        tried = sorted(self.recorded[it].tried for it in left if it in self.recorded and self.recorded[it].tried)
        never = sum(it not in self.recorded for it in left)
        said = f"wrong bodies: {len(left)} are due and not tried, of which {never} never were; .ci/wrong tries them"
        return said + (f"; the oldest other was tried {tried[0]}, days before this commit: {self.days_since(tried[0])}" if tried else "")

    def days_since(self, tried: str) -> int:
        now = self.now()
        return (datetime.datetime.fromisoformat(now) - datetime.datetime.fromisoformat(tried)).days if now != "-" else 0

    def edited(self, edit: str) -> dict[str, str]:
        """The texts that an edit makes, by their paths in its crate. Each old text is once in what the pairs before it made."""
        texts = dict[str, str]()
        for path, old, new in pairs_of(text_of(self.edits[edit])):
            file = f"{self.root}/crates/{crate_of(edit)}/{path}"
            if not path.startswith("src/") or not os.path.isfile(file):
                raise Misplaced(f"{path} is no source of the crate")
            text = texts[path] if path in texts else text_of(file)
            if text.count(old) != 1:
                raise Misplaced(f"an old text stands {text.count(old)} times: {old[:60]}")
            texts[path] = text.replace(old, new)
        return texts

    def fault_of(self, edit: str) -> str | None:
        """Why the edit doesn't apply, if so."""
        try:
            self.edited(edit)
        except Misplaced as why:
            return str(why)
        return None

    def faults(self, none_due: bool = True) -> list[str]:
        """What is wrong with the edits and their record; an edit that is due is a fault where none may be."""
        wrong = [f"{it}: {why}" for it in self.edits if (why := self.fault_of(it))]
        if none_due:
            wrong += [f"{it}: due: what the prover reads has changed since it was refused; .ci/wrong tries it" for it in self.due]
        return wrong + [f"{it}: the record has a line for it, and there is no such edit" for it in self.recorded if it not in self.edits]

    def copy_with(self, folder: str, edits: Iterable[str]) -> None:
        """Copies the repository, and puts the edits where `rt ci` tries them."""
        self.copy(folder)
        for edit in edits:
            crate, name = edit.split("/")
            os.makedirs(f"{folder}/crates/{crate}/must-fail", exist_ok=True)
            shutil.copy2(self.edits[edit], f"{folder}/crates/{crate}/must-fail/{name}.edit")


def name_of(path: str) -> str:
    return f"{path.split('/')[-3]}/{os.path.basename(path)[: -len('.edit')]}"


def refused_in(said: str) -> dict[str, int | None]:
    """The edits that are refused by what a run of the gate says, with the seconds that each took."""
    return {edit: int(seconds) for edit, seconds in REFUSED.findall(said)}
