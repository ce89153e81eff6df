"""What a reader must believe, counted, which `.ci/believed` prints and compares, and the page of definitions that `docs/made definitions` makes of
their head comments."""
import os
import re
from collections.abc import Iterable, Iterator

from trusted import MACHINE, PROGRAMS, Believed, Crate
from repository import Repository, text_of, write

LEMMA = re.compile(r"(pub )?(?!abbrev|unfoldable|pub|record|data|use|unfolding|where)\S+ :( |$)")
TRUST = "docs/TRUST.md"
README = "README.md"
RULES = re.compile(r"some [\d,]+ lines, and(\s+)some [\d,]+ more for looks")
HEAD = """# The definitions, in reading order

What a reader must believe: the definitions that the public contracts reach. `docs/made definitions` makes this page from their head comments, each
of which names the manual that its rules are from; "own" marks what is a rule of this product, about which those manuals are silent or say
otherwise.

## Read these ten first

In this order: from a byte of storage to a whole run. Each of the others is one of their kind, or a part of them.

"""
TEN = {
    "crates/cx_storage/specs/Storage.antt": "storage, as areas with their bytes",
    "crates/cx_exec/specs/Machine.antt": "registers, condition code, next address; how an address is formed",
    "crates/cx_exec/specs/Step.antt": "one instruction: fetch, tests, effect. The effects are `Rows.antt` and the files that it names",
    "crates/cx_base/specs/Commands.antt": "the twenty commands, a line each: options, and how each is read or written",
    "crates/cx_region_commands/specs/Receive.antt": "one command's row; the other nineteen have this form",
    "crates/cx_region_task/specs/Performing.antt": "how the command that is due is decided, and what a decision does",
    "crates/cx_region_task/specs/Turn.antt": "a half-turn",
    "crates/cx_region/specs/Events.antt": "what an event does to a region, and a run of events",
    "crates/cx_edf/specs/Erasure.antt": "what is left of a run under EDF when EDF is taken away",
    "crates/cx_script/specs/Transcript.antt": "what a script writes",
}
WHAT = ("definitions", "laws' statements", "public functions' clauses", "types", "code of which nothing is stated")
OF_MACHINE = 45  # so many of these lines the type that stands for the machine may have


def phrases(numbers: Iterable[int]) -> list[str]:
    """What TRUST says of each number."""
    return [f"{number:,} lines of {what}" for number, what in zip(numbers, WHAT)]


def rules_of(definitions: dict[str, int]) -> str:
    """What README says of the lines of definitions, by their crates: of what the first program uses, and of the others."""
    first = sum(n for name, n in definitions.items() if name in Repository().below(PROGRAMS[0]))
    more = sum(definitions.values()) - first
    return rf"some {round(first, -2):,} lines, and\1some {round(more, -2):,} more for looks"


def head_of(path: str, text: str) -> tuple[str, list[str]]:
    """A definition file's head comment, and what is wrong with it."""
    head = re.match(r"(?:--.*\n)+", text)
    if not head:
        return "", [f"{path}: no head comment"]
    named = re.search(r"\bown\b|\b(GA|SC|GC|GX)\d\d-\d+", head[0])
    comment = " ".join(it.lstrip("- ") for it in head[0].splitlines()).replace("this product's own", "own")
    return comment, [] if named else [f"{path}: its head comment names no manual, nor says that it is our own"]


def heads_of(name: str, crate: Crate) -> dict[str, tuple[str, list[str]]]:
    """The head comment of each of a crate's definition files, and what is wrong with it."""
    paths = {f"crates/{name}/specs/{module}.antt": crate.texts[module] for module in crate.modules()}
    return {path: head_of(path, text) for path, text in paths.items()}


def section_of(name: str, crate: Crate) -> str:
    """What the page has of a crate's definitions."""
    rows = "".join(f"- `{path}`: {comment}\n" for path, (comment, _) in heads_of(name, crate).items())
    return f"\n## {name}\n\n{rows}" if rows else ""


def page_of(crates: dict[str, Crate]) -> str:
    """The page of definitions."""
    return "".join([HEAD, *(f"- `{path}`: {what}\n" for path, what in TEN.items()), *(section_of(*it) for it in crates.items())])


def lemmas_outside(name: str, crate: Crate) -> Iterator[str]:
    """The lines of a crate that state a lemma outside Facts."""
    for path, kind in crate.kinds():
        if kind != "Facts":
            lines = enumerate(crate.texts[path].split("\n"), 1)
            yield from (f"crates/{name}/specs/{path}.antt:{at}: a lemma outside Facts" for at, line in lines if LEMMA.match(line))


def judged(writes: bool = False) -> tuple[list[int], list[str], list[str]]:
    """The five numbers, a line of each crate, and what is wrong."""
    believed = Believed()
    wrong = [f"{path}, of the ten to read first, isn't there" for path in TEN if not os.path.exists(path)]
    for name, crate in believed.crates.items():
        wrong += [fault for _, faults in heads_of(name, crate).values() for fault in faults]
        wrong += lemmas_outside(name, crate)
    lines = {name: believed.lines(name) for name in believed.counted}
    for name in believed.counted:
        wrong += believed.cited_apart(name)
    if believed.unstated(MACHINE[0]) > OF_MACHINE:
        wrong.append(f"crates/{MACHINE[0]}: {believed.unstated(MACHINE[0])} lines of {MACHINE[1]}, where at most {OF_MACHINE} may be")
    total = [sum(it) for it in zip(*lines.values())]
    rules, trust = rules_of({name: it[0] for name, it in lines.items()}), text_of(TRUST)
    if writes:
        write(README, RULES.sub(rules, text_of(README)))
        for line, what in zip(phrases(total), WHAT):
            trust = re.sub(rf"[\d,]+ lines of {what}", line, trust)
        write(TRUST, trust)
    if not RULES.search(text_of(README)) or RULES.sub(rules, text_of(README)) != text_of(README):
        wrong.append(f"{README} doesn't say {rules.replace(chr(92) + '1', ' ')}")
    wrong += [f"{TRUST} doesn't say that there are {it}" for it in phrases(total) if not re.search(rf"(?<![\d,]){it}", trust)]
    return total, [f"{name}: {', '.join(phrases(it))}" for name, it in lines.items()], wrong
