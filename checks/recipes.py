"""Sees that each recipe of docs/CHANGING.md is true: that something which is there already, as the instruction XC, is found in exactly the files
and places that its recipe names. The recipe's numbers have to be right, too. With --write the places and the numbers are
put into the page; which files it names, in which order, and what is added there, is written by hand. With --test it sees, on changes of files
and of the page, that a file, a place and a number too many and too few are told.

It is found by the words that RECIPES has: in sources of crates outside comments, elsewhere anywhere. Files that are made aren't places; the
page's first table has them, with the commands that make them. Files in which something is only used aren't either: LEFT_OUT and each recipe's
`uses` have them, each with the reason."""
import os
import re
import sys
import textwrap
from collections import Counter
from collections.abc import Iterator, Mapping
from dataclasses import dataclass, field
from functools import partial

from cics.child import TOP
from checks.common import Case, Check, Counts, Wrong, require
from checks.places import HEAD, WHOLE, places_with

sys.path.append(os.path.join(TOP, ".ci"))
from repository import Repository, libraries_of, text_of, write

PAGE, CRATES = "docs/CHANGING.md", "crates.txt"
NOTHING = r"(?!)"
WIDTH = 140  # of the lines that are made, beside tables
TESTS = "programs of tests, which use it"
TOLD = "it tells of something else by it"
WRITES = "it writes statements with it"

# What no recipe names, by expressions of paths, and why.
LEFT_OUT = {
    r"examples/|docs/lessons/": "scripts and lessons that use what is there; each recipe says of what kind a new example is",
    r"checks/statements\.vectors": "statements that were drawn, and assembled by GNU as",
    r"bench/loop-images/|.*\.asm": "assembler texts, which use what is there",
    r"docs/CHANGING\.md|checks/(?:recipes|places)\.py": "the recipes and this check themselves",
    r"docs/CHANGES\.md": "what has changed, version by version",
    r".*\.png": "pictures",
}


@dataclass(frozen=True)
class Recipe:
    """A recipe: its heading, what is there already and stands for each of its kind, and the words by which that is found, as expressions: `code` in
    sources of crates; `text` in other files; `counts`, which say how many there are, also in comments; and in names of sources, which are its own
    as a whole, `own`, or else `code`. `uses` has the files, as expressions, in which it is only used, and why."""

    heading: str
    shown: str
    code: str
    text: str
    counts: str = NOTHING
    own: str = ""
    uses: Mapping[str, str] = field(default_factory=dict)


RECIPES = [
    Recipe(
        "An instruction", "XC", r'\b(?:Xc|xc|XcEffect|xor_bytes|xored_byte)\b|\bxc_\w+|"XC"', r"\bXC\b",
        r"\b56 (?:instr|mnem)|\b(?:the|one of) 56\b|\[Op; 56\]|\bninety\b",
        uses={r"companions/cics/exact/": WRITES, r"companions/cics/stand_in/": WRITES, r"companions/tests/": TESTS,
              r"docs/COMPANIONS\.md": TOLD, r"docs/DECISIONS\.md": TOLD, r"docs/FROM-CICS\.md": TOLD}),
    Recipe(
        "A command", "SUSPEND", r'\b(?:Suspend|suspend|judge_suspend|suspend_\w+)\b|"(?:CICS )?SUSPEND"',
        r'"SUSPEND":|^SUSPEND = |, SUSPEND,|`SUSPEND`|\| SUSPEND |# SUSPEND |COMMAND SUSPEND$|\("SUSPEND", "=', r"\btwenty\b|\bother nineteen\b",
        uses={r"crates/test_region/src/arrival\.rt": TESTS, r"crates/test_sources/src/texts\.rt": TESTS, r"companions/tests/": TESTS,
              r"crates/tool_region/src/calls\.rt": "where no command is drawn it takes this one"}),
    Recipe(
        "A type of constant", "D", r"""\bDoubleword\b|b"D", true|b"D'1'"|b"DL4\"""",
        r'"D": 8|"FHPXBAYDES"|"CXBFHPZAVDEYSQL"|kind == "D"|^\| D \| 8 \||"D[SC] D(?:"|L4|\x271)'),
    Recipe(
        "A look of cicslook", "WHERE", r'\b(?:Where|where_text)\b|"WHERE\b|\bmod wheres\b', r"(?<!as \[)\bWHERE\b", own=r"wheres",
        uses={r"companions/cics/stand_in/": "it asks the look", r"companions/tests/stand_in/": TESTS}),
    Recipe(
        "An option of a command", "NUMITEMS", r"\bNumitems\b|\bnumitems_\w+|\bNUMITEMS\b", r"\bNUMITEMS\b",
        uses={r"checks/sizes\.py": TESTS, r"companions/tests/test_runs\.py": TESTS}),
    Recipe("A text of EDF's display", "RESPONSE", r"\bRESPONSE\b", r"\bRESPONSE\b"),
]
ROW = re.compile(r"(?m)^\| (?P<file>(?:\[)?`(?P<path>[^`]+)`(?:\]\([^)]*\))?) \|(?: (?P<places>[^|]*))? \|(?: (?P<what>.*))? \|$")
NUMBERS = re.compile(r"(?m)^(?P<mark><!-- numbers of .* -->\n\n)(?P<said>(?:.+\n)*)")
Texts = Mapping[str, str]  # the repository's files by their paths


def texts_of_all() -> dict[str, str]:
    """The files of the repository that may be places, or are the page or the table of crates."""
    paths = (path for path in Repository(TOP).files() if path == PAGE or not is_left_out(path))
    return {path: text_of(os.path.join(TOP, path), "replace") for path in sorted(paths)}


def is_left_out(path: str) -> bool:
    return any(re.match(it, path) for it in LEFT_OUT)


def section_of(page: str, heading: str) -> str:
    """The part of the page under a heading."""
    found = re.search(rf"(?ms)^## {re.escape(heading)}\n(.*?)(?=^## |\Z)", page)
    require(found, f"{PAGE} has no heading ## {heading}")
    return found[1] if found else ""


def made_files(page: str) -> list[str]:
    """The files that are made, by the page's table: as expressions, a star for any letters."""
    return [re.escape(found["path"]).replace(r"\*", ".*") for found in ROW.finditer(section_of(page, "What is made"))]


def is_source(path: str) -> bool:
    return path.startswith("crates/") and path.endswith((".rt", ".antt", ".edit"))


@dataclass(frozen=True)
class Standing:
    """Where something stands: the files with their places, and the files in which it is only used."""

    places: dict[str, list[str]]
    used: list[str]


def standing(recipe: Recipe, texts: Texts) -> Standing:
    """Where the words of a recipe stand in files that aren't made."""
    found, made = Standing({}, []), re.compile("|".join(made_files(texts[PAGE])) or NOTHING)
    uses, counts, own = re.compile("|".join(recipe.uses) or NOTHING), re.compile(recipe.counts), re.compile(recipe.own or recipe.code)
    words = {True: re.compile(recipe.code), False: re.compile(recipe.text, re.M)}
    for path, text in texts.items():
        code = words[is_source(path)]
        is_own = is_source(path) and own.search(os.path.splitext(os.path.basename(path))[0]) is not None
        is_there = is_own or code.search(text) is not None
        if is_left_out(path) or made.fullmatch(path) or not is_there and not counts.search(text):
            continue
        if uses.match(path) and is_there:
            found.used.append(path)
            code = re.compile(NOTHING)
        if places := [WHOLE] if is_own else places_with(path, text, code, counts):
            found.places[path] = places
    return found


def cell(path: str, places: list[str]) -> str:
    """What a row has of the places in a file."""
    quote = '"' if path.endswith(".md") else "`"
    return ", ".join(place if place in (HEAD, WHOLE) else f"{quote}{place}{quote}" for place in places)


def path_of(named: str, texts: Texts) -> str:
    """The path of a file that a row names: those of crates are named without their folder."""
    return named if named in texts or not re.match(r"(?:cx|test|tool|cics)\w*/", named) else f"crates/{named}"


def proved_again(paths: list[str], crates: str) -> str:
    """What is said of the crates that are proved again where these files change, by the table of crates: those that have them, and all above."""
    repository = Repository(TOP)
    repository.libraries = libraries_of(crates)
    changed = {path.split("/")[1] for path in paths if re.match(r"crates/\w+/(?:src|specs|proofs)/", path)}
    again = [crate for crate in repository.libraries if changed & repository.below(crate)]
    others = [crate for crate in repository.libraries if crate not in again]
    named, are_all_but = (again, "") if len(again) <= len(others) else (others, "all but ")
    return f"{len(again)} of the {len(repository.libraries)} crates are proved again: {are_all_but}{', '.join(f'`{it}`' for it in named)}."


def numbers_of(recipe: Recipe, found: Mapping[str, list[str]], texts: Texts) -> str:
    """What the page says of a recipe's numbers."""
    proved = {path: places for path, places in found.items() if re.match(r"crates/c\w+/(?:src|specs|proofs)/", path)}
    files, places = len(found), sum(map(len, found.values()))
    within = f"{len(proved)} files and {sum(map(len, proved.values()))} places in the sources, definitions and proofs of the product's crates"
    said = f"**{files} files, {places} places**, by where {recipe.shown} stands; of these {within}. {proved_again([*found], texts[CRATES])}"
    return f"{textwrap.fill(said, WIDTH, break_on_hyphens=False)}\n"


def unread(section: str) -> list[str]:
    """The lines of tables that are neither rows nor their heads."""
    return [line for line in re.findall(r"(?m)^\|.*$", section) if not ROW.match(line) and not re.match(r"\| File \||\|---", line)]


def faults_of_rows(recipe: Recipe, found: Mapping[str, list[str]], texts: Texts) -> Iterator[str]:
    """What is wrong with the rows of a recipe."""
    section = section_of(texts[PAGE], recipe.heading)
    rows = [(path_of(row["path"], texts), row["places"]) for row in ROW.finditer(section)]
    named = Counter(path for path, _ in rows)
    yield from (f"{PAGE}, {recipe.heading}: {line!r} is no row" for line in unread(section))
    yield from (f"{path}: {count} rows name it" for path, count in named.items() if count > 1)
    yield from (f"{path}: its recipe names it, and {recipe.shown} isn't found there" for path in named if path not in found)
    for path, places in found.items():
        if path not in named:
            yield f"{path}: {recipe.shown} is found there, in {cell(path, places)}, and its recipe doesn't name it"
    for path, said in rows:
        if path in found and said != cell(path, found[path]):
            yield f"{path}: {recipe.shown} is found in {cell(path, found[path])}, and its recipe has {said}: checks/check recipes --write"


def faults_of(recipe: Recipe, texts: Texts, found: Standing) -> list[str]:
    """What is wrong with a recipe."""
    faults = [*faults_of_rows(recipe, found.places, texts)]
    numbers = NUMBERS.search(section_of(texts[PAGE], recipe.heading))
    if not numbers or numbers["said"] != numbers_of(recipe, found.places, texts):
        faults.append(f"{PAGE}, {recipe.heading}: the numbers are others: checks/check recipes --write")
    unused = [it for it in recipe.uses if not any(re.match(it, path) for path in found.used)]
    return faults + [f"{recipe.shown} isn't used in {it}, which is left out" for it in unused]


def tried(recipe: Recipe, texts: Texts) -> Counts:
    found = standing(recipe, texts)
    faults = faults_of(recipe, texts, found)
    if faults:
        raise Wrong(*faults)
    return Counter({"files": len(found.places), "places": sum(map(len, found.places.values()))})


def with_places(recipe: Recipe, texts: Texts) -> str:
    """The page with the places and the numbers of a recipe as they are."""
    found, section = standing(recipe, texts).places, section_of(texts[PAGE], recipe.heading)

    def row(old: re.Match[str]) -> str:
        path = path_of(old["path"], texts)
        return f"| {old['file']} | {cell(path, found.get(path, []))} | {old['what'] or ''} |"

    made = NUMBERS.sub(lambda old: f"{old['mark']}{numbers_of(recipe, found, texts)}", ROW.sub(row, section))
    return texts[PAGE].replace(section, made)


def written(texts: dict[str, str]) -> Counts:
    """Writes the page, and sees what is still wrong with it."""
    for recipe in RECIPES:
        texts[PAGE] = with_places(recipe, texts)
    write(os.path.join(TOP, PAGE), texts[PAGE])
    return sum((tried(recipe, texts) for recipe in RECIPES), Counter[str]())


@dataclass(frozen=True)
class Change:
    """A change of a file's text, by which the recipe of XC is otherwise than what is there, and what must be said of it; None where it stays true."""

    what: str
    path: str
    old: str
    new: str
    due: str | None
    most: int = -1  # how often it is made, from the text's beginning


TABLE, STRINGS, LIB = "crates/cx_code/src/table.rt", "crates/cx_exec/src/strings.rt", "crates/cx_code/src/lib.rt"
CHANGES = [
    Change("nothing", LIB, "", "", None),
    Change("a row too few", PAGE, "| `cx_code/src/table.rt` | ", "| cx_code/src/table.rt | ", f"{TABLE}: XC is found there, in `Op`, `instruction_rows`,"),
    Change("a row too many", PAGE, "| `cx_code/src/table.rt` | ", "| `cx_code/src/lib.rt` | all of it | |\n| `cx_code/src/table.rt` | ",
           f"{LIB}: its recipe names it, and XC isn't found there"),
    Change("a row twice", PAGE, "| `cx_code/src/table.rt` | ", "| `cx_code/src/table.rt` | | |\n| `cx_code/src/table.rt` | ", f"{TABLE}: 2 rows"),
    Change("a place too few", PAGE, "`Op`, ", "", f"{TABLE}: XC is found in `Op`, `instruction_rows`,"),
    Change("a place too many", PAGE, "`Op`, ", "`Op`, `length`, ", f"{TABLE}: XC is found in `Op`, `instruction_rows`,"),
    Change("a file more", LIB, "\n", "\nfn more(op: Op) -> bool {\n    op == Op::Xc\n}\n", f"{LIB}: XC is found there, in `more`, and", 1),
    Change("a comment", LIB, "\n", "\n// Op::Xc\n", None, 1),
    Change("a file less", "docs/MACHINE.md", "XC", "XD", "docs/MACHINE.md: its recipe names it, and XC isn't found there"),
    Change("another name", STRINGS, "fn clear<", "fn cleared<", f"{STRINGS}: XC is found in "),
    Change("another number of them", "README.md", "56 instr", "57 instr", "README.md: its recipe names it, and XC isn't found there"),
    Change("another number of places", PAGE, " places**", "0 places**", f"{PAGE}, An instruction: the numbers are others"),
    Change("another crate above", CRATES, "cx_ebcdic: ", "cx_ebcdic: cx_code ", f"{PAGE}, An instruction: the numbers are others"),
    Change("a recipe too few", PAGE, "\n## An instruction\n", "\n## Instructions\n", f"{PAGE} has no heading ## An instruction"),
    Change("what uses it is gone", "docs/DECISIONS.md", "XC", "XD", r"XC isn't used in docs/DECISIONS\.md"),
]


def texts_near(texts: Texts) -> dict[str, str]:
    """The files that the recipe of XC, or a change, has to do with."""
    found = standing(RECIPES[0], texts)
    near = {PAGE, CRATES, *found.places, *found.used, *(it.path for it in CHANGES)}
    return {path: text for path, text in texts.items() if path in near}


def told(change: Change, texts: Texts) -> Counts:
    """A change must be told, by what is due of it."""
    text = texts[change.path]
    require(change.old in text, f"{change.path} has no {change.old!r}")
    changed = {**texts, change.path: text.replace(change.old, change.new, change.most) if change.old else text}
    try:
        faults = faults_of(RECIPES[0], changed, standing(RECIPES[0], changed))
    except Wrong as what:
        faults = [*what.args]
    is_well = any(it.startswith(change.due) for it in faults) if change.due else not faults
    require(is_well, f"due: {change.due or 'nothing'}; said: {faults or 'nothing'}")
    return Counter({"changes": 1})


def main(words: list[str]) -> int:
    check = Check(__name__, __doc__, words, flags={"write": "put the places and the numbers there", "test": "see that what is otherwise is told"})
    texts = texts_of_all()
    if check.has("write"):
        return check.report([Case("the page", partial(written, texts))], {"places": 1})
    if check.has("test"):
        near = texts_near(texts)
        return check.report([Case(it.what, partial(told, it, near)) for it in CHANGES], {"changes": len(CHANGES)})
    return check.report([Case(it.heading, partial(tried, it, texts)) for it in RECIPES], {"places": 1})
