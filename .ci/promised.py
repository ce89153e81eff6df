"""What each crate promises, and the map's tables of crates, made of the sources. The page that `docs/made promises` prints has each crate with the
sentence that its root begins with, its public types and functions with their comments, the names of their clauses as words, and beneath each
law the sentence of each statement that it ensures, which is the comment above it in a crate's Laws. `.ci/promises` compares the tables."""
import os
import re
import tempfile
from collections.abc import Iterator
from typing import NamedTuple

from rattle import Item, block_end, cites, imports_of, items_of, sentences_in, tokens_of
from repository import Repository, text_of, write
from trusted import HEADLINE, Believed

MAP = "docs/ARCHITECTURE.md"
BEGIN, END = "<!-- crates, made by .ci/promises -->\n\n", "<!-- end of crates -->\n"
TABLES = re.compile(f"{BEGIN}.*?{END}", re.S)
HEAD = """# The promises

Here you look up what any call of a crate promises: its comment, what it asks of its arguments, and what its contract says beside. All of it
is proved for every call, whatever its arguments are within the premises. `docs/made promises` makes this page of the sources.

- An entry is a public type, trait, function or law, in the words of its own comment. *One of* names the variants of a type in their order:
  so each fault and each answer has its place here.
- *Premises*: what the call asks of its arguments (`requires`), each with its name, if it has one, and as it is written. An entry without them
  asks nothing. What a type guarantees by itself is no premise: a `CheckedImage` is fit, a `Region` and every store are sound, an `Inst` is
  well formed.
- *Clauses*: the names of what it ensures beside its first sentence. *value* is what it answers; *err*: where it answers a refusal, or that it
  is out of memory, all is as before; *memory*: when it can run out of memory at all; *sound*: what always holds of its type holds after it.
- A call of a module `laws` does nothing: its contract is a statement of the definitions, whatever is run. Below it stands each statement that
  has a name, by its own comment. A trait's calls promise the same of each type that has it.

[DEFINITIONS](DEFINITIONS.md) has the words that contracts use, [THEOREM](THEOREM.md) the headline's contracts in full, [TRUST](TRUST.md) what
is proved at all, and what isn't.

**Words.** An *address* is below 2^24. *Sound* storage, regions, tasks, programs and queues are those of which `IsSound`, `IsSoundTask` and so
on of the definitions hold; a sound region has all of these. A source is *read*, *translated* or *accepted* where `source_in`,
`translation_of` or `assembly_of` gives Ok for it, *accepted so far* where the first pass finds no fault. An *allowed* event is a clock of at
most 999999 and 99999, a key with at most 1,920 bytes, an alteration of a register 0 to 15, or any other event.

**Every call returns**: no program may end early, wait or run on for ever. `HANDLES` allows nothing else.

**Memory.** A call takes memory only where running out of it is among its answers: `AllocError`, `RunStop`, or a fault `Memory`. Where an
allocation failed, such a call may answer that in place of what is due. That it succeeds with ample memory is promised nowhere. A call
without such an answer takes none.
"""
NAMES = re.compile(r"[\w'.\s]+")
CLAUSE = re.compile(r"(requires|ensures)(?:\s+(\w+))?\s*\{(.*)\}$", re.S)


class Clause(NamedTuple):
    """A clause of a function: `requires` or `ensures`, its name or None, and what it says."""

    kind: str
    name: str | None
    text: str


class Promise(NamedTuple):
    """A public function or type: by what names it is seen, as a caller writes it, its comment, and its clauses."""

    seen_by: set[str]
    name: str
    comment: str
    clauses: list[Clause]
    is_function: bool


def one_line(text: str) -> str:
    return " ".join(text.split())


def comment_of(text: str, item: Item) -> str:
    """The comment above an item, in front of its attributes or among them."""
    lines = text[: item.start].split("\n")[:-1]
    begin = next((at for at in range(len(lines), 0, -1) if not re.match(r"\s*//", lines[at - 1])), 0)
    above = "\n".join(lines[begin:]) + "\n" + text[item.start : item.word]
    return one_line(" ".join(re.findall(r"(?m)^\s*///(.*)$", above)))


def clause_of(text: str) -> Clause | None:
    found = CLAUSE.match(text)
    said = one_line(re.sub(r"(?m)^\s*//.*$", "", found[3])) if found else ""
    return Clause(found[1], found[2], said) if found else None


def promises_in(text: str) -> Iterator[Promise]:
    """The types, traits and functions of a source that aren't private in it, in their order. Of an impl of a trait only those
    functions count that have a comment of their own: the trait has that of the others."""
    for it in items_of(text):
        comment = comment_of(text, it)
        if it.kind in ("struct", "enum", "trait") and it.is_public:
            variants = variants_of(text[it.head : it.end]) if it.kind == "enum" else []
            names = f" *One of*: {', '.join(variants)}." if variants else ""
            yield Promise({it.name}, it.name, comment and comment + names, [], False)
        elif it.kind == "fn" and (it.is_public or it.is_of_trait and (comment or not it.trait)):
            clauses = [said for start, end in it.clauses if (said := clause_of(text[start:end]))]
            name = f"{it.owner}::{it.name}" if it.owner else it.name
            yield Promise(it.names(), f"{name}` of `{it.trait}" if it.trait else name, comment, clauses, True)


def variants_of(body: str) -> list[str]:
    """The names of the variants in an enum's body."""
    tokens, at, found = tokens_of(body), 1, list[str]()
    while at < len(tokens) - 1:
        if tokens[at].word in ("(", "{", "["):
            at = block_end(tokens, at)
            continue
        found += [tokens[at].word] if tokens[at - 1].word in ("{", ",", "]") and tokens[at].word not in (",", "#") else []
        at += 1
    return found


def root_of(sources: str) -> str:
    return text_of(next(it for it in (f"{sources}/lib.rt", f"{sources}/main.rt") if os.path.exists(it)))


def head_of(text: str) -> str:
    """The comment that a source begins with."""
    return one_line(" ".join(re.findall(r"(?m)^//!(.*)$", text)))


def with_paths(text: str, crate: str) -> str:
    """What a crate's comments say, with the files that they name as they are named elsewhere."""
    return re.sub(r"`(?=(?:specs|src)/)", f"`crates/{crate}/", text)


def as_sentence(text: str) -> str:
    """A comment with a large letter in front, unless a variable is there, and a period at its end."""
    ended = text if text.endswith((".", ":", "?")) else f"{text}."
    return ended if re.match(r"\w\b", ended) and not ended.startswith("a ") else ended[:1].upper() + ended[1:]


def words(name: str | None) -> str:
    return name.replace("2_24", "2^24").replace("_", " ") if name else ""


def layers(root: str) -> Iterator[tuple[str, list[str]]]:
    """The layers of crates.txt: the title and the crates of each."""
    for layer in text_of(f"{root}/crates.txt").split("\n\n"):
        title, *lines = layer.strip().split("\n")
        yield title.removeprefix("# "), [line.partition(":")[0] for line in lines]


class Promised:
    """The promises of a repository's crates: those that the programs use, and those of laws. `wrong` has what is without a comment."""

    def __init__(self, root: str = ".") -> None:
        self.root, self.believed, self.wrong = root, Believed(root), list[str]()

    def statements(self, text: str, clause: Clause) -> list[str]:
        """The sentences of the laws' statements that a clause names, where it consists of names alone: a formula is in the sentence of
        the law."""
        found = list[tuple[int, str]]()
        for crate, module, name in imports_of(text) if NAMES.fullmatch(clause.text) else []:
            path, _, word = module.rpartition(".")
            if path.startswith("specs.Laws") and cites(clause.text, name):
                sentence = sentences_in(text_of(f"{self.root}/crates/{crate}/{path.replace('.', '/')}.antt")).get(word)
                found += [(clause.text.index(name), as_sentence(sentence))] if sentence else []
        return [sentence for _, sentence in sorted(found)]

    def row(self, path: str, promise: Promise, prefix: str) -> str:
        """What the page has of a function or a type."""
        text = text_of(path)
        if not promise.comment:
            self.wrong.append(f"{path}: {promise.name} has no comment")
        names, laws, seen = list[str](), list[str](), set[str]()
        for it in promise.clauses:
            sentences = [one for one in self.statements(text, it) if one not in seen and one.lower() not in promise.comment.lower()]
            seen.update(sentences)
            if it.kind == "ensures" and sentences:
                laws.append(f"  - {f'*{words(it.name)}*: ' if it.name else ''}{' '.join(sentences)}\n")
            elif it.kind == "ensures" and it.name:
                names.append(words(it.name))
        premises = [f"{words(it.name)} `{it.text}`".lstrip() for it in promise.clauses if it.kind == "requires"]
        more = f" *Premises*: {', '.join(premises)}." if premises else ""
        more += f" *Clauses*: {', '.join(names)}." if names else ""
        return f"- `{prefix}{promise.name}`: {promise.comment}{more}\n{''.join(laws)}"

    def section(self, name: str) -> str:
        """A crate's types, each with its functions, then its other functions, then its laws."""
        crate = self.believed.crates[name]
        text = root_of(crate.sources)
        names, whole, declared = crate.exports()
        found = list[tuple[str, str, Promise]]()
        for module in re.findall(r"(?m)^(?:pub )?mod (\w+);", text):
            path = f"{crate.sources}/{module}.rt"
            own = declared - names if module not in whole else set()
            found += [(path, module, it) for it in promises_in(text_of(path)) if not it.seen_by & own]
        types = [it.name for _, _, it in found if not it.is_function]

        def place(entry: tuple[str, str, Promise]) -> tuple[int, int, bool]:
            _, module, it = entry
            owner = it.name.partition("::")[0]
            return (0, types.index(owner), it.is_function) if owner in types else (1 + (module == "laws"), 0, True)

        rows = [self.row(path, it, f"{module}::" if module in whole else "") for path, module, it in sorted(found, key=place)]
        return with_paths("".join([f"\n### {name}\n\n{head_of(text)}\n", *(["\n"] if rows else []), *rows]), name)

    def page(self) -> str:
        """The headline's crate first, then the others by their layers, as crates.txt has them."""
        parts = [HEAD, "\n## The headline\n", self.section(HEADLINE)]
        for title, names in layers(self.root):
            crates = [it for it in names if it in self.believed.counted and it != HEADLINE]
            parts += [f"\n## {title}\n", *map(self.section, crates)] if crates else []
        return "".join(parts)


class Crates:
    """The tables of the map: each crate with those that it stands on, and what it holds, by its root's comment."""

    def __init__(self, root: str = ".") -> None:
        self.root, self.repository = root, Repository(root)

    def stands_on(self, name: str) -> list[str]:
        """The crates that this one uses, without those that another one of them uses."""
        used = [it for it in self.repository.libraries[name] if it in self.repository.libraries]
        return [it for it in used if not any(it in self.repository.below(other) for other in used if other != it)]

    def row(self, name: str) -> str:
        head = head_of(root_of(f"{self.root}/crates/{name}/src"))
        first = re.match(r".*?\.(?= [A-Z`]|$)", head)
        holds = first[0] if first and re.match("test_|tool_", name) else head
        stands = ", ".join(f"`{it}`" for it in self.stands_on(name))
        return with_paths(f"| `{name}` | {stands} | {holds} |\n", name)

    def tables(self) -> str:
        """A heading and a table of each layer, as crates.txt has them."""
        found = [BEGIN]
        for title, names in layers(self.root):
            crates = [it for it in names if it in self.repository.libraries]
            rows = "".join(map(self.row, crates))
            found += [f"### {title}\n\n| Crate | Stands on | What it holds |\n|---|---|---|\n{rows}\n"] if crates else []
        return "".join([*found, END])


def judged(writes: bool = False) -> tuple[str, list[str]]:
    """The page, and what is wrong with the comments that it is made of and with the map's tables."""
    promised, tables = Promised(), Crates().tables()
    page, wrong = promised.page(), promised.wrong
    if writes:
        write(MAP, TABLES.sub(lambda _: tables, text_of(MAP)))
    return page, wrong + [f"{MAP} isn't what .ci/promises --write makes"] * (tables not in text_of(MAP))


LAWS = "crates/cx_edf/specs/Laws/Edf.antt"
CHANGES = [  # of a file: what is put for what, and whether the page or what is wrong is another then
    ("crates/cx_ebcdic/src/names.rt", "/// The name that a text spells", "/// A name that a text spells", True),
    ("crates/cx_ebcdic/src/names.rt", "    /// The name that is these bytes, whatever they are.\n", "", True),
    ("crates/cx_ebcdic/src/names.rt", "ensures length {", "ensures width {", True),
    ("crates/cx_ebcdic/src/names.rt", "/// The code of a character that a name may have.\n", "", False),
    ("crates/cx_ebcdic/src/lib.rt", "//! Characters and names", "//! Names and characters", True),
    ("crates/cx_ebcdic/src/lib.rt", "pub use lines::{TextFault, encode_line};", "use lines::{TextFault, encode_line};", True),
    ("crates/cx_storage/src/stores.rt", "requires { a < 2 ^ 24 }", "requires { a < 2 ^ 23 }", True),
    ("crates/cx_storage/src/stores.rt", "requires { a < 2 ^ 24 }", "requires address { a < 2 ^ 24 }", True),
    ("crates/cx_storage/src/stores.rt", "let mut at = a;", "let mut at  = a;", False),
    (LAWS, "-- where nothing is left of an event, the region stays", "-- the region stays", True),
    (LAWS, "-- where nothing is left of an event, the region stays\n", "", True),
    ("crates/cx_exec/src/machine.rt", "pub enum Halt {", "pub enum Halt {\n    /// More.\n    More,", True),
    ("crates.txt", "# Storage and the machine", "# The machine and storage", True),
    (MAP, "| `cx_base` | `cx_ebcdic` |", "| `cx_base` | |", True),
    (MAP, "# The map\n", "# Map\n", False),
]


def tested() -> tuple[int, list[str]]:
    """How many changes of a copy were tried, and which are told otherwise than they should be."""
    here, wrong = os.getcwd(), list[str]()
    with tempfile.TemporaryDirectory(prefix="promises-") as folder:
        Repository(here).copy(folder)
        os.chdir(folder)
        as_it_stands = judged()
        wrong += [f"the copy as it stands: {as_it_stands[1]}"] if as_it_stands[1] else []
        for path, old, new, is_other in CHANGES:
            before = text_of(path)
            write(path, before.replace(old, new, 1))
            if old not in before or (judged() != as_it_stands) != is_other:
                wrong.append(f"{path}: {new!r} for {old!r}: {'nothing else' if is_other else 'something else'} is told")
            write(path, before)
        os.chdir(here)
    return len(CHANGES), wrong
