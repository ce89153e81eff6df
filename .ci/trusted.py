"""What a reader must believe of a repository, in the programs, the crates that they use and the crates of laws:

- definitions: the definition files of a crate except those of its modules Laws, Facts and Parts;
- laws' statements: those of Laws;
- clauses of public functions: `requires` and `ensures` of each function, and of each method of a type or a trait, that a crate's root
  gives to others; and the members of such a type's impls of traits that aren't proved: as what a value is seen, what a
  conversion gives; so too of a private type that a field of such a type has, since the one is seen through the other;
- types: the enums and structs of sources that definitions, laws' statements or such clauses cite (as `declared`), with their
  fields and variants, without attributes;
- code of which nothing is stated: the type that stands for the machine, without its clauses, and the root of each program, without imports.

A definition cites definitions, a law and a clause definitions and laws: so nothing that is meant is in Facts, which has lemmas, or
in Parts, which has the words of functions that no other crate calls."""
import functools
import glob
import os
import re
from collections.abc import Iterable, Iterator

from rattle import USE, USED, Span, cites, filled, imports_of, items_of, paths_in, without_comments, without_imports
from repository import Repository, text_of

PROGRAMS = ("cicsedf", "cicslook")
HEADLINE = "cx_headline"  # laws too, of all of it
MACHINE = ("cx_script_main", "Machine")  # the type that stands for the machine
APART = ("Laws", "Facts", "Parts")  # modules of specs/ without definitions: statements of laws, lemmas, words of private functions
DECLARED = re.compile(r"specs\.declared\.(?:\w+\.)*?([A-Z]\w*)(?:\.|$)")  # a type of a source, in the path of an import


def types_in(text: str) -> dict[str, str]:
    """The text of each enum and struct of a source, by its name."""
    return {it.name: text[it.start : it.end] for it in items_of(text) if it.kind in ("enum", "struct")}


class Crate:
    """A crate's definition files and sources."""

    def __init__(self, root: str, name: str) -> None:
        folder = os.path.normpath(f"{root}/crates/{name}")
        self.specs, self.sources = f"{folder}/specs", f"{folder}/src"
        files = sorted(glob.glob(f"{self.specs}/**/*.antt", recursive=True))
        self.texts = {os.path.relpath(it, self.specs)[: -len(".antt")]: text_of(it) for it in files}
        self.passed: dict[str, tuple[str, str]] = {}
        for of, path, _, renamed in USE.findall(self.texts.get("Lib", "")):
            self.passed[renamed or path.rpartition(".")[2]] = of, path

    def modules(self, within: str = "Lib", folder: str = "") -> Iterator[str]:
        """Its definition files in reading order, which Lib and the files that hold others give."""
        for module in re.findall(r"^pub mod (\w+)", self.texts.get(within, ""), re.M):
            if f"{folder}{module}" in self.texts and (folder or module not in APART):
                yield f"{folder}{module}"
                yield from self.modules(f"{folder}{module}", f"{folder}{module}/")

    def kinds(self) -> Iterator[tuple[str, str | None]]:
        """Each definition file with the module that gives its kind: Laws, Facts, Parts, or None where it has definitions."""
        for path in self.texts:
            first = path.partition("/")[0]
            yield path, first if first in APART else None

    def exports(self) -> tuple[set[str], set[str], set[str]]:
        """The names that it gives to other crates, the modules that it gives whole, and all names that its sources declare. A
        program gives what its root uses of its other modules."""
        texts = {os.path.basename(it)[: -len(".rt")]: text_of(it) for it in glob.glob(f"{self.sources}/*.rt")}
        root, use = (texts["lib"], "pub use ") if "lib" in texts else (texts["main"], "use crate::")
        lines = re.findall(rf"^{use}([^;]+);", root, re.M)
        names = {it.partition(" as ")[0] for line in lines for it in re.findall(r"\w+(?: as \w+)?\b(?!::)", line)}
        item = re.compile(r"^(?:pub(?:\(crate\))? )?(?:struct|enum|trait|(?:const )?fn) (\w+)", re.M)
        declared = {it for text in texts.values() for it in item.findall(text)}
        return names, {*re.findall(r"^pub mod (\w+);", root, re.M)}, declared

    def types(self) -> dict[str, str]:
        return {name: text for it in glob.glob(f"{self.sources}/*.rt") for name, text in types_in(text_of(it)).items()}

    def shown(self, names: Iterable[str]) -> set[str]:
        """These types of the crate, and those that their fields have, and theirs."""
        types, found, waiting = self.types(), set[str](), [*names]
        while waiting:
            it = waiting.pop()
            if it in types and it not in found:
                found.add(it)
                waiting += re.findall(r"\b[A-Z]\w*\b", types[it])
        return found

    def clauses(self) -> Iterator[tuple[str, str, list[Span]]]:
        """The clauses of its public functions: the source's path, its text, and their places in it."""
        names, whole, declared = self.exports()
        shown = self.shown(names)
        for path in sorted(glob.glob(f"{self.sources}/*.rt")):
            own = declared - names if os.path.basename(path)[: -len(".rt")] not in whole else set()
            text = text_of(path)
            said = [(it.names(), it.clauses) for it in items_of(text) if it.is_seen()]
            seen = [spans for by, spans in said if not by & own or "Model" in by and by & own <= shown]
            yield path, text, [it for spans in seen for it in spans]


class Believed:
    """The definitions, laws, clauses and types of the crates that the programs use, of them, and of the crates of laws."""

    def __init__(self, root: str = ".") -> None:
        self.root, repository = root, Repository(root)
        self.crates = {it: Crate(root, it) for it in repository.libraries}
        below = set[str]().union(*map(repository.below, PROGRAMS))
        self.counted = [it for it in self.crates if it in below or it.endswith("_laws") or it == HEADLINE]

    def kind(self, crate: str, path: str) -> str | None:
        """What a path of a crate names: Laws, Facts, Parts, proofs, or None for definitions, declarations and what is the kit's."""
        if crate not in self.crates:
            return None
        at, _, inner = path.partition(".")
        first, _, rest = inner.partition(".")
        it = self.crates[crate]
        if at != "specs" or not inner:
            return at
        if first in it.passed and first not in it.texts:
            of, path = it.passed[first]
            return self.kind(of, f"{path}.{rest}".rstrip("."))
        return first if first in APART else None

    def lines(self, crate: str) -> tuple[int, int, int, int, int]:
        """How many lines a crate has of definitions, of statements of laws, of clauses, of types that are cited, and of code of which
        nothing is stated."""
        texts = [(kind, filled(without_imports(self.crates[crate].texts[path]))) for path, kind in self.crates[crate].kinds()]
        clauses = sum(filled(text[start:end], "//") for _, text, spans in self.crates[crate].clauses() for start, end in spans)
        its = self.crates[crate].types()
        types = sum(filled(its[it], ("//", "#[")) for of, it in self.types if of == crate and it in its)
        definitions, laws = (sum(n for kind, n in texts if kind == wanted) for wanted in (None, "Laws"))
        return definitions, laws, clauses, types, self.unstated(crate)

    def unstated(self, crate: str) -> int:
        """How many lines a crate has of code of which nothing is stated."""
        if crate in PROGRAMS:
            return filled(USED.sub("", text_of(f"{self.crates[crate].sources}/main.rt")), ("//", "#"))
        return sum(self.of_machine(text, spans) for _, text, spans in self.crates[crate].clauses()) if crate == MACHINE[0] else 0

    @staticmethod
    def of_machine(text: str, clauses: list[Span]) -> int:
        """How many lines a source has of the type that stands for the machine, without those of its clauses."""
        places = [(it.start, it.end) for it in items_of(text) if it.kind in ("struct", "impl") and MACHINE[1] in (it.name, it.trait)]
        within = [(start, end) for start, end in clauses if any(first <= start and end <= last for first, last in places)]
        return sum(filled(text[start:end], ("//", "#")) for start, end in places) - sum(filled(text[start:end], "//") for start, end in within)

    @functools.cached_property
    def types(self) -> set[tuple[str, str]]:
        """The types of sources that are cited, each with its crate."""
        cited = [it for crate in self.counted for it in self.citations(crate)]
        return {(of, it[1]) for _, of, module, _ in cited for it in [DECLARED.match(module)] if it and of in self.crates}

    def citations(self, crate: str) -> Iterator[tuple[tuple[str, str | None], str, str, str]]:
        """What a crate's definitions, laws and public clauses cite: where, and the crate, path and word that it names."""
        it = self.crates[crate]
        for path, kind in it.kinds():
            if kind in (None, "Laws"):
                text = without_comments(it.texts[path])
                for of, module, word in imports_of(text) + paths_in(without_imports(text)):
                    yield (f"{it.specs}/{path}.antt", kind), of, module, word
        for path, text, spans in it.clauses():
            clauses = "\n".join(text[start:end] for start, end in spans)
            for of, module, word in [it for it in imports_of(text) if cites(clauses, it[2])] + paths_in(clauses):
                yield (path, "clauses"), of, module, word

    def cited_apart(self, crate: str) -> Iterator[str]:
        """The words that are cited where they mustn't be. A definition cites definitions; a law or a public clause also laws."""
        for (path, by), of, module, word in self.citations(crate):
            stands = self.kind(of, module)
            if by == "clauses" and stands not in (None, "Laws"):
                yield f"{path}: a public clause cites {word}, which stands in {of}'s {stands}"
            elif by != "clauses" and stands not in (None, by):
                yield f"{path}: {word} stands in {of}'s {stands}"
