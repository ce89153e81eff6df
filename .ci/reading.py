"""How many lines a reader of a statement has to read: its own definition and each that it reaches, word by word, in the definitions of
whatever crates, with the types of sources that these cite; without comments, imports and blank lines, as `.ci/trusted.py` counts them.
Words at which he may stop are not entered, and have no lines."""
import functools
import os
import re
from collections.abc import Collection, Iterable

from rattle import blocks_in, cites, filled, imports_of, paths_in, without_comments, without_imports
from repository import Repository, text_of
from trusted import types_in


def words_through(module: str, text: str) -> list[str]:
    """The words that a text writes through a module's name."""
    return re.findall(rf"(?<![\w.]){re.escape(module)}\.([^\W\d][\w'-]*)", text)


class Module:
    """A file of definitions: the text of each word, the heads that it stands under, and where each word comes from that it imports."""

    def __init__(self, path: str) -> None:
        text = without_comments(text_of(path))
        defined = blocks_in(without_imports(text))
        names = {head: f"module {n}" for n, head in enumerate(dict.fromkeys(it for _, heads in defined.values() for it in heads))}
        self.heads = {word: [names[head] for head in heads] for word, (_, heads) in defined.items()}
        self.blocks = {word: block for word, (block, _) in defined.items()} | {name: head for head, name in names.items()}
        self.imports = {name: (crate, module) for crate, module, name in imports_of(text)}

    def cited(self, word: str) -> list[tuple[str | None, str]]:
        """What the text of a word cites: words and heads of this file, and crates with paths."""
        block = self.blocks[word]
        found: list[tuple[str | None, str]] = [(None, it) for it in self.heads if it != word and cites(block, it)]
        found += [(None, it) for it in self.heads.get(word, [])]
        found += [at for name, at in self.imports.items() if cites(block, name.partition("◌")[0] or name)]
        found += [(crate, f"{path}.{it}") for name, (crate, path) in self.imports.items() for it in words_through(name, block)]
        return found + [(crate, path) for crate, path, _ in paths_in(block)]


class Reading:
    """The definitions that are reached from some words."""

    def __init__(self, root: str = ".") -> None:
        self.root, self.crates = root, {*Repository(root).libraries}

    @functools.cache
    def module(self, crate: str, path: str) -> tuple[Module, str, str] | None:
        """The module of a path as imports write it, and the word after it; of a word that a crate passes on, where it is defined."""
        parts = path.split(".")
        for cut in range(len(parts) - 1, 0, -1):
            at = f"{self.root}/crates/{crate}/{'/'.join(parts[:cut])}.antt"
            if os.path.isfile(at):
                return Module(at), f"{crate}/{'/'.join(parts[1:cut])}", parts[cut]
        lib = f"{self.root}/crates/{crate}/specs/Lib.antt"
        passed = Module(lib).imports.get(parts[1]) if os.path.isfile(lib) and len(parts) > 2 else None
        return self.module(passed[0], f"{passed[1]}.{'.'.join(parts[2:])}") if passed else None

    def type_lines(self, crate: str, path: str) -> tuple[str, int] | None:
        """The name and the lines of a type of a source."""
        found = re.match(r"specs\.declared\.((?:\w+\.)*?)([A-Z]\w*)(?:\.|$)", path)
        if not found:
            return None
        at = f"{self.root}/crates/{crate}/src/{found[1].rstrip('.').replace('.', '/')}.rt"
        types = types_in(text_of(at)) if os.path.isfile(at) else {}
        return (f"{crate}/{found[2]}", filled(types[found[2]], ("//", "#["))) if found[2] in types else None

    def reached(self, begin: Iterable[tuple[str, str]], stops: Collection[str] = ()) -> dict[str, int]:
        """The lines of each word reached from these (crate, path), by where it stands; a word of `stops` is left unread, with 0."""
        found, waiting = dict[str, int](), [*begin]
        while waiting:
            crate, path = waiting.pop()
            if crate not in self.crates:
                continue
            if path.startswith("specs.declared."):
                found.update([it] if (it := self.type_lines(crate, path)) else [])
                continue
            there = self.module(crate, path)
            if there is None:
                continue
            module, at, word = there
            if word not in module.blocks or f"{at}: {word}" in found:
                continue
            if word in stops:
                found[f"{at}: {word}"] = 0
                continue
            found[f"{at}: {word}"] = filled(module.blocks[word])
            here = "specs." + at.partition("/")[2].replace("/", ".")
            waiting += [(of or at.partition("/")[0], it if of else f"{here}.{it}") for of, it in module.cited(word)]
        return found
