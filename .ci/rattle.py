"""The one reader of Rattle's files: the items of a source, each with its clauses, and of a file of definitions the words that it defines,
imports and cites. A source whose brackets don't pair is Unclear."""
import functools
import re
import textwrap
from collections.abc import Iterator
from typing import NamedTuple

TOKEN = re.compile(
    r"""(?P<comment>//[^\n]*|/\*)|(?P<text>b?"(?:[^"\\]|\\.)*"|b?r(?P<hashes>\#*)".*?"(?P=hashes)|b?'(?:\\[^\n]|[^'\\\n])[^'\n]{0,9}?')"""
    r"""|(?P<word>[^\W\d][\w']*|'[^\W\d]\w*)|(?P<other>\S)""",
    re.S | re.X,
)
LIFETIME = re.compile(r"(?<=[<&, ])'(?=[a-z]+[>, ])")  # its apostrophe, which with another one would begin a character
NAME = re.compile(r"[^\W\d]")
CLAUSES = ("requires", "ensures", "ghost")
QUALIFIERS = ("const", "unsafe", "final", "async")
# ghost items that are proofs; `eq` is a test which the proofs `laws` and `same` say to be true exactly of equal values
PROVED = ("aligned", "coded", "eq", "invariant", "inverse", "inverse_ok", "laws", "respects_eq", "same", "sound")
CLOSES = {"{": "}", "(": ")", "[": "]"}

Span = tuple[int, int]


class Unclear(Exception):
    """A text that can't be told apart."""


class Token(NamedTuple):
    word: str
    start: int
    end: int


class Item(NamedTuple):
    """A type, trait, impl or function of a source, or a ghost member of an impl of a trait. Its place is that from its attributes on; `word`
    is where the word stands that says its kind, and `head` where its body begins, or its semicolon is. What is in an impl or a trait
    has its type, or else its trait, as owner; an impl's name is that of its type."""

    kind: str
    name: str
    start: int
    word: int
    head: int
    end: int
    is_public: bool
    owner: str = ""
    trait: str = ""
    is_of_trait: bool = False
    clauses: tuple[Span, ...] = ()

    def names(self) -> set[str]:
        """Those that must be public for it to be seen: its own, or those of the type and the trait that it is in."""
        return {self.owner, self.trait} - {""} if self.owner or self.trait else {self.name}

    def is_seen(self) -> bool:
        """Whether what it says is seen where its names are: the members of an impl of a trait are, except those that are proved."""
        return self.is_public or self.is_of_trait


def comment_end(text: str, at: int) -> int:
    """Where the block comment ends that begins at this place; they nest."""
    depth, at = 1, at + 2
    while depth:
        found = re.compile(r"/\*|\*/").search(text, at)
        if not found:
            raise Unclear
        depth += 1 if found[0] == "/*" else -1
        at = found.end()
    return at


def tokens_of(text: str) -> list[Token]:
    """The words of a source, without its comments."""
    text, found, at = LIFETIME.sub(" ", text), list[Token](), 0
    while token := TOKEN.search(text, at):
        at = comment_end(text, token.start()) if token["comment"] == "/*" else token.end()
        found += [] if token["comment"] else [Token(token[0], token.start(), at)]
    return found


def block_end(tokens: list[Token], at: int) -> int:
    """The index after the bracket that closes the one at this index."""
    waiting = []
    for index in range(at, len(tokens)):
        word = tokens[index].word
        if word in CLOSES:
            waiting.append(CLOSES[word])
        elif word in CLOSES.values():
            if waiting.pop() != word:
                raise Unclear
            if not waiting:
                return index + 1
    raise Unclear


def next_block(tokens: list[Token], at: int) -> int:
    while tokens[at].word != "{":
        at += 1
    return at


def is_body(tokens: list[Token], at: int) -> bool:
    """Whether a body, or the semicolon in its place, is at this index, and no brace of an argument."""
    return tokens[at].word == ";" or tokens[at].word == "{" and tokens[at - 1].word not in ("<", ",", "=")


def item_start(tokens: list[Token], at: int) -> tuple[int, bool]:
    """The index at which the item begins whose word is at this index, at its attributes, and whether it is public."""
    while at and tokens[at - 1].word in QUALIFIERS:
        at -= 1
    is_public = at > 0 and tokens[at - 1].word == "pub"
    if [it.word for it in tokens[max(at - 4, 0) : at]] == ["pub", "(", "crate", ")"]:
        at -= 4
    at -= is_public
    while at and tokens[at - 1].word == "]":
        depth, start = 0, at
        while depth or start == at:
            start -= 1
            depth += {"]": 1, "[": -1}.get(tokens[start].word, 0)
        if not start or tokens[start - 1].word != "#":
            break
        at = start - 1
    return at, is_public


def type_named(words: list[str]) -> str:
    """The name of the type or trait that these words of an impl's head spell, without what it is applied to."""
    depth, name = 0, ""
    for word in words:
        if not depth and word in ("<", "where"):
            break
        depth += (word in CLOSES) - (word in CLOSES.values())
        name = word if NAME.match(word) and word not in ("mut", "dyn") else name
    return name


def owners(words: list[str]) -> tuple[str, str]:
    """The type and the trait, if there is one, that an impl's head names after its parameters."""
    depth, begin = 0, 0
    for at, word in enumerate(words):
        depth += (word == "<") - (word == ">" and words[at - 1] not in ("-", "="))
        if not depth:
            begin = at + (word == ">")
            break
    words = words[begin:]
    at = words.index("for") if "for" in words else -1
    return type_named(words[at + 1 :]), type_named(words[: max(at, 0)])


def head_of(tokens: list[Token], at: int) -> tuple[int, list[Span]]:
    """The index at which the body begins, or the semicolon is, of the item whose word is at this index, and the places of its clauses."""
    clauses = list[Span]()
    while not is_body(tokens, at):
        if tokens[at].word in CLAUSES:
            start, at = at, block_end(tokens, next_block(tokens, at))
            clauses.append((tokens[start].start, tokens[at - 1].end))
        else:
            at = block_end(tokens, at) if tokens[at].word in CLOSES else at + 1
    return at, clauses


def item_at(tokens: list[Token], at: int, within: Item | None) -> tuple[Item, int, int]:
    """The item whose word is at this index, and the indices of its head's end and after it."""
    kind, (start, is_public) = tokens[at].word, item_start(tokens, at)
    head, clauses = head_of(tokens, at + 1)
    end = block_end(tokens, head) if tokens[head].word == "{" else head + 1
    name, trait = owners([it.word for it in tokens[at + 1 : head]]) if kind == "impl" else (tokens[at + 1].word, "")
    owner, trait = (within.name, within.trait) if within else ("", trait)
    is_of_trait = within is not None and (within.kind == "trait" or bool(trait))
    item = Item(kind, name, tokens[start].start, tokens[at].start, tokens[head].start, tokens[end - 1].end, is_public, owner, trait, is_of_trait,
                tuple(clauses))
    return item, head, end


def items_in(tokens: list[Token], at: int, end: int, within: Item | None = None) -> Iterator[Item]:
    while at < end:
        word = tokens[at].word
        if word == "macro_rules":
            at = block_end(tokens, next_block(tokens, at))
        elif word == "fn" and NAME.match(tokens[at + 1].word) or word in ("struct", "enum", "trait", "impl") and not within:
            item, head, after = item_at(tokens, at, within)
            yield item
            if word in ("trait", "impl"):
                yield from items_in(tokens, head + 1, after - 1, item)
            at = after
        elif word == "ghost" and within and within.trait and tokens[at + 2].word == "=":
            name, after = tokens[at + 1].word, block_end(tokens, next_block(tokens, at))
            span = tokens[at].start, tokens[after - 1].end
            if name not in PROVED:
                yield Item("ghost", name, span[0], span[0], span[0], span[1], False, within.name, within.trait, True, (span,))
            at = after
        else:
            at = block_end(tokens, at) if word in CLOSES else at + 1


@functools.cache
def items_of(text: str) -> tuple[Item, ...]:
    """The items of a source, in their order: those of an impl or a trait after it."""
    tokens = tokens_of(text)
    try:
        return (*items_in(tokens, 0, len(tokens)),)
    except IndexError:
        raise Unclear from None


# Definitions

Import = tuple[str, str, str]  # crate, path in it, and what this is called here
USED = re.compile(r"^[ \t]*(?:pub )?(?:use|mod)\b[^{\n]*(?:\{[^}]*\})?[^\n]*\n?", re.M)
USE = re.compile(r"\buse Rattle\.(\w+)\.([\w.]+?)(?:\.\{([^}]*)\})?(?: as (\w+))?[ \t]*(?:;|$)", re.M)
BEFORE, AFTER = r"[\s(){}\[\],;]", r"[\s(){}\[\],;.]"  # what may be before a word and after it
WORDS = r"(?:(?:abbrev|unfoldable|pub|record|data) )*"  # in front of a word that is defined
DEFINED = re.compile(rf"{WORDS}([^\W\d][\w'-]*)")
MODULE = re.compile(r"module _ .*? where\n", re.S)  # of which all words have its parameters


@functools.cache
def without_comments(text: str) -> str:
    """A text of definitions without its comments, which leave an empty line."""
    return re.sub(r"(?m)^[ \t]*--(?:[ \t].*)?$", "", re.sub(r"\{-.*?-\}", "", text, flags=re.S))


@functools.cache
def without_imports(text: str) -> str:
    """A text of definitions without comments and imports."""
    return USED.sub("", without_comments(text))


def filled(text: str, comment: str | tuple[str, ...] = "--") -> int:
    """How many lines of a text are neither blank nor begin as a comment does."""
    return sum(bool(it.strip()) and not it.strip().startswith(comment) for it in text.split("\n"))


def cites(text: str, word: str) -> bool:
    return word in text and re.search(rf"(?:^|(?<={BEFORE})){re.escape(word)}(?={AFTER}|$)", text) is not None


@functools.cache
def imports_of(text: str) -> list[Import]:
    found = []
    for crate, path, items, renamed in USE.findall(text):
        if items:
            words = [it.strip().partition(" as ") for it in items.split(",") if it.strip()]
            found += [(crate, f"{path}.{word}", name or word) for word, _, name in words]
        else:
            found.append((crate, path, renamed or path.rpartition(".")[2]))
    return found


def paths_in(text: str) -> list[Import]:
    """What a text without imports cites by its whole path, in the form of an import."""
    return [(crate, path, path.rpartition(".")[2]) for crate, path in re.findall(r"\bRattle\.(\w+)\.([\w.]+)", text)]


def blocks_in(text: str) -> dict[str, tuple[str, list[str]]]:
    """The text of each word that a text defines, and the heads of the modules that the word stands in."""
    found: dict[str, tuple[str, list[str]]] = {}
    for block in re.split(r"(?m)^(?=[^\s)\]}])", text):
        head = MODULE.match(block)
        if head:
            for word, (inner, heads) in blocks_in(textwrap.dedent(block[head.end() :])).items():
                found[word] = inner, [head[0], *heads]
        elif name := DEFINED.match(block):
            found[name[1]] = found.get(name[1], ("", []))[0] + block, []
    return found


def definition(text: str, word: str) -> str | None:
    """A definition up to the next blank line, or None where there is none of that name."""
    begin = re.search(rf"(?m)^{WORDS}{re.escape(word)}(?= )", text)
    return text[begin.start() :].split("\n\n")[0].rstrip() + "\n" if begin else None


@functools.cache
def sentences_in(text: str) -> dict[str, str]:
    """The comment above each word of a text of definitions that has one."""
    found = dict[str, str]()
    for comment, name in re.findall(rf"(?m)((?:^--.*\n)+){DEFINED.pattern}", text):
        lines = [it.removeprefix("--") for it in comment.splitlines() if not it.startswith("-- ----")]
        found.setdefault(name, " ".join(" ".join(lines).split()))
    return found


def read_of(path: str, text: str) -> str:
    """What the prover reads of a file: of a source its words, without comments and layout, and of definitions the lines that say something."""
    if path.endswith(".rt"):
        return " ".join(it.word for it in tokens_of(text))
    return "\n".join(it.rstrip() for it in without_comments(text).split("\n") if it.strip())
