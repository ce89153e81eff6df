"""Where words stand in a file: its functions, types, definitions, lemmas and lists, or the headings of a page."""
import os
import re

HEAD, WHOLE = "its head", "all of it"  # what is in front of a file's first place; and a file without places, or of which the name has the word
USE = r"(?:pub(?:\(\w+\))? |ghost )*(?P<use>use)\b"
HEADS = {  # how the first line of a place begins
    ".rt": re.compile(
        rf"{USE}|(?: {{4}})?(?:pub(?:\(\w+\))? |const (?=fn))*(?:fn|enum|struct|trait|const|static|type|mod|macro_rules!) (?P<name>\w+)"),
    ".antt": re.compile(rf"{USE}|(?!unfolding\b|--|[\s}})])(?:(?:pub|abbrev|unfoldable|record|data|mod) )*(?P<name>[^\s:]+)"),
    ".py": re.compile(r"(?P<use>import|from)\b|(?: {4})?(?:def|class) (?P<name>\w+)|(?P<names>\w+(?:, \w+)*)(?:: [^=]+)? [|+]?= "),
    ".md": re.compile(r"#+ (?P<name>.*)"),
    "stdin": re.compile(r"(?P<name>VECTORS \w+)"),
}
BEFORE = {".rt": re.compile(r" {0,4}(?:///|#\[)"), ".antt": re.compile("--"), ".py": re.compile(r"#| {0,4}@")}  # lines that belong to the next place
STRING = r'b?"(?:\\.|[^"\\])*"'
COMMENTS = {".rt": re.compile(rf"(?P<kept>{STRING}|b?'(?:\\.|[^'\\])')|//[^\n]*"), ".antt": re.compile(rf"(?P<kept>{STRING})|--[^\n]*")}


def kind_of(path: str) -> str:
    """The ending of a file's name, or its name."""
    return os.path.splitext(path)[1] or os.path.basename(path)


def without_comments(path: str, text: str) -> str:
    """A source's text without its comments, in as many lines; that of any other file as it is."""
    comments = COMMENTS.get(kind_of(path))
    return comments.sub(lambda found: found["kept"] or "", text) if comments else text


def places_of_lines(path: str, lines: list[str]) -> list[str]:
    """The place that each line is in."""
    heads, before = HEADS.get(kind_of(path)), BEFORE.get(kind_of(path))
    place, waiting, places = HEAD if heads else WHOLE, 0, list[str]()
    for line in lines:
        found = heads.match(line) if heads else None
        if found:
            place = next(filter(None, found.groups()))
            places[len(places) - waiting :] = [place] * waiting
        is_before = before is not None and before.match(line) is not None and place != HEAD
        waiting = waiting + 1 if is_before else 0
        places.append(place)
    return places


def places_with(path: str, text: str, code: re.Pattern[str], anywhere: re.Pattern[str]) -> list[str]:
    """The places in which words stand, each once, in the file's order: those of `code` outside comments, those of `anywhere` in them too."""
    lines, coded = text.split("\n"), without_comments(path, text).split("\n")
    places = zip(places_of_lines(path, lines), lines, coded, strict=True)
    return list(dict.fromkeys(place for place, line, bare in places if code.search(bare) or anywhere.search(line)))
