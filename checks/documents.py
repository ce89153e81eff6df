"""Tries each script, page and source in README.md, docs/*.md and the lessons' answers, and compares what is written with its transcript.
One with looks or RUN is run by `cicslook`, and then by `cicsedf` without the looks, with the turns that each RUN did in its place.

A block is what Markdown takes for code: lines indented by four blanks or more after an empty line, or lines between fences. An
indented line inside a paragraph must be of a list. Each block is of one of these kinds, the first whose rule it follows; one that
follows none is a fault, and so is one that isn't as its kind has to be:

    drawing      the text in front is `<!-- drawing -->`: nothing is tried
    quoted       the text in front is `<!-- FILE: WORD -->`: that file has its lines, one after the other, but for blanks at their ends
    change       the text in front names an example; lines that begin with a hyphen are taken out of it, lines with a plus sign put there,
                 and all others stand there, in a row and in their order; after two periods other lines may come. Lines with a plus
                 sign alone are put at the end. A written block follows
    written      the text in front ends with "Written:", and the block before it is a change: these lines are written, in a row, of the
                 example that is changed so, which ends well; after two periods other lines may come
    page         a SCREEN or DISPLAY line and lines of a page: they are, in a row, in what the example writes that the text in
                 front names last
    session      the first line is `$ ` and the program: each second line is the answer to the one in front of it, which was typed
    transcript   the text in front is "Its transcript:" or "writes", and the block before it a script, which writes exactly this
    script       after comments and empty lines the first word is that of a script's line: it ends well
    listing      each line is one of a listing: the source that it shows is listed so
    source       a statement is CSECT or START: a program is defined of it
    statements   each line is a statement without a name: they are, in a row, in the listing of an EXEC statement with CWA(5),
                 where a number is written with a small letter
    shell        the first word of each line is cd, rt or a file: the files exist, and a script that one names ends well
    characters   the first line has the sixteen digits: a constant of each character has its code, and no other character has one
    form         it has square brackets, which have no code, so it is neither a script nor a source; nothing is tried

Each `EXEC CICS` statement inside a text is put into a source, whose names are fields: it comes to its command, and where the
text says what that answers, it does. A script that ends well has status 0, and writes nothing on standard error.
"""
import glob
import os
import re
from collections import Counter
from collections.abc import Callable
from functools import partial
from typing import NamedTuple

from cics.child import TOP, Child, Ended, lines_of, read, run
from cics.transcripts import is_of_page
from checks.common import Check, Counts, Wrong, require
from checks.examples import each_of, lines_in, text_of
from checks.plain_scripts import is_look_in, plain_of

VERBS = {"IMAGE", "SOURCE", "TRANSACTION", "TERMINAL", "CLOCK", "KEY", "TURN", "EDF", "ALTER", "SCREEN", "DISPLAY"}
LISTED = re.compile(r"[0-9A-F ]{6} [0-9A-F ]{16} [0-9]{5} ?(.*)")
BEGIN = re.compile(r"\S+ +(CSECT|START)\b")
STATEMENT = re.compile(r"^ +([A-Z]+) +(\S+)(?: .*)?$", re.M)
NAMED = re.compile(r"<!-- (\S+): \S+ -->")
EXAMPLE = re.compile(r"`examples/(\S+)\.script`")
INLINE = re.compile(r"`(EXEC CICS [A-Z][^`]*)`(?:[^`]* answers `([^`]*)`)?")
DIGITS = "0123456789ABCDEF"
QUOTED = "&'"  # two of these in a constant stand for one


class Part(NamedTuple):
    """A block or a paragraph of a document: where it begins, and its lines."""

    path: str
    number: int
    is_block: bool
    lines: list[str]

    def text(self) -> str:
        return " ".join(line.strip() for line in self.lines)


def end_of(lines: list[str], at: int, is_inside: Callable[[str], bool]) -> int:
    """The line after those from a line on that are inside."""
    return next((place for place in range(at, len(lines)) if not is_inside(lines[place])), len(lines))


def is_fence(line: str) -> bool:
    return line.lstrip().startswith(("```", "~~~"))


def fenced(lines: list[str], at: int) -> tuple[list[str], int]:
    """Where the lines of a fence begin and end, and what follows it."""
    end = end_of(lines, at + 1, lambda line: line.strip() != lines[at].strip()[:3])
    require(end < len(lines), "the fence isn't closed")
    require("".join(lines[at + 1 : end][:1]).strip(), "the block between the fences is empty")
    return lines[at + 1 : end], end + 1


def indented(lines: list[str], at: int) -> tuple[list[str], int]:
    """The lines of an indented block without their indentation, and what follows it."""
    end = end_of(lines, at, lambda line: not line.strip() or line.startswith("    "))
    while not lines[end - 1].strip():
        end -= 1
    return [line[4:].rstrip() for line in lines[at:end]], end


def paragraph(lines: list[str], at: int) -> tuple[list[str], int]:
    """The lines of a paragraph, and what follows it."""
    end = end_of(lines, at, lambda line: line.strip() != "" and not is_fence(line))
    is_list = re.match(r" *([-*+]|[0-9]+[.)]) ", lines[at])
    require(is_list or not any(line.startswith("    ") for line in lines[at:end]), "a line is indented in a text that is no list")
    require("\t" not in "".join(lines[at:end]), "a tabulator")
    return lines[at:end], end


def parts_of(path: str) -> list[Part]:
    lines, at, parts = lines_of(read(os.path.join(TOP, path)).decode()), 0, list[Part]()
    while at < len(lines):
        if lines[at].strip():
            is_block = is_fence(lines[at]) or lines[at].startswith("    ")
            take = fenced if is_fence(lines[at]) else indented if is_block else paragraph
            taken, end = take(lines, at)
            parts.append(Part(path, at + 1, is_block, taken))
        else:
            end = at + 1
        at = end
    return parts


class Programs(NamedTuple):
    cicsedf: str
    cicslook: str

    def ran(self, lines: list[str]) -> Ended:
        """How a script ends."""
        ended = run([self.cicslook if is_look_in(lines) else self.cicsedf], text_of(lines))
        if is_look_in(lines) and ended.is_well():
            script, transcript, _ = plain_of(lines, ended.lines())
            again = run([self.cicsedf], text_of(script))
            require(again == Ended(0, text_of(transcript), b""), f"`cicsedf`, with the turns of each RUN, ends with {again}")
        return ended

    def written_by(self, lines: list[str]) -> list[str]:
        """What is written of a script, which must end well."""
        ended = self.ran(lines)
        require(ended.is_well(), f"it ends with {ended}")
        return ended.lines()


def in_source(statements: list[str], words: str = "") -> list[str]:
    return [f"SOURCE P{words}", *statements, "/*"]


def is_in_a_row(few: list[str], many: list[str]) -> bool:
    return any(many[at : at + len(few)] == few for at in range(len(many)))


def without_comments(lines: list[str]) -> list[str]:
    return [line for line in lines if line and not line.startswith("*")]


def hunks_of(lines: list[str]) -> list[list[str]]:
    """The lines of a block that belong together: those between two periods."""
    hunks: list[list[str]] = [[]]
    for line in lines:
        if line == "..":
            hunks.append([])
        else:
            hunks[-1].append(line)
    return [hunk for hunk in hunks if hunk]


def place_of(few: list[str], many: list[str], start: int) -> int:
    """The first place from one on where lines stand in a row."""
    for at in range(start, len(many) - len(few) + 1):
        if many[at : at + len(few)] == few:
            return at
    raise Wrong(f"not in a row: {few}")


def changed(block: Part, front: list[Part]) -> list[str]:
    """The lines of an example that a block changes."""
    lines, done = lines_in(EXAMPLE.findall(front[-1].text())[-1]), 0
    for hunk in hunks_of(block.lines):
        old, new = ([line[2:] for line in hunk if line[0] != sign] for sign in "+-")
        at = place_of(old, lines, done) if old else len(lines)
        lines[at : at + len(old)] = new
        done = at + len(new)
    return lines


def is_change(block: Part, front: list[Part]) -> bool:
    is_signed = all(line == ".." or line[:2] in ("+", "+ ", "- ", "  ") for line in block.lines)
    return is_signed and any(line[0] in "+-" for line in block.lines) and front[-1:] != [] and bool(EXAMPLE.findall(front[-1].text()))


def try_change(_programs: Programs, block: Part, front: list[Part]) -> None:
    changed(block, front)


def is_written(block: Part, front: list[Part]) -> bool:
    return front[-1:] != [] and front[-1].text().endswith("Written:") and front[-2:-1] != [] and is_change(front[-2], front[:-2])


def try_written(programs: Programs, block: Part, front: list[Part]) -> None:
    written, done = [line.rstrip() for line in programs.written_by(changed(front[-2], front[:-2]))], 0
    for hunk in hunks_of(block.lines):
        done = place_of(hunk, written, done) + len(hunk)


def is_drawing(_block: Part, front: list[Part]) -> bool:
    return front[-1:] != [] and front[-1].text() == "<!-- drawing -->"


def try_nothing(_programs: Programs, _block: Part, _front: list[Part]) -> None:
    """Of what is drawn, or a form."""


def is_quoted(_block: Part, front: list[Part]) -> bool:
    return front[-1:] != [] and NAMED.fullmatch(front[-1].text()) is not None


def try_quoted(programs: Programs, block: Part, front: list[Part]) -> None:
    path = NAMED.sub(r"\1", front[-1].text())
    lines = [line.rstrip(" ") for line in lines_of(read(os.path.join(TOP, path)).decode())]
    require(is_in_a_row(block.lines, lines), f"it stands not so in {path}")


def is_page(block: Part, _front: list[Part]) -> bool:
    first, *rest = block.lines
    return first.split()[0] in ("SCREEN", "DISPLAY") and rest != [] and all(map(is_of_page, rest))


def try_page(programs: Programs, block: Part, front: list[Part]) -> None:
    names = EXAMPLE.findall(front[-1].text()) if front else []
    require(names, "the text in front names no example")
    require(is_in_a_row(block.lines, programs.written_by(lines_in(names[-1]))), f"it stands not so in what {names[-1]} writes")


def is_session(block: Part, _front: list[Part]) -> bool:
    return re.fullmatch(r"\$ (\S*/)?out/cicsedf", block.lines[0]) is not None


def try_session(programs: Programs, block: Part, _front: list[Part]) -> None:
    typed, answers = block.lines[1::2], block.lines[2::2]
    require(len(typed) == len(answers) > 0, "not each typed line has its answer")
    with Child([programs.cicsedf]) as session:
        for line, answer in zip(typed, answers):
            session.type(line)
            reported = session.line()
            require(reported == answer, f"{line!r} is answered {reported!r}")
        ended = session.end()
    require(ended == Ended(0, b"", b""), f"it ends with {ended}")


def is_transcript(block: Part, front: list[Part]) -> bool:
    is_reported = front[-1:] != [] and front[-1].text() in ("Its transcript:", "writes")
    return is_reported and front[-2:-1] != [] and front[-2].is_block and is_script(front[-2], front[:-2])


def try_transcript(programs: Programs, block: Part, front: list[Part]) -> None:
    require(programs.written_by(front[-2].lines) == block.lines, "the script in front writes something else")


def is_script(block: Part, _front: list[Part]) -> bool:
    return any(line.split()[0] in VERBS for line in without_comments(block.lines)[:1])


def try_script(programs: Programs, block: Part, _front: list[Part]) -> None:
    programs.written_by(block.lines)


def is_listing(block: Part, _front: list[Part]) -> bool:
    return all(map(LISTED.fullmatch, block.lines))


def try_listing(programs: Programs, block: Part, _front: list[Part]) -> None:
    statements = [LISTED.sub(r"\1", line) for line in block.lines]
    written = [line.rstrip() for line in programs.written_by(in_source(statements, " LIST"))]
    require(written[:-1] == block.lines, "its source is listed otherwise")


def is_source(block: Part, _front: list[Part]) -> bool:
    return any(map(BEGIN.match, block.lines))


def try_source(programs: Programs, block: Part, _front: list[Part]) -> None:
    require("".join(programs.written_by(in_source(block.lines))).startswith("PROGRAM P AT "), "no program is defined")


def is_statements(block: Part, _front: list[Part]) -> bool:
    return all(map(STATEMENT.fullmatch, block.lines))


def try_statements(programs: Programs, block: Part, _front: list[Part]) -> None:
    due = STATEMENT.findall("\n".join(block.lines))
    expressions = [f"{operation} +{re.sub('[0-9]*[a-z]', '[0-9]+', re.escape(operand))}" for operation, operand in due]
    made = programs.written_by(in_source(["P        CSECT", "         EXEC  CICS ADDRESS CWA(5)", "         END"], " LIST"))
    texts = [found[1].strip() for found in map(LISTED.fullmatch, made) if found]
    fronts = [texts[at : at + len(due)] for at in range(len(texts) - len(due) + 1)]
    require(any(all(map(re.fullmatch, expressions, front)) for front in fronts), "an EXEC statement isn't made into these")


def commands_of(block: Part) -> list[list[str]]:
    """The words of each line, up to two blanks, after which it is explained."""
    return [line.split("  ")[0].split() for line in block.lines]


def is_shell(block: Part, _front: list[Part]) -> bool:
    return all(words and (words[0] in ("cd", "rt") or "/" in words[0]) for words in commands_of(block))


def try_shell(programs: Programs, block: Part, _front: list[Part]) -> None:
    folder = TOP
    for words in commands_of(block):
        files = [os.path.normpath(os.path.join(folder, word.rpartition("=")[2])) for word in words if "/" in word]
        for file in files:
            require(os.path.exists(file) or "/out/" in file, f"there is no {file}")
        for script in (file for file in files if file.endswith(".script")):
            programs.written_by(lines_of(read(script).decode()))
        if words[0] == "cd":
            folder = files[0]


def is_characters(block: Part, _front: list[Part]) -> bool:
    return "".join(block.lines[0].split()) == DIGITS


def coded(head: str, row: str) -> dict[str, str]:
    """The characters of a row with their codes."""
    places = {digit: row[head.index(digit) :][:1].strip() for digit in DIGITS}
    return {character: row[0] + digit for digit, character in places.items() if character}


def try_characters(programs: Programs, block: Part, _front: list[Part]) -> None:
    head, *rows = block.lines
    codes = {character: code for row in rows for character, code in coded(head, row).items()}
    constants = [f"         DC    C'{character * (1 + (character in QUOTED))}'" for character in codes]
    made = programs.written_by(in_source(["P        CSECT", *constants, "         END"], " DISASM"))
    require(made[:-1] == [f"DC X'{code}'" for code in codes.values()], "a constant has another code")
    for character in map(chr, range(0x21, 0x7F)):
        require(programs.ran([f"KEY T001 ENTER {character}"]).is_well() == (character in codes), f"it is wrong about {character}")


def is_form(block: Part, _front: list[Part]) -> bool:
    return "[" in "".join(block.lines) and "]" in "".join(block.lines)


Judge = Callable[[Part, list[Part]], bool]
Attempt = Callable[[Programs, Part, list[Part]], None]
KINDS: dict[str, tuple[Judge, Attempt]] = {
    "drawing": (is_drawing, try_nothing),
    "quoted": (is_quoted, try_quoted),
    "change": (is_change, try_change),
    "written": (is_written, try_written),
    "page": (is_page, try_page),
    "session": (is_session, try_session),
    "transcript": (is_transcript, try_transcript),
    "script": (is_script, try_script),
    "listing": (is_listing, try_listing),
    "source": (is_source, try_source),
    "statements": (is_statements, try_statements),
    "shell": (is_shell, try_shell),
    "characters": (is_characters, try_characters),
    "form": (is_form, try_nothing),
}


def statement(text: str) -> list[str]:
    """The lines of a statement: an operand goes up to column 71, and on in column 16."""
    operation, operand = text.split(" ", 1)
    *continued, last = [operand[at : at + 56] for at in range(0, len(operand), 56)]
    heads = [f"         {operation:6}"] + [" " * 15] * len(continued)
    return [head + cut for head, cut in zip(heads, [*(f"{cut}-" for cut in continued), last])]


def try_inline(programs: Programs, text: str, answer: str) -> None:
    """Whether an EXEC statement comes to its command, and is answered so."""
    names = sorted(set(re.findall(r"\(([A-Z@#$][A-Z0-9@#$]*)\)", text)) - {f"R{number}" for number in range(16)})
    fields = [f"{name:8} DS    F" for name in names]
    source = in_source(["P        CSECT", "         DFHREGS", *statement(text), *fields, "         END"])
    turns = ["TERMINAL T001", "TRANSACTION P P", "KEY T001 ENTER P", "TURN T001", "TURN T001"]
    reported = programs.written_by(source + turns)
    require(reported[-2:-1] == ["TURN T001 AtCommand"], f"`{text}` doesn't come to its command: {reported}")
    require(not answer or reported[-1] == f"TURN T001 {answer}", f"`{text}` is answered otherwise: {reported}")


def tried(programs: Programs, part: Part, front: list[Part]) -> Counts:
    """The kind of a block, or how many statements a paragraph has; each as it should be."""
    if part.is_block:
        kind = next((kind for kind, (is_it, _) in KINDS.items() if is_it(part, front)), None)
        if kind is None:
            raise Wrong("it is of no kind that this program knows")
        KINDS[kind][1](programs, part, front)
        return Counter({kind: 1})
    statements = INLINE.findall(part.text())
    for text, answer in statements:
        try_inline(programs, text, answer)
    return Counter({"inline": len(statements)} if statements else {})


def tried_document(programs: Programs, path: str) -> Counts:
    """How many parts of each kind a document has; each must be as it should be."""
    kinds: Counts = Counter()
    wrong = []
    parts = parts_of(path)
    for at, part in enumerate(parts):
        try:
            kinds += tried(programs, part, parts[:at])
        except Wrong as what:
            wrong.append(f"{path}:{part.number}: {what}")
    if kinds["change"] != kinds["written"] and not wrong:
        wrong.append("a change isn't followed by what is written of it")
    if wrong:
        raise Wrong(*wrong)
    return kinds


def main(words: list[str]) -> int:
    check = Check(__name__, __doc__, words, "cicsedf", "cicslook")
    paths = ["README.md", *sorted(glob.glob("docs/*.md", root_dir=TOP)), "docs/lessons/answers.md"]
    programs = Programs(check.program(), check.program(1))
    return check.report(each_of(paths, partial(tried_document, programs)), {"script": 1, "inline": 1, "quoted": 1})
