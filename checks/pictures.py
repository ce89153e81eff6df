"""Sees that each picture and block of the lessons' pages is what the comment in front of it says, and that the lessons use every command,
EDF key and alteration, and some instructions and statements. The pages are docs/lessons/*.md but answers.md, which checks/documents runs.
With --write the blocks are put there. It runs nothing: checks/run sees that the transcripts are what the program writes.

The comment is one of these, each FILE a file of examples/lessons:

    <!-- FILE, page K -->       the Kth page of a transcript, SCREEN or DISPLAY, in a box of 80 columns: the rows that have text, and one
                                blank row for those between them that have none
    <!-- FILE, whole page K --> the same with all 24 rows
    <!-- FILE, from TEXT -->    as many of its lines as the block has, from the first one on that has TEXT
    <!-- diff FILE FILE -->     what diff writes of the two; with `, PROGRAM` after them, of their SOURCE blocks of this name
    <!-- shell -->              commands: each file that they name exists (--write doesn't change it)
"""
import glob
import os
import re
import subprocess
import tempfile
from collections import Counter
from collections.abc import Iterator
from functools import partial
from typing import NamedTuple

from cics.child import TOP, lines_of, read
from cics.files import put_file
from cics.transcripts import is_of_page
from checks.common import Case, Check, Counts, Wrong, require
from checks.examples import FOLDER, text_of
from checks.plain_scripts import BLOCKS

PAGES, LESSONS = os.path.join(TOP, "docs/lessons"), os.path.join(FOLDER, "lessons")
ANSWERS = os.path.join(PAGES, "answers.md")  # checks/documents tries its blocks
WIDTH = 130  # columns of a page, at most
COMMENT = re.compile(r"<!-- (.*) -->")
COMMANDS = (
    "ABEND, ADDRESS, DELETEQ TS, DEQ, ENQ, FREEMAIN, GETMAIN, HANDLE ABEND, HANDLE CONDITION, IGNORE CONDITION, LINK, POP HANDLE, "
    "PUSH HANDLE, READQ TS, RECEIVE, RETURN, SEND TEXT, SUSPEND, WRITEQ TS, XCTL"
).split(", ")
STATEMENTS = {
    "EX": r"\S* +EX +", "TRT": r"\S* +TRT +", "PACK": r"\S* +PACK +", "UNPK": r"\S* +UNPK +", "LTORG": r"\S* +LTORG\b",
    "DSECT": r"(?!DFHEISTG)\S+ +DSECT\b", "a second base": r" +USING +\S+\+4096,",
    **{command: rf"\S* +EXEC +CICS +{command}\b" for command in COMMANDS},
}
ACTIONS = {
    **{f"{key} of EDF": rf"KEY \S+ {key}\b.*\tKEY \S+ ToEdf" for key in "ENTER PF3 PF4 PF5 PF6 PF9 PF10 PF12".split()},
    **{f"ALTER {what}": rf"ALTER \S+ {what}\b.*\tALTER \S+ Altered" for what in "REG BYTE NOP ABEND".split()},
}


def lines_in(file: str) -> list[str]:
    path = os.path.join(LESSONS, file)
    require(os.path.isfile(path), f"there is no {file}")
    return lines_of(read(path).decode())


def pages(transcript: list[str]) -> list[tuple[str, dict[int, str]]]:
    """The pages of a transcript: each its first line, and its lines by their numbers."""
    found: list[tuple[str, dict[int, str]]] = []
    for line in transcript:
        if is_of_page(line):
            found[-1][1][int(line[:2])] = line[3:]
        elif line.startswith(("SCREEN", "DISPLAY")):
            found.append((line, {}))
    return found


def cropped(rows: list[str]) -> list[str]:
    """The rows that have text, and one without in place of those between them that have none."""
    while rows and not rows[-1]:
        rows = rows[:-1]
    return [row for at, row in enumerate(rows) if row or (at and rows[at - 1])]


def picture(file: str, number: int, is_whole: bool) -> list[str]:
    found = pages(lines_in(file))
    require(0 < number <= len(found), f"{file} has {len(found)} pages")
    head, page = found[number - 1]
    rows = [page.get(line, "") for line in range(1, 25)]
    shown = rows if is_whole else cropped(rows) or [""]
    return [f"+-- {head} ".ljust(81, "-") + "+", *(f"|{row:80}|" for row in shown), f"+{'-' * 80}+"]


def excerpt(file: str, text: str, block: list[str]) -> list[str]:
    lines = lines_in(file)
    starts = [at for at, line in enumerate(lines) if text in line]
    require(starts, f"{text} isn't in {file}")
    return [line.rstrip() for line in lines[starts[0] : starts[0] + len(block)]]


def source(file: str, name: str | None) -> list[str]:
    """The lines of a file, or of its SOURCE block of a name."""
    lines = lines_in(file)
    if name is None:
        return lines
    starts = [at for at, line in enumerate(lines) if line.split()[:2] == ["SOURCE", name]]
    require(starts, f"{file} has no SOURCE {name}")
    return lines[starts[0] + 1 : lines.index("/*", starts[0])]


def difference(old: str, new: str, name: str | None) -> list[str]:
    with tempfile.TemporaryDirectory() as folder:
        paths = [os.path.join(folder, "old"), os.path.join(folder, "new")]
        for path, file in zip(paths, (old, new)):
            put_file(path, text_of(source(file, name)))
        return lines_of(subprocess.run(["diff", *paths], capture_output=True, text=True, check=False).stdout)


def commands(block: list[str]) -> list[str]:
    folder = TOP
    for words in map(str.split, block):
        files = [file for word in words for file in word.rpartition("=")[2].split(":") if "/" in file or "." in file]
        for file in files:
            require("/out/" in file or os.path.exists(os.path.join(folder, file)), f"there is no {file}")
        if words[0] == "cd":
            folder = os.path.join(folder, words[1])
    return block


def due(what: str, block: list[str]) -> list[str]:
    """The block that is due after a comment."""
    if page := re.fullmatch(r"(\S+), (whole )?page ([0-9]+)", what):
        return picture(page[1], int(page[3]), page[2] is not None)
    if lines := re.fullmatch(r"(\S+), from (.+)", what):
        return excerpt(lines[1], lines[2], block)
    if files := re.fullmatch(r"diff (\S+) ([^\s,]+)(?:, (\S+))?", what):
        return difference(files[1], files[2], files[3])
    require(what == "shell", "its comment says nothing that this program knows")
    return commands(block)


def parts(lines: list[str]) -> list[tuple[bool, int, list[str]]]:
    """The blocks of a page, and the lines between them."""
    at, found = 0, []
    while at < len(lines):
        is_block = lines[at].startswith("    ")
        end = at + 1
        while end < len(lines) and (not lines[end].strip() or lines[end].startswith("    ") if is_block else not lines[end].startswith("    ")):
            end += 1
        while is_block and not lines[end - 1].strip():
            end -= 1
        found.append((is_block, at + 1, [line[4:] for line in lines[at:end]] if is_block else lines[at:end]))
        at = end
    return found


def comment_in_front(text: list[str]) -> str:
    """What the comment right in front of a block says."""
    last = next((line for line in reversed(text) if line.strip()), "")
    found = COMMENT.fullmatch(last)
    if not found:
        raise Wrong("no comment in front of it says what it is")
    return found[1]


class Block(NamedTuple):
    """A block of a page: where it begins, its lines, and those that are due."""

    number: int
    lines: list[str]
    due: list[str]


def judged(path: str) -> tuple[list[str], list[Block], list[str]]:
    """A page as it is to be, its blocks, and what is wrong with some of them."""
    made, blocks, wrong, text = list[str](), list[Block](), list[str](), list[str]()
    for is_block, number, lines in parts(lines_of(read(path).decode())):
        if not is_block:
            made, text = [*made, *lines], lines
            continue
        right = lines
        try:
            right = due(comment_in_front(text), lines)
        except Wrong as what:
            wrong.append(f"{path}:{number}: {what}")
        blocks.append(Block(number, lines, right))
        made += [f"    {line}".rstrip() for line in right]
    return made, blocks, wrong


def faults_of_lines(path: str) -> Iterator[str]:
    for number, line in enumerate(lines_of(read(path).decode()), 1):
        if "```" in line:
            yield f"{path}:{number}: a fence: blocks are indented"
        if len(line) > WIDTH:
            yield f"{path}:{number}: more than {WIDTH} columns"


def tried(path: str) -> Counts:
    """A page's blocks must be what is due."""
    _, blocks, wrong = judged(path)
    wrong += [f"{path}:{block.number}: the block isn't what is due" for block in blocks if block.lines != block.due]
    return counted(blocks, [*wrong, *faults_of_lines(path)])


def counted(blocks: list[Block], wrong: list[str]) -> Counts:
    if wrong:
        raise Wrong(*wrong)
    return Counter({"blocks": len(blocks)})


def written(path: str) -> Counts:
    """Writes a page with the blocks that are due."""
    made, blocks, wrong = judged(path)
    put_file(path, text_of(made))
    return counted(blocks, wrong)


def narrow(path: str) -> Counts:
    """The answers' page, whose blocks another check tries."""
    wrong = [fault for fault in faults_of_lines(path) if fault.endswith("columns")]
    if wrong:
        raise Wrong(*wrong)
    return Counter()


def statements_and_actions(name: str) -> tuple[list[str], list[str]]:
    """The lines of a script's sources, and those of its actions, each with a tabulator and what is answered."""
    sources, asked, block = list[str](), list[str](), ""
    for line in lines_in(f"{name}.script"):
        if block:
            sources += [line] if block == "SOURCE" else []
            block = "" if line == "/*" else block
        elif line.split(" ")[0] in BLOCKS:
            block = line.split(" ")[0]
        elif line.startswith(("KEY", "ALTER")):
            asked.append(line)
    answers = [line for line in lines_in(f"{name}.transcript") if line.startswith(("KEY", "ALTER"))]
    return sources, [f"{line}\t{answer}" for line, answer in zip(asked, answers, strict=True)]


def all_used() -> Counts:
    """Sees that the lessons use all that they are to show."""
    names = [os.path.relpath(path, LESSONS).removesuffix(".script") for path in sorted(glob.glob(f"{LESSONS}/*/*.script"))]
    pairs = [statements_and_actions(name) for name in names]
    statements = [line for lines, _ in pairs for line in lines if not line.startswith("*")]
    there = [(STATEMENTS, statements), (ACTIONS, [line for _, lines in pairs for line in lines])]
    unused = [f"no lesson uses {what}" for rules, lines in there for what, rule in rules.items() if not any(re.match(rule, line) for line in lines)]
    if unused:
        raise Wrong(*unused)
    return Counter({"things used": len(STATEMENTS) + len(ACTIONS)})


def main(words: list[str]) -> int:
    check = Check(__name__, __doc__, words, flags={"write": "put the blocks there that are due"})
    paths = [path for path in sorted(glob.glob(f"{PAGES}/*.md")) if path != ANSWERS]
    cases = [Case(os.path.relpath(path, TOP), partial(written if check.has("write") else tried, path)) for path in paths]
    cases += [Case(os.path.relpath(ANSWERS, TOP), partial(narrow, ANSWERS)), Case("what the lessons use", all_used)]
    return check.report(cases, {"blocks": 1})
