"""Statements as the assembler reads them: without tab characters, without small letters where those mean nothing else, and without
characters in comments and remarks that have no code."""
import re
from dataclasses import replace

from cics.log import Log
from cics.statements import CONTINUED, LAST, MARK, Origin, Statement, is_comment_line, is_continued, joined, parsed
from cics.texts import CODED, SMALL, places_of

HEXADECIMAL = re.compile(r"(?<![A-Z0-9@#$'])(?:\d+|\([^()']*\))?X(?:L(?:\d+|\([^()']*\)))?'[0-9A-Fa-f, ]*'")  # a constant, or a term
NUMBERED = re.compile(r"[A-Z0-9@#$]{8}| *[A-Z@#$]{0,4}[0-9]{1,8}")  # what columns 73 to 80 may have: a name or a number of the line
STOP, STAND_IN = 8, "."  # columns between the stops of tab characters; what stands for a character without a code


def without_tabs(lines: list[str], file: str, log: Log) -> list[str]:
    """The lines of a file with blanks for tab characters, but for one within apostrophes."""
    found = []
    for number, line in enumerate(lines, 1):
        is_text = not is_comment_line(line) and any(one == "\t" and place.is_text for one, place in zip(line, places_of(line)))
        new = line if is_text else line.expandtabs(STOP)
        if new != line:
            log.changed(Origin(file, number, number), "a tab character", f"blanks, with a stop at every {STOP} columns")
        found.append(new)
    return found


def coded(text: str) -> str:
    return "".join(one if one in CODED or one == "\t" else STAND_IN for one in text)


def capitals(text: str) -> str:
    return "".join(one.upper() if one in SMALL else one for one in text)


def plain(statement: Statement, log: Log) -> Statement:
    """A statement with capitals in its name, operation and operand, but not within apostrophes; and with what has a code in its remark, or
    in a comment. What is changed is told."""
    if statement.is_comment:
        new = replace(statement, lines=[coded(line[: MARK + 1]) + line[MARK + 1 :] for line in statement.lines])
    else:
        new = with_capitals(statement)
    tell(statement, new, log)
    return new


def with_capitals(statement: Statement) -> Statement:
    text = joined(statement.lines)
    count = text.find(statement.operation, len(statement.name)) + len(statement.operation) if statement.operation else 0
    first, *others = statement.lines
    read = parsed(statement.origin, [capitals(first[:count]) + first[count:], *others])
    text = joined(read.lines)
    begin = read.columns.operand if read.operand else len(text)
    end = begin + len(read.operand)
    operand = "".join(one if place.is_text else capitals(one) for one, place in zip(read.operand, places_of(read.operand)))
    operand = HEXADECIMAL.sub(lambda found: found[0].upper(), operand)
    return parsed(statement.origin, put_back(read.lines, begin, operand + coded(text[end:])))


def put_back(lines: list[str], begin: int, text: str) -> list[str]:
    """A statement's lines, with another text of the same length from a place on."""
    found = [list(line) for line in lines]
    room = LAST - CONTINUED
    for place, character in enumerate(text, begin):
        line, column = (0, place) if place < LAST else (1 + (place - LAST) // room, CONTINUED + (place - LAST) % room)
        if line < len(found) and column < len(found[line]):
            found[line][column] = character
    return ["".join(line) for line in found]


def tell(old: Statement, new: Statement, log: Log) -> None:
    pairs = [(one, other) for before, after in zip(old.lines, new.lines) for one, other in zip(before, after) if one != other]
    if any(one in SMALL for one, _ in pairs):
        log.changed(old.origin, f"{old.name} {old.operation} {old.operand}".strip(), f"{new.name} {new.operation} {new.operand}".strip())
    for one in sorted({one for one, _ in pairs if one not in SMALL}):
        log.changed(old.origin, f"X'{ord(one):02X}' in a comment or remark", STAND_IN)


def tell_broken(statements: list[Statement], log: Log) -> set[int]:
    """Tells statements that have a single character behind column 72, none in it, and a line after them that looks like their continuation, and
    commands whose text goes past column 71; returns their orders."""
    found = set()
    for one, following in zip(statements, [*statements[1:], None]):
        last = one.lines[-1] if one.lines else ""
        is_single = not one.is_comment and not is_continued(last) and len(last.rstrip()) == MARK + 2
        if following and is_single and not following.is_comment and following.lines[0].strip() and not following.lines[0][:CONTINUED].strip():
            found.add(one.origin.order)
            log.left(one.origin, f"a character in column {MARK + 2}, and none in {MARK + 1}: the next line isn't its continuation; write: the character "
                                 f"in column {MARK + 1}")
        elif one.operation == "EXEC" and any(is_cut(line, is_last=line is last) for line in one.lines):
            found.add(one.origin.order)
            log.left(one.origin, f"the line goes past column {LAST}: what stands from column {MARK + 1} on isn't read; write: a mark in column "
                                 f"{MARK + 1}, and the rest in the next line, from column {CONTINUED + 1} on")
    return found


def is_cut(line: str, *, is_last: bool) -> bool:
    """Whether a command's line has text from column 72 on: no name or number of the line. The last line of a statement has no mark."""
    beyond = line[MARK + 1 :].rstrip()
    is_run = is_continued(line) and (is_last or line[LAST - 1] != " ")
    return beyond != "" and not NUMBERED.fullmatch(beyond) and (is_run or is_last)
