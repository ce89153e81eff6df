"""Statements of a source: lines read into statements, and statements laid out as lines.

A statement is read from columns 1 to 71, and of each continuation from columns 16 to 71; column 72 says that it is continued, and
columns 73 to 80 are kept as they are.
"""
from collections.abc import Iterable
from dataclasses import dataclass, field, replace

from cics.texts import end_of_operand

LAST, MARK, CONTINUED = 71, 71, 15  # columns from 0: the first after the text, the mark, the first of a continuation
OPERATION, OPERAND, REMARK = 9, 15, 39  # where a new statement has its parts


@dataclass(frozen=True)
class Origin:
    """Where a statement comes from: its file, the number of its first line there, and its place among all that are read."""

    file: str
    number: int
    order: int


@dataclass(frozen=True)
class Columns:
    """The columns, from 0, in which the parts of a statement begin."""

    operation: int = OPERATION
    operand: int = OPERAND
    remark: int = REMARK


@dataclass(frozen=True)
class Statement:
    """A statement, or a comment. `lines` are the lines that it was read from; a statement that isn't changed is written by them."""

    origin: Origin
    lines: list[str]
    name: str = ""
    operation: str = ""
    operand: str = ""
    remark: str = ""
    columns: Columns = field(default_factory=Columns)
    is_comment: bool = False
    is_changed: bool = False

    def changed(self, name: str | None = None, operation: str | None = None, operand: str | None = None,
                remark: str | None = None) -> "Statement":
        """The statement with some of its parts changed."""
        parts = {"name": name, "operation": operation, "operand": operand, "remark": remark}
        given = {part: text for part, text in parts.items() if text is not None}
        return replace(self, **given, is_changed=True)

    def with_lines(self, lines: list[str]) -> "Statement":
        """The statement, written by these lines."""
        return replace(self, lines=lines)

    def made_comment(self) -> "Statement":
        return replace(self, lines=[comment_of(line) for line in self.lines], name="", operation="", operand="", remark="",
                       is_comment=True, is_changed=False)

    def written(self) -> list[str]:
        return laid_out(self) if self.is_changed else self.lines


def new_statement(near: Statement, operation: str, operand: str = "", name: str = "") -> Statement:
    """A statement that is put beside another one."""
    return Statement(near.origin, [], name, operation, operand, is_changed=True)


def new_comment(near: Statement, text: str) -> Statement:
    return Statement(near.origin, [text], is_comment=True)


@dataclass(frozen=True)
class Line:
    """A statement that is written for another one."""

    operation: str
    operand: str


def written_for(old: Statement, lines: Iterable[Line], *, is_kept: bool) -> list[Statement]:
    """A statement as a comment, unless the old text is kept in any case, and what is written for it, with its name."""
    comments = [] if is_kept else [new_comment(old, comment_of(line)) for line in old.written()]
    return [*comments, *(new_statement(old, line.operation, line.operand, old.name if at == 0 else "") for at, line in enumerate(lines))]


def comment_of(line: str) -> str:
    """A line made a comment: the asterisk takes column 1, and column 72 is blank. A name there goes one column on, into a blank where
    two stand side by side."""
    text, rest = line[:LAST].ljust(LAST), line[MARK + 1 :]
    if text[0] != " ":
        at = text.find("  ")
        text = " " + (text[:at] + text[at + 1 :] if at > 0 else text[: LAST - 1])
    text = "*" + text[1:]
    return (text + " " + rest).rstrip() if rest.strip() else text.rstrip()


def is_comment_line(line: str) -> bool:
    return line[:1] == "*" or not line[: MARK + 1].strip()


def is_continued(line: str) -> bool:
    return line[MARK : MARK + 1].strip() != ""


def lines_of_statement(lines: list[str], begin: int) -> int:
    """Where the statement ends that begins on a line. A line with something in columns 1 to 15 continues none."""
    at = begin
    while is_continued(lines[at]) and at + 1 < len(lines) and not lines[at + 1][:CONTINUED].strip():
        at += 1
    return at + 1


def joined(lines: list[str]) -> str:
    """The text of a statement: what its lines have up to column 71, continuations from column 16 on."""
    first, *others = lines
    pieces = [first[:LAST], *(line[CONTINUED:LAST] for line in others)]
    padded = [pieces[0].ljust(LAST), *(piece.ljust(LAST - CONTINUED) for piece in pieces[1:])]
    return "".join([*padded[:-1], pieces[-1]]).rstrip()


def parsed(origin: Origin, lines: list[str]) -> Statement:
    """A statement by its parts. The operand of EXEC goes on to the end, and has no remark."""
    text = joined(lines)
    name_end = text.find(" ") if " " in text else len(text)
    operation = begin_of_word(text, name_end)
    operation_end = end_of_word(text, operation)
    operand = begin_of_word(text, operation_end)
    is_exec = text[operation:operation_end] == "EXEC"
    operand_end = len(text) if is_exec else end_of_operand(text, operand)
    remark = begin_of_word(text, operand_end)
    return Statement(origin, lines, text[:name_end], text[operation:operation_end], text[operand:operand_end], text[remark:],
                     Columns(operation, max(operand, OPERAND) if operand == len(text) else operand, remark if text[remark:] else REMARK))


def begin_of_word(text: str, at: int) -> int:
    while at < len(text) and text[at] == " ":
        at += 1
    return at


def end_of_word(text: str, at: int) -> int:
    found = text.find(" ", at)
    return len(text) if found < 0 else found


def statements_of(lines: list[str], file: str) -> list[Statement]:
    """The statements and comments of a file. What follows END is read as comments, since nothing reads it."""
    found: list[Statement] = []
    at, has_ended = 0, False
    while at < len(lines):
        origin = Origin(file, at + 1, len(found))
        if has_ended or is_comment_line(lines[at]):
            found.append(Statement(origin, [lines[at]], is_comment=True))
            at += 1
            continue
        after = lines_of_statement(lines, at)
        found.append(parsed(origin, lines[at:after]))
        has_ended, at = found[-1].operation.upper() == "END", after
    return found


def laid_out(statement: Statement) -> list[str]:
    """The lines of a statement that is changed: its parts where they were, as far as there is room; what passes column 71 is continued."""
    text = put(statement.name, statement.columns.operation, statement.operation)
    if statement.operand:
        text = put(text, statement.columns.operand, statement.operand)
    lines = broken(text)
    if statement.remark:
        lines = with_remark(lines, statement)
    return with_marks(lines, statement.lines)


def put(text: str, column: int, word: str) -> str:
    """A word put after a text, in its column where that is free."""
    return text.ljust(max(column, len(text) + 1)) + word


def broken(text: str) -> list[str]:
    """A text as lines without marks, each full up to column 71 but the last."""
    lines, rest = [text[:LAST]], text[LAST:]
    while rest:
        room = LAST - CONTINUED
        lines.append(" " * CONTINUED + rest[:room])
        rest = rest[room:]
    return lines


def with_remark(lines: list[str], statement: Statement) -> list[str]:
    """A remark in its column where it fits, else farther left, else continued between two words."""
    remark, begin = statement.remark, len(lines[-1]) + 1
    column = max(min(statement.columns.remark if len(lines) == 1 else 0, LAST - len(remark)), begin)
    while remark:
        piece = first_words(remark, LAST - column, is_line_empty=not lines[-1].strip())
        lines[-1] = (lines[-1].ljust(column) + piece).rstrip()
        rest = remark[len(piece) :]
        is_cut = piece != "" and not rest.startswith(" ")
        remark, column = rest.strip(), CONTINUED + (len(lines[-1]) >= LAST and not is_cut)
        if remark:
            lines.append("")
    return lines


def first_words(text: str, room: int, *, is_line_empty: bool) -> str:
    """As many words of a text as there is room for; a word that is longer than a line is cut."""
    if len(text) <= room:
        return text
    words = text[: max(room, 0) + 1].rpartition(" ")[0]
    return text[:room] if is_line_empty and not words else words


def with_marks(lines: list[str], old: list[str]) -> list[str]:
    """Lines with the marks of continuation, and with what the old lines have in columns 73 to 80."""
    mark = next((line[MARK] for line in old if is_continued(line)), "X")
    made = []
    for at, line in enumerate(lines):
        kept = old[at][MARK + 1 :] if at < len(old) else ""
        text = line.ljust(MARK) + (mark if at + 1 < len(lines) else " ") + kept
        made.append(text.rstrip())
    return made
