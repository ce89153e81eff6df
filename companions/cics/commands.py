"""Rewritings of EXEC CICS statements."""
from dataclasses import dataclass, field, replace

from cics.data import rewritten_literal
from cics.expressions import Kind, Value, read_expression, terms_of, value_of, whole
from cics.from_cics import advice
from cics.operands import CONDITIONS
from cics.program import Program
from cics.statements import CONTINUED, LAST, Statement, begin_of_word, joined, new_comment, new_statement, parsed, put, with_marks
from cics.texts import closing, is_decimal, is_name, places_of

PAGE = "Commands"

# The commands that are there, each with its options.
OPTIONS = {name: set(words.split()) for name, words in {
    "ADDRESS": "CWA", "HANDLE CONDITION": "", "IGNORE CONDITION": "", "PUSH HANDLE": "", "POP HANDLE": "", "SUSPEND": "", "RECEIVE": "INTO LENGTH",
    "WRITEQ TS": "QUEUE FROM LENGTH MAIN AUXILIARY NOSUSPEND ITEM REWRITE", "READQ TS": "QUEUE LENGTH INTO SET ITEM NEXT NUMITEMS",
    "DELETEQ TS": "QUEUE", "GETMAIN": "SET LENGTH INITIMG NOSUSPEND", "FREEMAIN": "DATA", "LINK": "PROGRAM COMMAREA LENGTH",
    "XCTL": "PROGRAM COMMAREA LENGTH", "RETURN": "TRANSID COMMAREA LENGTH", "ABEND": "ABCODE CANCEL NODUMP", "HANDLE ABEND": "LABEL CANCEL RESET",
    "ENQ": "RESOURCE LENGTH NOSUSPEND", "DEQ": "RESOURCE LENGTH", "SEND TEXT": "FROM LENGTH ERASE FREEKB"}.items()}
OF_ALL = {"NOHANDLE", "RESP"}
AID, SYNCPOINT, CONDITION = "HANDLE AID", "SYNCPOINT", "CONDITION"
OF_NO_FILE = {AID, SYNCPOINT, "ASSIGN"}  # commands that aren't here, and meet no condition but those that can be handled here
WRITTEN_ELSEWHERE = ("OPERATOR", "JOURNALNUM", "JTYPEID")  # options by which WRITE isn't one of files
HANDLED = {"ERROR", "INVREQ", "NOSPACE", "LENGERR", "ITEMERR", "PGMIDERR", "NOSTG", "QIDERR", "ENQBUSY"}
TWO_WORDS = {"HANDLE", "IGNORE", "PUSH", "POP", "SEND", "READQ", "WRITEQ", "DELETEQ"}
LENGTH_FIELD, LENGTH_DEFINED = "$XLEN", "$XLEN    DS    H"  # a length that a command is given, and writes, where none is named
WITH_QUEUES = {"READQ", "WRITEQ", "DELETEQ"}  # commands whose TS may be left out

# Options without an argument that CICS has and the region hasn't: they are no remarks.
OF_CICS = set("""ACCUM ALARM ALL ASIS BACKWARD BUFFER CONDITION CONFIRM CTLCHAR CURSOR DATAONLY DEBKEY DEBREC DEFRESP EQUAL ERASEAUP
    FORMFEED FRSET GENERIC GTEQ HOLD HONEOM INVITE JUSFIRST JUSLAST KEEP L40 L64 L80 LAST MAP MAPONLY MASSINSERT NLEOM NODUMP NOEDIT
    NOQUEUE NOTRUNCATE NOWAIT PAGE PAGING PRINT PROTECT RBA RELEASE RESP2 ROLLBACK RRN SHARED TASK TERMINAL TEXT TS TD UPDATE WAIT
    ABEND AID HANDLE""".split())
KNOWN = set().union(*OPTIONS.values()) | OF_ALL | OF_CICS | set(CONDITIONS)


@dataclass(frozen=True)
class Unit:
    """A word of a command with its argument, where it has one. `begin` and `end` are its places in the statement's text, `line` is the
    number of its line in the statement, and `gap` is how many blanks stand in front of it on that line."""

    word: str
    argument: str | None
    begin: int
    end: int
    line: int
    gap: int = 1
    is_new: bool = False

    def text(self) -> str:
        return self.word if self.argument is None else f"{self.word}({self.argument})"


@dataclass
class Command:
    """A command as it was read: its words (CICS is the first), how many of them are its name, and the remarks in it."""

    units: list[Unit]
    name: str = ""
    words: int = 0
    remarks: list[str] = field(default_factory=list)
    is_cut: bool = False

    def option(self, word: str) -> Unit | None:
        return next((unit for unit in self.units[self.words :] if unit.word == word), None)

    def has(self, word: str) -> bool:
        return self.option(word) is not None


def line_at(place: int) -> int:
    """The number of a statement's line that has a place of its text."""
    return 0 if place < LAST else 1 + (place - LAST) // (LAST - CONTINUED)


def end_of_line(place: int) -> int:
    return LAST + line_at(place) * (LAST - CONTINUED)


def unit_at(text: str, at: int, before: int) -> Unit | None:
    """The word that begins at a place, where the one before it ended at another."""
    end = at
    while end < len(text) and text[end] not in " ()":
        end += 1
    opening, argument, after = begin_of_word(text, end), None, end
    if text[opening : opening + 1] == "(":
        close = closing(text, opening)
        if close is None:
            return None
        argument, after = text[opening + 1 : close], close + 1
    gap = at - before if line_at(before) == line_at(at) else 0
    return Unit(text[at:end], argument, at, after, line_at(at), gap) if after > at else None


def words_of_name(units: list[Unit]) -> int:
    """How many words are CICS and a command's name, of those that have been read; 0 where it may go on."""
    words = [unit.word for unit in units]
    if len(words) < 2:
        return 0
    if words[1] in WITH_QUEUES:
        return 0 if len(words) < 3 else 3 if words[2] in ("TS", "TD") else 2
    needed = 3 if words[1] in TWO_WORDS else 2
    return needed if len(words) >= needed else 0


def command_of(text: str, begin: int) -> Command | None:
    """A command, whose operand begins at a place of its statement's text."""
    command, at = Command([]), begin
    while (start := begin_of_word(text, at)) < len(text):
        remark = remark_at(text, at, start, name_in(command)) if command.words else None
        if remark is not None:
            command.remarks.append(remark.strip())
            at = end_of_line(start)
            continue
        unit = unit_at(text, start, at)
        if unit is None:
            return None
        command.units.append(unit)
        command.words, at = words_of_name(command.units), unit.end
    command.name = name_in(command)
    return command


def name_in(command: Command) -> str:
    words = [unit.word for unit in command.units[1 : command.words]]
    return " ".join([*words, "TS"] if words[1:] == [] and words[:1] and words[0] in WITH_QUEUES else words)


def own_words(name: str) -> set[str]:
    """The words that may stand in a command after its name."""
    return OPTIONS.get(name, KNOWN) | OF_ALL | (HANDLED if name.endswith("CONDITION") else set())


def remark_at(text: str, before: int, start: int, name: str) -> str | None:
    """The rest of a line, where it is a remark: two blanks stand in front of it, it begins with no option or condition, none of its words
    is one of the command's own, and it has no parenthesis, nor is one opened after it."""
    is_apart = start - before >= 2 and line_at(before) == line_at(start)
    end = end_of_line(start)
    rest = text[start:end]
    words = rest.replace(",", " ").replace(".", " ").split()
    has_option = words[:1] != [] and words[0] in KNOWN or any(word in own_words(name) for word in words)
    is_alone = "(" not in rest and ")" not in rest and not text.startswith("(", begin_of_word(text, end))
    return rest if is_apart and is_alone and not has_option else None


def has_place(argument: str) -> bool:
    """Whether `*`, the place, is a term of an argument."""
    expression = whole(argument)
    return expression is not None and any(term.kind is Kind.STAR for term in terms_of(expression))


def without_blanks(argument: str) -> str:
    """An argument without the blanks outside apostrophes."""
    return "".join(character for character, place in zip(argument, places_of(argument)) if character != " " or place.is_text)


class Rewriting:
    def __init__(self, statement: Statement, command: Command, program: Program) -> None:
        self.statement, self.command, self.program = statement, command, program
        self.before: list[tuple[str, str]] = []  # what is done in front of the command
        self.here = program.here(statement)

    def left(self, text: str) -> None:
        self.program.left(self.statement.origin, text)

    def change(self, unit: Unit, argument: str) -> None:
        new = replace(unit, argument=argument, is_new=True)
        self.command.units[self.command.units.index(unit)] = new
        self.program.log.changed(self.statement.origin, unit.text(), new.text())

    def rewrite(self) -> None:
        self.close_arguments()
        if self.command.name == AID:
            return
        if self.command.name not in OPTIONS:
            self.left(f"EXEC {' '.join(unit.word for unit in self.command.units[: self.command.words])}: no command that is here"
                      f"{advice(PAGE, *self.known_as())}")
            return
        if self.command.name in (f"HANDLE {CONDITION}", f"IGNORE {CONDITION}"):
            self.drop_conditions()
        are_known = all([self.is_known(unit) for unit in self.command.units[self.command.words :]])
        for unit in self.command.units[self.command.words :]:
            if unit.argument is not None:
                self.work_out(unit)
        for word in ("LENGTH", "ITEM", "NUMITEMS"):
            self.halfword(word)
        self.initial_image()
        if are_known:
            self.length_left_out()

    def known_as(self) -> list[str]:
        """The names under which the page may have the command."""
        name = self.command.name
        others = [f"{name} {word}" for word in WRITTEN_ELSEWHERE if self.command.has(word)]
        return [*others, name, name.split(" ")[0]]

    def drop_conditions(self) -> None:
        """Leaves out the conditions that none of the source's commands can meet; not all of them, since one has to stand."""
        if not self.program.commands <= set(OPTIONS) | OF_NO_FILE:
            return
        for unit in self.command.units[self.command.words :]:
            if unit.word in CONDITIONS and unit.word not in HANDLED and len(self.command.units) > self.command.words + 1:
                self.command.units.remove(unit)
                self.command.is_cut = True
                self.program.log.changed(self.statement.origin, unit.text(), "left out, since no command here meets it")

    def close_arguments(self) -> None:
        for unit in list(self.command.units):
            if unit.argument is not None and without_blanks(unit.argument) != unit.argument:
                self.change(unit, without_blanks(unit.argument))

    def is_known(self, unit: Unit) -> bool:
        """Whether an option or a condition is there; one that isn't is told."""
        name = self.command.name
        if unit.word in OPTIONS[name] | OF_ALL or name.endswith("CONDITION") and unit.word in HANDLED:
            return True
        if name.endswith("CONDITION"):
            self.left(f"{unit.word}: no condition that can come here{advice(PAGE, 'conditions other than')}")
        else:
            write = advice(PAGE, unit.word) if len(unit.word) > 1 else "; write: a mark of continuation in column 72"
            self.left(f"{unit.word}: no option of {name}{write}")
        return False

    def work_out(self, unit: Unit) -> None:
        """An argument's expression, and those in its parentheses, worked out."""
        argument = unit.argument or ""
        new, found = argument, None if argument[:1] in ("'", "=", "") else read_expression(argument)
        if argument.startswith("="):
            new = rewritten_literal(argument, self.statement, self.program)
        elif found:
            new = self.program.worked(argument[: found.end], self.here, self.statement.origin) + argument[found.end :]
        if new != argument:
            self.change(unit, new)

    def value(self, argument: str) -> Value | None:
        expression = whole(argument)
        return value_of(expression, self.program.layout, self.here) if expression else None

    def is_written(self, word: str) -> bool:
        """Whether the command writes to the halfword of an option."""
        name = self.command.name
        if word == "NUMITEMS" or word == "LENGTH" and name in ("RECEIVE", "READQ TS"):
            return True
        return word == "ITEM" and name == "WRITEQ TS" and not self.command.has("REWRITE")

    def halfword(self, word: str) -> None:
        """A number that is given where a halfword is read, as a literal."""
        unit = self.command.option(word)
        argument = unit.argument if unit else None
        if unit is None or not argument:
            return
        value = self.value(argument)
        is_literal, is_number = argument.startswith("="), value is not None and value.is_absolute()
        if self.is_written(word):
            if is_literal or is_number:
                self.left(f"{unit.text()}: {self.command.name} writes to it; write: a halfword field, set before each time")
            return
        if is_number and not is_literal and has_place(argument):
            self.left(f"{unit.text()}: a literal has a place of its own; write: a halfword field")
        elif is_number and not is_literal:
            is_small = is_decimal(argument) and int(argument) < 32768
            self.change(unit, f"=H'{argument}'" if is_small else f"=AL2({argument})")

    def initial_image(self) -> None:
        """INITIMG of a number, as a literal."""
        unit = self.command.option("INITIMG")
        argument = unit.argument if unit else None
        if unit is None or not argument or argument.startswith("="):
            return
        value = self.value(argument)
        if argument[:2] in ("X'", "C'", "B'"):
            self.change(unit, f"={argument}")
        elif value is not None and value.is_absolute():
            self.change(unit, f"=AL1({argument})")

    def length_left_out(self) -> None:
        """LENGTH, where it is left out and needed: that of a plain symbol in FROM, COMMAREA or INTO, in a field of its own where the command
        writes it."""
        name = self.command.name
        area = self.command.option("FROM") or self.command.option("COMMAREA")
        is_needed = "LENGTH" in OPTIONS[name] and not self.command.has("LENGTH")
        if not is_needed or name in ("ENQ", "DEQ") or area is None and "COMMAREA" in OPTIONS[name]:
            return
        given, area = self.command.option("SET"), area or self.command.option("INTO")
        if given is not None and self.is_written("LENGTH"):
            self.add_length(given, LENGTH_FIELD)
            return
        symbol = area.argument if area else None
        if area is None or symbol is None or not is_name(symbol):
            self.left(f"LENGTH is left out of {name}{advice(PAGE, 'LENGTH left out')}")
            return
        layout = self.program.layout
        old = layout.length(symbol)
        argument = f"=AL2(L'{symbol})" if old == layout.new_length(symbol) else f"=H'{old}'"
        if self.is_written("LENGTH"):
            self.before.append(("MVC", f"{LENGTH_FIELD},{argument}"))
            argument = LENGTH_FIELD
        self.add_length(area, argument)

    def add_length(self, area: Unit, argument: str) -> None:
        if argument == LENGTH_FIELD and LENGTH_DEFINED not in self.program.fields:
            self.program.fields.append(LENGTH_DEFINED)
        new = Unit("LENGTH", argument, area.end, area.end, area.line, 1, True)
        self.command.units.insert(self.command.units.index(area) + 1, new)
        self.program.log.changed(self.statement.origin, area.text(), f"{area.text()} {new.text()}")


def rewritten_command(old: Statement, program: Program) -> list[Statement]:
    """An EXEC statement, rewritten; remarks in it become comments above it."""
    statement = parsed(old.origin, old.written())
    begin = statement.columns.operand
    command = command_of(joined(statement.lines), begin)
    if command is None or not command.words or command.units[0].word != "CICS":
        program.left(statement.origin, f"EXEC {statement.operand[:40]}: no command that can be read here")
        return [old]
    for remark in command.remarks:
        program.log.changed(statement.origin, f"the remark {remark}", "a comment")
    if is_nothing(command, program):
        return nothing(statement, command, program)
    rewriting = Rewriting(statement, command, program)
    rewriting.rewrite()
    if not command.remarks and not command.is_cut and not any(unit.is_new for unit in command.units):
        return [old]
    comments = [new_comment(statement, f"*        {remark}"[:LAST]) for remark in command.remarks]
    if not rewriting.before:
        return [*comments, statement.with_lines(lines_of_command(statement, command, begin))]
    return [*comments, *in_front(statement, rewriting.before), without_name(statement, command, begin)]


def in_front(statement: Statement, before: list[tuple[str, str]]) -> list[Statement]:
    """What is done in front of a command, with its name."""
    return [new_statement(statement, operation, operand, statement.name if at == 0 else "") for at, (operation, operand) in enumerate(before)]


def without_name(statement: Statement, command: Command, begin: int) -> Statement:
    nameless = statement.changed(name="")
    lines = lines_of_command(nameless, command, begin)
    return parsed(statement.origin, lines)


def names_of_commands(statements: list[Statement]) -> frozenset[str]:
    read = [parsed(one.origin, one.written()) for one in statements if one.operation == "EXEC" and not one.is_comment]
    found = [command_of(joined(one.lines), one.columns.operand) for one in read]
    return frozenset(command.name for command in found if command)


def is_nothing(command: Command, program: Program) -> bool:
    """Whether a command does nothing here: SYNCPOINT, where nothing is recovered and no resource is held; and what handles only conditions
    that none of the source's commands can meet."""
    options = command.units[command.words :]
    if command.name == SYNCPOINT:
        return not {"ENQ"} & program.commands and all(unit.word in OF_ALL - {"RESP"} for unit in options)
    is_whole = program.commands <= set(OPTIONS) | OF_NO_FILE
    is_handling = command.name in (f"HANDLE {CONDITION}", f"IGNORE {CONDITION}")
    return is_whole and is_handling and options != [] and all(unit.word in CONDITIONS and unit.word not in HANDLED for unit in options)


def nothing(statement: Statement, command: Command, program: Program) -> list[Statement]:
    """A comment, and the name where it has one."""
    why = "nothing is recovered here" if command.name == SYNCPOINT else "no command here meets the conditions"
    program.log.changed(statement.origin, f"EXEC {statement.operand}", f"nothing, since {why}")
    return [statement.made_comment(), *([new_statement(statement, "DS", "0H", statement.name)] if statement.name else [])]


def lines_of_command(statement: Statement, command: Command, begin: int) -> list[str]:
    """The lines of a command: each word on the line on which it was, as far as there is room."""
    first = put(statement.name, statement.columns.operation, statement.operation)
    lines, line = [first.ljust(min(begin, LAST - 1))], 0
    for unit in command.units:
        gap = max(unit.gap, 1) if lines[-1].strip() and not lines[-1].endswith(" ") else 0
        if unit.line != line or len(lines[-1]) + gap + len(unit.text()) > LAST:
            column = column_of(unit) if unit.line != line else CONTINUED
            column = max(column, CONTINUED + (len(lines[-1]) == LAST))  # a blank, where the line before is full
            line, gap = unit.line, 0
            lines.append(" " * column)
        put_unit(lines, " " * gap + unit.text())
    return with_marks(lines, statement.lines)


def column_of(unit: Unit) -> int:
    """The column of the first word of a line, as it was, where it leaves room."""
    column = CONTINUED + (unit.begin - LAST) % (LAST - CONTINUED)
    return column if column + len(unit.text()) <= LAST else CONTINUED


def put_unit(lines: list[str], text: str) -> None:
    """Puts a text at the end of the last line; what passes column 71 is continued."""
    room = LAST - len(lines[-1])
    lines[-1] += text[:room]
    for at in range(room, len(text), LAST - CONTINUED):
        lines.append(" " * CONTINUED + text[at : at + LAST - CONTINUED])
