"""Macros that a source defines itself, put in place of their calls: positional and keyword parameters, &SYSNDX, calls within macros."""
import re
from dataclasses import dataclass, field, replace

from cics.from_cics import advice
from cics.log import Log
from cics.statements import Statement, new_comment, new_statement
from cics.texts import cut

CONDITIONAL = set("AIF AGO ANOP SETA SETB SETC LCLA LCLB LCLC GBLA GBLB GBLC MEXIT MNOTE ACTR AREAD MACRO MHELP AINSERT".split())
VARIABLE = re.compile(r"&&|&(?P<name>[A-Z@#$][A-Z0-9@#$]*)(?P<after>\(|\.)?")
ATTRIBUTE = re.compile(r"\b[KNTLSI]'&")
INDEX, DEEPEST, MOST = "SYSNDX", 50, 10_000  # macros in one another; statements that are made in all


class NotExpanded(Exception):
    """Why a macro, or a call of one, is left."""


@dataclass(frozen=True)
class Macro:
    """A macro: the parameter of its name field, its positional parameters, its keyword parameters with what they are by default, its
    statements."""

    name_field: str
    positional: list[str]
    keywords: dict[str, str]
    body: list[Statement]

    def arguments(self, call: Statement, index: int) -> dict[str, str]:
        """What stands for each parameter in a call."""
        given = {**dict.fromkeys(self.positional, ""), **self.keywords, INDEX: f"{index:04}"}
        if self.name_field:
            given[self.name_field] = call.name
        places = iter(self.positional)
        for text in words_of(call):
            keyword, equals, value = text.partition("=")
            if equals and keyword in self.keywords:
                given[keyword] = value
                continue
            place = next(places, None)
            if place is None:
                raise NotExpanded("it has more operands than the macro's definition")
            given[place] = text
        return given


def words_of(statement: Statement) -> list[str]:
    """The operands of a call, which may go on in another line after a comma and blanks."""
    operand, rest = statement.operand, statement.remark
    while operand.endswith(",") and rest and len(statement.lines) > 1:
        word, _, rest = rest.partition(" ")
        operand, rest = operand + word, rest.lstrip()
    return cut(operand) if operand else []


def defined(statements: list[Statement]) -> tuple[str, Macro]:
    """The macro that statements define, from the one after MACRO to the one in front of MEND."""
    code = [one for one in statements if not one.is_comment and not one.name.startswith(".*")]
    if not code:
        raise NotExpanded("it has no prototype")
    prototype, *body = code
    parameters = words_of(prototype)
    texts = [text for one in body for text in (one.name, one.operation, one.operand)]
    odd = next((one.operation for one in code if one.operation in CONDITIONAL), None)
    if odd or any(one.name.startswith(".") for one in body):
        raise NotExpanded(f"conditional assembly, {odd or 'a sequence symbol'}")
    names = [text.partition("=")[0].removeprefix("&") for text in [prototype.name, *parameters] if text]
    for text in texts:
        if ATTRIBUTE.search(text):
            raise NotExpanded("an attribute of a parameter")
        for found in VARIABLE.finditer(text):
            if found["name"] and found["name"] not in [*names, INDEX]:
                raise NotExpanded(f"&{found['name']}, which is none of its parameters")
            if found["after"] == "(":
                raise NotExpanded(f"a part of &{found['name']}")
    keywords = {text.partition("=")[0][1:]: text.partition("=")[2] for text in parameters if "=" in text}
    comments = [one for one in statements if one not in code or one is not prototype]
    return prototype.operation, Macro(prototype.name.removeprefix("&"), [text[1:] for text in parameters if "=" not in text], keywords,
                                      [one for one in comments if not one.lines or not one.lines[0].startswith(".*")])


def put_in(text: str, given: dict[str, str]) -> str:
    """A text with what stands for each parameter; the period after one joins it to what follows."""
    return VARIABLE.sub(lambda found: found[0] if found[0] == "&&" else given[found["name"]] + ("(" if found["after"] == "(" else ""), text)


@dataclass
class Expansion:
    """Puts macros in place of their calls."""

    log: Log
    macros: dict[str, Macro] = field(default_factory=dict)
    index: int = 0
    made: int = 0

    def expanded(self, statements: list[Statement]) -> list[Statement]:
        """A source's statements, with definitions as comments where their calls are expanded; a definition that is left stays as it is."""
        found: list[Statement] = []
        at = 0
        while at < len(statements):
            one = statements[at]
            if one.operation == "MACRO" and not one.is_comment:
                end = end_of(statements, at)
                found += self.definition(statements[at:end])
                at = end
                continue
            found += self.call(one, ()) if one.operation in self.macros and not one.is_comment else [one]
            at += 1
        return [replace(one, origin=replace(one.origin, order=order)) for order, one in enumerate(found)]

    def definition(self, statements: list[Statement]) -> list[Statement]:
        first = statements[0]
        try:
            if statements[-1].operation != "MEND":
                raise NotExpanded("there is no MEND")
            name, macro = defined(statements[1:-1])
        except NotExpanded as why:
            self.log.left(first.origin, f"MACRO: a macro's definition: {why}{advice('Assembler statements', 'MACRO')}")
            return [replace(one, name="", operation="", operand="", is_comment=True) for one in statements]
        self.macros[name] = macro
        self.log.changed(first.origin, f"MACRO {name}", "comments, and its statements in place of its calls")
        return [one if one.is_comment and one.lines[0].startswith("*") else one.made_comment() for one in statements]

    def call(self, statement: Statement, inside: tuple[str, ...]) -> list[Statement]:
        """A call as a comment, and the statements that it makes."""
        macro = self.macros[statement.operation]
        try:
            if statement.operation in inside or len(inside) >= DEEPEST or self.made > MOST:
                raise NotExpanded("macros in one another without an end")
            self.index += 1
            given = macro.arguments(statement, self.index)
        except NotExpanded as why:
            self.log.left(statement.origin, f"{statement.operation} {statement.operand}".strip() + f": {why}")
            return [statement]
        if not inside:
            self.log.changed(statement.origin, f"{statement.operation} {statement.operand}".strip(), "the statements of its definition")
        comment = [new_comment(statement, line) for line in statement.made_comment().lines] if statement.lines else []
        return [*comment, *(new for one in macro.body for new in self.model(one, statement, given, (*inside, statement.operation)))]

    def model(self, one: Statement, call: Statement, given: dict[str, str], inside: tuple[str, ...]) -> list[Statement]:
        """A statement of a macro, with what stands for its parameters."""
        self.made += 1
        if one.is_comment:
            return [new_comment(call, line) for line in one.lines]
        new = new_statement(call, put_in(one.operation, given), put_in(one.operand, given), put_in(one.name, given))
        return self.call(new, inside) if new.operation in self.macros else [new]


def end_of(statements: list[Statement], at: int) -> int:
    """The number after the MEND that ends a definition, or after the last statement."""
    depth = 0
    for number in range(at, len(statements)):
        one = statements[number]
        depth += (one.operation == "MACRO") - (one.operation == "MEND") if not one.is_comment else 0
        if depth == 0:
            return number + 1
    return len(statements)
