"""COPY: the lines of a member in its place. A member's name is a name, and its file is in a folder of --copy, links followed."""
import os
import re
from collections.abc import Sequence
from dataclasses import dataclass, field, replace

from cics.cli import FOUND, Failure
from cics.from_cics import advice
from cics.log import Log
from cics.plain_lines import plain, without_tabs
from cics.sources import member_path, read_source
from cics.statements import Statement, statements_of

OF_THE_ASSEMBLER = "DFHAID"  # the one member that needs no file
MOST_LINES = 20_000  # of a source, and of all its members together; one of more than half as many is rewritten, and told
MEMBER = re.compile(r"[A-Za-z0-9@#$]{1,8}")
DEEPEST = 50  # members in one another


def too_many(what: str) -> str:
    return f"{what} of more than {MOST_LINES} lines; a source has at most {MOST_LINES // 2}"


def refuse_long(lines: Sequence[str], name: str) -> None:
    """Refuses a source at once that is far longer than any may be."""
    if len(lines) > MOST_LINES:
        raise Failure(f"{name}:{MOST_LINES + 1}: {too_many('a source')}", FOUND)


def is_within(path: str, folders: Sequence[str]) -> bool:
    """Whether a file is in one of some folders, or in a folder in it, wherever links lead."""
    return any(os.path.realpath(path).startswith(os.path.join(os.path.realpath(folder), "")) for folder in folders)


@dataclass
class Copying:
    """Copies members from folders; `taken` counts their lines, and `count` all statements, which get their order so."""

    folders: list[str]
    log: Log
    made: dict[str, list[str]] = field(default_factory=dict)  # members that need no file
    taken: int = 0
    count: int = 0

    def expanded(self, statements: list[Statement], inside: tuple[str, ...] = ()) -> list[Statement]:
        found: list[Statement] = []
        for one in statements:
            one = plain(replace(one, origin=replace(one.origin, order=self.count)), self.log)
            self.count += 1
            if one.operation == "COPY" and one.operand != OF_THE_ASSEMBLER and not one.is_comment:
                found += self.member(one, inside)
            else:
                found.append(one)
        return found

    def member(self, statement: Statement, inside: tuple[str, ...]) -> list[Statement]:
        """The statements of a member, after a comment; COPY as it is where there is none."""
        name = statement.operand
        if name in self.made:
            self.log.changed(statement.origin, f"COPY {name}", "the lines that its macros make")
            places = [replace(one, origin=statement.origin) for one in statements_of(self.made[name], name)]
            return [statement.made_comment(), *self.expanded(places, (*inside, name))]
        why = self.refusal(name, inside)
        path = None if why else member_path(name, self.folders)
        if path is not None:
            try:
                lines = without_tabs(read_source(path).lines, path, self.log)
            except Failure as fault:
                why = str(fault)
            else:
                self.taken += 1 + len(lines)
                if self.taken > MOST_LINES:
                    raise Failure(f"{statement.origin.file}:{statement.origin.number}: COPY {name}: {too_many('members')}", FOUND)
                self.log.changed(statement.origin, f"COPY {name}", f"the lines of {path}")
                return [statement.made_comment(), *self.expanded(statements_of(lines, path), (*inside, name))]
        self.log.left(statement.origin, f"COPY {name}: {why}{advice('Macros and members', f'COPY {name}', 'COPY of a member')}")
        return [statement]

    def refusal(self, name: str, inside: tuple[str, ...]) -> str | None:
        if len(inside) >= DEEPEST:
            return f"more than {DEEPEST} members in one another"
        if name in inside:
            return f"in a circle, {' in '.join([*inside, name])}"
        if not MEMBER.fullmatch(name):
            return "a member's name has 1 to 8 letters, digits, @, # and $"
        path = member_path(name, self.folders)
        if path is None:
            return f"no such file in {', '.join(self.folders)}" if self.folders else "no folder is given by --copy"
        return None if is_within(path, self.folders) else f"{path} leads out of {', '.join(self.folders)}"
