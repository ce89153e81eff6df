"""A source's commands for which something stands, rewritten; and what is put at its head and its end."""
from collections import Counter
from collections.abc import Callable
from dataclasses import dataclass, field, replace

from cics.commands import AID, OF_ALL, OPTIONS, SYNCPOINT
from cics.exact.aids import keys_of
from cics.exact.sizes import Sizes, Unknown
from cics.from_cics import advice
from cics.layout import WORKING_STORAGE
from cics.program import Program
from cics.stand_in import map_commands
from cics.stand_in.conditions import Table, handled, kept_too, push_routines, routine, text_routine
from cics.stand_in.eib import Absent
from cics.stand_in.file_commands import States, file_request, is_of_files, name_of_file, unlocked
from cics.stand_in.mapsets import Mapset
from cics.stand_in.other_commands import PROGRAM as REST
from cics.stand_in.other_commands import is_known_here, other_command
from cics.stand_in.records import FileDefinition
from cics.stand_in.requests import ABENDS, FIELDS, OWN, TEXT_ROUTINE, Call, NotStoodIn, Request, call_of, called
from cics.stand_in.symbolic import attributes, symbolic_maps
from cics.statements import Line, Statement, new_comment, parsed, statements_of, written_for

CONTROL_SECTION = ("CSECT", "START")
MAPS, FILES, OTHERS = "MAPS", "FILES", "OTHERS"
HEADING = "*---- WRITTEN BY CICS-ADAPT: STAND-INS"
HANDLES = {"HANDLE CONDITION", "IGNORE CONDITION"}
TABLES = {"PUSH HANDLE", "POP HANDLE"}


@dataclass
class Setting:
    """What stands for what isn't here, for all sources together."""

    mapsets: list[Mapset] = field(default_factory=list)
    files: dict[str, FileDefinition] = field(default_factory=dict)
    has_rest: bool = False  # whether a source needs the program of transient data, START and times

    def members(self) -> dict[str, list[str]]:
        """The members of COPY that are made."""
        made = {name: symbolic_maps(mapset) for mapset in self.mapsets for name in (mapset.file_name(), mapset.name)}
        return {**made, "DFHBMSCA": attributes()}


@dataclass(frozen=True)
class Made:
    """What stands for a command: its lines, of which kind it is, and what is told."""

    lines: list[Line]
    kind: str
    text: str

    def sends_text(self) -> bool:
        return any(line.operand.startswith("CICS SEND TEXT ") for line in self.lines)


@dataclass
class StandIns:
    """The stand-ins of one source."""

    setting: Setting
    counts: Counter[str] = field(default_factory=Counter)
    table: Table = field(default_factory=Table)
    absent: Absent = field(default_factory=Absent)
    states: States = field(default_factory=States)
    held: set[str] = field(default_factory=set)  # those of which records are held for update
    has_own_names: bool = False
    has_requests: bool = False
    drops_map: bool = False

    def members(self) -> dict[str, list[str]]:
        return self.setting.members()

    # ---- one command

    def made(self, call: Call) -> Made | None:
        """What stands for a command; none where the region has it."""
        name = call.command.name
        if name in ("SEND MAP", "SEND CONTROL") or name == "RECEIVE" and call.has("MAP"):
            return self.map_command(call)
        if is_of_files(call):
            return self.file_command(call)
        if name == SYNCPOINT:
            return self.syncpoint(call)
        stood = other_command(call)
        if stood and any(f"'{REST}'" in line.operand for line in stood.lines):
            self.setting.has_rest = True
        return Made(stood.lines, OTHERS, stood.text) if stood else None

    def map_command(self, call: Call) -> Made:
        makes: Callable[[Call, list[Mapset]], Request] = map_commands.receive_map
        if call.command.name != "RECEIVE":
            makes = map_commands.send_map if call.command.name == "SEND MAP" else map_commands.send_control
        request = makes(call, self.setting.mapsets)
        return Made(request.lines(call), MAPS, f"a LINK to {request.program}")

    def file_command(self, call: Call) -> Made:
        request = file_request(call, self.setting.files, self.states)
        self.held |= {name_of_file(call)} if call.has("UPDATE") else set()
        return Made(request.lines(call), FILES, f"a LINK to {request.program}")

    def syncpoint(self, call: Call) -> Made | None:
        """SYNCPOINT gives back the records that are held; none where the source holds none, which is left to others."""
        if call.has("ROLLBACK"):
            raise NotStoodIn("SYNCPOINT ROLLBACK: nothing is recovered here", "ROLLBACK")
        if "ENQ" in call.program.commands:
            raise NotStoodIn("SYNCPOINT where the source has ENQ, whose resources it would give back", "command")
        requests = [unlocked(file, self.states) for file in sorted(self.held)]
        lines = [line for request in requests for line in request.lines(call)]
        return Made(lines, FILES, f"UNLOCK of {', '.join(sorted(self.held))}") if lines else None

    # ---- all of them

    def replaced(self, groups: list[list[Statement]], program: Program) -> list[list[Statement]]:
        """The statements of each group, with what stands for commands."""
        self.absent.take([one for group in groups for one in group], program)
        self.counts[OTHERS] += len(self.absent.names)
        calls = [call for group in groups for one in group if (call := call_of(one, program))]
        self.has_own_names = any(one.name.startswith(OWN) for group in groups for one in group if not one.is_comment)
        calls.sort(key=lambda call: call.command.name == SYNCPOINT)  # when it is known what is held
        made = {call.statement.origin.order: None if is_known_here(call) else self.decided(call) for call in calls}
        stood = {order: one for order, one in made.items() if isinstance(one, Made)}
        self.has_requests = any("$SR" in line.operand for one in stood.values() for line in one.lines)
        if self.has_requests:
            for call in calls:
                self.table.take(call)
            sends_text = any(call.command.name == "SEND TEXT" for call in calls) or any(one.sends_text() for one in stood.values())
            self.drops_map = bool(self.setting.mapsets) and sends_text
        return self.with_ends([[new for one in group for new in self.rewritten(one, made, program)] for group in groups], program)

    def finished(self, statements: list[Statement], program: Program) -> None:
        """Tells what no base reaches, now that all is written."""
        if not self.has_requests:
            return
        try:
            sizes = Sizes(statements)
        except Unknown:
            return
        for at in sizes.spots:
            for text in sizes.unreached(at):
                one = statements[at]
                program.left(one.origin,
                             f"{one.operation} {text}: no base in use reaches it; what is written for stand-ins takes room, too; write: a second "
                                         "base register, or LTORG nearer")

    def decided(self, call: Call) -> Made | NotStoodIn | None:
        try:
            if self.has_own_names and needs_stand_in(call):
                raise NotStoodIn(f"the source has names that begin with {OWN}, as what would be put in")
            made = self.made(call)
        except NotStoodIn as why:
            return why
        if made is None and call.command.name not in OPTIONS and call.command.name not in (AID, SYNCPOINT):
            return NotStoodIn("no command for which something stands", "command")
        odd = odd_option(call) if made is None else None
        return NotStoodIn(f"{odd}: no option that is here{advice('Commands', odd)}") if odd else made

    def rewritten(self, statement: Statement, made: dict[int, "Made | NotStoodIn | None"], program: Program) -> list[Statement]:
        call = call_of(statement, program)
        if call is None:
            return [statement]
        found = made.get(statement.origin.order)
        if isinstance(found, Made):
            self.counts[found.kind] += 1
            program.log.stands_in(statement.origin, f"EXEC {shown(statement)}", found.text)
            lines = [*called(TEXT_ROUTINE), *found.lines] if self.drops_map and found.sends_text() else found.lines
            return written_for(call.statement, lines, is_kept=program.is_kept)
        try:
            return self.beside(call, program) if found is None else self.abend(call, found, program)
        except NotStoodIn as why:
            return self.abend(call, why, program)

    def abend(self, call: Call, why: NotStoodIn, program: Program) -> list[Statement]:
        """A statement for which nothing stands: it is told, and abends where it is come to."""
        code = ABENDS[why.reason]
        program.left(call.statement.origin, f"EXEC CICS {call.command.name}: {why}; it abends here with {code} (docs/STAND-INS.md)")
        return written_for(call.statement, [Line("EXEC", f"CICS ABEND ABCODE('{code}') CANCEL")], is_kept=program.is_kept)

    def beside(self, call: Call, program: Program) -> list[Statement]:
        """A command of the region beside which something has to be done."""
        name, statement = call.command.name, call.statement
        if self.has_requests and name in HANDLES and self.table.numbers:
            program.log.changed(statement.origin, f"EXEC {shown(statement)}", "entries of a table")
            return written_for(call.statement, handled(call), is_kept=program.is_kept)
        if self.has_requests and name in TABLES and self.table.numbers:
            program.log.changed(statement.origin, f"EXEC {shown(statement)}", "itself, and the table of conditions")
            return written_for(call.statement, kept_too(call, self.table), is_kept=program.is_kept)
        if self.drops_map and name == "SEND TEXT":
            lines = called(TEXT_ROUTINE)
            before = written_for(call.statement, lines, is_kept=True)
            return [*before, parsed(statement.origin, statement.written()).changed(name="") if statement.name else statement]
        return [statement]

    def with_ends(self, groups: list[list[Statement]], program: Program) -> list[list[Statement]]:
        """The comment at the head, and the routines and fields at the end."""
        if not sum(self.counts.values()):
            return groups
        code = [one for group in groups for one in group if not one.is_comment]
        section = next((one.name for one in code if one.operation in CONTROL_SECTION), "")
        keys = keys_of(code, program)
        lines = self.ending(section, routine(self.table, keys, self.absent)) if self.has_requests else self.fields_alone()
        found: list[list[Statement]] = []
        has_ended = False
        for group in groups:
            end = next((one for one in group if one.operation == "END" and not one.is_comment), None)
            if end and lines and not has_ended:
                made = [new_comment(end, HEADING), *[replace(one, origin=end.origin) for one in statements_of(lines, end.origin.file)]]
                at = group.index(end)
                group = [*group[:at], *made, *group[at:]]
                has_ended = True
            found.append(group)
        first = found[0][0]
        found[0] = [*(new_comment(first, line) for line in self.head()), *found[0]]
        return found

    def fields_alone(self) -> list[str]:
        return [f"{WORKING_STORAGE:<8} DSECT", *self.absent.storage()] if self.absent.names else []

    def ending(self, section: str, routine_lines: list[str]) -> list[str]:
        lines = [f"{section:<8} CSECT", "         LTORG", f"{WORKING_STORAGE:<8} DSECT", *FIELDS, *self.table.storage(),
                 *self.states.storage(self.setting.files), *self.absent.storage(), f"{section:<8} CSECT"]
        lines += routine_lines
        lines += text_routine(self.setting.mapsets[0].name) if self.drops_map else []
        lines += push_routines(self.table) if self.table.is_pushed and self.table.numbers else []
        return lines

    def head(self) -> list[str]:
        """The comment at the head: how many stand-ins there are, by what they stand for."""
        kinds = ", ".join(f"{kind} {count}" for kind, count in sorted(self.counts.items()) if count)
        return [f"*STAND-INS: {sum(self.counts.values())} ({kinds})", "* PUT IN BY CICS-ADAPT: THE NAMES THAT BEGIN WITH $S. WHAT DIFFERS FROM",
                "* CICS IS IN DOCS/STAND-INS.MD"]


def needs_stand_in(call: Call) -> bool:
    """Whether a command isn't one of the region."""
    return call.command.name not in OPTIONS and call.command.name not in (AID, SYNCPOINT) or call.has("MAP")


def odd_option(call: Call) -> str | None:
    """An option that a command of the region hasn't."""
    name = call.command.name
    if name not in OPTIONS or name in HANDLES:
        return None
    return next((unit.word for unit in call.command.units[call.command.words :] if unit.word not in OPTIONS[name] | OF_ALL), None)


def shown(statement: Statement) -> str:
    return " ".join(statement.operand.split())
