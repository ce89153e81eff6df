"""What `cics-adapt --stand-in` does: sources adapted with what stands for maps and files, and the programs that do it, into a folder."""
import os
import re
from dataclasses import dataclass, field
from functools import partial

from cics.adapting import Adapted, adapted, with_told
from cics.child import decoded, encoded, lines_of
from cics.cli import DONE, FOUND, MISUSED, STANDARD_INPUT, Failure, ended, name_of, say
from cics.copying import Copying, refuse_long
from cics.files import Judge, make_folder, old_bytes, sum_of, write_file
from cics.layout import Layout
from cics.log import Log
from cics.origins import text_of
from cics.own_macros import Expansion
from cics.plain_lines import without_tabs
from cics.program import Program
from cics.rewritings import Rewritings
from cics.sources import read_source
from cics.stand_in.file_commands import PROGRAM
from cics.stand_in.file_programs import file_program, rest_program
from cics.stand_in.map_programs import map_program
from cics.stand_in.map_reading import read_mapset
from cics.stand_in.mapsets import Mapset
from cics.stand_in.other_commands import PROGRAM as REST
from cics.stand_in.record_data import records_of
from cics.stand_in.records import FileDefinition, GivenFile, Source, file_of, queue_lines
from cics.stand_in.rewriting import Setting, StandIns
from cics.statements import statements_of

STANDING = 4  # the status where nothing is left, and something stands in
FOLDER = "stand-in"
LIST = "stand-in.list"  # in the folder: the sums and names of what was written there, which may be written again as long as it has its sum
LISTED = re.compile(r"([0-9a-f]{64})  (\S.*)")  # as sha256sum writes it, and takes it by --check


@dataclass
class Asked:
    """What is asked: sources, folders of members, mapsets, files, and where all goes."""

    sources: list[str]
    copy: list[str]
    mapsets: list[str]
    files: list[str]
    out: str
    is_kept: bool = False
    must_be_ebcdic: bool = False
    is_forced: bool = False


@dataclass
class Output:
    """The files that are written, by their names, and which of them are sources."""

    texts: dict[str, str] = field(default_factory=dict)
    programs: list[str] = field(default_factory=list)
    queues: dict[str, str] = field(default_factory=dict)

    def put(self, name: str, lines: list[str], *, is_program: bool = True) -> None:
        if name in self.texts:
            raise Failure(f"{name}: two of what is written have this name", MISUSED)
        self.texts[name] = "".join(f"{line}\n" for line in lines)
        self.programs += [name] if is_program else []


def stem_of(path: str) -> str:
    return os.path.splitext(os.path.basename(path))[0]


def stand_in(asked: Asked) -> int:
    """Adapts all sources; the status. Nothing is written where a mapset or data aren't taken whole."""
    if STANDARD_INPUT in asked.sources:
        raise Failure("with --stand-in sources are files, by whose names what is written is named", MISUSED)
    given = given_files(asked)
    mapsets, logs = mapsets_of(asked)
    setting = Setting(mapsets)
    records: dict[str, list[bytes]] = {}
    if not is_any_refused(logs):
        setting.files = files_of(given, asked, setting)
        records, read = data_of(setting.files)
        logs += read
    is_refused, adapted_logs = is_any_refused(logs), []
    if not is_refused:
        adapted_logs = written(asked, setting, records)
    for line in (line for one in [*logs, *adapted_logs] for line in one.lines()):
        ended(line, DONE)
    if is_refused:
        ended("nothing is written: first what is refused has to be put right", DONE)
    if is_refused or any(one.has_left() for one in adapted_logs):
        return FOUND
    return STANDING if any(one.has_stand_in() for one in adapted_logs) else DONE


def is_any_refused(logs: list[Log]) -> bool:
    return any(one.has_refused() for one in logs)


def mapsets_of(asked: Asked) -> tuple[list[Mapset], list[Log]]:
    """The mapsets, and what is told of each."""
    logs = [Log() for _ in asked.mapsets]
    read = [read_mapset(path, log) for path, log in zip(asked.mapsets, logs)]
    return [mapset for mapset in read if mapset], logs


def data_of(files: dict[str, FileDefinition]) -> tuple[dict[str, list[bytes]], list[Log]]:
    """The records of each file, and what is told of its data."""
    logs = {name: Log() for name in files}
    return {name: records_of(file, logs[name]) for name, file in files.items()}, list(logs.values())


def written(asked: Asked, setting: Setting, records: dict[str, list[bytes]]) -> list[Log]:
    """Adapts all sources, and writes all; what is told of each source."""
    output, logs = Output(), []
    for path in asked.sources:
        result = adapted_source(path, setting, asked)
        logs.append(result.log)
        output.put(f"{stem_of(path)}.asm", result.lines())
        output.put(f"{stem_of(path)}.map", text_of(result.origins()).splitlines(), is_program=False)
    for mapset in setting.mapsets:
        output.put(f"{mapset.name.lower()}.asm", map_program(mapset))
    put_files(setting.files, records, output)
    if setting.has_rest:
        output.put(f"{REST.strip('$').lower()}.asm", rest_program())
    write_all(output, asked)
    return logs


def given_files(asked: Asked) -> list[GivenFile]:
    given = [GivenFile.of(word) for word in asked.files]
    for at, one in enumerate(given):
        if any(other.name == one.name for other in given[:at]):
            raise Failure(f"--file {one.name}: it is given twice", MISUSED)
    return given


def files_of(given: list[GivenFile], asked: Asked, setting: Setting) -> dict[str, FileDefinition]:
    """The files, with the records that the sources have."""
    sources = [source_of(path, asked, setting) for path in asked.sources] if given else []
    return {one.name: file_of(one, sources) for one in given}


def source_of(path: str, asked: Asked, setting: Setting) -> Source:
    """A source's statements with their places, its members copied."""
    log, name = Log(), name_of(path)
    lines = read_source(path, must_be_ebcdic=asked.must_be_ebcdic).lines
    refuse_long(lines, name)
    statements = statements_of(without_tabs(lines, name, log), name)
    macros = Rewritings(Program(Layout([]), log))
    copied = Copying(asked.copy, log, setting.members()).expanded(statements)
    statements = [new for one in Expansion(log).expanded(copied) for new in with_told(one, macros, log)]
    return Source(statements, Layout(statements))


def put_files(files: dict[str, FileDefinition], records: dict[str, list[bytes]], output: Output) -> None:
    """The program of files, and each file's records as the items of a queue."""
    if not files:
        return
    output.put(f"{PROGRAM.strip('$').lower()}.asm", file_program(files))
    for one in files.values():
        if records[one.name]:
            output.put(f"{one.name}.queue", queue_lines(one, records[one.name]), is_program=False)
            output.queues[one.name] = f"{one.name}.queue"


def adapted_source(path: str, setting: Setting, asked: Asked) -> Adapted:
    source = read_source(path, must_be_ebcdic=asked.must_be_ebcdic)
    return adapted(source, name_of(path), asked.copy, is_kept=asked.is_kept, stand_ins=StandIns(setting))


def listed(data: bytes) -> dict[str, str]:
    """The sums of what an earlier run wrote, by names; none, where the list isn't one."""
    found = [LISTED.fullmatch(line) for line in lines_of(decoded(data))]
    return {one[2]: one[1] for one in found if one} if all(found) else {}


def why_list_kept(data: bytes) -> str:
    return "" if listed(data) else "it is there, and isn't a list of names with their sums, as cics-adapt writes it"


def written_before(folder: str) -> dict[str, str]:
    """What an earlier run wrote into a folder."""
    return listed(old_bytes(os.path.join(folder, LIST), lambda _: "", LIST) or b"")


def write_all(output: Output, asked: Asked) -> None:
    """Writes all, and says how it is run. Before anything is written, each file is looked at that would be replaced."""
    old = written_before(asked.out)

    def why_kept(name: str, data: bytes) -> str:
        if data == texts[name]:
            return ""
        if name not in old:
            return f"it is there, and {LIST} doesn't name it as written by an earlier run"
        return "" if sum_of(data) == old[name] else "it was changed since cics-adapt wrote it"

    texts = {name: text.encode("latin-1", errors="replace") for name, text in output.texts.items()}
    sums = old | {name: sum_of(data) for name, data in texts.items()}
    judges: dict[str, Judge] = {name: partial(why_kept, name) for name in texts} | {LIST: why_list_kept}
    texts[LIST] = encoded("".join(f"{sums[name]}  {name}\n" for name in sorted(sums)))
    for name, judge in judges.items():
        old_bytes(os.path.join(asked.out, name), judge, name, is_forced=asked.is_forced)
    make_folder(asked.out)
    for name, data in texts.items():
        write_file(os.path.join(asked.out, name), data, judges[name], name, is_forced=asked.is_forced)
    queues = [word for name, file in output.queues.items() for word in ("--queue", f"{name}={os.path.join(asked.out, file)}")]
    say(" ".join(["cics-run", *(os.path.join(asked.out, name) for name in output.programs), *queues]))
