"""Programs as a user writes them, adapted with stand-ins and run by keys: what each leaves in a queue, and what is told."""
import os
from dataclasses import dataclass

from cics.adapting import adapted
from cics.assembler_files import run_script
from cics.log import Log
from cics.queues import statement_lines
from cics.sources import SourceText
from cics.stand_in.file_programs import file_program, rest_program
from cics.stand_in.map_programs import map_program
from cics.stand_in.map_reading import read_mapset
from cics.stand_in.mapsets import Mapset
from cics.stand_in.rewriting import Setting, StandIns
from tests.calling import folder_of
from tests.case import CICSLOOK


@dataclass(frozen=True)
class Ran:
    """What came of a program: what was told of it, its new lines, and the transcript."""

    told: list[str]
    lines: list[str]
    transcript: list[str]

    def ending(self) -> str:
        """How its last task ended."""
        ends = [line.split(" ", 2)[2] for line in self.transcript if line.startswith("TURN T001 ") and ("Ended" in line or "Abended" in line)]
        return ends[-1] if ends else ""


def read_of(text: str) -> tuple[Mapset | None, list[str]]:
    """Reads a BMS source. Returns its mapset, and the faults: each with its line, perhaps its column, and the reason."""
    log = Log()
    with folder_of({"set.bms": text}) as folder:
        mapset = read_mapset(os.path.join(folder, "set.bms"), log)
    return mapset, [line.split(":", 1)[1] for line in log.lines()]


def told_of(text: str) -> list[str]:
    return read_of(text)[1]


def mapset_of(text: str) -> tuple[Mapset, list[str]]:
    """The mapset of a BMS source, and what is told of it."""
    mapset, told = read_of(text)
    assert mapset is not None
    return mapset, told


def source_of(statements: list[str], storage: list[str], first: list[str] | None = None) -> list[str]:
    """A program of statements, an EXEC of any length without its `EXEC CICS`, where it begins with >; at END it puts OUT into a queue."""
    lines = ["P        CSECT", "         MVC   OUT,=CL40' '"]
    for text in [*(first or []), *statements]:
        label, _, rest = text.partition(">") if ">" in text else (text, "", "")
        lines += statement_lines(label.strip(), "EXEC", f"CICS {rest.strip()}") if rest else [text]
    return [*lines, *statement_lines("END", "EXEC", "CICS WRITEQ TS QUEUE('OUT') FROM(OUT) LENGTH(L'OUT)"), "         EXEC  CICS RETURN",
            "         LTORG", "DFHEISTG DSECT", *storage, "         END"]


def ran(source: list[str], setting: Setting, keys: list[str], after: list[str]) -> Ran:
    """Runs the program P by keys, each run to rest, with lines in front and after them."""
    new = adapted(SourceText(source), "p.asm", [], stand_ins=StandIns(setting))
    made = [(mapset.name, map_program(mapset)) for mapset in setting.mapsets]
    made += [("$SFILE", file_program(setting.files))] if setting.files else []
    made += [("$SREST", rest_program())] if setting.has_rest else []
    blocks = [line for name, lines in [*made, ("P", new.lines())] for line in (f"SOURCE {name}", *lines, "/*")]
    events = [line for key in keys for line in (f"KEY T001 {key}", "RUN T001 4096")]
    script = [*blocks, "CLOCK 130509 84060", "TRANSACTION TRAN P", "TERMINAL T001", *events, *after]
    return Ran([str(told).split(":", 2)[2].strip() for told in new.log.told], new.lines(), run_script(script, CICSLOOK))
