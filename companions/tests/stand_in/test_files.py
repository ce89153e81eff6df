"""File commands in drawn sequences, against a small keyed file of the tests' own."""
import os
import random

from cics.adapting import adapted
from cics.assembler_files import run_script
from cics.sources import SourceText
from cics.stand_in.file_programs import file_program
from cics.stand_in.records import FileDefinition
from cics.stand_in.rewriting import Setting, StandIns
from tests.case import CICSLOOK, TestCase, expect
from tests.stand_in.file_drawing import BEGIN, FILES, LENGTH, MOST, Sequence, drawn, due, program_of
from tests.stand_in.looks import items_of

SEED, PROGRAMS = 19741129, int(os.environ.get("STAND_IN_FILES", "2"))
DEFINED = {f"FILE{number}": FileDefinition(f"FILE{number}", MOST, BEGIN, LENGTH, [], "") for number in range(FILES)}


def script_of(name: str, sequences: list[Sequence]) -> list[str]:
    new = adapted(SourceText(program_of(sequences, name)), name, [], stand_ins=StandIns(Setting([], DEFINED)))
    left = [str(told) for told in new.log.told if told.is_left]
    expect(f"{name} is taken", not left, left)
    looks = [f"QUEUE {name} {number + 1}" for number in range(sum(len(one.commands) for one in sequences))]
    return ["SOURCE $SFILE", *file_program(DEFINED), "/*", f"SOURCE {name}", *new.lines(), "/*", f"TRANSACTION TRAN {name}", "TERMINAL T001",
            "KEY T001 ENTER TRAN", *["RUN T001 4096"] * 2, *looks]


class DrawnFilesTest(TestCase):
    def test_drawn(self) -> None:
        draw = random.Random(SEED)
        for program in range(PROGRAMS):
            sequences = drawn(draw)
            transcript = run_script(script_of("PGM", sequences), CICSLOOK)
            expect(f"program {program}: ended", "TURN T001 Ended" in transcript,
                   [line for line in transcript if "Ab" in line or "REFUSED" in line][:3])
            item = 0
            for sequence in sequences:
                for at, command in enumerate(sequence.commands):
                    item += 1
                    found = items_of(transcript, f"QUEUE 'PGM' ITEM {item}")
                    what = f"program {program} of seed {SEED}, {sequence.file} {at}: {[one.words for one in sequence.commands[: at + 1]]}"
                    expect(what, found == due(command), (found.hex(), due(command).hex()))
