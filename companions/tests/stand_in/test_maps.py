"""SEND MAP and RECEIVE MAP of drawn maps, against a 3270's buffer of the tests' own."""
import os
import random

from cics.adapting import adapted
from cics.assembler_files import run_script
from cics.child import text_of
from cics.sources import SourceText
from cics.stand_in.map_programs import map_program
from cics.stand_in.rewriting import Setting, StandIns
from cics.transcripts import is_of_page
from tests.case import CICSLOOK, TestCase, expect
from tests.stand_in.looks import items_of
from tests.stand_in.map_drawing import FILLED, Drawn, Op, drawn, program_of, source_of
from tests.stand_in.running import mapset_of

SEED, PROGRAMS, OPS = 20261129, int(os.environ.get("STAND_IN_MAPS", "12")), 8
AT_ONCE = 6  # mapsets of a script


def script_of(all_drawn: list[Drawn]) -> list[str]:
    """A script in which each mapset has a program, a transaction and a terminal."""
    blocks, events = [], []
    for at, one in enumerate(all_drawn):
        name = f"PGM{at}"
        mapset, told = mapset_of(text_of(source_of(one.name, one.maps)))
        new = adapted(SourceText(program_of(one, name)), name, [], stand_ins=StandIns(Setting([mapset])))
        left = [line for line in told if ": refused: " in line] + [str(entry) for entry in new.log.told if entry.is_left]
        expect(f"{one.name} is taken", not left, left)
        blocks += [f"SOURCE {one.name}", *map_program(mapset), "/*", f"SOURCE {name}", *new.lines(), "/*"]
        events += [f"TRANSACTION TR{at} {name}", f"TERMINAL T{at}", f"KEY T{at} ENTER TR{at}", f"RUN T{at} 4096"]
        for op in filter(Op.waits, one.ops):
            events += [f"KEY T{at} {op.key}", f"RUN T{at} 4096"]
        events += [f"QUEUE $SCRT{at} 1", *(f"QUEUE PGM{at} {number + 1}" for number in range(sum(map(Op.waits, one.ops)))), f"SCREEN T{at}"]
    return [*blocks, *events]


def screen_in(transcript: list[str], at: int) -> list[str]:
    begin = transcript.index(f"SCREEN T{at}")
    rows = [""] * 24
    for line in transcript[begin + 1 :]:
        if not is_of_page(line):
            break
        rows[int(line[:2]) - 1] = line[3:].rstrip()
    return rows


def compare(one: Drawn, at: int, transcript: list[str]) -> None:
    what = f"{one.name} of seed {SEED}, {[(op.of_map.name, *op.words, op.key) for op in one.ops]}"
    if one.is_refused:
        expect(f"{what}: refused", f"TURN T{at} Abended SIKY" in transcript, [line for line in transcript if line.startswith(f"TURN T{at} Ab")])
        return
    expect(f"{what}: ended", f"TURN T{at} Ended" in transcript,
           [line for line in transcript if line.startswith(f"TURN T{at} ") and "At" not in line][-3:])
    for number, op in enumerate(filter(Op.waits, one.ops)):
        found = items_of(transcript, f"QUEUE 'PGM{at}' ITEM {number + 1}")
        due = op.resp.to_bytes(4, "big") + (FILLED * op.of_map.size() if op.resp else FILLED * 12 + op.area)
        expect(f"{what}: RECEIVE {number + 1}", found == due, (found.hex(), due.hex()))
    rows = screen_in(transcript, at)
    expect(f"{what}: screen", rows == one.shown, [pair for pair in zip(rows, one.shown) if pair[0] != pair[1]])
    image = items_of(transcript, f"QUEUE '$SCRT{at}' ITEM 1")
    differ = [(place, f"{a:02X}", f"{b:02X}") for place, (a, b) in enumerate(zip(image[24:], one.buffer.image())) if a != b]
    expect(f"{what}: buffer", len(image) == 1944 and not differ, differ[:9])
    cursor = int.from_bytes(image[8:10], "big")
    expect(f"{what}: cursor", cursor == one.buffer.cursor, (cursor, one.buffer.cursor))


class DrawnMapsTest(TestCase):
    def test_drawn(self) -> None:
        draw = random.Random(SEED)
        sets = [drawn(draw, at, OPS) for at in range(PROGRAMS)]
        for begin in range(0, len(sets), AT_ONCE):
            some = sets[begin : begin + AT_ONCE]
            transcript = run_script(script_of(some), CICSLOOK)
            for at, one in enumerate(some):
                compare(one, at, transcript)
