"""Sequences of file commands, drawn; the program that gives them, and what must come of each."""
import random
from dataclasses import dataclass, field

from cics.queues import statement_lines
from tests.stand_in.keyed_file import HIGH, LENGERR, Given, KeyedFile

BEGIN, LENGTH, MOST = 3, 4, 20  # the key in a record, and a record's greatest length
KEYS = [f"K{number}  ".encode("cp037") for number in range(1, 7)]
FILLER = b"\xAA"
FILES, COMMANDS = 8, 12  # of a program; commands of a sequence
RESULT = 4 + 2 + LENGTH + MOST


@dataclass(frozen=True)
class Command:
    """A command of a sequence: what is set in front of it, its words, and what must stand in the fields after it: response, length, key,
    and record."""

    before: list[tuple[str, bytes]]
    words: str
    resp: int
    length: int
    key: bytes
    record: bytes
    is_set: bool = False


@dataclass
class Sequence:
    """A sequence of commands with a file."""

    file: str
    commands: list[Command] = field(default_factory=list)


@dataclass
class Drawing:
    """Draws the commands of one file."""

    draw: random.Random
    name: str
    file: KeyedFile = field(default_factory=lambda: KeyedFile(BEGIN, LENGTH, MOST))
    browsed: bytes = bytes(LENGTH)  # what the browse's RIDFLD has

    def key(self) -> bytes:
        return self.draw.choice([*KEYS, HIGH]) if self.draw.random() < 0.9 else self.draw.choice(KEYS)[:2] + b"\0\0"

    def made(self, before: list[tuple[str, bytes]], words: str, given: Given, area: int, key: bytes, *, is_set: bool = False) -> Command:
        """The command; a record goes into an area of a length, cut where it is longer."""
        record, length, resp = FILLER * MOST, area, given.resp
        if given.record is not None:
            length = len(given.record)
            if not is_set and length > area:
                resp = LENGERR
            cut = given.record if is_set else given.record[:area]
            record = cut + record[len(cut) :]
        return Command([*before, ("LEN", area.to_bytes(2, "big")), ("REC", FILLER * MOST)], words, resp, length, given.key or key, record, is_set)

    def read(self) -> Command:
        key, is_greater, is_update, is_set = self.key(), self.draw.random() < 0.3, self.draw.random() < 0.4, self.draw.random() < 0.2
        given = self.file.read(key, is_greater=is_greater, is_update=is_update)
        area = "SET(7)" if is_set else "INTO(REC)"
        words = f"READ FILE('{self.name}') {area} RIDFLD(KEY) LENGTH(LEN)" + " GTEQ" * is_greater + " UPDATE" * is_update
        return self.made([("KEY", key)], words, given, self.draw.choice([20, 20, 8]), key, is_set=is_set)

    def written(self, words: str, key: bytes, *, is_new: bool) -> Command:
        length = self.draw.choice([20, 20, 20, 12, 7, 6, 21])
        own = key if self.draw.random() < 0.9 else self.draw.choice(KEYS)
        area = (self.draw.randbytes(BEGIN) + own + self.draw.randbytes(MOST))[:MOST]
        record = area[:length] if length <= MOST else area + b"?"
        given = self.file.write(key, record, area) if is_new else self.file.rewrite(record, area)
        return Command([("KEY", key), ("LEN", length.to_bytes(2, "big")), ("REC", area)], words, given.resp, length, key, area)

    def change(self) -> Command:
        key = self.draw.choice(KEYS)
        if self.draw.random() < 0.6:
            return self.written(f"WRITE FILE('{self.name}') FROM(REC) RIDFLD(KEY) LENGTH(LEN)", key, is_new=True)
        return self.written(f"REWRITE DATASET('{self.name}') FROM(REC) LENGTH(LEN)", self.file.held or key, is_new=False)

    def delete(self) -> Command:
        key = self.draw.choice(KEYS) if self.draw.random() < 0.5 and self.file.held is None else None
        given = self.file.delete(key)
        return self.made([("KEY", key or KEYS[0])], f"DELETE FILE('{self.name}')" + " RIDFLD(KEY)" * (key is not None), given, 20, key or KEYS[0])

    def other(self) -> Command:
        if self.draw.random() < 0.5:
            return self.made([("KEY", KEYS[0])], f"UNLOCK FILE('{self.name}')", self.file.unlock(), 20, KEYS[0])
        return self.made([("KEY", KEYS[0])], f"ENDBR FILE('{self.name}')", self.file.end(), 20, KEYS[0])

    def start(self) -> Command:
        self.browsed, is_greater, is_reset = self.key(), self.draw.random() < 0.8, self.draw.random() < (0.9 if self.file.way else 0.1)
        given = self.file.start(self.browsed, is_greater=is_greater, is_reset=is_reset)
        return self.made([("KEY", self.browsed)],
                         f"{'RESETBR' if is_reset else 'STARTBR'} FILE('{self.name}') RIDFLD(KEY)" + " EQUAL" * (not is_greater),
                         given, 20, self.browsed)

    def browse(self) -> Command:
        if self.draw.random() < 0.15:
            self.browsed = self.key()
        key, is_forward = self.browsed, self.draw.random() < 0.6
        given = self.file.browse(key, is_forward=is_forward)
        self.browsed = given.key or key
        return self.made([("KEY", key)], f"{'READNEXT' if is_forward else 'READPREV'} FILE('{self.name}') INTO(REC) RIDFLD(KEY) LENGTH(LEN)", given,
                         self.draw.choice([20, 20, 9]), key)

    def command(self, number: int) -> Command:
        if number < 3:
            return self.written(f"WRITE FILE('{self.name}') FROM(REC) RIDFLD(KEY) LENGTH(LEN)", self.draw.choice(KEYS), is_new=True)
        kinds = [self.read, self.change, self.change, self.delete, self.other, self.start, self.browse, self.browse, self.browse]
        return self.draw.choice(kinds)()


def drawn(draw: random.Random) -> list[Sequence]:
    """The sequences of a program, each with a file of its own."""
    found = []
    for number in range(FILES):
        drawing = Drawing(draw, f"FILE{number}")
        found.append(Sequence(drawing.name, [drawing.command(at) for at in range(COMMANDS)]))
    return found


def command_lines(command: Command, label: str) -> list[str]:
    lines = [f"         MVC   {name}({len(data)}),=X'{data.hex().upper()}'" for name, data in command.before]
    lines += statement_lines("", "EXEC", f"CICS {command.words} RESP(RC)")
    if command.is_set:
        lines += ["         CLC   RC,=F'0'", f"         BNE   {label}", "         LH    8,LEN", "         BCTR  8,0", "         EX    8,MOVE",
                  f"{label:<8} DS    0H"]
    return [*lines, "         BAL   4,RESULT"]


def program_of(sequences: list[Sequence], name: str) -> list[str]:
    """The program that gives the commands, and puts what came of each into a queue of its name."""
    lines = [f"{name:<8} CSECT", "         L     9,=A(CODE)", "         USING CODE,9,10,12,5", "         LA    10,2048(,9)",
             "         LA    10,2048(,10)", "         LA    12,2048(,10)", "         LA    12,2048(,12)", "         LA    5,2048(,12)",
             "         LA    5,2048(,5)", "         B     CODE", "         LTORG", "CODE     DS    0H"]
    for number, sequence in enumerate(sequences):
        for at, command in enumerate(sequence.commands):
            lines += command_lines(command, f"L{number}N{at}")
    lines += ["         EXEC  CICS RETURN", *statement_lines("RESULT", "EXEC", f"CICS WRITEQ TS QUEUE('{name}') FROM(RC) LENGTH(=H'{RESULT}')"),
              "         BR    4", "MOVE     MVC   REC(0),0(7)", "         LTORG"]
    return [*lines, "DFHEISTG DSECT", "RC       DS    F", "LEN      DS    H", "KEY      DS    CL4", f"REC      DS    CL{MOST}", "         END"]


def due(command: Command) -> bytes:
    return command.resp.to_bytes(4, "big") + command.length.to_bytes(2, "big") + command.key + command.record
