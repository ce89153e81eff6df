"""Cases of instructions done by a program that cics-adapt has rewritten: registers, code, interruption and storage after each."""
from dataclasses import dataclass

from cics.adapting import adapted
from cics.sources import SourceText
from tests.exact.drawing import KEPT, Case
from tests.looks import keyed, symbols_of

CODE, STORAGE = 64, 76  # where a case's record has the code and the storage, after the registers
PROGRAM, WORKING = 0x010000, 0x200060  # where the program is, and its working storage
CODES = (0, 0xFFFFFFFF, 1, 0x40000000)  # shifted left by one they set the code
MOST, MOST_BYTES = 60, 45_000  # cases of a program, and bytes of their records
MOST_SHOWN = 256  # bytes that a look shows
PIECE = 24  # bytes of a DC


@dataclass(frozen=True)
class Result:
    """What an instruction leaves: registers (those that held places as places still), code, whether it was interrupted, storage."""

    registers: tuple[int, ...]
    condition: int
    is_interrupted: bool
    storage: bytes


HEAD = """P        CSECT
         L     9,=A(TABLE)
         ST    9,CASE
         L     9,=A(BACK)
         ST    9,WAYBACK
         B     NEXT
LOOP     EXEC  CICS HANDLE ABEND LABEL(FAULT)
         L     9,CASE
         MVC   GIVEN,0(9)
         L     1,64(,9)
         L     8,68(,9)
         SLA   1,1
         BR    8""".split("\n")
BACK = """BACK     L     9,CASE
         MVC   0(64,9),FOUND
         ST    2,64(,9)
         B     SAVED
FAULT    L     9,CASE
         MVI   64(9),X'80'
SAVED    DS    0H""".split("\n")
TAIL = """         L     9,CASE
         LA    9,RECORD(,9)
         ST    9,CASE
NEXT     CLC   CASE,=A(TABLE+COUNT)
         BL    LOOP
         EXEC  CICS RETURN
         LTORG
DFHEISTG DSECT
GIVEN    DS    CL64
FOUND    DS    16F
CASE     DS    F
WAYBACK  DS    F""".split("\n")


def program_of(cases: list[Case]) -> list[str]:
    """A program that does all of some cases, one after the other; it lacks their records, at TABLE."""
    size = len(cases[0].storage)
    pieces = [(at, min(256, size - at)) for at in range(0, size, 256)]
    loaded = [f"         MVC   STORAGE+{at}({count}),{at + STORAGE}(9)" for at, count in pieces]
    saved = [f"         MVC   {at + STORAGE}({count},9),STORAGE+{at}" for at, count in pieces]
    lines = [*HEAD[:-3], *loaded, *HEAD[-3:]]
    for number, case in enumerate(cases):
        target = f",T{number}" if case.has_target else ""
        lines += [f"S{number:<7} LM    14,12,GIVEN", "         LR    0,0", f"         {case.operation:<5} {case.text}{target}"]
        lines += [f"         MVI   STORAGE+{size - 1},1"] if target else []
        lines += [f"{f'T{number}' if target else '':<8} STM   0,15,FOUND", "         BALR  2,0", "         L     15,WAYBACK", "         BR    15"]
    record = STORAGE + size
    return [*lines, *BACK, *saved, *TAIL, f"STORAGE  DS    CL{size}", f"RECORD   EQU   {record}", f"COUNT    EQU   {record * len(cases)}", "         END"]


def record_lines(number: int, case: Case, storage: int) -> list[str]:
    """A case's record: registers 14 to 12 as LM loads them, the word that sets the code, its statement's address, its storage."""
    registers = [(value + storage) % 2**32 if at in case.places else value for at, value in enumerate(case.registers)]
    words = ["A(P)" if at == 3 else f"XL4'{registers[at]:X}'" for at in (14, 15, *range(13))]
    constants = [*words, "F'0'", f"XL4'{CODES[case.condition]:X}'", f"A(S{number})", "F'0'"]
    constants += [f"X'{case.storage[at : at + PIECE].hex().upper()}'" for at in range(0, len(case.storage), PIECE)]
    return [f"         DC    {one}" for one in constants]


def results_of(cases: list[Case]) -> list[Result]:
    """What cases leave, done here."""
    most = min(MOST, MOST_BYTES // (STORAGE + len(cases[0].storage)))
    return [result for at in range(0, len(cases), most) for result in results_of_program(cases[at : at + most])]


def results_of_program(cases: list[Case]) -> list[Result]:
    new = adapted(SourceText(program_of(cases)), "P.asm", [])
    left = [str(entry) for entry in new.log.told if entry.is_left and not entry.text.startswith("TABLE: not defined")]
    if left:
        raise ValueError(left[0])
    head = new.lines()[:-1]
    empty = [*head, "P        CSECT", "TABLE    DS    0F", "         END"]
    symbols = symbols_of(empty, "SYMBOL P TABLE", "SYMBOL P STORAGE")
    begin, storage = symbols["TABLE"].offset, WORKING + symbols["STORAGE"].offset
    table = [line for number, case in enumerate(cases) for line in record_lines(number, case, storage)]
    length = (STORAGE + len(cases[0].storage)) * len(cases)
    looks = [f"STORAGE {PROGRAM + begin + at:06X} {min(MOST_SHOWN, length - at)}" for at in range(0, length, MOST_SHOWN)]
    lines = keyed([*empty[:-1], *table, "         END"], *looks)
    if not any(line.startswith("TURN T001 Ended") for line in lines):
        raise ValueError("\n".join(lines[:12]))
    text = dumped(lines)
    size = length // len(cases)
    return [result_in(text[number * size : (number + 1) * size], case, storage) for number, case in enumerate(cases)]


def dumped(lines: list[str]) -> bytes:
    """The bytes that STORAGE shows."""
    rows = [line for line in lines if line.startswith("> ") and len(line.split()[1]) == 6 and line[8:10] == "  "]
    return bytes.fromhex("".join(line[10:45].replace(" ", "") for line in rows))


def result_in(record: bytes, case: Case, storage: int) -> Result:
    is_interrupted = record[CODE] == 0x80
    given = [int.from_bytes(record[at : at + 4], "big") for at in range(0, 64, 4)]
    registers = case.registers if is_interrupted else [(value - storage) % 2**32 if at in case.places else value for at, value in enumerate(given)]
    shown = tuple(0 if at in KEPT else value for at, value in enumerate(registers))
    return Result(shown, case.condition if is_interrupted else record[CODE] >> 4 & 3, is_interrupted, record[STORAGE:])
