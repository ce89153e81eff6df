"""Cases of instructions done by the Hercules emulator, where it is installed (Debian's package; ARCHMODE S/370): the lines of results.vectors.

    cd companions; python3 -B -m tests.exact.hercules OPERATION FIRST LAST

writes the lines of the cases of these numbers. No part of the gate."""
import os
import subprocess
import sys
import tempfile

from tests.exact.drawing import KEPT, WITH_LARGE, Case, case_of
from tests.exact.running import Result
from tests.exact.vectors import line_of

CONFIGURATION = "ARCHMODE S/370\nMAINSIZE 4\nNUMCPU 1\nCPUSERIAL 000001\nCPUMODEL 3090\n0009 3215-C / noprompt\n"
WAIT = 3  # seconds in which all cases are done
# Addresses in the first 4,096 bytes. A record has the registers, the code, the mark of an interruption, the instruction, and the storage.
CURRENT, END, GIVEN, FOUND, CODE, MARK, SIZE, MOVED = 0x400, 0x404, 0x440, 0x480, 0x4C0, 0x4C4, 0x408, 0x410
DRIVER, STUB, TARGET, DONE, NEXT, INTERRUPTED = 0x600, 0x660, 0x6E0, 0x700, 0x740, 0x7A0
RECORDS, HEAD = 0x10000, 128
STORAGE = 0x200138  # where each case has its storage, which is the place that it has in the region
AT_CODE, AT_MARK, AT_INSTRUCTION = 64, 68, 72
LONGEST = 12  # bytes of an instruction and the branch behind it


def move(to: str, length: int, source: str) -> str:
    return f"D2{length - 1:02X}{to}{source}"


def low(place: int) -> str:
    """An address in the first 4,096 bytes, without a base."""
    return f"0{place:03X}"


def program() -> dict[int, str]:
    """The digits at places: a restart PSW, that of program interruptions, and what does a case after the other."""
    done = f"47F0{low(DONE)}"
    return {
        0x0: f"0000000000000{DRIVER:03X}",
        0x68: f"0000000000000{INTERRUPTED:03X}",
        # L 1,CURRENT; LM 4,7,MOVED; LA 6,128(,1); MVCL 4,6
        # MVC GIVEN,0(1); MVC STUB,72(1); MVI MARK,0; L 2,64(1); SPM 2; LM 0,15,GIVEN; B STUB
        DRIVER: f"5810{low(CURRENT)}" + f"9847{low(MOVED)}" + f"41601{HEAD:03X}" + "0E46"
        + move(low(GIVEN), 64, "1000") + move(low(STUB), LONGEST, f"1{AT_INSTRUCTION:03X}")
        + f"9200{low(MARK)}" + f"58201{AT_CODE:03X}" + "0420" + f"980F{low(GIVEN)}" + f"47F0{low(STUB)}",
        # the branch was taken
        TARGET: f"9202{low(MARK)}{done}",
        # STM 0,15,FOUND; BALR 1,0; ST 1,CODE
        DONE: f"900F{low(FOUND)}" + "0510" + f"5010{low(CODE)}" + f"47F0{low(NEXT)}",
        # L 1,CURRENT; LM 4,7,MOVED; LR 6,4; LA 4,128(,1); MVCL 4,6
        # MVC 0(64,1),FOUND; MVC 64(8,1),CODE; A 1,SIZE; ST 1,CURRENT; C 1,END; BL DRIVER; LPSW
        NEXT: f"5810{low(CURRENT)}" + f"9847{low(MOVED)}" + "1864" + f"41401{HEAD:03X}" + "0E46"
        + move("1000", 64, low(FOUND)) + move(f"1{AT_CODE:03X}", 8, low(CODE)) + f"5A10{low(SIZE)}"
        + f"5010{low(CURRENT)}" + f"5910{low(END)}" + f"4740{low(DRIVER)}" + f"8200{low(0x7F8)}",
        0x7F8: "0002000000000000",
        # STM 0,15,FOUND; MVI MARK,128; MVC CODE,the old PSW's
        INTERRUPTED: f"900F{low(FOUND)}" + f"9280{low(MARK)}" + move(low(CODE), 4, low(0x2C)) + f"47F0{low(NEXT)}",
    }


def record_of(case: Case) -> bytes:
    """A case's record."""
    registers = [(value + STORAGE) % 2**32 if at in case.places else value for at, value in enumerate(case.registers)]
    instruction = case.code + (bytes.fromhex(low(TARGET)) if case.has_target else b"")
    behind = instruction + bytes.fromhex(f"47F0{low(DONE)}")
    head = b"".join(value.to_bytes(4, "big") for value in registers) + (case.condition << 28).to_bytes(4, "big") + bytes(4) + behind
    return head.ljust(HEAD, b"\0") + bytes(case.storage)


def results_of(cases: list[Case]) -> list[Result]:
    """What cases leave, done by Hercules."""
    size = (HEAD + len(cases[0].storage) + 7) // 8 * 8
    whole = bytearray(RECORDS + size * len(cases))
    length = len(cases[0].storage)
    numbers = {CURRENT: RECORDS, END: RECORDS + size * len(cases), SIZE: size, MOVED: STORAGE, MOVED + 4: length, MOVED + 8: 0, MOVED + 12: length}
    for place, digits in [*program().items(), *((at, f"{value:08X}") for at, value in numbers.items())]:
        whole[place : place + len(digits) // 2] = bytes.fromhex(digits)
    for number, case in enumerate(cases):
        record = record_of(case)
        whole[RECORDS + size * number : RECORDS + size * number + len(record)] = record
    data = done_by_hercules(bytes(whole))
    return [result_in(data[RECORDS + size * number :], case) for number, case in enumerate(cases)]


def done_by_hercules(whole: bytes) -> bytes:
    with tempfile.TemporaryDirectory() as room:
        commands = f"loadcore {room}/storage 0\nrestart\npause {WAIT}\nsavecore {room}/after 0 {len(whole) - 1:X}\nquit\n"
        for file, data in (("storage", whole), ("configuration", CONFIGURATION.encode()), ("commands", commands.encode())):
            with open(f"{room}/{file}", "wb") as it:
                it.write(data)
        subprocess.run(["hercules", "-d", "-f", f"{room}/configuration"], env={**os.environ, "HERCULES_RC": f"{room}/commands"}, stdin=subprocess.DEVNULL,
                       stdout=subprocess.DEVNULL, stderr=subprocess.DEVNULL, timeout=120, check=False)
        with open(f"{room}/after", "rb") as it:
            return it.read()


def result_in(record: bytes, case: Case) -> Result:
    is_interrupted, is_taken = record[AT_MARK] == 0x80, record[AT_MARK] == 2
    given = [int.from_bytes(record[at : at + 4], "big") for at in range(0, 64, 4)]
    registers = case.registers if is_interrupted else [(value - STORAGE) % 2**32 if at in case.places else value for at, value in enumerate(given)]
    storage = bytearray(record[HEAD : HEAD + len(case.storage)])
    if case.has_target and not is_taken:
        storage[-1] = 1
    shown = tuple(0 if at in KEPT else value for at, value in enumerate(registers))
    return Result(shown, case.condition if is_interrupted else record[AT_CODE] >> 4 & 3, is_interrupted, bytes(storage))


def main() -> None:
    operation, first, last = sys.argv[1], int(sys.argv[2]), int(sys.argv[3])
    cases = [case_of(operation, number) for number in range(first, last + 1)]
    most = 200 if operation in WITH_LARGE else 1000
    for at in range(0, len(cases), most):
        for number, result in enumerate(results_of(cases[at : at + most]), first + at):
            print(line_of(cases[number - first], number, result))


if __name__ == "__main__":
    main()
