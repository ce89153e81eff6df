"""Measures how many instructions of each loop a second of user CPU performs, compared with an earlier COMMIT. `advance` alone performs the
loops of bench/loop-images, over the store that a region of this checkout has and over that of the COMMIT (one that has the loops' crate),
which is built in a folder of its own, or in that of --folder; and where it is installed, by Hercules (Debian's package; ARCHMODE S/370),
with the entry as eight instructions that count its calls. They run in turn, --pairs times (10). Printed are for each loop the instructions
of a second of user CPU, in millions, of both, their factor, and the ratio to Hercules, each the median of the pairs; and last the machine
instructions that bench/instructions counts of both. No part of the gate."""
import os
import shutil
import statistics
import subprocess
import tempfile

from bench import loop_images
from bench.instructions import for_one
from cics.child import TOP
from cics.cli import say
from checks.common import Check, program_at
from checks.measuring import failing

SECONDS = 0.3  # about so long a run takes
FIRST = 20  # slices of a run whose time is left out
CRATES = ("tool_machine", "tool_bench", "tool_bench_loops", "cx_loops")  # the loops' crate, and what it was before
CONFIGURATION = "ARCHMODE S/370\nMAINSIZE 2\nNUMCPU 1\nCPUSERIAL 000001\nCPUMODEL 3090\n0009 3215-C / noprompt\n"


def made(folder: str) -> str:
    """The program of a checkout, which is built."""
    crate = next((it for it in CRATES if os.path.isdir(f"{folder}/crates/{it}/src")), None)
    if crate is None:
        raise failing(folder, "it has no crate of loops")
    subprocess.run(["rt", "run"], cwd=f"{folder}/crates/{crate}", stdin=subprocess.DEVNULL, stdout=subprocess.DEVNULL, check=True)
    return program_at(f"{folder}/crates/{crate}/out/{crate}")


def checked_out(commit: str, folder: str) -> str:
    """An earlier commit in a folder."""
    if not os.path.isdir(f"{folder}/.git"):
        subprocess.run(["git", "clone", "-q", TOP, folder], check=True)
    subprocess.run(["git", "-C", folder, "checkout", "-q", commit], check=True)
    return folder


def rate(program: str, name: str, slices: int) -> float:
    count, it = loop_images.performed(program, name, slices)
    return count / it.user / 1e6


def storage(name: str, slices: int) -> bytes:
    """Main storage with a loop: a restart PSW, the registers' setting at 600, the entry at 800, which ends in a wait at the last call."""
    loop = bytearray.fromhex(loop_images.image_of(name))
    loop[4:8] = slices.to_bytes(4, "big")
    parts = {
        0x0: "0000000000000600",
        0x600: "58300620" "58D00624" "07F3",  # L 3, L 13, BR 3
        0x620: "00010000" "00020000",
        0x644: f"{slices + 1:08X}",
        0x648: "0002000000000000",  # the PSW of a wait
        # ST 1, L 1 with the count, BCTR 1, ST 1, LTR 1, L 1 as it was, BNZ to the caller, LPSW
        0x800: "50100640" "58100644" "0610" "50100644" "1211" "58100640" "077E" "82000648",
        0x10000: loop.hex(),
        0x20000: "00" * 2048,
    }
    whole = bytearray(0x20000 + 2048)
    for place, digits in parts.items():
        whole[place : place + len(digits) // 2] = bytes.fromhex(digits)
    return bytes(whole)


def seconds_of_hercules(name: str, slices: int) -> float:
    """Hercules' user time from its start to the wait."""
    with tempfile.TemporaryDirectory() as room:
        files = {"storage": storage(name, slices), "configuration": CONFIGURATION.encode(),
                 "commands": f"loadcore {room}/storage 0\nrestart\n".encode()}
        for file, data in files.items():
            with open(f"{room}/{file}", "wb") as it:
                it.write(data)
        with subprocess.Popen(["hercules", "-d", "-f", f"{room}/configuration"], env={**os.environ, "HERCULES_RC": f"{room}/commands"},
                              stdin=subprocess.DEVNULL, stdout=subprocess.PIPE, stderr=subprocess.DEVNULL, text=True) as process:
            assert process.stdout
            comes_to_wait = any("isabled wait" in line for line in process.stdout)
            process.kill()
            used: float = os.wait4(process.pid, 0)[2].ru_utime
            process.returncode = 0
        if not comes_to_wait:
            raise failing("hercules", "it did not come to the wait")
        return used


def rate_of_hercules(name: str, slices: int, instructions: int) -> float:
    """What it takes to start is left out: the difference of many slices and few. The seven instructions of the entry, for each slice of some
    65,000, are not counted."""
    return instructions / (seconds_of_hercules(name, slices + FIRST) - seconds_of_hercules(name, FIRST)) / 1e6


def row(before: str, now: str, name: str, pairs: int) -> str:
    """What the pairs of runs of a loop take."""
    slices = max(2, round(FIRST * SECONDS / max(loop_images.performed(before, name, FIRST)[1].user, 0.001)))
    (few, _), (many, _) = (loop_images.performed(now, name, count) for count in (FIRST, slices + FIRST))
    rates = []
    for _ in range(pairs):
        old, new = rate(before, name, slices), rate(now, name, slices)
        emulator = rate_of_hercules(name, slices, many - few) if shutil.which("hercules") else None
        rates.append((old, new, new / old, new / emulator if emulator else 0.0))
    old, new, factor, ratio = (statistics.median(it) for it in zip(*rates))
    line = f"{name}: before {old:.1f}, now {new:.1f} million instructions a second, factor {factor:.2f}"
    return f"{line}, {ratio:.2f} of Hercules" if ratio else line


def main(words: list[str]) -> int:
    check = Check(__name__, __doc__, words, numbers={"pairs": (10, "so many pairs of runs")}, texts={"folder": "where the commit is built"},
                  required=["commit"])
    commit, pairs = str(check.text("commit")), check.number("pairs")
    with tempfile.TemporaryDirectory() as room:
        before, now = made(checked_out(commit, check.text("folder") or f"{room}/before")), made(TOP)
        for name in loop_images.names():
            say(row(before, now, name, pairs))
        valgrind = shutil.which("valgrind")
        for what, program in ((commit, before), ("this checkout", now)) if valgrind else ():
            numbers = [f"{name} {for_one(str(valgrind), program, name):.1f}" for name in loop_images.names()]
            say(f"machine instructions of {what}: {', '.join(numbers)}")
    return 0
