"""Runs the built program for each of its statuses, and looks at its line on standard error and at what is written. Bad looks are those of
`cicslook`, and so are the texts of `--help` and `--version`."""
import os
import tempfile
from collections import Counter
from collections.abc import Iterator, Sequence
from dataclasses import dataclass, field
from functools import partial

from cics.child import Ended, run
from cics.cli import version
from checks.common import Case, Check, Counts, Wrong, require
from checks.examples import path_of, script_of, text_of, wanted
from cics.files import put_file

USAGE = b"cicsedf: usage: cicsedf [FILE]\n"
LOOK_USAGE = b"cicslook: usage: cicslook [FILE]\n"
HELP = b"""\
cicslook [FILE]: runs a script from a file or from standard input, and writes its transcript.
  -h, --help     this text
  -V, --version  the version
The script's line HELP lists the lines that cicsedf doesn't have.
Status: 0 all was done, 1 a bad line, look or source, 2 other words, 3 reading or writing failed, 4 out of memory.
"""
DONE = b"TERMINAL T001 DEFINED\n"
ONE = path_of("return")
OPTIONS = ["--", "---", "--help", "-h", "-?", "--version", "-V", "-x", "-1", "--file", "--FILE=return.script", "-return.script"]
WITHIN = [65536, 32768, 16384, 12288, 10240, 9216, 8192, 7168, 6144, 5120, 4096]  # KiB of address space


@dataclass(frozen=True)
class Trial:
    """A run of the program by a line of the shell, in a folder that has some files, with a script on standard input; and how it ends."""

    due: Ended
    words: Sequence[str | bytes]
    files: dict[str, bytes] = field(default_factory=dict)
    given: bytes = script_of("return")
    is_of_cicslook: bool = False
    line: str = 'exec "$@"'

    def name(self, number: int) -> str:
        what = b"; ".join(next(iter(self.files.values()), b"")[:100].split(b"\n"))
        words = [os.path.basename(word) if isinstance(word, str) and word.startswith("/") else word for word in self.words]
        return f"{number}, status {self.due.status}: {words} {self.line.removeprefix('exec ')} {what.decode(errors='replace')}".rstrip()


def ended_in(program: str, trial: Trial) -> Ended:
    with tempfile.TemporaryDirectory() as folder:
        for name, text in trial.files.items():
            put_file(os.path.join(folder, name), text)
        return run(["/bin/sh", "-c", f'cd "$0" && {trial.line}', folder, program, *trial.words], trial.given)


def tried(program: str, trial: Trial) -> Counts:
    ended = ended_in(program, trial)
    require(ended == trial.due, str(ended))
    return Counter({f"of status {trial.due.status}": 1})


def by_script(lines: list[str], status: int, out: bytes, reported: bytes, is_of_cicslook: bool = False) -> Trial:
    return Trial(Ended(status, out, reported), ["made.script"], {"made.script": text_of(lines)}, is_of_cicslook=is_of_cicslook)


def done() -> Iterator[Trial]:
    """0: a file, and standard input; a hyphen is the name of a file."""
    yield Trial(wanted("return"), [ONE])
    yield Trial(wanted("return"), [])
    yield Trial(Ended(0, DONE, b""), ["-"], {"-": b"TERMINAL T001\n"})


def bad_lines() -> Iterator[Trial]:
    """1: a bad line; what comes before it is done."""
    yield by_script(["TERMINAL T001", "HELLO"], 1, DONE, b"cicsedf: line 2: BadLine\n")


def bad_sources() -> Iterator[Trial]:
    """1: a faulty line of a source, by the script's line; what comes before the block is done, and nothing of it is written.
    A bad line in the block, or its end missing, comes first."""
    first, end = "P        CSECT", "         END"
    yield by_script(["SOURCE P", first, "         BR    14", end, "/*"], 0, b"PROGRAM P AT 010000 LENGTH 000002\n", b"")
    for lines, out, reported in [
        (["TERMINAL T001", "SOURCE P LIST DISASM", first, "         LR    1", end, "/*"], DONE, "4: BadOperand"),
        (["* first", "SOURCE P LIST", first, "/*"], b"", "4: NoEnd"),
        (["SOURCE P", first, "         EXEC  CICS BEGIN", end, "/*"], b"", "3: UnknownCommand"),
        (["SOURCE P", first, "1A       BR    14", end], b"", "1: BadLine"),
        (["SOURCE P", first, "1A       BR    14", "x" * 4097, "/*"], b"", "4: BadLine"),
        (["SOURCE P DISASM LIST"], b"", "1: BadLine"),
    ]:
        yield by_script(lines, 1, out, f"cicsedf: line {reported}\n".encode())


def bad_looks() -> Iterator[Trial]:
    """1: of `cicslook`, a bad look; what comes after it is done too. A bad line comes first, and so does a block without its end. A bad first
    line of a block is a bad line, and so is a bad look that is too long. The line itself is shown after the fault's."""
    storage = b"> ? line %d: STORAGE aaaaaa n     n bytes of storage from an address on\n"
    areas = b"> ? line %d: AREAS [term]         all areas of storage, or those of the terminal's task\n"
    number = b"> ? line %d: RUN term [n] [stop]  at most n turns of the terminal; stop: BEFORE ABEND, TO program line\n"
    for lines, out, reported in [
        (["TERMINAL T001", "storage 0 1", "tasks", "Run t001 4097", "TERMINAL T001"],
         DONE + storage % 2 + b"> T001 NO TASK\n" + number % 4 + b"TERMINAL T001 REFUSED Duplicate\n", "2: BadLook"),
        (["AREAS T0001", "* a comment", "Areas  T001"], areas % 1 + areas % 3, "1: BadLook"),
        (["STORAGE " + "0" * 4088], storage % 1, "1: BadLook"),
        (["TERMINAL T001", "STORAGE " + "0" * 4089, "TERMINAL T001"], DONE, "2: BadLine"),
        (["STORAGE", "HELLO", "STORAGE"], storage % 1, "2: BadLine"),
        (["STORAGE", "IMAGE A 80", "STORAGE", "/*"], storage % 1, "3: BadLine"),
        (["STORAGE", "FAULTS P"], storage % 1, "2: BadLine"),
        (["TERMINAL T001", "FAULTS", "/*"], DONE, "2: BadLine"),
        (["faults P Q", "/*"], b"", "1: BadLine"),
        (["terminal T001"], b"", "1: BadLine"),
        ([" TASKS"], b"", "1: BadLine"),
        (["TERMINAL T001", "ORDERS 0", "/*"], DONE, "2: BadLine"),
        (["Orders 1000001", "/*"], b"", "1: BadLine"),
        (["TERMINAL T001", "ORDERS"], DONE, "2: BadLine"),
        (["ORDERS", "KEY T001 ENTER A", "", "* no turn", "TURN T001", "/*"], b"", "5: BadLine"),
        (["ORDERS", "STORAGE 0", "/*"], b"", "2: BadLine"),
    ]:
        line = lines[int(reported.split(":")[0]) - 1][:4096]
        yield by_script(lines, 1, out, f"cicsedf: line {reported}\n{line}\n".encode(), is_of_cicslook=True)
    source = ["SOURCE P", "P        CSECT", "         LR    1,R\u00e9", "         END", "/*"]
    for lines, out, reported in [
        (["* first", "HELLO\tYOU [1]"], b"", "2: BadLine\nHELLO.YOU .1."),
        (["TERMINAL T001", "STORAGE\r"], DONE + storage % 2, "2: BadLook\nSTORAGE"),
        (source, b"", "3: BadCharacter\n         LR    1,R.."),
        (["*", *source[:-2], "/*"], b"", "4: BadCharacter\n         LR    1,R.."),
        ([*source[:2], "/*"], b"", "3: NoEnd\n/*"),
        (["TERMINAL T001", *source[:2]], DONE, "2: BadLine\nSOURCE P"),
    ]:
        yield by_script(lines, 1, out, f"cicsedf: line {reported}\n".encode(), is_of_cicslook=True)
    unended = Ended(1, b"", b"cicsedf: line 2: BadLine\nHELLO.\n")
    yield Trial(unended, [], given=b"*\r\nHELLO\r", is_of_cicslook=True)
    none = ["tasks", "Faults p", "P        CSECT", "         END", "/*"]
    yield by_script(none, 0, b"> TASKS NONE\n> FAULTS P NONE\n", b"", is_of_cicslook=True)


def late_lines() -> Iterator[Trial]:
    """1: of `cicslook`, the bad line is shown too where it is the last of a script that is as long as may be."""
    script = b"\n" * 16_777_210 + b"HELLO\n"
    shown = Ended(1, b"", b"cicsedf: line 16777211: BadLine\nHELLO\n")
    yield Trial(shown, ["late.script"], {"late.script": script}, is_of_cicslook=True)


def words() -> Iterator[Trial]:
    """2: words that are not at most one file; nothing is written, so standard input is not read for them."""
    two = [[ONE, ONE], ["-", ONE], [ONE, ""], ["--", "--"], ["--", "-"]]
    options = [given for option in OPTIONS for given in ([option], [option, ONE], [ONE, option])]
    yield from (Trial(Ended(2, b"", USAGE), given) for given in two + options)
    yield Trial(Ended(2, b"", USAGE), [b"\xff"])


def texts() -> Iterator[Trial]:
    """Of `cicslook`, 0: a word alone that asks for a text, for which standard input is not read; 2 with another word; 3: it can't be written."""
    told = f"cicslook {version()}\n".encode()
    for option, text in (("--help", HELP), ("-h", HELP), ("--version", told), ("-V", told)):
        yield Trial(Ended(0, text, b""), [option], is_of_cicslook=True)
        yield Trial(Ended(3, b"", b"cicsedf: write\n"), [option], is_of_cicslook=True, line='exec "$@" > /dev/full')
        for given in ([option, ONE], [ONE, option], [option, option], ["--", option], [f"{option}=1"]):
            yield Trial(Ended(2, b"", LOOK_USAGE), given, is_of_cicslook=True)


def devices() -> Iterator[Trial]:
    """3: a file that isn't there is not taken for standard input; a directory can't be read; a device is full."""
    for file in ("none.script", "-", "", os.curdir):
        yield Trial(Ended(3, b"", b"cicsedf: read\n"), [file])
    yield Trial(Ended(3, b"", b"cicsedf: write\n"), [ONE], line='exec "$@" > /dev/full')
    yield Trial(Ended(0, b"", b""), ["long.script"], {"long.script": b"\n" * 16_777_216})
    yield Trial(Ended(3, DONE, b"cicsedf: too much input\n"), ["long.script"], {"long.script": b"TERMINAL T001\n" + b"\n" * 16_777_203})


def memory_refused(program: str) -> Counts:
    """4: an address space in which the program starts, and a region with 31 large programs does not fit."""
    zeros = "\n".join(["0" * 4096] * 32)
    script = "".join(f"IMAGE P{k} 80\n{zeros}\n/*\n" for k in range(1, 32)).encode()
    lines = [f"PROGRAM P{k} AT {k << 16:06X} LENGTH 010000\n".encode() for k in range(1, 32)]
    for limit in WITHIN:
        ended = ended_in(program, Trial(Ended(0, b"", b""), ["large.script"], {"large.script": script}, line=f'ulimit -v {limit} && exec "$@"'))
        if not ended.is_well():
            after = ended.out.count(b"\n")
            require(ended == Ended(4, b"".join(lines[:after]), b"cicsedf: memory\n"), f"in {limit} KiB, after {after} programs: {ended}")
            return Counter({"of status 4": 1})
    raise Wrong(f"it runs in {WITHIN[-1]} KiB")


def main(given: list[str]) -> int:
    check = Check(__name__, __doc__, given, "cicsedf", "cicslook")
    trials = [trial for part in (done, bad_lines, bad_sources, bad_looks, late_lines, words, texts, devices) for trial in part()]
    cases = [Case(trial.name(number), partial(tried, check.program(int(trial.is_of_cicslook)), trial)) for number, trial in enumerate(trials, 1)]
    cases.append(Case("large programs in little memory", partial(memory_refused, check.program())))
    return check.report(cases, {f"of status {status}": 1 for status in range(5)})
