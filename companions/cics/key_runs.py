"""A run by keys, without a script: programs, one terminal, and keys, each pressed and run to rest."""
import json
import re
from collections.abc import Callable, Iterator
from dataclasses import dataclass, field

from cics.assembler_files import Source, encoded, run_script
from cics.cli import DONE, FOUND, MISUSED, Failure, ended, say, write_out
from cics.exact.routines import HEADING, routine_names
from cics.faults import all_faults_of
from cics.key_names import AIDS
from cics.looks import StatementRun, place_in
from cics.origins import Origins
from cics.queues import TERMINAL, Loader, given_of, loaders_of
from cics.scripts import MOST_TURNS
from cics.stand_in.abends import request_line
from cics.texts import CODED, is_name
from cics.transcripts import LOOK, is_of_page, of_look, reply_of, rows_of

KEY_NAME = re.compile(r"(?:PF|PA)\d+")
MOST_TEXT = 1920  # characters of a key
AT = "T001"
TERMINALS = [f"T{number:03}" for number in range(1, 17)]  # of a set-up for terminals
MOST_INSTRUCTIONS = 65_536  # of a turn
LINES_OF_KEY = 3  # in a script: the key, RUN, and SCREEN
ENDS = ("Ended", "Waiting")


@dataclass(frozen=True)
class Transaction:
    name: str
    program: str


def transactions_of(words: list[str], programs: list[str]) -> list[Transaction]:
    """Those that are given, as BAL=BALINQ, and for each other program one of its name, of the first four characters of it."""
    found = []
    for word in words:
        name, _, program = word.partition("=")
        if not is_name(name) or len(name) > 4 or program not in programs:
            raise Failure(f"--tran {word}: write: --tran NAME=PROGRAM, the name of 1 to 4 characters, the program one of "
                          f"{', '.join(programs)}", MISUSED)
        found.append(Transaction(name, program))
    for program in programs:
        if all(program != one.program for one in found):
            found.append(Transaction(program[:4], program))
    names = [one.name for one in found]
    for name in names:
        if names.count(name) > 1:
            raise Failure(f"two transactions of the name {name}; write: --tran NAME=PROGRAM for one of them", MISUSED)
    return found


def key_of(word: str, *, is_mixed: bool = False) -> str:
    """A key as a script's line has it after the terminal: ENTER with the text, or the key that is the first word. The text is in capitals,
    as CICS makes it, unless it may be mixed."""
    first, blank, rest = word.partition(" ")
    if KEY_NAME.fullmatch(first.upper()) and first.upper() not in AIDS:
        raise Failure(f"--key '{word}': no key is {first.upper()}; write ENTER, CLEAR, PA1, PA2 or PF1 to PF12, or --key 'ENTER {word}' for a text", MISUSED)
    aid, text = (first.upper(), rest) if first.upper() in AIDS else ("ENTER", word)
    uncoded = next((character for character in text if character not in CODED), None)
    if uncoded is not None:
        raise Failure(f"--key {word!r}: {uncoded!r} has no code, so no key gives it", MISUSED)
    if len(text) > MOST_TEXT:
        raise Failure(f"--key '{word[:20]}..': more than {MOST_TEXT} characters", MISUSED)
    text = text if is_mixed else text.upper()
    return f"{aid} {text}" if text else aid


def loading_lines(loaders: list[Loader], terminal: str) -> list[str]:
    """Lines that load test data, at a terminal."""
    lines = []
    for loader in loaders:
        lines += [f"SOURCE {loader.name}", *loader.lines, "/*", f"TRANSACTION {loader.transaction} {loader.name}",
                  f"KEY {terminal} ENTER {loader.transaction}", f"RUN {terminal} {min(loader.turns, MOST_TURNS)}"]
    return lines


def script_of(sources: list[Source], transactions: list[Transaction], loaders: list[Loader], keys: list[str]) -> list[str]:
    """A script of cicslook that does it all; without keys a set-up for terminals, at the first of which test data is loaded."""
    lines = [line for source in sources for line in source.block("SOURCE")]
    lines += [f"TRANSACTION {one.name} {one.program}" for one in transactions]
    lines += [f"TERMINAL {name}" for name in ([AT] if keys else TERMINALS)]
    lines += [f"TERMINAL {TERMINAL}"] if loaders and keys else []
    lines += loading_lines(loaders, TERMINAL if keys else AT)
    for key in keys:
        lines += [f"KEY {AT} {key}", f"RUN {AT} {MOST_TURNS}", f"SCREEN {AT}"]
    return lines


def faultless(sources: list[Source], cicslook: str, origins: Origins = Origins()) -> bool:
    """Whether sources are faultless, and are taken as programs; their faults are told."""
    faults = [fault.of(origins) for fault in all_faults_of(sources, cicslook) if not fault.is_note()]
    for fault in faults:
        ended(str(fault), FOUND)
    return not faults


def loaders_for(words: list[str], cicslook: str) -> list[Loader]:
    """The programs that load test data. An item that isn't as the assembler has constants is a failure, told by its line."""
    loaders = loaders_of(given_of(words))
    for loader in loaders:
        for fault in all_faults_of([Source(loader.name, 0, loader.lines, loader.name)], cicslook):
            if not fault.is_note():
                raise Failure(f"{loader.place(fault.line)}: {fault.kind}{f': {fault.text}' if fault.text else ''}")
    return loaders


@dataclass
class Pressed:
    """What came of a key: its answer, the answer to the last turn, and the lines of the screen."""

    line: str
    answer: str
    last: str = ""
    screen: list[str] = field(default_factory=list)

    def is_well(self) -> bool:
        """Whether the task has come to rest without an abend."""
        return self.answer in ("Attached", "Given") and self.last in ENDS

    def lines(self) -> list[str]:
        return [self.line, *([] if self.last == "Ended" else [f"{AT} {self.explained()}"]), *self.screen]

    def as_object(self, cause: list[str]) -> dict[str, object]:
        """The same as an object: the key, its answer, the answer to the last turn, and a row of the screen for each of its lines."""
        return {"key": self.line.split(" ", 2)[2], "answer": self.answer, "end": self.last, "screen": rows_of(["", *self.screen]), "cause": cause,
                "well": self.is_well()}

    def explained(self) -> str:
        if self.answer == "NoSuchTransaction":
            return "NoSuchTransaction: the text begins with the name of none; write: --tran NAME=PROGRAM for the name that is typed"
        return self.last if self.answer in ("Attached", "Given") else self.answer


def pressed_in(transcript: list[str], keys: list[str]) -> list[Pressed]:
    """What came of each key, by the transcript. What a terminal for test data did is a failure, unless all went well."""
    found: list[Pressed] = []
    for line in transcript:
        if " REFUSED " in line or line.startswith((f"TURN {TERMINAL} Abended", f"TURN {TERMINAL} Waiting")):
            raise Failure(line)
        if line.startswith(f"KEY {AT} "):
            found.append(Pressed(f"KEY {AT} {keys[len(found)]}", reply_of(line)))
        elif line.startswith(f"TURN {AT} ") and found:
            found[-1].last = line.split(" ", 2)[2]
        elif line.startswith(f"> RUN {AT} "):
            found[-1].last = f"is still running after {MOST_TURNS} turns"
        elif is_of_page(line) and found:
            found[-1].screen.append(line)
    return found


def fields_in(lines: list[str]) -> list[str]:
    """The program's own fields, of what ABEND FIELDS writes: all but those of CICS; where it has none, what it says of them."""
    return [line for line in lines[1:] if not line.startswith("FIELD ") or not line.split(" ")[2].startswith("'DFHEI")]


def cause_of(until: list[str], cicslook: str, *, with_fields: bool) -> list[str]:
    """Why the task of a script's last line abended, a RUN; where they are asked for with its fields, as they were then."""
    def looked(script: list[str]) -> list[str]:
        return of_look([line for line in run_script(script, cicslook) if line.startswith(LOOK)])

    lines = looked([*until, f"ABEND {AT}"])
    lines += request_line(lines, until, AT, looked)
    lines += routine_line(lines, until, looked)
    return lines + (fields_in(looked([*until, f"ABEND {AT} FIELDS"])) if with_fields else [])


def routine_line(cause: list[str], until: list[str], looked: Callable[[list[str]], list[str]]) -> list[str]:
    """Of a task that ran too long what routines that cics-adapt wrote its last turn went into, where that is most of it."""
    place = place_in(cause)
    if place is None or not any(line.startswith(f"ABEND {AT} AICA") for line in cause) or HEADING not in until:
        return []
    counted = looked([*until[:-1], f"{until[-1]} BEFORE ABEND", "COVER ON", f"RUN {AT} 1", f"COVERED {place[0]} LINES"])
    block = source_of(until, place[0])
    begin = block.index(HEADING) if HEADING in block else len(block)
    inside = [(row.runs, (row.text or "").split(" ")[0]) for row in StatementRun.all_in(counted) if row.line > begin]
    if 2 * sum(count for count, _ in inside) < MOST_INSTRUCTIONS:
        return []
    called = [f"{name}, {count} times" for count, name in inside if name in routine_names()]
    return [f"the turn's 65,536 instructions went into {' and '.join(called)}"] if called else []


def source_of(script: list[str], program: str) -> list[str]:
    """The lines of a program's source in a script."""
    begin = script.index(f"SOURCE {program}") + 1 if f"SOURCE {program}" in script else len(script)
    return script[begin : script.index("/*", begin)] if begin < len(script) else []


def led_back(cause: list[str], origins: Origins) -> list[str]:
    """The lines of a cause, those of the program that is known led back to the old source."""
    place = place_in(cause)
    is_own = place is None or origins.program in ("", place[0])
    named = [line.split(" ")[1] in (origins.program, "") if line.startswith("CALLER ") else is_own for line in cause]
    return [origins.led_back(line) if is_led else line for line, is_led in zip(cause, named)]


def each_shown(script: list[str], keys: list[str], cicslook: str, origins: Origins, *, with_fields: bool) -> Iterator[tuple[Pressed, list[str]]]:
    """Runs a script, and gives what came of each key; of an abend also its cause."""
    for number, pressed in enumerate(pressed_in(run_script(script, cicslook), keys)):
        until = script[: len(script) - LINES_OF_KEY * (len(keys) - number - 1) - 1]
        has_abended = pressed.last.startswith("Abended")
        cause = cause_of(until, cicslook, with_fields=with_fields) if has_abended else []
        yield pressed, led_back(cause, origins)


def show(script: list[str], keys: list[str], cicslook: str, origins: Origins, *, with_fields: bool, as_json: bool = False,
         cover: dict[str, object] | None = None) -> int:
    """Runs a script, and writes what came of each key, as lines, or all as a list of objects; with what was run, as an object of both."""
    status, objects = DONE, list[dict[str, object]]()
    for pressed, cause in each_shown(script, keys, cicslook, origins, with_fields=with_fields):
        status = status if pressed.is_well() else FOUND
        if as_json:
            objects.append(pressed.as_object(cause))
        else:
            write_out(encoded([*pressed.lines(), *cause]))
    if as_json:
        say(json.dumps(objects if cover is None else {"keys": objects, "cover": cover}, indent=1))
    return status
