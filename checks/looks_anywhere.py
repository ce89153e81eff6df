"""Puts looks at each place between the lines of each example, and of 600 with changed images, and sees that the rest stays. Examples are as
`cicsedf` runs them. A fixed draw changes the images of examples of fewer than 250 lines, since longer ones take a hundred times as long.
Without the looks' lines the transcript must be the example's, of a changed one that which `cicsedf` writes of the script without looks, and
the end the same; a fault is reported of the same line, which has another number, and then the line is shown."""
import random
import re
from collections import Counter
from collections.abc import Iterator
from functools import partial

from cics.child import Ended, run
from checks.common import DRAWN_BY, Case, Check, Counts, require
from checks.examples import FAULT, blocks_of, examples, lessons, lines_of_script, plain, text_of

CHANGED, TURNS = 600, 20
SELDOM = 25  # one place in so many has the looks that take long where storage is full, or write much
STATES, FEW = 300, 10  # of ORDERS; where images are changed a turn may be a loop of as many instructions as a turn has
MUCH = "queue-of-34-items"  # examples of which a state has a megabyte of queues: of them ORDERS has few states too
# Scripts of so many lines fill storage or queues, where a state takes some tenths of a second, and a turn some hundredths: their images aren't
# changed, they have no ORDERS, and the other looks that take long a quarter as often.
LONG, FOUR = 250, 4
PLACES = [0x000FF0, 0x001000, 0x010000, 0x1FFFF0, 0x200000, 0x200060, 0xFFFFF0]  # near areas, and where addresses wrap
NAME = re.compile(r"(?<![A-Z0-9@#$])[A-Z0-9@#$]{1,8}(?![A-Z0-9@#$])")


def drawn(draw: random.Random, terminals: list[str], names: list[str], states: int) -> list[str]:
    """The lines of looks, one of each kind in an order that is drawn; AHEAD, WHERE, an abend's storage and ORDERS at some places alone."""
    terminal, name = draw.choice(terminals), draw.choice(names)
    digits = "".join(f"{byte:02X}" for byte in name.ljust(8).encode("cp037"))
    kinds = ["QUEUES", f"QUEUE {name}", f"QUEUE {digits}", f"QUEUE {name} {draw.randint(1, 3)}", "PROGRAMS", "TASKS", "RESOURCES"]
    kinds += [f"COMMAND {terminal}", f"ABEND {terminal}"]
    place, count = draw.choice(PLACES) + draw.randrange(64), draw.choice([1, 16, 100, 300])
    kinds += ["AREAS", f"AREAS {terminal}", f"TASK {terminal}", f"STORAGE {place % 2**24:06X} {count}"]
    kinds += ["TERMINALS", "HELP", "HELP XREF", f"FIELD {terminal} {name}", f"FIELDS {terminal} {draw.randint(1, 3)}"]
    seldom = [f"AHEAD {terminal}{draw.choice(['', ' 1', ' 256'])}", f"AHEAD {terminal} AT {name} {draw.randint(1, 40)}"]
    seldom += [f"AHEAD {terminal}{draw.choice(['', ' FIELDS'])} AFTER {draw.randint(1, 40)}"]
    seldom += ["COVERED", f"COVERED {name}", f"COVERED {name} LINES"]
    seldom += [f"WHERE {place % 2**24:06X}", f"ABEND {terminal} STORAGE", f"ABEND {terminal} FIELDS"]
    if states:
        seldom.append(f"ORDERS {states}\nKEY {terminal} ENTER {draw.choice(names)[:4]}\nSCREEN {terminal}\nQUEUES\n/*")
    kinds += seldom if draw.randrange(SELDOM if states else SELDOM * FOUR) == 0 else []
    kinds += [f"WATCH {place % 2**24:06X} {draw.randint(1, 64)}", f"WATCH {terminal} {name}"]
    kinds += ["WATCH OFF"] * (draw.randrange(4) == 0) + [f"COVER {draw.choice(['ON', 'ON', 'OFF'])}"]
    kinds += [f"SYMBOL {draw.choice(names)} {name}", f"SYMBOLS {name}", f"XREF {name}"]
    load, last = f"         L     4,{draw.choice(names)}", f"         {draw.choice(['END', 'LTORG'])}"
    kinds.append(f"FAULTS {name}\n{name[:7]:8} CSECT\n{load}\n{last}\n/*")
    return [line for look in draw.sample(kinds, len(kinds)) for line in look.split("\n")]


def with_looks(draw: random.Random, lines: list[str], most: int) -> tuple[list[str], list[int]]:
    """A script's lines with looks in front of each that isn't inside a block, and after all; and the number that each has then."""
    text = "\n".join(lines)
    terminals = sorted({*re.findall(r"^(?:TERMINAL|TURN) (\S{1,4})$", text, re.M), "T001"})
    names = sorted({*NAME.findall(text)}) or ["JOBS"]
    script: list[str] = []
    numbers: list[int] = []
    states, blocks = most if len(lines) < LONG else 0, blocks_of(lines)
    for block in blocks:
        script += drawn(draw, terminals, names, states)
        numbers += range(len(script) + 1, len(script) + len(block) + 1)
        script += block
    is_ended = not blocks[-1][0].startswith(("IMAGE ", "SOURCE ")) or blocks[-1][-1] == "/*"
    return script + (drawn(draw, terminals, names, states) if is_ended else []), numbers


def without_looks(out: bytes) -> tuple[bytes, int]:
    """A transcript without looks' lines, and how many these are."""
    lines = out.split(b"\n")
    others = [line for line in lines if not line.startswith(b"> ")]
    return b"\n".join(others), len(lines) - len(others)


def renumbered(reported: bytes, numbers: list[int], script: list[str]) -> bytes:
    """What is reported of a fault, with the line's number in the script with looks, and then the line."""
    fault = FAULT.fullmatch(reported)
    if not fault:
        return reported
    number = numbers[int(fault[2]) - 1]
    return b"%s%d%s%s\n" % (fault[1], number, fault[3], script[number - 1].encode())


def tried(cicslook: str, cicsedf: str, lines: list[str], script: list[str], numbers: list[int], due: Ended | None) -> Counts:
    """Looks in a script must change nothing of the rest, which is due, or what `cicsedf` has of the script without looks."""
    due = due or run([cicsedf], text_of(lines))
    ended = run([cicslook], text_of(script))
    out, count = without_looks(ended.out)
    rest = Ended(ended.status, out, ended.reported)
    require(rest == Ended(due.status, due.out, renumbered(due.reported, numbers, script)), f"it differs with looks: {rest}")
    return Counter({"lines of looks": count})


def digits_in(lines: list[str]) -> list[tuple[int, int]]:
    """Where a script's images have their digits: the lines, and the places in them."""
    found, is_inside = [], False
    for at, line in enumerate(lines):
        is_inside = line != "/*" and (is_inside or line.startswith("IMAGE "))
        if is_inside and not line.startswith("IMAGE "):
            found += [(at, place) for place in range(len(line))]
    return found


def changed(draw: random.Random, sources: list[list[str]]) -> list[str]:
    """The script of an example, of whose images some digits are changed, with more turns of its terminals."""
    lines, terminals = list(draw.choice(sources)), ["T001"]
    for at, place in draw.sample(digits_in(lines), draw.randint(1, 4)):
        lines[at] = lines[at][:place] + draw.choice("0123456789ABCDEF") + lines[at][place + 1 :]
    terminals += [line.split()[1] for line in lines if line.startswith("TERMINAL ")]
    return [*lines, *(f"TURN {draw.choice(terminals)}" for _ in range(TURNS))]


def scripts(draw: random.Random) -> Iterator[tuple[str, list[str], Ended | None]]:
    """Each script: its name, its lines, and how it must end, where that is written."""
    for name in [*examples(), *lessons()]:
        script, due = plain(name)
        yield name, lines_of_script(script), due
    plain_ones = [(lines_of_script(script), due) for script, due in map(plain, examples())]
    sources = [lines for lines, due in plain_ones if digits_in(lines) and due.is_well() and len(lines) < LONG]
    for number in range(1, CHANGED + 1):
        yield f"changed example {number}", changed(draw, sources), None


def cases(cicslook: str, cicsedf: str) -> Iterator[Case]:
    draw = random.Random(DRAWN_BY)
    for name, lines, due in scripts(draw):
        script, numbers = with_looks(draw, lines, FEW if due is None or name.endswith(MUCH) else STATES)
        yield Case(name, partial(tried, cicslook, cicsedf, lines, script, numbers, due))


def main(words: list[str]) -> int:
    check = Check(__name__, __doc__, words, "cicslook", "cicsedf")
    return check.report(cases(check.program(), check.program(1)), {"lines of looks": 1})
