"""Programs that have instructions in contexts, each with its twin, and what comes of the two: of the one as cics-adapt writes it, of the other as
it is."""
import re
from collections import Counter
from collections.abc import Iterable
from concurrent.futures import ThreadPoolExecutor
from dataclasses import dataclass, replace
from enum import Enum

from cics.adapting import adapted
from cics.assembler_files import encoded
from cics.child import run
from cics.sources import SourceText
from tests.case import CICSLOOK
from tests.exact.contexts import ABSENT, ABSENT_BYTE, BARE, BY_REGISTER, CLEAR, FREE, LINKING, Context, all_contexts, laid_out
from tests.exact.drawing import Draw
from tests.exact.twins import LENGTHS, Twin, twin_of

AT_ONCE = 15  # programs of a script, each with a terminal of its own
TURNS = 400
ALWAYS_HIDDEN = {2, 3, 10, 11, 13}  # registers of twins, and bases
HEAD = ["P        CSECT", "         MVI   W9,X'40'", "         MVI   PACKED+7,X'5C'"]
END = """         B     DONE
SUBR     MVI   TRACE+15,C'S'
         BR    8
DONE     DS    0H""".split("\n")
SHOWN = """         STM   0,15,REGS
         BALR  2,0
         STCM  2,8,CODE""".split("\n")
STORAGE = """         LTORG
PEND     DS    0H
DFHEISTG DSECT
REGS     DS    16F
CODE     DS    X
TRACE    DS    XL16
W1       DS    XL32
W2       DS    XL32
KEPT     DS    XL96
W3       DS    XL32
W4       DS    XL32
W9       DS    XL8
OTHER    DS    F
SAVE     DS    D
PACKED   DS    D
COPY     DS    D
BAD      DS    X
         DS    D""".replace("W1       DS    XL32", "         DS    0D\nW1       DS    XL32").split("\n")
SHOWN_LENGTH = 64 + 24 + 32 + 32 + 96  # from REGS to the end of KEPT
FIRST_KEPT, KEPT_WORDS = (64 + 24 + 32 + 32) // 4, 12  # where the registers 4 to 9 of the first part are kept, and how many words a part has
SEGMENT = re.compile(r"^PROGRAM (P\d+) (.*)$")
REGISTER = re.compile(r"^> R\d\d")
ROW = re.compile(r"^> ([0-9A-F]{4}) ((?:[0-9A-F]{8} ?)+)")
PLACES = ("> NEXT", "> EXIT", "> R14 ")  # lines that say where something is


class Outcome(Enum):
    TOLD = "told"  # something is left, or told as not shown to be exact
    SAME = "same"
    DIFFERS = "differs"


@dataclass(frozen=True)
class Part:
    context: Context
    twin: Twin


@dataclass(frozen=True)
class Pair:
    """A program with one context or several, and its twin."""

    number: int
    parts: list[Part]

    def name(self) -> str:
        return f"{self.number} " + " + ".join(f"{part.context.name()} [{part.twin.old} / {part.twin.native}]" for part in self.parts)

    def lines(self, *, is_native: bool) -> list[str]:
        body, workers, behind = list[str](), list[str](), list[str]()
        for at, part in enumerate(self.parts):
            letter = "XYZ"[at]
            statement = (part.twin.native if is_native else part.twin.old).replace("#", letter)
            body += laid_out(part.context.lines, letter, part.twin, statement)
            behind += laid_out(part.context.behind, letter, part.twin, statement)
            workers += [f"{letter + 'WORK':<8} DS    0H", *part.twin.worker] if part.twin.worker else []
            if at < len(self.parts) - 1:
                body += [f"         STM   4,9,KEPT+{48 * at}", f"         MVC   KEPT+{48 * at + 24}(24),W1"]
        return [*HEAD, *body, *END[:-1], *workers, *self.end(), *STORAGE, *behind, "         END"]

    def end(self) -> list[str]:
        """What shows registers, condition code and storage."""
        is_code_same = all(part.twin.is_code_same for part in self.parts)
        screen = ["         EXEC  CICS SEND TEXT FROM(TRACE) LENGTH(=H'16') ERASE"] if len(self.parts) > 1 else []
        commands = [f"         EXEC  CICS WRITEQ TS QUEUE('Q{self.number}') FROM(REGS) LENGTH(=H'{SHOWN_LENGTH}')", *screen, "         EXEC  CICS RETURN"]
        return [END[-1], *([] if is_code_same else ["         CR    0,0"]), *SHOWN, *commands]

    def hidden(self) -> set[int]:
        """The words from REGS on that aren't compared: registers at the end, and those that were kept behind a part."""
        of_parts = [ALWAYS_HIDDEN | part.context.hidden | part.twin.hidden for part in self.parts]
        kept = {FIRST_KEPT + KEPT_WORDS * at + one - 4 for at, hidden in enumerate(of_parts) for one in hidden if 4 <= one <= 9}
        return kept.union(*of_parts)


def clearing(words: list[str]) -> Twin:
    """MVCL that clears so many bytes, from register 4 on."""
    length = int(words[0])
    after = [f"         LA    4,{length}(,4)", "         SR    5,5", "         CLI   W9,X'3F'"]
    return Twin("MVCL 4,8", "BALR 2,10", 2, [], [f"         XC    0({length},4),0(4)", *after, "         BR    2"])


def absent(name: str) -> Twin:
    old, native = ABSENT[name]
    return Twin(old, native, LENGTHS[old.split()[0]], [])


def by_register(register: int, draw: Draw) -> Twin:
    """An instruction whose operand W1 is addressed by a register."""
    while True:
        twin = twin_of(draw.of([one for one, length in LENGTHS.items() if length > 2]), draw)
        if "W1" in twin.old and "W1" in twin.native:
            old, native = (re.sub(r"\bW1\b", f"0({register})", re.sub(r"\bW1\((\d+)\)", rf"0(\1,{register})", text)) for text in (twin.old, twin.native))
            return replace(twin, old=old, native=native)




def fits(context: Context, twin: Twin) -> bool:
    """Whether an instruction may stand in a context."""
    operation = twin.operation()
    if context.needs_code and not twin.is_code_same:
        return False
    if context.wants in (FREE, BARE) and (operation in LINKING or "=" in twin.old):
        return False
    return context.wants != BARE or not twin.worker and operation != "BASR"


def drawn(context: Context, draw: Draw) -> Twin:
    kind, _, rest = context.wants.partition(" ")
    if kind == CLEAR:
        return clearing([rest])
    if kind == ABSENT_BYTE:
        return absent(rest)
    if kind == BY_REGISTER:
        return by_register(int(rest), draw)
    operations = context.operations()
    while True:
        twin = twin_of(draw.of(operations), draw)
        if fits(context, twin):
            return twin


def all_pairs(most_together: int = 40, name: str = "pairs") -> list[Pair]:
    """Each context with an instruction, and programs of two contexts; others, by another name."""
    draw = Draw(name)
    contexts = all_contexts(name)
    found = [Pair(number, [Part(context, drawn(context, draw))]) for number, context in enumerate(contexts)]
    joined = [one for one in contexts if not one.behind and one.kind not in ("a long program", "an interruption", "storage that is cleared")]
    for number in range(len(found), len(found) + most_together):
        found.append(Pair(number, [Part(one, drawn(one, draw)) for one in (draw.of(joined), draw.of(joined))]))
    return found


# ---- what comes of them


@dataclass(frozen=True)
class Found:
    pair: Pair
    outcome: Outcome
    native: list[str]
    told: list[str]  # what cics-adapt told, or what came of what it wrote

    def has_run(self) -> bool:
        """Whether the twin ran to an end that was meant."""
        return any(line.endswith((" Ended", " Abended ASRA")) for line in self.native)


def script_of(sources: Iterable[tuple[int, list[str]]]) -> bytes:
    lines: list[str] = []
    for number, source in sources:
        name, terminal = f"P{number}", f"T{number}"
        lines += [f"SOURCE {name}", *source, "/*", f"TRANSACTION {terminal} {name}", f"TERMINAL {terminal}", f"KEY {terminal} ENTER {terminal}",
                  f"RUN {terminal} {TURNS}", f"SCREEN {terminal}", f"ABEND {terminal}", f"QUEUE Q{number} 1"]
    return encoded(lines)


def outcomes(sources: list[tuple[int, list[str]]]) -> dict[int, list[str]]:
    """What is shown of each program, which are done in one script; where one is faulty, those behind it in another."""
    found: dict[int, list[str]] = {}
    rest = sources
    while rest:
        ended = run([CICSLOOK], script_of(rest))
        segment: list[str] = []
        for line in ended.lines():
            start = SEGMENT.match(line)
            if start:
                segment = [start[2]]
                found[int(start[1][1:])] = segment
            else:
                segment.append(line)
        rest = [one for one in rest if one[0] not in found]
        if rest:
            found[rest[0][0]] = ["faulty", ended.reported.decode("latin-1").strip()]
            rest = rest[1:]
    return found


def compared(segment: list[str], hidden: set[int]) -> list[str]:
    """What is compared: all but some registers, and places in the program, which stands elsewhere."""
    words = segment[0].split()
    if len(words) != 4:
        return segment
    first, length = int(words[1], 16), int(words[3], 16)
    found = []
    for line in segment[1:]:
        if line.startswith(PLACES):
            continue
        line = re.sub(r" (TASK|LINE) \d+", "", line)
        if REGISTER.match(line):
            line = " ".join("PLACE" if len(word) == 8 and first <= int(word, 16) % 2**24 < first + length else word for word in line.split())
        row = ROW.match(line)
        if row is not None:
            at = int(row[1], 16) // 4
            words = ["HIDDEN" if at + count in hidden else word for count, word in enumerate(row[2].split())]
            line = " ".join(f"P+{int(word, 16) - first:06X}" if word[:2] == "00" and first <= int(word, 16) < first + length else word for word in words)
        found.append(line)
    return found


def results(pairs: list[Pair]) -> list[Found]:
    """What comes of each pair."""
    told: dict[int, list[str]] = {}
    new: list[tuple[int, list[str]]] = []
    for pair in pairs:
        result = adapted(SourceText(pair.lines(is_native=False)), "P.asm", [])
        if result.log.has_left():
            told[pair.number] = [line for line in result.log.lines() if ": changed: " not in line or "not shown" in line]
        else:
            new.append((pair.number, result.lines()))
    native = [(pair.number, pair.lines(is_native=True)) for pair in pairs]
    batches = [several[at : at + AT_ONCE] for several in (native, new) for at in range(0, len(several), AT_ONCE)]
    with ThreadPoolExecutor(2) as pool:
        made = list(pool.map(outcomes, batches))
    count = (len(native) + AT_ONCE - 1) // AT_ONCE
    due, got = ({number: lines for batch in several for number, lines in batch.items()} for several in (made[:count], made[count:]))
    return [found_of(pair, due[pair.number], told.get(pair.number), got.get(pair.number, [])) for pair in pairs]


def found_of(pair: Pair, native: list[str], told: list[str] | None, new: list[str]) -> Found:
    due = compared(native, pair.hidden())
    if told is not None:
        return Found(pair, Outcome.TOLD, due, told)
    got = compared(new, pair.hidden())
    return Found(pair, Outcome.SAME if due == got else Outcome.DIFFERS, due, got)


def counts(found: list[Found]) -> Counter[Outcome]:
    return Counter(one.outcome for one in found)
