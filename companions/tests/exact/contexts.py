"""Contexts in which an instruction stands, each of which depends on where something is, or on how long it is.

A context is a few lines. `@` stands for the instruction, `#` for a letter of the context's own, SETUP for what makes the instruction's operands,
PAD for another instruction of its length, and `<n+4>`, with n for its length, for a number. Each says what it did by bytes of TRACE, and ends
by running on to what comes behind. Registers 4, 5, 8 and 9 are the instruction's, 2 and 10 its twin's; the others are the context's."""
import re
from collections.abc import Callable
from dataclasses import dataclass

from tests.exact.drawing import Draw
from tests.exact.twins import LENGTHS, Twin

LENGTHY, OF_W1 = "@1", re.compile(r"W1\((\d+)\)")  # the instruction with a length of one, which EX makes longer
SUM = re.compile(r"<(-?\d*)n([+-]\d+)?>")
ANY, SIX, FOUR, TWO, BYTES = "any", "six", "four", "two", "bytes"
FREE, BARE = "free", "bare"  # instructions that need no base of the program; that need no base at all
CLEAR, ABSENT_BYTE, BY_REGISTER = "clear", "absent", "by"  # a word with more follows
BYTE_OPERATIONS = ("OC", "NC", "MVZ", "MVN")
LINKING = ("BAS", "BXH", "BXLE")  # those that need a base for their target
SHORT = ("LR AR SR BR BCR BCTR BALR LTR CR NOPR XR LCR".split())
LONG = ("MVC XC CLC".split())


@dataclass(frozen=True)
class Context:
    """`kind`: of what it is an example. `ways`: the variants that it was made of. `wants`: which instructions may stand there.
    `hidden`: registers that hold places when it ends, or nothing that is due. `behind`: lines for the program's end."""

    kind: str
    ways: str
    lines: str
    wants: str = ANY
    hidden: frozenset[int] = frozenset()
    behind: str = ""
    needs_code: bool = False  # the condition code is looked at, so the twin's must be the same

    def name(self) -> str:
        return f"{self.kind}: {self.ways}"

    def operations(self) -> list[str]:
        if self.wants == BYTES:
            return list(BYTE_OPERATIONS)
        length = {SIX: 6, FOUR: 4, TWO: 2, BARE: 2}.get(self.wants)
        return [one for one, its in LENGTHS.items() if length is None or its == length]


def size(lines: str) -> int:
    """How many bytes the instructions of some lines take."""
    operations = [line.split()[0] for line in lines.splitlines() if line[:1] == " "]
    return sum(2 if one in SHORT else 6 if one in LONG else 4 for one in operations)


def trace(*places: int) -> str:
    return "".join(f" MVI TRACE+{at},C'{'ABCDEFGHIJKLMNOP'[at]}'\n" for at in places)


def laid_out(text: str, letter: str, twin: Twin, statement: str) -> list[str]:
    """The lines of a context, in columns."""
    found: list[str] = []
    pad = {2: "LR 1,1", 4: "LA 1,1", 6: "MVC W9(1),W9"}[twin.length]
    for line in text.splitlines():
        if line.strip() == "SETUP":
            found += [one.replace("#", letter) for one in twin.setup]
        elif LENGTHY in line or "LENGTH-1" in line:
            length = OF_W1.search(statement)
            of_one = OF_W1.sub("W1(1)", statement)
            name, _, rest = line.replace("LENGTH", length[1] if length else "1").replace(LENGTHY, of_one).replace("#", letter).partition(" ")
            found.append(in_columns(name, rest))
        elif line.strip():
            full = SUM.sub(lambda it: str(int(it[1] or "1") * twin.length + int(it[2] or 0) if it[1] != "-" else int(it[2] or 0) - twin.length), line)
            name, _, rest = full.replace("PAD", pad).replace("@", statement).replace("#", letter).partition(" ")
            found.append(in_columns(name, rest))
    return found


def in_columns(name: str, rest: str) -> str:
    operation, _, operand = rest.strip().partition(" ")
    return f"{name:<8} {operation:<5} {operand.strip()}".rstrip()


# ---- ways to come to a place that is some bytes from the one in a register

Way = Callable[[int, str], str]  # the register, and the distance
WAYS: dict[str, Way] = {
    "B d(,r)": lambda r, d: f" B {d}(,{r})\n",
    "B d(r)": lambda r, d: f" B {d}({r})\n",
    "BC 15": lambda r, d: f" BC 15,{d}(0,{r})\n",
    "LA r": lambda r, d: f" LA {r},{d}(,{r})\n BR {r}\n",
    "LA of another": lambda r, d: f" LA 1,{d}(,{r})\n BR 1\n",
    "LA by index": lambda r, d: f" LA 1,{d}({r})\n BCR 15,1\n",
    "AH": lambda r, d: f" AH {r},=H'{d}'\n BR {r}\n",
    "A": lambda r, d: f" A {r},=F'{d}'\n BR {r}\n",
    "AR": lambda r, d: f" LA 1,{d}\n AR {r},1\n BR {r}\n",
    "B 0(i,r)": lambda r, d: f" LA 1,{d}\n B 0(1,{r})\n",
    "B 0(r,i)": lambda r, d: f" LA 1,{d}\n B 0({r},1)\n",
    "LR": lambda r, d: f" LR 7,{r}\n B {d}(,7)\n",
    "ST and L": lambda r, d: f" ST {r},SAVE\n L 7,SAVE\n B {d}(,7)\n",
    "SH": lambda r, d: f" SH {r},=H'-{d}'\n BR {r}\n",
    "BCTR": lambda r, d: f" LA 1,{d}(,{r})\n LA 1,1(,1)\n BCTR 1,0\n BR 1\n",
    "LR and LA": lambda r, d: f" LR 7,{r}\n LA 7,{d}(,7)\n BR 7\n",
    "STM and LM": lambda r, d: f" STM {r},{r},SAVE\n LM 7,7,SAVE\n B {d}(,7)\n",
    "a copy in storage": lambda r, d: f" ST {r},SAVE\n MVC OTHER,SAVE\n L 7,OTHER\n B {d}(,7)\n",
    "a part by index": lambda r, d: f" LA 1,{d}\n BCTR 1,0\n BCTR 1,0\n B 2(1,{r})\n",
    "LR and AR": lambda r, d: f" LR 7,{r}\n LA 1,{d}\n AR 7,1\n BR 7\n",
    "A of a field": lambda r, d: f" MVC OTHER,=F'{d}'\n A {r},OTHER\n BR {r}\n",
    "one by one": lambda r, d: f" LA 1,{d}\n#K LA {r},1(,{r})\n BCT 1,#K\n BR {r}\n",
    "ICM": lambda r, d: f" ST {r},SAVE\n ICM 7,15,SAVE\n B {d}(,7)\n",
    "BALR": lambda r, d: f" LA 1,{d}(,{r})\n BALR 7,1\n",
    "A of an address constant": lambda r, d: f" A {r},=A({d})\n BR {r}\n",
    "SR": lambda r, d: f" LA 1,{d}\n LCR 1,1\n SR {r},1\n BR {r}\n",
    "SLL": lambda r, d: f" LA 1,{d}(,{r})\n SLL 1,8\n SRL 1,8\n BR 1\n",
}
CHANGED = frozenset({0, 1, 6, 7, 12, 14, 15})


def skips(draw: Draw) -> list[Context]:
    """Routines that come back behind their call by a number of bytes, over the instruction or over the one in front of it."""
    links = {"BAL": " BAL 14,#SUB\n", "BALR": " LA 15,#SUB\n BALR 14,15\n", "BALR by a constant": " L 15,=A(#SUB)\n BALR 14,15\n"}
    between = {"it": ("<n>", "@", ""), "it and another": ("<n+4>", "@", trace(3)), "another and it": ("<n+4>", trace(3).rstrip("\n"), " @\n"),
               "a branch to the bad end and it": ("<n+4>", " B #BAD", " @\n")}
    found = []
    for way, written in WAYS.items():
        link, what = draw.of(list(links)), draw.of(list(between))
        distance, first, second = between[what]
        first = " @" if first == "@" else first
        register = draw.of((14, 14, 7, 6)) if link != "BALR" and way not in ("LR", "ST and L", "ICM", "BALR") else 14
        call = links[link].replace("14,", f"{register},", 1)
        text = f"SETUP\n{call}{first}\n{second}{trace(1)} B #END\n#BAD MVI TRACE+4,C'E'\n B #END\n#SUB MVI TRACE,C'A'\n{written(register, distance)}#END DS 0H\n"
        found.append(Context("a return that skips", f"{way}, over {what}, by {link} {register}", text, hidden=CHANGED))
    return found


def returns_that_run(draw: Draw) -> list[Context]:
    """The instruction is done, and then a place in front of it, or behind it, is met by a number of bytes from a link."""
    found = []
    for way in ("LA r", "AR", "AH", "B 0(i,r)", "LR", "ST and L"):
        written = WAYS[way](14, "<n+8>")
        text = f"SETUP\n BAL 14,#SUB\n B #ONE\n @\n{trace(1)} B #END\n#ONE MVI TRACE+5,C'F'\n B #END\n#SUB LTR 14,14\n{written}#END DS 0H\n"
        found.append(Context("a return that skips", f"{way}, behind it and another", text, hidden=CHANGED))
        back = f"SETUP\n SR 6,6\n#TOP @\n BAL 14,#SUB\n{trace(2)} B #END\n#SUB LTR 6,6\n BNZ #BACK\n LA 6,1\nSETUP\n SH 14,=H'<n+4>'\n BR 14\n"
        found.append(Context("a return that goes back", way, f"{back}#BACK {WAYS[way](14, '4')[1:]}#END DS 0H\n", hidden=CHANGED))
    unchanged = f"SETUP\n BAL 14,#SUB\n @\n{trace(1)} B #END\n#SUB MVI TRACE,C'A'\n BR 14\n#END DS 0H\n"
    found.append(Context("a return", "to the instruction", unchanged, hidden=CHANGED))
    inside = f" BAL 14,#SUB\n{trace(1)} B #END\n#SUB SETUP\n @\n BR 14\n#END DS 0H\n".replace("#SUB SETUP", "#SUB DS 0H\nSETUP")
    found.append(Context("a return", "behind the instruction in the routine", inside, hidden=CHANGED))
    saved = "SETUP\n LA 14,77\n LA 15,78\n LA 0,79\n LA 1,80\n LA 12,81\n LA 6,82\n LA 7,83\n @\n"
    found += [Context("registers in use", f"all of them, {number}", saved) for number in range(4)]
    return found


# ---- places from the location counter

BASES: dict[str, tuple[str, int]] = {  # what puts a place into register 6, and how many bytes behind it the instruction begins
    "LA 6,*": (" LA 6,*\n", 4),
    "BALR 6,0": (" BALR 6,0\n", 0),
    "BAL 6,*+4": (" BAL 6,*+4\n", 0),
    "BALR, then LR": (" BALR 7,0\n LR 6,7\n", 2),
    "BALR, then LA": (" BALR 7,0\n LA 6,4(,7)\n", 0),
    "a label's LA": ("#HERE LA 6,#HERE\n", 4),
    "LA of EQU *": ("#HERE EQU *\n LA 6,#HERE\n", 4),
    "L of a constant": (" L 6,=A(#HERE)\n#HERE LR 1,1\n", 2),
    "BALR and USING": (" BALR 6,0\n USING *,6\n DROP 6\n", 0),
    "BALR and another LA": (" BALR 6,0\n LA 1,5\n", 4),
    "LA 6,*-4": (" LR 1,1\n LR 1,1\n LA 6,*-4\n", 8),
    "DC A(*)": (" L 6,#CON\n B #HERE\n#CON DS 0F\n DC A(*)\n#HERE DS 0H\n", 4),
    "LA 6,*+2": (" LA 6,*+2\n", 2),
}


def location_counter(draw: Draw) -> list[Context]:
    found = []
    for base, (lines, behind) in BASES.items():
        for way in [draw.of(list(WAYS)) for _ in range(2)] + ["B d(,r)", draw.of(("LA of another", "LR", "AR"))]:
            room = size(WAYS[way](6, "0"))
            written = WAYS[way](6, f"<n+{behind + room + 4}>")
            text = f"SETUP\n{lines} @\n{written}{trace(1, 2)}"
            found.append(Context("a place from the location counter", f"{base}, {way}", text, hidden=CHANGED))
    return [*found, *stars()]


def stars() -> list[Context]:
    """Branches and constants by a number of bytes from their own place or a label."""
    rows = {
        "B *+d over it": f"SETUP\n B *+<n+4>\n @\n{trace(1)}",
        "B *+d behind it": f"SETUP\n @\n B *+8\n{trace(1, 2)}",
        "BNE *+d over it": f"SETUP\n CR 1,1\n BNE *+<n+4>\n @\n{trace(1)}",
        "BE *+d over it": f"SETUP\n CR 1,1\n BE *+<n+4>\n @\n{trace(1)}",
        "LA *+d over it": f"SETUP\n LA 6,*+<n+8>\n @\n BR 6\n{trace(1)}{trace(2)}".replace(" BR 6\n", " B #GO\n#GO LR 1,1\n"),
        "LA *+d, BR": f"SETUP\n LA 6,*+<n+10>\n @\n BR 6\n{trace(1, 2)}",
        "B of a label and a number": f"SETUP\n B #L+<n>\n#L @\n{trace(1)}",
        "B of EQU * and a number": f"SETUP\n B #L+<n>\n#L EQU *\n @\n{trace(1)}",
        "EQU *+d": f"SETUP\n#G EQU *+<n+4>\n B #G\n @\n{trace(1)}",
        "EQU of a label and a number": f"SETUP\n B #G\n#L @\n{trace(1)}#G EQU #L+<n>\n",
        "EQU of EQU": f"SETUP\n B #G\n#L @\n{trace(1)}#M EQU #L\n#G EQU #M+<n>\n",
        "a label behind less a number": f"SETUP\n B #E-4\n @\n{trace(1)}#E DS 0H\n",
        "A(label+d)": f"SETUP\n L 6,=A(#L+<n>)\n BR 6\n#L @\n{trace(1)}",
        "DC A(label+d)": f"SETUP\n L 6,#C\n BR 6\n#C DS 0F\n DC A(#L+<n>)\n#L @\n{trace(1)}",
        "BALR, LA, BR": f"SETUP\n BALR 6,0\n LA 7,<n+10>(,6)\n @\n BR 7\n{trace(1, 2)}",
        "BALR, LA behind, BR": f"SETUP\n BALR 6,0\n @\n LA 7,<n+10>(,6)\n BR 7\n{trace(1, 2)}",
        "BALR, LR, LA, BR": f"SETUP\n BALR 6,0\n LR 7,6\n @\n LA 7,<n+12>(,7)\n BR 7\n{trace(1, 2)}",
        "LA 6,* and LR": f"SETUP\n LA 6,*\n LR 7,6\n @\n B <n+14>(7)\n{trace(1, 2)}",
        "USING of the place": f"SETUP\n BALR 6,0\n#U EQU *\n USING #U,6\n @\n B #U+<n+8>\n{trace(1, 2)} DROP 6\n",
        "USING *-2": f"SETUP\n BALR 6,0\n BCTR 6,0\n BCTR 6,0\n USING *-6,6\n @\n B #E\n{trace(1)}#E MVI TRACE+2,C'C'\n DROP 6\n",
        "the base itself": f"SETUP\n @\n B #E-P(,3)\n{trace(1)}#E MVI TRACE+2,C'C'\n",
        "the base, by LA": f"SETUP\n LA 6,#E-P(,3)\n @\n BR 6\n{trace(1)}#E MVI TRACE+2,C'C'\n",
        "the base and an index": f"SETUP\n LA 6,#E-P\n @\n B 0(6,3)\n{trace(1)}#E MVI TRACE+2,C'C'\n",
        "BCT *-d": "SETUP\n LA 6,3\n LA 7,0\n LA 7,1(,7)\n @\n BCT 6,*-<n+4>\n" .replace(" @\n", " LA 1,2\n"),
        "a loop by BCT *-d": "SETUP\n LA 6,1\n LA 7,0\n LA 7,1(,7)\n @\n BCT 6,*-<n+4>\n",
        "an odd count": f"SETUP\n LA 6,*+<n+9>\n BCTR 6,0\n @\n BR 6\n{trace(1, 2)}",
        "DC AL2 of a difference": f"SETUP\n LH 6,#D\n B #L(6)\n#D DC AL2(#E-#L)\n#L @\n{trace(1)}#E MVI TRACE+2,C'C'\n",
        "DC H of the number": f"SETUP\n LH 6,#D\n B #L(6)\n#D DC H'<n+4>'\n#L @\n{trace(1)}#E MVI TRACE+2,C'C'\n",
    }
    return [Context("a place from the location counter", name, text, hidden=CHANGED) for name, text in rows.items()]


# ---- branch tables

TABLES: dict[str, str] = {  # with register 1 for the entry's offset, {k}
    "B TAB(i)": " B #TAB(1)\n",
    "B TAB-10(i)": " LA 1,10(,1)\n B #TAB-10(1)\n",
    "BC 15,TAB(i)": " BC 15,#TAB(1)\n",
    "LA, AR, BR": " LA 6,#TAB\n AR 6,1\n BR 6\n",
    "LA, B 0(i,r)": " LA 6,#TAB\n B 0(1,6)\n",
    "LA, B 0(r,i)": " LA 6,#TAB\n B 0(6,1)\n",
    "LA TAB(i), BR": " LA 6,#TAB(1)\n BR 6\n",
    "L =A(TAB), AR": " L 6,=A(#TAB)\n AR 6,1\n BR 6\n",
    "L =A(TAB), B 0(i,r)": " L 6,=A(#TAB)\n B 0(1,6)\n",
    "L =A(TAB), A": " ST 1,SAVE\n L 6,=A(#TAB)\n A 6,SAVE\n BR 6\n",
    "by the base": " B #TAB-P(1,3)\n",
    "by the base, AR": " AR 1,3\n B #TAB-P(,1)\n",
    "BALR, B d(i,r)": " BALR 6,0\n B 4(1,6)\n",
    "B *+4(i)": " B *+4(1)\n",
    "BALR to an entry": " LA 6,#TAB(1)\n BALR 7,6\n",
    "BAL to an entry": " BAL 7,#TAB(1)\n",
    "a constant of storage": " L 6,#TC\n AR 6,1\n BR 6\n#TC DS 0F\n DC A(#TAB)\n",
    "LA, LR, AR": " LA 6,#TAB\n LR 7,6\n AR 7,1\n BR 7\n",
    "LA TAB-2": " LA 6,#TAB-2\n B 2(1,6)\n",
    "LA of the table's end": " LA 6,#TABE\n LCR 7,1\n SR 6,7\n SH 6,=AL2(#TABE-#TAB)\n BR 6\n",
    "a name of EQU": " B #TX(1)\n",
}


def tables(draw: Draw) -> list[Context]:
    found = []
    for way, lines in TABLES.items():
        for number in range(3):
            entry = draw.of((1, 2)) if number else 2
            label = draw.of(("#TAB", "#TAB EQU *\n", "#TAB DS 0H\n"))
            names = draw.of((("", ""), ("#N1", "#N2"), ("#N1", "")))
            head = label if label.endswith("\n") else "#TAB DS 0H\n"
            rows = f"{head} PAD\n B #D0\n{names[0]} @\n B #D1\n{names[1]} PAD\n B #D2\n#TABE DS 0H\n#TX EQU #TAB\n"
            ends = "".join(f"#D{at} MVI TRACE+{at},C'{'ABC'[at]}'\n B #END\n" for at in range(3)) + "#END DS 0H\n"
            text = f"SETUP\n LA 1,<{entry}n+{4 * entry}>\n{lines}{rows}{ends}"
            found.append(Context("a branch table", f"{way}, entry {entry}, {label.strip()}, {'named' if names[0] else 'no names'}", text, hidden=CHANGED))
    for way in ("B TAB(i)", "LA, AR, BR", "B TAB-10(i)", "L =A(TAB), B 0(i,r)", "by the base", "B *+4(i)"):
        for entry in (1, 2):
            text = f"SETUP\n LA 1,{4 * entry}\n{TABLES[way]}#TAB B #D0\n @\n B #D2\n#D0 MVI TRACE,C'A'\n#D2 MVI TRACE+2,C'C'\n"
            found.append(Context("a branch table", f"{way}, the instruction is entry {entry}", text, wants=FOUR, hidden=CHANGED))
    return found


# ---- EX

TARGETS: dict[str, str] = {  # what executes the instruction at #L
    "a label": " EX 0,#L\n",
    "a label's displacement": " EX 0,#L-P(,3)\n",
    "LA": " LA 6,#L\n EX 0,0(,6)\n",
    "LA, as an index": " LA 6,#L\n EX 0,0(6)\n",
    "LA by displacement": " LA 6,#L-P(,3)\n EX 0,0(,6)\n",
    "LA less 20": " LA 6,#L-20\n EX 0,20(,6)\n",
    "L =A": " L 6,=A(#L)\n EX 0,0(,6)\n",
    "LA and LR": " LA 6,#L\n LR 7,6\n EX 0,0(,7)\n",
    "ST and L": " LA 6,#L\n ST 6,SAVE\n L 7,SAVE\n EX 0,0(,7)\n",
    "an address constant": " L 6,#AD\n EX 0,0(,6)\n B #AE\n#AD DS 0F\n DC A(#L)\n#AE DS 0H\n",
    "a list of addresses": " LA 1,4\n L 6,#AD(1)\n EX 0,0(,6)\n B #AE\n#AD DS 0F\n DC A(P),A(#L)\n#AE DS 0H\n",
    "an index": " LA 1,8\n EX 0,#L-8(1)\n",
    "a base and an index": " LA 6,#L-8\n LA 1,8\n EX 0,0(1,6)\n",
    "BALR": " BALR 6,0\n#BB EX 0,#L-#BB(,6)\n",
    "BALR and LA": " BALR 6,0\n#BB LA 7,#L-#BB(,6)\n EX 0,0(,7)\n",
    "a DSECT": " LA 6,#L\n USING #DS,6\n EX 0,#DF\n DROP 6\n",
    "BCTR": " LA 6,#L+1\n BCTR 6,0\n EX 0,0(,6)\n",
    "AR": " LA 6,#L-6\n LA 1,6\n AR 6,1\n EX 0,0(,6)\n",
    "USING of the place": " LA 6,#L\n USING #L,6\n EX 0,#L\n DROP 6\n",
    "two registers": " LA 6,#L\n LA 7,2(,6)\n BCTR 7,0\n BCTR 7,0\n EX 0,0(,7)\n",
    "LM of a list": " LM 6,7,#AD\n EX 0,0(,7)\n B #AE\n#AD DS 0F\n DC A(P),A(#L)\n#AE DS 0H\n",
    "A of a base": " LR 6,3\n A 6,=A(#L-P)\n EX 0,0(,6)\n",
}
LABELS: dict[str, str] = {  # how #L is defined
    "its own label": "#L @\n",
    "EQU * in front": "#L EQU *\n @\n",
    "DS 0H in front": "#L DS 0H\n @\n",
    "DS 0F in front": "#L DS 0F\n @\n",
    "EQU of its label": "#LX @\n#L EQU #LX\n",
    "EQU of EQU": "#LX DS 0H\n#LY EQU #LX\n#L EQU #LY\n @\n",
    "a label and 6": "#LX MVC W9(1),W9\n#L EQU #LX+6\n @\n",
    "* and 4": "#L EQU *+4\n LA 1,1\n @\n",
    "DC and DS 0H": "#LX DC X'4700'\n#L DS 0H\n @\n",
    "EQU behind": "#LX @\n#L EQU *-<n>\n",
}


def executed(draw: Draw) -> list[Context]:
    found = []
    chosen = [(target, draw.of(list(LABELS))) for target in TARGETS] + [(draw.of(list(TARGETS)), label) for label in LABELS]
    chosen += [("a label", label) for label in LABELS]
    chosen += [("a DSECT", label) for label in LABELS]
    for target, label in dict.fromkeys(chosen):
        text = f"SETUP\n{TARGETS[target]}{trace(1)} B #END\n{LABELS[label]}#END DS 0H\n"
        behind = "#DS DSECT\n#DF DS H\n" if target == "a DSECT" else ""
        found.append(Context("EX", f"{target}, {label}", text, hidden=CHANGED, behind=behind))
    rows = {
        "a label and 6": "SETUP\n EX 0,#L+6\n B #END\n#L MVC W9(1),W9\n @\n#END DS 0H\n",
        "a label behind less its length": "SETUP\n EX 0,#M-<n>\n B #M\n#L @\n#M DS 0H\n",
        "*+8": "SETUP\n EX 0,*+8\n B *+<n+4>\n @\n",
        "a table's entry": "SETUP\n LA 1,<2n>\n EX 0,#T(1)\n B #END\n#T PAD\n PAD\n @\n#END DS 0H\n",
        "a table's entry by SLL": "SETUP\n LA 1,1\n SLL 1,3\n EX 0,#T(1)\n B #END\n#T MVC W9(1),W9\n LR 1,1\n @\n#END DS 0H\n",
        "behind a BAL": f"SETUP\n BAL 6,#GO\n @\n#GO EX 0,0(,6)\n{trace(1)}",
        "behind a BAL, and more": f"SETUP\n BAL 6,#GO\n DC H'5'\n @\n#GO EX 0,2(,6)\n{trace(1)}",
        "what runs too": f"SETUP\n EX 0,#L\nSETUP\n B #L\n#L @\n{trace(1)}",
        "another by a register": "SETUP\n LA 6,#O\n EX 0,0(,6)\n @\n B #END\n#O MVC W9(1),W9\n#END DS 0H\n",
        "another by a label": "SETUP\n EX 0,#O\n @\n B #END\n#O MVC W9(1),W9\n#END DS 0H\n",
        "in a routine": f"SETUP\n BAL 14,#SUB\n{trace(1)} B #END\n#SUB EX 0,#L\n BR 14\n#L @\n#END DS 0H\n",
        "by a routine's address": f"SETUP\n LA 7,#L\n BAL 14,#SUB\n{trace(1)} B #END\n#SUB EX 0,0(,7)\n BR 14\n#L @\n#END DS 0H\n",
        "EX of B to it": f"SETUP\n EX 0,#G\n{trace(1)} B #END\n#G B #L\n#L @\n{trace(2)}#END DS 0H\n",
    }
    found += [Context("EX", name, text, hidden=CHANGED) for name, text in rows.items()]
    for target in ("a label", "LA", "an index", "BALR", "a DSECT", "a label's displacement"):
        written = TARGETS[target].replace("EX 0,", "EX 7,")
        behind = "#DS DSECT\n#DF DS H\n" if target == "a DSECT" else ""
        text = f"SETUP\n LA 7,0\n{written} B #END\n#L EQU *\n @\n#END DS 0H\n"
        found.append(Context("EX with a register", target, text, hidden=CHANGED - {7}, behind=behind))
        given = f"SETUP\n LA 7,LENGTH-1\n{written}{trace(1)} B #END\n{draw.of(('#L @1', '#L DS 0H@ @1'))}\n#END DS 0H\n".replace("@ ", "\n ")
        found.append(Context("EX with a register", f"{target}, the length", given, wants=BYTES, hidden=CHANGED - {7}, behind=behind))
    return found


# ---- its bytes, its length, places that are shown

BYTE_WAYS: dict[str, str] = {  # what looks at or changes the instruction at #L, which is done behind it
    "IC by LA": " LA 6,#L\n IC 7,1(,6)\n LA 6,0\n",
    "IC by EQU": " IC 7,#LZ+1\n",
    "IC by BALR": " BALR 6,0\n#BB IC 7,#L+1-#BB(,6)\n LA 6,0\n",
    "IC by the base": " IC 7,#L+1-P(,3)\n",
    "IC by an index": " LA 6,1\n IC 7,#L(6)\n",
    "MVI by LA": " LA 6,#L\n MVI 1(6),0\n LA 6,0\n",
    "MVI by EQU": " MVI #LZ+1,0\n",
    "STC by an index": " LA 6,1\n SR 7,7\n STC 7,#L(6)\n",
    "STC by the base": " SR 7,7\n STC 7,#L+1-P(,3)\n",
    "STC by BALR": " SR 7,7\n BALR 6,0\n#BB STC 7,#L+1-#BB(,6)\n LA 6,0\n",
    "MVC by L =A": " L 6,=A(#L)\n MVC 1(1,6),#ZERO\n LA 6,0\n",
    "STC by LA and LR": " SR 7,7\n LA 6,#L\n LR 12,6\n STC 7,1(,12)\n LA 6,0\n LA 12,0\n",
    "NI by LA": " LA 6,#L+1\n NI 0(6),0\n LA 6,0\n",
    "TM by a label": " TM #L+1,1\n BO #ODD\n MVI TRACE+3,C'D'\n#ODD DS 0H\n",
}
FRONT = ("its own label", "EQU * in front", "DS 0H in front", "EQU of its label", "a label and 6")


def looked_at(draw: Draw) -> list[Context]:
    found = []
    for way, lines in BYTE_WAYS.items():
        for label in (FRONT[0], draw.of(FRONT[1:])):
            text = f"SETUP\n SR 7,7\n SR 6,6\n{lines}{LABELS[label]}#LZ EQU #L\n{trace(1)} B #END\n#ZERO DC X'0000'\n#END DS 0H\n"
            found.append(Context("its bytes", f"{way}, {label}", text, wants=BYTES, hidden=frozenset({1, 14, 15})))
    rows = {
        "run elsewhere": f"SETUP\n MVC COPY(<n+2>),#L\n BAL 14,COPY\n{trace(1)} B #END\n#L @\n BR 14\n#END DS 0H\n",
        "run elsewhere, by EQU": f"SETUP\n MVC COPY(<n+2>),#L\n BAL 14,COPY\n{trace(1)} B #END\n#L EQU *\n @\n BR 14\n#END DS 0H\n",
        "run elsewhere, by LA": f"SETUP\n LA 6,#L\n MVC COPY(<n+2>),0(6)\n BAL 14,COPY\n{trace(1)} B #END\n#L @\n BR 14\n#END DS 0H\n",
        "run elsewhere, by a label in front": f"SETUP\n MVC COPY(<n+6>),#L\n BAL 14,COPY\n{trace(1)} B #END\n#L LA 1,1\n @\n BR 14\n#END DS 0H\n",
        "over another": f"SETUP\n MVC #O(<n>),#L\n B #O\n#L @\n#O PAD\n{trace(1)}",
        "over another, by LA": f"SETUP\n LA 6,#O\n LA 7,#L\n MVC 0(<n>,6),0(7)\n B #O\n#L @\n#O PAD\n{trace(1)}",
    }
    found += [Context("its bytes", name, text, hidden=CHANGED) for name, text in rows.items()]
    return found


def lengths() -> list[Context]:
    """Lengths and places that the program shows: registers 6 and 7 are looked at."""
    seen = frozenset({1, 14, 15})
    rows = {
        "LA of *-X": "SETUP\n#X LA 1,1\n @\n#N EQU *-#X\n LA 6,#N\n LA 7,0\n",
        "LA of a difference": "SETUP\n#X @\n#Y LA 6,#Y-#X\n LA 7,0\n",
        "DC of *-X": "SETUP\n B #G\n#X @\n DC AL2(*-#X)\n#G LH 6,*-2\n LA 7,0\n",
        "AL1 of a difference": "SETUP\n#X @\n#Y SR 6,6\n IC 6,=AL1(#Y-#X)\n LA 7,0\n",
        "L'": "SETUP\n#X @\n LA 6,L'#X\n LA 7,0\n",
        "L' of EQU": "SETUP\n#X @\n#XX EQU #X\n LA 6,L'#XX\n LA 7,0\n",
        "L' in a length": "SETUP\n MVC W9(2),=X'0000'\n MVC W9(L'#X-1),=X'010203040506'\n B #G\n#X @\n#G LA 6,0\n LA 7,0\n",
        "EQU of L'": "SETUP\n#X @\n#Z EQU L'#X\n LA 6,#Z\n LA 7,0\n",
        "two addresses": "SETUP\n#X @\n#Y LA 6,#Y\n LA 7,#X\n SR 6,7\n LA 7,0\n",
        "two constants": "SETUP\n#X @\n#Y L 6,=A(#Y)\n S 6,=A(#X)\n LA 7,0\n",
        "a place from the base": "SETUP\n @\n#Y LA 6,#Y\n SR 6,3\n LA 7,0\n",
        "a link": "SETUP\n @\n BALR 6,0\n LA 6,0(,6)\n SR 6,3\n LA 7,0\n",
        "a literal's place": "SETUP\n @\n LA 6,=F'77'\n SR 6,3\n LA 7,0\n",
        "the next literal": "SETUP\n @\n LA 6,=F'77'\n L 7,=F'78'\n L 7,4(,6)\n LA 6,0\n",
        "behind LTORG": "SETUP\n LA 6,=F'77'\n L 7,0(,6)\n @\n B #G\n#P DS 0D\n LTORG\n#K DC F'5'\n#G LA 6,#K-#P\n",
        "LTORG by a number": "SETUP\n L 7,=F'77'\n @\n B #G\n DS 0D\n#P DS 0D\n LTORG\n#K DC F'5'\n#G LA 7,#P\n LA 6,#K\n SR 6,7\n LA 7,0\n",
        "alignment": "SETUP\n B #G\n#X DC F'1'\n#G @\n B #H\n DS 0D\n#Y DC F'2'\n#H LA 6,#Y\n LA 7,#X\n SR 6,7\n LA 7,0\n",
        "data by a number over it": "SETUP\n B #G\n DS 0D\n#X DC CL8'ABCDEFGH'\n#G @\n B #H\n#Y DC CL4'IJKL'\n#H LA 6,#X\n ICM 7,15,<n+12>(6)\n LA 6,0\n",
        "data by a label and a number": "SETUP\n B #G\n#X DC CL8'ABCDEFGH'\n#G @\n B #H\n#Y DC CL4'IJKL'\n#H ICM 7,15,#X+<n+12>\n LA 6,0\n",
        "data in front by a number": "SETUP\n B #G\n#X DC CL8'ABCDEFGH'\n#G @\n B #H\n#Y DC CL4'IJKL'\n#H LA 6,#Y\n SH 6,=H'<n+12>'\n ICM 7,15,0(6)\n LA 6,0\n",
        "the program's end": "SETUP\n @\n LA 6,PEND\n SR 6,3\n LA 7,0\n",
        "a DSECT over it": "SETUP\n LA 6,#X\n USING #DS,6\n @\n ICM 7,15,#DF\n DROP 6\n B #H\n DS 0F\n#X DC F'1'\n#W DC F'9'\n#H LA 6,0\n",
    }
    behind = {"a DSECT over it": "#DS DSECT\n DS F\n#DF DS F\n"}
    return [Context("lengths and places", name, text, hidden=seen, behind=behind.get(name, "")) for name, text in rows.items()]


# ---- bases

BUSY: dict[str, tuple[str, str]] = {  # what takes the base, and what gives it back
    "LA": (" LR 12,3\n LA 3,77\n", " LR 3,12\n"),
    "SR": (" LR 12,3\n SR 3,3\n", " LR 3,12\n"),
    "L": (" LR 12,3\n L 3,SAVE\n", " LR 3,12\n"),
    "ST and L": (" ST 3,OTHER\n LA 3,5\n", " L 3,OTHER\n"),
    "BALR": (" LR 12,3\n BALR 3,0\n", " LR 3,12\n"),
    "BAL": (" LR 12,3\n BAL 3,*+4\n", " LR 3,12\n"),
    "LM": (" STM 3,3,OTHER\n LM 3,3,SAVE\n", " LM 3,3,OTHER\n"),
    "IC": (" LR 12,3\n IC 3,W9\n", " LR 3,12\n"),
    "AR": (" LA 12,8\n AR 3,12\n", " SR 3,12\n"),
    "XR": (" LA 12,8\n XR 3,12\n XR 12,3\n XR 3,12\n", " XR 3,12\n XR 12,3\n XR 3,12\n"),
    "LA of itself": (" LA 3,4(,3)\n", " SH 3,#FOUR-P-4(,3)\n"),
    "BCTR": (" BCTR 3,0\n", " LA 3,1(,3)\n"),
    "CVB": (" LR 12,3\n MVC SAVE(8),PACKED\n CVB 3,SAVE\n", " LR 3,12\n"),
    "ICM": (" LR 12,3\n ICM 3,15,W9\n", " LR 3,12\n"),
    "DROP": (" LR 12,3\n DROP 3\n LA 3,9\n", " LR 3,12\n USING P,3\n"),
    "DROP alone": (" DROP 3\n", " USING P,3\n"),
    "DROP of all": (" DROP 3\n DROP 11\n", " USING P,3\n USING DFHEIBLK,11\n"),
    "another USING": (" LR 12,3\n DROP 3\n USING P,12\n LA 3,7\n", " LR 3,12\n DROP 12\n USING P,3\n"),
    "BALR and USING": (" BALR 12,0\n USING *,12\n LA 3,7\n", " LR 3,12\n SH 3,=AL2(#BS-P)\n DROP 12\n"),
    "a field's base": (" USING #FD,7\n LA 7,5\n", " DROP 7\n"),
    "another base of the code": (" LA 7,#HI\n USING #HI,7\n LA 7,5\n", " DROP 7\n"),
    "register 13": (" LR 12,13\n LA 13,DFHEIPL\n", " LR 13,12\n"),
    "register 13 elsewhere": (" LR 12,13\n LA 13,5\n", " LR 13,12\n"),
    "register 13 by L": (" ST 13,SAVE\n L 12,SAVE\n L 13,SAVE\n", " LR 13,12\n"),
    "register 11": (" LR 12,11\n LA 11,5\n", " LR 11,12\n"),
    "two bases": (" LA 12,#HI\n USING #HI,12\n", " DROP 12\n"),
    "a second base of the whole": (" LR 12,3\n USING P,12\n SR 3,3\n", " LR 3,12\n DROP 12\n"),
}


BASED = ("two bases", "BALR and USING", "another base of the code", "a field's base", "register 11", "another USING",
         "a second base of the whole", "register 13 by L")  # where the program's base is there, or another one


def bases() -> list[Context]:
    found = []
    for way, (taken, back) in BUSY.items():
        more = "#BS DS 0H\n" if "#BS" in back else ""
        taken = taken.replace(" USING *,12\n", f" USING *,12\n{more}") if more else taken
        need = " B #E\n#FOUR DC H'4'\n DS 0D\n#HI DC F'0'\n#E MVI TRACE+1,C'B'\n"
        text = f"SETUP\n{taken} @\n{back}{need}"
        behind = "#FD DSECT\n DS F\n" if "#FD" in taken else ""
        wants = ANY if way in BASED else FREE if "13" not in way else BARE
        found.append(Context("a base that isn't there", way, text, wants=wants, hidden=CHANGED, behind=behind))
    return found


# ---- the condition code, loops, other things of a program


def codes() -> list[Context]:
    tested = "".join(f" BC {mask},#C{mask}\n" for mask in (8, 4, 2)) + " B #C1\n"
    ends = "".join(f"#C{mask} MVI TRACE+{at},C'{'ABCD'[at]}'\n B #END\n" for at, mask in enumerate((8, 4, 2, 1))) + "#END DS 0H\n"
    rows = {"branches behind it": f"SETUP\n CLI W9,1\n @\n{tested}{ends}", "behind ST and L": f"SETUP\n CLI W9,255\n @\n ST 1,SAVE\n L 1,SAVE\n{tested}{ends}",
            "equal in front": f"SETUP\n CLI W9,X'40'\n @\n{tested}{ends}",
            "in a routine": f"SETUP\n CLI W9,255\n BAL 14,#S\n{tested}{ends} B #Z\n#S @\n BR 14\n#Z DS 0H\n".replace("#END DS 0H\n B #Z", "#END B #Z")}
    return [Context("the condition code", f"{name}, {number}", text, hidden=CHANGED, needs_code=True) for name, text in rows.items() for number in range(4)]


def programs() -> list[Context]:
    """Other things that a program does."""
    rows = {
        "a loop": "SETUP\n LA 6,7\n#T DS 0H\nSETUP\n @\n BCT 6,#T\n",
        "a loop by BCTR": "SETUP\n LA 7,#T\n LA 6,5\n#T DS 0H\nSETUP\n @\n BCTR 6,7\n",
        "a command behind": "SETUP\n @\n EXEC CICS SUSPEND\n CR 1,1\n",
        "a command in front": " EXEC CICS SUSPEND\nSETUP\n @\n",
        "a command's label": f"SETUP\n EXEC CICS HANDLE CONDITION QIDERR(#L)\n EXEC CICS DELETEQ TS QUEUE('NONE')\n{trace(1)} B #END\n#L @\n{trace(2)}#END CR 1,1\n",
        "an abend's label": f"SETUP\n EXEC CICS HANDLE ABEND LABEL(#L)\n EXEC CICS ABEND ABCODE('MINE')\n{trace(1)} B #END\n#L DS 0H\nSETUP\n @\n#END CR 1,1\n",
        "a condition's label and a number": f"SETUP\n EXEC CICS HANDLE CONDITION QIDERR(#L+<n>)\n EXEC CICS DELETEQ TS QUEUE('NONE')\n B #END\n#L @\n{trace(2)}"
                                            "#END CR 1,1\n",
        "DFHEIPL by a register": "SETUP\n LR 6,13\n LA 1,777\n ST 1,8(,6)\n @\n L 7,8(,6)\n LA 6,0\n",
        "DFHEIPL's middle by a register": "SETUP\n LR 6,13\n LA 1,777\n ST 1,56(,6)\n @\n L 7,56(,6)\n LA 6,0\n",
        "DFHEITP by a register": "SETUP\n LR 6,13\n LA 1,777\n ST 1,72(,6)\n @\n L 7,72(,6)\n LA 6,0\n",
        "DFHEIPL by LA": "SETUP\n LA 6,0(,13)\n LA 1,777\n ST 1,60(,6)\n @\n L 7,60(,6)\n LA 6,0\n",
        "DFHEIPL behind a field": "SETUP\n LA 6,REGS\n SH 6,=H'80'\n LA 1,777\n ST 1,16(,6)\n @\n L 7,16(,6)\n LA 6,0\n",
        "a routine's saved link": "SETUP\n BAL 14,#S\n B #END\n#S ST 14,SAVE\n @\n L 14,SAVE\n BR 14\n#END DS 0H\n",
        "a routine in a routine": f"SETUP\n BAL 14,#S\n B #END\n#S LR 12,14\n BAL 14,#R\n LR 14,12\n BR 14\n#R @\n{trace(2)} BR 14\n#END DS 0H\n",
        "a branch to it": f"SETUP\n B #L\n{trace(1)}#L @\n{trace(2)}",
        "a branch by a constant": f"SETUP\n L 6,=A(#L)\n BR 6\n{trace(1)}#L @\n{trace(2)}",
        "an address table": f"SETUP\n LA 1,4\n L 6,#T(1)\n BR 6\n#T DS 0F\n DC A(#X),A(#L)\n#X MVI TRACE+1,C'B'\n#L @\n{trace(2)}",
        "twice": "SETUP\n @\nSETUP\n @\n",
        "the base in another register": " LR 12,3\n USING P,12\n DROP 3\nSETUP\n @\n",
        "BALR's base": " BALR 12,0\n USING *,12\n DROP 3\nSETUP\n LA 3,5\n @\n",
        "BALR's base, behind": "SETUP\n @\n BALR 12,0\n USING *,12\n DROP 3\n LA 3,5\n",
        "all registers kept": "SETUP\n STM 14,12,KEPT\n LA 14,5\n LA 15,6\n @\n LM 14,15,KEPT\n",
        "a loop of thirty": "SETUP\n LA 6,30\n#T DS 0H\n @\n BCT 6,#T\n" .replace("SETUP\n LA 6,30\n#T DS 0H\n", " LA 6,30\n#T DS 0H\nSETUP\n"),
        "its own literals": "SETUP\n @\n L 7,=F'7654321'\n LA 6,=F'7654321'\n S 7,0(,6)\n LA 6,0\n",
        "three times": "SETUP\n @\nSETUP\n LA 6,1\n @\n LA 7,2\nSETUP\n @\n LA 0,6\n",
        "between branches": "SETUP\n B #A\n#B MVI TRACE+1,C'B'\n B #E\n#A @\n B #B\n#E DS 0H\n",
    }
    shown = {"DFHEIPL by a register", "DFHEIPL's middle by a register", "DFHEITP by a register", "DFHEIPL by LA", "DFHEIPL behind a field"}
    return [Context("a program", name, text, hidden=frozenset({1, 14, 15}) if name in shown else CHANGED) for name, text in rows.items()] + links()


def links() -> list[Context]:
    """The first byte of a link, which has the condition code and the instruction's length."""
    rows = {"BALR": " BALR 6,0\n", "BAL": " BAL 6,*+4\n", "EX of BALR": " EX 0,#B\n B #E\n#B BALR 6,0\n#E DS 0H\n"}
    return [Context("a link's first byte", name, f"SETUP\n CLI W9,255\n @\n{lines} SRL 6,24\n LA 7,0\n", needs_code=True, hidden=CHANGED - {6, 7})
            for name, lines in rows.items()]


def by_registers() -> list[Context]:
    """Operands whose base or index is a register that what is written may need."""
    found = []
    for register in (1, 6, 7, 12, 14, 15):
        text = f"SETUP\n LA {register},W1\n @\n"
        found.append(Context("operands by a register", f"register {register}", text, wants=f"{BY_REGISTER} {register}"))
        text = f"SETUP\n BAL 14,#S\n B #E\n#S LR 12,14\n LA {register},W1\n @\n BR {14 if register == 12 else 12}\n#E DS 0H\n"
        found.append(Context("operands by a register", f"register {register} in a routine", text, wants=f"{BY_REGISTER} {register}", hidden=CHANGED))
    return found


# ---- storage that is cleared, interruptions, long programs


def cleared() -> list[Context]:
    """MVCL that clears the working storage from its beginning; its twin is XC by a routine. Written whole, with @ for MVCL 4,8."""
    found = []
    for name, start, length in (("from register 13", " LR 4,13\n", 80), ("by LA", " LA 4,0(,13)\n", 80), ("by DFHEISTG", " LA 4,DFHEISTG\n", 72),
                                ("by DFHEIPL", " LA 4,DFHEIPL\n", 64), ("by a field less a number", " LA 4,REGS-80\n", 80),
                                ("by ST and L", " ST 13,SAVE\n L 4,SAVE\n", 80),
                                ("in the middle", " LA 4,40(,13)\n", 40), ("a part of it", " LR 4,13\n", 33), ("with DFHEITP", " LA 4,60(,13)\n", 20)):
        more = " LA 6,66\n LA 7,67\n LA 14,68\n LA 15,69\n LA 0,70\n LA 12,71\n"
        text = f"{start} L 5,=F'{length}'\n LA 8,W2\n L 9,=F'0'\n LA 10,#WORK\n{more} @\n"
        found.append(Context("storage that is cleared", name, text, wants=f"{CLEAR} {length}"))
    return found


ABSENT: dict[str, tuple[str, str]] = {  # a statement of which a byte isn't there, at register 7, and its twin
    "OC to it": ("OC 0(4,7),W1", "XC 0(4,7),W1"), "OC of it": ("OC W1(4),0(7)", "XC W1(4),0(7)"), "NC to it": ("NC 0(4,7),W1", "MVC 0(4,7),W1"),
    "MVZ of it": ("MVZ W1(4),0(7)", "MVC W1(4),0(7)"), "MVN to it": ("MVN 0(4,7),W1", "MVC 0(4,7),W1"), "N of it": ("N 4,0(,7)", "L 4,0(,7)"),
    "O of it": ("O 4,0(,7)", "L 4,0(,7)"), "X of it": ("X 4,0(,7)", "L 4,0(,7)"), "AL of it": ("AL 4,0(,7)", "A 4,0(,7)"), "MH of it": ("MH 4,0(,7)", "LH 4,0(,7)"),
    "CLM of it": ("CLM 4,15,0(7)", "CL 4,0(,7)"), "CS of it": ("CS 4,5,0(7)", "ST 4,0(,7)"), "TS of it": ("TS 0(7)", "MVI 0(7),1"),
    "XI of it": ("XI 0(7),1", "OI 0(7),1"), "AP of it": ("AP W1(4),0(4,7)", "PACK W1(4),0(4,7)"), "AP to it": ("AP 0(4,7),W1(4)", "PACK 0(4,7),W1(4)"),
    "ZAP to it": ("ZAP 0(4,7),W1(4)", "PACK 0(4,7),W1(4)"), "CP of it": ("CP W1(4),0(4,7)", "CLC W1(4),0(7)"), "ED of it": ("ED W1(4),0(7)", "TR W1(4),0(7)"),
    "AP of bad digits": ("AP W1(4),COPY(4)", "CVB 0,COPY"), "SP of bad digits": ("SP W1(4),COPY(4)", "CVB 0,COPY"),
    "ZAP of bad digits": ("ZAP W1(4),COPY(4)", "CVB 0,COPY"),
    "CP of bad digits": ("CP W1(4),COPY(4)", "CVB 0,COPY"), "MP of bad digits": ("MP W1(4),COPY(1)", "CVB 0,COPY"), "DP by zero": ("DP W1(4),W9(1)", "DR 4,8"),
    "SRP of bad digits": ("SRP COPY(4),1,0", "CVB 0,COPY"), "ED of bad digits": ("ED W1(4),BAD", "CVB 0,COPY"), "CS between words": ("CS 4,5,W1+1", "M 5,W1"),
    "MP of a long field": ("MP W1(4),W1(4)", "M 5,W1"), "MVO of it": ("MVO W1(4),0(4,7)", "PACK W1(4),0(4,7)"), "SRP to it": ("SRP 0(4,7),1,0", "PACK 0(4,7),W1(4)"),
    "MVCIN of it": ("MVCIN W1(4),3(7)", "MVC W1(4),0(7)"), "SL of it": ("SL 4,0(,7)", "S 4,0(,7)"), "CDS of it": ("CDS 4,8,0(7)", "STM 8,9,0(7)"),
}


def absent() -> list[Context]:
    found = []
    for name in ABSENT:
        first = "40202020" if name.startswith("ED of") else "0000123C"
        zero = " MVI W9,X'0C'\n" if name == "DP by zero" else " MVI BAD,X'FF'\n" if name == "ED of bad digits" else ""
        head = f" MVC W1(4),=X'{first}'\n L 7,=X'00F00000'\n LA 4,1\n LA 5,2\n LA 14,3\n LA 15,4\n LA 6,5\n LA 12,6\n{zero} CLI W9,255\n"
        found.append(Context("an interruption", name, f"{head} @\n{trace(1)}", wants=f"{ABSENT_BYTE} {name}"))
        handled = f"{head} EXEC CICS HANDLE ABEND LABEL(#H)\n LA 14,3\n LA 15,4\n LA 0,7\n LA 1,8\n @\n{trace(1)}#H MVI TRACE+2,C'C'\n CR 1,1\n"
        found.append(Context("an interruption", f"{name}, handled", handled, wants=f"{ABSENT_BYTE} {name}", hidden=CHANGED))
    return found


def long_programs(draw: Draw) -> list[Context]:
    """Programs that are about as long as a base reaches."""
    found = []
    for room in (3000, 3400, 3500, 3560, 3580, 3600, 3620, 3640, 3680):
        where = draw.of(("in front", "behind"))
        filler = f" B #F\n DS {room}C\n#F DS 0H\n"
        text = f"{filler}SETUP\n @\n LA 6,5\n" if where == "in front" else f"SETUP\n @\n LA 6,5\n{filler}"
        found.append(Context("a long program", f"{room} bytes {where}", text, hidden=CHANGED - {6}))
        found.append(Context("a long program", f"{room} bytes {where}, a place", text.replace(" LA 6,5\n", " LA 6,*\n SR 6,3\n"), hidden=CHANGED - {6}))
    two = " LA 12,#HI\n USING #HI,12\n B #F\n DS 2000C\n#HI DS 0H\n DS 2000C\n#F DS 0H\n"
    text = f"{two}SETUP\n @\n LA 6,*\n SR 6,3\n"
    found += [Context("a long program", f"two bases, {number}", text, hidden=CHANGED - {6}) for number in range(4)]
    return found


def all_contexts(name: str = "pairs") -> list[Context]:
    draw = Draw(f"contexts of {name}")
    return [*skips(draw), *returns_that_run(draw), *location_counter(draw), *tables(draw), *executed(draw), *looked_at(draw), *lengths(), *bases(), *codes(),
            *programs(), *by_registers(), *cleared(), *absent(), *long_programs(draw)]
