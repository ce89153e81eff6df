"""What cics-same --choices tells of two versions of programs. `stand-in` runs `cicslook` and answers CHOICES from a text, so that each answer comes
up; then `cicslook` itself is asked, of changes that were planted."""
import copy
import itertools
import os
import random
from collections import Counter
from collections.abc import Sequence

from cics.child import TOP
from cics.choices import Arrow, Choices, Incident, State
from cics.same_choices import Together, tours_of
from cics.same_queues import Queues, queues_compared
from cics.same_report import Report
from tests.calling import Call, failures_of
from tests.case import CICSEDF, CICSLOOK, PROGRAMS, TestCase

STAND_IN = f"{TOP}/companions/tests/stand-in"
COUNTER = """DFHEISTG DSECT
PACKED   DS    D
COUNT    DS    F
LINE     DS    CL8
C        CSECT
         SR    5,5
         LH    4,EIBCALEN
         LTR   4,4
         BZ    SHOW                    THE FIRST KEY
         L     4,DFHEICAP
         L     5,0(0,4)
         CLI   EIBAID,X'F3'            PF3
         BE    ZERO
         CH    5,=H'3'
         BNL   SHOW
         LA    5,1(0,5)
         B     SHOW
ZERO     SR    5,5
SHOW     ST    5,COUNT
         CVD   5,PACKED
         MVC   LINE,=CL8'COUNT'
         UNPK  LINE+6(2),PACKED+6(2)
         OI    LINE+7,X'F0'
         EXEC  CICS SEND TEXT FROM(LINE) LENGTH(=H'8') ERASE
         EXEC  CICS RETURN TRANSID('C') COMMAREA(COUNT) LENGTH(=H'4')
         END
"""
RECEIVING = "         MVC   INLEN,=H'8'\n         EXEC  CICS RECEIVE INTO(LINE) LENGTH(INLEN) NOHANDLE\n"
SPINNING = "SPIN     EXEC  CICS SUSPEND\n         B     SPIN\n"
HEAD = f"SOURCE C\n{COUNTER}/*\nTRANSACTION C C\nTERMINAL T001\n"
PLANTED = {
    "limit": COUNTER.replace("=H'3'", "=H'4'"),
    "abend": COUNTER.replace("ZERO     SR    5,5", "ZERO     D     4,=F'0'"),
    "text": COUNTER.replace("=CL8'COUNT'", "=CL8'KOUNT'"),
    "ends": COUNTER.replace("ZERO     SR    5,5\n", "ZERO     SR    5,5\n         B     SHOW2\n").replace(
        "         END\n", "SHOW2    ST    5,COUNT\n         CVD   5,PACKED\n         MVC   LINE,=CL8'COUNT'\n         UNPK  LINE+6(2),PACKED+6(2)\n"
        "         OI    LINE+7,X'F0'\n         EXEC  CICS SEND TEXT FROM(LINE) LENGTH(=H'8') ERASE\n         EXEC  CICS RETURN\n         END\n"),
    "spins": COUNTER.replace("ZERO     SR    5,5\n", f"ZERO     DS    0H\n{SPINNING}"),
    "waits": COUNTER.replace("         EXEC  CICS RETURN", 2 * RECEIVING + "         EXEC  CICS RETURN").replace(
        "LINE     DS    CL8", "LINE     DS    CL8\nINLEN    DS    H"),
    "tidied": COUNTER.replace("ZERO     SR    5,5", "ZERO     LA    5,0"),
}
KEYS = "* What is pressed.\n\nKEY T001 ENTER C\nKEY T001 {ENTER|PF3}\n"
FILES = {"s.script": HEAD, "c.asm": COUNTER, "k": KEYS, **{f"{name}.asm": text for name, text in PLANTED.items()}}
REFUSED = "ANSWERS T001 NoSuchTransaction"
FRONT = ["--choices", "k", "--one-number", "s.script", "C", "c.asm"]
BY = "compared after each key: abends, refused keys, tasks that wait, all screens, and all queues by their bytes; the script in front is as cicslook runs it"
NUMBERS = "with ONE NUMBER each key begins *"
Written = tuple[int, list[str], list[str], list[str]]  # a state's screen, its list, its arrows with what comes of them, and its text


def answer(first: str, *states: Written) -> str:
    """What CHOICES writes."""
    shown: set[int] = set()
    lines = [f"CHOICES {first}"]
    for number, (screen, moves, arrows, text) in enumerate(states, 1):
        lines += [f"STATE {number} SCREEN {screen}", *moves, *arrows, *(text if screen not in shown else [])]
        shown.add(screen)
    return "\n".join(f"> {line}" for line in lines)


def two(first: str = "KEYS 3 STATES 2 SCREENS 2 ONE NUMBER CLOSED", text: Sequence[str] = ("SCREEN T001", "01|COUNT 00"), arrow: Sequence[str] = ()) -> str:
    """An answer with two states: the first key leads to the second one, in which each key leads back to it."""
    return answer(first, (1, [], ["KEY 1 TO 2", "KEY 2 TO 1", REFUSED, "KEY 3 TO 1", REFUSED], ["SCREEN T001"]),
                  (2, ["KEY T001 ENTER C", "RUN T001 4"], ["KEY 1 TO 2", "KEY 2 TO 2", "KEY 3 TO 2", *arrow], [*text]))


TWO, OPEN = two(), two("KEYS 3 STATES 2 SCREENS 2").replace("> KEY 3 TO 2", "> KEY 3 TO MORE")
LINES = ["KEY T001 ENTER C", "KEY T001 PF3"]
ALONE = answer("KEYS 3 STATES 1 SCREENS 1 CLOSED", (1, [], [f"KEY {key} TO 1\n> {REFUSED}" for key in (1, 2, 3)], ["SCREEN T001"]))
RESTLESS = two(text=("STILL RUNNING", "SCREEN T001", "01|COUNT 00")).replace("\n> KEY 1 TO 2\n> KEY 2 TO 2\n> KEY 3 TO 2", "")
BY_HAND = [  # with the answers to the two
    (TWO, TWO, Call("the same", "cics-same", [*FRONT, "c.asm"], 0,
                    ["same by every list of any number of keys (CLOSED), each one of 3: c.asm has 2 states and 2 screens, c.asm 2 states and 2 screens; "
                     "no line is changed", "C: *", NUMBERS, BY], FILES)),
    (OPEN, TWO.replace(" CLOSED", ""), Call(
        "up to so many keys", "cics-same", ["--choices", "k", "-n", "3", "s.script", "C", "c.asm", "c.asm"], 0,
        ["same by every list of at most 3 keys, each one of 3: c.asm has 2 states and 2 screens, c.asm 2 states and 2 screens; no line is changed", "C: *", BY],
        FILES)),
    (TWO, two(text=("SCREEN T001", "01|KOUNT 00")), Call(
        "a text", "cics-same", [*FRONT, "text.asm"], 1,
        ["by 1 key, one of 3: SCREEN T001 differs", *LINES[:1], "old: 01|COUNT 00", "new: 01|KOUNT 00"], FILES)),
    (TWO, two(arrow=("ABENDS T001 ASRA",)), Call(
        "an abend", "cics-same", [*FRONT, "abend.asm"], 1,
        ["by 2 keys, each one of 3: what comes of the last key differs", *LINES, "old: ", "new: ABENDS T001 ASRA"], FILES)),
    (TWO, TWO.replace("\n> KEY 3 TO 2", ""), Call(
        "a key of one alone", "cics-same", [*FRONT, "waits.asm"], 1,
        ["by 2 keys, each one of 3: the last key differs", *LINES, "old: it can be pressed", "new: it can't be pressed"], FILES)),
    (RESTLESS, TWO, Call("the old one that goes on", "cics-same", [*FRONT, "text.asm"], 1,
                         ["by 1 key, one of 3: what is seen differs", *LINES[:1], "old: STILL RUNNING", "new: SCREEN T001"], FILES)),
    (RESTLESS, RESTLESS, Call("neither comes to rest", "cics-same", [*FRONT, "c.asm"], 2,
                              ["neither comes to rest after KEY T001 ENTER C, so nothing is known of what follows"], FILES)),
    (two("MORE THAN 2 STATES, ALL OF 1 KEYS SCREENS 2"), TWO, Call(
        "too many states", "cics-same", [*FRONT, "text.asm", "--states", "2"], 2,
        ["c.asm has more than 2 states, so only lists of at most 1 key, one of 3, were compared, and by these *"], FILES)),
    (TWO, two("MORE THAN 2 STATES, ALL OF 1 KEYS SCREENS 2", ("SCREEN T001", "01|KOUNT 00")), Call(
        "too many states, and a difference", "cics-same", [*FRONT, "text.asm"], 1, ["by 1 key, *", *LINES[:1], "old: *", "new: *"], FILES)),
    (ALONE, ALONE, Call("one state alone", "cics-same", [*FRONT, "c.asm"], 2, ["no key leads to another state, so nothing is seen: choose other keys"], FILES)),
    (ALONE, TWO, Call("one state alone with the old", "cics-same", [*FRONT, "text.asm"], 1,
                      ["by 1 key, one of 3: what comes of the last key differs", *LINES[:1], f"old: {REFUSED}", "new: "], FILES)),
    (TWO, two(text=("SCREEN T001", "01|COUNT 00", "QUEUE 'Q' ITEMS 1 BYTES 2 READ 0")), Call(
        "what a look shows of a queue", "cics-same", [*FRONT, "text.asm"], 1,
        ["by 1 key, one of 3: a queue differs", *LINES[:1], "old: ", "new: QUEUE *"], FILES)),
    (TWO, two(text=("SCREEN T001", "01|COUNT 00", "TASK T001 NONE")), Call(
        "what another look shows", "cics-same", [*FRONT, "text.asm"], 1,
        ["by 1 key, one of 3: what is seen differs", *LINES[:1], "old: ", "new: TASK *"], FILES)),
    ("> bad", TWO, Call("another answer", "cics-same", [*FRONT, "c.asm"], 2, ["c.asm can't be run: bad"], FILES)),
    (TWO, TWO, Call("json", "cics-same", [*FRONT, "c.asm", "--json"], 0, ["{", ' "outcome": "same",', *["*"] * 10], FILES)),
]
WRONG = [
    Call("no keys", "cics-same", [*FRONT, "c.asm"], 2, [], {**FILES, "k": "* None.\nSCREEN T001\n"}, "k: there are no keys"),
    Call("a set that isn't closed", "cics-same", [*FRONT, "c.asm"], 2, [], {**FILES, "k": "KEY T001 ENTER {A|B\n"}, "k:1: a { without a } after it"),
    Call("a line that is none of a block", "cics-same", [*FRONT, "c.asm"], 2, [], {**FILES, "k": f"{KEYS}TURN T001\n"}, "k:5: no TURN may stand in CHOICES"),
    Call("the end of a block", "cics-same", [*FRONT, "c.asm"], 2, [], {**FILES, "k": f"{KEYS}/*\nKEY T001 ENTER C\n"}, "k:5: "),
    Call("no file of keys", "cics-same", [*FRONT, "c.asm"], 2, [], {name: text for name, text in FILES.items() if name != "k"}, "k: No such file"),
    Call("too long lists", "cics-same", [*FRONT, "c.asm", "-n", "65"], 2, [], FILES, "lists of 1 to 64 keys"),
    Call("no states", "cics-same", [*FRONT, "c.asm", "--states", "0"], 2, [], FILES, "not of 8 keys and 0 states"),
    Call("-n alone", "cics-same", ["s.script", "s.script", "-n", "3"], 2, [], FILES, "-n is of --choices"),
    Call("with --orders", "cics-same", [*FRONT, "c.asm", "--orders"], 2, [], FILES, "not with --orders"),
    Call("other keys in front", "cics-same", ["--choices", "k", "s.script", "t.script"], 2, [], {**FILES, "t.script": f"{HEAD}KEY T001 ENTER C\n"}, "different keys"),
]
UNDER = [*FRONT[:3], "s.script", "C", "c.asm"]
REAL = [
    Call("a limit", "cics-same", [*UNDER, "limit.asm"], 1,
         ["by 5 keys, each one of 3: SCREEN T001 differs", *["KEY T001 ENTER C"] * 5, "old: 01|COUNT 03", "new: 01|COUNT 04"], FILES),
    Call("a limit that no list comes to", "cics-same", [*UNDER, "limit.asm", "-n", "4"], 0,
         ["same by every list of at most 4 keys, each one of 3: c.asm has *, limit.asm *; the one changed line was run", "C: *", NUMBERS, BY], FILES),
    Call("an abend", "cics-same", [*UNDER, "abend.asm"], 1,
         ["by 2 keys, each one of 3: what comes of the last key differs", *LINES, "old: ", "new: ABENDS T001 ASRA"], FILES),
    Call("a text", "cics-same", [*UNDER, "text.asm"], 1,
         ["by 1 key, one of 3: SCREEN T001 differs", *LINES[:1], "old: 01|COUNT 00", "new: 01|KOUNT 00"], FILES),
    Call("a COMMAREA that isn't handed on", "cics-same", [*UNDER, "ends.asm"], 1,
         ["by 3 keys, each one of 3: SCREEN T001 differs", *LINES, "KEY T001 ENTER C", "old: 01|COUNT 01", "new: 01|COUNT 00"], FILES),
    Call("a transaction that isn't named for the next key", "cics-same", [*UNDER, "ends.asm"], 1,
         ["by 2 keys, each one of 2: what comes of the last key differs", "KEY T001 PF3", "KEY T001 ENTER", "old: ", f"new: {REFUSED}"],
         {**FILES, "k": "KEY T001 {ENTER|PF3}\n", "s.script": f"{HEAD}KEY T001 ENTER C\nRUN T001\n"}),
    Call("one that goes on for ever", "cics-same", [*UNDER, "spins.asm"], 1,
         ["by 2 keys, each one of 3: what is seen differs", *LINES, "old: SCREEN T001", "new: STILL RUNNING"], FILES),
    Call("both for ever", "cics-same", [*UNDER[:3], "s.script", "C", "spins.asm", "spins.asm"], 2,
         ["neither comes to rest after KEY T001 ENTER C, KEY T001 PF3, *"], FILES),
    Call("one that waits", "cics-same", [*UNDER, "waits.asm"], 1, ["by 1 key, *", *LINES[:1], "old: SCREEN T001", "new: T001 C LEVEL 01 WAITING FOR INPUT"], FILES),
    Call("the same", "cics-same", [*UNDER, "tidied.asm"], 0,
         ["same by every list of any number of keys (CLOSED), each one of 3: c.asm has * and 5 screens, tidied.asm * and 5 screens; the one changed line was run",
          "C: 20 of 20 statements of the old source were run, 20 of 20 of the new", NUMBERS, BY], FILES),
    Call("a changed line that no list runs", "cics-same", [*UNDER, "tidied.asm"], 4,
         ["same by every list of any number of keys (CLOSED), each one of 1: *; the one changed line was never run: 18", "C: *", NUMBERS, BY],
         {**FILES, "k": "KEY T001 ENTER C\n"}),
    Call("too many states", "cics-same", [*UNDER[:2], "s.script", "C", "c.asm", "tidied.asm", "--states", "4", "-n", "8"], 2,
         ["c.asm has more than 4 states, so only lists of at most * keys, each one of 3, were compared, *"], FILES),
    Call("the script in front, and a second terminal", "cics-same", [*UNDER, "abend.asm"], 1,
         ["line *, KEY T001 PF3:", "old: TURN T001 Ended", "new: TURN T001 Abended ASRA"],
         {**FILES, "k": "KEY T002 ENTER C\n", "s.script": f"{HEAD}TERMINAL T002\nKEY T001 ENTER C\nRUN T001\nKEY T001 PF3\nRUN T001\n"}),
]
WRITER = """W        CSECT
         EXEC  CICS WRITEQ TS QUEUE('LOG') FROM(BYTES) LENGTH(=H'3')
         EXEC  CICS RETURN
BYTES    DC    X'000001'
         END
"""
LONG = WRITER.replace("=H'3'", "=H'80'").replace("X'000001'", "CL79'A',C'B'")
QUEUED = {"w.script": f"SOURCE W\n{WRITER}/*\nTRANSACTION W W\nTERMINAL T001\n", "k": "KEY T001 ENTER W\n", "w.asm": WRITER,
          "b.asm": WRITER.replace("000001", "000002"), "n.asm": WRITER.replace("'LOG'", "'LOB'"), "c.asm": WRITER.replace("X'000001'", "C'ABC'"),
          "d.asm": WRITER.replace("X'000001'", "C'ABD'"), "l.asm": LONG, "m.asm": LONG.replace("C'B'", "C'C'")}
AT_W = ["--choices", "k", "-n", "2", "w.script", "W"]
ITEM, ONE_KEY = "by 1 key, one of 1: item 1 of queue 'LOG' differs", "KEY T001 ENTER W"
OF_QUEUES = [
    Call("bytes that have no characters", "cics-same", [*AT_W, "w.asm", "b.asm"], 1, [ITEM, ONE_KEY, "old: 0000 000001 *", "new: 0000 000002 *"], QUEUED),
    Call("characters", "cics-same", [*AT_W, "c.asm", "d.asm"], 1, [ITEM, ONE_KEY, "old: ITEM 1 LENGTH 3 'ABC'", "new: ITEM 1 LENGTH 3 'ABD'"], QUEUED),
    Call("bytes behind the 64th", "cics-same", [*AT_W, "l.asm", "m.asm"], 1, [ITEM, ONE_KEY, "old: 0040 *C2 *", "new: 0040 *C3 *"], QUEUED),
    Call("another queue", "cics-same", [*AT_W, "w.asm", "n.asm"], 1,
         ["by 1 key, one of 1: a queue differs", ONE_KEY, "old: QUEUE 'LOG' ITEMS 1 BYTES 3 READ 0", "new: QUEUE 'LOB' ITEMS 1 BYTES 3 READ 0"], QUEUED),
    Call("the same bytes", "cics-same", [*AT_W, "w.asm", "w.asm"], 0, ["same by *", "W: 2 of 2 *", BY], QUEUED),
]


class QueuesTest(TestCase):
    """Queues are compared by their bytes, though nobody asks for that; what can't be looked at is told."""

    def test_calls(self) -> None:
        self.none_of(failures_of(OF_QUEUES, PROGRAMS))

    def asked_for(self, count: int, text: str, *, at_once: bool) -> tuple[Queues, list[list[str]]]:
        """What is found, and which looks are asked for, of a queue with so many items that all show a text."""
        asked: list[list[str]] = []

        def ask(looks: list[str]) -> tuple[None, list[Sequence[str]]]:
            asked.append(looks)
            queue = [f"QUEUE 'Q' ITEMS {count} BYTES {count} READ 0"]
            return None, [queue, [*queue, *(f"ITEM {number} LENGTH 1 {text}" for number in range(1, count + 1))]]

        return queues_compared(ask, 1, at_once=at_once), asked

    def test_looks(self) -> None:
        name = "D840404040404040"
        front = [["QUEUES"], ["QUEUES", f"QUEUE {name}"]]
        whole = [f"QUEUE {name} {number}" for number in range(1, 101)]
        unseen = ["bytes of 39 items weren't compared, that is, those which look alike in characters, as of item 62 of queue 'Q': a block has at most 64 looks"]
        for count, text, at_once, due in (
                (100, "'A'", True, (Queues(), front)), (100, "X'00'", True, (Queues(), front)), (2, "'.'", True, (Queues(), [*front, [*front[1], *whole[:2]]])),
                (100, "'.'", False, (Queues(), [*front, whole[:64], whole[64:]])),
                (100, "'.'", True, (Queues(unseen=unseen), [*front, [*front[1], *whole[:61]]]))):
            self.assertEqual(self.asked_for(count, text, at_once=at_once), due)

    def test_no_room(self) -> None:
        """A block that has all the looks it may have isn't asked once more."""
        found = queues_compared(lambda looks: self.fail(f"{looks}"), 64, at_once=True)
        self.assertEqual(found.unseen, ["queues weren't compared: a block has at most 64 looks, and this one has them"])

    def test_unseen(self) -> None:
        """Sides that are the same but for what can't be looked at give status 4, with --even-unrun too."""
        for even_unrun in (False, True):
            self.assertEqual(Report(True, [], None, ["bytes"]).status(even_unrun=even_unrun), 4)


class ChoicesTest(TestCase):
    def test_answers_by_hand(self) -> None:
        for old, new, call in BY_HAND:
            os.environ.update(CICSLOOK=CICSLOOK, OLD=old, NEW=new, OLD_SOURCE=COUNTER)
            self.none_of(failures_of([call], ["--cicslook", STAND_IN]))

    def test_wrong_words(self) -> None:
        self.none_of(failures_of(WRONG, PROGRAMS))
        self.none_of(failures_of([Call("cicsedf", "cics-same", [*FRONT, "c.asm"], 2, [], FILES, "--choices needs cicslook")], ["--cicsedf", CICSEDF]))

    def test_real(self) -> None:
        self.none_of(failures_of(REAL, PROGRAMS))


def graph(*arrows: list[int]) -> Choices:
    """An answer whose states' keys lead to these states, in the order of the keys."""
    return Choices(9, 1, states=[State(number, 1, arrows=[Arrow(key, to) for key, to in enumerate(tos, 1)]) for number, tos in enumerate(arrows, 1)])


def drawn(draw: random.Random) -> Choices:
    """An answer with some states, of which some keys can't be pressed, or lead to what isn't written, or are refused."""
    count = draw.randint(1, 4)
    found = []
    for number in range(1, count + 1):
        keys = [key for key in (1, 2, 3) if draw.random() < 0.95]
        arrows = [Arrow(key, draw.randint(1, count) if draw.random() < 0.9 else None, [Incident("T001", "ASRA", True)] * (draw.random() < 0.1)) for key in keys]
        found.append(State(number, number, arrows=arrows, text=["SCREEN T001", f"01|{draw.choice('AAB')}"]))
    return Choices(9, count, states=found)


def followed(choices: Choices, keys: tuple[int, ...]) -> tuple[State | None, list[str] | None]:
    """The state to which a list leads, where that is written, and what comes of its last key, where it can be pressed."""
    state: State | None = choices.state(1)
    came: list[str] | None = []
    for key in keys:
        arrow = next((arrow for arrow in state.arrows if arrow.key == key), None) if state else None
        came = [incident.line() for incident in arrow.incidents] if arrow else None
        state = choices.state(arrow.to) if arrow and arrow.to else None
    return state, came


def first_by_trial(old: Choices, new: Choices, most: int) -> tuple[int, ...] | None:
    """The first list of all, those of fewer keys first, after which something differs; each is followed by itself."""
    for many in range(most + 1):
        for keys in itertools.product((1, 2, 3), repeat=many):
            fronts = [followed(choices, keys[:-1])[0] for choices in (old, new)]
            (before, came), (after, came_new) = followed(old, keys), followed(new, keys)
            if all(fronts) and (came != came_new or before and after and before.text != after.text):
                return keys
    return None


class WalkTest(TestCase):
    """The shortest list after which something differs, and of several the first."""

    def test_drawn(self) -> None:
        draw, found = random.Random(7), Counter[int]()
        for _ in range(300):
            old = drawn(draw)
            new = copy.deepcopy(old) if draw.random() < 0.2 else drawn(draw)
            walked, tried = Together(old, new).first(), first_by_trial(old, new, 4)
            if walked is None or len(walked.keys) <= 4:
                self.assertEqual(walked and walked.keys, tried, (old, new))
            found[-1 if walked is None else len(walked.keys)] += 1
        self.assertTrue(all(found[many] > 5 for many in (-1, 0, 1, 2)), found)


class ToursTest(TestCase):
    """Which keys are pressed to count what they run: each key in each state."""

    def test_tours(self) -> None:
        graphs: list[tuple[Choices, list[list[int]]]] = [
            (graph([1]), [[1]]), (graph([]), []), (graph([2, 1], [1, 1]), [[1, 1, 2, 1, 2]]), (graph([2, 3], [2], [3]), [[1, 1], [2, 1]]),
            (graph([2], [3], [2, 3]), [[1, 1, 1, 1, 2]])]
        for choices, lists in graphs:
            self.assertEqual(tours_of(choices).lists, lists)
            self.assertTrue(self.presses_all(choices, lists))

    def test_drawn(self) -> None:
        draw = random.Random(8)
        for _ in range(200):
            choices = drawn(draw)
            lists = tours_of(choices).lists
            self.assertTrue(self.presses_all(choices, lists), (choices, lists))

    def test_cut(self) -> None:
        tours = tours_of(graph([2, 1], [1, 1]), 2)
        self.assertEqual((tours.lists, tours.left), ([[1, 1]], 2))

    def presses_all(self, choices: Choices, lists: list[list[int]]) -> bool:
        """Whether lists press each key that leads to what is written, in each state to which there is a way."""
        pressed, met = set[tuple[int, int]](), {1}
        for keys in lists:
            at = 1
            for key in keys:
                to = {arrow.key: arrow.to for arrow in choices.state(at).arrows}[key]
                assert to is not None
                pressed.add((at, key))
                met.add(to)
                at = to
        return all(arrow.to is None or (number, arrow.key) in pressed and arrow.to in met for number in met for arrow in choices.state(number).arrows)
