"""What cics-map tells of the screens that keys reach: how an answer of CHOICES is read, the keys that are proposed, the lines, the page and the
statuses. Answers are written by hand, and `stand-in` gives them; `cicslook` itself does the rest, and is asked too."""
import html
import json
import os
import random
import re
from collections.abc import Sequence

from cics.child import TOP, encoded, lines_of, read, run, text_of
from cics.choices import Incident, Question, meaning, question_of, read_choices, why_not
from cics.key_sets import count_of, expanded, is_spoilt
from cics.map.abends import Abend
from cics.map.arrows import levels_of, lists_of
from cics.map.asking import Subject, region_of
from cics.map.compared import compared_in
from cics.map.fields import MapField, fields_of, typed_into, untyped
from cics.map.page import page_of
from cics.map.proposals import MOST, Program, proposed, spoilt
from cics.map.report import Map, lines_of_map
from cics.same import Fault
from cics.scripts import Action, actions_of
from tests.calling import Call, called, failures_of, folder_of
from tests.case import CICSLOOK, PROGRAMS, TestCase
from tests.film.trials import script_ran

STAND_IN = f"{TOP}/companions/tests/stand-in"
LESSONS = f"{TOP}/examples/lessons"
SETS = {  # lines with sets, and what each stands for
    "KEY T001 ENTER A": ["KEY T001 ENTER A"],
    "KEY T001 ENTER {A|B}": ["KEY T001 ENTER A", "KEY T001 ENTER B"],
    "KEY T001 {ENTER|PF3}": ["KEY T001 ENTER", "KEY T001 PF3"],
    "KEY {X|Y} ENTER {A|}": ["KEY X ENTER A", "KEY X ENTER ", "KEY Y ENTER A", "KEY Y ENTER "],
    "KEY X ENTER {1#|A}": [*(f"KEY X ENTER 1{digit}" for digit in range(10)), "KEY X ENTER A"],
    "KEY X ENTER |#}": ["KEY X ENTER |#}"],
    "KEY X ENTER {}": ["KEY X ENTER "],
}
PAY = "".join(f"{line}\n" for line in re.split("\n", read(f"{LESSONS}/09-abends/data.script").decode())[3:34]).replace(" LIST", "")
REFUSED, ABENDS = "ANSWERS T001 NoSuchTransaction", "ABENDS T001 ASRA"
ONE = ["KEY 1 TO 2", "KEY 2 TO 1", ABENDS, "KEY 3 TO 1", REFUSED]
TWO = ["KEY 1 TO MORE", "KEY 2 TO 2", ABENDS, "KEY 3 TO 2", REFUSED]
STATES = ["STATE 1 SCREEN 1", *ONE, "SCREEN T001", "STATE 2 SCREEN 2", "KEY T001 ENTER PAY 00125", "RUN T001 8", *TWO, "SCREEN T001", "01|TOTAL 0000125"]
TROUBLES = ["STATE 1", *ONE[1:3], "STATE 1", *ONE[3:], "STATE 2", *TWO[1:3], "STATE 2", *TWO[3:]]
ANSWER = ["CHOICES KEYS 1 STATES 2 SCREENS 2 ONE NUMBER", *TROUBLES, *STATES]
CUT = ["CHOICES MORE THAN 2 STATES, ALL OF 1 KEYS SCREENS 2", *ANSWER[1:]]
CLOSED = ["CHOICES KEYS 8 STATES 2 SCREENS 2 CLOSED", "STATE 1 SCREEN 1", "KEY 1 TO 2", "SCREEN T001", "STATE 2 SCREEN 2", "KEY T001 ENTER PAY 00125",
          "RUN T001 8", "KEY 1 TO 2", "SCREEN T001", "01|TOTAL 0000125"]
ALONE = ["CHOICES KEYS 8 STATES 1 SCREENS 1 CLOSED", "STATE 1 SCREEN 1", "KEY 1 TO 1", REFUSED, "SCREEN T001"]
MIXED = [  # two terminals: a task that waits, one that goes on for ever, a screen that two states show
    "CHOICES KEYS 2 STATES 4 SCREENS 3", "STATE 3", "KEY 2 TO 4", "ABENDS T002 AEIA", "ABENDS T001 ASRA", "STATE 1 SCREEN 1", "EDF T001 OFF", "KEY 1 TO 2",
    "KEY 2 TO 3", "SCREEN T001", "SCREEN T002", "STATE 2 SCREEN 2", "EDF T001 OFF", "KEY T001 ENTER TO", "RUN T001 4096", "T002 ONE LEVEL 01 WAITING FOR INPUT",
    "STILL RUNNING", "SCREEN T001", "SCREEN T002", "24|KEY 1 TO 2", "STATE 3 SCREEN 1", "EDF T001 OFF", "KEY T002 PF3", "RUN T002 1", "RUN T001 2",
    "KEY 1 TO MORE", "KEY 2 TO 4", "ABENDS T002 AEIA", "ABENDS T001 ASRA", "STATE 4 SCREEN 3", "EDF T001 OFF", "KEY T002 PF3", "RUN T002 1", "RUN T001 2",
    "KEY T002 PF3", "SCREEN T001", "01|A", "SCREEN T002"]
KEYS = "* What is pressed.\n\nKEY T001 ENTER PAY {00|}125\nKEY T001 PF3\n"
FILES = {"s.script": PAY, "k": KEYS, "pay.asm": "".join(f"{line}\n" for line in PAY.split("\n")[1:28])}
ABENDING = "PAY line 18: CVB 5,PACKED"
LINES = [
    "3 keys.",
    "All lists of at most 1 key lead to 2 states, which show 2 screens. Longer ones lead to more.",
    "Each key begins with the same task number; with numbers that count on each state's list was tried, and one key more (ONE NUMBER).",
    "SCREEN 1 by 0 keys, state 1",
    "  ENTER PAY 00125 -> SCREEN 2",
    f"  ENTER PAY 125 -> SCREEN 1: {ABENDS} at {ABENDING}",
    f"  PF3 -> SCREEN 1: {REFUSED}",
    "SCREEN 2 by 1 key, state 2: TOTAL 0000125",
    "  ENTER PAY 00125 -> MORE",
    f"  ENTER PAY 125 -> SCREEN 2: {ABENDS} at {ABENDING}",
    f"  PF3 -> SCREEN 2: {REFUSED}"]
BLOCK = "CHOICES 8\nKEY T001 ENTER PAY {00|}125\nKEY T001 PF3\n/*\n"
CALLS = [
    (ANSWER, Call("lines", "cics-map", ["s.script", "--keys", "k", "-n", "1", "--one-number"], 1, LINES, FILES)),
    (ANSWER, Call("a block of its own", "cics-map", ["s.script"], 1, LINES, {"s.script": f"{PAY}{BLOCK}NONE\n"})),
    (CUT, Call("more states", "cics-map", ["s.script", "--keys", "k", "--states", "2"], 1,
               ["3 keys.", "There are more states than 2, so all lists of at most 1 key are here, and no longer ones: 2 states, * (MORE THAN).", *LINES[3:]], FILES)),
    ([CUT[0], *CLOSED[1:]], Call("more states, and no abend", "cics-map", ["s.script", "--keys", "k"], 4, ["3 keys.", *["*"] * 5], FILES)),
    (CLOSED, Call("all of them", "cics-map", ["s.script", "--keys", "k"], 0,
                  ["3 keys.", "No list of these keys, of any length, leads to anything else than 2 states, which show 2 screens (CLOSED).",
                   LINES[3], LINES[4], LINES[7], "  ENTER PAY 00125 -> SCREEN 2"], FILES)),
    (ALONE, Call("one state alone", "cics-map", ["s.script", "--keys", "k"], 2, [], FILES, "cics-map: s.script: no key leads to another state")),
    (["bad"], Call("another answer", "cics-map", ["s.script", "--keys", "k"], 1, [], FILES, "cics-map: s.script: bad")),
    (CLOSED, Call("no keys", "cics-map", ["s.script", "--keys", "n"], 2, [], {**FILES, "n": "* NONE\n"}, "cics-map: s.script: there are no keys")),
    (CLOSED, Call("a bad key", "cics-map", ["s.script", "--keys", "b"], 2, [], {**FILES, "b": f"{KEYS}KEY T001 enter\n"}, "b:5: a key is in capitals; ENTER?")),
    (CLOSED, Call("no key", "cics-map", ["s.script", "--keys", "b"], 2, [], {**FILES, "b": "SCREEN T001\n"}, "b:1: only KEY lines and comments")),
    (CLOSED, Call("a set that isn't ended", "cics-map", ["s.script", "--keys", "b"], 2, [], {**FILES, "b": "KEY T001 ENTER {A{B}\n"}, "b:1: a { without a }")),
    (CLOSED, Call("a bad heading", "cics-map", ["s.script"], 1, [], {"s.script": PAY + BLOCK.replace("8", "65")},
                  "cics-map: s.script:32: BadLine: the number of keys is 1 to 64")),
    (CLOSED, Call("a bad line in front", "cics-map", ["s.script"], 1, [], {"s.script": f"TURN  T001\n{PAY}{BLOCK}"}, "cics-map: s.script:1: BadLine: two blanks")),
    (CLOSED, Call("a block that isn't ended", "cics-map", ["s.script"], 1, [], {"s.script": f"{PAY}{BLOCK[:-3]}"}, "s.script:32: BadLine: the script ends before")),
    (CLOSED, Call("too deep", "cics-map", ["s.script", "-n", "65"], 2, [], FILES, "-n: a number from 1 to 64")),
    (CLOSED, Call("two scripts", "cics-map", ["s.script", "s.script"], 2, [], FILES, "a script stands alone")),
    (CLOSED, Call("no file", "cics-map", ["n.script"], 3, [], FILES, "cics-map: n.script: No such file")),
    *((CLOSED, Call(f"over {name}, which is read", "cics-map", ["s.script", "--keys", "k", "-o", name], 3, [], FILES,
                    f"cics-map: {name}: it is read, so it isn't written")) for name in ("s.script", "k")),
]
UNPRESSED = f"CLEAR, PA1, PA2, {', '.join(f'PF{number}' for number in range(1, 13))}: no source compares EIBAID with them"
REST = "texts as records, queues and COMMAREAs have them, and all others"
REAL = [
    Call("a faulty source of a script", "cics-map", ["s.script", "--keys", "k"], 1, [], {**FILES, "s.script": PAY.replace("CVB ", "CVC ")},
         "s.script:19:10: UnknownOperation: CVC"),
    Call("over test data", "cics-map", ["pay.asm", "--keys", "k", "-n", "1", "--queue", "Q=q", "-o", "q"], 3, [], {**FILES, "q": "A\n"},
         "cics-map: q: it is read, so it isn't written"),
    Call("a faulty source", "cics-map", ["f.asm"], 1, [], {"f.asm": FILES["pay.asm"].replace("CVB ", "CVC ")}, "cics-map: f.asm: there are faults"),
    Call("a source, whose keys are proposed", "cics-map", ["pay.asm", "-n", "1", "--one-number"], 1,
         ["16 keys. They are proposed by what the sources compare, so others may lead elsewhere.", f"Not proposed: {UNPRESSED}.", f"Not proposed: {REST}.",
          "All lists of at most 1 key lead to 4 states, which show 4 screens. Longer ones lead to more.", LINES[2], LINES[3],
          "  ENTER PAY, ENTER PAY 1, ENTER PAY 0000, ENTER PAY 19, ENTER PAY Z, ENTER PAY ZZZZ and 1 more -> SCREEN 1: "
          f"{ABENDS} at {ABENDING}", "  ENTER PAY 00001, ENTER PAY 000019 -> SCREEN 2",
          "  ENTER PAY ZZZZZ, ENTER PAY 99999, ENTER PAY ZZZZZZ, ENTER PAY 999999, ENTER PAY 9999Z -> SCREEN 3",
          f"  ENTER -> SCREEN 1: {REFUSED}", "  ENTER PAY 0000Z -> SCREEN 4", "SCREEN 2 by 1 key, state 2: TOTAL 0000001", *["*"] * 3,
          "SCREEN 3 by 1 key, state 3: TOTAL 0099999", *["*"] * 3, "SCREEN 4 by 1 key, state 4: TOTAL 0000009", *["*"] * 3], FILES,
         "cics-map: 16 keys are proposed; others may lead elsewhere. These lines, or your own in a file, are taken by --keys FILE:\n"
         "* the transactions\nKEY T001 ENTER PAY\n"
         "* PAY: texts with which the input is compared, or numbers that are made of it, and others\n"
         "KEY T001 ENTER {PAY 00001|PAY 1|PAY ZZZZZ|PAY 99999}\n* ENTER without a text\nKEY T001 ENTER\n"
         "* these texts cut short, left out, too long, and with a letter for a digit\n"
         "KEY T001 ENTER {PAY 0000|PAY 000019|PAY 0000Z|PAY 19|PAY Z|PAY ZZZZ|PAY ZZZZZZ|PAY 9999|PAY 999999|PAY 9999Z}\n"
         f"* not proposed: {UNPRESSED}\n* not proposed: {REST}\n"),
]
COMPARED = """DFHEISTG DSECT
INLEN    DS    H
INPUT    DS    CL20
WORD     DS    CL4
NUMBER   DS    D
ENTRY    DSECT
CODE     DS    CL2
NAME     DS    CL3
ENTLEN   EQU   *-ENTRY
P        CSECT
         EXEC  CICS RECEIVE INTO(INPUT) LENGTH(INLEN)
         CLI   EIBAID,DFHPF3
         BE    OUT
         CLI   EIBAID,X'6D'
         BE    OUT
         MVC   WORD,INPUT+2
         CLC   WORD,=CL4'ADD'
         BE    OUT
         CLC   =C'DROP',WORD
         BE    OUT
         CLI   INPUT+10,C'Y'
         BE    OUT
         CLC   INPUT+12(3),LIMIT
         BH    OUT
         CLC   NAME,LIMIT              NO INPUT
         PACK  NUMBER,INPUT+16(2)
         CVB   4,NUMBER
         CH    4,=H'31'
         BH    OUT
         CH    4,=H'7'                 NO LIMIT
         BE    OUT
         LA    7,TABLE
         USING ENTRY,7
FIND     CLC   NAME,INPUT+7
         BE    OUT
         LA    7,ENTLEN(0,7)
         B     FIND
         DROP  7
OUT      EXEC  CICS RETURN
LIMIT    DC    C'010'
TABLE    DC    C'01',C'ONE'
         DC    C'02',CL3'TO'
         DC    X'FF'
         COPY  DFHAID
         END
"""
FOUND = [(17, 2, "ADD "), (19, 2, "DROP"), (21, 10, "Y"), (23, 12, "009"), (23, 12, "010"), (23, 12, "011"), (28, 16, "30"), (28, 16, "31"), (28, 16, "32"),
         (34, 7, "ONE"), (34, 7, "TO ")]


def looked(lines: Sequence[str]) -> list[str]:
    return [f"> {line}" for line in lines]


def mapped(lines: Sequence[str], keys: Sequence[str], terminals: Sequence[str] = ("T001",), text: Sequence[str] = ()) -> Map:
    """The map of an answer."""
    return Map(Subject("a script", [*text], Question([*keys]), terminals=[*terminals]), read_choices(looked(lines)), [])


PRESSED = ["KEY T001 ENTER PAY {00|}125", "KEY T001 PF3"]


class ReadingTest(TestCase):
    def test_sets(self) -> None:
        self.assertEqual({line: [*expanded(line)] for line in SETS}, SETS)
        self.assertEqual({line: count_of(line) for line in SETS}, {line: len(found) for line, found in SETS.items()})
        self.assertEqual([is_spoilt(line) for line in ("{", "{A{B}", "A}", "{A}{", "{A}B{C}", "")], [True, True, False, True, False, False])
        self.assertEqual(count_of("{####}{#|A}"), 110_000)

    def test_question(self) -> None:
        block = actions_of("choices 8 20 one number\n* A COMMENT\n\nKEY T001 ENTER {A|B}\nSCREEN T001\nstorage 001000 4\n/*\n")[0]
        question = question_of(block)
        self.assertEqual(question, Question(["KEY T001 ENTER {A|B}"], ["SCREEN T001", "storage 001000 4"], 8, 20, True))
        self.assertEqual(question.block(3).lines, ["CHOICES 8 20 ONE NUMBER", "KEY T001 ENTER {A|B}", "SCREEN T001", "storage 001000 4", "/*"])
        for heading in ("CHOICES", "CHOICES 0", "CHOICES 65", "CHOICES 8 1000001", "CHOICES 8 ONE", "CHOICES ONE NUMBER"):
            self.assertRaises(Fault, question_of, Action(1, [heading, "/*"]))
        wrong = [Question([]), Question(["KEY A ENTER {"]), Question(["KEY A ENTER {####}{|A}"]), Question(["KEY A PF1"] * 257), Question(["KEY A PF1"] * 256)]
        self.assertEqual([why_not(one) for one in wrong], [
            "there are no keys", "KEY A ENTER {: a { without a } after it", "20000 keys; at most 10000", "257 lines with keys; at most 256", None])

    def test_answer(self) -> None:
        found = read_choices(looked(ANSWER))
        self.assertEqual((found.depth, found.screens, found.has_one_number, found.is_closed, found.most), (1, 2, True, False, None))
        one, two = found.states
        self.assertEqual([(it.key, it.to, it.incidents) for it in one.arrows],
                         [(1, 2, []), (2, 1, [Incident("T001", "ASRA", True)]), (3, 1, [Incident("T001", "NoSuchTransaction", False)])])
        self.assertEqual((two.screen, two.keys(), two.arrows[0].to, two.text), (2, ["KEY T001 ENTER PAY 00125"], None, ["SCREEN T001", "01|TOTAL 0000125"]))

    def test_answer_of_two_terminals(self) -> None:
        """Lines of lists, arrows and texts are told from each other by where they stand."""
        found = read_choices(looked(MIXED))
        self.assertEqual([(it.number, it.screen, len(it.moves), len(it.arrows), it.is_running()) for it in found.states],
                         [(1, 1, 1, 2, False), (2, 2, 3, 0, True), (3, 1, 4, 2, False), (4, 3, 5, 0, False)])
        self.assertEqual(found.state(3).text, found.state(1).text)
        self.assertEqual(found.state(2).text[0], "T002 ONE LEVEL 01 WAITING FOR INPUT")
        self.assertEqual([it.what for it in found.state(3).arrows[1].incidents], ["AEIA", "ASRA"])
        self.assertEqual({screen: [it.number for it in states] for screen, states in found.shared().items()}, {1: [1, 3], 2: [2], 3: [4]})
        self.assertEqual((levels_of(found), [before for before, _ in lists_of(found)]), ({1: 0, 2: 1, 3: 2}, [0, 1, 1, 3]))

    def test_numbers_show(self) -> None:
        """With ONE NUMBER the list of state 2 isn't written, and a key of it and of state 1 does something else."""
        first = "CHOICES KEYS 8 STATES 3 SCREENS 2 ONE NUMBER NUMBERS SHOW"
        lines = [first, "STATE 1 SCREEN 1", "KEY 1 TO 2", "NUMBERS SHOW BY KEYS", "SCREEN T001", "STATE 2 SCREEN 2", "NUMBERS SHOW", "KEY 1 TO 3", "SCREEN T001",
                 "01|ODD", "STATE 3 SCREEN 2", "KEY T001 ENTER A", "RUN T001 4", "KEY T001 ENTER A", "RUN T001 4", "KEY 1 TO 3"]
        found = read_choices(looked(lines))
        self.assertEqual([(state.list_differs, state.keys_differ, state.moves) for state in found.states[:2]], [(False, True, []), (True, False, [])])
        self.assertEqual((found.numbers_show, found.is_closed, found.states[1].text), (True, False, ["SCREEN T001", "01|ODD"]))
        self.assertEqual((levels_of(found), lists_of(found)[2]), ({1: 0, 2: 1}, (0, found.states[2].moves)))
        self.assertEqual(meaning(found)[2], "With numbers that count on the list or a key of 2 states, the first 1, does something else (NUMBERS SHOW).")

    def test_answers_that_are_none(self) -> None:
        answers: list[list[str]] = [[], ["ORDERS STATES 1 OUTCOMES 1"], ANSWER[:-12], [ANSWER[0].replace("SCREENS 2", "SCREENS 3"), *ANSWER[1:]],
                                    [line.replace("STATE 2 SCREEN", "STATE 3 SCREEN") for line in ANSWER]]
        for lines in answers:
            self.assertRaises(Fault, read_choices, looked(lines))

    def test_meaning(self) -> None:
        said = [meaning(read_choices(looked(lines)))[0].partition(" ")[0] for lines in (ANSWER, CUT, CLOSED)]
        self.assertEqual(said, ["All", "There", "No"])


class ProposalsTest(TestCase):
    def test_compared(self) -> None:
        found = compared_in(COMPARED.split("\n"))
        self.assertEqual(found.aids, {"PF3": 12, "CLEAR": 14})
        self.assertEqual([(one.line, one.at, one.text) for one in found.texts], FOUND)
        self.assertEqual((found.numbers, found.has_input), ([(16, 2)], True))

    def test_no_source(self) -> None:
        """Nothing that stands where a source should makes a proposal, or ends it."""
        sources: list[list[str]] = [[], ["NONSENSE"], ["P CSECT", " CLC INPUT(", " CLI EIBAID", " CLC A,B", " PACK", " EXEC CICS RECEIVE INTO(X)", " LA 7"]]
        for lines in sources:
            self.assertEqual(compared_in(lines).texts, [])

    def test_changed_sources(self) -> None:
        """Sources of which lines were cut, changed, doubled or taken out end nothing, and what is proposed by them can be asked."""
        drawn, own = random.Random(7), COMPARED.split("\n")
        for _ in range(300):
            lines = [*own]
            for at in (drawn.randrange(len(lines)) for _ in range(drawn.randint(1, 8))):
                cut = drawn.randrange(30)
                lines[at] = drawn.choice([lines[at][:cut], lines[at][:cut] + drawn.choice("(),'=+*X9\xe9") + lines[at][cut + 1 :], own[drawn.randrange(len(own))], ""])
            found = proposed([Program("P", lines, ["P"])], ["P"], ["T001"], [])
            self.assertIsNone(why_not(Question(found.all_lines())), lines)

    def test_proposed(self) -> None:
        found = proposed([Program("P", COMPARED.split("\n"), ["P"])], ["P", "Q"], ["T001", "T002"], ["PF3", "ENTER P A|B"])
        lines = found.all_lines()
        self.assertEqual(lines[:4], ["KEY {T001|T002} ENTER {P|Q}", "KEY {T001|T002} PF3", "KEY {T001|T002} ENTER P A|B", "KEY {T001|T002} CLEAR"])
        keys = [key for line in lines for key in expanded(line)]
        self.assertEqual((len(keys), len({*keys})), (found.count, found.count))
        self.assertIn("KEY T002 ENTER P ADD  ONEY 009 30", keys)
        self.assertTrue(found.count <= MOST)

    def test_too_many(self) -> None:
        found = proposed([], [f"T{number:03}" for number in range(150)], ["T001"], [])
        self.assertEqual((found.count, found.left_out, len([*expanded(found.all_lines()[0])])), (MOST, 50, MOST))

    def test_lessons(self) -> None:
        """Of each script of the lessons something is proposed, and each line is one of a block."""
        for name in ("01-inquiry/inquiry", "02-menu/menu", "05-work-list/work-list", "17-never-run/post"):
            region = region_of(actions_of(read(f"{LESSONS}/{name}.script").decode()))
            question = Question(region.proposals().all_lines())
            self.assertIsNone(why_not(question), name)
            self.assertTrue({"ENTER BAL", "ENTER MENU", "ENTER POST A 09", "ENTER JOBS ADD  1"} & {key.split(" ", 2)[2] for key in question.keys()}, name)

    def test_test_data(self) -> None:
        """What loads test data is no transaction for an operator."""
        region = region_of(actions_of("TRANSACTION P P\nTRANSACTION $QLA $QLOAD1\nTERMINAL T001\n"))
        self.assertEqual((region.transactions, region.proposals().all_lines()), ({"P": "P"}, ["KEY T001 ENTER P"]))

    def test_spoilt(self) -> None:
        """Each text cut short, left out, too long, and with a letter for a digit; a transaction alone isn't spoilt."""
        texts = {"ORDQ B1000": ["ORDQ B100", "ORDQ", "ORDQ B10009", "ORDQ B100Z"], "ORDQ AB": ["ORDQ A", "ORDQ", "ORDQ ABZ"], "ORDQ": [], "": [],
                 "12": ["1", "", "129", "1Z"], "ORDQX": ["ORDQ", "", "ORDQXZ"]}
        self.assertEqual({text: [*spoilt(text, ["ORDQ", "P"])] for text in texts}, texts)

    def test_what_is_not_proposed(self) -> None:
        """A program that compares its input with nothing, one that looks at it by TRT, and keys that are left out."""
        receiving = ["P        CSECT", "         EXEC  CICS RECEIVE INTO(X) LENGTH(Y)", "         TRT   X,T", "         CLI   EIBAID-DFHEIBLK(2),X'F3'",
                     *(f"         CLC   X,=C'{number:03}'" for number in range(200)), "X        DS    CL3", "         END"]
        found = proposed([Program("P", receiving, ["P"]), Program("Q", [*receiving[:2], receiving[-2]], ["Q"])], ["P", "Q"], ["T001"], [])
        self.assertEqual([line for line in found.missing if "EIBAID" not in line],
                         ["P, line 3: what TRT or TR looks for in the input", "Q: a text, though it receives one, since it compares that with no constant",
                          f"{found.left_out} keys more than 100 that what is found would propose", REST])
        self.assertTrue(found.left_out > 100 and "KEY T001 PF3" in found.all_lines())

    def test_fields(self) -> None:
        """Fields that aren't protected, X'20', are typed into; a field for numbers is X'10'."""
        made = ["*STAND-IN OF MAPSET SET: MADE BY CICS-ADAPT FROM ITS DFHMSD", "SET      CSECT", "M0       DC    CL8'MAP1',A(M1),H'3',AL2(0),H'0',H'40'",
                "         DC    H'0',H'3',X'11E0',H'3',A(T0I0),CL12'NUMBER'", "         DC    H'9',H'9',X'3080',H'6',A(T0I1),CL12'TITLE'",
                "         DC    H'20',H'1',X'0080',H'9',A(T0I2),CL12'CODE(2)'", "M1       DC    CL8'MAP2',A(0),H'1',AL2(0),H'0',H'40'",
                "         DC    H'0',H'2',X'0080',H'3',A(T1I0),CL12'NAME'", "         END"]
        fields = fields_of([made, made[1:]])
        self.assertEqual(fields, [MapField("MAP1", "NUMBER", 3, True), MapField("MAP1", "CODE(2)", 1, False), MapField("MAP2", "NAME", 2, False)])
        self.assertEqual([*typed_into(fields)], ["NUMBER=999", "NUMBER=99", "NUMBER=1", "NUMBER=ZZZ", "NUMBER=", "CODE(2)=Z", "CODE(2)=", "CODE(2)=9",
                                                 "NAME=ZZ", "NAME=Z", "NAME=99", "NAME=", "NUMBER=999;CODE(2)=Z"])
        self.assertEqual(untyped(fields, ["KEY T001 ENTER P", "KEY T001 ENTER @=7;NUMBER=1;NAME="]), [fields[1]])

    def test_maps_of_a_program(self) -> None:
        """Fields of a program's maps are typed into without being named; what none types into is told, and a key that no keyboard gives is no abend."""
        folder = f"{TOP}/examples/stand-in"
        with folder_of({"k": "KEY T001 ENTER PART\n"}) as made:
            ended = called("cics-adapt", ["--stand-in", f"{folder}/partinq.asm", "--bms", f"{folder}/partset.bms", "--file", f"PARTS={folder}/parts.csv,key=PRNUMBER",
                                          "--out", made], made)
            self.assertIn(ended.status, (0, 4), ended)
            sources = [name for name in sorted(os.listdir(made)) if name.endswith(".asm")]
            words = [*sources, "--tran", "PART=PARTINQ", "--queue", "PARTS=PARTS.queue", "-n", "2", "--one-number", "--json", *PROGRAMS]
            found = json.loads(called("cics-map", words, made).out)
            alone = json.loads(called("cics-map", [*words, "--keys", "k"], made).out)
        self.assertIn("KEY T001 ENTER NUMBER=99999", found["keys"])
        self.assertEqual([one["what"] for one in found["abends"] if "SIKY" in one["what"]], [])
        self.assertTrue(found["notProposed"] and not any(line.startswith("No key types") for line in found["said"]), found["said"])
        self.assertEqual((alone["notProposed"], [line.split(":")[0] for line in alone["said"][2:3]]), (None, ["No key types into these fields of maps"]))

    def test_keys_under_edf(self) -> None:
        """Keys for EDF are none of the script's own."""
        region = region_of(actions_of("TERMINAL T001\nKEY T001 ENTER A\nEDF T001 ON\nKEY T001 PF5\nEDF T001 OFF\nKEY T001 PF3\nKEY T001 ENTER A\n"))
        self.assertEqual(region.keys, ["ENTER A", "PF3"])


class CallsTest(TestCase):
    def test_answers_by_hand(self) -> None:
        for lines, call in CALLS:
            os.environ.update(CICSLOOK=CICSLOOK, NEW="\n".join(looked(lines)), OLD="", OLD_SOURCE="NONE")
            self.none_of(failures_of([call], ["--cicslook", STAND_IN]))

    def test_json_and_page(self) -> None:
        os.environ.update(CICSLOOK=CICSLOOK, NEW="\n".join(looked(ANSWER)), OLD="", OLD_SOURCE="NONE")
        words = ["s.script", "--keys", "k", "--cicslook", STAND_IN]
        with folder_of(FILES) as folder:
            given = called("cics-map", [*words, "--json"], folder)
            page = called("cics-map", [*words, "-o", "p.html"], folder)
            self.assertEqual((given.status, page.status, page.out, page.reported), (1, 1, b"", b""))
            text = read(os.path.join(folder, "p.html")).decode()
            self.assertEqual(called("cics-map", [*words, "-o", "k"], folder).status, 3)
            self.assertEqual(called("cics-map", [*words, "-o", "-", "--json"], folder).status, 2)
        data = json.loads(given.out)
        self.assertEqual(data, json.loads(data_in(text)))
        self.assertEqual([(one["number"], one["level"], one["states"]) for one in data["screens"]], [(1, 0, [1]), (2, 1, [2])])
        self.assertEqual(data["states"][1], {"screen": 2, "from": 1, "lines": ["KEY T001 ENTER PAY 00125", "RUN T001 8"],
                                             "arrows": [[1, 0], [2, 2, [ABENDS]], [3, 2, [REFUSED]]]})
        first = data["abends"][0]
        self.assertEqual((first["where"], first["moves"]), (ABENDING, ["KEY T001 ENTER PAY 125", "RUN T001 5"]))
        self.assertIn("INTERRUPTION 7 DATA", first["cause"][0])
        self.assertEqual(data["script"], lines_of(PAY))

    def test_sources(self) -> None:
        self.none_of(failures_of(REAL, PROGRAMS))

    def test_real(self) -> None:
        """CHOICES of cicslook itself, at two terminals, where it is closed: an abend has its place, and its lines lead there."""
        script = f"{PAY}TERMINAL T002\n"
        with folder_of({"s.script": script, "k": "KEY {T001|T002} ENTER PAY {00000|1}\n"}) as folder:
            ended = called("cics-map", ["s.script", "--keys", "k", "--one-number", "--json", *PROGRAMS], folder)
        data = json.loads(ended.out)
        self.assertEqual((ended.status, data["closed"], len(data["screens"]), {(one["what"], one["where"]) for one in data["abends"]}),
                         (1, True, 4, {(f"ABENDS {terminal} ASRA", ABENDING) for terminal in ("T001", "T002")}))
        for one in data["abends"]:
            shown = run([CICSLOOK], encoded(text_of([*lines_of(script), *one["moves"], f"ABEND {one['what'].split(' ')[1]}"]))).lines()
            self.assertEqual(shown[-len(one["cause"]) :], looked(one["cause"]))

    def test_lists_lead_there(self) -> None:
        """Each list of a map, as a script, leads to the screen that the map has."""
        script = read(f"{LESSONS}/01-inquiry/inquiry.script").decode()
        before = script[: script.index("TERMINAL T001\n")] + "TERMINAL T001\n"
        with folder_of({"s.script": before, "k": "KEY T001 ENTER {BAL|1001|9|END}\nKEY T001 PF3\n"}) as folder:
            ended = called("cics-map", ["s.script", "--keys", "k", "-n", "3", "--one-number", "--json", *PROGRAMS], folder)
        data = json.loads(ended.out)
        for number, state in enumerate(data["states"], 1):
            shown = run([CICSLOOK], encoded(text_of([*lines_of(before), *list_of(data, number), "SCREEN T001"]))).lines()
            text = data["screens"][state["screen"] - 1]["text"]
            self.assertEqual(shown[-len(text) :], text, number)
        self.assertEqual((ended.status, len(data["states"]), len(data["screens"])), (0, 12, 8))


def list_of(data: dict[str, list[dict[str, list[str]]]], number: int) -> list[str]:
    """A state's list, as the page puts it together."""
    state = data["states"][number - 1]
    return [*(list_of(data, int(str(state["from"]))) if state["from"] else []), *state["lines"]]


def data_in(page: str) -> str:
    found = re.search(r'id="data">(.*?)</script>', page, re.S)
    assert found
    return found[1]


class PageTest(TestCase):
    def test_parts(self) -> None:
        page = page_of(mapped(ANSWER, PRESSED))
        self.assertEqual([word for word in ("http:", "https://", "src=", "/*STYLE", "/*SCRIPT", "/*DATA") if word in page.replace("http://www.w3.org/2000/svg", "")], [])
        self.assertIn("prefers-color-scheme: dark", page)
        self.assertEqual({*re.findall(r'id="(\w+)"', page)}, {"name", "first", "back", "at", "on", "last", "find", "all", "said", "about", "map", "large", "data"})

    def test_hostile_texts(self) -> None:
        """No text of a screen, a key or a script is markup."""
        hostile = "</script><img src=x onerror=alert(1)>"
        lines = [line.replace("TOTAL 0000125", hostile) for line in ANSWER]
        page = page_of(mapped(lines, [f"KEY T001 ENTER {hostile}", *PRESSED], text=[f"* {hostile}"]))
        self.assertEqual((page.count("<img"), html.unescape(data_in(page)).count("<")), (0, 0))
        self.assertEqual(json.loads(data_in(page))["screens"][1]["text"][1], f"01|{hostile}")

    def test_stand_ins(self) -> None:
        found = mapped(ANSWER, PRESSED)
        found.subject.sources["P"] = ["*STAND-INS: 7 (docs/STAND-INS.md)"]
        self.assertEqual([*lines_of_map(found)][:2], ["STAND-INS: 7", "3 keys."])

    def test_lines(self) -> None:
        found = mapped(MIXED, ["KEY T001 ENTER TO", "KEY T002 PF3"], ["T001", "T002"])
        self.assertEqual([*lines_of_map(found)], [
            "2 keys.", "All lists of at most 2 keys lead to 4 states, which show 3 screens. Longer ones lead to more.",
            "SCREEN 1 by 0 keys, states 1, 3", "  T001 ENTER TO -> SCREEN 2, in state 1", "  T002 PF3 -> SCREEN 1, in state 1", "  T001 ENTER TO -> MORE, in state 3",
            "  T002 PF3 -> SCREEN 3, in state 3: ABENDS T002 AEIA; ABENDS T001 ASRA",
            "SCREEN 2 by 1 key, state 2, STILL RUNNING: KEY 1 TO 2", "SCREEN 3 by 2 keys, state 4: A"])

    def test_abend_without_a_place(self) -> None:
        self.assertEqual(Abend(1, 1, Incident("T001", "ASRA", True)).where({}), "")
        self.assertEqual(Abend(1, 1, Incident("T001", "ASRA", True), place=("P", 9)).where({"P": ["X"]}), "P line 9")

    def test_many_abends(self) -> None:
        """Of 200 abends at most it is looked where they are; of more it is said that it isn't told of all."""
        found = mapped(ANSWER, PRESSED)
        found.abends = [Abend(1, 1, Incident("T001", "ASRA", True))] * 200
        self.assertFalse([it for it in found.said() if "abends" in it])
        found.abends += found.abends[:1]
        self.assertIn("Of 201 abends it is told of the first 200 where they are.", found.said())

    def test_script_of_the_page(self) -> None:
        """What the page's script makes of the data: pairs of screens with the worst that comes of a key, lists, and keys as they are shown."""
        page = page_of(mapped(MIXED, ["KEY T001 ENTER TO", "KEY T002 PF3"], ["T001", "T002"]))
        found = script_ran(page, expression="[view.pairs.map((it) => [it.from, it.to, [...it.keys.keys()], it.kind, it.isFirst]), listOf(4), keysOf(listOf(4)), "
                           "extent(), view.screens[1].parts.others, byId('at').textContent]", folder="map")
        self.assertEqual(found, [[[1, 2, [1], "", True], [1, 1, [2], "", False], [1, 0, [1], "", False], [1, 3, [2], "abends", True]], MIXED[-8:-3],
                                 ["T002 PF3", "T002 PF3"], [41, 24], ["T002 ONE LEVEL 01 WAITING FOR INPUT", "STILL RUNNING"], "screen 1 of 3"])

    def test_keys_of_the_page(self) -> None:
        page = page_of(mapped(MIXED, ["KEY T001 ENTER TO", "KEY T002 PF3"], ["T001", "T002"]))
        self.assertEqual(script_ran(page, "ArrowRight", "End", "ArrowRight", "Home", "ArrowLeft", folder="map")[:6],
                         [f"screen {number} of 3" for number in (1, 2, 3, 3, 1, 1)])
