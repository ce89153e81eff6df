"""What cics-same tells of the orders of two versions of programs. `stand-in` runs `cicslook` and answers ORDERS from a text, so that each
answer comes up; where `cicslook` has ORDERS itself, it is asked too."""
import os

from cics.child import TOP
from tests.calling import Call, failures_of
from tests.case import CICSEDF, CICSLOOK, PROGRAMS, TestCase

STAND_IN = f"{TOP}/companions/tests/stand-in"
ADDER = """DFHEISTG DSECT
SUM      DS    F
ADDER    CSECT
         EXEC  CICS ADDRESS CWA(5)
         L     6,0(5)
         EXEC  CICS SUSPEND
         LA    6,1(6)
         ST    6,0(5)
         EXEC  CICS RETURN
         END
"""
GIVING_WAY = "         EXEC  CICS SUSPEND\n"
WHOLE = ADDER.replace(GIVING_WAY, "")
SPINNING = ADDER.replace("         ST ", "SPIN     EXEC  CICS SUSPEND\n         C     6,=F'2'\n         BL    SPIN\n         ST ")
BLOCK = "ORDERS 100\nKEY T001 ENTER ADD\nKEY T002 ENTER ADD\nSTORAGE 001000 4\n/*\n"
HEAD = f"SOURCE ADDER\n{ADDER}/*\nTRANSACTION ADD ADDER\nTERMINAL T001\nTERMINAL T002\n"
SCRIPT = f"{HEAD}KEY T001 ENTER ADD\nRUN T001\norders\nKEY T002 ENTER ADD\n/*\n{BLOCK}KEY T001 ENTER ADD\n"
BOTH = ["> OUTCOME 1", "> 001000  00000001                             ....", "> AREA 001000 LENGTH 000200 CWA OWNER REGION"]
MOVES = ["> KEY T001 ENTER ADD", "> RUN T001 3", "> * ADDRESS NORMAL 4", "> RUN T002 2"]
ONE = ["> ORDERS STATES 9 OUTCOMES 1 KEYS WHEN ASKED", *BOTH, *MOVES]
OTHER = [BOTH[0].replace("1", "2"), BOTH[1].replace("00000001", "00000002"), BOTH[2], "> EDF T001 OFF", *MOVES]
TWO = ["> ORDERS STATES 12 OUTCOMES 2 KEYS TYPED AHEAD", *BOTH, *MOVES, *OTHER]
NEVER = [*ONE, "> ORDERS SOME NEVER REST", *MOVES]
STILL = ["> ORDERS STATES 1 OUTCOMES 1", *BOTH]
CUT = [ONE[0].replace("STATES 9 OUTCOMES 1", "MORE THAN 100 STATES, ALL OF 7 MOVES"), *ONE[1:]]
COUNTED = "what is run was counted by the list of moves to each outcome alone, not by every order"
BY = "compared of each outcome: abends, refused keys, tasks that wait, what the block looks at, and all queues by their bytes"
FILES = {"s.script": SCRIPT, "a.asm": ADDER, "w.asm": WHOLE, "n.script": HEAD, "spin.asm": SPINNING}
CALLS = [  # with the answers of `stand-in` to the two
    (ONE, ONE, Call("the same outcomes", "cics-same", ["--orders", "s.script", "ADDER", "a.asm", "w.asm"], 0,
                    ["line 21, ORDERS: every order of these keys and turns ends as with the other: "
                     "a.asm has 1 outcome of 9 states, w.asm 1 outcome of 9 states; the one changed line was run",
                     "ADDER: 6 of 6 statements of the old source were run, 5 of 5 of the new", COUNTED, BY], FILES)),
    (TWO, ONE, Call("an outcome of the old one", "cics-same", ["--orders", "s.script", "ADDER", "a.asm", "w.asm"], 1,
                    ["line 21, ORDERS: a.asm has 2 outcomes of 12 states, w.asm 1 outcome of 9 states; only a.asm has this one:", *OTHER[1:3], "comes by *",
                     "EDF T001 OFF", *(move[2:] for move in MOVES)], FILES)),
    (ONE, TWO, Call("an outcome of the new one", "cics-same", ["s.script", "ADDER", "a.asm", "w.asm", "--orders"], 1,
                    ["line 21, ORDERS: * only w.asm has this one:", *["*"] * 8], FILES)),
    (ONE, NEVER, Call("one that never rests", "cics-same", ["--orders", "s.script", "ADDER", "a.asm", "w.asm"], 1,
                      ["line 21, ORDERS: the same outcomes; only w.asm has SOME NEVER REST:", *(move[2:] for move in MOVES)], FILES)),
    (CUT, CUT, Call("too many states", "cics-same", ["--orders", "s.script", "ADDER", "a.asm", "a.asm"], 2,
                    ["line 21, ORDERS: a.asm has more than 100 states, so not all outcomes are known"], FILES)),
    (ONE, CUT, Call("too many states of the new one", "cics-same", ["--orders", "s.script", "ADDER", "a.asm", "w.asm"], 2,
                    ["line 21, ORDERS: w.asm has more than 100 states, so not all outcomes are known"], FILES)),
    (ONE, ONE, Call("a script without ORDERS", "cics-same", ["--orders", "n.script", "ADDER", "a.asm", "w.asm"], 2, [], FILES, "has no ORDERS")),
    (ONE, ONE, Call("a source that isn't there", "cics-same", ["--orders", "s.script", "X", "a.asm", "w.asm"], 2, [], FILES, "no SOURCE X")),
    (ONE, TWO, Call("no rest in front", "cics-same", ["--orders", "s.script", "ADDER", "a.asm", "spin.asm"], 1,
                    ["line 21, ORDERS: * only spin.asm has this one:", *["*"] * 8], FILES)),
    (STILL, ONE, Call("nothing to order with the old", "cics-same", ["--orders", "s.script", "ADDER", "a.asm", "w.asm"], 2,
                      ["line 21, ORDERS: a.asm has nothing to order: no task goes on, and no key is still to come"], FILES)),
    (ONE, STILL, Call("nothing to order with the new", "cics-same", ["--orders", "s.script", "ADDER", "a.asm", "w.asm"], 2,
                      ["line 21, ORDERS: w.asm has nothing to order: *"], FILES)),
    (["> bad"], ONE, Call("another answer", "cics-same", ["--orders", "s.script", "ADDER", "a.asm", "a.asm"], 2, ["a.asm can't be run: > bad"], FILES)),
    (ONE, ONE, Call("another program", "cics-same", ["--orders", "s.script", "ADDER", "a.asm", "a.asm", CICSEDF], 2, [], FILES,
                    "--orders needs cicslook")),
    (ONE, ONE, Call("without --orders", "cics-same", ["s.script", "ADDER", "a.asm", "a.asm"], 0,
                    ["same after 2 keys; no line is changed", "ADDER: *", "compared *"], FILES)),
]
LESSONS = f"{TOP}/examples/lessons"
ENOUGH = {**FILES, "s.script": SCRIPT.replace("ORDERS 100\n", "ORDERS 1000\n")}
WRITER = """W        CSECT
         CLI   EIBAID,X'F3'
         BE    PF3
         EXEC  CICS WRITEQ TS QUEUE('LOG') FROM(BYTES) LENGTH(=H'3')
         EXEC  CICS RETURN
BYTES    DC    X'000001'
         DS    0H
PF3      LA    4,1
         EXEC  CICS RETURN
         END
"""
WRITERS = {"u.script": f"SOURCE W\n{WRITER}/*\nTRANSACTION W W\nTERMINAL T001\nTERMINAL T002\n"
                       "* COMMENTS\n*\n*\n*\n*\n*\nORDERS 1000\nKEY T001 ENTER W\nKEY T002 ENTER W\n/*\n",
           "w.asm": WRITER, "n.asm": WRITER.replace("LA    4,1", "LA    4,2"), "b.asm": WRITER.replace("000001", "000002")}
REAL = [
    Call("orders of two", "cics-same", ["--orders", "s.script", "ADDER", "a.asm", "w.asm"], 1,
         ["line 21, ORDERS: a.asm has 2 outcomes of *, w.asm 1 outcome of *; only a.asm has this one:", "> 001000  00000002*", "*", "comes by *", *["*"] * 10],
         ENOUGH),
    Call("keys in front, as lesson 15 has it", "cics-same",
         ["--orders", f"{LESSONS}/15-every-order/tickets.script", "PGM7", f"{LESSONS}/changing/pgm7.asm", f"{LESSONS}/changing/pgm7-enq.asm"], 1,
         ["line 42, ORDERS: * has 3 outcomes of 191 states, * 2 outcomes of 214 states; only *pgm7.asm has this one:",
          "> SCREEN T001", "> 01|TICKET 00002", "> SCREEN T002", "> 01|TICKET 00002", "comes by *", *["RUN *", "*"] * 4]),
    Call("keys in front, and none that moves", "cics-same", ["--orders", "r.script", "r.script"], 2, ["line *, ORDERS: r.script has nothing to order: *"],
         {"r.script": f"{HEAD}KEY T001 ENTER ADD\nRUN T001\nORDERS\n/*\n"}),
    Call("orders of one", "cics-same", ["--orders", "s.script", "ADDER", "a.asm", "a.asm"], 0,
         ["line 21, ORDERS: every order *; no line is changed", "ADDER: *", COUNTED, BY], ENOUGH),
    Call("a changed line that no order runs", "cics-same", ["--orders", "u.script", "W", "w.asm", "n.asm"], 4,
         ["line 22, ORDERS: every order *; the one changed line was never run: 8", "W: 4 of 6 statements of the old source were run, 4 of 6 of the new",
          COUNTED, BY], WRITERS),
    Call("even so", "cics-same", ["--orders", "--even-unrun", "u.script", "W", "w.asm", "n.asm"], 0, ["*", "*", COUNTED, BY], WRITERS),
    Call("a queue's bytes, which have no characters", "cics-same", ["--orders", "u.script", "W", "w.asm", "b.asm"], 1,
         ["line 22, ORDERS: w.asm has *; only w.asm has this one:", *["> *"] * 4, "> ITEM 1 LENGTH 3 '...'", "> ITEM 2 LENGTH 3 '...'",
          "> QUEUE 'LOG' ITEM 1 LENGTH 3", "> 0000 000001 *", "> QUEUE 'LOG' ITEM 2 LENGTH 3", "> 0000 000001 *", "comes by *", *["*"] * 6], WRITERS),
]


class OrdersTest(TestCase):
    def test_answers_by_hand(self) -> None:
        for old, new, call in CALLS:
            os.environ.update(CICSLOOK=CICSLOOK, OLD="\n".join(old), NEW="\n".join(new), OLD_SOURCE=ADDER)
            self.none_of(failures_of([call], ["--cicslook", STAND_IN]))

    def test_real(self) -> None:
        self.none_of(failures_of(REAL, PROGRAMS))
