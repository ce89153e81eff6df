"""Sessions by cics-look: as a new user would hold one, with a typing slip, a fault found by WATCH, and a script kept that replays to the same bytes;
bad lines, blocks and words; and what is completed, typed at a terminal."""
import os
import pty
import re
import select
import tempfile
import time

from cics.child import TOP, Child, Ended, encoded, lines_of, read, run, text_of
from cics.conversation.completion import Completion
from cics.conversation.session import Session
from cics.conversation.talk import Talk
from cics.line_forms import reason_of
from cics.transcripts import without_looks
from tests.calling import called, folder_of, program
from tests.case import CICSEDF, CICSLOOK, PROGRAMS, TestCase

PROMPT = b"cics> |IMAGE P 80> "
INTERRUPT = b"\x03"  # Ctrl-C
LOOK = os.path.join(TOP, "companions/cics-look")
LESSON = os.path.join(TOP, "examples/lessons/08-overwrite/mended.script")
CREDIT = """SOURCE CREDIT
DFHEISTG DSECT
PACKED   DS    D
INPUT    DS    CL20
NAME     DS    CL8
LIMIT    DS    F
INLEN    DS    H
LINE     DS    CL24
CREDIT   CSECT
         MVC   LIMIT,=F'100'           FOR NOW THE SAME FOR ALL
         MVC   INPUT,=CL20' '
         MVC   INLEN,=H'20'
         EXEC  CICS RECEIVE INTO(INPUT) LENGTH(INLEN) NOHANDLE
         MVC   NAME(12),INPUT+5
         L     5,LIMIT
         CVD   5,PACKED
         UNPK  LINE(7),PACKED+4(4)
         OI    LINE+6,X'F0'
         EXEC  CICS SEND TEXT FROM(LINE) LENGTH(=H'7') ERASE
         EXEC  CICS RETURN
         END
/*
"""
SESSION = f"""{CREDIT.replace("INPUT+5", "INPIT+5")}{CREDIT}TRANSACTION CRED CREDIT
TERMINAL T0001
TERMINAL T001
* the wrong limit
KEY T001 ENTER CRED ANNE
RUN  T001
run T001
SCREEN T001
KEY T001 ENTER CRED ANNE
watch t001 limit
TURN T001
WATCH T001 LIMT
taks
TASKS
RUN T001
ORDERS
KEY T001 ENTER CRED BERT
/*
"""
SAID = ["? 13:25 UndefinedSymbol          MVC   NAME(12),>>INPIT<<+5", "? the source isn't defined", "? BadLine: a terminal's name has at most 4",
        "? BadLook: two blanks", "? BadLine: no such look: taks; TASKS?"]
FOUND = "> WATCH 2000D4 4 FROM 00000064 TO 40404040 BY TURN T001 LINE 00013 MVC   NAME(12),INPUT+5"
RETURN = """SOURCE P
P        CSECT
         LA    4,7
         LA    5,8
         EXEC  CICS RETURN
         END
/*
TRANSACTION P P
TERMINAL T001
"""


def held(typed: str, *words: str, folder: str = "/") -> Ended:
    return called("cics-look", [*words, *PROGRAMS], folder, given=encoded(typed))


class SessionTest(TestCase):
    def test_a_new_user(self) -> None:
        """Slips end nothing, WATCH shows the statement, and what was kept is replayed by both programs with the bytes that were seen."""
        with tempfile.TemporaryDirectory() as folder:
            ended = held(SESSION, "--keep", "kept.script", "--keep-typed", "typed.script", folder=folder)
            self.assertEqual((ended.status, ended.reported), (1, b""))
            self.assertEqual([line for line in ended.lines() if line.startswith("? ")], SAID)
            self.assertIn(FOUND, ended.lines())
            seen = [line for line in ended.lines() if not line.startswith("? ")]
            kept, typed = (read(os.path.join(folder, name)) for name in ("kept.script", "typed.script"))
        self.assertEqual(run([CICSEDF], kept), Ended(0, encoded(text_of(without_looks(seen))), b""))
        self.assertEqual(run([CICSLOOK], typed), Ended(0, encoded(text_of(seen)), b""))
        self.assertNotIn(b"RUN", kept)

    def test_from_the_end_of_a_script(self) -> None:
        with tempfile.TemporaryDirectory() as folder:
            ended = held("KEY T001 ENTER CRED BERT\ncontinue\nSCREEN T001\nFAULTS P\n/*\n", LESSON, "--keep", "k", "--keep-typed", "t", folder=folder)
            due = run([CICSLOOK, LESSON])
            self.assertEqual((ended.status, ended.reported), (0, b""))
            self.assertEqual(ended.lines()[: len(due.lines())], due.lines())
            self.assertEqual(run([CICSEDF], read(os.path.join(folder, "k"))).lines(), without_looks(ended.lines()))
            self.assertEqual(run([CICSLOOK], read(os.path.join(folder, "t"))).out, ended.out)
            again = held("", "t", folder=folder)
            self.assertEqual((again.status, again.out), (0, ended.out))

    def test_all_examples(self) -> None:
        """Each lesson's script as it is typed is answered as cicslook answers it."""
        for name in ("06-lost-update/orders", "09-abends/found", "11-chain/deadlock"):
            script = read(os.path.join(TOP, f"examples/lessons/{name}.script"))
            self.assertEqual(held(script.decode()), run([CICSLOOK], script))

    def test_step_and_break(self) -> None:
        typed = ["KEY T001 ENTER P", "step", "step T001", "break P 3", "break", "continue", "continue", "step", "break Q 1", "step T9", "delete",
                 "next", "n X Y"]
        ended = held(RETURN + text_of(typed))
        lines = ended.lines()[4:]
        self.assertEqual([line.split(" R0")[0] for line in lines if not re.match(r"> (R\d\d|CC) ", line)], [
            "> INSTRUCTION 010000 P+000000 41400007 LINE 00002 LA    4,7", "> INSTRUCTION 010004 P+000004 41500008 LINE 00003 LA    5,8",
            *["? continue ends in front of P line 3"] * 2, "> RUN T001 STOPPED BEFORE P LINE 00003", "> AHEAD T001 AT P LINE 00003 CC 0",
            "> INSTRUCTION 010004 P+000004 41500008 LINE 00003 LA    5,8", "TURN T001 AtCommand", "TURN T001 Ended", "> AHEAD T001 Idle",
            "? no program is Q; there is P", "? no terminal is T9; there is T001", "? no break", "TURN T001 Idle",
            "? write: step, next or continue, and a terminal's name"])

    def test_step_over_a_command(self) -> None:
        ended = held(f"{RETURN}KEY T001 ENTER P\nnext\nstep\n")
        self.assertEqual(ended.lines()[-3:], ["TURN T001 AtCommand", "> RETURN", "TURN T001 Ended"])

    def test_help(self) -> None:
        lines = held("help\nhelp KEY\nHELP RUN\nhelp step\nhelp nothing\n").lines()
        self.assertTrue(any(line.startswith("> IMAGE name stg") for line in lines))
        self.assertEqual([line.split(" ")[1] for line in lines[-4:-1]], ["KEY", "RUN", "step"])
        self.assertEqual(lines[-1], "? BadLook: no such look: NOTHING; HELP has all")

    def test_explain(self) -> None:
        lines = held("explain NoEnd\nexplain nothing\n").lines()
        self.assertEqual(lines[0], "? NoEnd: there is no END; reported for the line after the last")
        self.assertIn("no such fault", lines[-1])

    def test_blocks(self) -> None:
        """A bad line of a block is left out of it, and a block that is open at the end is told."""
        ended = held("IMAGE R 80\n4100F0285000D0009680D0004110D00041E0080005EE\nXX\n0E08\n/*\nORDERS\nTURN T001\n")
        self.assertEqual(ended.lines(), ["? BadLine: no hexadecimal digit; the line is left out, and /* ends the block",
                                         "PROGRAM R AT 010000 LENGTH 000018",
                                         "? BadLine: no TURN may stand in ORDERS, but KEY, SCREEN and looks; the line is left out, and /* ends the block",
                                         "? BadLine: the script ends before the /* of this ORDERS"])

    def test_load_and_keep(self) -> None:
        with folder_of({"p.asm": text_of(RETURN.split("\n")[1:6])}) as folder:
            ended = held("load p.asm\nload q.asm\nTERMINAL T001\nKEY T001 ENTER P\ncontinue\nkeep k.script\nkeep\nquit\nTASKS\n", folder=folder)
            self.assertEqual(ended.lines(), ["PROGRAM P AT 010000 LENGTH 000028", "TRANSACTION P DEFINED", "? q.asm: No such file or directory",
                                             "TERMINAL T001 DEFINED", "KEY T001 Attached", "TURN T001 AtCommand", "TURN T001 Ended",
                                             "? k.script is written, 12 lines", "? write: keep FILE"])
            self.assertEqual(run([CICSEDF], read(os.path.join(folder, "k.script"))).status, 0)

    def test_a_program_that_ends(self) -> None:
        """Where cicslook ends by itself, a line says so, and what was done before is kept."""
        with tempfile.TemporaryDirectory() as folder:
            words = ["--keep", "k", "--cicslook", program(folder, f"head -n 2 | {CICSLOOK}\nkill -9 $$")]
            ended = called("cics-look", words, folder, given=b"TERMINAL T001\nTERMINAL T002\nTASKS\n")
            self.assertEqual((ended.status, ended.out), (3, b"TERMINAL T001 DEFINED\n"), ended.reported)
            self.assertIn(b"ended by SIGKILL, after 'TERMINAL T002'", ended.reported)
            self.assertEqual(read(os.path.join(folder, "k")), b"TERMINAL T001\n")

    def test_names_of_the_mark(self) -> None:
        """A terminal of the name that the companion asks for itself."""
        lines = held("TERMINAL @@@@\nSCREEN @@@@\nTERMINAL @@@A\nSCREEN @@@@\nTASKS\n").lines()
        self.assertEqual(lines, ["TERMINAL @@@@ DEFINED", "SCREEN @@@@", "TERMINAL @@@A DEFINED", "SCREEN @@@@", "> @@@@ NO TASK", "> @@@A NO TASK"])

    def test_endings(self) -> None:
        with folder_of({"bad.script": "TERMINAL T001\nTURN  T001\nNONE\n", "good.script": "TERMINAL T001\n"}) as folder:
            for words, status, said in ((["bad.script"], 1, "bad.script:2:5: BadLine: two blanks\nbad.script:3:1: BadLine: no such"),
                                        (["none.script"], 3, "none.script: No such file"), (["--none"], 2, "write: cics-look"),
                                        (["bad.script", "--keep", "bad.script"], 1, "cics-look: bad.script: a bad script is no beginning")):
                ended = held("", *words, folder=folder)
                self.assertEqual(ended.status, status, ended)
                self.assertIn(said, ended.reported.decode())
            self.assertEqual(read(os.path.join(folder, "bad.script")), b"TERMINAL T001\nTURN  T001\nNONE\n")
            ended = held("TASKS\n", "good.script", "--keep", "good.script", folder=folder)
            self.assertEqual((ended.status, b"it is read, so it isn't written" in ended.reported), (3, True), ended)


class CompletionTest(TestCase):
    LINES = {"TAS": ["TASK", "TASKS"], "ste": ["step"], "TURN ": ["T001"], "turn t": [], "tasks ": [], "TASK ": ["T001"], "SYMBOLS ": ["CREDIT"],
             "KEY T001 PF1": ["PF1", "PF10", "PF11", "PF12"], "KEY T001 ENTER C": ["CRED"], "TRANSACTION X ": ["CREDIT"], "EDF T001 O": ["OFF", "ON"],
             "RUN T001 ": ["BEFORE", "TO"], "run t001 to ": ["CREDIT"], "SYMBOL CREDIT LI": ["LIMIT", "LINE"], "HELP QU": ["QUEUE", "QUEUES"],
             "FIELD T001 INL": ["INLEN"], "queue ": ["ASKED"], "break ": ["CREDIT"], "continue ": ["T001"], "QUEUE ASKED ": [], "NONE ": []}

    def test_candidates(self) -> None:
        script = read(LESSON).decode()
        with Child([CICSLOOK]) as child:
            talk = Talk(Session(child), lambda lines: None, str)
            for line in lines_of(script):
                talk.line(line)
            for line in ("KEY T001 ENTER CRED ANNE", "TURN T001"):
                talk.line(line)
            completion = Completion(talk.session)
            self.assertEqual({line: completion.candidates(line) for line in self.LINES}, self.LINES)
            self.assertTrue(all(reason_of(word) is None or word in "".join(completion.first_words()) for word in completion.first_words()))

    def test_at_a_terminal(self) -> None:
        """A prompt, a word that the Tab key completes, a slip, the history, and the end of the input."""
        with tempfile.TemporaryDirectory() as folder:
            shown = self.typed(folder, [b"TERMINAL T001\n", b"taks\n", b"RESO\t\n", b"\x1b[A\n", b"TURN \t\n", INTERRUPT, b"\x04"])
            self.assertEqual(shown.count("> RESOURCES NONE"), 2, shown)
            for part in ("cics> ", "TERMINAL T001 DEFINED", "? BadLine: no such look: taks; TASKS?", "TURN T001 Idle"):
                self.assertIn(part, shown)
            self.assertTrue(os.path.exists(os.path.join(folder, "cicsedf/cics-look-history")))

    def test_a_block_that_is_dropped(self) -> None:
        with tempfile.TemporaryDirectory() as folder:
            shown = self.typed(folder, [b"IMAGE P 80\n", b"41\n", INTERRUPT, b"TASKS\n", b"\x04"])
            for part in ("IMAGE P 80> ", "? IMAGE P 80: the block is dropped", "> TASKS NONE"):
                self.assertIn(part, shown)

    def typed(self, folder: str, pieces: list[bytes]) -> str:
        """What is shown at a terminal where these are typed, each after a prompt.

        Python sees a Ctrl-C that comes between a prompt and the wait for a key only with the next key, so one of which nothing comes is
        typed again, as a user does.
        """
        child, terminal = pty.fork()
        if child == 0:
            os.environ.update(XDG_STATE_HOME=folder, TERM="xterm", INPUTRC="/dev/null")
            os.execv(LOOK, [LOOK, *PROGRAMS])
        shown, until, prompts, sent, at = b"", time.monotonic() + 300, 0, b"", 0.0
        try:
            while time.monotonic() < until:
                if pieces and len(re.findall(PROMPT, shown)) > prompts:
                    prompts, sent, at = len(re.findall(PROMPT, shown)), pieces.pop(0), time.monotonic()
                    os.write(terminal, sent)
                elif sent == INTERRUPT and time.monotonic() - at > 20:
                    at = time.monotonic()
                    os.write(terminal, sent)
                if select.select([terminal], [], [], 0.2)[0]:
                    shown += os.read(terminal, 4096)
        except OSError:  # it has ended
            pass
        os.close(terminal)
        self.assertEqual(os.waitstatus_to_exitcode(os.waitpid(child, 0)[1]), 0, shown)
        return shown.decode()
