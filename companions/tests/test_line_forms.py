"""Which lines are bad, and why: lines cut and changed at each place are bad exactly where cicslook finds them so; and what is said of some."""
from collections.abc import Iterator

from cics.child import encoded, run
from cics.line_forms import FORMS, SAID, form_text, reason_of
from cics.scripts import BLOCKS, OF_CICSLOOK
from cics.script_reading import bad_lines, bare_lines
from cics.together import processors, run_together
from tests.case import CICSLOOK, TestCase

EXAMPLES = """IMAGE A 80|SOURCE P LIST DISASM|SOURCE P DISASM|TRANSACTION NXT1 RET1|TERMINAL T002|CLOCK 235959 26366|KEY T001 ENTER
KEY T001 PF12 Some text|KEY T001 PA1|TURN T001|EDF T001 ON|EDF T001 OFF|SCREEN T001|DISPLAY T001 0|ALTER T001 REG 12 00aBcD0F
ALTER T001 BYTE 01001c 0F|ALTER T001 NOP|ALTER T001 ABEND|* a comment|/*|RUN T001|RUN T001 12 BEFORE ABEND|RUN T001 TO P 00012
RUN T001 4096|RUN T001 7 TO P 3|WATCH 2000C0 2|WATCH T001 JOB|WATCH OFF|QUEUES|QUEUE JOBS|QUEUE jobs 32767|QUEUE C100404040404040 1
PROGRAMS|tasks|RESOURCES|TERMINALS|COMMAND T001|AHEAD T001|AHEAD T001 256|ahead t001 at p 9|TASK T001|FIELD T001 NAME
AHEAD T001 AFTER 65536|ahead t001 fields after 1
FIELD T001 NAME 16|FIELDS T001|FIELDS T001 1|AREAS|AREAS T001|STORAGE 2000C0 4096|WHERE 010000|ABEND T001|ABEND T001 FIELDS
ABEND T001 STORAGE|COVER ON|COVER OFF|COVERED|COVERED P|covered p lines|SYMBOL P NAME|SYMBOLS P|XREF P|FAULTS P|ORDERS|ORDERS 1000000|ORDERS TYPED AHEAD
orders 9 typed ahead|CHOICES 8|CHOICES 64 1000000
CHOICES 1 ONE NUMBER|choices 08 20 one number|HELP|HELP RUN|HELP run"""
LINES = EXAMPLES.replace("\n", "|").split("|")
NUMBERS = ["0", "1", "01", "00001", "000001", "15", "16", "17", "256", "257", "4096", "4097", "32767", "32768", "65536", "65537", "99999", "1000000", "1000001", "X"]
SAID_OF = {  # lines, and what is said of each
    "RUN  T001": "BadLook: two blanks",
    "TURN  T001": "BadLine: two blanks",
    "SCREEN T0001": "BadLine: a terminal's name has at most 4",
    "taks": "BadLine: no such look: taks; TASKS?",
    "KEYS T001 ENTER": "BadLine: no such line: KEYS; KEY?",
    "key T001 ENTER": "BadLine: KEY is in capitals",
    "TURN t001": "BadLine: a terminal's name is in capitals; T001?",
    "TURN": "BadLine: a terminal's name is missing; write: TURN term",
    "TURN T001 2": "BadLine: a word too many: 2; write: TURN term",
    "TURN T001 ": "BadLine: a blank after the last word",
    " TURN T001": "BadLine: a blank in front of the first word",
    "TURN\tT001": "BadLine: a tab character",
    "KEY T001 PF13": "BadLine: a key is ENTER, CLEAR, PA1, PA2 or PF1 to PF12",
    "KEY T001 enter": "BadLine: a key is in capitals; ENTER?",
    "KEY T001 ENTER A[": "BadLine: '[' has no code, so no key gives it",
    "STORAGE 20C0 16": "BadLook: an address is six hexadecimal digits",
    "RUN T001 5000": "BadLook: the number of turns is 1 to 4096",
    "EDF T001 on": "BadLine: ON or OFF is due there",
    "ABEND T001 STORE": "BadLook: STORAGE or FIELDS is due there",
    "IMAGE A": "BadLine: a working storage's length is missing; write: IMAGE name stg",
    "/*": "BadLine: /* ends a block, and none has begun",
    "RUN T001 STOP": "BadLook: the number of turns is 1 to 4096; or BEFORE or TO",
    "SOURCE P LISST": "BadLine: LIST or DISASM is due there",
    "hello world": "BadLine: no such look: hello; HELP?",
}
BLOCK_LINES: dict[str, list[tuple[int, str]]] = {  # scripts, and each bad line of them
    "IMAGE A 80\n4100F\nKEY T001 ENTER\nTURN T001\n/*\n": [
        (2, "an odd number of hexadecimal digits"), (3, "no hexadecimal digit; is /* missing above?"), (5, "/* ends a block, and none has begun")],
    "ORDERS\nKEY T001 ENTER A\nSCREEN T001\nTASKS\n* all\n\n/*\n": [],
    "ORDERS\nTURN T001\nSCREEN T001\n": [(2, "no TURN may stand in ORDERS, but KEY, SCREEN and looks; is /* missing above?")],
    "ORDERS\nTASK\n/*\n": [(2, "a terminal's name is missing; write: TASK term")],
    "SOURCE P\n ANYTHING\n": [(1, "the script ends before the /* of this SOURCE")],
    "SOURCE P LIST LIST\nP CSECT\n/*\nTASKS\r\n": [(1, "DISASM is due there")],
    "ORDERS\n" + "KEY T001 ENTER\n" * 257 + "/*\n": [(258, "more than 256 keys")],
    "ORDERS\n" + "TASKS\n" * 65 + "/*\n": [(66, "more than 64 looks")],
    "ORDERS\nKEY T001 ENTER {A|B}\n/*\n": [(2, "'{' has no code, so no key gives it")],
    "CHOICES 8\nKEY T001 {ENTER|PF3} {A|1#|}\nKEY T001 ENTER |}#\nSCREEN T001\nTASKS\n* all\n\n/*\n": [(3, "'}' has no code, so no key gives it")],
    "CHOICES 8\nKEY T001 ENTER {A|1#}\nKEY {T001|T002} CLEAR\nKEY T001 ENTER |#\nSCREEN T001\nTASKS\n* all\n\n/*\n": [],
    "CHOICES 65\nKEY T001 ENTER\n/*\n": [(1, "the number of keys is 1 to 64")],
    "CHOICES\nKEY T001 ENTER\n/*\n": [(1, "the number of keys is missing; write: CHOICES keys, CHOICES keys states, CHOICES keys ONE NUMBER, "
                                          "CHOICES keys states ONE NUMBER")],
    "CHOICES 8\nKEY T001 ENTER {A{B}\n/*\n": [(2, "a { without a } after it")],
    "CHOICES 8\nKEY T001 {ENTER|PF13}\n/*\n": [(2, "a key is ENTER, CLEAR, PA1, PA2 or PF1 to PF12")],
    "CHOICES 8\nTURN T001\n": [(2, "no TURN may stand in CHOICES, but KEY, SCREEN and looks; is /* missing above?")],
    "CHOICES 8\nKEY T001 ENTER {####}\nKEY T001 PF1\n/*\n": [(3, "more than 10000 keys")],
    "CHOICES 8\n" + "KEY T001 ENTER\n" * 257 + "/*\n": [(258, "more than 256 lines with keys")],
    "CHOICES 8\n" + "TASKS\n" * 65 + "/*\n": [(66, "more than 64 looks")],
}


def changed() -> Iterator[str]:
    """Each line cut at each place, with each character replaced, with words put in and taken out."""
    for line in LINES:
        yield from (line, f"{line} ", f" {line}", f"{line} 1", line.lower(), line.upper(), line.swapcase(), f"{line}\r1", line + "X" * 4100)
        yield from (line[:at] for at in range(1, len(line)))
        yield from (line[:at] + one + line[at + 1 :] for at in range(0, len(line), 2) for one in (" ", "\u017f", "x", "9"))
        words = line.split(" ")
        for at in range(1, len(words)):
            yield " ".join([*words[:at], *words[at + 1 :]])
            yield from (" ".join([*words[:at], number, *words[at + 1 :]]) for number in NUMBERS)


def begins_block(line: str) -> bool:
    return line.split(" ")[0].upper() in BLOCKS


class LineFormsTest(TestCase):
    def test_bad_looks_and_good_lines(self) -> None:
        """Lines that are good or bad looks, in one run: these and no others are reported, each by its number."""
        lines = [line for line in dict.fromkeys(changed()) if not begins_block(line)]
        known = [line for line in lines if (reason := reason_of(line)) is None or reason.kind == "BadLook"]
        ended = run([CICSLOOK], encoded("".join(f"{line}\n" for line in known)))
        due = [number for number, line in enumerate(known, 1) if reason_of(line)]
        found = [int(line.split(" ")[3][:-1]) for line in ended.lines() if line.startswith("> ? line ")]
        self.assertGreater(len(due), 300)
        self.assertGreater(len(known) - len(due), 300)
        self.assertEqual(found, due, ended)

    def test_bad_lines(self) -> None:
        """A line that is bad ends a script, and no other does."""
        bad = [line for line in dict.fromkeys(changed()) if begins_block(line) or (reason := reason_of(line)) and reason.kind == "BadLine"]
        lines = [line for at, line in enumerate(bad) if begins_block(line) and at % 5 == 0 or at % 15 == 0]
        for run_of_it in run_together([CICSLOOK], [f"{line}\n/*\n" for line in lines], processors()):
            line = lines[run_of_it.number]
            assert run_of_it.ended is not None
            is_bad = run_of_it.ended.why() == "cicsedf: line 1: BadLine"
            self.assertEqual(reason_of(line) is not None, is_bad, (line, run_of_it.ended))

    def test_what_is_said(self) -> None:
        self.assertEqual({line: str(reason_of(line)) for line in SAID_OF}, SAID_OF)

    def test_blocks(self) -> None:
        for script, due in BLOCK_LINES.items():
            found = bad_lines(bare_lines(script))
            self.assertEqual([(one.number, one.reason.text) for one in found], due)
            first = run([CICSLOOK], encoded(script)).why()
            if due:
                self.assertEqual(first, f"cicsedf: line {due[0][0]}: BadLine", script[:100])

    def test_words(self) -> None:
        """Each line has its forms, and each of cicsedf what HELP doesn't say."""
        self.assertEqual({*FORMS}, {*SAID, *OF_CICSLOOK})
        self.assertTrue(all(form_text(word) for word in FORMS))
