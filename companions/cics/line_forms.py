"""The lines of scripts, as docs/SCRIPT.md and docs/LOOKS.md have them: their forms, and why a line is none of them.

A word in capitals stands for itself, and one in small letters for an operand. So what may stand at a place of a line is known, too.
"""
import difflib
import re
from collections.abc import Callable, Iterator, Sequence
from dataclasses import dataclass

from cics.child import encoded
from cics.key_names import AIDS
from cics.key_sets import MOST_KEYS, MOST_LINES, count_of, expanded, is_spoilt
from cics.scripts import BLOCK_END, LONGEST, OF_CICSLOOK, is_silent
from cics.texts import CODED, NAME, SMALL

FORMS = {
    "IMAGE": ["name stg"],
    "SOURCE": ["name", "name LIST", "name DISASM", "name LIST DISASM"],
    "TRANSACTION": ["tran program"],
    "TERMINAL": ["term"],
    "CLOCK": ["hhmmss yyddd"],
    "KEY": ["term aid", "term aid text"],
    "TURN": ["term"],
    "EDF": ["term ON", "term OFF"],
    "ALTER": ["term REG r vvvvvvvv", "term BYTE aaaaaa bb", "term NOP", "term ABEND"],
    "SCREEN": ["term"],
    "DISPLAY": ["term", "term k"],
    "RUN": [f"term{turns}{stop}" for stop in ("", " BEFORE ABEND", " TO program line") for turns in ("", " turns")],
    "WATCH": ["OFF", "aaaaaa bytes", "term field"],
    "COVER": ["ON", "OFF"],
    "COVERED": ["", "program", "program LINES"],
    "QUEUES": [""],
    "QUEUE": ["queue", "queue item"],
    "PROGRAMS": [""],
    "TASKS": [""],
    "RESOURCES": [""],
    "TERMINALS": [""],
    "COMMAND": ["term"],
    "AHEAD": ["term", "term instructions", "term AT program line", "term AFTER steps", "term FIELDS AFTER steps"],
    "TASK": ["term"],
    "FIELD": ["term field", "term field level"],
    "FIELDS": ["term", "term level"],
    "AREAS": ["", "term"],
    "STORAGE": ["aaaaaa length"],
    "WHERE": ["aaaaaa"],
    "ABEND": ["term", "term STORAGE", "term FIELDS"],
    "SYMBOL": ["program field"],
    "SYMBOLS": ["program"],
    "XREF": ["program"],
    "FAULTS": ["name"],
    "ORDERS": ["", "states", "TYPED AHEAD", "states TYPED AHEAD"],
    "CHOICES": ["keys", "keys states", "keys ONE NUMBER", "keys states ONE NUMBER"],
    "HELP": ["", "word"],
}
SAID = {  # the lines that cicsedf has too, as HELP has those of cicslook
    "IMAGE": ("IMAGE name stg", "and digits, and /*: a program from an image"),
    "SOURCE": ("SOURCE name [LIST] [DISASM]", "and the lines of a source, and /*: a program"),
    "TRANSACTION": ("TRANSACTION tran program", "a transaction, which begins with the program"),
    "TERMINAL": ("TERMINAL term", "a terminal"),
    "CLOCK": ("CLOCK hhmmss yyddd", "the clock, for the tasks attached later"),
    "KEY": ("KEY term aid [text]", "the operator types a text and presses a key"),
    "TURN": ("TURN term", "the task runs up to its next command, or performs it"),
    "EDF": ("EDF term ON", "EDF begins at the terminal; OFF: it ends"),
    "ALTER": ("ALTER term REG r vvvvvvvv", "where EDF has stopped; also BYTE aaaaaa bb, NOP, ABEND"),
    "SCREEN": ("SCREEN term", "the terminal's screen"),
    "DISPLAY": ("DISPLAY term [k]", "what EDF shows there, or the display that is k before"),
}
BLOCK_LOOKS = ("FAULTS", "ORDERS", "CHOICES")  # words of looks that begin a block: a bad one of these ends a script
UNSEEN = ("ABEND", "AHEAD", "CHOICES", "COVER", "COVERED", "FAULTS", "HELP", "ORDERS", "RUN", "WATCH")  # looks that no such block may have
MISSING = "; is /* missing above?"
MOST_SIGHTS = 64  # in a block of ORDERS or CHOICES; it has at most MOST_LINES keys
LOWER = str.maketrans(SMALL, SMALL.upper())
ALPHABET = "A to Z, 0 to 9, @ # $"


@dataclass(frozen=True)
class Reason:
    """Why a line is bad: which kind of bad line it is, where the part is that is at fault, and why."""

    text: str
    column: int = 1  # from 1
    length: int = 1
    kind: str = "BadLine"

    def __str__(self) -> str:
        return f"{self.kind}: {self.text}"


@dataclass(frozen=True)
class Operand:
    """What a word in small letters stands for: what it is called, and why a text is none of it."""

    what: str
    why_not: Callable[[str], str]


def name_of(what: str, most: int) -> Operand:
    def why_not(text: str) -> str:
        if not all(one in NAME for one in text):
            is_small = all(one in NAME + SMALL for one in text)
            return f"{what} is in capitals; {capitals(text)}?" if is_small else f"{what} has {ALPHABET} alone"
        return "" if text and len(text) <= most else f"{what} has at most {most}"

    return Operand(what, why_not)


def number_of(what: str, most: int, least: int = 1, digits: int = 5) -> Operand:
    def why_not(text: str) -> str:
        is_one = re.fullmatch(f"[0-9]{{1,{digits}}}", text) is not None and least <= int(text) <= most
        return "" if is_one else f"{what} is {least} to {most}"

    return Operand(what, why_not)


def form_of(what: str, pattern: str, due: str) -> Operand:
    return Operand(what, lambda text: "" if re.fullmatch(pattern, text) else f"{what} is {due}")


def why_no_queue(text: str) -> str:
    if len(text) != 16:
        return name_of("a queue's name", 8).why_not(text)
    return "" if re.fullmatch("[0-9A-Fa-f]{16}", text) else "a queue's name of 16 is hexadecimal digits"


def why_no_key(text: str) -> str:
    if text in AIDS:
        return ""
    return f"a key is in capitals; {capitals(text)}?" if capitals(text) in AIDS else "a key is ENTER, CLEAR, PA1, PA2 or PF1 to PF12"


def why_no_text(text: str) -> str:
    uncoded = next((one for one in text if one not in CODED), None)
    shown = f"the byte X'{ord(uncoded) & 0xFF:02X}'" if uncoded is not None and "\ud800" <= uncoded <= "\udfff" else repr(uncoded)
    return f"{shown} has no code, so no key gives it" if uncoded is not None else "" if len(text) <= 1920 else "a key's text has at most 1920"


OPERANDS = {
    "term": name_of("a terminal's name", 4),
    "tran": name_of("a transaction's name", 4),
    "name": name_of("a program's name", 8),
    "program": name_of("a program's name", 8),
    "field": name_of("a field's name", 8),
    "queue": Operand("a queue's name", why_no_queue),
    "aid": Operand("a key", why_no_key),
    "text": Operand("a text", why_no_text),
    "word": Operand("a word of HELP", lambda text: "" if text in OF_CICSLOOK else no_such(text)),
    "stg": form_of("a working storage's length", "[0-9]{1,9}", "1 to 9 digits"),
    "hhmmss": form_of("the time", "[0-9]{6}", "six digits, hhmmss"),
    "yyddd": form_of("the date", "[0-9]{5}", "five digits, yyddd"),
    "aaaaaa": form_of("an address", "[0-9A-Fa-f]{6}", "six hexadecimal digits"),
    "bb": form_of("a byte", "[0-9A-Fa-f]{2}", "two hexadecimal digits"),
    "vvvvvvvv": form_of("a register's value", "[0-9A-Fa-f]{8}", "eight hexadecimal digits"),
    "k": form_of("the number of a display", "[0-9]", "one digit"),
    "r": number_of("a register", 15, 0, 2),
    "turns": number_of("the number of turns", 4096),
    "line": number_of("a line's number", 99999),
    "bytes": number_of("the number of bytes", 256),
    "length": number_of("the number of bytes", 4096),
    "item": number_of("an item's number", 32767),
    "level": number_of("a level's number", 16),
    "instructions": number_of("the number of instructions", 256),
    "steps": number_of("the number of instructions", 65_536),
    "states": number_of("the number of states", 1_000_000, digits=7),
    "keys": number_of("the number of keys", 64, digits=2),
}


def capitals(text: str) -> str:
    """A text in capitals, as cicslook makes it: of its small letters alone, and no others."""
    return text.translate(LOWER)


def no_such(word: str) -> str:
    """That there is no such word, and which may be meant."""
    near = difflib.get_close_matches(capitals(word), FORMS, 1)
    what = "look" if not near or near[0] in OF_CICSLOOK else "line"
    return f"no such {what}: {word}" + (f"; {near[0]}?" if near else "; HELP has all")


def read_as(line: str) -> str:
    """A line as it is read: one of cicslook alone in capitals."""
    return capitals(line) if capitals(line.split(" ")[0]) in OF_CICSLOOK else line


def forms_of(word: str) -> list[list[str]]:
    """The forms of the lines that begin with a word, each as the words after it."""
    return [form.split() for form in FORMS.get(word, [])]


def form_text(word: str) -> str:
    return ", ".join(f"{word} {form}".strip() for form in FORMS[word])


def parts_of(line: str, form: Sequence[str]) -> list[str]:
    """The words of a line after the first; a text goes on up to the line's end."""
    words = line.split(" ")[1:]
    at = form.index("text") if "text" in form else len(words)
    return [*words[:at], " ".join(words[at:])] if len(words) > at else words


def why_no_part(due: str, part: str) -> str:
    """Why a word of a line isn't what its form has there; empty where it is."""
    if due in OPERANDS:
        return OPERANDS[due].why_not(part)
    return "" if part == due else f"{due}?"


def why_blanks(line: str) -> Reason | None:
    """What is wrong with a line's blanks; the text of a key may have any."""
    if "\t" in line:
        return Reason("a tab character", line.index("\t") + 1)
    if "\r" in line:
        return Reason("a carriage return", line.index("\r") + 1)
    if line.startswith(" "):
        return Reason("a blank in front of the first word")
    if "  " in line:
        return Reason("two blanks", line.index("  ") + 1, 2)
    return Reason("a blank after the last word", len(line)) if line.endswith(" ") else None


def why_not_form(line: str, word: str, form: list[str]) -> tuple[int, Reason] | None:
    """Why a line hasn't a form, and how many of the form's words it has; None where it has it."""
    column = len(word) + 2
    parts = parts_of(line, form)
    for count, (due, part) in enumerate(zip(form, parts)):
        if why := why_no_part(due, part):
            return count, Reason(why, column, max(1, len(part)))
        column += len(part) + 1
    count = min(len(form), len(parts))
    if len(parts) < len(form):
        what = OPERANDS[form[count]].what if form[count] in OPERANDS else form[count]
        return count, Reason(f"{what} is missing; write: {form_text(word)}", max(1, len(line)))
    if len(parts) > len(form):
        return count, Reason(f"a word too many: {parts[count]}; write: {form_text(word)}", column, max(1, len(parts[count])))
    return None


def keywords_at(forms: list[list[str]], count: int) -> list[str]:
    """The words in capitals that may stand at a place, of the forms that get there."""
    return list(dict.fromkeys(form[count] for form in forms if len(form) > count and form[count] not in OPERANDS))


def why_no_form(line: str, word: str) -> Reason | None:
    """Why a line that begins with a word has none of the word's forms: by the form of which it has most."""
    found = [(form, why_not_form(line, word, form)) for form in forms_of(word)]
    failures = [(why[0], form, why[1]) for form, why in found if why is not None]
    if len(failures) < len(found):
        return None
    most = max(count for count, _, _ in failures)
    at = [(form, reason) for count, form, reason in failures if count == most]
    expecting = [(form, reason) for form, reason in at if len(form) > most] or at
    return among_forms(expecting, most, parts_of(line, [])[most:])


def among_forms(at: list[tuple[list[str], Reason]], most: int, left: list[str]) -> Reason:
    """One reason for several forms that may go on at a place: what is wrong with the operand there, and which words may stand there."""
    words = keywords_at([form for form, _ in at], most)
    operands = [reason for form, reason in at if len(form) > most and form[most] in OPERANDS]
    reason = operands[0] if operands else at[0][1]
    if not left or not words or len(at) == 1 and operands:
        return reason
    if operands:
        return Reason(f"{reason.text}; or {' or '.join(words)}" if left[0][:1].isalpha() else reason.text, reason.column, reason.length)
    return Reason(f"{' or '.join(words)} is due there", reason.column, reason.length)


def reason_of(line: str) -> Reason | None:
    """Why a line that stands outside a block is bad, for cicslook; None where it isn't."""
    if is_silent(line):
        return None
    if len(encoded(line)) > LONGEST:
        return Reason(f"more than {LONGEST} bytes")
    if line == BLOCK_END:
        return Reason("/* ends a block, and none has begun", 1, 2)
    read = read_as(line)
    word = read.split(" ")[0]
    kind = "BadLook" if word in OF_CICSLOOK and word not in BLOCK_LOOKS else "BadLine"
    reason = reason_of_words(read, word)
    return Reason(reason.text, reason.column, reason.length, kind) if reason else None


def reason_of_words(line: str, word: str) -> Reason | None:
    if word not in FORMS:
        blanks = why_blanks(line) if line.split()[:1] and line.split()[0] in FORMS else None
        is_small = capitals(word) in FORMS
        return blanks or Reason(f"{capitals(word)} is in capitals" if is_small else no_such(word), 1, max(1, len(word)))
    reason = why_no_form(line, word)
    return reason and (why_blanks(up_to_text(line, word)) or reason)


def up_to_text(line: str, word: str) -> str:
    """A line up to a key's text, in which blanks stand as they are."""
    words = line.split(" ")
    return " ".join(words[:3]) if word == "KEY" and len(words) > 3 and "" not in words[:3] else line


def reason_in_image(line: str) -> Reason | None:
    """Why a line of an image's block is bad."""
    if len(encoded(line)) > LONGEST:
        return Reason(f"more than {LONGEST} bytes")
    found = re.search("[^0-9A-Fa-f]", line)
    if found:
        return Reason(f"no hexadecimal digit{MISSING}", found.start() + 1)
    return Reason("an odd number of hexadecimal digits", len(line)) if len(line) % 2 else None


def may_stand_in_search(word: str) -> bool:
    """Whether a line with this word may stand in a block of ORDERS or CHOICES."""
    return word in ("KEY", "SCREEN") or word in OF_CICSLOOK and word not in UNSEEN


@dataclass
class Search:
    """A block of ORDERS or CHOICES, by its word, so far as it is read: how many KEY lines and looks it has, and how many keys these stand for."""

    word: str
    lines: int = 0
    keys: int = 0
    sights: int = 0

    def line(self, line: str) -> Reason | None:
        """Reads a line; says why it is bad."""
        if is_silent(line):
            return None
        if line.split(" ")[0] == "KEY":
            return self.key(line)
        word = read_as(line).split(" ")[0]
        if word in FORMS and not may_stand_in_search(word):
            return Reason(f"no {word} may stand in {self.word}, but KEY, SCREEN and looks{MISSING}", 1, len(word))
        self.sights += 1
        reason = reason_of(line) or (Reason(f"more than {MOST_SIGHTS} looks") if self.sights > MOST_SIGHTS else None)
        return reason and Reason(reason.text, reason.column, reason.length)

    def key(self, line: str) -> Reason | None:
        """Reads a KEY line; in CHOICES it may have sets."""
        self.lines += 1
        if self.word == "CHOICES" and is_spoilt(line):
            return Reason("a { without a } after it", line.index("{") + 1)
        count = count_of(line) if self.word == "CHOICES" else 1
        self.keys += count
        keys = expanded(line) if count > 1 or self.word == "CHOICES" else [line]
        if self.lines > MOST_LINES:
            return Reason(f"more than {MOST_LINES} {'lines with keys' if self.word == 'CHOICES' else 'keys'}")
        if self.keys > MOST_KEYS:
            return Reason(f"more than {MOST_KEYS} keys")
        return next(filter(None, map(reason_of, keys)), None)


def due_at(words: Sequence[str]) -> Iterator[str]:
    """What may stand after some words of a line: words in capitals, and operands."""
    line = read_as(" ".join(words))
    parts = line.split(" ")
    for form in forms_of(parts[0]):
        given = parts[1:]
        if len(form) > len(given) and all(not why_no_part(due, part) for due, part in zip(form, given)):
            yield form[len(given)]
