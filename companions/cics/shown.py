"""What the screens of a script show: its keys, what became of them, and pages; not how many turns that took, nor any address."""
import re
from collections.abc import Iterator, Sequence

from cics.child import decoded, encoded, text_of
from cics.looks import Doing
from cics.scripts import actions_of
from cics.transcripts import is_of_page, reply_of

TAKEN = ("Attached", "Given")  # answers to a key that reaches a task
OF_EDF = "ToEdf"  # the answer to a key that is EDF's
WAITING = "WAITING"
FIRST = re.compile(r"(?:KEY|SCREEN) \S{1,4}(?: .*)?|\S+ .* REFUSED .*|\S{1,4} (?:Abended|WAITING|is still running)\b.*")  # the forms of a first line


def terminals_of(script: str) -> list[str]:
    found = [action.terminal for action in actions_of(script) if action.word == "TERMINAL"]
    return [*dict.fromkeys(name for name in found if name)]


def with_screens(script: str) -> str:
    """A script with the screens of all its terminals, and their tasks, at its end."""
    terminals = terminals_of(script)
    ended = script if script.endswith("\n") or not script else f"{script}\n"
    return ended + text_of([*(f"SCREEN {name}" for name in terminals), "TASKS"] if terminals else [])


def pages_in(transcript: Sequence[str]) -> Iterator[list[str]]:
    """The lines of a transcript, each with those of its page."""
    current: list[str] = []
    for line in transcript:
        if is_of_page(line) and current:
            current.append(line)
            continue
        if current:
            yield current
        current = [line]
    if current:
        yield current


def shown(script: str, transcript: Sequence[str]) -> list[str]:
    """What is shown by the transcript of a script `with_screens`: each key, and where it has no effect its answer; abends; refusals; screens;
    and at the end those that haven't been shown so, and tasks that go on or wait."""
    keys = iter([action.text for action in actions_of(script) if action.word == "KEY"])
    count = len(terminals_of(script))
    answers = [*pages_in(transcript)]
    if not count:
        return [line for answer in answers for line in lines_of_event(answer, keys)]
    end = next((at for at in reversed(range(len(answers))) if answers[at][0].startswith("SCREEN ")), -1) + 1
    before, ends, tasks = answers[: end - count], answers[end - count : end], [answer[0] for answer in answers[end:]]
    lines = [line for answer in before for line in lines_of_event(answer, keys)]
    pages = {answer[0]: answer for answer in before if answer[0].startswith("SCREEN ")}
    lines += [line for page in ends if pages.get(page[0]) != page for line in page]
    return [*lines, *(f"{found.terminal} {doing(found.doing)}" for found in Doing.all_in(tasks))]


def lines_of_event(answer: list[str], keys: Iterator[str]) -> list[str]:
    """What is shown of an event, by its line and its page."""
    line = answer[0]
    word, terminal = (line.split(" ") + [""])[:2]
    if word == "SCREEN":
        return answer
    if word == "KEY":
        key, reply = next(keys, line), reply_of(line)
        return [] if reply == OF_EDF else [key] if reply in TAKEN else [key, f"{terminal} {reply}"]
    if word == "TURN" and reply_of(line) == "Abended":
        return [f"{terminal} {line.split(' ', 2)[2]}"]
    return [line] if " REFUSED " in line and word != ">" else []


def doing(said: str) -> str:
    """What a task does at the end: it waits, and for what; or goes on."""
    return said if said.startswith(WAITING) else "is still running"


def why_kept(old: bytes) -> str:
    """Why a file isn't replaced by what is shown: it begins as nothing that is shown does."""
    first = decoded(old).partition("\n")[0].removesuffix("\r")
    return "" if FIRST.fullmatch(first) else "it is there, and doesn't begin as screens do"


def as_file(lines: Sequence[str]) -> bytes:
    return encoded(text_of(lines))
