"""Tests of what a page has: that it is what `cicslook` writes, that no text is markup, how large it is, and how long it takes."""
import json
import os
import random
import re
import subprocess
import unittest.mock
from concurrent.futures import ThreadPoolExecutor

from cics.child import TOP, Child, Gone, encoded
from cics.film.command import filmed, filmed_alone, has_look
from cics.film.page import film_data, fit
from cics.film.recorder import MOST_EVENTS
from cics.pages import json_of
from cics.scripts import actions_of
from checks.hostile_lines import HEAD
from checks.hostile_lines import scripts as scripts_of_lines
from tests.case import CICSLOOK as PROGRAM
from tests.case import TestCase, expect
from tests.film.trials import Data, data_of, lines_to, page, page_or_line, scripts, states_of, text_of

CHANGED = 150  # scripts of examples with changed lines
ROOM = 16_000_000  # bytes of a page's data
HOSTILE = "</script><script>document.title='run'</script><img src=x onerror=\"document.title='run'\">&amp;&lt;'\"\\"


def question(key: str, shown: dict[str, list[str]]) -> str:
    """The look whose text is there under a name."""
    word, _, rest = key.partition(" ")
    if word in ("storage", "area"):
        found = re.search(r"> AREA ([0-9A-F]{6}) LENGTH ([0-9A-F]{6}) ", "\n".join(shown[key]))
        assert found
        return f"STORAGE {found[1]} {min(int(found[2], 16), 4096 if word == 'storage' else 256)}"
    ahead = f"AHEAD {rest}{' 1' if has_look(PROGRAM, 'AHEAD TERM 1') else ''}"
    return {"cwa": "STORAGE 001000 512", "item": f"QUEUE {rest}", "ahead": ahead}.get(word, word.upper() + (f" {rest}" if rest else ""))


def written(lines: list[str], questions: list[str]) -> list[list[str]]:
    """What `cicslook` writes for questions after lines of a script."""
    with Child([PROGRAM]) as child:
        try:
            return child.ask_each([lines, *([it] for it in questions)])[1:]
        except Gone as gone:
            return [[gone.ended.why()]]


def arrivals_of(data: Data, at: int) -> tuple[list[str], list[list[str]]]:
    """What AHEAD AT is asked in front of an event, of each line to which it came with registers, and the lines about these in its answers."""
    event, registers = data["events"][at], ["00000000"] * 16
    (program, _), terminal, shown = event.get("ran", ("", 0)), event["terminal"], []
    for line, code, change in event["arrivals"]:
        registers = [change.get(str(number), word) for number, word in enumerate(registers)]
        rows = [f"> R{first:02} {' '.join(registers[first : first + 4])}" for first in range(0, 16, 4)]
        shown.append([f"> AHEAD {terminal} AT {program} LINE {line:05} CC {code}", *rows])
    return [f"AHEAD {terminal} AT {program} {line}" for line, _, _ in event["arrivals"]], shown


def film_of(path: str) -> Data:
    data: Data = json.loads(json_of(film_data(filmed(path, text_of(path), PROGRAM))))
    return data


def reported_of(path: str) -> str:
    """What is reported of an example's script on standard error."""
    name = f"{path.removesuffix('.script')}.stderr"
    return text_of(name) if os.path.exists(name) else ""


def ends_it(reported: str) -> bool:
    """Whether what is reported is a fault that ended the script: a bad look, which films leave out as they do looks, doesn't."""
    return bool(reported) and ": BadLook\n" not in reported


def changed_line(generator: random.Random, text: str) -> str:
    """A script with a character cut or changed anywhere."""
    lines = text.split("\n")
    at = generator.randrange(len(lines))
    place = generator.randrange(len(lines[at]) + 1)
    drawn = generator.choice(["", chr(generator.randrange(1, 256)).replace("\n", "*")])
    return "\n".join([*lines[:at], lines[at][:place] + drawn + lines[at][place + 1 :], *lines[at + 1 :]])


def tried(text: str) -> tuple[str, object, object]:
    """A script, and the line with its fault: as its film has it, and as the program reports it."""
    made, fault = page_or_line(text)
    assert made.startswith("<!DOCTYPE html>") or made.startswith("a script has a terminal of each"), made[:200]
    ran = subprocess.run([PROGRAM], input=encoded(text), capture_output=True, timeout=300, check=False)
    said = re.search(r"line (\d+): ", reported := ran.stderr.decode())
    return text, fault, int(said[1]) if said and ends_it(reported) else None


def loop(source: list[str]) -> str:
    """A script with a program that suspends itself for ever, with more statements of its own."""
    lines = ["SOURCE SUSP", "DFHEISTG DSECT", "TABLE    DS    CL4000", "SUSP     CSECT", *source, "         B     LOOP", "         END", "/*"]
    return "\n".join([*lines, "TRANSACTION SUSP SUSP", "TERMINAL T001", "KEY T001 ENTER SUSP"]) + "\n"


QUIET = ["LOOP     EXEC  CICS SUSPEND"]
BUSY = ["LOOP     LA    5,TABLE", "         LA    6,1000", "         LA    7,1(0,7)", "STORE    ST    7,0(0,5)", "         LA    5,4(0,5)",
        "         BCT   6,STORE", "         EXEC  CICS SUSPEND"]


def seconds_taken() -> float:
    """The processor seconds that this process and its children took: the clock's depend on what else the machine does."""
    return sum(os.times()[:4])


class DataTest(TestCase):
    def test_data_is_what_looks_write(self) -> None:
        """Of an event drawn of each example and lesson, what the page has is what the looks write there; of terminals without an event too."""
        generator, paths, with_arrivals = random.Random(78), scripts(), 0
        with ThreadPoolExecutor(2) as pool:
            for path, data in zip(paths, pool.map(film_of, paths)):
                expect(f"{path} has a fault, or none", bool(data["fault"]) == ends_it(reported_of(path)), data["fault"])
                is_of_looks = not any(it.is_event for it in actions_of(text_of(path)))  # as a script of FAULTS alone
                expect(f"{path} has events", data["events"] or data["fault"] or is_of_looks, data["script"][:9])
                if data["events"]:
                    with_arrivals += self.is_what_looks_write(path, data, generator.randrange(len(data["events"])))
        expect("events with lines that were come to", bool(with_arrivals) == has_look(PROGRAM, "AHEAD TERM AT A 1"), with_arrivals)

    def is_what_looks_write(self, path: str, data: Data, at: int) -> bool:
        """Sees that what the page has of an event is what the looks write after it, and returns whether it has lines that were come to."""
        event, shown = next(it for n, it in enumerate(states_of(data)) if n == at)
        asked = {key: question(key, shown) for key in shown}
        for terminal in data["terminals"]:
            asked |= {f"{word} {terminal}": f"{word.upper()} {terminal}" for word in ("screen", "display", "abend", "task", "command")}
        for key, lines in zip(asked, written(lines_to(data, event), [*asked.values()])):
            lines = [] if len(lines) == 1 and lines[0].endswith(" NONE") else lines
            expect(f"{path}, event {at + 1}, {key}", shown.get(key, []) == lines, (shown.get(key), lines))
        if "arrivals" in event:
            questions, due = arrivals_of(data, at)
            answers = written(lines_to(data, data["events"][at - 1]), questions)
            seen = [[line for line in answer if line.startswith(("> AHEAD ", "> R"))] for answer in answers]
            expect(f"{path}, event {at + 1}, with what lines were come to", seen == due, (seen, due))
        return "arrivals" in event

    def test_texts_are_no_markup(self) -> None:
        """Texts with markup in a key, a comment, a source line and a bad line are data."""
        key = re.sub(r"[^ A-Za-z0-9.<(+|&!$*);/,%_>?:#@'=\"-]", "", HOSTILE)[:60]
        text = f"* {HOSTILE}\nTERMINAL T001\nKEY T001 ENTER {key}\nSOURCE X\n* {key}\nX CSECT\n BR 14\n END\n/*\nNOSUCH {HOSTILE}\n"
        made = page(("hostile", text))
        expect("markup of a text", (made.count("<script"), made.count("</script>"), made.count("<img")) == (2, 2, 0))
        data = data_of(made)[0]
        expect("a hostile comment is kept", any(HOSTILE in note for event in data["events"] for note in event.get("comments", [])))
        expect("the bad line is reported", data["fault"] and data["fault"][0] == 10, data["fault"])
        bare = page(("control", "* " + "".join(map(chr, range(1, 256))).replace("\n", "") + "\nTERMINAL T001\n"))
        expect("control characters are kept", "\x01\x02" in data_of(bare)[0]["events"][0]["comments"][0], data_of(bare)[0]["events"])

    def test_changed_lines_give_pages(self) -> None:
        """Hostile lines, and scripts with a line cut or changed anywhere, give a page, whose fault is at the line that the program reports."""
        generator = random.Random(4900)
        short = [it for it in map(text_of, scripts()) if len(it) < 4000]
        hostile = [(HEAD + script).decode("utf-8", "surrogateescape") for script in scripts_of_lines().values()]
        cases = hostile + [changed_line(generator, generator.choice(short)) for _ in range(CHANGED)]
        with ThreadPoolExecutor(2) as pool:
            for text, fault, reported in pool.map(tried, cases):
                expect("a fault of a changed script", fault == reported, (fault, reported, text[-300:]))

    def test_long_runs_are_quick(self) -> None:
        """1,000 events; the last ones of more, here 2,000 in the place of 10,000; and a page whose differences are large is cut to its size."""
        expect("how many events are kept", MOST_EVENTS == 10_000, MOST_EVENTS)
        for source, turns, most, limit, kept in ((QUIET, 1_000, MOST_EVENTS, 15, 1_004), (QUIET, 2_500, 2_000, 40, 2_000), (BUSY, 2_100, MOST_EVENTS, 35, None)):
            began = seconds_taken()
            with unittest.mock.patch("cics.film.command.MOST_EVENTS", most):
                film = filmed("long", loop(source) + "TURN T001\n" * turns, PROGRAM)
            expect(f"{turns} turns are filmed", len(film.events) == (kept or turns + 4), len(film.events))
            expect("registers at lines", any(it.arrivals for it in film.events) == (turns < 2_000 and has_look(PROGRAM, "AHEAD TERM AT A 1")), turns)
            left_out = fit(film, ROOM)
            took, size = seconds_taken() - began, len(json_of(film_data(film)))
            is_well = took < limit and size <= ROOM and bool(left_out) == (kept is None)
            expect(f"{turns} turns in {took:.0f} s, {size / 1e6:.0f} MB", is_well, left_out)
            if kept is None:
                last = [*states_of(film_data(film))][-1][1]
                expect("a cut page's storage", last["storage T001 1"] == film.events[-1].changes.get("storage T001 1", last["storage T001 1"]))

    def test_statements_of_half_turns(self) -> None:
        """Which lines a half-turn did, worked out by hand: up to a command, along B, after a command's own statements, and beyond BZ by AHEAD's
        instructions; where AHEAD has none, those that it surely did, up to BZ."""
        lost, chain = (film_of(f"{TOP}/examples/lessons/{name}.script")["events"] for name in ("06-lost-update/lost", "11-chain/chain"))
        is_known = has_look(PROGRAM, "AHEAD TERM 1")
        first, last = [29, 31, 33, 34, 35, 36], [*range(48, 62 if is_known else 53)]
        first = [26, *first, 41, 42, 43, 44, 45, 46] if is_known else first
        for events, at, lines in ((lost, 10, [8, 10]), (lost, 15, [8, 10, 11, 12]), (lost, 16, [13]), (lost, 17, [15, 16, 17, 18, 19, 20, 21]),
                                  (chain, 21, [29]), (chain, 22, first), (chain, 31, [27]), (chain, 32, last)):
            expect(f"the statements of event {at}", events[at - 1].get("passed") == lines, events[at - 1])
        found = film_of(f"{TOP}/examples/lessons/09-abends/found.script")["events"]
        expect("where a task abended", [it["ran"] for it in found if " Abended " in it["answer"]][:1] == [["PAY", 18]], found)

    def test_statements_run_first(self) -> None:
        """Of each statement the event that ran it first; three that the script never runs; and what a film doesn't have, since its beginning is left
        out, isn't known."""
        path = f"{TOP}/examples/lessons/17-never-run/post.script"
        data = film_of(path)
        runs = {int(line): number for line, number in data["sources"]["POST"]["runs"].items()}
        texts = {number: data["events"][number - 1]["text"] for number in runs.values() if number > 0}
        expect("turns", all(text == "TURN T001" for text in texts.values()), texts)
        expect("by the first task, by the third, and never", [runs[line] for line in (13, 16, 22, 29, 30, 31, 32)] == [5, 7, 21, 0, 0, 0, 7], runs)
        cut = filmed_alone("cut", text_of(path), PROGRAM, 12).sources["POST"].runs
        expect("of a cut film", [cut[line] for line in (13, 22, 29)] == [-1, 21, 0], cut)

    def test_queues_of_all_names(self) -> None:
        """A queue whose name is blank is asked for too; one is asked for again where its items can have changed."""
        source = ["SOURCE Q", "DFHEISTG DSECT", "N        DS    CL8", "Q        CSECT", "         MVC   N,=CL8' '"]
        for more in ("=C'ONE') LENGTH(=H'3')", "N) LENGTH(=H'3') ITEM(=H'1') REWRITE"):
            source.append(f" EXEC CICS WRITEQ TS QUEUE(N) FROM({more}")
        ends = ["         EXEC  CICS RETURN", "         END", "/*", "TRANSACTION Q Q", "TERMINAL T001", "KEY T001 ENTER Q", "RUN T001", ""]
        text = "\n".join([*source, *ends])
        states = [shown.get("queue 4040404040404040", [""])[-1] for _, shown in states_of(film_data(filmed("queue", text, PROGRAM)))]
        wanted = ["> ITEM 1 LENGTH 3 'ONE'"] * 2 + ["> ITEM 1 LENGTH 3 '   '"] * 3
        expect("a queue that is rewritten", [it for it in states if it] == wanted, states)

    def test_sessions_of_terminals(self) -> None:
        """A session that was kept is filmed: its screens that were asked for are no events."""
        text = ("TERMINAL T001\n* T001 is taken\nSCREEN T001\nSCREEN @000\nKEY T001 ENTER NONE\nSCREEN @000\n"
                "* The transcript has 9 bytes, SHA-256 00.\n")
        events = data_of(page(("session", text)))[0]["events"]
        expect("a kept session", [it["text"] for it in events] == ["TERMINAL T001", "KEY T001 ENTER NONE"], events)

    def test_run_ends_as_run_does(self) -> None:
        """RUN of a script is as many turns as `cicslook` writes for it, also under EDF and in what is left out."""
        for edf in ("", "EDF T001 ON\n"):
            text = loop(QUIET).replace("KEY T001", f"{edf}KEY T001") + "RUN T001 7\nKEY T001 ENTER\nRUN T001\nKEY T001 PF3\nRUN T001 5\n"
            wanted = [it for it in written(text.split("\n")[:-1], []) or []]
            ran = subprocess.run([PROGRAM], input=text.encode(), capture_output=True, check=False)
            turns = [it for it in ran.stdout.decode().split("\n") if it.startswith("TURN ")]
            film = filmed("run", text, PROGRAM)
            expect(f"RUN, {edf or 'without EDF'}", [" ".join(it.answer) for it in film.events if it.turn] == turns, (turns, wanted))
