"""What cics-cover tells of what scripts run, and never do: counts of several added, files that are made of them, and what is never held clean."""
import glob
import hashlib
import json
import os
import shutil
import subprocess
import tempfile
import unittest
from html.parser import HTMLParser

from cics.child import TOP, decoded, encoded, read, run, text_of
from cics.cover.asking import Asked, coverage_of
from cics.cover.counts import Coverage, Covered
from cics.cover.page import page_of
from tests.calling import Call, called, failures_of, folder_of, put
from tests.case import CICSLOOK, PROGRAMS, TestCase

WAYS = """P        CSECT
         CLI   EIBAID,X'F3'            A < B & C
         BE    LAST
         LA    5,2
NEXT     BCT   5,NEXT
         EXEC  CICS RETURN
LAST     LA    4,1
         LA    4,2

         EXEC  CICS RETURN
         END
"""
HEAD = f"SOURCE P\n{WAYS}/*\nTRANSACTION P P\nTERMINAL T001\n"
ENTER, LAST = f"{HEAD}KEY T001 ENTER P\nRUN T001\n", f"{HEAD}KEY T001 PF3 P\nRUN T001\n"
OTHER = ENTER.replace("LA    4,2", "LA    4,3")
ALL = "P: 8 of 8 statements run, 100 %; 2 of 2 branches both ways"
OF_ENTER = ["P: 5 of 8 statements run, 62.5 %; 1 of 2 branches both ways", "  never run: 7-8, 10", "  line 3 was never taken, 1 time: BE LAST"]
OF_LAST = ["P: 5 of 8 statements run, 62.5 %; 0 of 2 branches both ways", "  never run: 4-6", "  line 3 was always taken, 1 time: BE LAST"]
FILES = {"e.script": ENTER, "l.script": LAST, "o.script": OTHER}
CALLS = [
    Call("a script", "cics-cover", ["e.script"], 0, OF_ENTER, FILES),
    Call("the other way", "cics-cover", ["l.script"], 0, OF_LAST, FILES),
    Call("both, which are added", "cics-cover", ["e.script", "l.script"], 0, [ALL], FILES),
    Call("one of two, twice", "cics-cover", ["e.script", "./e.script"], 0, [*OF_ENTER[:2], "  line 3 was never taken, 2 times: BE LAST"], FILES),
    Call("a folder", "cics-cover", ["."], 0, [ALL], {"a.script": ENTER, "b.script": LAST}),
    Call("different sources", "cics-cover", ["e.script", "o.script"], 2, [], FILES,
         "cics-cover: P: e.script and o.script have different sources of it, whose lines can't be added"),
    Call("less than is asked", "cics-cover", ["e.script", "--at-least", "62.6"], 4, OF_ENTER, FILES,
         "cics-cover: P: 62.5 % of its statements is less than 62.6 %"),
    Call("as much as is asked", "cics-cover", ["e.script", "--at-least", "62.5"], 0, OF_ENTER, FILES),
    Call("more than all", "cics-cover", ["e.script", "--at-least", "101"], 2, [], FILES, "--at-least: a number from 0 to 100; write: cics-cover"),
    Call("no number", "cics-cover", ["e.script", "--at-least", "nan"], 2, [], FILES, "--at-least: a number from 0 to 100"),
    Call("no words", "cics-cover", [], 2, [], FILES, "write: cics-cover"),
    Call("no file", "cics-cover", ["n.script"], 3, [], FILES, "cics-cover: n.script: No such file"),
    Call("a bad line", "cics-cover", ["f.script", "e.script"], 1, OF_ENTER, {**FILES, "f.script": f"{ENTER}NONE\n"},
         "cics-cover: f.script: it isn't done to its end: line 18: BadLine; nothing of it is counted"),
    Call("a bad look, and less than is asked", "cics-cover", ["f.script", "--at-least", "1"], 1, [], {"f.script": f"{ENTER}TASK\n"}, "line 18: BadLook"),
    Call("a faulty source", "cics-cover", ["f.script"], 1, [], {"f.script": ENTER.replace("BE    LAST", "BE    LOST")}, "line 4: UndefinedSymbol"),
    Call("a block that isn't ended", "cics-cover", ["f.script"], 1, [], {"f.script": f"SOURCE P\n{WAYS}"}, "line 1: BadLine"),
    Call("no source", "cics-cover", ["n.script"], 1, [], {"n.script": "TERMINAL T001\n"}, "n.script: it defines no source, so nothing of it is counted"),
    Call("an empty script", "cics-cover", ["n.script"], 1, [], {"n.script": ""}, "n.script: it defines no source"),
    Call("a source that is refused", "cics-cover", ["n.script"], 1, [], {"n.script": "SOURCE P\nP        DSECT\nX        DS    F\n         END\n/*\n"},
         "n.script: its source P is refused, BadLength"),
    Call("a second one of its name", "cics-cover", ["t.script"], 1, OF_ENTER, {"t.script": ENTER + OTHER[: OTHER.index("TRANS")]},
         "t.script: its source P on line 18 is refused, Duplicate; nothing of that is counted"),
    Call("one behind an image of its name", "cics-cover", ["i.script"], 1, [],
         {"i.script": f"IMAGE P 80\n07FE\n/*\n{ENTER}"}, "i.script: its source P on line 4 is refused, Duplicate; nothing of that is counted"),
    Call("one that is refused beside another", "cics-cover", ["n.script"], 1, OF_ENTER,
         {"n.script": f"{ENTER}SOURCE D\nX        DSECT\nY        DS    F\n         END\n/*\n"},
         "n.script: its source D is refused, BadLength; nothing of that is counted"),
    Call("COVER of its own", "cics-cover", ["c.script"], 0, [ALL],
         {"c.script": f"{ENTER}cover on\nCOVERED P\nKEY T001 PF3 P\nRUN T001\nCOVER OFF\nCOVERED"}),
    Call("no key", "cics-cover", ["k.script"], 0, ["P: 0 of 8 statements run, 0 %; 0 of 2 branches both ways", "  never run: 2-8, 10"], {"k.script": HEAD}),
    Call("a program that abends", "cics-cover", ["a.script"], 0,
         ["P: 1 of 2 statements run, 50 %; 0 of 0 branches both ways", "  never run: 3"],
         {"a.script": ENTER.replace(WAYS, "P        CSECT\n         L     2,0(7)\n         EXEC  CICS RETURN\n         END\n")}),
]
LCOV = """SF:e.script
BRDA:4,0,0,0
BRDA:4,0,1,1
BRDA:6,0,0,1
BRDA:6,0,1,1
BRF:4
BRH:3
DA:3,1
DA:4,1
DA:5,1
DA:6,2
DA:7,1
DA:8,0
DA:9,0
DA:11,0
LF:8
LH:5
end_of_record
"""
NEVER = f"{HEAD.replace('LA    5,2', 'B     LAST')}KEY T001 PF3 P\nRUN T001\n"  # its BCT is never run


def asked(path: str) -> Asked:
    return Asked(path, decoded(read(path)))


def counted(one: Covered) -> str:
    """What COVERED writes of a program, of its counts here."""
    return (f"> COVERED {one.name} STATEMENTS {one.count_run()} OF {len(one.statements())} BRANCHES BOTH WAYS {one.count_both()} "
            f"OF {len(one.branches())}")


class CoverTest(TestCase):
    def test_calls(self) -> None:
        self.none_of(failures_of(CALLS, PROGRAMS))

    def test_counts_of_the_looks(self) -> None:
        """Of each program of the lessons the counts are those of COVERED, branches that never ran and that went both ways too; and the
        scripts' own lines write what they write alone."""
        count = 0
        for path in [*sorted(glob.glob(f"{TOP}/examples/lessons/*/*.script")), f"{TOP}/examples/looks/cover.script"]:
            one = asked(path)
            alone, both = (run([CICSLOOK], encoded(text)) for text in (one.text, one.script()))
            if not alone.is_well():
                continue
            for program in one.answered(both.lines()):
                self.assertIn(counted(program), both.lines(), path)
                count += 1
            if "COVERED" not in one.text:
                self.assertEqual(one.own(both.lines()), alone.lines(), path)
        self.assertGreater(count, 40)


SHOP = """P        CSECT
         ZAP   TOTAL,=P'1'
         CP    TOTAL,=P'1'
         BE    LAST
         EXEC  CICS RETURN
LAST     AL    5,=F'1'
         EXEC  CICS RETURN
DFHEISTG DSECT
TOTAL    DS    PL4
         END
"""


class AdaptedTest(TestCase):
    def test_without_a_map(self) -> None:
        """Of a source that cics-adapt rewrote the user's six statements count, and what stands behind the routines, but no routine."""
        with folder_of({"p.asm": SHOP}) as folder:
            adapted = called("cics-adapt", ["p.asm"], folder).out.decode()
            self.assertIn("$XCP     STM", adapted)
            for source, due in ((adapted, "P: 5 of 6 statements run, 83.3 %; 0 of 1 branch both ways"),
                                (adapted.replace("         END\n", "MINE     BR    14\n         END\n"),
                                 "P: 5 of 7 statements run, 71.4 %; 0 of 1 branch both ways")):
                put(folder, {"p.script": f"SOURCE P\n{source}/*\nTRANSACTION P P\nTERMINAL T001\nKEY T001 ENTER P\nRUN T001 4096\n"})
                ended = called("cics-cover", ["p.script", "--at-least", "80", *PROGRAMS], folder)
                self.assertEqual((ended.lines()[0], ended.status), (due, 0 if "83" in due else 4))


class FilesTest(TestCase):
    def made(self, scripts: dict[str, str], *words: str) -> tuple[dict[str, str], str]:
        """The files that a call makes, and its output."""
        with tempfile.TemporaryDirectory() as folder:
            for name, text in scripts.items():
                with open(os.path.join(folder, name), "w", encoding="ascii") as file:
                    file.write(text)
            ended = called("cics-cover", [*scripts, *words, *PROGRAMS], folder)
            self.assertEqual((ended.status, ended.reported), (0, b""), ended)
            names = sorted({*os.listdir(folder)} - {*scripts})
            return {name: read(os.path.join(folder, name)).decode() for name in names}, ended.out.decode()

    def test_lcov(self) -> None:
        files, _ = self.made({"e.script": ENTER}, "--lcov", "p.info")
        self.assertEqual(files, {"p.info": f"TN:cics_cover_{hashlib.sha256(LCOV.encode()).hexdigest()[:16]}\n{LCOV}"})

    def test_lcov_of_branches(self) -> None:
        """One that never ran has hyphens; of one that went one way in each of two scripts both counts are exact."""
        files, _ = self.made({"n.script": NEVER}, "--lcov", "p.info")
        self.assertIn("BRDA:6,0,0,-\nBRDA:6,0,1,-\nBRF:4\nBRH:1\n", files["p.info"])
        files, _ = self.made({"e.script": ENTER, "l.script": LAST, "m.script": LAST}, "--lcov", "p.info")
        self.assertIn("BRDA:4,0,0,2\nBRDA:4,0,1,1\n", files["p.info"])

    def test_json(self) -> None:
        _, out = self.made({"e.script": ENTER}, "--json")
        found = json.loads(out)
        program, = found["programs"]
        self.assertEqual({name: value for name, value in program.items() if name != "lines"},
                         {"program": "P", "scripts": ["e.script"], "statements": 8, "run": 5, "branches": 2, "both": 1, "never": ["7-8", "10"]})
        self.assertEqual(program["lines"][1], {"line": "3", "at": "e.script:4", "runs": 1, "taken": 0, "passed": 1, "text": "BE LAST"})
        self.assertEqual(found["faults"], {})

    def test_page(self) -> None:
        files, _ = self.made({"e.script": ENTER}, "--html", "p.html")
        page = Page(files["p.html"])
        self.assertEqual(page.rows, {"p0-7": "never", "p0-8": "never", "p0-10": "never", "p0-3": "way",
                                     **{f"p0-{number}": "" for number in (1, 2, 4, 5, 6, 9, 11)}})
        self.assertEqual(page.links, ["#p0-3", "#p0-7", "#p0-10"])
        self.assertIn("A &lt; B &amp; C", files["p.html"])
        self.assertEqual([word for word in ("http:", "https:", "src=", "/*STYLE", "/*SECTIONS") if word in files["p.html"]], [])
        self.assertIn("prefers-color-scheme: dark", files["p.html"])

    @unittest.skipUnless(shutil.which("node"), "node isn't installed")
    def test_keys_of_the_page(self) -> None:
        """The arrows, Home and End go from one place to the next, and say which it is."""
        document = """const links = ["1", "2", "3"].map((name) => ({ textContent: name, getAttribute: () => "#" + name, addEventListener() {},
          closest: () => ({ querySelector: () => ({ textContent: "P" }) }) }));
        const at = { textContent: "" }, been = [], heard = {}, location = { replace: (to) => been.push(to) };
        const document = { querySelectorAll: () => links, getElementById: (id) => id === "at" ? at : { addEventListener() {} },
          addEventListener: (name, does) => { heard[name] = does; } };"""
        presses = """for (const key of ["ArrowRight", "ArrowRight", "End", "ArrowRight", "Home", "ArrowLeft", "x"])
          heard.keydown({ key, preventDefault() {} });
        console.log(been.join(" ") + " " + at.textContent);"""
        page = page_of(Coverage())
        script = page[page.index('"use strict";') : page.index("</script>")]
        ran = subprocess.run(["node", "-e", f"{document}\n{{\n{script}\n}}\n{presses}"], capture_output=True, text=True, check=False)
        self.assertEqual((ran.stdout.strip(), ran.stderr), ("#1 #2 #3 #3 #1 #1 1 of 3: P 1", ""))


class Page(HTMLParser):
    """A page's rows by their anchors, each with what it is shown as, and the links to places."""

    def __init__(self, text: str) -> None:
        super().__init__()
        self.rows: dict[str, str] = {}
        self.links: list[str] = []
        self.feed(text)

    def handle_starttag(self, tag: str, attrs: list[tuple[str, str | None]]) -> None:
        found = {name: value or "" for name, value in attrs}
        if tag == "tr" and "id" in found:
            self.rows[found["id"]] = found.get("class", "")
        if tag == "a":
            self.links.append(found["href"])


class LongTest(TestCase):
    def test_a_long_script(self) -> None:
        """A script with a thousand keys, and one with many sources."""
        keys = ENTER + "KEY T001 ENTER P\nRUN T001\n" * 1000
        many = "".join(text_of([f"SOURCE P{at}", f"P{at:<7} CSECT", "         BR    14", "         END", "/*"]) for at in range(60))
        coverage = coverage_of([Asked("k.script", keys), Asked("m.script", many)], CICSLOOK)
        self.assertEqual([(one.name, one.lines[1].runs) for one in coverage.programs[:2]], [("P", 1001), ("P0", 0)])
        self.assertEqual(len(coverage.programs), 61)
