"""Pages show what users, and attackers, call their files, and run nothing of it: text is escaped, and a page's policy names its own style and
script by their hashes. In Chromium, where it is installed, too."""
import base64
import hashlib
import os
import re
import shutil
import subprocess
import unittest
from html.parser import HTMLParser

from cics.child import TOP, decoded, read
from cics.pages import Markup, joined, json_of, markup
from tests.calling import SCRIPT, SOURCE, called, folder_of
from tests.case import PROGRAMS, TestCase

CRAFTED = 'x"><script>document.title="TAKEN"</script><img src=x onerror=document.title="TAKEN">&amp;'
FILES = {"p.asm": SOURCE, "crafted.map": f"1 p.asm:1\n2 {CRAFTED}:2\n3 p.asm:3\n", "s.script": SCRIPT,
         'y"><b>.script': SCRIPT.replace("SOURCE P\n", "SOURCE P\n* <script>document.title='TAKEN'</script> &lt;\n")}
COVER = ("cics-run", ["p.asm", "--key", "P", "--map", "crafted.map", "--html", "page.html", *PROGRAMS])
PAGES = [COVER, ("cics-cover", ['y"><b>.script', "--html", "page.html", *PROGRAMS]),
         ("cics-film", ['y"><b>.script', "--map", "P=crafted.map", "-o", "page.html", *PROGRAMS]), ("cics-map", ["s.script", "-o", "page.html", *PROGRAMS])]
HASH = r"'sha256-[A-Za-z0-9+/=]{44}'"
POLICY = re.compile(rf"default-src 'none'; style-src (?P<style>{HASH}); script-src (?P<script>{HASH})")
CHROMIUM = shutil.which("chromium") or shutil.which("chromium-browser")


class Read(HTMLParser):
    """A page as a browser reads it: its policy, what its styles and scripts have, its tags, attributes and text."""

    def __init__(self, text: str) -> None:
        super().__init__()
        self.policy, self.texts, self.tags, self.attributes, self.open = "", {"style": list[str](), "script": list[str]()}, set[str](), set[str](), ""
        self.data = list[str]()
        self.feed(text)

    def handle_starttag(self, tag: str, attrs: list[tuple[str, str | None]]) -> None:
        words = dict(attrs)
        self.tags.add(tag)
        self.attributes |= {*words}
        if words.get("http-equiv") == "Content-Security-Policy":
            self.policy = words["content"] or ""
        self.open = tag if tag in self.texts and words.get("type") != "application/json" else ""

    def handle_endtag(self, tag: str) -> None:
        self.open = ""

    def handle_data(self, data: str) -> None:
        if self.open:
            self.texts[self.open].append(data)
        else:
            self.data.append(data)


def hash_of(text: str) -> str:
    return f"'sha256-{base64.b64encode(hashlib.sha256(text.encode()).digest()).decode()}'"


class PolicyTest(TestCase):
    def made(self, folder: str, companion: str, words: list[str]) -> str:
        ended = called(companion, words, folder)
        self.assertIn(ended.status, (0, 4), ended)
        return decoded(read(os.path.join(folder, "page.html")))

    def test_policy(self) -> None:
        """Each page has one style and one script, which its policy names by their hashes, and nothing of a name is a tag or an attribute."""
        for companion, words in PAGES:
            with self.subTest(companion), folder_of(FILES) as folder:
                page = Read(self.made(folder, companion, words))
                found = POLICY.fullmatch(page.policy)
                self.assertIsNotNone(found, page.policy)
                self.assertEqual([len(texts) for texts in page.texts.values()], [1, 1])
                self.assertEqual(found and found.groupdict(), {kind: hash_of(texts[0]) for kind, texts in page.texts.items()})
                self.assertEqual(page.tags & {"b", "img"} | page.attributes & {"onerror", "style", "onclick", "onload"}, set())

    def test_crafted_numbers(self) -> None:
        with folder_of(FILES) as folder:
            page = self.made(folder, *COVER)
        self.assertIn(f"{CRAFTED}:2", Read(page).data)
        self.assertEqual(page.count("TAKEN"), page.count("document.title=&quot;TAKEN&quot;"))
        self.assertNotIn("<img", page)

    def test_markup(self) -> None:
        self.assertEqual(markup("<i title='{}'>{}</i>", "'\"", "<b>&"), "<i title='&#x27;&quot;'>&lt;b&gt;&amp;</i>")
        self.assertEqual(markup("{}{}", Markup("<br>"), 3), "<br>3")
        self.assertEqual(markup("{}", joined([markup("<b>{}", "<"), markup("<i>{}", ">")], "\n")), "<b>&lt;\n<i>&gt;")
        self.assertEqual(json_of("</script><!--"), '"\\u003c/script>\\u003c!--"')

    def test_one_escape(self) -> None:
        """No other module escapes text of pages, or writes to the policy."""
        ran = subprocess.run(["grep", "-rlE", r"html import escape|html\.escape|unsafe-inline|innerHTML|document\.write|insertAdjacent", "companions/cics"], cwd=TOP,
                             capture_output=True, text=True, check=False)
        self.assertEqual([path for path in ran.stdout.split() if not path.endswith(".pyc")], ["companions/cics/pages/__init__.py"])

    @unittest.skipUnless(CHROMIUM, "chromium isn't installed")
    def test_in_chromium(self) -> None:
        """Own scripts run, and none of a crafted name, nor one that came into a page by another way."""
        for companion, words in PAGES[2:] + [COVER]:
            with self.subTest(companion), folder_of(FILES) as folder:
                page = self.made(folder, companion, words)
                shown, said = self.shown(page)
                self.assertNotIn("violates", said)
                self.assertNotIn("<title>TAKEN", shown)
                self.assertTrue(companion == "cics-run" or re.search(r'<h1 id="name">[^<]', shown), shown[:3000])
        shown, said = self.shown(page.replace("</body>", "<script>document.title = 'TAKEN'</script></body>"))
        self.assertIn("violates", said)
        self.assertNotIn("<title>TAKEN", shown)

    def shown(self, page: str) -> tuple[str, str]:
        """What Chromium makes of a page, and what it reports."""
        with folder_of({"page.html": page.encode("utf-8", "surrogateescape")}) as folder:
            command = [CHROMIUM or "", "--headless", "--no-sandbox", "--disable-gpu", f"--user-data-dir={folder}/profile", "--enable-logging=stderr", "--dump-dom",
                       f"file://{folder}/page.html"]
            ran = subprocess.run(command, capture_output=True, text=True, timeout=300, check=False)
        return ran.stdout, ran.stderr
