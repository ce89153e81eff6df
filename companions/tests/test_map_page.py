"""The page of a map in a browser, by keys and clicks: screens small and large, states, arrows, what is copied, and how wide and legible it is."""
import os
import tempfile
import unittest

from cics.map.page import page_of
from tests.calling import put
from tests.case import TestCase, expect
from tests.film.browser import Browser, NoBrowser, is_there
from tests.film.test_pages import LOWEST_CONTRAST
from tests.test_map import ANSWER, MIXED, PRESSED, mapped

OF_TWO = ["KEY T001 ENTER TO", "KEY T002 PF3"]
TEXT = ["TERMINAL T001"]


class Shown:
    """A page that is shown."""

    def __init__(self, browser: Browser, path: str) -> None:
        self.browser, self.path = browser, path

    def open(self, page: str, at: str = "") -> None:
        put(os.path.dirname(self.path), {os.path.basename(self.path): page.encode()})
        self.browser.open("about:blank")
        self.browser.open(f"file://{self.path}{at}")

    def says(self, script: str, due: object, what: str) -> None:
        found = self.browser.run(f"return {script}")
        expect(what, found == due, found)


def keys_and_clicks(shown: Shown) -> None:
    browser = shown.browser
    shown.open(page_of(mapped(MIXED, OF_TWO, ["T001", "T002"], TEXT)))
    shown.says("[...document.querySelectorAll('.screen-card')].map((it) => it.id)", ["s1", "s2", "s3"], "the cards")
    shown.says("[...document.querySelectorAll('.level h2')].map((it) => it.textContent)", ["The beginning", "By 1 key", "By 2 keys"], "the levels")
    shown.says("document.querySelector('#s1 .badge.abends').textContent", "AEIA ASRA", "the abends of a screen")
    for key, at in (("down", "2"), ("right", "3"), ("home", "1"), ("end", "3"), ("left", "2")):
        browser.type(key)
        expect(f"the key {key}", browser.text("#at") == f"screen {at} of 3", browser.text("#at"))
    browser.type("enter")
    shown.says("[byId('large').open, location.hash]", [True, "#s2.2"], "a screen that is large")
    expect("that it is still running", "STILL RUNNING" in browser.text("#large"))
    browser.type("left")
    shown.says("[view.state, [...document.querySelectorAll('.chip[aria-pressed]')].map((it) => it.textContent)]", [1, ["1", "3"]], "the states of a screen")
    browser.click(browser.elements(".chip[aria-pressed=false]")[0])
    shown.says("[view.state, location.hash]", [3, "#s1.3"], "another state of a screen")
    shown.says("[...document.querySelectorAll('.out li')].map((it) => it.className)", ["", "abends"], "the keys from a state")
    browser.click(browser.elements("button.to:not(:disabled)")[0])
    shown.says("[view.at + 1, view.state]", [3, 4], "where a key leads")
    browser.run("window.copied = null; navigator.clipboard.writeText = async (text) => { window.copied = text; }")
    browser.type("c")
    shown.says("window.copied", "\n".join([*TEXT, *MIXED[-8:-3], ""]), "what is copied")
    browser.type("escape")
    shown.says("[byId('large').open, document.activeElement.id]", [False, "s3"], "the map after it")
    browser.type("/")
    for letter in "pf3":
        browser.type(letter)
    browser.type("enter")
    expect("a key that is found", browser.text("#at") == "screen 1 of 3", browser.text("#at"))


def arrows(shown: Shown) -> None:
    shown.open(page_of(mapped(ANSWER, PRESSED)))
    shown.says("[...document.querySelectorAll('path.way')].map((it) => [...it.classList])", [["way", "own"]], "the arrow from the first screen")
    shown.says("[...document.querySelectorAll('.label text')].map((it) => it.textContent)", ["ENTER PAY 00125"], "its key")
    shown.says("[...document.querySelectorAll('#s2 .badge')].map((it) => it.textContent)", ["ASRA", "1 refused", "goes on"], "the marks of a screen")
    shown.open(page_of(mapped(ANSWER, PRESSED)), "#s2")
    shown.says("view.state", 2, "a screen by its address")


def sizes_and_colours(shown: Shown) -> None:
    browser = shown.browser
    for scheme in ("light", "dark"):
        browser.scheme(scheme)
        for width in (1200, 390):
            browser.width(width)
            for at in ("", "#s1"):
                shown.open(page_of(mapped(MIXED, OF_TWO, ["T001", "T002"], TEXT)), at)
                wide = browser.run("return Math.max(document.documentElement.scrollWidth, ...[...document.querySelectorAll('.both, .screen, .told')]"
                                   ".map((it) => it.getBoundingClientRect().right))")
                expect(f"the width at {width} {at}", wide <= width, wide)
                contrast = browser.run(LOWEST_CONTRAST)
                expect(f"the contrast, {scheme} {at}", contrast[0] >= 4.5, contrast)


@unittest.skipUnless(is_there(), "chromium and chromedriver aren't installed")
class MapPageTest(TestCase):
    def test_pages(self) -> None:
        try:
            browser = Browser()
        except NoBrowser as why:
            self.skipTest(f"the browser doesn't begin here: {why}")
        with browser, tempfile.TemporaryDirectory() as folder:
            shown = Shown(browser, os.path.join(folder, "map.html"))
            for trial in (keys_and_clicks, arrows, sizes_and_colours):
                trial(shown)
            said = browser.said()
            expect("what the console says", said == [], said)
            asked = [url for url in browser.asked() if not url.startswith(("file:", "about:", "data:"))]
            expect("what is asked of the network", asked == [], asked)
