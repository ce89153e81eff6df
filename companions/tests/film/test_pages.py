"""Tests of pages in a browser, by clicks and keys."""
import tempfile
import time
import unittest
from typing import Any

from cics.child import TOP
from cics.film.command import has_look
from tests.calling import put
from tests.case import CICSLOOK as PROGRAM
from tests.case import TestCase, expect
from tests.film.browser import ELEMENT, Browser, NoBrowser, is_there
from tests.film.test_data import HOSTILE
from tests.film.test_orders import FOUND, page_of_orders
from tests.film.trials import LESSONS, data_of, page, states_of, text_of

CODES = """SOURCE CODES
DFHEISTG DSECT
ALL      DS    CL256
NAME     DS    CL8
CODES    CSECT
         LA    4,ALL
         SR    5,5
FILL     STC   5,0(0,4)
         LA    4,1(0,4)
         LA    5,1(0,5)
         C     5,=F'256'
         BNE   FILL
         LA    4,ALL
         LA    5,32
QUEUES   MVC   NAME,0(4)
         EXEC  CICS WRITEQ TS QUEUE(NAME) FROM(NAME) LENGTH(=H'8')
         LA    4,8(0,4)
         BCT   5,QUEUES
* <B> & ' " IN A SOURCE LINE </SCRIPT>
* ABCDEFGHIJKLMNOPQRSTUVWXYZabcdefghijklmnopqrstuvwxyz0123456789
* .<(+|&!$*);-/,%_>?:#@'="
         EXEC  CICS SEND TEXT FROM(ALL) LENGTH(=H'256') ERASE
         EXEC  CICS RETURN
         END
/*
TRANSACTION CODE CODES
TERMINAL T001
KEY T001 ENTER CODE <B>&'"</SCRIPT>
RUN T001
"""
LOWEST_CONTRAST = """
const pixel = document.createElement('canvas').getContext('2d', { willReadFrequently: true });
const rgba = (colour) => { pixel.clearRect(0, 0, 1, 1); pixel.fillStyle = colour; pixel.fillRect(0, 0, 1, 1);
  return [...pixel.getImageData(0, 0, 1, 1).data]; };
const light = (rgb) => rgb.slice(0, 3).map((it) => it / 255).map((it) => (it <= 0.03928 ? it / 12.92 : ((it + 0.055) / 1.055) ** 2.4))
  .reduce((sum, it, k) => sum + it * [0.2126, 0.7152, 0.0722][k], 0);
const over = (top, below) => top.slice(0, 3).map((it, k) => (it * top[3] + below[k] * (255 - top[3])) / 255);
const ground = (it) => { const own = rgba(getComputedStyle(it).backgroundColor);
  return own[3] === 255 || !it.parentElement ? own : over(own, ground(it.parentElement)); };
const texts = [...document.querySelectorAll('body *')].filter((it) => it.checkVisibility()
  && [...it.childNodes].some((part) => part.nodeType === 3 && part.data.trim()));
const found = texts.map((it) => { const [a, b] = [light(rgba(getComputedStyle(it).color)), light(ground(it))];
  return [(Math.max(a, b) + 0.05) / (Math.min(a, b) + 0.05), it.className, it.textContent.slice(0, 40)]; });
return found.sort((one, other) => one[0] - other[0])[0];
"""


class Pages:
    """Pages that are opened one after the other."""

    def __init__(self, browser: Browser, folder: str) -> None:
        self.browser, self.folder, self.count = browser, folder, 0

    def open(self, *texts: tuple[str, str], at: str = "") -> str:
        return self.show(page(*texts), at)

    def show(self, made: str, at: str = "") -> str:
        self.count += 1
        put(self.folder, {f"{self.count}.html": made.encode()})
        address = f"file://{self.folder}/{self.count}.html"
        self.browser.open(address + at)
        return address

    def lesson(self, *names: str, at: str = "") -> str:
        return self.open(*((name, text_of(f"{LESSONS}/{name}.script")) for name in names), at=at)

    def event(self) -> str:
        return self.browser.text("#at").split(" ")[1]

    def state(self, script: str, *words: Any) -> Any:
        return self.browser.run(script, *words)


def keys_and_clicks(pages: Pages) -> None:
    browser = pages.browser
    pages.lesson("08-overwrite/overwrite")
    last = pages.state("return String(length())")
    for key, event in (("home", "1"), ("right", "2"), ("right", "3"), ("left", "2"), ("end", last), ("right", last), ("home", "1"), ("left", "1"),
                       ("page down", "11"), ("page up", "1")):
        browser.type(key)
        expect(f"the key {key}", pages.event() == event, browser.text("#at"))
    for selector, place, event in ((".event", 3, "4"), ("#on", 0, "5"), ("#back", 0, "4"), ("#last", 0, last), ("#first", 0, "1")):
        browser.click(browser.elements(selector)[place])
        expect(f"a click on {selector}", pages.event() == event, browser.text("#at"))
    browser.click(browser.elements(".event")[3])
    expect("the link of an event", pages.state("return location.hash") == "#e4")
    browser.type("/")
    for letter in "key":
        browser.type(letter)
    browser.type("enter")
    expect("find an event", pages.state("return view.films[0].data.events[view.at].text").startswith("KEY "))
    browser.type("escape")
    browser.type("/")
    pages.state("byId('find').value = ''")
    browser.type("screen: limit")
    browser.type("enter")
    found = pages.state("return [rowsOf(view.films[0].lines(view.at, 'screen T001'))[0], rowsOf(view.films[0].lines(view.at - 1, 'screen T001'))[0]]")
    expect("find a text on a screen", "LIMIT" in found[0] and found[0] != found[1], found)
    browser.type("escape")
    pages.state("window.copied = null; navigator.clipboard.writeText = async (text) => { window.copied = text; }; document.activeElement.blur()")
    browser.type("c")
    copied = pages.state("return [window.copied, view.films[0].data.events[view.at].line, view.films[0].data.script]")
    expect("copied lines", copied[0].startswith("\n".join(copied[2][: copied[1] - 1])), copied[0])


def overwritten_field(pages: Pages) -> None:
    """Of the field LIMIT, which the lesson's MVC overwrites, "changed by" leads to the half-turn of the MVC: by the mouse, and by keys."""
    browser = pages.browser
    address = pages.lesson("08-overwrite/overwrite")
    asked = "const f = view.item.film, i = view.item.item; return [i.name, f.data.events[view.at].text, valueOf(f, view.at - 1, i), valueOf(f, view.at, i)]"
    wanted = ["LIMIT", "TURN T001", "00000064", "40404040"]
    for by_keys in (False, True):
        browser.open("about:blank")
        browser.open(f"{address}#e10")
        rows = [it for it in browser.elements("tr.asked") if pages.state("return arguments[0].textContent", {ELEMENT: it}).startswith("LIMIT")]
        expect("the field LIMIT is shown", len(rows) == 1, len(rows))
        if by_keys:
            pages.state("arguments[0].querySelector('.ask').focus()", {ELEMENT: rows[0]})
            browser.type("enter")
            browser.type("enter")
        else:
            browser.click(rows[0])
            browser.click(browser.elements("#said button")[0])
        expect("changed by leads to the overwrite", pages.state(asked) == wanted, pages.state(asked))
        tinted = pages.state("return [...document.querySelectorAll('.source .ran')].map((it) => it.textContent)")
        expect("the statements of that half-turn are tinted", any("MVC   NAME(12),INPUT+5" in it for it in tinted), tinted)
        due = browser.text(".source .here")
        expect("what comes next is marked", "EXEC  CICS WRITEQ TS" in due, due)
    browser.open(f"{address}#e6")
    ahead = pages.state("return [...document.querySelectorAll('.ahead tr')].map((it) => it.textContent)")
    expect("the next turn's bytes have names", ahead[-1].startswith("2000CC 12NAME LIMIT00000000 00000000 00000064C1D5D5C5"), ahead)
    for what in ("td.asked", ".screen .row", "h2.asked"):
        browser.click(browser.elements(what)[0])
        expect(f"{what} is asked", "changed by" in browser.text("#said"), browser.text("#said"))


BOXES = """return [...document.querySelectorAll('.arrival')].filter((it) => it.checkVisibility()).map((it) => [it.textContent,
  [...it.querySelectorAll('.new')].map((one) => one.textContent), it.previousSibling.getAttribute('aria-expanded')])"""
BESIDE = """const sides = (it) => { const { left, right } = it.getBoundingClientRect(); return [left, right]; };
const [box, source] = [document.querySelector('.arrival:not([hidden])'), document.querySelector('.source')];
source.scrollLeft = arguments[0];
const [left, right] = sides(source);
return [box, ...box.children].map(sides).filter((it) => it[0] < left - 1 || it[1] > right + 1)"""


def registers_at_a_line(pages: Pages) -> None:
    """Under a row to which the turn came are its registers at a click, and at Enter; at other events too; and nowhere do they stick out."""
    browser = pages.browser
    pages.open(("loop", text_of(f"{TOP}/examples/looks/at.script")), at="#e5")
    rows = browser.elements(".source .row[aria-expanded]")
    if not has_look(PROGRAM, "AHEAD TERM AT A 1"):
        expect("an older program has no registers at lines", not rows, len(rows))
        return
    expect("rows with registers", len(rows) == 7 and pages.state(BOXES) == [], (len(rows), pages.state(BOXES)))
    browser.click(rows[4])
    found = pages.state(BOXES)
    said = "The first time that this turn comes to line 9: CC 2; marked: not as at line 8R00 00000000"
    is_well = len(found) == 1 and found[0][0].startswith(said) and found[0][1:] == [["R06 00000003"], "true"]
    expect("the registers at a click", is_well, found)
    pages.state("arguments[0].focus()", {ELEMENT: rows[6]})
    browser.type("enter")
    expect("the registers at Enter", [it[1] for it in pages.state(BOXES)] == [["R06 00000003"], ["R05 00000000", "R06 00000006"]], pages.state(BOXES))
    browser.type("enter")
    browser.type("left")
    expect("an event without such rows", pages.state(BOXES) == [], pages.state(BOXES))
    browser.type("right")
    expect("they are shown again", pages.state(BOXES) == found, pages.state(BOXES))
    for width in (390, 1280):
        browser.width(width)
        for scrolled in (0, 60):
            expect(f"registers within the source at {width}", pages.state(BESIDE, scrolled) == [], pages.state(BESIDE, scrolled))
    for scheme in ("dark", "light"):
        browser.scheme(scheme)
        expect(f"contrast of registers in {scheme}", pages.state(LOWEST_CONTRAST)[0] >= 4.5, pages.state(LOWEST_CONTRAST))


def registers_under_a_statement(pages: Pages) -> None:
    """The registers at a statement of two lines stand under the second one."""
    lines = ["SOURCE TWO", "TWO      CSECT", "         LA    5,1(0,5)", f"{'         EXEC  CICS':71}X", "               RETURN", "         END", "/*"]
    pages.open(("two", "\n".join([*lines, "TRANSACTION TWO TWO", "TERMINAL T001", "KEY T001 ENTER TWO", "TURN T001", ""])), at="#e5")
    above = pages.state("return [...document.querySelectorAll('.arrival')].map((it) => it.previousSibling.textContent.trim())")
    if has_look(PROGRAM, "AHEAD TERM AT A 1"):
        expect("the rows above registers", above == ["2           LA    5,1(0,5)", "4                 RETURN"], above)


def who_waits_for_whom(pages: Pages) -> None:
    for event in (19, 40, 2):
        pages.lesson("11-chain/deadlock", at=f"#e{event}")
        time.sleep(0.3)
        seen = pages.state("const [a, b] = [view.films[0].current, document.querySelector('.time')].map((it) => it.getBoundingClientRect());"
                           "return a.top >= b.top && a.bottom <= b.bottom")
        expect(f"event {event} is seen in the time line", seen)
    pages.lesson("11-chain/deadlock")
    shown = "go(arguments[0]); const it = document.querySelector('svg.waits');" \
            "return it && [it.getAttribute('aria-label'), it.querySelectorAll('path.wait').length]"
    waits = [pages.state(shown, at) for at in range(pages.state("return length()"))]
    expect("the deadlock's two arrows", ["T001 waits for T002, T002 waits for T001", 2] in waits, waits)
    arrows = pages.state("return [...document.querySelectorAll('.event')].filter((it) => it.querySelector('.lanes .wait')).map((it) => it.textContent)")
    for wanted in ("TURN T001: ENQ RESOURCE, line 16: Waiting for T002", "TURN T002: ENQ RESOURCE, line 16: Waiting for T001"):
        expect("an arrow in the time line", wanted in arrows, arrows)
    browser = pages.browser
    pages.lesson("06-lost-update/lost", at="#e8")
    rows = pages.state("return [...document.querySelectorAll('tr.asked')].map((it) => it.firstChild.textContent + ' ' + it.lastChild.textContent)")
    expect("the CWA's field by its name", any(row.startswith("SEATS ") for row in rows), (browser.text("#at"), rows))


def areas_of_a_chain(pages: Pages) -> None:
    """The areas of lesson 11 with their bytes; where the program has FIELDS, the last one made with the fields of its DSECT."""
    pages.lesson("11-chain/chain")
    pages.state("find('TookLabel ITEMERR')")
    cards = dict(pages.state("return [...document.querySelectorAll('.card')].map((it) => [it.firstChild.textContent, it.textContent])"))
    for address, debtor in (("200140", "MILLER"), ("200160", "ADAMS"), ("200180", "CARTER")):
        expect(f"the area {address}", debtor in cards.get(f"Area {address} of T001", ""), cards.keys())
    fields = pages.state("return [...document.querySelectorAll('.card')].filter((it) => it.textContent.startsWith('Area 200180'))"
                         ".flatMap((it) => [...it.querySelectorAll('tr')].map((row) => [row.firstChild.textContent, row.lastChild.textContent]))")
    wanted = [["Field", "Value"], ["NEXT", ""], ["DEBT", "300"], ["DEBTOR", ""]] if has_look(PROGRAM, "FIELDS TERM") else []
    expect("the fields of an area", fields == wanted, fields)


def values_by_their_types(pages: Pages) -> None:
    """What a field's value is, by its type and its bytes."""
    pages.lesson("08-overwrite/overwrite")
    for kind, digits, value in (("F", "FFFFFFFB", "-5"), ("H", "8000", "-32768"), ("H", "0007", "7"), ("P", "00123D", "-123"), ("P", "0012", ""),
                                ("P", "1C", "1"), ("C", "F0F1F2D2", "zoned -122"), ("C", "F1F2C3", "zoned 123"), ("C", "C1C2", ""),
                                ("C", "F0", "zoned 0"), ("X", "F0", ""), ("F", "0000--", "")):
        expect(f"the value of {kind} {digits}", pages.state("return worded(arguments[0], arguments[1])", kind, digits) == value,
               pages.state("return worded(arguments[0], arguments[1])", kind, digits))


def states_are_worked_out(pages: Pages) -> None:
    """What the page makes of the differences from event to event is what it was made of."""
    for name in ("11-chain/chain", "06-lost-update/customer"):
        pages.lesson(name)
        shown = [it for _, it in states_of(data_of(page((name, text_of(f"{LESSONS}/{name}.script"))))[0])]
        expect(f"the states of {name}", pages.state("return view.films[0].states.slice(1).map((it) => it.shown)") == shown)


def two_films(pages: Pages) -> None:
    browser = pages.browser
    pages.lesson("08-overwrite/overwrite", "08-overwrite/mended")
    expect("two films", len(browser.elements(".film")) == 2 and len(browser.elements(".event.differs")) == 2)
    first = pages.state("return view.films[0].data.pairs.differs === view.at && view.at > 0")
    expect("the first event that differs is shown", first, browser.text("#at"))


def every_text_is_shown(pages: Pages) -> None:
    """Texts that look like markup, and every code on a screen, in a queue's name and in an item."""
    browser = pages.browser
    pages.open(("hostile", f"* {HOSTILE}\n* {chr(1)}{chr(27)}{chr(0x202e)}\n{CODES}NOSUCH {HOSTILE}\n"))
    browser.type("end")
    counts = "return [document.querySelectorAll('script').length, document.querySelectorAll('img, b').length, document.title]"
    expect("nothing is run", pages.state(counts) == [2, 0, "hostile"], pages.state(counts))
    notes = pages.state("return [...document.querySelectorAll('.note')].map((it) => it.textContent)")
    expect("a hostile comment is shown", HOSTILE in notes and "\u2401\u241b\u2421" in notes, notes)
    expect("a bad line is shown", any(it.endswith(f"NOSUCH {HOSTILE}") for it in notes), notes)
    for line in (it for it in CODES.split("\n") if it.startswith("* ")):
        expect("a hostile source line is shown", line in browser.text(".source"), browser.text(".source"))
    seen = pages.state("const f = view.films[0]; return [rowsOf(f.lines(view.at, 'screen T001')),"
                       "[...document.querySelector('.card.own .screen').children].map((it) => it.textContent.replace(/^ $/, ''))]")
    expect("each code on a screen", seen[0] == seen[1] and sum(map(len, seen[0])) > 200, seen)
    queues = pages.state("return [view.films[0].names(view.at, 'queue').length,"
                         "[...document.querySelectorAll('h2')].filter((it) => it.textContent.startsWith('Queue ')).length]")
    expect("a queue of each name", queues == [32, 32], queues)


def orders_and_their_films(pages: Pages) -> None:
    """From the table of a script's ORDERS to the film of an outcome, by a click, by keys and by its address, and back."""
    browser = pages.browser
    address = pages.show(page_of_orders(FOUND))
    marked = pages.state("return [...document.querySelectorAll('.orders .new')].map((it) => it.textContent.trim().slice(0, 16))")
    expect("what outcomes don't share is marked", marked == ["001000  00000002", "001000  00000001"], marked)
    browser.click(browser.elements(".event.search")[0])
    expect("the time line leads to the table", pages.state("return document.activeElement.textContent").startswith("Every order from line 17 on"))
    shown = "return [byId('name').textContent, location.hash, view.films[0].data.events[view.at].text, byId('script').hidden]"
    browser.click(browser.elements(".orders button")[1])
    expect("the film of an outcome", pages.state(shown) == ["orders.script, outcome 2", "#o2e1", "TERMINAL T002", False], pages.state(shown))
    browser.type("right")
    expect("its events", pages.state(shown)[1:3] == ["#o2e2", "KEY T001 ENTER ADD"], pages.state(shown))
    browser.click(browser.elements("#script")[0])
    expect("back to the script", pages.state(shown)[0] == "orders.script" and pages.state(shown)[3], pages.state(shown))
    pages.state("document.querySelectorAll('.orders button')[0].focus()")
    browser.type("enter")
    expect("a film by keys", pages.state(shown)[1] == "#o1e1", pages.state(shown))
    browser.open("about:blank")
    browser.open(f"{address}#o3e3")
    expect("the address of an event of a list", pages.state(shown)[:3] == ["orders.script, some never rest", "#o3e3", "KEY T002 ENTER ADD"], pages.state(shown))


def readable(pages: Pages) -> None:
    """In light and dark the contrast is that of AA; on a phone's width nothing sticks out; nothing moves."""
    for name, at in (("08-overwrite/overwrite", "#e9"), ("11-chain/deadlock", "#e17"), ("09-abends/found", "#e20")):
        pages.lesson(name, at=at)
        for scheme in ("light", "dark"):
            pages.browser.scheme(scheme)
            lowest = pages.state(LOWEST_CONTRAST)
            expect(f"contrast of {name} in {scheme}", lowest and lowest[0] >= 4.5, lowest)
        for width in (1280, 390):
            pages.browser.width(width)
            sticks = pages.state("return [document.documentElement.scrollWidth, innerWidth]")
            expect(f"the width {width}", sticks[0] <= sticks[1] == width, sticks)
        pages.browser.width(1280)
        moves = "return [...document.querySelectorAll('*')].filter((it) => getComputedStyle(it).animationName !== 'none'" \
                " || getComputedStyle(it).transitionDuration !== '0s').length"
        expect("nothing moves", pages.state(moves) == 0)


EXTENT = """
const extent = (it) => { const range = document.createRange(); range.selectNodeContents(it); return [...range.getClientRects()].filter((one) => one.width); };
return [...document.querySelectorAll('.bytes .row')].filter((it) => it.checkVisibility()).filter((it) => { const found = extent(it);
  return new Set(found.map((one) => Math.round(one.top))).size > 1 || Math.max(...found.map((one) => one.right)) > it.closest('.card').getBoundingClientRect().right; })
  .map((it) => it.textContent);
"""


def beside_their_bytes(pages: Pages) -> None:
    """Characters stand in the line of their bytes at every width, and of a field those bytes are marked that have changed."""
    for name, at in (("06-lost-update/lost", "#e39"), ("08-overwrite/overwrite", "#e7"), ("11-chain/chain", "#e40"), ("10-wrong-total/wrong-total", "#e30")):
        pages.lesson(name, at=at)
        pages.state("document.querySelectorAll('details').forEach((it) => { it.open = true; })")
        for width in (1900, 1280, 900, 390):
            pages.browser.width(width)
            expect(f"bytes beside characters in {name} at {width}", pages.state(EXTENT) == [], pages.state(EXTENT))
        pages.browser.width(1280)
    pages.lesson("08-overwrite/overwrite", at="#e7")
    found = pages.state("return [...document.querySelectorAll('.data tr.has-new')].map((it) => [it.firstChild.textContent,"
                        "[...it.querySelectorAll('.new')].map((one) => one.textContent).join(' ')])")
    expect("the bytes that have changed", ["LIMIT", "00000064 ...."] not in found and any(it[0] == "LIMIT" for it in found), found)


OUTCOMES = """
const rows = [...document.querySelectorAll('.orders .row')].filter((it) => /^[0-9A-F]{6}  /.test(it.textContent));
return [rows.length, rows.filter((it) => it.getBoundingClientRect().height > 1.6 * parseFloat(getComputedStyle(it).fontSize) * 1.25).length];
"""


def on_a_phone(pages: Pages) -> None:
    """The header leaves room for the rest, with a question too; the time line is one stop of the Tab key; an empty screen says so."""
    browser = pages.browser
    pages.lesson("08-overwrite/overwrite", at="#e7")
    browser.width(390, 844)
    height = "return document.querySelector('header').getBoundingClientRect().height"
    expect("the header", pages.state(height) <= 100, pages.state(height))
    pages.state("document.querySelector('tr.asked').click()")
    expect("the header with a question", pages.state(height) <= 100, pages.state(height))
    pages.show(page_of_orders(FOUND))
    found = pages.state(OUTCOMES)
    expect("bytes of outcomes beside characters", found[0] >= 2 and found[1] == 0, found)
    pages.lesson("08-overwrite/overwrite", at="#e7")
    browser.width(1280)
    stops = "return [...document.querySelectorAll('.time button')].filter((it) => it.tabIndex === 0).map((it) => buttonsOf.indexOf(it))"
    stops = stops.replace("return ", "const buttonsOf = view.films[0].buttons; return ")
    expect("one stop", pages.state(stops) == [6], pages.state(stops))
    pages.state("view.films[0].buttons[6].focus()")
    browser.type("down")
    expect("down goes to the next event", pages.event() == "8" and pages.state(stops) == [7], (pages.event(), pages.state(stops)))
    expect("the focus goes with it", pages.state("return document.activeElement === view.films[0].buttons[7]"))
    pages.state("go(0)")
    pages.state("go(4)")
    empty = pages.state("return [...document.querySelectorAll('.card')].map((it) => it.getAttribute('aria-label')).filter((it) => it.startsWith('Screen'))")
    expect("an empty screen", empty == ["Screen of T001, empty"], empty)
    unnamed = pages.state("return [...document.querySelectorAll('th')].filter((it) => !it.scope).length")
    expect("heads of tables", unnamed == 0, unnamed)
    unnamed = pages.state("return [...document.querySelectorAll('button, [role=button], section, nav')]"
                          ".filter((it) => !(it.getAttribute('aria-label') || it.textContent).trim()).length")
    expect("all that can be used has a name", unnamed == 0, unnamed)


USES = [keys_and_clicks, overwritten_field, registers_at_a_line, registers_under_a_statement, who_waits_for_whom, areas_of_a_chain,
        values_by_their_types, states_are_worked_out, two_films, orders_and_their_films, every_text_is_shown, readable, beside_their_bytes,
        on_a_phone]


class PagesTest(TestCase):
    @unittest.skipUnless(is_there(), "no browser is installed")
    def test_pages_are_used(self) -> None:
        try:
            with tempfile.TemporaryDirectory() as folder, Browser() as browser:
                pages = Pages(browser, folder)
                for use in USES:
                    use(pages)
                expect("nothing is written on the console", not browser.said(), browser.said())
                asked = [it for it in browser.asked() if not it.startswith(("file:", "data:", "chrome", "about:"))]
                expect("nothing is asked of a network", not asked, asked)
        except NoBrowser as why:
            self.skipTest(f"the browser doesn't begin here: {why}")
