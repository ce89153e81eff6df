"""Tests of keys, of what is typed, and of screens."""
import random

from tests.terminals.client import CODES, Kind
from tests.terminals.programs import RETURN, SPIN, TALK, page_source
from tests.terminals.session import Session, expect, expect_page, expect_pages, test, test_with_each, tests_of


@test_with_each
def a_program_that_returns(make: Kind) -> None:
    with Session(RETURN) as session:
        terminal = session.made(make)
        expect_page(terminal, {24: " TERMINAL T001"})
        expect_page(terminal.enter("ret1"), {})
        shown = ["SCREEN T001", "SCREEN @@@@"]
        made = ["SCREEN @@@@"] + [f"TERMINAL T{at:03}" for at in range(1, 17)] + ["* T001 is taken"]
        expect("lines", session.lines(), made + shown + ["KEY T001 ENTER RET1", "TURN T001", "TURN T001"] + shown + [""])


@test_with_each
def a_conversation(make: Kind) -> None:
    with Session(TALK, RETURN, SPIN) as session:
        terminal = session.made(make)
        waiting, over = {24: " WAITING"}, {1: "GOODBYE"}
        expect_pages(terminal, ("talk to me", "ENTER", {1: "TALK TO ME"} | waiting), ("#@$ (a+b)*c='x';", "PF1", {1: "#@$ (A+B)*C='X';"} | waiting),
                     ("", "PF7", waiting), ("", "PA1", waiting), ("", "CLEAR", waiting), ("", "PF13", {}),
                     ("x" * 161, "ENTER", {1: "X" * 80, 2: "X" * 80, 3: "X"} | waiting), ("end", "ENTER", over),
                     ("none", "ENTER", over | {24: " NO SUCH TRANSACTION"}), ("spin", "ENTER", over | {24: " ABENDED AICA  PF14: WHY"}),
                     ("ret1", "ENTER", over), ("", "CLEAR", {}), ("ret1", "PF12", {}),  # no command of it sends a page
                     ("talk", "ENTER", {1: "TALK"} | waiting), ("end", "PF2", over))
        keys = [line for line in session.lines() if line.startswith("KEY")]
        expect("keys", keys[1:4], ["KEY T001 PF1 #@$ (A+B)*C='X';", "KEY T001 PF7", "KEY T001 PA1"])


@test
def keys_one_after_the_other() -> None:
    """A key that comes before the last one is answered is taken after that."""
    with Session(TALK) as session:
        terminal = session.terminal().type("talk")
        keys = [bytes([0x7D]) + CODES[0] + terminal.data()] + 3 * [bytes([0xF1]) + CODES[0]]
        terminal.socket.sendall(b"".join(key + b"\xFF\xEF" for key in keys))
        for _ in keys:
            terminal.take_screen()
        expect_page(terminal, {24: " WAITING"})
        lines = [line for line in session.lines() if line.startswith(("KEY", "TURN"))]
        again = ["KEY T001 PF1"] + ["TURN T001"] * 5  # RECEIVE, SEND TEXT, and RECEIVE again, which waits
        expect("lines", lines, ["KEY T001 ENTER TALK"] + ["TURN T001"] * 6 + again * 3)


@test
def listens_to_this_machine_alone() -> None:
    with Session(RETURN) as session, open("/proc/net/tcp") as sockets:
        listening = [line.split()[1] for line in sockets if line.split()[3] == "0A"]
        expect("addresses", [it for it in listening if it.endswith(f":{session.port:04X}")], [f"0100007F:{session.port:04X}"])


@test_with_each
def all_of_a_screen_is_typed(make: Kind) -> None:
    """On a blank page 1,920 characters; on the full page that they make, what differs."""
    with Session(TALK) as session:
        terminal = session.made(make)
        expect_page(terminal.enter("", "CLEAR"), {})
        generator = random.Random(1920)
        text = "TALK" + "".join(generator.choice("ABCXYZ0189.<(+|&!$*);-/,%_>?:#@'=\"") for _ in range(1916))
        page = {row: text[80 * row - 80 : 80 * row] for row in range(1, 25)}
        expect_page(terminal.enter(text), page)
        page[12] = page[12][:69] + "}" + page[12][70:]
        expect_page(terminal.move(12, 70).enter("}"), page | {24: " A CHARACTER HAS NO CODE HERE: X'D0'"})
        expect_page(terminal.enter("", "PA3"), page)
        expect_page(terminal.move(12, 70).enter("q" * 20), {1: "Q" * 20, 24: " WAITING"})


CHARACTERS = " ABCDEFGHIJKLMNOPQRSTUVWXYZabcdefghijklmnopqrstuvwxyz0123456789.<(+|&!$*);-/,%_>?:#@'=\""


def drawn_page(generator: random.Random, used: int) -> list[str]:
    """A page, the last of whose rows is full."""
    rows = [generator.choices(CHARACTERS, k=generator.choice((0, 5, 79, 80))) for _ in range(used - 1)]
    return ["".join(row) for row in rows + [generator.choices(CHARACTERS[1:], k=80)]]


@test_with_each
def drawn_pages(make: Kind) -> None:
    """Pages with any number of rows are shown as they are, and what is typed below them, or over a full one, is received."""
    generator = random.Random(24)
    pages = [drawn_page(generator, used) for used in (2, 7, 20, 22, 23, 24, 24)]
    with Session(*(page_source(f"P{at}", rows) for at, rows in enumerate(pages)), options=["--mixed"]) as session:
        terminal = session.made(make)
        for at, rows in enumerate(pages):
            terminal.enter("", "CLEAR")
            page = {row: text.rstrip() for row, text in enumerate(rows, 1) if text.strip()}
            expect_page(terminal.enter(f"P{at}"), page | ({24: " WAITING"} if len(rows) < 23 else {}))
            typed = "".join(generator.choice("acegi13579") for _ in range(70))
            if len(rows) == 24:
                typed = "".join("+" if rows[9][column] == "-" else "-" for column in range(5, 75))
                terminal.move(10, 6)
            expect_page(terminal.enter(typed), {1: typed})


@test_with_each
def characters_without_a_code(make: Kind) -> None:
    with Session(TALK) as session:
        terminal = session.made(make)
        reported = {24: " A CHARACTER HAS NO CODE HERE: X'D0'"}
        expect_page(terminal.enter("talk }me"), {1: " talk }me"} | reported)
        expect_page(terminal.enter("", "PA3"), {1: " talk }me"})  # the whole screen may be typed on, and is typed on already
        expect_page(terminal.enter("{"), {1: " talk }me{"} | {24: reported[24]})
        expect_page(terminal.move(1, 7).type("  ").move(1, 10).enter(" "), {1: "TALK   E", 24: " WAITING"})
        # below a page too, and the field stays modified
        expect_page(terminal.enter("on }"), {1: "TALK   E", 2: "on }"} | reported)
        expect_page(terminal.enter(), {1: "TALK   E", 2: "on }"} | reported)
        expect_page(terminal.move(2, 4).enter("x"), {1: "ON X", 24: " WAITING"})
        keys = [line for line in session.lines() if line.startswith("KEY")]
        expect("keys", keys, ["KEY T001 ENTER TALK   E ", "KEY T001 ENTER ON X"])


CHANGED = " THE SCREEN HAS CHANGED: TYPE IT AGAIN"


@test
def codes_that_no_key_makes() -> None:
    """No byte but that of a character passes, so no line ends before its time."""
    with Session(TALK) as session:
        terminal = session.terminal().enter("talk")
        for code in sorted(set(range(1, 256)) - {character.encode("cp037")[0] for character in CHARACTERS}):
            terminal.codes[terminal.cursor] = code
            terminal.modified.add(terminal.field(terminal.cursor))
            reported = CHANGED if code == 0x11 else f" A CHARACTER HAS NO CODE HERE: X'{code:02X}'"
            typed = {2: bytes([max(code, 0x40)]).decode("cp037").rstrip()} if reported != CHANGED else {}
            expect_page(terminal.press().wait(), {1: "TALK", 24: reported} | {at: row for at, row in typed.items() if row})
            terminal.enter("", "PA3")
        expect("keys", [line for line in session.lines() if line.startswith("KEY")], ["KEY T001 ENTER TALK"])


@test
def a_screen_that_has_changed() -> None:
    """What was typed on another page than the one that is painted isn't given to the region."""
    with Session(TALK) as session:
        terminal = session.terminal()
        for data in ("E3C1D3D2", "1140C2E3C1D3D2", "11", "1140", "114040E3", "1140C1" + "C1" * 1840):
            terminal.send(bytes.fromhex("7D4040" + data))
            expect_page(terminal.wait(), {24: CHANGED})
        terminal.enter("", "CLEAR")
        terminal.send(bytes.fromhex("7D40401140C1E3C1D3D2"))
        expect_page(terminal.wait(), {24: CHANGED})
        assert terminal.has_rung
        terminal.send(bytes.fromhex("7D4040110001E3C1D3D2"))  # an address of fourteen bits
        expect_page(terminal.wait(), {1: "TALK", 24: " WAITING"})
        terminal.send(bytes.fromhex("7D4040110050D4D6D9C5"))
        expect_page(terminal.wait(), {1: "MORE", 24: " WAITING"})


load_tests = tests_of(__name__)
