"""Tests of EDF."""

from tests.terminals.client import Kind, RawTerminal
from tests.terminals.programs import LOOP, PSEUDO, RESOURCE, RET1_IMAGE, TALK, TWO
from tests.terminals.session import Session, expect, expect_page, expect_pages, test, test_with_each, tests_of


KEYS_LINE = "ENTER GO ON  PF3 END  PF4 SUPPRESS  PF5 STORAGE  PF6 USER  PF9 STOP  PF10 BACK"
BEFORE_RETURN = {  # as README.md and examples/cases/edf-stopped.transcript have it
    1: "TRANSACTION RET1  PROGRAM RET1      TASK 0000001  TERMINAL T001",
    2: "STATUS ABOUT TO EXECUTE COMMAND",
    3: "COMMAND RETURN",
    4: "ARG 00 01001C  0E080000------------------------  ....------------",
    15: "R00 0001001C 00010018 00000000 00010000",
    16: "R04 00000000 00000000 00000000 00000000",
    17: "R08 00000000 00000000 00000000 00200000",
    18: "R12 00000000 00200060 50010016 00010000",
    19: "CC 1  NEXT 000800",
    20: "EIBFN 0000  EIBRESP 00000000  EIBAID 7D  EIBCALEN 0000",
    24: KEYS_LINE,
}
STORAGE = {1: "WORKING STORAGE 200060 LENGTH 000050"}
STORAGE |= {row: f"2000{0x40 + 16 * row:02X}  00000000 00000000 00000000 00000000  ................" for row in range(2, 7)}
OVER = {1: "TRANSACTION       PROGRAM           TASK          TERMINAL T001", 2: "STATUS TASK TERMINATION", 24: KEYS_LINE}
XEDF = OVER | {2: "STATUS TASK ABENDED", 21: "ABEND XEDF"}


@test_with_each
def each_key_at_a_stop(make: Kind) -> None:
    with Session(RET1_IMAGE) as session:
        terminal = session.made(make)
        asked = BEFORE_RETURN | {23: " PF9 AGAIN REMOVES ALL STOP CONDITIONS. NOW: END"}
        kept = ("CLEAR", "PA1", "PA2", "PF1", "PF2", "PF7", "PF8", "PF10", "PF11", "PF13", "PF23", "PA3")
        expect_pages(terminal, ("cedf on", "ENTER", {24: " EDF AT T001 IS ON"}), ("ret1", "ENTER", BEFORE_RETURN),
                     *(("", key, BEFORE_RETURN) for key in kept), ("", "PF24", BEFORE_RETURN | {23: " EDF AT T001 IS ON ALREADY"}),
                     ("", "PF5", STORAGE), ("", "PF11", STORAGE), ("", "PF10", STORAGE), ("", "PF6", {}), ("", "PF5", STORAGE),
                     ("", "PF5", BEFORE_RETURN), ("", "PF6", {}), ("", "PF6", BEFORE_RETURN), ("end", "PF9", BEFORE_RETURN | {23: " PF4 STOPS AT END"}),
                     ("", "PF9", asked), ("", "PF5", STORAGE), ("", "PF5", BEFORE_RETURN), ("", "PF9", asked))
        assert "KEY T001 PF9" not in session.lines(), "PF9 was given before it was asked about"
        for words, reported in {"": "PF4 STOPS AT NOTHING", "lengerr end": "PF4 STOPS AT LENGERR END",
                                "end lenger": "LENGER IS NO STOP CONDITION. STILL: LENGERR END"}.items():
            expect_page(terminal.enter(words, "PF9"), BEFORE_RETURN | {23: f" {reported}"})
        expect_pages(terminal, ("", "PF4", OVER), ("", "PF5", {}), ("", "PF10", BEFORE_RETURN | {23: " STOP 1 OF 2"}), ("", "ENTER", {}),
                     ("ret1", "ENTER", BEFORE_RETURN | {1: BEFORE_RETURN[1].replace("0000001", "0000002")}), ("", "PF12", XEDF), ("", "PF12", XEDF),
                     ("", "PF3", {}), ("ret1", "ENTER", {}))
        expect("PF9", [line for line in session.lines() if " PF9" in line][:3], ["KEY T001 PF9 END", "KEY T001 PF9", "KEY T001 PF9 LENGERR END"])


@test
def edf_is_begun_and_ended() -> None:
    with Session(RET1_IMAGE, TALK, PSEUDO) as session:
        first, second = session.terminal(), session.terminal()
        for words, reported in {"": "T001 IS ON", "on": "T001 IS ON ALREADY", "off": "T001 IS OFF",
                            "t001 off": "T001 IS OFF ALREADY", "t002": "T002 IS ON"}.items():
            expect_page(first.enter(f"cedf {words}"), {24: f" EDF AT {reported}"})
            first.enter("", "PA3")
        for words in ("t020", "t001 t002", "offf", "on off", "t002 on on"):
            expect_page(first.enter(f"cedf {words}"), {24: " CEDF, A TERMINAL OR NONE, ON OR OFF"})
            first.enter("", "PA3")
        # the other terminal's task is stopped, and goes on when EDF is ended there
        expect("program", second.enter("talk").rows()[0][:31], "TRANSACTION TALK  PROGRAM TALK ")
        expect_page(first.enter("cedf t002 off"), {24: " EDF AT T002 IS OFF"})
        expect_page(second.wait_painted(), {1: "TALK", 24: " WAITING"})
        # a program that waits gets the text; one that the next key goes on with doesn't
        expect_page(second.enter("cedf"), {1: "CEDF", 24: " WAITING"})
        expect_page(second.enter("", "PF24"), {1: "CEDF", 24: " EDF AT T002 IS ON. WAITING: NO STOP BEFORE THE TASK GOES ON"})
        expect("response", second.enter("more").rows()[20], "RESPONSE NORMAL")
        expect_page(first.enter("ask"), {1: "NAME?"})
        expect_page(first.enter("cedf off"), {1: "NAME?", 24: " EDF AT T001 IS OFF ALREADY"})
        expect_page(first.enter("me"), {1: "ME", 24: " WAITING"})


TAKEN = " ALTERED. THE PAGE SHOWS WHAT WAS TYPED UNTIL THE NEXT STOP"


@test_with_each
def what_is_typed_over_a_display(make: Kind) -> None:
    with Session(TWO) as session:
        terminal = session.made(make)
        terminal.enter("cedf")
        page = terminal.enter("two").rows()
        expect("registers", page[15], "R04 00000000 00000000 00000000 00000000")
        page[15], page[22] = "R04 00000000 0000ABCD 00000000 00000000", TAKEN
        expect("screen", terminal.move(16, 18).enter("abcd").rows(), page)
        # the page that was shown stays altered; then bytes of storage: 200071 to 200073, and 2000AF
        terminal.enter("", "PF5")
        terminal.move(3, 11).type("c1D2").move(3, 15).type("5b")
        rows = terminal.move(6, 42).enter("01").rows()
        storage = "200070  00C1D25B 00000000 00000000 00000000  .AK$............"
        expect("storage", (rows[2], rows[23]), (storage, TAKEN))
        expect("storage", rows[5], "2000A0  00000000 00000000 00000000 00000001  ................")
        expect("registers", terminal.enter("", "PF5").rows()[15], page[15])
        # the next stop shows what came of it, and the display before what it showed
        rows = terminal.enter().rows()
        expect("stop", (rows[1], rows[15]), ("STATUS COMMAND EXECUTION COMPLETE", page[15]))
        expect("storage", terminal.enter("", "PF5").rows()[2], storage)
        expect("older", terminal.enter("", "PF10").rows()[15], "R04 00000000 00000000 00000000 00000000")
        asked = [line for line in session.lines() if line.startswith("ALTER")]
        # what the program does to an altered register is shown at the stop after it: the address of RETURN's block
        terminal.enter()
        terminal.enter("", "PF12")
        terminal.enter()
        terminal.enter("two")
        terminal.enter()
        expect("typed", terminal.move(15, 5).enter("ffffffff").rows()[14][:12], "R00 FFFFFFFF")
        expect("older", terminal.enter("", "PF10").rows()[14][:12], "R00 00010028")
        expect("made", terminal.enter().rows()[14][:12], "R00 0001002C")
        asked_of = "REG 5 0000ABCD", "BYTE 200071 C1", "BYTE 200072 D2", "BYTE 200073 5B", "BYTE 2000AF 01"
        expect("alterations", asked, [f"ALTER T001 {alteration}" for alteration in asked_of])


@test_with_each
def a_command_is_dropped(make: Kind) -> None:
    with Session(TWO) as session:
        terminal = session.made(make)
        terminal.enter("cedf")
        expect("command", terminal.enter("two").rows()[2], "COMMAND SUSPEND")
        rows = terminal.move(3, 9).enter("halt").rows()
        expect("refused", (rows[2], rows[22]), ("COMMAND SUSPEND", " NOTHING BUT NOOP MAY BE TYPED OVER A COMMAND"))
        rows = terminal.move(15, 5).type("xyz").move(3, 9).enter("noop").rows()
        expect("refused", (rows[14][:12], rows[22]), ("R00 00010028", " NOT EIGHT HEXADECIMAL DIGITS: XYZ10028"))
        terminal.move(15, 23).type("00000007").move(3, 9).enter("noop")
        expect("next", terminal.rows()[1:3], ["STATUS ABOUT TO EXECUTE COMMAND", "COMMAND RETURN"])
        expect("registers", terminal.rows()[14][22:], "00000007 00010000")
        terminal.enter("", "PF5")
        rows = terminal.move(2, 9).enter("8g").rows()
        expect("refused", (rows[1][:16], rows[23]), ("200060  8001002C", " NOT A BYTE IN HEXADECIMAL: 8G"))
        asked = [line for line in session.lines() if line.startswith("ALTER")]
        expect("alterations", asked, ["ALTER T001 REG 2 00000007", "ALTER T001 NOP"])


@test
def only_the_newest_display_is_typed_over() -> None:
    with Session(TWO) as session:
        terminal = session.terminal().enter("cedf").enter("two")
        expect("fields", sum(not attribute & 0x20 for attribute in terminal.attributes.values()), 18)
        expect_input(terminal.enter("", "PF6"), None)
        terminal.enter("", "PF6").enter()
        # after the command: it can't be dropped any more, and the display before takes no digits, but what EDF is given
        rows = terminal.move(3, 9).enter("noop").rows()
        expect("refused", rows[22], " ALTER T001 NOTDUE")
        expect_input(terminal.enter("", "PF10"), [21 * 80])
        expect_input(terminal.enter("", "PF5"), [])
        # digits that were deleted; what is typed is dropped by another key than ENTER
        terminal.enter("", "PF5").enter("", "PF10").enter().enter("", "PF5")
        first = 80 + 8
        terminal.codes[first], terminal.modified = 0, {first - 1}
        expect("refused", terminal.enter().rows()[23], " DIGITS MAY BE TYPED OVER, NOT DELETED")
        expect("storage", terminal.move(3, 9).enter("FF", "PF5").rows()[1], "STATUS ABOUT TO EXECUTE COMMAND")
        expect_input(terminal.enter("", "PF12"), [21 * 80])
        expect("alterations", [line for line in session.lines() if line.startswith("ALTER")], ["ALTER T001 NOP"])


def expect_input(terminal: RawTerminal, wanted: list[int] | None) -> None:
    """Where may be typed; None for an unformatted page."""
    found = [at + 1 for at, attribute in sorted(terminal.attributes.items()) if not attribute & 0x20]
    expect("fields", found if terminal.attributes else None, wanted)


@test
def ten_displays_are_kept() -> None:
    """At the oldest PF10 does nothing, and the page that is shown stays."""
    with Session(LOOP) as session:
        terminal = session.terminal().enter("cedf").enter("loop")
        for _ in range(12):
            terminal.enter()
        for _ in range(9):
            terminal.enter("", "PF10")
        storage = terminal.enter("", "PF5").rows()
        expect("mark", storage[23], " STOP 1 OF 10")
        rows = terminal.enter("", "PF10").rows()
        expect("the oldest", rows, storage)
        expect_input(terminal, [])
        expect("fields", sum(not attribute & 0x20 for attribute in terminal.enter().attributes.values()), 18)
        terminal.enter("", "PF12")


@test
def newer_displays() -> None:
    """PF11 paints the next newer display, without EDF; PF10 goes back among them; PF5 and PF6 are of EDF's own display."""
    with Session(TWO) as session:
        terminal = session.terminal().enter("cedf").enter("two")
        pages = [terminal.rows()] + [terminal.enter().rows() for _ in range(3)]
        for at in (3, 2, 1):
            rows = terminal.enter("", "PF10").rows()
            expect("older", rows, pages[at - 1][:22] + [f" STOP {at} OF 4"] + pages[at - 1][23:])
        for key, at in (("PF11", 2), ("PF11", 3), ("PF10", 2), ("PF11", 3), ("PF11", 4), ("PF11", 4), ("PF10", 3)):
            mark = f" STOP {at} OF 4" if at < 4 else ""
            expect(f"after {key}", terminal.enter("", key).rows(), pages[at - 1][:22] + [mark] + pages[at - 1][23:])
        rows = terminal.enter("", "PF5").rows()
        expect("storage", (rows[0][:15], rows[23]), ("WORKING STORAGE", " STOP 1 OF 4: EDF'S OWN DISPLAY, WHICH PF11 DOESN'T MOVE"))
        expect("main", terminal.enter("", "PF5").rows()[22], " STOP 1 OF 4")
        expect("shown", [line for line in session.lines() if line.startswith("DISPLAY T001 ")][-2:], ["DISPLAY T001 0", "DISPLAY T001 1"])
        # the newest one may be typed over, by PF11 too
        terminal.enter("", "PF11").enter("", "PF11").enter("", "PF11")
        expect("fields", sum(not attribute & 0x20 for attribute in terminal.attributes.values()), 1)
        expect("keys", [line for line in session.lines() if "PF11" in line], [])
        expect_page(terminal.enter(), {})


@test
def a_newer_display_is_altered() -> None:
    with Session(TWO) as session:
        terminal = session.terminal().enter("cedf").enter("two")
        terminal.enter().enter("", "PF10").enter("", "PF11")
        expect("typed", terminal.move(15, 5).enter("0000abcd").rows()[14][:12], "R00 0000ABCD")
        expect("marked", terminal.attributes[14 * 80 + 3], 0xC8)
        expect("cursor", terminal.cursor, 14 * 80 + 12)
        terminal.enter()
        expect("alterations", [line for line in session.lines() if line.startswith("ALTER")], ["ALTER T001 REG 0 0000ABCD"])


@test
def colours_and_marks() -> None:
    """A program's text is green, with a message too; registers are of normal brightness, and bright where they are altered."""
    with Session(TALK, TWO) as session:
        for kind, green in {"IBM-3279-2-E": 0xF4, "IBM-DYNAMIC": 0xF4, "IBM-3278-2": None}.items():
            terminal = session.terminal(kind).enter("talk to me")
            for _ in range(2):
                expect("attribute", (terminal.attributes[1919], terminal.colours.get(1919)), (0xF0, green))
                expect("governing", terminal.governing(1, 1), 1919)
                terminal.enter("", "PA3")
        terminal = session.terminal().enter("cedf").enter("two")
        expect("before", {terminal.attributes[row * 80 + 3] for row in range(14, 18)}, {0x40})
        terminal.move(16, 18).type("abcd").move(15, 5).enter("12")
        expect("altered", [terminal.attributes[row * 80 + column] for row, column in ((15, 12), (14, 3), (14, 12))], [0xC8, 0xC8, 0x40])
        expect("cursor", terminal.cursor, 14 * 80 + 6)
        expect("message, keys", [terminal.attributes[22 * 80], terminal.attributes[22 * 80 + 79]], [0xF8, 0xF0])
        terminal.enter("", "PF5").move(3, 11).enter("c1")
        expect("altered", [terminal.attributes[2 * 80 + column] for column in (7, 16)], [0xC8, 0x40])
        terminal.enter("", "PF12")


@test
def a_stop_wakes_who_waits() -> None:
    """PF12 ends a task, and another that waited for its resource goes on."""
    with Session(RESOURCE) as session:
        first, second = session.terminal(), session.terminal()
        first.enter("cedf").enter("hold").enter()
        expect("enqueued", first.rows()[1:3], ["STATUS COMMAND EXECUTION COMPLETE", "COMMAND ENQ"])
        expect_page(second.enter("take"), {24: " WAITING"})
        expect_page(first.enter("", "PF12"), XEDF)
        expect_page(second.wait_painted(), {1: "TAKEN"})


@test
def pf10_from_the_storage_page() -> None:
    """It shows the main page of the display before, and PF5 then that one's storage."""
    with Session(TWO) as session:
        terminal = session.terminal().enter("cedf").enter("two")
        main = terminal.rows()
        terminal.enter().enter("", "PF5")
        expect("older", terminal.enter("", "PF10").rows()[:22], main[:22])
        expect("marked", terminal.rows()[22], " STOP 1 OF 2")
        expect("storage", terminal.enter("", "PF5").rows()[0][:15], "WORKING STORAGE")
        terminal.enter().enter()


load_tests = tests_of(__name__)
