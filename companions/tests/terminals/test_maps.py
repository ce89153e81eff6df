"""Maps at a terminal: a formatted screen of a map, with protected, numeric, bright, dark and coloured fields; what is typed goes as a key's text,
and the session is a script that replays."""
import tempfile

from cics.terminals.data_stream import SIZE, address
from cics.terminals.maps import MapPainting, Maps, Place
from tests.calling import called
from tests.stand_in.test_example import GIVEN
from tests.terminals.client import Kind
from tests.terminals.session import Session, expect, expect_page, test, test_with_each, tests_of

RED, TURQUOISE = 0xF2, 0xF5


def set_up() -> str:
    """The set-up that cics-run makes of the example."""
    with tempfile.TemporaryDirectory() as folder:
        expect("status", called("cics-adapt", [*GIVEN, folder], folder).status, 4)
        files = [f"{folder}/{name}.asm" for name in ("partinq", "partset", "sfile")]
        return called("cics-run", [*files, "--queue", f"PARTS={folder}/PARTS.queue", "--script"], folder).out.decode()


@test_with_each
def an_inquiry_and_an_update(kind: Kind) -> None:
    with Session(set_up(), is_whole=False, is_verbatim=False) as session:
        terminal = session.made(kind)
        expect("greeting", [row.strip() for row in terminal.rows() if row], ["TERMINAL T001  STAND-INS: 7"])
        terminal.enter("PART")
        expect_page(terminal, {1: " PART INQUIRY", 3: " NUMBER .", 4: " NAME ...", 5: " ON HAND", 6: " PASSWORD"})
        terminal.move(3, 11).enter("17")
        expect_page(terminal, {1: " PART INQUIRY", 3: " NUMBER . 00017", 4: " NAME ... BOLT, HEXAGONAL", 5: " ON HAND     1250", 6: " PASSWORD",
                               24: " FOUND"})
        terminal.move(4, 11).type("SCREW" + " " * 15).move(6, 11).enter("secret")
        expect("name", terminal.rows()[3], " NAME ... SCREW")
        expect("message", terminal.rows()[23], " CHANGED")
        terminal.move(3, 11).enter("00099")
        expect("message", terminal.rows()[23], " NO SUCH PART")
        terminal.enter(key="PF3")
        expect_page(terminal, {1: "PART ENDED"})
        keys = [line for line in session.lines() if line.startswith("KEY ")]
        expect("keys", keys[-5:], ["KEY T001 ENTER PART", "KEY T001 ENTER NUMBER=17", f"KEY T001 ENTER NAME=SCREW{' ' * 15};PASS=SECRET",
                                   "KEY T001 ENTER NUMBER=00099", "KEY T001 PF3"])


@test_with_each
def a_clear_key(kind: Kind) -> None:
    with Session(set_up(), is_whole=False, is_verbatim=False) as session:
        terminal = session.made(kind)
        terminal.enter("PART")
        terminal.move(3, 11).enter("42")
        expect("name", terminal.rows()[3], " NAME ... NUT")
        terminal.enter(key="CLEAR")
        expect_page(terminal, {1: " PART INQUIRY", 3: " NUMBER .", 4: " NAME ...", 5: " ON HAND", 6: " PASSWORD"})


@test
def attributes() -> None:
    with Session(set_up(), is_whole=False, is_verbatim=False) as session:
        terminal = session.terminal()
        terminal.enter("PART")
        bits = {divmod(at, 80): attribute & 0x3F for at, attribute in terminal.attributes.items()}
        expect("attributes", [bits[at] for at in ((0, 0), (2, 9), (3, 9), (5, 9), (23, 0))], [0x38, 0x10, 0x00, 0x0C, 0x38])
        expect("colours", (terminal.colours[0], terminal.colours[23 * 80]), (TURQUOISE, RED))
        expect("cursor", divmod(terminal.cursor, 80), (2, 10))


@test
def a_key_with_the_cursor() -> None:
    item = "M       ".encode("cp037") + bytes(16) + bytes([2] * 5 + [0x00] + [2] * 3 + [0x30] + [2] * (SIZE - 10))
    painting = MapPainting(item, Maps({"M": {5: Place("F", None)}}, has_cursor=True))
    expect("fields", painting.fields, {6: (3, "F")})
    expect("text", painting.key_text({"F": "A;B"}, bytes([0x7D]) + address(163)), "F=A;;B;@=163")


load_tests = tests_of(__name__)
