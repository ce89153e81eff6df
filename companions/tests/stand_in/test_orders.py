"""Two terminals with one file under all orders of their turns: nothing is lost. How many states there are is said."""
import re

from cics.stand_in.records import FileDefinition
from cics.stand_in.rewriting import Setting
from tests.case import TestCase, expect
from tests.stand_in.running import ran

FILES = {"FILEA": FileDefinition("FILEA", 8, 0, 4, [], "")}
HEAD = ["P        CSECT", "         MVC   KEY,=C'KEY1'", "         MVC   LEN,=H'8'"]
TAIL = ["         EXEC  CICS RETURN", "         LTORG", "DFHEISTG DSECT", "LEN      DS    H", "KEY      DS    CL4", "         DS    0F",
        "REC      DS    0CL8", "RKEY     DS    CL4", "COUNT    DS    F", "         END"]
BUMP = ["         EXEC  CICS READ FILE('FILEA') INTO(REC) RIDFLD(KEY)           X", "               LENGTH(LEN) UPDATE", "         L     4,COUNT",
        "         LA    4,1(,4)", "         ST    4,COUNT", "         EXEC  CICS REWRITE FILE('FILEA') FROM(REC) LENGTH(LEN)"]
WRITE = ["         MVC   KEY,EIBTRMID", "         MVC   RKEY,KEY", "         EXEC  CICS WRITE FILE('FILEA') FROM(REC) RIDFLD(KEY)          X",
         "               LENGTH(LEN)"]
DELETE = ["         CLI   EIBTRMID+3,C'1'", "         BE    BUMP", "         EXEC  CICS DELETE FILE('FILEA') RIDFLD(KEY)",
          "         EXEC  CICS RETURN", "BUMP     DS    0H", *BUMP]
LOAD = ["QLOAD    CSECT", "         EXEC  CICS WRITEQ TS QUEUE('FILEA') FROM(INDEX) LENGTH(=H'8')",
        "         EXEC  CICS WRITEQ TS QUEUE('FILEA') FROM(ONE) LENGTH(=H'8')",
        "         EXEC  CICS RETURN", "INDEX    DC    X'0001D2C5E8F10002'", "ONE      DC    C'KEY1',X'00000000'", "         END"]
MOST = 200_000


def orders(statements: list[str], looks: list[str], *, is_loaded: bool) -> list[str]:
    loader = ["SOURCE QLOAD", *LOAD, "/*", "TRANSACTION LOAD QLOAD", "TERMINAL T009", "KEY T009 ENTER LOAD", "RUN T009 20"] if is_loaded else []
    block = [*loader, "TERMINAL T002", "KEY T001 ENTER TRAN", "KEY T002 ENTER TRAN", f"ORDERS {MOST}", *looks, "/*"]
    result = ran([*HEAD, *statements, *TAIL], Setting([], dict(FILES)), [], block)
    expect("taken", not [text for text in result.told if text.startswith("left")], result.told)
    return [line[2:] for line in result.transcript if line.startswith("> ")]


def expect_first(what: str, lines: list[str], due: str) -> None:
    """Each outcome's queue begins with these bytes."""
    shown = [line for line in lines if line.startswith("0000 ")]
    expect(what, shown != [] and all(line.startswith(f"0000 {due}") for line in shown), lines[:20])


class OrdersTest(TestCase):
    def test_two_updates(self) -> None:
        lines = orders(BUMP, ["QUEUE FILEA 2"], is_loaded=True)
        expect("states", lines[0] == "ORDERS STATES 8659 OUTCOMES 1", lines[:12])
        expect("both are there", any("D2C5E8F1 00000002" in line for line in lines), lines[:12])
        expect("none abends", not any(line.startswith("ABENDS") for line in lines), lines[:12])

    def test_two_new_records(self) -> None:
        expect_first("both are in the index", orders(WRITE, ["QUEUE FILEA 1"], is_loaded=True), "0003")

    def test_a_new_file(self) -> None:
        expect_first("both are in the index", orders(WRITE, ["QUEUE FILEA 1"], is_loaded=False), "0002")

    def test_update_and_delete(self) -> None:
        lines = orders(DELETE, ["QUEUE FILEA 1"], is_loaded=True)
        expect_first("it is gone", lines, "0000 ")
        found = re.match(r"ORDERS STATES \d+ OUTCOMES (\d+)", next((line for line in lines if line.startswith("ORDERS")), ""))
        expect("the update finds it, or doesn't", found and 1 <= int(found[1]) <= 3, lines[:20])
