"""Fields of the EIB that the region hasn't: fields of the same names in the working storage, which requests set."""
import re
from dataclasses import dataclass, field

from cics.program import Program
from cics.statements import Statement

# Each field with its item, and what it has.
ABSENT = {
    "EIBCPOSN": ("H", "where the cursor was when the last map was received, as the key says or the map put it; 0 before"),
    "EIBDS": ("CL8", "the file of the last request"), "EIBREQID": ("CL8", "never set"), "EIBRESP2": ("F", "always 0")}
NAMED = re.compile(rf"(?<![A-Z0-9@#$])({'|'.join(ABSENT)})(?![A-Z0-9@#$])")


@dataclass
class Absent:
    """The fields that a source uses and doesn't define."""

    names: list[str] = field(default_factory=list)

    def take(self, statements: list[Statement], program: Program) -> None:
        """Takes what statements name; each is told where it is named first."""
        code = [one for one in statements if not one.is_comment]
        defined = {one.name for one in code}
        for one in code:
            for name in NAMED.findall(one.operand):
                if name not in defined and name not in self.names:
                    self.names.append(name)
                    program.log.stands_in(one.origin, name, f"a field of the program's storage: {ABSENT[name][1]}")

    def storage(self) -> list[str]:
        return [f"{name:<8} DS    {ABSENT[name][0]}" for name in sorted(self.names)]

    def lines(self) -> list[str]:
        """What the routine after each request sets."""
        lines = []
        if "EIBDS" in self.names:
            lines += ["         CLI   $SRFN,X'06'", "         BNE   $SCD", "         MVC   EIBDS,$SRNAM", "$SCD     DS    0H"]
        if "EIBCPOSN" in self.names:
            lines += ["         CLC   $SRFN,=X'1802'", "         BNE   $SCC", "         MVC   EIBCPOSN,$SRCUR", "$SCC     DS    0H"]
        return lines
