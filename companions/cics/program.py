"""What a rewriting knows: the layout of the source as it was read, and where it tells what it leaves."""
from dataclasses import dataclass, field

from cics.expressions import Value, is_plain, whole, worked_out
from cics.layout import Layout
from cics.log import Log
from cics.statements import Origin, Statement


@dataclass
class Program:
    layout: Layout
    log: Log
    is_kept: bool = False  # old texts are kept as comments
    commands: frozenset[str] = frozenset()  # the names of the source's commands
    fields: list[str] = field(default_factory=list)  # fields of the working storage that are written at its end
    broken: set[int] = field(default_factory=set)  # the orders of statements whose continuation isn't one

    def here(self, statement: Statement) -> Value | None:
        return self.layout.here(statement)

    def left(self, origin: Origin, text: str) -> None:
        self.log.left(origin, text)

    def worked(self, text: str, here: Value | None, origin: Origin) -> str:
        """An expression worked out where it has to be; as it is, and told, where it can't."""
        expression = whole(text)
        if expression is None or is_plain(expression, self.layout):
            return text
        worked = worked_out(expression, self.layout, here)
        if worked is None:
            self.left(origin, f"{text}: not all of it is a number that is known before")
        return worked or text

    def is_place(self, text: str, here: Value | None) -> bool:
        value = self.layout.evaluated(text, here)
        return value is not None and not value.is_absolute()
