"""What may be typed next: words of lines, which are asked of HELP, and names of what is there."""
from collections.abc import Iterable
from dataclasses import dataclass

from cics.conversation.session import Session
from cics.conversation.talk import ENDINGS, OWN
from cics.key_names import AIDS
from cics.line_forms import OPERANDS, SAID, capitals, due_at
from cics.looks import Named, Queue

TERMINALS_OF = ("step", "s", "next", "n", "continue", "c")
PROGRAMS_OF = ("break", "b")


@dataclass
class Completion:
    session: Session
    looks: tuple[str, ...] = ()  # the words that HELP has

    def first_words(self) -> list[str]:
        if not self.looks:
            lines = self.session.looked("HELP")
            self.looks = tuple(dict.fromkeys(line.split(" ")[1] for line in lines if line.startswith("> ") and len(line) > 2))
        return [*self.looks, *SAID, *OWN]

    def candidates(self, line: str) -> list[str]:
        """What the last word of a line may become."""
        *before, begun = line.split(" ")
        found = self.after(before) if before else self.first_words()
        return sorted({one for one in found if capitals(one).startswith(capitals(begun))})

    def after(self, before: list[str]) -> Iterable[str]:
        if before[0] in ENDINGS or before[0] in OWN or before[0] in TERMINALS_OF + PROGRAMS_OF:
            names = self.session.names
            at_first = len(before) == 1
            return names.terminals if at_first and before[0] in TERMINALS_OF else names.programs if at_first and before[0] in PROGRAMS_OF else []
        return [name for due in due_at(before) for name in self.standing_for(due, before)]

    def standing_for(self, due: str, before: list[str]) -> Iterable[str]:
        """The names that an operand may be; a word in capitals is itself."""
        names = self.session.names
        known = {"term": names.terminals, "program": names.programs, "name": names.programs, "tran": names.transactions,
                 "text": names.transactions, "aid": AIDS}
        if due in known:
            return known[due]
        if due == "queue":
            return [one.name or one.code for one in Queue.all_in(self.session.looked("QUEUES"))]
        if due == "field":
            look = f"SYMBOLS {capitals(before[1])}" if capitals(before[0]) == "SYMBOL" else f"FIELDS {capitals(before[1])}"
            return [one.name for one in Named.all_in(self.session.looked(look))]
        return self.first_words()[: len(self.looks)] if due == "word" else [] if due in OPERANDS else [due]
