"""Which statements of a source are conditional branches, as COVERED counts them."""
from collections.abc import Sequence

from cics.instructions import INSTRUCTIONS
from cics.layout import Layout
from cics.statements import Statement, statements_of
from cics.texts import cut

ALWAYS_OR_NEVER = (0, 15)  # masks
BY_MASK, BY_REGISTER = ("BC", "BCR"), ("BCR", "BCTR")
LINKING = ("B", "BR", "BAL", "BALR")
CONDITIONAL = {name for name in INSTRUCTIONS if name.startswith("B") and INSTRUCTIONS[name].is_known} - {*LINKING}


def is_conditional(statement: Statement, layout: Layout) -> bool:
    """Whether a statement is a branch that may be taken and may not. With register 0 a BCR and a BCTR don't branch."""
    if statement.operation not in CONDITIONAL:
        return False
    numbers = [layout.number(text, None) for text in cut(statement.operand)[:2]]
    is_masked = statement.operation not in BY_MASK or numbers[:1] != [] and numbers[0] not in ALWAYS_OR_NEVER
    return is_masked and (statement.operation not in BY_REGISTER or numbers[1:] != [0])


def branches_of(lines: Sequence[str]) -> set[int]:
    """The lines of a source, from 1, on which a conditional branch begins."""
    statements = [one for one in statements_of([*lines], "") if not one.is_comment]
    layout = Layout(statements)
    return {one.origin.number for one in statements if is_conditional(one, layout)}
