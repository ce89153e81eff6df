"""The places that operands are, and what of a program uses storage in which the routines keep registers."""
import re
from dataclasses import dataclass
from typing import Protocol

from cics.exact.sizes import Sizes, addresses_of
from cics.expressions import Value, read_expression, terms_of, value_of
from cics.instructions import INSTRUCTIONS
from cics.layout import OF_COMMANDS, WORKING_STORAGE
from cics.statements import Statement
from cics.texts import cut

BRANCHES = set("BC BCT BAL B BH BP BL BM BE BZ BNH BNP BNL BNM BNE BNZ BO BNO NOP BAS BXLE BXH".split())
LINKS = {"BAL", "BALR", "BAS", "BASR"}
KEPT = {"DFHEIPL", "DFHEITP"}  # fields in which the routines keep registers
BASE = 13  # the base of DFHEISTG
FIRST_ONLY = set("LR LA L LH IC ICM AR A AH SR S SH LCR SRL SLL SRA SLA CVB BAL BALR BCT BCTR XR BAS BASR N O X NR OR AL ALR SL SLR MH LPR LNR CS "
                 "BXLE BXH LTR".split())
PAIRS = set("MR M DR D SRDA SLDL SRDL SLDA MVCL CLCL".split())
ADDRESS = re.compile(r"=?\d*A(L\d+)?\((?P<inside>.*)\)")


def parts_of(text: str) -> list[str] | None:
    """What stands in the parentheses behind an operand's first expression: nothing where there are none; None where it can't be read."""
    found = None if text.startswith("=") else read_expression(text)
    if found is None or text[found.end :] and (text[found.end] != "(" or text[-1] != ")"):
        return None
    return cut(text[found.end + 1 : -1]) if text[found.end :] else []


class Values(Protocol):
    """What registers are known to hold at a statement."""

    def value(self, at: int, register: int) -> Value | None: ...


@dataclass(frozen=True)
class Based:
    """An operand by a register: the number in front of its parentheses, and its base."""

    displacement: int
    base: int


def texts_of(statement: Statement) -> list[str]:
    """The operands of a statement that may be places; those in constants without their type."""
    if statement.is_comment or not statement.operand:
        return []
    texts = addresses_of(statement) if statement.operation == "EXEC" else cut(statement.operand)
    found = [ADDRESS.fullmatch(text) for text in texts]
    inside = [part for one in found if one for part in cut(one["inside"])]
    if statement.operation in ("DC", "DS"):
        return inside
    return [*inside, *(text for text, one in zip(texts, found) if not one and not text.startswith("="))]


def number_of(text: str, sizes: Sizes) -> int | None:
    value = sizes.evaluated(text, None)
    return value.number if value and value.is_number() else None


def based(text: str, sizes: Sizes) -> Based | None:
    """An operand D(B), D(X,B) or D(L,B), where it is one by a register that is known."""
    found = None if text.startswith("=") else read_expression(text)
    if found is None or not text[found.end :].startswith("("):
        return None
    inside = cut(text[found.end + 1 : -1])
    displacement, base = value_of(found.expression, sizes, None), number_of(inside[-1], sizes)
    if displacement is None or not displacement.is_number() or base is None:
        return None
    return Based(displacement.number, base)


def is_kept_used(at: int, statement: Statement, sizes: Sizes, values: Values) -> str | None:
    """What an instruction uses of the storage in which the routines keep registers."""
    if statement.is_comment or statement.operation not in INSTRUCTIONS or not statement.operand:
        return None
    operands = cut(statement.operand)
    if statement.operation == "XC" and parts_of(operands[0]) is not None and operands[0].replace(length_in(operands[0]), "") == operands[1]:
        return None  # cleared, whatever is there
    for text in operands:
        found = None if text.startswith("=") else read_expression(text)
        named = {term.text for term in terms_of(found.expression)} & KEPT if found else set()
        place = value_of(found.expression, sizes, None) if found and named else None
        if named and (place is None or not place.is_absolute()):
            return f"it uses {min(named)}, where registers are kept"
        register = based(text, sizes)
        if register is None or INSTRUCTIONS[statement.operation].length == 2 or statement.operation == "LA":
            continue
        value = values.value(at, register.base)
        offset = value.number + register.displacement if value and set(value.sections()) == {WORKING_STORAGE} else None
        if register.base == BASE and register.displacement < OF_COMMANDS or offset is not None and 0 <= offset < OF_COMMANDS:
            return f"it uses what register {register.base} addresses before the first field, where registers are kept"
    return None


def length_in(text: str) -> str:
    """The length in front of a base in an operand D(L,B), with its comma."""
    parts = parts_of(text) or []
    return f"{parts[0]}," if len(parts) == 2 else ""


def reason_by_storage(statements: list[Statement], sizes: Sizes, values: Values) -> str | None:
    """Why nothing is written for a program that uses such storage itself."""
    used = ((one, is_kept_used(at, one, sizes, values)) for at, one in enumerate(statements))
    return next((f"line {one.origin.number}: {why}" for one, why in used if why), None)


def length_of(statement: Statement, number: int, sizes: Sizes) -> int:
    """About how many bytes an operand has."""
    row = INSTRUCTIONS.get(statement.operation)
    if row is None or row.length < 6:
        return 4 if row and row.implied == () and row.length == 4 else 1
    own = cut(statement.operand)[number if number in row.implied else 0]
    found = read_expression(own)
    inside = cut(own[found.end + 1 : -1])[0] if found and own[found.end :].startswith("(") else ""
    term = terms_of(found.expression)[0] if found else None
    return (number_of(inside, sizes) if inside else sizes.length(term.text) if term else None) or 1


def changes_base(statement: Statement, sizes: Sizes) -> bool:
    """Whether an instruction may change register 13, or USING and DROP may take it from DFHEISTG."""
    operation, operands = statement.operation, cut(statement.operand) if statement.operand else []
    if operation in ("USING", "DROP"):
        registers = operands[1:] if operation == "USING" else operands
        return not operands or any(number_of(text, sizes) == BASE for text in registers)
    if operation not in INSTRUCTIONS or not operands:
        return False
    first = number_of(operands[0], sizes)
    if operation == "LM" and len(operands) > 1:
        last = number_of(operands[1], sizes)
        return first is None or last is None or (BASE - first) % 16 <= (last - first) % 16
    if operation in PAIRS:
        return any(number_of(text, sizes) in (BASE - 1, BASE) for text in operands[: 2 if operation in ("MVCL", "CLCL") else 1])
    return operation in FIRST_ONLY and first == BASE
