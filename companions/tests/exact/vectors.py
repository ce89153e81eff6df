"""Results that are kept: what the instruction of each case leaves, as Hercules 3.13 does it, by what it changes."""
import os
from collections.abc import Iterable

from tests.exact.drawing import KEPT, Case, case_of
from tests.exact.running import Result

PATH = os.path.join(os.path.dirname(os.path.abspath(__file__)), "results.vectors")


def changes_of(case: Case, result: Result) -> str:
    """What a result changes: registers, and runs of bytes of the storage by their first offset."""
    registers = [f"r{at}={value:08X}" for at, value in enumerate(result.registers) if at not in KEPT and value != case.registers[at]]
    runs: list[list[int]] = []
    for at, (old, new) in enumerate(zip(case.storage, result.storage)):
        if old != new:
            if runs and runs[-1][-1] == at - 1:
                runs[-1].append(at)
            else:
                runs.append([at])
    return " ".join([*registers, *(f"s{run[0]}={result.storage[run[0] : run[-1] + 1].hex().upper()}" for run in runs)])


def line_of(case: Case, number: int, result: Result) -> str:
    code = "I" if result.is_interrupted else str(result.condition)
    return f"{case.operation} {number} {code} {'' if result.is_interrupted and case.operation not in ('ED', 'EDMK') else changes_of(case, result)}".rstrip()


def kept() -> dict[str, list[str]]:
    """The lines of each operation."""
    found: dict[str, list[str]] = {}
    with open(PATH, encoding="ascii") as file:
        for line in file.read().splitlines():
            if not line.startswith("*"):
                found.setdefault(line.split(" ", 1)[0], []).append(line)
    return found


def cases(operation: str, numbers: Iterable[int]) -> list[Case]:
    return [case_of(operation, number) for number in numbers]
