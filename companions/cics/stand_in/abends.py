"""Which statement's condition a task abended for, where the routine of stand-ins has asked for the abend."""
import re
from collections.abc import Callable

ASKED = "ABCODE($SRABC)"  # what the routine's ABEND has
BALR = 2  # bytes of the last instruction of a request
FIELD = re.compile(r"FIELD \S+ '\$SR14' AT [0-9A-F]{6} LENGTH 4 ([0-9A-F]{8}) ")


def request_line(cause: list[str], until: list[str], terminal: str, looked: Callable[[list[str]], list[str]]) -> list[str]:
    """The line of WHERE for the request: none where the cause is another one. `until` is a script up to the RUN that abended, and `looked` gives
    the lines of the looks that a script ends with."""
    if not any(ASKED in line for line in cause):
        return []
    before = [*until[:-1], f"{until[-1]} BEFORE ABEND"]
    found = next(filter(None, map(FIELD.match, looked([*before, f"FIELD {terminal} $SR14"]))), None)
    if found is None:
        return []
    return [line for line in looked([*before, f"WHERE {(int(found[1], 16) & 0xFFFFFF) - BALR:06X}"]) if line.startswith("WHERE ")]
