"""What the tests of films share: scripts, and what a page has."""
import json
import os
import re
import subprocess
from collections.abc import Iterator
from typing import Any

from cics.child import TOP, Overdue, decoded, read
from cics.cli import Failure
from cics.film.command import filmed
from cics.film.page import page_of
from tests.case import CICSLOOK as PROGRAM
from tests.case import COMPANIONS

COMMAND = f"{TOP}/companions/cics-film"
LESSONS = f"{TOP}/examples/lessons"
Data = dict[str, Any]


def scripts() -> list[str]:
    """The scripts of examples and lessons."""
    return sorted(os.path.join(folder, it) for folder, _, names in os.walk(f"{TOP}/examples") for it in names if it.endswith(".script"))


def text_of(path: str) -> str:
    return decoded(read(path))


def json_in(page: str) -> str:
    found = re.search(r'id="data">(.*?)</script>', page, re.S)
    assert found
    return found[1]


def data_of(page: str) -> list[Data]:
    """The films in a page."""
    films: list[Data] = json.loads(json_in(page))
    return films


def script_ran(page: str, *keys: str, expression: str = "", folder: str = "film") -> Any:
    """What the script of a folder's page says after keys, when it is run alone, or what an expression is then."""
    command = ["node", f"{COMPANIONS}/tests/film/page_runner.js", f"{COMPANIONS}/cics/{folder}/page.js", *keys]
    environment = {**os.environ, **({"EXPRESSION": expression} if expression else {})}
    return json.loads(subprocess.run(command, input=json_in(page), capture_output=True, text=True, check=True, env=environment).stdout)


def page(*texts: tuple[str, str]) -> str:
    """The page of scripts, each its name and its text."""
    return page_of([filmed(name, text, PROGRAM) for name, text in texts])[0]


def page_or_line(text: str) -> tuple[str, int | None]:
    """The page of a script, or the line that is said where there is none; and the script's line with a fault."""
    try:
        film = filmed("a script", text, PROGRAM)
        return page_of([film])[0], film.fault[0] if film.fault else None
    except (Failure, Overdue) as why:
        return str(why), None


def states_of(data: Data) -> Iterator[tuple[Data, dict[str, list[str]]]]:
    """Each event with the state after it, as the page works it out."""
    shown = data["before"]
    for event in data["events"]:
        shown = dict(shown)
        for key, change in event["changes"].items():
            lines = change if isinstance(change, list) else [*shown[key]]
            if isinstance(change, dict):
                for at, line in change.items():
                    lines[int(at)] = line
            shown[key] = lines
        shown = {key: lines for key, lines in shown.items() if lines}
        yield event, shown


def lines_to(data: Data, event: Data) -> list[str]:
    """The lines of a script that lead to an event."""
    script: list[str] = data["script"]
    lines = script[: event["line"] - 1]
    if event.get("turn"):
        return [*lines, f"RUN {event['terminal']} {event['turn']}"]
    is_block = script[event["line"] - 1].startswith(("SOURCE ", "IMAGE "))
    return script[: script.index("/*", event["line"] - 1) + 1 if is_block else event["line"]]
