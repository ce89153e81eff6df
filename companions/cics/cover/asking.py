"""Scripts that are asked what they run of programs, and what they answer: COVER ON in front of the first line, and COVERED at the end."""
import re
from collections.abc import Iterable, Iterator, Sequence
from dataclasses import dataclass, replace
from functools import cached_property

from cics.child import Ended, decoded, encoded, text_of
from cics.cli import Failure, name_of
from cics.cover.branches import branches_of
from cics.cover.counts import Branch, Coverage, Covered, Line
from cics.cover.written import without_written
from cics.looks import OneWay, StatementRun
from cics.origins import Place
from cics.queues import LOADER
from cics.scripts import Action, actions_of, free_name
from cics.stand_in.counts import is_made
from cics.together import Run, processors, run_together

ON, OFF = "COVER ON", "COVER OFF"
NUMBERED = re.compile(r"^(.*\bline )(\d+)")
NO_SOURCE = "it defines no source, so nothing of it is counted"


def looks_of(name: str) -> list[str]:
    """The looks at what was run of a program."""
    return [f"COVERED {name}", f"COVERED {name} LINES"]


def ways_in(lines: Sequence[str]) -> dict[int, Branch]:
    """The branches that went one way, by their lines."""
    return {one.line: Branch(one.count, 0) if one.way == "ALWAYS" else Branch(0, one.count) for one in OneWay.all_in(lines)}


def covered_in(lines: Sequence[str], name: str, source: Sequence[str], path: str, before: int) -> Covered | None:
    """What the looks say of a program whose source stands in a file, after so many lines; none where they say nothing."""
    runs = {one.line: one.runs for one in StatementRun.all_in(lines)}
    ways, conditional = ways_in(lines), branches_of(source)

    def branch_on(number: int) -> Branch | None:
        if number not in runs or number not in conditional and number not in ways:
            return None
        return ways.get(number, Branch(1, 1) if runs[number] else Branch())

    if not runs:
        return None
    return Covered(name, [Line(Place(path, before + number), str(number), text, runs.get(number), branch_on(number))
                          for number, text in enumerate(source, 1)])


@dataclass(frozen=True)
class Asked:
    """A script that is asked what it runs."""

    path: str
    text: str

    @cached_property
    def actions(self) -> list[Action]:
        return actions_of(self.text)

    @cached_property
    def mark(self) -> str:
        """A look that stands in front of those that are put at the end, and after each program's."""
        name = free_name(self.text)
        if name is None:
            raise Failure(f"{name_of(self.path)}: it has a terminal of each name")
        return f"SCREEN {name}"

    @cached_property
    def names(self) -> list[str]:
        """The names of the sources, but for those that companions made."""
        found = (action for action in self.actions if action.word == "SOURCE" and len(action.words) > 1 and not is_made(action.block))
        return list(dict.fromkeys(action.words[1] for action in found if not action.words[1].startswith(LOADER)))

    def lines(self) -> Iterator[str]:
        """Its lines; COVER of its own is a comment, so that all of it is counted."""
        own = {action.line for action in self.actions if action.text in (ON, OFF)}
        yield from ("*" if number in own else line for number, line in enumerate(self.text.removesuffix("\n").split("\n"), 1))

    def script(self) -> str:
        """The script that is run."""
        return text_of([ON, *self.lines(), self.mark, *(line for name in self.names for line in (*looks_of(name), self.mark))])

    def own(self, transcript: Sequence[str]) -> list[str]:
        """What its own lines write."""
        return [*transcript[1 : self.end_in(transcript)]]

    def end_in(self, transcript: Sequence[str]) -> int:
        """Where in its transcript the first mark's answer is, after which there is one for each source."""
        marks = [at for at, line in enumerate(transcript) if line == f"{self.mark} NONE"]
        return marks[-len(self.names) - 1]

    def answered(self, transcript: Sequence[str]) -> list[Covered]:
        """What was run of its programs."""
        parts: list[list[str]] = [[]]
        for line in transcript[self.end_in(transcript) + 1 :]:
            parts += [[]] if line == f"{self.mark} NONE" else []
            parts[-1].append(line)
        found = []
        for name, lines in zip(self.names, parts):
            block = self.block_of(name, transcript)
            one = covered_in(lines, name, block.block, self.path, block.line) if block else None
            if one:
                one.scripts.append(name_of(self.path))
                found.append(without_written(one))
        return found

    def replies_of(self, name: str, transcript: Sequence[str]) -> list[tuple[Action, str]]:
        """The blocks of a program, each with what it is answered."""
        replies = [line for line in transcript if line.startswith(f"PROGRAM {name} ")]
        blocks = [action for action in self.actions if action.word in ("SOURCE", "IMAGE") and action.words[1:2] == [name]]
        return list(zip(blocks, replies))

    def block_of(self, name: str, transcript: Sequence[str]) -> Action | None:
        """The block that defined a program: the one that isn't refused."""
        return next((block for block, reply in self.replies_of(name, transcript) if " REFUSED " not in reply and block.word == "SOURCE"), None)

    def refused(self, transcript: Sequence[str]) -> list[str]:
        """What is said of sources that are refused; of one whose name others have too by its line."""
        found = []
        for name in self.names:
            replies = self.replies_of(name, transcript)
            for block, reply in replies:
                if block.word == "SOURCE" and " REFUSED " in reply:
                    place = f"{name} on line {block.line}" if len(replies) > 1 else name
                    found.append(f"its source {place} is refused, {reply.split(' ')[3]}; nothing of that is counted")
        return found

    def why(self, said: str) -> str:
        """What is said of a line of the script that is run, by the number that it has in its own."""
        return NUMBERED.sub(lambda found: f"{found[1]}{int(found[2]) - 1}", said)


def why_not(ended: Ended | None, why: str) -> str:
    """Why a script isn't done to its end; empty where it is."""
    return why if ended is None else "" if ended.is_well() else ended.why().removeprefix("cicsedf: ")


def coverage_in(asked: Asked, run: Run) -> Coverage:
    """What a run says of its script."""
    name, why = name_of(asked.path), why_not(run.ended, run.why)
    if why or run.ended is None:
        return Coverage(faults={name: f"it isn't done to its end: {asked.why(why)}; nothing of it is counted"})
    lines = run.ended.lines()
    found, refused = asked.answered(lines), asked.refused(lines)
    return Coverage(found, {name: "; ".join(refused)} if refused else {} if found else {name: NO_SOURCE})


def as_alone(asked: Asked, run: Run) -> Run:
    """The run as that of the script alone."""
    if run.ended is None:
        return run
    transcript = text_of(asked.own(run.ended.lines())) if run.ended.is_well() else ""
    reported = "\n".join(map(asked.why, decoded(run.ended.reported).split("\n")))
    return replace(run, ended=Ended(run.ended.status, encoded(transcript), encoded(reported)))


def coverage_of(scripts: Sequence[Asked], cicslook: str) -> Coverage:
    """Runs scripts, and adds what they run, in their order."""
    found = {run.number: coverage_in(scripts[run.number], run) for run in run_together([cicslook], [one.script() for one in scripts], processors())}
    return added([found[number] for number in sorted(found)])


def added(parts: Iterable[Coverage]) -> Coverage:
    coverage = Coverage()
    for part in parts:
        coverage.merge(part)
    return coverage
