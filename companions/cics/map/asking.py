"""What is asked, of a script or of sources: what is done first, the block of keys, and the sources by which places are told."""
import os
from collections.abc import Sequence
from dataclasses import dataclass, field, replace

from cics.assembler_files import Source, sources_of_file
from cics.child import decoded
from cics.choices import Question, question_of, why_not
from cics.cli import FOUND, MISUSED, Failure, name_of, read_file
from cics.key_runs import AT, faultless, loaders_for, loading_lines, transactions_of
from cics.line_forms import Search
from cics.map.fields import fields_of
from cics.map.proposals import Program, Proposed, proposed
from cics.orders import Asked, asked_of
from cics.queues import LOADER, TERMINAL, Loader
from cics.script_reading import bad_lines, bare_lines
from cics.scripts import Action, actions_of, is_silent
from cics.stand_in.counts import is_made

SCRIPT = ".script"
BLOCK = "CHOICES"
STATES = 2_000  # where no other number is given


@dataclass(frozen=True)
class Given:
    """What the words give: how deep, how many states, whether task numbers count; None where a word isn't there."""

    depth: int | None = None
    states: int | None = None
    has_one_number: bool = False


@dataclass
class Subject:
    """What is looked at: its name, the lines that are done first, and what is asked then."""

    name: str
    text: list[str]
    question: Question
    has_block: bool = False  # of its own
    proposals: Proposed | None = None
    sources: dict[str, list[str]] = field(default_factory=dict)
    terminals: list[str] = field(default_factory=list)

    def asked(self) -> Asked:
        """The events in front of the block, and the block."""
        asked = asked_of([*actions_of("".join(f"{line}\n" for line in self.text)), self.question.block(len(self.text) + 1)], BLOCK)
        assert asked is not None
        return asked


@dataclass(frozen=True)
class Region:
    """What a script has defined at its end: terminals, transactions with their programs, sources, and the keys that it has pressed."""

    terminals: list[str]
    transactions: dict[str, str]
    sources: dict[str, list[str]]
    keys: list[str]

    def programs(self) -> list[Program]:
        return [Program(name, lines, [tran for tran, program in self.transactions.items() if program == name])
                for name, lines in self.sources.items() if not is_made(lines)]

    def proposals(self) -> Proposed:
        return proposed(self.programs(), [*self.transactions], self.terminals, self.keys, fields_of(self.sources.values()))


def keys_pressed(steps: Sequence[Action]) -> list[str]:
    """The keys that a script presses, after the terminal, but those for EDF."""
    in_edf, found = set[str](), list[str]()
    for step in steps:
        if step.word == "EDF" and step.terminal:
            (in_edf.add if step.words[2:] == ["ON"] else in_edf.discard)(step.terminal)
        elif step.word == "KEY" and step.terminal not in in_edf and len(step.words) > 2:
            found.append(step.text.split(" ", 2)[2])
    return [*dict.fromkeys(found)]


def region_of(steps: Sequence[Action]) -> Region:
    """What a script's lines define, but for what loads test data."""
    def named(word: str) -> list[list[str]]:
        return [step.words for step in steps if step.word == word and len(step.words) > 1]

    sources = {step.words[1]: step.block for step in steps if step.word == "SOURCE" and len(step.words) > 1}
    transactions = {words[1]: words[2] for words in named("TRANSACTION") if len(words) == 3 and not words[2].startswith(LOADER)}
    return Region([words[1] for words in named("TERMINAL")], transactions, sources, keys_pressed(steps))


def keys_in(path: str) -> list[str]:
    """The KEY lines of a file of keys. A line that is none is a failure."""
    search, lines = Search(BLOCK), bare_lines(decoded(read_file(path)))
    for number, line in enumerate(lines, 1):
        reason = search.line(line)
        if reason or search.sights:
            raise Failure(f"{name_of(path)}:{number}: {reason.text if reason else 'only KEY lines and comments may stand there'}", MISUSED)
    return [line for line in lines if not is_silent(line)]


def asking(given: Given, question: Question) -> Question:
    """A question, with what the words give in place of its own."""
    return replace(question, depth=given.depth or question.depth, states=given.states or question.states,
                   has_one_number=given.has_one_number or question.has_one_number)


def with_keys(subject: Subject, region: Region, keys: str | None) -> Subject:
    """A subject with the keys of a file, or with those of its own block, or with those that are proposed."""
    if keys is not None:
        subject.question = replace(subject.question, lines=keys_in(keys))
    elif not subject.has_block:
        subject.proposals = region.proposals()
        subject.question = replace(subject.question, lines=subject.proposals.all_lines())
    if why := why_not(subject.question):
        raise Failure(f"{subject.name}: {why}", MISUSED)
    return subject


def of_script(path: str, keys: str | None, given: Given) -> Subject:
    """A script: all of its lines, or those in front of its last CHOICES, are done first."""
    text = decoded(read_file(path))
    steps, lines = actions_of(text), bare_lines(text)
    asked = asked_of(steps, BLOCK)
    read = len(lines) if asked is None else asked.block.line + len(asked.block.lines) - 1
    bad = next((one for one in bad_lines(lines[:read]) if one.reason.kind == "BadLine"), None)
    if bad:
        raise Failure(f"{name_of(path)}:{bad.number}: {bad.reason}", FOUND)
    own = question_of(asked.block) if asked else Question([], states=STATES)
    before = asked.before if asked else steps
    region = region_of(before)
    subject = Subject(os.path.basename(name_of(path)), lines[: asked.block.line - 1] if asked else lines, asking(given, own),
                      asked is not None, sources=region.sources, terminals=region.terminals)
    return with_keys(subject, region, keys)


def script_for(sources: Sequence[Source], trans: list[str], loaders: list[Loader]) -> list[str]:
    """A script that defines programs, their transactions and a terminal, and loads test data at another one."""
    own = [source.name for source in sources if not is_made(source.lines)]
    lines = [line for source in sources for line in source.block("SOURCE")]
    lines += [f"TRANSACTION {one.name} {one.program}" for one in transactions_of(trans, own)]
    lines += [f"TERMINAL {AT}", *([f"TERMINAL {TERMINAL}"] if loaders else [])]
    return lines + loading_lines(loaders, TERMINAL)


def of_sources(paths: list[str], keys: str | None, given: Given, trans: list[str], queues: list[str], cicslook: str) -> Subject:
    """Sources: each with its transaction, at one terminal. A faulty one is a failure, and its faults are told."""
    sources = [source for path in paths for source in sources_of_file(path)]
    if not faultless(sources, cicslook):
        raise Failure(f"{', '.join(map(name_of, paths))}: there are faults, so nothing is asked", FOUND)
    lines = script_for(sources, trans, loaders_for(queues, cicslook))
    region = replace(region_of(actions_of("".join(f"{line}\n" for line in lines))), terminals=[AT], keys=[])
    subject = Subject(", ".join(os.path.basename(name_of(path)) for path in paths), lines, asking(given, Question([], [f"SCREEN {AT}"], states=STATES)),
                      sources=region.sources, terminals=[AT])
    return with_keys(subject, region, keys)


def subject_of(paths: list[str], keys: str | None, given: Given, trans: list[str], queues: list[str], cicslook: str, *, is_script: bool) -> Subject:
    """What the words name: a script, by its name, or sources."""
    scripts = [path for path in paths if is_script or path.endswith(SCRIPT)]
    if not scripts:
        return of_sources(paths, keys, given, trans, queues, cicslook)
    if len(paths) > 1:
        raise Failure("a script stands alone: of sources there may be several", MISUSED)
    if trans or queues:
        raise Failure("--tran and --queue are for sources: a script has its own transactions, and loads its own data", MISUSED)
    return of_script(paths[0], keys, given)
