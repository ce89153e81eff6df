"""What is done for each line of a conversation: a good one by cicslook, a bad one by nothing, but that it says why."""
from collections.abc import Callable, Sequence
from dataclasses import dataclass, field

from cics.assembler_files import sources_of_file
from cics.cli import Failure
from cics.conversation.session import Session
from cics.conversation.stepping import Debugger, Misused
from cics.explaining import explained
from cics.line_forms import MISSING, SAID, Reason, capitals, read_as, reason_of
from cics.looks import Fault
from cics.script_reading import Reading
from cics.scripts import BLOCK_END, BLOCKS, OF_CICSLOOK, is_silent

OWN = {  # the conversation's own words, as HELP says them
    "step": ("step [term]", "the next instruction of the next turn; the turn, where none is left"),
    "next": ("next [term]", "one turn"),
    "break": ("break program line", "where continue ends; without words, where that is"),
    "delete": ("delete", "no break any more"),
    "continue": ("continue [term]", "RUN, to the break where there is one"),
    "load": ("load FILE", "defines the programs of an assembler source, with transactions of their names"),
    "explain": ("explain KIND", "what a kind of fault means, and what to write instead"),
    "keep": ("keep FILE", "writes all that was done as a script of cicsedf"),
    "quit": ("quit", "ends, as the end of the input does"),
}
WIDTH = 21  # of a form in HELP
ENDINGS = ("quit", "q", "exit")
OWN_LINE = "? "  # how a line of the conversation itself begins


def help_line(form: str, what: str) -> str:
    return f"> {form:<{WIDTH - 1}} {what}"


@dataclass
class Talk:
    """A conversation: what was done, what is open, and how many lines were bad."""

    session: Session
    write: Callable[[Sequence[str]], None]  # lines of an answer
    save: Callable[[str], str]  # a file's name; what is said of it
    debugger: Debugger = field(init=False)
    reading: Reading = field(default_factory=Reading)  # of the block that is open
    block: list[str] = field(default_factory=list)
    bad: int = 0
    is_over: bool = False

    def __post_init__(self) -> None:
        self.debugger = Debugger(self.session)

    def prompt(self) -> str:
        return f"{self.block[0]}> " if self.block else "cics> "

    def told(self, text: str) -> None:
        """Says why a line isn't done."""
        self.bad += 1
        self.write([f"{OWN_LINE}{text}"])

    def line(self, text: str) -> None:
        """Does a line, or says why it isn't done."""
        if self.block:
            self.inside(text)
            return
        words = text.split()
        own = words[0].lower() if words and not is_silent(text) else ""
        if own == "help" and (len(words) == 1 or capitals(words[1]) not in OF_CICSLOOK):
            self.help(words[1:])
        elif own in ENDINGS and len(words) == 1:
            self.is_over = True
        elif own in self.debugger.words() or own in OWN:
            self.own(own, words[1:])
        elif reason := reason_of(text):
            self.told(str(self.own_meant(reason, own)))
        elif read_as(text).split(" ")[0] in BLOCKS and not is_silent(text):
            self.block, self.reading = [text], Reading()
            self.reading.line(text)
        else:
            self.write(self.session.done([text]))

    @staticmethod
    def own_meant(reason: Reason, own: str) -> Reason:
        """A reason that says of an unknown word which of the conversation's own may be meant."""
        near = next((word for word in OWN if word[:3] == own[:3]), "")
        return Reason(f"no such look: {own}; {near}?") if near and reason.text.startswith("no such ") else reason

    def inside(self, text: str) -> None:
        """A line of the block that is open."""
        if text == BLOCK_END:
            lines, self.block = [*self.block, text], []
            self.perform(lines)
            return
        reason = self.reading.reason_inside(text)
        if reason:
            self.told(f"{str(reason).removesuffix(MISSING)}; the line is left out, and /* ends the block")
        else:
            self.block.append(text)

    def perform(self, lines: list[str]) -> None:
        """Does a block; a faulty source isn't defined, since that would end the script."""
        faults = self.faults_of(lines) if lines[0].startswith("SOURCE ") else []
        for fault in faults:
            self.told(fault)
        if faults:
            self.write(["? the source isn't defined"])
        else:
            self.write(self.session.done(lines))

    def faults_of(self, lines: list[str]) -> list[str]:
        """The faults of a source's block."""
        first = self.session.child.count + 1
        found = self.session.looked(f"FAULTS {lines[0].split(' ')[1]}", *lines[1:])
        faults = [fault for fault in Fault.all_in(found) if fault.kind != "NOTE"]
        return [f"{fault.line - first}:{fault.column} {fault.kind}{fault.text}" for fault in faults]

    def own(self, word: str, words: list[str]) -> None:
        """Does one of the conversation's own words."""
        try:
            if word == "load":
                self.load(words)
            elif word == "explain":
                self.write([f"{OWN_LINE}{line}" for line in explained(" ".join(words) or "BadLine") if line])
            elif word == "keep":
                if len(words) != 1:
                    raise Misused("write: keep FILE")
                self.write([f"? {self.save(words[0])}"])
            else:
                self.write(self.debugger.words()[word](words))
        except (Misused, Failure) as why:
            self.told(str(why))

    def load(self, words: list[str]) -> None:
        """Defines the programs of a file, and of each that is defined a transaction."""
        if len(words) != 1:
            raise Misused("write: load FILE")
        for source in sources_of_file(words[0]):
            before = len(self.session.names.programs)
            self.perform([line.encode("latin-1", "replace").decode("utf-8", "surrogateescape") for line in source.block("SOURCE")])
            if len(self.session.names.programs) > before:
                self.write(self.session.done([f"TRANSACTION {source.name[:4]} {source.name}"]))

    def help(self, words: list[str]) -> None:
        """The table of all lines, or the line of a word."""
        table = {word: help_line(*row) for word, row in SAID.items()} | {word.upper(): help_line(*row) for word, row in OWN.items()}
        if not words:
            own = list(table.values())
            self.write([*own[: len(SAID)], *self.session.looked("HELP"), *own[len(SAID) :]])
        elif len(words) == 1 and capitals(words[0]) in table:
            self.write([table[capitals(words[0])]])
        else:
            self.told(str(reason_of(f"HELP {words[0]}") or "write: help, or help and a word"))

    def drop(self) -> None:
        """Drops the block that is open."""
        if self.block:
            self.write([f"{OWN_LINE}{self.block[0]}: the block is dropped"])
            self.block = []

    def end(self) -> None:
        """Says that a block is left open."""
        unended = self.reading.unended() if self.block else None
        if unended:
            self.told(str(unended.reason))
