"""No companion harms a file that it reads: every pair of an option that reads and one that writes is given one file, by names that a fixed
generator draws; and what is there and isn't a companion's own stays, unless --force is given. Each option of --help is in the table."""
import os
import random
import re
from collections.abc import Callable, Iterator
from dataclasses import dataclass

from cics.child import TOP, Ended, read
from tests.calling import SCRIPT, SOURCE, called, folder_of
from tests.case import PROGRAMS, TestCase, expect

MAP = "1 p.asm:1\n2 p.asm:2\n3 p.asm:3\n"
COPYING = "P        CSECT\n         COPY  M\n         EXEC  CICS RETURN\n         END\n"
MEMBER = "* A MEMBER\n"
EXAMPLE = {name: read(os.path.join(TOP, "examples/stand-in", name)).decode() for name in ("partinq.asm", "partset.bms", "parts.csv")}
MINE = "something that nobody else has\n"
SEED = 20261201
KEPT = ("it is read", "it is there", "didn't write it", "is written to it")  # one of which each refusal says


@dataclass(frozen=True)
class Way:
    """A way in which a companion takes a file: {} stands for its name in the words, or in what is typed."""

    option: str
    words: tuple[str, ...] = ()
    typed: str = ""


@dataclass(frozen=True)
class Companion:
    """A companion, or a use of one: words and files that it always has, how it reads and writes, and a file that each reading takes."""

    name: str
    files: dict[str, str]
    words: tuple[str, ...]
    reads: dict[Way, str]  # and its file
    writes: tuple[Way, ...]
    neither: frozenset[str] = frozenset()  # options that name no file
    is_endless: bool = False  # where nothing is refused

    def options(self) -> set[str]:
        return {way.option for way in (*self.reads, *self.writes)} | self.neither


ANY = frozenset({"-h", "--help", "--version", "--cicslook", "--force"})
STAND_IN = ("--stand-in", "partinq.asm", "--bms", "partset.bms", "--file", "PARTS=parts.csv,key=PRNUMBER")
OUT = Way("--out", ("--out", "{}"))
SCREENS = "KEY T001 ENTER P\nSCREEN T001\n"
COMPANIONS = [
    Companion("cics-adapt", {"p.asm": COPYING, "m/M": MEMBER}, ("p.asm", "--copy", "m"), {Way("OLD.asm"): "p.asm", Way("--copy"): "m/M"},
              (Way("--map", ("--map", "{}")),), ANY | {"--keep", "--ebcdic", "--stand-in"}),
    Companion("cics-run", {"p.asm": SOURCE, "q": "A1\n", "p.map": MAP},
              ("p.asm", "--key", "P", "--queue", "Q=q", "--map", "p.map", "--cover", *PROGRAMS),
              {Way("FILE.asm"): "p.asm", Way("--queue"): "q", Way("--map"): "p.map"}, (Way("--html", ("--html", "{}")), Way("--lcov", ("--lcov", "{}"))),
              ANY | {"--key", "--mixed", "--tran", "--fields", "--script", "--json", "--cover", "--film"}),
    Companion("cics-cover", {"s.script": SCRIPT}, ("s.script", *PROGRAMS), {Way("SCRIPT"): "s.script"},
              (Way("--html", ("--html", "{}")), Way("--lcov", ("--lcov", "{}"))), ANY | {"--json", "--at-least"}),
    Companion("cics-film", {"s.script": SCRIPT, "p.map": MAP}, ("s.script", "--map", "P=p.map", *PROGRAMS),
              {Way("script"): "s.script", Way("--map"): "p.map"}, (Way("-o", ("-o", "{}")),), ANY | {"--open"}),
    Companion("cics-map", {"p.asm": SOURCE, "p.keys": "KEY T001 ENTER P\n", "q": "A1\n"}, ("p.asm", "--keys", "p.keys", "--queue", "Q=q", *PROGRAMS),
              {Way("FILE"): "p.asm", Way("--keys"): "p.keys", Way("--queue"): "q"}, (Way("-o", ("-o", "{}")),),
              ANY | {"-n", "--states", "--one-number", "--script", "--tran", "--json", "--open"}),
    Companion("cics-test", {"s.script": SCRIPT, "s.screens": SCREENS}, ("s.script", *PROGRAMS),
              {Way("FOLDER"): "s.script", Way("NAME.screens"): "s.screens"}, (Way("--junit", ("--junit", "{}")),),
              ANY | {"--write", "--cover", "--json", "--watch", "--jobs"}),
    Companion("cics-look", {"s.script": SCRIPT, "p.asm": SOURCE.replace("P  ", "PP ")}, ("s.script", *PROGRAMS),
              {Way("SCRIPT"): "s.script", Way("load", (), "load p.asm\n"): "p.asm"},
              (Way("--keep", ("--keep", "{}")), Way("--keep-typed", ("--keep-typed", "{}")), Way("keep", (), "keep {}\n")), ANY - {"--force"}),
    Companion("cics-terminals", {"p.asm": SOURCE, "q": "A1\n"}, ("p.asm", "--queue", "Q=q", "--port", "0", *PROGRAMS),
              {Way("PROG.asm"): "p.asm", Way("--queue"): "q"}, (Way("--session", ("--session", "{}")),),
              ANY - {"--force"} | {"--back", "--tran", "--port", "--mixed", "--clock", "--idle", "--any-user"}, is_endless=True),
    Companion("cics-terminals", {"s.script": SCRIPT}, ("s.script", "--port", "0", *PROGRAMS), {Way("SETUP.script"): "s.script"},
              (Way("--session", ("--session", "{}")),), is_endless=True),
    Companion("cics-terminals", {"s.script": SCRIPT}, ("--resume", "s.script", "--port", "0", *PROGRAMS), {Way("--resume"): "s.script"},
              (Way("--session", ("--session", "{}")),), is_endless=True),
    Companion("cics-check", {}, (), {Way("FILE"): "p.asm", Way("--map"): "p.map"}, (),
              ANY - {"--force"} | {"--script", "--explain", "--marks", "--watch", "--json"}),
    Companion("cics-same", {}, (), {Way(it): "f" for it in ("SCRIPT", "OLD", "NEW", "--source", "--choices", "--queue")}, (),
              ANY - {"--force"} | {"--cicsedf", "--shown", "--screens", "--orders", "-n", "--states", "--one-number", "--even-unrun", "--json"})]
# What a folder of stand-ins has may have the name of each file that is read for it.
IN_FOLDER = {"partinq.asm": "partinq.asm", "the member": "partinq.map", "partset.bms": "partset.asm", "parts.csv": "PARTS.queue"}


@dataclass
class Named:
    """What one file is called by an option that writes, where one that reads has another name for it."""

    how: str
    name: Callable[[str, str], str]  # by the folder and the name


def linked(make: Callable[[str, str], None]) -> Callable[[str, str], str]:
    def name(folder: str, path: str) -> str:
        make(os.path.join(folder, path), os.path.join(folder, "other"))
        return "other"

    return name


NAMES = [Named("the same name", lambda _, path: path), Named("./ in front", lambda _, path: f"./{path}"),
         Named("a whole path", os.path.join), Named("a symbolic link", linked(os.symlink)), Named("a hard link", linked(os.link)),
         Named("another case", lambda _, path: path.swapcase())]


def contents(folder: str) -> dict[str, bytes]:
    return {path: read(path) for at, _, names in os.walk(folder) for name in names if os.path.isfile(path := os.path.join(at, name))}


def harmed(before: dict[str, bytes]) -> list[str]:
    """The files that aren't as they were."""
    return [path for path, data in before.items() if not os.path.exists(path) or read(path) != data]


@dataclass(frozen=True)
class Pair:
    companion: Companion
    reads: Way
    writes: Way
    named: Named

    def said(self) -> str:
        return f"{self.companion.name}: {self.reads.option} and {self.writes.option} by {self.named.how}"

    def run(self) -> None:
        """Runs it, and sees that nothing is harmed, and that it says so."""
        with folder_of(self.companion.files) as folder:
            path = self.named.name(folder, self.companion.reads[self.reads])
            before = contents(folder)
            is_one = os.path.exists(os.path.join(folder, path))
            if self.companion.is_endless and not is_one:
                return
            ended = ended_of(self.companion, self.writes, path, folder, self.reads.typed)
            expect(self.said(), not harmed(before), (harmed(before), ended))
            if is_one:
                said = (ended.reported + ended.out).decode()
                expect(f"{self.said()}: what is said", any(why in said for why in KEPT) and is_refused(ended, self.writes), ended)


def is_refused(ended: Ended, way: Way) -> bool:
    return ended.status == (1 if way.typed else 3) and b"Traceback" not in ended.reported


def ended_of(companion: Companion, way: Way, path: str, folder: str, typed: str = "") -> Ended:
    words = [*companion.words, *(word.replace("{}", path) for word in way.words)]
    return called(companion.name, words, folder, given=(typed + way.typed.replace("{}", path)).encode())


def drawn_pairs() -> Iterator[Pair]:
    """Every pair of options. Each is tried by one spelling of the file's name, drawn so that all spellings come equally often."""
    draw, names = random.Random(SEED), list[Named]()
    for companion in COMPANIONS:
        for reads in companion.reads:
            for writes in companion.writes:
                names = names or draw.sample(NAMES, len(NAMES))
                yield Pair(companion, reads, writes, names.pop())


class NoHarmTest(TestCase):
    def test_options(self) -> None:
        """Each option of each companion is one that reads, one that writes, or one that names no file."""
        for name in sorted({one.name for one in COMPANIONS}):
            said = called(name, ["--help"], TOP).out.decode().partition("options:")[2]
            found = {word for line in re.findall(r"^  (-\S.*)", said, re.M) for word in re.findall(r"(?<!\S)--?[a-z][a-z-]*", line.split("   ")[0])}
            known = {option for one in COMPANIONS if one.name == name for option in one.options()}
            known -= {"--cicslook"} if name == "cics-adapt" else set()
            known |= {"--out", "--bms", "--file"} if name == "cics-adapt" else set()  # of stand-ins, below
            self.assertEqual(found - known, set(), f"{name}: options of which the table says nothing")
            self.assertEqual({option for option in known if option.startswith("-")} - found, set(), f"{name}: options that it doesn't have")

    def test_pairs(self) -> None:
        pairs = [*drawn_pairs()]
        self.assertGreater(len(pairs), 25)
        for pair in pairs:
            pair.run()

    def test_stand_in(self) -> None:
        """Of each file that is read for stand-ins, and each that is written: one file in the folder."""
        draw = random.Random(SEED)
        for reads, written in IN_FOLDER.items():
            source = EXAMPLE["partinq.asm"].replace("         END", "         COPY  M\n         END") if reads == "the member" else EXAMPLE["partinq.asm"]
            files = {**EXAMPLE, "partinq.asm": source, "m/M": MEMBER}
            path = "m/M" if reads == "the member" else reads
            with folder_of(files) as folder:
                os.mkdir(os.path.join(folder, "out"))
                ends = os.path.join(folder, path), os.path.join(folder, "out", written)
                if draw.random() < 0.5:
                    os.symlink(*ends)
                else:
                    os.link(*ends)
                before = contents(folder)
                ended = called("cics-adapt", [*STAND_IN, "--copy", "m", "--out", "out"], folder)
                expect(f"{path} and out/{written}", not harmed(before) and b"it is read" in ended.reported and ended.status == 3, ended)
                expect(f"{path} and out/{written}: nothing is written", contents(folder) == before, ended)

    def test_what_is_there(self) -> None:
        """What isn't a companion's own stays, and is replaced by --force, but for a conversation's or a session's."""
        for companion in COMPANIONS:
            for way in companion.writes:
                with folder_of({**companion.files, "mine": MINE}) as folder:
                    before = contents(folder)
                    ended = ended_of(companion, way, "mine", folder)
                    expect(f"{companion.name} {way.option}", not harmed(before) and is_refused(ended, way), ended)
                    if companion.name in ("cics-look", "cics-terminals"):
                        continue
                    ended = ended_of(companion, Way(way.option, (*way.words, "--force")), "mine", folder)
                    expect(f"{companion.name} {way.option} --force", read(os.path.join(folder, "mine")) != MINE.encode() and ended.status in (0, 1), ended)

    def test_twice(self) -> None:
        """What a companion wrote it writes again; where somebody changed it, that is told, and it stays."""
        for companion in COMPANIONS:
            for way in companion.writes if companion.name not in ("cics-look", "cics-terminals") else ():
                with folder_of(companion.files) as folder:
                    path = os.path.join(folder, "made")
                    ends = [ended_of(companion, way, "made", folder) for _ in range(2)]
                    expect(f"{companion.name} {way.option} twice", ends[0].status == ends[1].status <= 1, ends)
                    with open(path, "ab") as file:
                        file.write(b"more\n")
                    changed, ended = read(path), ended_of(companion, way, "made", folder)
                    expect(f"{companion.name} {way.option}, changed since", read(path) == changed and b"it was changed since" in ended.reported, ended)

    def test_two_uses(self) -> None:
        """One file by two options that write: the first has it, and the second is refused."""
        for companion in COMPANIONS:
            for first, second in zip(companion.writes, companion.writes[1:]):
                with folder_of(companion.files) as folder:
                    both = Way(f"{first.option} and {second.option}", (*first.words, *second.words), first.typed + second.typed)
                    ended = ended_of(companion, both, "made", folder)
                    said = (ended.reported + ended.out).decode()
                    expect(f"{companion.name} {both.option}", "is written to it" in said and is_refused(ended, second), ended)
