"""Bad input of cics-adapt: each gives lines and a status, and none a traceback."""
import os
from dataclasses import dataclass, field

from tests.calling import called, folder_of
from tests.case import TestCase

PROGRAM = "P        CSECT\n         BER   14\n         END\n"
NEW = "P        CSECT\n         BCR   8,14\n         END\n"
CHANGED = "old.asm:2: changed: BER 14 is now BCR 8,14"


@dataclass(frozen=True)
class Input:
    """Files, the words, and how the run ends: its status, its output (None: whatever it is), and words of each line that is told."""

    what: str
    files: dict[str, bytes]
    words: list[str]
    status: int
    out: bytes | None
    told: list[str] = field(default_factory=list)


def records(text: str) -> bytes:
    """Fixed records of 80 EBCDIC bytes, with sequence numbers in columns 73 to 80."""
    lines = text.splitlines()
    return "".join(f"{line:<72}{number:08}" for number, line in enumerate(lines, 1)).encode("cp037")


def numbered(text: str) -> bytes:
    return "".join(f"{line:<72}{number:08}\n" for number, line in enumerate(text.splitlines(), 1)).encode()


NO_MEMBERS = (b"../SECRET", b"/ETC/PASSWD", b"SUB/A", b"..", b"ABCDEFGHI", b"A.CPY")
INPUTS = [
    Input("a good file", {"old.asm": PROGRAM.encode()}, ["old.asm"], 0, NEW.encode(), [CHANGED]),
    Input("no file", {}, ["old.asm"], 3, b"", ["old.asm: No such file"]),
    Input("a folder", {"old.asm/x": b""}, ["old.asm"], 3, b"", ["old.asm: Is a directory"]),
    Input("no words", {}, [], 2, b"", ["write: cics-adapt"]),
    Input("an unknown word", {"old.asm": b""}, ["old.asm", "--all"], 2, b"", ["write: cics-adapt"]),
    Input("an empty file", {"old.asm": b""}, ["old.asm"], 1, b"", ["old.asm:1: left: there is no END"]),
    Input("CR LF and an open last line", {"old.asm": PROGRAM.rstrip().replace("\n", "\r\n").encode()}, ["old.asm"], 0,
          NEW.rstrip().replace("\n", "\r\n").encode(), [CHANGED]),
    Input("one line with CR LF and an open one", {"old.asm": b"* A\r\n         END"}, ["old.asm"], 0, b"* A\r\n         END"),
    Input("an open last line with a carriage return", {"old.asm": b"* A\r\n         END\r"}, ["old.asm"], 1, b"* A\r\n         END\r",
          ["old.asm:2: left: no EBCDIC code for X'0D'"]),
    Input("a byte order mark", {"old.asm": b"\xef\xbb\xbf" + PROGRAM.encode()}, ["old.asm"], 0, NEW.encode(),
          ["a byte order mark in front is now none", CHANGED]),
    Input("a number as large as a fullword takes", {"old.asm": b"P        CSECT\nA        EQU   2*1073741823+1\n         END\n"}, ["old.asm"], 0,
          b"P        CSECT\nA        EQU   2147483647              2*1073741823+1\n         END\n", ["is now EQU 2147483647"]),
    Input("a larger one", {"old.asm": f"P        CSECT\nA        EQU   65536*{'2*' * 14}2\n         END\n".encode()}, ["old.asm"], 1,
          f"P        CSECT\nA        EQU   65536*{'2*' * 14}2\n         END\n".encode(), ["old.asm:2: left: 65536*2*2"]),
    Input("standard input", {}, ["-"], 1, b"", ["standard input:1: left: there is no END"]),
    Input("EBCDIC records", {"old.asm": records(PROGRAM)}, ["old.asm"], 0, numbered(NEW), ["EBCDIC", CHANGED]),
    Input("EBCDIC by its word", {"old.asm": records(PROGRAM)}, ["--ebcdic", "old.asm"], 0, numbered(NEW), ["EBCDIC", CHANGED]),
    Input("EBCDIC that is cut", {"old.asm": records(PROGRAM)[:-1]}, ["--ebcdic", "old.asm"], 3, b"", ["239 bytes aren't records of 80"]),
    Input("CR LF", {"old.asm": PROGRAM.replace("\n", "\r\n").encode()}, ["old.asm"], 0, NEW.replace("\n", "\r\n").encode(), [CHANGED]),
    Input("CR LF in one line", {"old.asm": PROGRAM.replace("14\n", "14\r\n").encode()}, ["old.asm"], 0, NEW.encode(), ["a carriage return", CHANGED]),
    Input("an unfinished last line", {"old.asm": PROGRAM.rstrip().encode()}, ["old.asm"], 0, NEW.rstrip().encode(), [CHANGED]),
    Input("tabs", {"old.asm": b"P\tCSECT\n         END\n"}, ["old.asm"], 0, b"P       CSECT\n         END\n", ["old.asm:1: changed: a tab character"]),
    Input("a tab in a remark", {"old.asm": b"P        CSECT\n         BR    14\tX\n         END\n"}, ["old.asm"],
          0, b"P        CSECT\n         BR    14       X\n         END\n",
          ["old.asm:2: changed: a tab character"]),
    Input("a tab in a text", {"old.asm": b"P        CSECT\nA        DC    C'\t'\n         END\n"}, ["old.asm"],
          1, None, ["old.asm:2: left: no EBCDIC code for a tab"]),
    Input("small letters", {"old.asm": b"P        CSECT\na        br    14\n         END\n"}, ["old.asm"],
          0, b"P        CSECT\nA        BR    14\n         END\n",
          ["old.asm:2: changed: a br 14 is now A BR 14"]),
    Input("bytes of any code", {"old.asm": b"P        CSECT\n* \xe9\x00[\n         END\n"}, ["old.asm"], 0, b"P        CSECT\n* ...\n         END\n",
          ["X'00' in a comment", "X'5B' in a comment", "X'E9' in a comment"]),
    Input("bytes of any code in a text", {"old.asm": b"P        CSECT\nA        DC    C'\xe9\x00['\n         END\n"}, ["old.asm"], 1, None,
          ["no EBCDIC code for X'00', X'5B', X'E9'"]),
    Input("a line that ends the block", {"old.asm": b"P        CSECT\n/*\n         END\n"}, ["old.asm"], 1, None,
          ["would end the source's block", "there is no operation"]),
    Input("a wrong continuation", {"old.asm": b"P        CSECT\n" + b"         BR    14".ljust(71) + b"X\nA        BR    14\n         END\n"}, ["old.asm"], 1,
          None,
          ["old.asm:2: left: continued"]),
    Input("a line that is too long", {"old.asm": b"P        CSECT\n" + b"*" * 81 + b"\n         END\n"}, ["old.asm"], 1, None, ["more than 80 columns"]),
    Input("COPY", {"old.asm": b"P        CSECT\n         COPY  A\n         END\n", "m/a.cpy": b"         BER   14\n"}, ["old.asm", "--copy", "m"], 0,
          b"P        CSECT\n*        COPY  A\n         BCR   8,14\n         END\n", ["the lines of m/a.cpy", "m/a.cpy:1: changed: BER"]),
    Input("COPY without a folder", {"old.asm": b"P        CSECT\n         COPY  A\n         END\n"}, ["old.asm"], 1, None,
          ["old.asm:2: left: COPY A: no folder"]),
    Input("COPY of a missing member", {"old.asm": b"P        CSECT\n         COPY  A\n         END\n", "m/B": b""}, ["old.asm", "--copy", "m"], 1, None,
          ["old.asm:2: left: COPY A: no such file in m"]),
    Input("COPY in a circle", {"old.asm": b"P        CSECT\n         COPY  A\n         END\n", "m/A": b"         COPY  B\n", "m/B": b"         COPY  A\n"},
          ["old.asm", "--copy", "m"], 1, None, ["old.asm:2: changed: COPY A is now the lines of m/A", "m/A:1: changed: COPY B is now the lines of m/B",
                                                "m/B:1: left: COPY A: in a circle, A in B in A"]),
    Input("COPY in 51 members", {"old.asm": b"P        CSECT\n         COPY  A0\n         END\n",
                                 **{f"m/A{at}": b"         COPY  A%d\n" % (at + 1) for at in range(60)}},
          ["old.asm", "--copy", "m"], 1, None, ["changed"] * 50 + ["m/A49:1: left: COPY A50: more than 50 members in one another"]),
    Input("COPY of what isn't a member's name", {"old.asm": b"P        CSECT\n" + b"".join(b"         COPY  %s\n" % name for name in NO_MEMBERS) +
                                                b"         END\n", "SECRET": b"PASSWORD\n", "m/SUB/A": b"* A\n", "m/ABCDEFGHI": b"* A\n"}, ["old.asm", "--copy", "m"],
          1, None, [f"left: COPY {name.decode()}: a member's name has 1 to 8 letters" for name in NO_MEMBERS]),
    Input("COPY of two members in each of 26", {"old.asm": b"P        CSECT\n         COPY  A0\n         END\n", "m/A26": b"* THE LAST\n",
                                                **{f"m/A{at}": b"         COPY  A%d\n" % (at + 1) * 2 for at in range(26)}},
          ["old.asm", "--copy", "m"], 1, b"", ["COPY A26: members of more than 20000 lines; a source has at most 10000"]),
    Input("100,000 lines", {"old.asm": b"P        CSECT\n" + b"         BER   14\n" * 100_000 + b"         END\n"}, ["old.asm"], 1, b"",
          ["cics-adapt: old.asm:20001: a source of more than 20000 lines; a source has at most 10000"]),
    Input("10,001 lines", {"old.asm": b"P        CSECT\n" + b"         BER   14\n" * 9999 + b"         END\n"}, ["old.asm"], 1, None,
          ["changed"] * 9999 + ["old.asm:10001: left: the source has more than 10000 lines"]),
]


def failure_of(one: Input) -> str | None:
    with folder_of(one.files) as folder:
        result = called("cics-adapt", one.words, folder)
    lines = result.reported.decode().splitlines()
    is_told = len(lines) == len(one.told) and all(word in line for word, line in zip(one.told, lines))
    is_out = one.out is None or one.out == result.out
    return None if result.status == one.status and is_told and is_out and "Traceback" not in "".join(lines) else f"{one.what}: {result}"


class InputsTest(TestCase):
    def test_inputs(self) -> None:
        self.none_of([failure for one in INPUTS if (failure := failure_of(one))])

    def test_members_by_links(self) -> None:
        """A link to a file of a folder of --copy is a member; one that leads elsewhere isn't read."""
        source = "P        CSECT\n         COPY  IN\n         COPY  OUT\n         END\n"
        with folder_of({"old.asm": source, "m/A": "* WITHIN\n", "n/B": "* WITHIN TOO\n", "secret": "* ELSEWHERE\n"}) as folder:
            for name, path in (("m/IN", "../n/B"), ("m/OUT", "../secret")):
                os.symlink(path, os.path.join(folder, name))
            result = called("cics-adapt", ["old.asm", "--copy", "m", "--copy", "n"], folder)
        self.assertEqual((result.status, result.out), (1, b"P        CSECT\n*        COPY  IN\n* WITHIN TOO\n         COPY  OUT\n         END\n"))
        self.assertIn(b"old.asm:3: left: COPY OUT: m/OUT leads out of m, n", result.reported)

    def test_a_full_disk(self) -> None:
        with folder_of({"old.asm": PROGRAM}) as folder:
            result = called("cics-adapt", ["old.asm"], folder, redirected=">/dev/full")
        self.assertEqual((result.status, result.reported), (3, b"cics-adapt: standard output: No space left on device\n"))
