"""Files of source: text of ASCII lines, or records of 80 EBCDIC bytes without anything between."""
import os
from dataclasses import dataclass

from cics.cli import Failure, name_of, read_file

RECORD = 80
BLANK, LINE_FEED = 0x40, 0x0A  # EBCDIC's blank; a text has line feeds
BYTE_ORDER_MARK = b"\xef\xbb\xbf"  # which some editors put in front of a text
SUFFIXES = ("", ".asm", ".cpy", ".copy", ".mac")


@dataclass(frozen=True)
class SourceText:
    """A file's lines without their ends, which are `ending`. Each character stands for one byte, whatever its code."""

    lines: list[str]
    ending: str = "\n"
    is_ebcdic: bool = False
    is_mixed: bool = False
    ends_open: bool = False
    has_mark: bool = False  # a byte order mark in front, which is no part of the lines

    def written(self, lines: list[str]) -> str:
        """New lines as the file had its own: with its ends, and the last one open where it was."""
        text = "".join(line + self.ending for line in lines)
        return text.removesuffix(self.ending) if self.ends_open else text


def is_ebcdic(data: bytes) -> bool:
    """Whether bytes look like records of EBCDIC: whole ones, without a line feed, with more of its blanks than of ASCII's."""
    return len(data) % RECORD == 0 and bytes([LINE_FEED]) not in data and data.count(BLANK) > data.count(b" ")


def source_of(data: bytes, name: str, *, must_be_ebcdic: bool = False) -> SourceText:
    if must_be_ebcdic and len(data) % RECORD:
        raise Failure(f"{name}:1: {len(data)} bytes aren't records of {RECORD}")
    if must_be_ebcdic or data and is_ebcdic(data):
        text = data.decode("cp037")
        return SourceText([text[at : at + RECORD].rstrip() for at in range(0, len(text), RECORD)], is_ebcdic=True)
    *lines, rest = data.removeprefix(BYTE_ORDER_MARK).decode("latin-1").split("\n")
    with_return = sum(line.endswith("\r") for line in lines)
    ending = "\r\n" if with_return and with_return == len(lines) else "\n"
    ended, unfinished = [line.removesuffix("\r") for line in lines], [rest] if rest else []
    return SourceText([*ended, *unfinished], ending, is_mixed=0 < with_return < len(lines), ends_open=bool(rest),
                      has_mark=data.startswith(BYTE_ORDER_MARK))


def read_source(path: str, *, must_be_ebcdic: bool = False) -> SourceText:
    return source_of(read_file(path), name_of(path), must_be_ebcdic=must_be_ebcdic)


def member_path(member: str, folders: list[str]) -> str | None:
    """The file of a member: its name in capitals or small letters, perhaps with a suffix, in the first folder that has one."""
    names = [spelling + suffix for spelling in (member, member.lower()) for suffix in SUFFIXES]
    paths = [os.path.join(folder, name) for folder in folders for name in names]
    return next((path for path in paths if os.path.isfile(path)), None)
