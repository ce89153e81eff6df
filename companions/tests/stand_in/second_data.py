"""A second reader of data with a heading, by the manual's page alone: the records, or the lines at fault."""
import re
from dataclasses import dataclass

CHARACTERS = "ABCDEFGHIJKLMNOPQRSTUVWXYZabcdefghijklmnopqrstuvwxyz0123456789@#$ .<(+|&!*);-/,%_>?:'=\""
ROW = re.compile(r'("(?:""|[^"])*"|[^",]*)(,|\Z)')


@dataclass(frozen=True)
class Column:
    """A field of the record: its place, its bytes, its type, and whether it is the key."""

    name: str
    begin: int
    size: int
    kind: str
    is_key: bool = False


class Wrong(Exception):
    """A line isn't what the page says."""


def values_of(line: str) -> list[str]:
    """The values of a line."""
    found, at = [], 0
    while True:
        one = ROW.match(line, at)
        if one is None:
            raise Wrong("quotes")
        found.append(one[1][1:-1].replace('""', '"') if one[1][:1] == '"' else one[1])
        at = one.end()
        if not one[2]:
            return found


def held(text: str, column: Column) -> bytes:
    """The bytes of a value."""
    bits = 8 * column.size
    if column.kind == "C":
        if len(text) > column.size or any(one not in CHARACTERS for one in text):
            raise Wrong("text")
        return text.ljust(column.size).encode("cp037")
    text = text.strip(" ")
    quoted = re.fullmatch(f"{column.kind}'(.*)'", text)
    inner = (quoted[1].strip(" ") if quoted else text) or ("" if quoted else "0")
    if column.kind == "P":
        number = re.fullmatch(r"([-+]?)(?=\.?[0-9])([0-9]*\.?[0-9]*)", inner)
        digits = number[2].replace(".", "").lstrip("0") if number else ""
        if number is None or len(digits) >= 2 * column.size:
            raise Wrong("packed")
        return bytes.fromhex("0" * (2 * column.size - 1 - len(digits)) + digits + ("d" if number[1] == "-" else "c"))
    if column.kind in "FH":
        if not re.fullmatch("[-+]?[0-9]{1,30}", inner) or not -(2 ** (bits - 1)) <= int(inner) < 2 ** (bits - 1):
            raise Wrong("number")
        return int(inner).to_bytes(column.size, "big", signed=True)
    if not re.fullmatch(f"[0-9a-fA-F]{{1,{2 * column.size}}}", inner):
        raise Wrong("digits")
    return int(inner, 16).to_bytes(column.size, "big")


def record_of(line: str, chosen: list[Column], columns: list[Column], size: int) -> bytes:
    values = values_of(line)
    if len(values) != len(chosen) or line == "":
        raise Wrong("how many")
    record = [0x40] * size
    given = {column.name: value for column, value in zip(chosen, values)}
    for column in columns:
        value = given.get(column.name, "" if column.kind == "C" else "0")
        if column.is_key and not value.strip(" "):
            raise Wrong("key")
        record[column.begin : column.begin + column.size] = held(value, column)
    return bytes(record)


def chosen_by(line: str, columns: list[Column]) -> list[Column]:
    """The columns that the first line names."""
    names = [name.strip(" ") for name in values_of(line)]
    known = {column.name: column for column in columns}
    if any(name not in known for name in names) or len({*names}) < len(names) or not any(known[name].is_key for name in names):
        raise Wrong("heading")
    return [known[name] for name in names]


def read(data: bytes, columns: list[Column], size: int, most: int) -> tuple[list[bytes], set[int]]:
    """The records in the order of their keys, or the lines at fault, from 1."""
    data = data[3:] if data[:3] == b"\xEF\xBB\xBF" else data
    try:
        text = data.decode("utf-8")
    except UnicodeDecodeError:
        text = data.decode("latin-1")
    lines = (text[:-1] if text.endswith("\n") else text).split("\n")
    lines = [line[:-1] if line.endswith("\r") else line for line in lines]
    try:
        chosen = chosen_by(lines[0], columns)
    except Wrong:
        return [], {1}
    found: list[bytes] = []
    wrong: set[int] = set()
    for number, line in enumerate(lines[1:], 2):
        try:
            found.append(record_of(line, chosen, columns, size))
        except Wrong:
            wrong.add(number)
    key = next(column for column in columns if column.is_key)
    keys = [record[key.begin : key.begin + key.size] for record in found]
    if not wrong:
        wrong = {at + 2 for at, one in enumerate(keys) if one in keys[:at]}
        wrong |= {most + 2} if len(found) > most else set()
    return ([], wrong) if wrong else ([record for _, record in sorted(zip(keys, found))], set())
