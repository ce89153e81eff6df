"""Data and mapsets that are spoilt, drawn: each by a few changes as somebody makes them who isn't careful, or by bytes anywhere."""
import random
from collections.abc import Callable
from dataclasses import dataclass

ANYWHERE = b"\",;'=_-.()&*^ \n\r\xe9\x00AZa059"


@dataclass(frozen=True)
class Spoiler:
    """Draws changes of a file's lines."""

    draw: random.Random

    def at(self, lines: list[str]) -> int:
        return self.draw.randrange(len(lines))

    # ---- of any file

    def anywhere(self, data: bytes) -> bytes:
        """A byte put in, taken out, or in the place of another."""
        at, one = self.draw.randrange(len(data) + 1), bytes([self.draw.choice(ANYWHERE)])
        return data[:at] + self.draw.choice([one + data[at:], data[at + 1 :], one + data[at + 1 :]])

    def shortened(self, data: bytes) -> bytes:
        return data[: self.draw.randrange(len(data) + 1)]

    def line_changed(self, lines: list[str]) -> list[str]:
        """A line left out, there twice, empty, or in the place of another."""
        at, other = self.at(lines), self.at(lines)
        kind = self.draw.randrange(4)
        if kind == 0:
            return lines[:at] + lines[at + 1 :] or [""]
        if kind == 1:
            return lines[: at + 1] + lines[at:]
        if kind == 2:
            return lines[:at] + [""] + lines[at:]
        lines = list(lines)
        lines[at], lines[other] = lines[other], lines[at]
        return lines

    # ---- of data

    def heading_changed(self, lines: list[str]) -> list[str]:
        """Names in small letters, misspelt, twice, without the key, or with another mark between them."""
        names = lines[0].split(",")
        at = self.at(names)
        kind = self.draw.randrange(6)
        if kind == 0:
            names[at] = names[at].lower()
        elif kind == 1:
            names[at] = names[at][:-1] + self.draw.choice(["", "X", "9"])
        elif kind == 2:
            names[at] = self.draw.choice(names)
        elif kind == 3:
            names = names[1:] or [""]
        elif kind == 4:
            names.append(self.draw.choice(["", "RKEY", "RBITS"]))
        return [self.draw.choice([";", "\t", " ,"] if kind == 5 else [","]).join(names), *lines[1:]]

    def value_changed(self, lines: list[str]) -> list[str]:
        """A value that is something else, or one too many, or one left out."""
        lines = list(lines)
        at = self.at(lines)
        values = lines[at].split(",")
        place = self.at(values)
        new = self.draw.choice(["1_000", "AABBCCDD", "-12.50", "P'-12.50'", "X'0A'", "H'1'", "", " ", "12.50-", "--1", "40000", "-32768", "99999999", "0x10", "1e5",
                                '"A, B"', '"A""B"', 'A"B', '"A', '"A" ', " 7 ", "A" * 9, "TOO LONG A TEXT", "é", "^", "+5", "5.", ".", "A\tB", "7" * 50])
        kind = self.draw.randrange(8)
        if kind == 0:
            values.insert(place, new)
        elif kind == 1:
            del values[place]
        else:
            values[place] = new
        lines[at] = ",".join(values)
        return lines

    def data(self, good: bytes) -> bytes:
        changes: list[Callable[[list[str]], list[str]]] = [self.value_changed, self.value_changed, self.value_changed, self.heading_changed, self.line_changed]
        found = good
        for _ in range(self.draw.choice([1, 1, 1, 2, 4])):
            if self.draw.random() < 0.25:
                found = self.draw.choice([self.anywhere, self.anywhere, self.shortened])(found)
            else:
                found = "\n".join(self.draw.choice(changes)(found.decode("utf-8", errors="replace").split("\n"))).encode()
        found = found.replace(b"\n", b"\r\n") if self.draw.random() < 0.1 else found
        return b"\xEF\xBB\xBF" + found if self.draw.random() < 0.1 else found

    # ---- of mapsets

    def word_changed(self, lines: list[str]) -> list[str]:
        """A part of an operand in the place of another one."""
        lines = list(lines)
        at = self.at(lines)
        pairs = [("POS=(", ["POS=(0", "POS=(2", "POS=", "POS=((", "PSO=("]), ("1)", ["81)", "80)", "0)", "79)", "1", "A)"]),
                 ("LENGTH=", ["LENGTH=9", "LENGTH=-", "LENGTH=0", "LENGHT=", "LENGTH=7,LENGTH="]), ("ATTRB=", ["ATTRB=FOO,COLOR=", "ATRB="]),
                 ("ASKIP", ["FOO", "PROT", "UNPROT", "ASKIP,PROT", ""]), ("UNPROT", ["UNPROT,PROT", "NUM,UNPROT", "IC"]), ("BRT", ["BRT,DRK", "NORM", "BTR"]),
                 ("'", ["", "''", "'&", "'^"]), (",", ["", ",,", ", ", " ,"]), ("NAME", ["NUMBER", "TOOLONGNAME", "N A", "1"]), (" ", ["", "  "]),
                 ("(24,80)", ["(24,81)", "(3,80)", "(24,40)", "24,80", "(24,80"]), ("OCCURS=2", ["OCCURS=0", "OCCURS=1", "OCCURS=9", "OCCURS=X"]),
                 ("TYPE=MAP", ["TYPE=MPA", "TYPE=DSECT", "TYPE=FINAL"]), ("DFHMDF", ["DFHMDI", "DFHMDG", "DFHMSD"]), ("COLOR=RED", ["COLOR=REED", "COLOR=(RED)"]),
                 ("INITIAL='", ["INITIAL='AND A TEXT THAT IS LONGER THAN ALL OF ITS LINE ", "INITIAL=", "XINIT='"]), ("GRPNAME=DATE", ["GRPNAME=TADE", "OCCURS=2"])]
        there = [(old, new) for old, new in pairs if old in lines[at]]
        if there:
            old, new = self.draw.choice(there)
            begin = self.draw.choice([place for place in range(len(lines[at])) if lines[at].startswith(old, place)])
            lines[at] = lines[at][:begin] + self.draw.choice(new) + lines[at][begin + len(old) :]
        return lines

    def mark_moved(self, lines: list[str]) -> list[str]:
        """A mark of continuation, or what follows it, a column to the left or right, left out, or put where none is due."""
        lines = list(lines)
        marked = [at for at, line in enumerate(lines) if line[71:72].strip()]
        at = self.draw.choice(marked) if marked else self.at(lines)
        kind = self.draw.randrange(5)
        if kind == 0:
            lines[at] = lines[at][:70] + lines[at][71:]
        elif kind == 1:
            lines[at] = lines[at][:71] + " " + lines[at][71:]
        elif kind == 2:
            lines[at] = lines[at][:71].rstrip()
        elif kind == 3 and at + 1 < len(lines):
            lines[at + 1] = self.draw.choice([" ", "", "  "]) + lines[at + 1][self.draw.choice([0, 0, 1]) :]
        else:
            other = self.at(lines)
            lines[other] = f"{lines[other]:<71}*"
        return lines

    def mapset(self, good: bytes) -> bytes:
        found = good
        for _ in range(self.draw.choice([1, 1, 1, 2])):
            kind = self.draw.random()
            if kind < 0.15:
                found = self.draw.choice([self.anywhere, self.anywhere, self.shortened])(found)
            else:
                change = self.line_changed if kind < 0.25 else self.mark_moved if kind < 0.4 else self.word_changed
                found = "\n".join(change(found.decode("latin-1").split("\n"))).encode("latin-1")
        return found
