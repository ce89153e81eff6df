"""A small keyed file of the tests' own: what each command of file control gives, by the definitions of its options."""
from dataclasses import dataclass, field
from enum import Enum

NORMAL, NOTFND, DUPREC, INVREQ, ENDFILE, LENGERR = 0, 13, 14, 16, 20, 22
HIGH = b"\xFF" * 4


class Way(Enum):
    """What a browse did last."""

    PLACED = "placed"
    FORWARD = "forward"
    BACKWARD = "backward"


@dataclass(frozen=True)
class Given:
    """What a command leaves: its response, the record that it gives, and the key that it gives."""

    resp: int
    record: bytes | None = None
    key: bytes | None = None


@dataclass
class KeyedFile:
    """Records by their keys. `held` is the key of the record that is held for update, `place` that of the browse."""

    key_begin: int
    key_length: int
    most: int
    records: dict[bytes, bytes] = field(default_factory=dict)
    held: bytes | None = None
    place: bytes = b""
    way: Way | None = None

    def keys(self) -> list[bytes]:
        return sorted(self.records)

    def not_below(self, key: bytes) -> bytes | None:
        return next((one for one in self.keys() if one >= key), None)

    def meant(self, key: bytes, *, is_greater: bool) -> bytes | None:
        found = self.not_below(key)
        return found if found == key or is_greater else None

    def read(self, key: bytes, *, is_greater: bool, is_update: bool) -> Given:
        if is_update and self.held is not None:
            return Given(INVREQ)
        found = self.meant(key, is_greater=is_greater)
        if found is None:
            return Given(NOTFND)
        self.held = found if is_update else self.held
        return Given(NORMAL, self.records[found])

    def is_of_key(self, record: bytes, key: bytes) -> bool:
        return record[self.key_begin : self.key_begin + self.key_length] == key

    def is_long_enough(self, record: bytes) -> bool:
        return self.key_begin + self.key_length <= len(record) <= self.most

    def write(self, key: bytes, record: bytes, area: bytes) -> Given:
        """`area` is where the record stands, whatever the length that is given."""
        if key in self.records:
            return Given(DUPREC)
        if not self.is_long_enough(record):
            return Given(LENGERR)
        if not self.is_of_key(area, key):
            return Given(INVREQ)
        self.records[key] = record
        return Given(NORMAL)

    def rewrite(self, record: bytes, area: bytes) -> Given:
        if self.held is None:
            return Given(INVREQ)
        if not self.is_long_enough(record):
            return Given(LENGERR)
        if not self.is_of_key(area, self.held):
            return Given(INVREQ)
        if self.held not in self.records:
            return Given(NOTFND)
        self.records[self.held] = record
        self.held = None
        return Given(NORMAL)

    def delete(self, key: bytes | None) -> Given:
        if key is None and self.held is None:
            return Given(INVREQ)
        gone = self.records.pop(key or self.held or b"", None)
        if gone is None:
            return Given(NOTFND)
        self.held = None if key is None else self.held
        return Given(NORMAL)

    def unlock(self) -> Given:
        self.held = None
        return Given(NORMAL)

    def start(self, key: bytes, *, is_greater: bool, is_reset: bool) -> Given:
        if (self.way is None) == is_reset:
            return Given(INVREQ)
        if key != HIGH and self.meant(key, is_greater=is_greater) is None:
            return Given(NOTFND)
        self.place, self.way = key, Way.PLACED
        return Given(NORMAL)

    def end(self) -> Given:
        if self.way is None:
            return Given(INVREQ)
        self.way = None
        return Given(NORMAL)

    def browse(self, key: bytes, *, is_forward: bool) -> Given:
        if self.way is None:
            return Given(INVREQ)
        if key != self.place:
            self.place, self.way = key, Way.PLACED
        return self.next() if is_forward else self.previous()

    def next(self) -> Given:
        after = [one for one in self.keys() if one > self.place or one == self.place and self.way is not Way.FORWARD]
        return self.given(after[0], Way.FORWARD) if after else Given(ENDFILE)

    def previous(self) -> Given:
        if self.way is not Way.BACKWARD and self.place not in self.records and not (self.way is Way.PLACED and self.place == HIGH):
            return Given(NOTFND)
        before = [one for one in self.keys() if one < self.place or one == self.place and self.way is not Way.BACKWARD]
        return self.given(before[-1], Way.BACKWARD) if before else Given(ENDFILE)

    def given(self, key: bytes, way: Way) -> Given:
        self.place, self.way = key, way
        return Given(NORMAL, self.records[key], key)
