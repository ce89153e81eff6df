"""READ to ENDBR of files."""
from dataclasses import dataclass, field

from cics.stand_in.records import FileDefinition
from cics.stand_in.requests import Call, NotStoodIn, Request

PROGRAM = "$SFILE"
SET, UPDATE, GTEQ, LENGTH, RIDFLD = 0x40, 0x20, 0x10, 0x08, 0x04
FUNCTIONS = {"READ": 0x0602, "WRITE": 0x0604, "REWRITE": 0x0606, "DELETE": 0x0608, "UNLOCK": 0x060A, "STARTBR": 0x060C, "READNEXT": 0x060E,
             "READPREV": 0x0610, "ENDBR": 0x0612, "RESETBR": 0x0614}
OF_ALL = {"FILE", "DATASET", "RESP", "RESP2", "NOHANDLE"}
FIRST = {"RIDFLD", "EQUAL", "GTEQ", "REQID"}  # options of what places a browse
ONE = {"INTO", "SET", "LENGTH", "RIDFLD", "REQID"}  # and of what reads on in it
OPTIONS: dict[str, set[str]] = {
    "READ": {"INTO", "SET", "LENGTH", "RIDFLD", "EQUAL", "GTEQ", "UPDATE"}, "WRITE": {"FROM", "LENGTH", "RIDFLD"}, "REWRITE": {"FROM", "LENGTH"},
    "DELETE": {"RIDFLD"}, "UNLOCK": set(), "STARTBR": FIRST, "RESETBR": FIRST, "READNEXT": ONE, "READPREV": ONE, "ENDBR": {"REQID"}}
REASONS = {"GENERIC": "GENERIC", "RRN": "RRN", "RBA": "RBA"}
NEEDED = {"READ": {"RIDFLD"}, "WRITE": {"RIDFLD", "FROM"}, "REWRITE": {"FROM"}, "STARTBR": {"RIDFLD"}, "RESETBR": {"RIDFLD"}, "READNEXT": {"RIDFLD"},
          "READPREV": {"RIDFLD"}}
AREAS = {"READ", "READNEXT", "READPREV"}


def is_of_files(call: Call) -> bool:
    return call.command.name in FUNCTIONS and bool(call.words & {"FILE", "DATASET"})


def name_of_file(call: Call) -> str:
    return call.constant("FILE", "DATASET") or ""


@dataclass
class States:
    """The fields of a program in which its update and its browse of each file are kept; of each REQID another one."""

    names: dict[tuple[str, int], str] = field(default_factory=dict)

    def of(self, file: str, request: int = 0) -> str:
        return self.names.setdefault((file, request), f"$SF{len(self.names)}")

    def storage(self, files: dict[str, FileDefinition]) -> list[str]:
        return [f"{name:<8} DS    XL{2 + 2 * files[file].key_length}" for (file, _), name in self.names.items()]


def request_of(call: Call) -> int:
    """The number of a browse, by REQID."""
    if not call.has("REQID"):
        return 0
    number = call.program.layout.number(call.argument("REQID") or "", None)
    if number is None:
        raise NotStoodIn(f"REQID({call.argument('REQID')}): a number that is known only when it runs", "name")
    return number


def file_request(call: Call, files: dict[str, FileDefinition], states: States) -> Request:
    name = call.command.name
    call.only({name, "KEYLENGTH", *OF_ALL, *OPTIONS[name]}, REASONS)
    file = name_of_file(call)
    if file not in files:
        raise NotStoodIn(f"FILE('{file}'): no such file was given by --file", "file")
    refuse_part_of_key(call, files[file])
    missing = sorted(NEEDED.get(name, set()) - call.words)
    if missing or name in AREAS and len(call.words & {"INTO", "SET"}) != 1:
        raise NotStoodIn(f"{missing[0] if missing else 'INTO or SET'} is missing")
    length, before = call.length_area() if name in AREAS else (call.halfword(call.argument("LENGTH")), [])
    pointer = call.argument("SET")
    is_greater = "GTEQ" in call.words or name in ("STARTBR", "RESETBR") and "EQUAL" not in call.words
    options = SET * (pointer is not None) | UPDATE * call.has("UPDATE") | GTEQ * is_greater
    options |= LENGTH * (length is not None) | RIDFLD * call.has("RIDFLD")
    given = {0: call.argument("INTO", "FROM"), 1: call.argument("RIDFLD"), 2: length, 3: states.of(file, request_of(call))}
    return Request(name, FUNCTIONS[name], PROGRAM, file, "", options, {number: text for number, text in given.items() if text}, before, pointer)


def refuse_part_of_key(call: Call, file: FileDefinition) -> None:
    """Refuses a KEYLENGTH that isn't known to be that of the whole key."""
    text = call.argument("KEYLENGTH")
    if call.has("KEYLENGTH"):
        number = call.program.layout.number(text or "", None)
        if number != file.key_length:
            raise NotStoodIn(f"KEYLENGTH({text}): it isn't known to be that of the whole key, {file.key_length}", "GENERIC")


def unlocked(file: str, states: States) -> Request:
    """What gives back the record of a file that is held."""
    return Request("UNLOCK", FUNCTIONS["UNLOCK"], PROGRAM, file, "", 0, {3: states.of(file)})
