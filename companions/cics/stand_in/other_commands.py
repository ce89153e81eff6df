"""Transient data, START and RETRIEVE, times, ASSIGN, ADDRESS, and what has no effect here."""
from collections.abc import Callable
from dataclasses import dataclass

from cics.areas import ADDRESSES
from cics.areas import ASSIGNED as ASSIGNED_EXACTLY
from cics.commands import OPTIONS
from cics.stand_in.requests import Call, NotStoodIn, Request, with_length
from cics.statements import Line
from cics.texts import is_name

PROGRAM = "$SREST"
OF_ALL = {"RESP", "RESP2", "NOHANDLE"}
DATA, SET, LENGTH = 0x80, 0x40, 0x08
TIME = "TIMESEP"
FORMS = {"TIME": 1, "YYDDD": 2, "YYMMDD": 3, "MMDDYY": 4, "DATE": 4, "DDMMYY": 5, "YYDDMM": 6, "DAYOFWEEK": 7, "DAYOFMONTH": 8, "MONTHOFYEAR": 9,
         "YEAR": 10, "DAYCOUNT": 11}
# What ASSIGN gives: the length of the field, and the value.
ASSIGNED = {"TCTUALENG": (2, "=H'0'"), "TWALENG": (2, "=H'0'"), "CWALENG": (2, "=H'512'"), "SCRNHT": (2, "=H'24'"), "SCRNWD": (2, "=H'80'"),
            "OPID": (3, "=CL3' '"), "SYSID": (4, "=C'CICS'"), "COLOR": (1, "=X'FF'"), "HILIGHT": (1, "=X'00'"), "EXTDS": (1, "=X'FF'"),
            "USERID": (8, "=CL8'USER'"), "APPLID": (8, "=CL8'CICS'"), "STARTCODE": (2, "=C'TD'"), "FACILITY": (4, "EIBTRMID")}
NO_ADDRESS = "X'FF000000'"  # of an area that isn't there
NOTHING = {"DELAY": "no time passes", "DUMP": "nothing is written", "ENTER": "nothing is traced", "TRACE": "nothing is traced"}
DROPPED = {"ALARM", "WAIT", "LAST", "PRINT", "TERMINAL", "CTLCHAR"}  # options of SEND TEXT, and of SEND
OF_TEXT = {"SEND", "TEXT", "FROM", "LENGTH", "ERASE", "FREEKB", *DROPPED, *OF_ALL}


@dataclass(frozen=True)
class Stood:
    """What stands for a command: its lines, and what is told."""

    lines: list[Line]
    text: str


@dataclass(frozen=True)
class Data:
    """Data that go out by FROM, or come in by INTO or SET: options, arguments, what is written in front, and SET's register."""

    options: int
    arguments: dict[int, str]
    before: list[Line]
    pointer: str | None


def data_of(call: Call, word: str) -> Data | None:
    """The data of a command; none where it has none."""
    area, pointer = call.argument(word), call.argument("SET") if word == "INTO" else None
    if area is None and pointer is None:
        return None
    length, before = call.length_area() if word == "INTO" else (call.halfword(call.argument("LENGTH")), [])
    if length is None and area is not None:
        if word == "INTO" or not is_name(area):
            raise NotStoodIn("LENGTH is left out", "length")
        length = call.halfword(f"L'{area}")
    options = (SET if pointer else DATA) | LENGTH * (length is not None)
    given = {0: area, 2: length}
    return Data(options, {number: text for number, text in given.items() if text}, before, pointer)


def needed(call: Call, word: str) -> Data:
    data = data_of(call, word)
    if data is None:
        raise NotStoodIn("it has no data")
    return data


def transient(call: Call) -> Stood:
    name = call.command.name.split()[0]
    call.only({name, "TD", "QUEUE", "FROM", "INTO", "SET", "LENGTH", "NOSUSPEND", *OF_ALL}, {})
    queue = call.constant("QUEUE") or ""
    data = needed(call, "FROM" if name == "WRITEQ" else "INTO") if name != "DELETEQ" else Data(0, {}, [], None)
    function = {"WRITEQ": 0x0802, "READQ": 0x0804, "DELETEQ": 0x0806}[name]
    request = Request(name, function, PROGRAM, f"$TD@{queue}", "", data.options, data.arguments, data.before, data.pointer)
    return Stood(request.lines(call), f"the queue $TD@{queue}, by a LINK to {PROGRAM}")


def started(call: Call) -> Stood:
    call.only({"START", "TRANSID", "TERMID", "FROM", "LENGTH", "INTERVAL", "TIME", "REQID", "NOCHECK", "PROTECT", *OF_ALL}, {})
    name, terminal = call.constant("TRANSID") or "", call.argument("TERMID")
    at = terminal[1:-1].strip() if terminal and terminal.startswith("'") else ""
    data = data_of(call, "FROM") or Data(0, {}, [], None)
    before = [Line("MVC", f"$SRSET(4),{terminal}")] if terminal and not at else []
    request = Request("START", 0x1008, PROGRAM, f"$RT@{name}", at, data.options, data.arguments, before)
    return Stood(request.lines(call), f"its data are kept; the task begins by a key, {name}")


def retrieved(call: Call) -> Stood:
    call.only({"RETRIEVE", "INTO", "SET", "LENGTH", *OF_ALL}, {})
    data = needed(call, "INTO")
    request = Request("RETRIEVE", 0x100A, PROGRAM, "$RT@", "", data.options, data.arguments, data.before, data.pointer)
    return Stood(request.lines(call), f"the data that START kept, by a LINK to {PROGRAM}")


def asked_time(call: Call) -> Stood:
    call.only({"ASKTIME", "ABSTIME", *OF_ALL}, {})
    area = call.argument("ABSTIME")
    if area is None:
        return Stood(with_resp(call), "EIBTIME and EIBDATE stay those of the task's beginning")
    request = Request("ASKTIME", 0x4A02, PROGRAM, "", "", 0, {0: area})
    return Stood(request.lines(call), "of EIBDATE and EIBTIME, which stay those of the task's beginning")


def mark_of(call: Call, word: str, usual: str) -> list[Line]:
    """What stands between numbers."""
    if not call.has(word):
        return [Line("MVI", "$SRX,0")]
    argument = call.argument(word)
    if argument is None:
        return [Line("MVI", f"$SRX,C'{usual}'")]
    return [Line("MVI", f"$SRX,C{argument}") if argument.startswith("'") else Line("MVC", f"$SRX(1),{argument}")]


def formatted_time(call: Call) -> Stood:
    call.only({"FORMATTIME", "ABSTIME", "DATESEP", TIME, *FORMS, *OF_ALL}, {})
    area = call.argument("ABSTIME")
    lines: list[Line] = []
    for unit in call.options:
        if unit.word not in FORMS or unit.argument is None or area is None:
            continue
        before = mark_of(call, TIME, ":") if unit.word == "TIME" else mark_of(call, "DATESEP", "/")
        lines += Request("FORMATTIME", 0x4A04, PROGRAM, "", "", FORMS[unit.word], {0: area, 1: unit.argument}, before).lines(call)
    if not lines:
        raise NotStoodIn("it has no ABSTIME, or no field that gets something")
    return Stood(lines, f"by a LINK to {PROGRAM} for each field")


def with_resp(call: Call) -> list[Line]:
    """What stands for a command that does nothing: RESP is zero."""
    resp = call.argument("RESP")
    return [Line("MVC", f"{with_length(resp)},=F'0'")] if resp else [Line("NOPR", "0")]


def assigned(call: Call) -> Stood:
    units = [unit for unit in call.options[1:] if unit.word not in OF_ALL]
    unknown = next((unit.word for unit in units if unit.word not in ASSIGNED or unit.argument is None), None)
    if unknown:
        raise NotStoodIn(f"ASSIGN {unknown}: it isn't known here")
    lines = [Line("MVC", f"{with_length(unit.argument or '', ASSIGNED[unit.word][0])},{ASSIGNED[unit.word][1]}") for unit in units]
    return Stood([*lines, *(with_resp(call) if call.has("RESP") else [])], "; ".join(f"{unit.word} {ASSIGNED[unit.word][1]}" for unit in units))


def addressed(call: Call) -> Stood:
    known = {"CWA", "EIB", "TCTUA", "TWA", "CSA"}
    lines, told = [], []
    for unit in call.options[1:]:
        if unit.word in OF_ALL:
            continue
        if unit.word not in known or unit.argument is None:
            raise NotStoodIn(f"ADDRESS {unit.word}: it isn't known here")
        if unit.word == "CWA":
            lines.append(Line("EXEC", f"CICS ADDRESS CWA({unit.argument})"))
        elif unit.word == "EIB":
            lines.append(Line("LA", f"{unit.argument},EIBTIME"))
        else:
            lines.append(Line("L", f"{unit.argument},={NO_ADDRESS}"))
        told.append(f"{unit.word} {'is there' if unit.word in ('CWA', 'EIB') else f'has none: {NO_ADDRESS}'}")
    return Stood([*lines, *(with_resp(call) if call.has("RESP") else [])], "; ".join(told))


def nothing(call: Call) -> Stood:
    return Stood(with_resp(call), NOTHING[call.command.name.split()[0]])


def text_sent(call: Call) -> Stood | None:
    """SEND TEXT with options that have no effect, and SEND of data, as SEND TEXT of what the region takes."""
    is_text = call.has("TEXT")
    dropped = sorted(call.words & DROPPED)
    if is_text and not dropped:
        return None
    if not call.words <= OF_TEXT or not call.has("FROM"):
        raise NotStoodIn(f"{sorted(call.words - OF_TEXT)[0] if call.words - OF_TEXT else 'SEND without FROM'}: nothing stands for it")
    kept = [unit.text() for unit in call.options if unit.word in {"FROM", "LENGTH", "ERASE", "FREEKB", "RESP", "NOHANDLE"}]
    text = f"{', '.join(dropped)}: no effect" if is_text else "SEND TEXT, the data as text"
    second = call.argument("RESP2")
    return Stood([Line("EXEC", f"CICS SEND TEXT {' '.join(kept)}"), *([Line("XC", f"{with_length(second)},{second}")] if second else [])], text)


BY_WORD: dict[str, Callable[[Call], Stood | None]] = {
    "START": started, "RETRIEVE": retrieved, "ASKTIME": asked_time, "FORMATTIME": formatted_time, "ASSIGN": assigned, "DELAY": nothing,
    "DUMP": nothing, "ENTER": nothing, "TRACE": nothing}


def is_known_here(call: Call) -> bool:
    """Whether all that ADDRESS or ASSIGN asks is known without a stand-in."""
    known = {"ADDRESS": {"CWA", *ADDRESSES}, "ASSIGN": set(ASSIGNED_EXACTLY)}.get(call.command.name)
    units = [unit for unit in call.options[1:] if unit.word not in ("RESP", "NOHANDLE")]
    is_plain = call.command.name == "ADDRESS" or not call.has("RESP") and all(is_name(unit.argument or "") for unit in units)
    return known is not None and is_plain and all(unit.word in known for unit in units)


def other_command(call: Call) -> Stood | None:
    """What stands for one of these commands; none for others, and where the region has it."""
    name, words = call.command.name, call.words
    first = name.split()[0]
    if is_known_here(call):
        return None
    if first in BY_WORD:
        return BY_WORD[first](call)
    if first in ("WRITEQ", "READQ", "DELETEQ") and "TD" in words:
        return transient(call)
    if name == "ADDRESS" and not is_known_here(call):
        return addressed(call)
    stood = text_sent(call) if first == "SEND" and not words & {"MAP", "CONTROL", "PAGE"} else None
    return stood or without_second(call)


def without_second(call: Call) -> Stood | None:
    """A command of the region with RESP2, which gets zero."""
    second = call.argument("RESP2")
    if second is None or call.command.name not in OPTIONS or call.words & DROPPED:
        return None
    kept = [unit.text() for unit in call.command.units[1:] if unit.word != "RESP2"]
    return Stood([Line("EXEC", f"CICS {' '.join(kept)}"), Line("XC", f"{with_length(second)},{second}")], "RESP2 is 0")
