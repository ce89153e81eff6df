"""SEND MAP, SEND CONTROL and RECEIVE MAP."""
from cics.stand_in.mapsets import Map, Mapset
from cics.stand_in.requests import Call, NotStoodIn, Request
from cics.statements import Line

SEND, RECEIVE, CONTROL = 0x1804, 0x1802, 0x1812
ERASE, MAPONLY, DATAONLY, SYMBOLIC, CURSOR, ERASEAUP, FRSET = 0x80, 0x40, 0x20, 0x10, 0x08, 0x04, 0x01
SET = 0x80  # of RECEIVE MAP

OF_ALL = {"RESP", "RESP2", "NOHANDLE", "TERMINAL"}
CONTROLS = {"FREEKB", "ALARM", "FRSET", "PRINT"}  # of a group: one of them takes the place of CTRL
PLACED = {"ERASE": ERASE, "ERASEAUP": ERASEAUP}
OF_SEND = {"SEND", "MAP", "MAPSET", "FROM", "LENGTH", "MAPONLY", "DATAONLY", "CURSOR", "WAIT", "LAST", *PLACED, *CONTROLS, *OF_ALL}
OF_CONTROL = {"SEND", "CONTROL", "CURSOR", "WAIT", "LAST", *PLACED, *CONTROLS, *OF_ALL}
OF_RECEIVE = {"RECEIVE", "MAP", "MAPSET", "INTO", "SET", "ASIS", *OF_ALL}
PAGES = dict.fromkeys(("ACCUM", "PAGING", "SET", "OUTPARTN", "ACTPARTN", "LDC", "REQID", "NLEOM", "FORMFEED", "HONEOM", "L40", "L64", "L80", "MSR",
                       "RELEASE", "RETAIN", "TRAILER", "HEADER", "JUSTIFY", "JUSFIRST", "JUSLAST", "AUTOPAGE", "FMHPARM"), "page")


def map_of(call: Call, mapsets: list[Mapset]) -> tuple[Mapset, Map]:
    """The map of a command, and its mapset, which has the map's name where none is given."""
    name = call.constant("MAP") or ""
    set_name = call.constant("MAPSET") or name
    mapset = next((one for one in mapsets if one.name == set_name), None)
    if mapset is None:
        raise NotStoodIn(f"MAPSET('{set_name}'): no such mapset was given by --bms", "map")
    found = mapset.map(name)
    if found is None:
        raise NotStoodIn(f"MAP('{name}'): no such map in {mapset.path}", "map")
    return mapset, found


def cursor_of(call: Call) -> tuple[int, list[Line]]:
    """The bit of CURSOR, and what is written for its place."""
    if not call.has("CURSOR"):
        return 0, []
    place = call.halfword(call.argument("CURSOR"))
    return (CURSOR, [Line("MVC", f"$SRCUR,{place}")]) if place else (SYMBOLIC, [])


def send_map(call: Call, mapsets: list[Mapset]) -> Request:
    call.only(OF_SEND, PAGES)
    mapset, found = map_of(call, mapsets)
    options = MAPONLY * call.has("MAPONLY") | DATAONLY * call.has("DATAONLY")
    for word, bit in PLACED.items():
        options |= bit * call.has(word)
    controls = call.words if call.words & CONTROLS else set(found.controls)
    options |= FRSET * ("FRSET" in controls)
    bit, before = cursor_of(call)
    arguments = {} if call.has("MAPONLY") else {0: call.argument("FROM") or f"{found.name}O"}
    return Request("SEND MAP", SEND, mapset.name, found.name, mapset.name, options | bit, arguments, before)


def receive_map(call: Call, mapsets: list[Mapset]) -> Request:
    call.only(OF_RECEIVE, {"FROM": "option", "MAPPINGDEV": "option"})
    mapset, found = map_of(call, mapsets)
    pointer = call.argument("SET")
    arguments = {} if pointer else {0: call.argument("INTO") or f"{found.name}I"}
    return Request("RECEIVE MAP", RECEIVE, mapset.name, found.name, mapset.name, SET * (pointer is not None), arguments, [], pointer)


def send_control(call: Call, mapsets: list[Mapset]) -> Request:
    call.only(OF_CONTROL, PAGES)
    options = FRSET * call.has("FRSET")
    for word, bit in PLACED.items():
        options |= bit * call.has(word)
    bit, before = cursor_of(call)
    if bit == SYMBOLIC:
        raise NotStoodIn("CURSOR without a place: there is no map", "option")
    if not mapsets:
        raise NotStoodIn("SEND CONTROL: a mapset has to be given by --bms, whose program does it", "map")
    return Request("SEND CONTROL", CONTROL, mapsets[0].name, "", "", options | bit, {}, before)
