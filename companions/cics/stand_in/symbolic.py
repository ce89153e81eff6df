"""Members of COPY that CICS supplies or its macros make: symbolic maps, and the attributes of DFHBMSCA."""
from cics.stand_in.mapsets import EXTENDED, PREFIX, Field, Map, Mapset

BMSCA = {
    "DFHBMPEM": 0x19, "DFHBMPNL": 0x15, "DFHBMASK": 0xF0, "DFHBMUNP": 0x40, "DFHBMUNN": 0x50, "DFHBMPRO": 0x60, "DFHBMBRY": 0xC8, "DFHBMDAR": 0x4C,
    "DFHBMFSE": 0xC1, "DFHBMPRF": 0x61, "DFHBMASF": 0xF1, "DFHBMASB": 0xF8, "DFHBMPSO": 0x0E, "DFHBMPSI": 0x0F, "DFHBMEOF": 0x80, "DFHBMDET": 0xFF,
    "DFHSA": 0x28, "DFHERROR": 0x3F, "DFHCOLOR": 0x42, "DFHPS": 0x43, "DFHHLT": 0x41, "DFH3270": 0xC0, "DFHVAL": 0xC1, "DFHALL": 0x00, "DFHDFT": 0xFF,
    "DFHDFCOL": 0x00, "DFHBLUE": 0xF1, "DFHRED": 0xF2, "DFHPINK": 0xF3, "DFHGREEN": 0xF4, "DFHTURQ": 0xF5, "DFHYELLO": 0xF6, "DFHNEUTR": 0xF7,
    "DFHBASE": 0x00, "DFHDFHI": 0x00, "DFHBLINK": 0xF1, "DFHREVRS": 0xF2, "DFHUNDLN": 0xF4, "DFHMFIL": 0x04, "DFHMENT": 0x02, "DFHMFE": 0x06,
    "DFHUNNOD": 0x4D, "DFHUNIMD": 0xC9, "DFHUNNUM": 0xD1, "DFHUNINT": 0xD9, "DFHUNNON": 0x5D, "DFHPROTI": 0xE8, "DFHPROTN": 0x6C}


def attributes() -> list[str]:
    """DFHBMSCA."""
    return ["* DFHBMSCA: ATTRIBUTES OF FIELDS", *(f"{name:<8} EQU   X'{code:02X}'" for name, code in BMSCA.items())]


def line(name: str, operand: str) -> str:
    return f"{name:<8} DS    {operand}"


def fields_of(one: Field, extended: list[str]) -> list[str]:
    """A field's names: those of its length, flag, attribute, input and output; of a group also those of its parts."""
    named = [line(f"{one.name}{EXTENDED[word]}", "C") for word in extended]
    lines = [line(f"{one.name}L", "CL2"), line(f"{one.name}F", "0C"), line(f"{one.name}A", "C"), *named]
    if not one.parts:
        lines += [line(f"{one.name}I", f"0CL{one.length}"), line(f"{one.name}O", f"CL{one.length}")] if one.length else []
    else:
        lines += [line(f"{one.name}I", f"0CL{one.length}"), line(f"{one.name}O", f"0CL{one.length}")]
        at = 0
        for part in one.parts:
            lines += [line("", f"CL{part.begin - at}")] if part.begin > at else []
            lines += [line(f"{part.name}I", f"0CL{part.length}"), line(f"{part.name}O", f"CL{part.length}")] if part.name else [line("",
                f"CL{part.length}")]
            at = part.begin + part.length
    if one.occurs > 1:
        size = 3 + len(extended) + one.length
        lines = [line(f"{one.name}D", f"0CL{size}"), *lines, line("", f"{one.occurs - 1}CL{size}")]
    return lines


def map_lines(of_map: Map) -> list[str]:
    lines = [line(f"{of_map.name}{letter}", "0C") for letter in "SIO"]
    lines += [line("", f"CL{PREFIX}")] if of_map.has_prefix else []
    lines += [text for one in of_map.named() for text in fields_of(one, of_map.extended)]
    return [*lines, f"{of_map.name + 'E':<8} EQU   *", f"{of_map.name + 'L':<8} EQU   {of_map.name}E-{of_map.name}S"]


def symbolic_maps(mapset: Mapset) -> list[str]:
    """The symbolic maps, one after the other; without STORAGE=AUTO over one another."""
    lines = [f"* SYMBOLIC MAPS OF {mapset.name}"]
    is_over = mapset.is_overlaid and len(mapset.maps) > 1
    for at, one in enumerate(mapset.maps):
        lines += [f"         ORG   {mapset.maps[0].name}S"] if is_over and at else []
        lines += map_lines(one)
    return [*lines, *(["         ORG"] if is_over else [])]
