"""Packed decimals: AP, SP, ZAP, CP, MP, DP, SRP; ED, EDMK."""
from cics.exact.site import NotExact, Site, call, call_of_fields, touched, touched_source
from cics.statements import Line

MOST_DIVISOR, MOST_BYTES = 8, 16  # bytes of a multiplier or a divisor, and of any packed field


def packed_length(site: Site, text: str) -> int:
    length = site.length(text)
    if length is None:
        raise NotExact(f"{text}: its length isn't known before")
    if not 1 <= length <= MOST_BYTES:
        raise NotExact(f"{text}: {length} bytes are no packed field")
    return length


def sum_of(site: Site) -> list[Line]:
    first, second = (packed_length(site, text) for text in site.operands)
    return call_of_fields(f"$X{site.statement.operation}", site, (first, second))


def product(site: Site) -> list[Line]:
    """MP, DP. The lengths that the processor refuses are left."""
    first, second = (packed_length(site, text) for text in site.operands)
    if second > MOST_DIVISOR or first <= second:
        raise NotExact("lengths that are interruption 6")
    return sum_of(site)


def shifted(site: Site) -> list[Line]:
    """SRP: what is added to round is coded as the second length."""
    first, second, third = site.operands
    added = site.number(third)
    if added is None or not 0 <= added <= 9:
        raise NotExact(f"{third}: no digit that is known before")
    parts = site.parts(second)
    if site.number(parts.first) is None:
        raise NotExact(f"{second}: no number of places that is known before")
    base = parts.inside[-1] if parts.inside else "0"
    packed_length(site, first)
    return call("$XSRP", Line("PACK", f"{first},{parts.first}({added + 1},{base})"), before=touched(site, first), is_interrupted=True)


def edited(site: Site) -> list[Line]:
    encoded = Line("MVC", ",".join(site.operands))
    before = touched(site, site.operands[0]) + touched_source(site, site.operands[1], 1)
    return call(f"$X{site.statement.operation}", encoded, before=before, is_interrupted=True)


FORMS = {"AP": sum_of, "SP": sum_of, "ZAP": sum_of, "CP": sum_of, "MP": product, "DP": product, "SRP": shifted, "ED": edited, "EDMK": edited}
