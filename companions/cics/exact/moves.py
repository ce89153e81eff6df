"""Moves and comparisons of storage: MVZ, MVN, MVCIN, MVO, MVCL, CLCL; CS, CDS."""
from cics.exact.site import NotExact, Site, call, touched, touched_source, touched_word
from cics.statements import Line

DOUBLE = 8  # bytes of two words


def bytes_of(site: Site) -> list[Line]:
    first, second = site.operands
    length = site.length(first)
    source = second if site.statement.operation != "MVCIN" else reversed_source(site, second, length)
    before = touched(site, first) + (touched_source(site, source, length) if source else [])
    return call(f"$X{site.statement.operation}", Line("MVC", ",".join(site.operands)), before=before)


def reversed_source(site: Site, text: str, length: int | None) -> str | None:
    """Where the bytes of the second operand of MVCIN begin, of which it has the last; none, where a displacement doesn't reach so far."""
    parts = site.parts(text)
    if length is None or text.startswith("="):
        return text
    if not parts.is_based():
        return f"{text}-{length - 1}"
    displacement = site.number(parts.first)
    if displacement is None or displacement < length - 1:
        return None
    return f"{displacement - length + 1}({parts.inside[0]})"


def half_bytes(site: Site) -> list[Line]:
    before = [line for text in site.operands for line in touched(site, text)]
    return call("$XMVO", Line("PACK", ",".join(site.operands)), before=before)


def long_of(site: Site) -> list[Line]:
    if site.pair(site.operands[0]) == site.pair(site.operands[1]):
        raise NotExact("one pair of registers twice")
    return call(f"$X{site.statement.operation}", Line("CR", ",".join(site.operands)))


def swapped(site: Site) -> list[Line]:
    site.register(site.operands[0], is_changed=True)
    site.register(site.operands[1])
    before = touched_word(site, site.operands[2])
    return call("$XCS", Line("LM", ",".join(site.operands)), before=before, is_interrupted=True)


def swapped_double(site: Site) -> list[Line]:
    site.pair(site.operands[0])
    site.pair(site.operands[1], is_changed=False)
    before = touched_source(site, site.operands[2], DOUBLE)
    return call("$XCDS", Line("LM", ",".join(site.operands)), before=before, is_interrupted=True)


FORMS = {"MVZ": bytes_of, "MVN": bytes_of, "MVCIN": bytes_of, "MVO": half_bytes, "MVCL": long_of, "CLCL": long_of, "CS": swapped,
         "CDS": swapped_double}
