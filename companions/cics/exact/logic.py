"""Logic: OC, NC, XI, N, O, X, NR, OR, CLM, TS."""
from cics.constants import item_of, size_of
from cics.exact.arithmetic import registers, word
from cics.exact.site import NotExact, Site, call, touched_word
from cics.statements import Line

ODD_SPACE = "$XI"  # four bytes that no routine keeps from one call to the next


def bytes_of(site: Site) -> list[Line]:
    """OC, NC, whose operands are compared at the statement; of a field with itself, for one or two bytes, by OI; with a
    byte that is known by OI or NI."""
    length = site.length(site.operands[0])
    first, second = (site.parts(text) for text in site.operands)
    if length in (1, 2) and first.first == second.first and not second.is_based() and len(first.inside) < 2:
        end = [Line("BNZ", "*+8"), Line("OI", f"{first.first}+1,0")] if length == 2 else []
        return [Line("OI", f"{first.first},0"), *end]
    mask = one_byte(site.operands[1]) if length == 1 else None
    if mask is not None:
        address = site.address(site.operands[0])
        return [Line("OI" if site.statement.operation == "OC" else "NI", f"{address},{mask}")]
    return call(f"$X{site.statement.operation}", before=[Line("CLC", ",".join(site.operands))])


def one_byte(text: str) -> str | None:
    """The byte that a literal begins with, as a term; none where it isn't known so."""
    item = item_of(text[1:]) if text.startswith("=") else None
    if item is None or item.kind not in "XBC" or item.modifier or item.duplication not in ("", "1") or size_of(item, None).copy != 1:
        return None
    return f"{item.kind}{item.value}"


def exclusive_byte(site: Site) -> list[Line]:
    """XI, by XC of a literal."""
    return [Line("XC", f"{site.bytes_at(site.operands[0])},=AL1({site.operands[1]})")]


def exclusive_word(site: Site) -> list[Line]:
    """X, by XC in storage, where there is no index."""
    register, address = site.operands
    site.register(register, is_changed=True)
    parts = site.parts(address)
    if len(parts.inside) == 2 and not parts.inside[0]:
        address = f"{parts.first}({parts.inside[1]})"
    elif parts.is_based():
        return call("$XX", Line("L", f"{register},{address}"), before=touched_word(site, address))
    return [Line("ST", f"{register},{ODD_SPACE}"), Line("XC", f"{ODD_SPACE}(4),{address}"), Line("L", f"{register},{ODD_SPACE}")]


def masked(site: Site) -> list[Line]:
    """CLM, by STCM and CLC."""
    register, mask, address = site.operands
    bits = site.number(mask)
    if bits is None or not 1 <= bits <= 15:
        raise NotExact(f"{mask}: no mask that is known before, or none of its bits")
    return [Line("STCM", f"{register},{mask},{ODD_SPACE}"), Line("CLC", f"{ODD_SPACE}({bits.bit_count()}),{address}")]


def tested(site: Site) -> list[Line]:
    address, = site.operands
    return [Line("MVC", f"{ODD_SPACE}(1),{address}"), Line("NI", f"{ODD_SPACE},X'80'"), Line("MVI", f"{address},X'FF'")]


FORMS = {"OC": bytes_of, "NC": bytes_of, "XI": exclusive_byte, "N": word, "O": word, "X": exclusive_word, "NR": registers, "OR": registers,
         "CLM": masked, "TS": tested}
