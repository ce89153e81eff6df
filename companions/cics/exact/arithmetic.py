"""Sums, products and shifts of registers, and branches: AL, ALR, SL, SLR, MH, LPR, LNR, SLDL, SRDL, SLDA, BXLE, BXH, BAS, BASR."""
from cics.exact.site import AFTER, NotExact, Site, call, touched_word
from cics.statements import Line


def word(site: Site) -> list[Line]:
    """AL, SL, N, O; MH."""
    site.register(site.operands[0], is_changed=True)
    operation = site.statement.operation
    length = 2 if operation == "MH" else 4
    encoded = Line("LH" if operation == "MH" else "L", ",".join(site.operands))
    return call(f"$X{operation}", encoded, before=touched_word(site, site.operands[1], length))


def registers(site: Site) -> list[Line]:
    """ALR, SLR, NR, OR; a register less itself is zero, with the code of no borrow, 2."""
    first = site.register(site.operands[0], is_changed=True)
    if site.register(site.operands[1]) == first and site.statement.operation == "SLR":
        text = site.operands[0]
        return [Line("LA", f"{text},1"), Line("LTR", f"{text},{text}"), Line("LA", f"{text},0")]
    return call(f"$X{site.statement.operation}", Line("LR", ",".join(site.operands)))


def signed(site: Site) -> list[Line]:
    first, second = site.operands
    site.register(first, is_changed=True)
    site.register(second)
    branch = "BNM" if site.statement.operation == "LPR" else "BNP"
    return [Line("LTR", f"{first},{second}"), Line(branch, "*+6"), Line("LCR", f"{first},{first}")]


def pair_shifted(site: Site) -> list[Line]:
    site.pair(site.operands[0])
    return call(f"$X{site.statement.operation}", Line("SRDA", ",".join(site.operands)))


def counted(site: Site) -> list[Line]:
    """BXLE, BXH: one way back for the branch, and one without it."""
    first, third, address = site.operands
    register = site.register(first, is_changed=True)
    site.register(third)
    used = {site.number(part) for part in site.parts(address).inside}
    if register in used:
        raise NotExact("it branches by the register that it changes")
    branch = [Line("LM", ",".join(site.operands)), Line("L", "14,$X14"), Line("B", address)]
    return call(f"$X{site.statement.operation}", *branch)


def linked(site: Site) -> list[Line]:
    first, address = site.operands
    register = site.register(first, is_changed=True)
    if register in {site.number(part) for part in site.parts(address).inside if part}:
        raise NotExact("it branches by the register that it changes")
    return [Line("LA", f"{first},{AFTER}"), Line("B", address)]


def linked_by_register(site: Site) -> list[Line]:
    first, second = (site.register(text) for text in site.operands)
    if first in (0, 13) or first == second:
        raise NotExact("of register 0 or 13, or of one register twice")
    return [Line("LA", f"{site.operands[0]},{AFTER}"), *([Line("BR", site.operands[1])] if second else [])]


FORMS = {"AL": word, "SL": word, "MH": word, "ALR": registers, "SLR": registers, "LPR": signed, "LNR": signed, "SLDL": pair_shifted,
         "SRDL": pair_shifted, "SLDA": pair_shifted, "BXLE": counted, "BXH": counted, "BAS": linked, "BASR": linked_by_register}
