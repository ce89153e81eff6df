"""Sources whose lines double, and the tables of what they take."""
from collections.abc import Callable, Sequence

from cics.cli import say
from checks.assembling import line_of
from checks.measuring import growth

SIZES = (1250, 2500, 5000, 10000)


def labels(count: int) -> list[str]:
    """Lines with a name and a full word."""
    return [line_of(f"L{k}", "DS", "F") for k in range(count)]


def equates(count: int) -> list[str]:
    """EQUs, each on the name of the one before."""
    return [line_of("E0", "EQU", "1"), *(line_of(f"E{k}", "EQU", f"E{k - 1}") for k in range(1, count))]


def comments(count: int) -> list[str]:
    return ["* A COMMENT OF THE SOURCE"] * count


def forward(count: int) -> list[str]:
    """Addresses of labels that stand further on."""
    half = count // 2
    return [line_of("", "DC", f"A(N{k})") for k in range(half)] + [line_of(f"N{k}", "DS", "F") for k in range(count - half)]


def head(last: str) -> None:
    """Prints the head of a table of milliseconds, one row a kind."""
    say(f"{'':12}" + "".join(f"{count:>10,}" for count in SIZES) + f"   growth{last}")


def row(kind: Callable[..., object], milliseconds: Sequence[float], last: object) -> None:
    """Prints the row of a kind, with the growth for twice as many lines."""
    shown = " ".join(growth(milliseconds))
    say(f"{kind.__name__:12}" + "".join(f"{it:10.2f}" for it in milliseconds) + f"   {shown:15} {last}")
