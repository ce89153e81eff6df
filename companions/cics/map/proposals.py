"""Keys that are proposed where none are given: by what the sources compare with what an operator types. They are no more than that: proposals."""
import itertools
from collections.abc import Iterable, Iterator, Sequence
from dataclasses import dataclass, field

from cics.cover.written import written_lines
from cics.key_names import AIDS
from cics.map.compared import Found, compared_in
from cics.map.fields import MapField, typed_into
from cics.statements import statements_of
from cics.texts import is_decimal

MOST = 100  # keys that are proposed: fewer than a block may have
MOST_TOGETHER = 48  # texts of an input whose places are varied together; of more, one place after the other is
SPECIAL = "{}|#"  # characters that have a meaning in a set
OTHER, NINE = "Z", "9"  # of a text that is none of those with which a place is compared


@dataclass(frozen=True)
class Program:
    """A program: its source's lines, and the transactions that begin with it."""

    name: str
    lines: list[str]
    transactions: list[str]


@dataclass(frozen=True)
class Proposal:
    """Keys, each as it stands after the terminal, and by what they are proposed."""

    why: str
    keys: list[str]


@dataclass(frozen=True)
class Span:
    """A place of an input, so many characters from there on, and what may stand there."""

    at: int
    length: int
    texts: list[str]


@dataclass
class Proposed:
    """What is proposed: of each reason the block's lines; how many keys were left out; and what isn't proposed."""

    lines: dict[str, list[str]] = field(default_factory=dict)
    count: int = 0
    left_out: int = 0
    missing: list[str] = field(default_factory=list)

    def all_lines(self) -> list[str]:
        return [line for lines in self.lines.values() for line in lines]


def others(texts: list[str], length: int) -> list[str]:
    """Texts that are none of some: letters, and where those are numbers a number."""
    wanted = [OTHER * length, *([NINE * length] if all(map(is_decimal, texts)) else [])]
    return [text for text in wanted if text not in texts]


def spans_of(found: Found) -> list[Span]:
    """The places that are compared, each with its texts and what is none of them; of a number its shortest form too."""
    texts: dict[tuple[int, int], list[str]] = {}
    for one in found.texts:
        here = texts.setdefault((one.at, len(one.text)), [])
        if one.text not in here:
            here.append(one.text)
    for at, digits in found.numbers:
        texts.setdefault((at, digits), []).extend([f"{1:0{digits}}", "1"])
    return [Span(at, length, [*dict.fromkeys(all_of), *others(all_of, length)]) for (at, length), all_of in sorted(texts.items())]


def layers_of(spans: Iterable[Span]) -> list[list[Span]]:
    """Places that don't overlap, together; one that does is put elsewhere."""
    layers: list[list[Span]] = []
    for span in spans:
        free = next((layer for layer in layers if layer[-1].at + layer[-1].length <= span.at), None)
        if free is None:
            layers.append([span])
        else:
            free.append(span)
    return layers


def together(layer: list[Span]) -> Iterator[list[str]]:
    """The ways to choose a text of each place: all of them, or of one place after the other."""
    ways = 1
    for span in layer:
        ways *= len(span.texts)
    if ways <= MOST_TOGETHER:
        yield from map(list, itertools.product(*(span.texts for span in layer)))
        return
    for at, span in enumerate(layer):
        for text in span.texts:
            yield [text if number == at else one.texts[0] for number, one in enumerate(layer)]


def inputs_of(layer: list[Span], transactions: list[str]) -> Iterator[str]:
    """The texts that an operator types to have texts at these places: in front of them stands the transaction, where there is room."""
    for chosen in together(layer):
        for begin in beginnings(layer[0].at, transactions):
            text = begin
            for span, one in zip(layer, chosen):
                text = text.ljust(span.at) + one
            yield text.rstrip()


def beginnings(length: int, transactions: list[str]) -> list[str]:
    """What stands in front of a place of the input: the transactions that end with a blank there; or else those that fit, or nothing."""
    exact = [name for name in transactions if len(name) + 1 == length]
    return exact or [*(name for name in transactions if len(name) < length), ""]


def place_of(program: Program, lines: Iterable[int]) -> str:
    """A program with the lines that propose something."""
    numbers = [*map(str, sorted({*lines}))]
    return program.name + (f", line{'s' if len(numbers) > 1 else ''} {', '.join(numbers)}" if numbers else "")


def of_program(program: Program, all_transactions: list[str]) -> Iterator[Proposal]:
    """What a source's compares propose."""
    found = compared_in(program.lines)
    yield Proposal(f"{place_of(program, found.aids.values())}: EIBAID is compared", [aid for aid in found.aids if aid != "ENTER"])
    for layer in layers_of(spans_of(found)):
        where = place_of(program, [one.line for one in found.texts if any(span.at == one.at for span in layer)])
        keys = [f"ENTER {text}".rstrip() for text in inputs_of(layer, program.transactions or all_transactions)]
        yield Proposal(f"{where}: texts with which the input is compared, or numbers that are made of it, and others", keys)
    if found.has_input:
        yield Proposal("ENTER without a text", ["ENTER"])


def spoilt(text: str, transactions: list[str]) -> Iterator[str]:
    """A text that is typed, spoilt: cut short by a character, without what is typed behind the transaction, longer by one, and with a letter as
    its last digit. A transaction alone isn't."""
    head = next((name for name in transactions if f"{text} ".startswith(f"{name} ")), "")
    if text in ("", head):
        return
    yield text[:-1].rstrip()
    yield head
    yield text + (NINE if is_decimal(text[-1]) else OTHER)
    if is_decimal(text[-1]):
        yield text[:-1] + OTHER


def of_texts(keys: Iterable[str], transactions: list[str]) -> list[str]:
    """Spoilt texts of keys, but of those that type into fields of maps."""
    texts = (key.removeprefix("ENTER ") for key in keys if key.startswith("ENTER ") and "=" not in key)
    return [f"ENTER {one}".rstrip() for text in texts for one in spoilt(text, transactions)]


def proposals_of(programs: list[Program], transactions: list[str], own: list[str], fields: Sequence[MapField]) -> Iterator[Proposal]:
    """All that is proposed, in order: transactions, the script's own keys, what each source compares, and what is typed into fields; and texts
    of all these, spoilt."""
    found = [Proposal("the transactions", [f"ENTER {name}" for name in transactions]), Proposal("the script's own keys", own)]
    found += [one for program in programs for one in of_program(program, transactions)]
    if fields:
        found.append(Proposal("fields of maps: full, one short, of one character, of the other kind, and erased; and all together",
                              [f"ENTER {text}" for text in typed_into(fields)]))
    yield from found
    yield Proposal("these texts cut short, left out, too long, and with a letter for a digit", of_texts((key for one in found for key in one.keys), transactions))


def missing_of(program: Program) -> Iterator[str]:
    """What a source does with its input that proposes nothing."""
    found = compared_in(program.lines)
    if found.has_input and not found.texts and not found.numbers:
        yield f"{program.name}: a text, though it receives one, since it compares that with no constant"
    written = written_lines(program.lines)
    lines = [one.origin.number for one in statements_of(program.lines, "") if one.operation in ("TRT", "TR") and one.origin.number not in written]
    if lines:
        yield f"{place_of(program, lines)}: what TRT or TR looks for in the input"


def missing(programs: list[Program], proposed_keys: set[str], fields: Sequence[MapField], left_out: int) -> list[str]:
    """What isn't proposed, as far as it is known."""
    aids = [aid for aid in AIDS if aid not in {key.split(" ")[0] for key in proposed_keys}]
    found = [line for program in programs for line in missing_of(program)]
    found += [f"{left_out} keys more than {MOST} that what is found would propose"] if left_out else []
    found += [f"{', '.join(aids)}: no source compares EIBAID with them"] if aids else []
    found += ["more than a field has, since no keyboard types that; values in several fields, but for the first of each"] if fields else []
    return [*found, "texts as records, queues and COMMAREAs have them, and all others"]


def is_safe(key: str) -> bool:
    """Whether a key can stand in a set as it is."""
    return not set(key) & set(SPECIAL)


def lines_for(terminals: list[str], keys: list[str]) -> Iterator[str]:
    """The lines of a block for keys: as sets, where that can be."""
    terminal = f"{{{'|'.join(terminals)}}}" if len(terminals) > 1 and all(map(is_safe, terminals)) else None
    for at in [terminal] if terminal else terminals:
        texts = [key.removeprefix("ENTER ") for key in keys if key.startswith("ENTER ") and is_safe(key)]
        yield from (f"KEY {at} {key}" for key in keys if not key.startswith("ENTER ") or not is_safe(key))
        if texts:
            yield f"KEY {at} ENTER {texts[0] if len(texts) == 1 else '{' + '|'.join(texts) + '}'}"


def proposed(programs: list[Program], transactions: list[str], terminals: list[str], own: list[str], fields: Sequence[MapField] = ()) -> Proposed:
    """The keys that are proposed, each once, at each terminal; not more than some, of which it is known how many more there were."""
    result, seen = Proposed(), set[str]()
    for one in proposals_of(programs, transactions, own, fields):
        new = [key for key in dict.fromkeys(one.keys) if key not in seen and key.split(" ")[0] in AIDS]
        room = max(0, (MOST - result.count) // max(1, len(terminals)))
        kept = new[:room]
        seen |= {*new}
        result.count += len(kept) * len(terminals)
        result.left_out += (len(new) - len(kept)) * len(terminals)
        if kept:
            result.lines.setdefault(one.why, []).extend(lines_for(terminals, kept))
    result.missing = missing(programs, seen, fields, result.left_out)
    return result
