"""Types each example, the lessons and those with looks too, line by line. Before the next line is typed the
program must have written the transcript up to the answer to the last action that was typed, and nothing else. Scripts with looks or RUN are
typed without the looks, and with the turns that each RUN did in its place; or, with --looks, to `cicslook` as they are, looks in a row
together."""
from collections import Counter
from collections.abc import Iterator
from functools import partial

from cics.child import Child, lines_of
from checks.common import Check, Counts, Wrong, require
from checks.examples import each_of, examples, has_looks, lessons, looks, plain, script_of, text_of, wanted
from checks.plain_scripts import answered


def answers(lines: list[str], transcript: list[str]) -> Iterator[tuple[list[str], bytes, bool]]:
    """What is typed at once, with how it is answered, and whether it is as it must be: of a block only the last line is answered."""
    for action in answered(lines, transcript):
        *front, last = [action.lines] if action.is_look() else [[line] for line in action.lines]
        yield from ((typed, b"", True) for typed in front)
        yield last, text_of(action.answer), action.is_answered()


def tried(program: str, is_plain: bool, name: str) -> Counts:
    """The lines of an example are answered as they are typed. After a line that has no answer though one is due, which a faulty one is,
    no more is typed."""
    script, whole = plain(name) if is_plain else (script_of(name), wanted(name))
    lines, written, count = lines_of(script.decode()), b"", 0
    with Child([program]) as session:
        for typed, answer, is_answered in answers(lines, whole.lines()):
            session.type(*typed)
            written, count = written + answer, count + bool(answer)
            session.read_to(len(written))
            if session.unread != written or not (is_answered or whole.status):
                raise Wrong(f"after {typed[-1]!r} {session.unread[-100:]!r} is written, not {answer!r}")
            if not is_answered:
                break
        ended = session.end()
    require(ended == whole, str(ended))
    return Counter({"answers to lines": count})


def main(words: list[str]) -> int:
    check = Check(__name__, __doc__, words, "cicsedf", flags={"looks": "type those with looks or RUN as they are"})
    is_plain = not check.has("looks")
    names = [name for name in examples() + looks() + lessons() if is_plain or has_looks(name)]
    return check.report(each_of(names, partial(tried, check.program(), is_plain)), {"answers to lines": 1})
