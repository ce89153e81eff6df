"""The command `cics-map`."""
import argparse
import json
import os
import re
import webbrowser

from cics.checking import sources_in
from cics.child import encoded
from cics.choices import DEPTH, MOST_DEPTH, MOST_STATES, choices_of, why_vacuous
from cics.cli import DONE, FOUND, MISUSED, STANDARD_INPUT, UNRUN, Failure, Words, ended, program_path, say, write_out
from cics.files import page_mark, write_file
from cics.key_runs import faultless
from cics.map.abends import abends_of
from cics.map.asking import STATES, Given, Subject, subject_of
from cics.map.page import MAKER, page_of
from cics.map.report import Map, data_of, lines_of_map
from cics.same import Fault

NAME = "cics-map"
OF_LINE = re.compile(r"line \d+: ")  # how it begins what is said of a line of the script


def words_of(about: str) -> Words:
    words = Words(NAME, about)
    words.add_argument("files", metavar="FILE", nargs="+", help="a script, whose name ends in .script, or sources; - for standard input")
    words.add_argument("-o", dest="out", metavar="FILE", help="the page's file, - for standard output; without it the map is written as lines")
    words.add_argument("--keys", metavar="FILE", help="the keys, a line each as KEY T001 ENTER {00101|ABCDE}; without it keys are proposed")
    words.add_argument("-n", dest="depth", metavar="N", type=int, help=f"lists of at most so many keys, 1 to {MOST_DEPTH} ({DEPTH})")
    words.add_argument("--states", metavar="M", type=int, help=f"at most so many states, 1 to {MOST_STATES} ({STATES})")
    words.add_argument("--one-number", action="store_true", help="each key begins with the same task number, so that fewer states differ")
    words.add_argument("--script", action="store_true", help="FILE is a script, whatever its name")
    words.add_argument("--tran", metavar="NAME=PROGRAM", action="append", default=[],
                       help="of sources: a transaction's name; else it is the first four characters of the program's")
    words.add_argument("--queue", metavar="NAME=FILE", action="append", default=[], help="of sources: test data, each line an item of the queue")
    words.add_argument("--json", action="store_true", help="an object with screens, states, keys and abends, in place of lines")
    words.add_argument("--open", action="store_true", help="has the browser open the page")
    words.add_force()
    words.add_program()
    return words


def checked(words: Words, given: argparse.Namespace) -> Given:
    """What the words give, where that can be."""
    for name, number, most in (("-n", given.depth, MOST_DEPTH), ("--states", given.states, MOST_STATES)):
        if number is not None and not 1 <= number <= most:
            words.error(f"{name}: a number from 1 to {most}")
    if given.json and given.out is not None:
        words.error("--json is written on standard output, so not with -o")
    return Given(given.depth, given.states, given.one_number)


def tell_proposals(subject: Subject) -> None:
    """Tells the keys that are proposed, as a file of keys has them."""
    if subject.proposals is None:
        return
    count, left_out = subject.proposals.count, subject.proposals.left_out
    cut = f", of {count + left_out} that there are" if left_out else ""
    ended(f"{NAME}: {count} keys are proposed{cut}; others may lead elsewhere. These lines, or your own in a file, are taken by --keys FILE:", DONE)
    for why, lines in subject.proposals.lines.items():
        for line in (f"* {why}", *lines):
            ended(line, DONE)
    for what in subject.proposals.missing:
        ended(f"* not proposed: {what}", DONE)


def told(subject: Subject, cicslook: str, why: str) -> str:
    """Why a script can't be done. Faults of its sources are told by their lines."""
    if OF_LINE.match(why) and not faultless(sources_in(subject.name, "\n".join(subject.text)), cicslook):
        return "there are faults, so nothing is asked"
    return why


def mapped(subject: Subject, cicslook: str) -> Map:
    """Asks, and looks where tasks abended."""
    asked = subject.asked()
    try:
        choices = choices_of([cicslook], asked.before, asked.block, [])
        if why := why_vacuous([choices]):
            raise Failure(f"{subject.name}: {why}", MISUSED)
        abends = abends_of(cicslook, subject, choices)
    except Fault as why:
        raise Failure(f"{subject.name}: {told(subject, cicslook, str(why))}", FOUND) from None
    return Map(subject, choices, abends)


def written(found: Map, given: argparse.Namespace) -> None:
    """Writes the page, or the map as an object or as lines."""
    if given.out is None:
        say(*([json.dumps(data_of(found), indent=1)] if given.json else lines_of_map(found)))
        return
    page = encoded(page_of(found))
    if given.out == STANDARD_INPUT:
        write_out(page)
        return
    write_file(given.out, page, page_mark(MAKER).why_kept, "-o", is_forced=given.force)
    if given.open:
        webbrowser.open(f"file://{os.path.abspath(given.out)}")


def main(about: str) -> int:
    words = words_of(about)
    given = words.parse_args()
    wanted = checked(words, given)
    cicslook = program_path(given.cicslook, "cicslook")
    subject = subject_of(given.files, given.keys, wanted, given.tran, given.queue, cicslook, is_script=given.script)
    tell_proposals(subject)
    found = mapped(subject, cicslook)
    written(found, given)
    return FOUND if found.abends else UNRUN if found.choices.most is not None else DONE
