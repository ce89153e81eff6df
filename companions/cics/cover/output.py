"""The words by which a report of what was run is asked for, and where it is written."""
import argparse

from cics.cli import FOUND, Words, ended
from cics.child import encoded
from cics.cover.counts import Coverage
from cics.cover.page import MAKER, page_of
from cics.cover.report import LCOV, lcov_of
from cics.files import page_mark, write_file


def add_files(words: Words, when: str = "") -> None:
    """The words for files."""
    words.add_argument("--html", metavar="FILE", help=f"{when}a page with the sources, their counts in the margin")
    words.add_argument("--lcov", metavar="FILE", help=f"{when}the counts in lcov's format")
    words.add_force()


def write_files(given: argparse.Namespace, coverage: Coverage) -> None:
    """Writes the files that are asked for."""
    if given.html is not None:
        write_file(given.html, encoded(page_of(coverage)), page_mark(MAKER).why_kept, "--html", is_forced=given.force)
    if given.lcov is not None:
        write_file(given.lcov, lcov_of(coverage), LCOV.why_kept, "--lcov", is_forced=given.force)


def tell_faults(name: str, coverage: Coverage) -> None:
    """Tells which scripts don't count."""
    for script, why in coverage.faults.items():
        ended(f"{name}: {script}: {why}", FOUND)
