"""The manual as one HTML page: its pages one after the other, each link to a page or a heading one within."""
import re
import shutil
import subprocess
from dataclasses import dataclass

from cics.cli import Failure

LINK = re.compile(r"\]\((?P<page>[A-Za-z0-9/_.-]*\.md)?(?:#(?P<heading>[a-z0-9_-]+))?\)")
FIRST = "docs/README.md"
STYLE = ("body{max-width:60em;margin:2em auto;padding:0 1em;font:16px/1.5 sans-serif}pre,code{font:14px/1.35 monospace}pre{overflow:auto;"
         "background:#f4f4f4;padding:.6em}table{border-collapse:collapse}td,th{border:1px solid #bbb;padding:.2em .5em;vertical-align:top;"
         "text-align:left}@media(prefers-color-scheme:dark){body{background:#111;color:#ddd}pre{background:#222}a{color:#8bf}}")


@dataclass(frozen=True)
class Page:
    """A page of the manual: its path from the top, and its text."""

    path: str
    text: str


def ordered(pages: list[Page]) -> list[Page]:
    """The pages in the order in which the manual's first one names them, then those that it doesn't name."""
    texts = {page.path: page for page in pages}
    found = [FIRST] if FIRST in texts else []
    for path in found:
        for link in LINK.finditer(texts[path].text):
            target = resolved(path, link["page"] or "")
            if target in texts and target not in found:
                found.append(target)
    return [texts[path] for path in [*found, *sorted(set(texts) - set(found))]]


def resolved(path: str, link: str) -> str:
    """The path from the top of what a page links to."""
    parts = path.split("/")[:-1]
    for part in link.split("/"):
        if part == "..":
            parts = parts[:-1]
        elif part != ".":
            parts.append(part)
    return "/".join(parts)


def mark(path: str, heading: str = "") -> str:
    """The name by which the one page has a page, or a heading of it."""
    name = path.removeprefix("docs/").removesuffix(".md").lower().replace("/", "-")
    return f"{name}--{heading}" if heading else name


def anchor(heading: str) -> str:
    """A heading's anchor, as Markdown's pages have it."""
    kept = re.sub(r"[^\w\- ]", "", heading.strip().lower().replace("`", ""))
    return kept.replace(" ", "-")


def within(page: Page, paths: set[str]) -> str:
    """A page's text with its headings marked, and its links as those of the one page."""
    lines: list[str] = [f'<a id="{mark(page.path)}"></a>', ""]
    for line in page.text.splitlines():
        if heading := re.fullmatch(r"#+ (.*)", line):
            lines += [f'<a id="{mark(page.path, anchor(heading[1]))}"></a>', ""]
        lines.append(line if line.startswith("    ") else LINK.sub(lambda found: link_within(page.path, found, paths), line))
    return "\n".join(lines)


def link_within(path: str, found: re.Match[str], paths: set[str]) -> str:
    if not found["page"] and not found["heading"]:
        return found[0]
    target = resolved(path, found["page"]) if found["page"] else path
    return f"](#{mark(target, found['heading'] or '')})" if target in paths else found[0]


def converter() -> list[str]:
    """The command that makes HTML of Markdown on standard input."""
    commands = [["pandoc", "-f", "gfm", "-t", "html", "--wrap=none"], ["cmark-gfm", "--unsafe", "-e", "table"], ["cmark", "--unsafe"]]
    found = next((command for command in commands if shutil.which(command[0])), None)
    if found is None:
        raise Failure("neither pandoc nor cmark is installed: apt-get install pandoc")
    return found


def cells_of(row: str) -> list[str]:
    return [cell.strip() for cell in row.strip().removeprefix("|").removesuffix("|").split(" | ")]


def with_tables(text: str) -> str:
    """Markdown with its tables as HTML, for a converter that has none; their cells stay Markdown."""
    found: list[str] = []
    lines = text.split("\n")
    for at, line in enumerate(lines):
        if not line.startswith("|"):
            found.append(line)
            continue
        is_first, is_last = not lines[at - 1].startswith("|"), not "".join(lines[at + 1 : at + 2]).startswith("|")
        cells = [f"<td>\n\n{cell}\n\n</td>" for cell in cells_of(line)]
        row = [] if line.startswith("|--") else ["<tr>", *cells, "</tr>"]
        found += [*(["<table>"] if is_first else []), *row, *(["</table>", ""] if is_last else [])]
    return "\n".join(found)


def one_page(pages: list[Page], title: str) -> bytes:
    paths, command = {page.path for page in pages}, converter()
    text = "\n\n".join(within(page, paths) for page in ordered(pages))
    given = with_tables(text) if command[0] == "cmark" else text
    ran = subprocess.run(command, input=given.encode(), capture_output=True, check=False)
    if ran.returncode:
        raise Failure(f"{command[0]}: {ran.stderr.decode(errors='replace').strip()}")
    head = f'<!DOCTYPE html>\n<html lang="en"><head><meta charset="utf-8"><title>{title}</title><style>{STYLE}</style></head><body>\n'
    return head.encode() + ran.stdout + b"</body></html>\n"
