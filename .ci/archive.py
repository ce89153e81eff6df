"""The archive of a release: what is in it, and how it is written, so that the same content gives the same bytes."""
import gzip
import hashlib
import io
import os
import re
import subprocess
import tarfile
from dataclasses import dataclass

from believed_lines import page_of
from cics.child import PROGRAMS, TOP
from cics.cli import Failure
from manual import Page, one_page
from promised import Promised
from trusted import Believed

FOLDERS = ("companions/", "completion/", "docs/", "examples/")
SINGLE = ("README.md", "VERSION", ".ci/MEASURED.md", ".ci/assumed.list")  # the last two since pages link to them
LEFT_OUT = re.compile(r"companions/tests?(/|$)|docs/(man/|(index|made)$)")
MAN = re.compile(r"docs/man/(?P<name>[a-z-]+\.1)$")
VERSIONS = re.compile(r"\(?(GLIBC(?:XX)?_[0-9.]+|GCC_[0-9.]+)\)?")


@dataclass(frozen=True)
class Content:
    """A file of the archive: its path under the archive's folder. One that is a link has the path to which it leads as its data."""

    path: str
    data: bytes
    is_executable: bool = False
    is_link: bool = False


def file_content(path: str) -> Content:
    full = os.path.join(TOP, path)
    with open(full, "rb") as file:
        return Content(path, file.read(), os.access(full, os.X_OK))


def of_repository(paths: list[str]) -> list[Content]:
    """What a release has of the repository's files: companions, examples, the manual, and pages of man."""
    found = [file_content(path) for path in paths if (path in SINGLE or path.startswith(FOLDERS)) and not LEFT_OUT.search(path)]
    for path in paths:
        if page := MAN.fullmatch(path):
            found.append(Content(f"man/man1/{page['name']}", file_content(path).data))
            found.append(Content(path, f"../../man/man1/{page['name']}".encode(), is_link=True))  # where the manual's pages link to it
    return found


def made_pages() -> list[Content]:
    """The pages that the repository makes on demand, by `docs/made promises` and `docs/made definitions`."""
    pages = {"PROMISES": Promised(TOP).page(), "DEFINITIONS": page_of(Believed(TOP).crates)}
    return [Content(f"docs/{name}.md", text.encode()) for name, text in pages.items()]


def manual_of(contents: list[Content], version: str) -> Content:
    pages = [Page(one.path, one.data.decode()) for one in contents if one.path.startswith("docs/") and one.path.endswith(".md")]
    return Content("docs/manual.html", one_page(pages, f"cicsedf {version}"))


def programs_of(paths: dict[str, str]) -> list[Content]:
    """The programs, and links from where the manual's commands have them."""
    found = []
    for name in PROGRAMS:
        with open(paths[name], "rb") as file:
            found.append(Content(f"bin/{name}", file.read(), True))
        found.append(Content(f"crates/{name}/out/{name}", f"../../../bin/{name}".encode(), is_link=True))
    return found


def needed_of(path: str) -> list[str]:
    """The versions of the C library's symbols that a program needs, by objdump."""
    try:
        ran = subprocess.run(["objdump", "-T", path], capture_output=True, text=True, check=False)
    except OSError:
        raise Failure("objdump isn't installed: apt-get install binutils") from None
    if ran.returncode:
        raise Failure(f"objdump: {ran.stderr.strip()}")
    return sorted(set(VERSIONS.findall(ran.stdout)), key=lambda version: [int(part) for part in re.findall(r"\d+", version)])


def sums_of(contents: list[Content]) -> Content:
    files = sorted((one for one in contents if not one.is_link), key=lambda one: one.path)
    lines = [f"{hashlib.sha256(one.data).hexdigest()}  {one.path}\n" for one in files]
    return Content("SHA256SUMS", "".join(lines).encode())


def packed(folder: str, contents: list[Content], time: int) -> bytes:
    """The archive's bytes: its files in the order of their paths, all of one time and of no owner."""
    raw = io.BytesIO()
    with tarfile.open(fileobj=raw, mode="w", format=tarfile.USTAR_FORMAT) as archive:
        for one in sorted([*contents, sums_of(contents)], key=lambda one: one.path):
            entry = tarfile.TarInfo(f"{folder}/{one.path}")
            entry.mtime, entry.mode = time, 0o755 if one.is_executable else 0o644
            if one.is_link:
                entry.type, entry.linkname = tarfile.SYMTYPE, one.data.decode()
            else:
                entry.size = len(one.data)
            archive.addfile(entry, None if one.is_link else io.BytesIO(one.data))
    made = io.BytesIO()
    with gzip.GzipFile(filename="", fileobj=made, mode="wb", compresslevel=9, mtime=time) as file:
        file.write(raw.getvalue())
    return made.getvalue()
