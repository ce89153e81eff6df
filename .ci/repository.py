"""The crates of a repository: which use which, and copies of some or all of them."""
import os
import shutil
import subprocess
from collections.abc import Collection


def text_of(path: str, errors: str = "strict") -> str:
    with open(path, encoding="utf-8", errors=errors) as it:
        return it.read()


def write(path: str, text: str) -> None:
    """Writes a file: beside it first, so that it is never there in part."""
    with open(f"{path}.new", "w", encoding="utf-8") as it:
        it.write(text)
    os.replace(f"{path}.new", path)


def libraries_of(text: str) -> dict[str, list[str]]:
    """The libraries that each crate names, by crates.txt's text."""
    lines = [it.partition("#")[0].partition(":") for it in text.splitlines()]
    return {name.split()[0]: libraries.split() for name, _, libraries in lines if name.strip()}


def toolchain() -> str:
    """The toolchain's line."""
    return subprocess.run(["rt", "version"], capture_output=True, text=True, check=True).stdout.strip()


def kit() -> str:
    """The folder of the toolchain: that of the page which is read first."""
    return os.path.dirname(subprocess.run(["rt", "doc"], capture_output=True, text=True, check=True).stdout.strip())


def logic() -> str:
    """The sum of the toolchain's logic, by which each verdict names what it is proved in."""
    return toolchain().partition(" logic ")[2] or toolchain()


class Repository:
    """The crates that crates.txt lists."""

    def __init__(self, root: str = ".") -> None:
        self.root, self.libraries = root, libraries_of(text_of(f"{root}/crates.txt"))

    def below(self, crate: str) -> set[str]:
        """The repository's crates that this one uses, and it."""
        found: set[str] = set()
        waiting = [crate]
        while waiting:
            it = waiting.pop()
            if it in self.libraries and it not in found:
                found.add(it)
                waiting += self.libraries[it]
        return found

    def files(self, crates: Collection[str] | None = None) -> list[str]:
        """The files of the repository that git keeps or would keep, or just what `rt ci` reads of these crates."""
        listed = subprocess.run(["git", "ls-files", "-zco", "--exclude-standard"], cwd=self.root, capture_output=True, check=True)
        paths = [it for it in listed.stdout.decode().split("\0") if it and os.path.isfile(f"{self.root}/{it}")]
        if crates is None:
            return paths
        return [it for it in paths if it == "HANDLES" or it.startswith("crates/") and it.split("/")[1] in crates]

    def copy(self, folder: str, crates: Collection[str] | None = None) -> None:
        """Copies the repository, or just what `rt ci` reads of these crates."""
        for path in self.files(crates):
            os.makedirs(os.path.dirname(f"{folder}/{path}"), exist_ok=True)
            shutil.copy2(f"{self.root}/{path}", f"{folder}/{path}")
        if crates is not None:
            with open(f"{folder}/crates.txt", "w", encoding="utf-8") as it:
                it.writelines(f"{name}: {' '.join(self.libraries[name])}\n" for name in self.libraries if name in crates)


def check_words(repository: Repository, crate: str) -> list[str]:
    """The command that checks a crate over the libraries that `rt ci` has built, as `rt ci` writes it."""
    its_kit, root = kit(), os.path.abspath(repository.root)
    built = {it: f"{root}/crates/{it}/out/rlib" for it in repository.below(crate) - {crate}}
    libraries = {it: f"{built.get(it, f'{its_kit}/rlibs')}/{it}.rlib" for it in ("std", *repository.libraries[crate])}
    source = "src/main.rt" if os.path.exists(f"{root}/crates/{crate}/src/main.rt") else "src/lib.rt"
    words = [f"{its_kit}/bin/rattle", "check", "--crate-name", crate, source]
    words += [word for name, path in libraries.items() for word in ("--extern", f"{name}={path}")]
    words += [word for folder in (*built.values(), f"{its_kit}/rlibs") for word in ("-L", f"dependency={folder}")]
    words += ["--antt-project", f"{its_kit}/rattle/logic/antt-project.json", "--logic-built", f"{its_kit}/logic_built"]
    return [*words, "--links", f"{crate}=", "--jobs", "1"]
