"""What ./prove builds: both programs, of the crates that they use and of the headline's laws, which no program uses; and the stamp by which
./prove and ./release know that the programs there were proved and built of what stands here."""
import hashlib
import os

from repository import Repository, text_of, toolchain, write
from trusted import HEADLINE, PROGRAMS

OUT = "crates/cicsedf/out"


class Build:
    def __init__(self, root: str = ".") -> None:
        self.root, self.repository = root, Repository(root)
        self.crates = set[str]().union(*map(self.repository.below, (HEADLINE, *PROGRAMS)))
        self.built = [f"crates/{it}/out/{it}" for it in PROGRAMS]
        self.noted = f"{root}/{OUT}/proved"

    def stamp(self) -> str:
        """The hash of all that the proof reads, and of the programs that were built."""
        total = hashlib.sha256(toolchain().encode())
        built = [it for it in self.built if os.path.exists(f"{self.root}/{it}")]
        for path in [*sorted(self.repository.files(self.crates)), "crates.txt", *built]:
            with open(f"{self.root}/{path}", "rb") as it:
                total.update(f"{path}\n".encode() + hashlib.sha256(it.read()).digest())
        return total.hexdigest()

    def is_there(self) -> bool:
        """Whether the programs are there, as ./prove built them of what stands here."""
        paths = [self.noted, *(f"{self.root}/{it}" for it in self.built)]
        return all(map(os.path.exists, paths)) and text_of(self.noted) == self.stamp()

    def note(self) -> None:
        """Notes that the programs that are there were built of what stands here."""
        write(self.noted, self.stamp())
