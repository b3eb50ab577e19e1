"""The crates of this repository, as crates.txt lists them."""

from functools import lru_cache
from pathlib import Path

from tests.frame import TOP

# What a check reads of a crate.
PARTS = ["src", "specs", "proofs"]


class Crates:
    """The crates that the crates.txt of a folder lists, and what each needs."""

    def __init__(self, top=TOP):
        self.top = Path(top)
        text = (self.top / "crates.txt").read_text(encoding="utf-8")
        self.lines = {it.split()[0].rstrip(":"): it for it in text.splitlines() if it.split("#")[0].strip()}

    def folder(self, name):
        """Returns the folder of a crate."""
        return self.top / "crates" / name

    def names(self):
        """Returns the names of the crates, in the order of crates.txt."""
        return list(self.lines)

    def needed(self, name):
        """Returns the libraries that the line of a crate names: this repository's and the kit's."""
        return self.lines[name].partition(":")[2].split()

    @lru_cache(maxsize=None)
    def below(self, name):
        """Returns the crates of this repository that a crate needs, lowest first."""
        found = []
        for it in self.needed(name):
            if it not in self.lines:
                continue
            found += [crate for crate in [*self.below(it), it] if crate not in found]
        return found

    def above(self, name):
        """Returns the crates that need a crate."""
        return [it for it in self.lines if name in self.below(it)]

    def is_static(self, name):
        """Returns whether a crate is a static library, which no other crate needs."""
        return "staticlib" in self.lines[name].partition(":")[0]
