"""Checks and builds of a crate over libraries that are proved, with the kit's `rattle`, as `rt ci` calls it.

`rt ci` proves each library from nothing and leaves it in `crates/NAME/out/rlib`; nothing else of its proofs stays.
`--mark` then writes checksums of these libraries, and of the sources they were made of, to `out/proved.txt`. A run that
uses a library without its mark ends with a line that says so. A check of some functions needs no proof of the rest of
their crate.

Usage: python3 -m tests.mutants.built --mark            marks the libraries that `rt ci` has just left
       python3 -m tests.mutants.built ARCHIVE WORD..    builds the C library over them, with more words for rattle
"""

import hashlib
import shutil
import subprocess
import sys
import tempfile
from pathlib import Path

from tests.mutants.crates import PARTS, Crates

# The crate of the C library.
OF_C = "fmtcanon_c"
MARKS = "out/proved.txt"


def kit():
    """Returns the kit's folder."""
    return Path(subprocess.run(["rt", "doc"], stdout=subprocess.PIPE, check=True, encoding="utf-8").stdout).parent


def checksum_of(folders):
    """Returns a checksum of the files below some folders, and of their names."""
    sum_of_all = hashlib.sha256()
    for folder in folders:
        for file in sorted(it for it in folder.rglob("*") if it.is_file()):
            sum_of_all.update(f"{folder.name}/{file.relative_to(folder)} {file.stat().st_size}\n".encode())
            sum_of_all.update(file.read_bytes())
    return sum_of_all.hexdigest()


class Built:
    """The crates of a tree whose libraries are proved, for the gate by `rt ci` alone."""

    def __init__(self, crates, of_ci=True):
        self.crates, self.of_ci, self.kit = crates, of_ci, kit()
        file = crates.top / MARKS
        lines = file.read_text(encoding="utf-8").splitlines() if file.is_file() else []
        self.marks, self.proved = dict(line.split(" ", 1) for line in lines), {}
        # It goes when this does.
        self.temporary = tempfile.TemporaryDirectory(prefix="fmtcanon-")

    def place(self, name):
        """Returns where the library of a crate is."""
        return self.crates.folder(name) / f"out/rlib/{name}.rlib"

    def mark_of(self, name):
        """Returns the mark of a library as it is, with the sources as they are."""
        return f"{checksum_of([self.crates.folder(name) / it for it in PARTS])} {checksum_of([self.place(name)])}"

    def is_proved(self, name):
        """Returns whether a library is one that is marked, and its sources are those it was made of. It looks once."""
        if name not in self.proved:
            self.proved[name] = self.marks.get(name) == self.mark_of(name)
        return self.proved[name]

    def mark(self, names):
        """Marks these libraries as proved, and no others."""
        for name in names:
            if not (self.place(name) / "format").is_file():
                raise SystemExit(f"{self.place(name)} isn't there: make gate")
        self.marks, self.proved = {name: self.mark_of(name) for name in names}, {}
        file = self.crates.top / MARKS
        file.parent.mkdir(exist_ok=True)
        file.write_text("".join(f"{name} {mark}\n" for name, mark in self.marks.items()), encoding="utf-8")

    def library(self, name):
        """Returns a library that is proved, and ends the run if it isn't. `rt` adds a stamp to those of its other
        commands.
        """
        if not self.is_proved(name) or self.of_ci and (self.place(name).parent / "stamp").exists():
            raise SystemExit(f"{self.place(name)} isn't what rt ci proved of these sources: make gate")
        return self.place(name)

    def prove_below(self, names, jobs):
        """Proves the libraries below these crates, if they aren't: rt knows which of them have changed."""
        needed = dict.fromkeys(below for name in names for below in self.crates.below(name))
        if not all(self.is_proved(it) for it in needed):
            for name in needed:
                subprocess.run(["rt", "lib", "--jobs", str(jobs)], cwd=self.crates.folder(name), check=True)
            self.mark(needed)

    def words(self, name):
        """Returns the words by which rattle checks a crate, once those below it are proved."""
        rlibs, direct = self.kit / "rlibs", ["std", *self.crates.needed(name)]
        own = {it: self.library(it) for it in self.crates.below(name)}
        given = {**{it: rlibs / f"{it}.rlib" for it in direct}, **own}
        root = "src/main.rt" if (self.crates.folder(name) / "src/main.rt").is_file() else "src/lib.rt"
        words = ["--crate-name", name, root, "--links", f"{name}="]
        words += [word for it in direct for word in ("--extern", f"{it}={given[it]}")]
        words += [word for it in {rlibs, *(it.parent for it in own.values())} for word in ("-L", f"dependency={it}")]
        words += [
            "--antt-project", f"{self.kit}/rattle/logic/antt-project.json", "--logic-built", f"{self.kit}/logic_built"
        ]
        return words + (["--crate-type", "staticlib"] if self.crates.is_static(name) else [])

    def copy(self, name):
        """Returns a folder with a copy of a crate, in which its files can be edited."""
        folder = Path(tempfile.mkdtemp(prefix=f"{name}-", dir=self.temporary.name)) / name
        for part in PARTS:
            if (self.crates.folder(name) / part).is_dir():
                shutil.copytree(self.crates.folder(name) / part, folder / part)
        (folder / "out/incremental").mkdir(parents=True)
        return folder

    def check(self, folder, *words):
        """Returns what a check says of a copy of a crate, over what its earlier checks kept."""
        command = [
            self.kit / "bin/rattle",
            "check",
            *self.words(folder.name),
            "--incremental",
            "out/incremental",
            "--jobs",
            "1",
        ]
        how = {"stdin": subprocess.DEVNULL, "stdout": subprocess.PIPE, "stderr": subprocess.STDOUT, "errors": "replace"}
        return subprocess.run([*command, *words], cwd=folder, check=False, **how).stdout

    def build(self, name, archive, words):
        """Builds the archive of a static library, and returns the status."""
        command = [self.kit / "bin/rattle", "build", *self.words(name), "--toolchain", f"{self.kit}/toolchain"]
        Path(archive).parent.mkdir(parents=True, exist_ok=True)
        command += ["--backend", "llvm", *words, "-o", Path(archive).resolve()]
        return subprocess.run(command, cwd=self.crates.folder(name), check=False).returncode


def main():
    built, (archive, *words) = Built(Crates()), sys.argv[1:]
    if archive != "--mark":
        return built.build(OF_C, archive, words)
    built.mark([it for it in built.crates.names() if built.crates.above(it)])
    return 0


if __name__ == "__main__":
    sys.exit(main())
