"""Makes the key of a mutant: a checksum of the mutant, its twin, the functions that it changes, what their clauses
mean, and the goals that refused it.

A refusal says that the clauses of a function refuse a body. So the key has the functions that a mutant changes with
their clauses, and what these mean: the definitions, types and constants that they reach. It also has the kit and the
scripts that judge. It has what could turn the verdict on a body that is not clearly wrong: the attributes of these
functions and of their crate's root, the names of the goals that have answers, and the clauses of the functions that
they name. Of a copy that is its own function alone. It has no tests and no proofs, nor what the clauses of callees
mean: a body that breaks a clause has no proof over any of these, and the twin has shown that the search finds one for
the right body.

A line that is edited has another checksum. One that is made up by these scripts has not: only a trial shows that.
"""

import ast
import hashlib
import re
import subprocess
from functools import lru_cache
from pathlib import Path

from tests.mutants import rattle_functions
from tests.mutants.definitions import Definitions, Unit, bare, without_comments, words_in
from tests.mutants.mutant_files import homes_in
from tests.mutants.mutant_trials import answers_of
from tests.mutants.public_functions import sources_of

# The files whose code makes the verdicts.
JUDGES = ["copies", "mutant_files", "mutant_trials", "rattle_functions", "reports"]


def checksum(*values):
    """Returns a checksum of values that `repr` writes in full."""
    return hashlib.sha256(repr(values).encode()).hexdigest()


@lru_cache(maxsize=None)
def kit():
    """Returns what identifies the kit: the checksum of its archive, and the number of its logic. Its letter is a name.
    """
    page, version = (said_by_rt(it) for it in ("doc", "version"))
    archive = re.search(r"^archive (\w+)$", (Path(page).parent / "WHAT").read_text(encoding="utf-8"), re.MULTILINE)
    logic = re.search(r" logic (\w+)$", version)
    return f"archive {archive[1]} logic {logic[1]}"


def said_by_rt(word):
    """Returns the one line that a command of rt prints."""
    return subprocess.run(["rt", word], stdout=subprocess.PIPE, check=True, encoding="utf-8").stdout.strip()


def judges_sum():
    """Returns a checksum of what the scripts that judge do, whatever their comments say and wherever they lie."""
    texts = [(Path(__file__).parent / f"{it}.py").read_text(encoding="utf-8") for it in JUDGES]
    texts = [
        it.replace(f"from {__package__} import ", "import ").replace(f"from {__package__}.", "from ") for it in texts
    ]
    return checksum([ast.dump(without_docstrings(ast.parse(it))) for it in texts])


def without_docstrings(tree):
    """Returns the tree of a script without the texts that stand alone in it."""
    for node in ast.walk(tree):
        body = getattr(node, "body", None)
        if isinstance(body, list):
            node.body = [it for it in body if not is_text(it)]
    return tree


def is_text(node):
    return isinstance(node, ast.Expr) and isinstance(node.value, ast.Constant) and isinstance(node.value.value, str)


class Keys:
    """The keys of the mutants of some crates, with the kit that is here, or with another one."""

    def __init__(self, crates, of_kit=None):
        self.crates, self.definitions, self.judges = crates, Definitions(crates), judges_sum()
        self.kit = of_kit or kit()

    @lru_cache(maxsize=None)
    def functions(self, crate):
        """Returns the functions of a crate by their paths, each with its text and that of the trait that it is of."""
        found, homes = {}, self.homes(crate)
        for file, text in sources_of(self.crates.folder(crate)).items():
            for it in rattle_functions.functions(text, file, homes):
                unit = Unit(crate, file, it.path, bare(f"impl {it.block} {text[it.head : it.end]}"))
                found.setdefault(it.path, []).append(unit)
        return found

    @lru_cache(maxsize=None)
    def contracts(self, crate):
        """Returns the heads and clauses of the functions of a crate by their names."""
        found = {}
        for text in sources_of(self.crates.folder(crate)).values():
            for it in rattle_functions.functions(text, "", {}):
                name = it.path.rpartition("::")[2]
                found.setdefault(name, []).append(bare(text[it.head : it.start]))
        return found

    def help_for(self, crate, mutant, changed):
        """Returns what could help to prove a mutant: attributes, goals with answers, and clauses of callees."""
        root = self.definitions.text(crate, "src/lib.rt") or self.definitions.text(crate, "src/main.rt")
        attributes = [re.findall(r"#!\[tactic.*", root), *(it.attributes for it in self.heads(crate, mutant))]
        if mutant.copies:
            return attributes
        answered = [(file, sorted(goals)) for file, goals in answers_of(self.crates.folder(crate), mutant)]
        words = {word for unit in changed for word in words_in(unit.text)}
        heads = [self.contracts(it) for it in (crate, *self.crates.below(crate))]
        return attributes, answered, [sorted(each[name] for name in words & each.keys()) for each in heads]

    def heads(self, crate, mutant):
        """Returns the functions that a mutant changes, with their attributes."""
        files = sorted({it.file for it in mutant.pairs})
        found = [
            it for file in files for it in rattle_functions.functions(*self.source(crate, file), self.homes(crate))
        ]
        return [it for it in found if it.path in mutant.functions]

    def source(self, crate, file):
        return self.definitions.text(crate, file), file

    @lru_cache(maxsize=None)
    def homes(self, crate):
        return homes_in(self.crates.folder(crate))

    @lru_cache(maxsize=None)
    def whole(self, crate):
        """Returns the units of all sources of a crate, without comments: each may refuse a mutant outside of functions.
        """
        folder = self.crates.folder(crate)
        names = [*sources_of(folder), *(str(it.relative_to(folder)) for it in sorted((folder / "specs").rglob("*.antt")))]
        return [Unit(crate, it, "", without_comments(it, self.definitions.text(crate, it))) for it in names]

    def key(self, crate, mutant, goals):
        """Returns the key of a mutant of a crate that was refused by these goals."""
        pairs = [repr(it) for each in (mutant, mutant.twin) if each for it in each.pairs]
        changed = [it for path in sorted(mutant.functions) for it in self.functions(crate).get(path, [])]
        units = self.definitions.reached_from(changed or self.whole(crate))
        texts = sorted((it.crate, it.file, it.name, it.text) for it in units)
        return checksum(self.kit, self.judges, pairs, texts, self.help_for(crate, mutant, changed), goals)[:12]
