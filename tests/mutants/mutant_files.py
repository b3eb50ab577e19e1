"""Reads mutants: edits of one function's body that the prover must refuse, and their twins, which it must let through.

`crates/NAME/mutants.txt` has the mutants of a crate, and `crates/NAME/must-fail/` a few more, one a file, which `rt ci`
tries too. Both have lines of these kinds; lines that are empty or start with `#` are skipped:

    mutant: NAME    starts a mutant (in mutants.txt; in must-fail/ the file has the name)
    file: PATH      the file that the lines after it change, until the next `file:`
    after: TEXT     optional, in mutants.txt: the old text is the first one after TEXT, which occurs once in the file
    old: TEXT       the text to replace, which occurs once in the file
    copy: NAME      in mutants.txt, in the place of `old:`: the text is the body of a copy of this function of the file
    new: TEXT       the text that replaces it
    same: TEXT      in mutants.txt: the text of the twin in its place, which means what the code means; a mutant of one
    pair
                    has none where twins.py makes the twin
    twin: NAME      starts the twin of a mutant of must-fail/, with `same:` and without `new:`; or that mutant in other
                    words, with both

A mutant has one or more pairs of `old:` and `new:`, which apply one after the other. Its twin has those with a `same:`.

A copy has the contract of its function, and may call it. Where a clause needs a written answer, each new
branch of the function itself has a goal without one, be it right or wrong. In a copy what the call ensures is enough
for what is right.
"""

from dataclasses import dataclass, field, replace
from typing import Optional

from tests.mutants import copies, rattle_functions
from tests.mutants.twins import twin_of_copy, twin_of_edit

WORDS = ("mutant", "twin", "file", "after", "old", "copy", "new", "same")


@dataclass(frozen=True)
class Pair:
    """An old and a new text of a file, and the text after which the old one comes, if that is given; and what the twin
    has instead of the new text.
    """

    file: str
    old: str
    new: str
    after: str = ""
    same: Optional[str] = None

    def offset(self, text):
        """Returns where the old text begins in the text of the file."""
        first = self.after or self.old
        if text.count(first) != 1:
            raise ValueError(f"{first!r} occurs {text.count(first)} times in {self.file}, not once")
        at = text.find(self.old, text.index(first))
        if at == -1:
            raise ValueError(f"{self.old!r} does not occur in {self.file} after {self.after!r}")
        return at

    def applied(self, text, mark=""):
        """Returns the text of the file with the new text in it."""
        at = self.offset(text)
        return text[:at] + self.new + text[at + len(self.old) :]

    def place(self, text, homes):
        """Returns the path of the function whose body it changes, in a set; an empty set outside of bodies."""
        at = self.offset(text)
        return functions_at(text, self.file, homes, at, at + len(self.old))


@dataclass(frozen=True)
class Copy:
    """The body of a copy of a function, and that of the twin."""

    file: str
    copy: str
    new: str
    same: Optional[str] = None

    def function(self, text, homes):
        """Returns the function of the file that is copied."""
        found = rattle_functions.functions(text, self.file, homes)
        named = [it for it in found if f"::{it.path}".endswith(f"::{self.copy}")]
        if len(named) != 1:
            raise ValueError(f"{self.file} has {len(named)} functions {self.copy}, not one")
        return named[0]

    def applied(self, text, mark=""):
        """Returns the text of the file with the copy in it."""
        return copies.with_copy(text, self.function(text, {}), mark, self.new)

    def place(self, text, homes):
        """Returns the path of the function that is copied, in a set."""
        return {self.function(text, homes).path}

    def listed(self, text, homes, mark):
        """Returns the path under which a check lists the copy."""
        return copies.listed(text, self.function(text, homes), mark, homes, self.file)


@dataclass
class Mutant:
    """A mutant or a twin, with the functions whose bodies it changes."""

    name: str
    pairs: list = field(default_factory=list)
    # Paths in the crate; empty if a text is outside every body, as in a constant or in specs/.
    functions: frozenset = frozenset()
    why_broken: str = ""
    twin: Optional["Mutant"] = None
    is_twin: bool = False
    # The copy that a check lists in the place of each function that it leaves as it is.
    copies: dict = field(default_factory=dict)
    # The copy of the function that an edit changes, where there can be one.
    copied: Optional[Copy] = None

    def is_broken(self):
        return bool(self.why_broken)

    def listed(self):
        """Returns the paths under which a check lists what it changes."""
        return frozenset(self.copies.get(it, it) for it in self.functions)

    def label(self):
        """Returns its name, which for a twin is that of its mutant with a mark."""
        return f"{self.name} (twin)" if self.is_twin else self.name

    def mark(self):
        """Returns what the names of its copies end in."""
        return "_".join(["twin" if self.is_twin else "mutant", *self.name.split("-")])


def lines_of(text):
    """Yields the word before the colon and the text after it, of each line that says something."""
    for number, line in enumerate(text.splitlines(), 1):
        if not line.strip() or line.startswith("#"):
            continue
        word, colon, rest = line.partition(":")
        if not colon or word not in WORDS:
            raise ValueError(f"line {number} starts with none of {', '.join(f'{it}:' for it in WORDS)}")
        yield word, rest[1:] if rest.startswith(" ") else rest


class Reader:
    """Reads the lines of a file of mutants: the pairs of each mutant, and those of the twins of other files."""

    def __init__(self, name=None):
        self.mutants, self.twins = ({name: []} if name else {}), {}
        self.pairs, self.parts = self.mutants.get(name), {}

    def made(self):
        """Returns the mutants of mutants.txt, with twins by rule for those of one pair that have none."""
        for pairs in self.mutants.values():
            if len(pairs) == 1 and pairs[0].same is None:
                [it] = pairs
                pairs[0] = replace(it, same=twin_of_copy(it.new) if isinstance(it, Copy) else twin_of_edit(it.old))
        return self

    def read(self, text):
        for word, rest in lines_of(text):
            if word in ("mutant", "twin"):
                self.begin(word, rest.strip())
            elif word == "file":
                self.parts = {"file": rest.strip()}
            elif word == "new":
                self.add(new=rest)
            elif word == "same":
                self.read_same(rest)
            else:
                self.parts[word] = rest
        return self

    def begin(self, word, name):
        found = self.mutants if word == "mutant" else self.twins
        if name in found:
            raise ValueError(f"there are two {word}s {name}")
        self.pairs = found[name] = []

    def add(self, **texts):
        """Adds the pair whose old text is read."""
        parts, self.parts = self.parts, {"file": self.parts.get("file", "")}
        if self.pairs is None or not parts.get("file") or not (parts.get("old") or parts.get("copy")):
            raise ValueError("a line `new:` or `same:` comes before any `mutant:`, `file:`, `old:` or `copy:`")
        self.pairs.append((Copy if "copy" in parts else Pair)(**parts, **texts))

    def read_same(self, text):
        """Adds the twin's text to the last pair, or in a twin of its own the pair."""
        if any(self.pairs is it for it in self.twins.values()) and len(self.parts) > 1:
            self.add(new=text, same=text)
        elif not self.pairs or len(self.parts) > 1 or self.pairs[-1].same is not None:
            raise ValueError("a line `same:` does not come after a line `new:`")
        else:
            self.pairs[-1] = replace(self.pairs[-1], same=text)


def read_pairs(text, name=None):
    """Returns the pairs of each mutant of a text by its name; those before any `mutant:` line are of the mutant
    `name`.
    """
    return Reader(name).read(text).mutants


def text_in(crate, texts, file):
    """Returns the text of a file, as it is in `texts` or otherwise in the crate's folder."""
    return texts[file] if file in texts else (crate / file).read_text(encoding="utf-8")


def applied(mutant, crate, texts):
    """Returns these texts with a mutant's pairs applied to them, or to the crate's own files where `texts` has none."""
    texts = dict(texts)
    for pair in [mutant.copied] if mutant.copied else mutant.pairs:
        texts[pair.file] = pair.applied(text_in(crate, texts, pair.file), mutant.mark())
    return texts


def places_of(pairs, crate, homes):
    """Yields each pair with the functions in whose bodies it is, once those before it are applied."""
    texts = {}
    for pair in pairs:
        yield pair, pair.place(text_in(crate, texts, pair.file), homes)
        texts = applied(Mutant("", [pair]), crate, texts)


def functions_at(text, file, homes, start, end):
    """Returns the path of the function whose body includes these offsets, in a set; an empty set outside the bodies of
    src/.
    """
    if not file.startswith("src/"):
        return set()
    found = rattle_functions.functions(text, file, homes)
    for function in found:
        if start < function.start and function.contract < end:
            raise ValueError(f"it changes the contract of {function.path}, so it shows nothing")
    return {it.path for it in found if it.start <= start and end <= it.end}


def homes_in(crate):
    """Returns the module that declares each type of the crate in that folder."""
    files = sorted((crate / "src").rglob("*.rt"))
    return rattle_functions.homes_of({str(it.relative_to(crate)): it.read_text(encoding="utf-8") for it in files})


def mutant_of(name, pairs, crate, homes, is_twin=False):
    """Returns the mutant or the twin with these pairs, of the crate in that folder."""
    if not pairs:
        return Mutant(name, why_broken="it has no pair of `old:` and `new:`", is_twin=is_twin)
    mutant = Mutant(name, pairs, is_twin=is_twin)
    try:
        places = list(places_of(pairs, crate, homes))
    except (OSError, ValueError) as error:
        return Mutant(name, pairs, why_broken=str(error), is_twin=is_twin)
    for pair, functions in places:
        for path in functions if isinstance(pair, Copy) else ():
            mutant.copies[path] = pair.listed(text_in(crate, {}, pair.file), homes, mutant.mark())
    functions = [functions for _, functions in places]
    mutant.functions = frozenset().union(*functions) if all(functions) else frozenset()
    mutant.copied = copy_of(mutant, crate, homes)
    if mutant.copied:
        text = text_in(crate, {}, mutant.copied.file)
        mutant.copies = {path: mutant.copied.listed(text, homes, mutant.mark()) for path in mutant.functions}
    return mutant


def copy_of(mutant, crate, homes):
    """Returns the copy of the function that an edit changes, with the edit in it; or None where the function has files
    of proofs, or can have no copy. Several edits of one function can share a check so.
    """
    if mutant.copies or len(mutant.functions) != 1 or any(proof_files(crate, path) for path in mutant.functions):
        return None
    file = mutant.pairs[0].file
    text, edited = text_in(crate, {}, file), applied(mutant, crate, {})[file]
    paths = [it.path for it in rattle_functions.functions(text, file, homes)]
    [path] = mutant.functions
    it = rattle_functions.functions(text, file, {})[paths.index(path)]
    end = it.end - 1 + len(edited) - len(text)
    copy = Copy(file, it.path, edited[it.start + 1 : end].strip())
    try:
        copy.applied(text, mutant.mark())
    except ValueError:
        return None
    return copy


def proof_files(crate, path):
    """Returns the files of proofs of the function at a path of a crate, and of its closures."""
    module, _, name = path.rpartition("::")
    outer, _, block = module.rpartition("::")
    folders = [path, *(f"{m}::fn::{f}" for m, f in [(module, name), (outer, f"{block}::{name}")])]
    places = [crate / "proofs" / it.strip(":").replace("::", "/") for it in folders]
    return [file for it in places for file in sorted(it.rglob("*.antt"))]


def twin_of(mutant, pairs, crate, homes):
    """Returns the twin of a mutant: of these pairs, or of its own with a `same:`; or None."""
    pairs = pairs or [replace(it, new=it.same) for it in mutant.pairs if it.same is not None]
    if not pairs:
        return None
    twin = mutant_of(mutant.name, pairs, crate, homes, True)
    if not twin.is_broken() and not twin.functions <= mutant.functions:
        twin.why_broken = "it changes another function than the mutant"
    if any(it in mutant.pairs for it in pairs):
        twin.why_broken = "it is the mutant"
    return twin


def listed_in(crate):
    """Returns the pairs of each mutant of the crate in that folder, by name: those of must-fail/ come first; and the
    pairs of the twins of these.
    """
    found = {}
    for file in sorted((crate / "must-fail").glob("*.edit")):
        found.update(read_pairs(file.read_text(encoding="utf-8"), file.stem))
    more = crate / "mutants.txt"
    listed = Reader().read(more.read_text(encoding="utf-8") if more.is_file() else "").made()
    for name in found.keys() & listed.mutants.keys():
        raise ValueError(f"the mutant {name} of {crate.name} is both in must-fail/ and in mutants.txt")
    for name in listed.twins.keys() - found.keys():
        raise ValueError(f"the twin {name} of {crate.name} is of no mutant in must-fail/")
    reworded = {name: pairs for name, pairs in listed.twins.items() if any(it.new != it.same for it in pairs)}
    twins = {name: pairs for name, pairs in listed.twins.items() if name not in reworded}
    return {**found, **reworded, **listed.mutants}, twins


def pairs_in(crate):
    """Returns the pairs of each mutant of the crate in that folder, by name."""
    return listed_in(crate)[0]


def mutants_of(crate):
    """Returns the mutants of the crate in that folder, each with its twin."""
    homes, (pairs, twins) = homes_in(crate), listed_in(crate)
    found = [mutant_of(name, it, crate, homes) for name, it in pairs.items()]
    for it in found:
        it.twin = twin_of(it, twins.get(it.name), crate, homes)
    return found


def batches(mutants, crate, most):
    """Returns the mutants in groups of at most `most`, with the texts of each group, in which no function is changed
    twice. Edits come before copies, since the old text of an edit may be in a copy, too.
    """
    groups = []
    for mutant in sorted(mutants, key=lambda it: bool(it.copies)):
        for group in groups:
            if len(group[0]) == most or any(mutant.listed() & it.listed() for it in group[0]):
                continue
            try:
                group[1] = applied(mutant, crate, group[1])
            except ValueError:
                continue
            group[0].append(mutant)
            break
        else:
            groups.append([[mutant], applied(mutant, crate, {})])
    return groups
