"""Finds what a text of a crate means by the names in it: definitions of `specs/`, and types and constants of `src/`.

Each is found by the `use` lines of the file that names it, as the prover and the compiler find it, or in the file.
Where a crate hands out a type, a trait or a constant of another one, it is found by its name, in the crate and in those
below. With a type come its `impl` blocks that give ghost members a meaning, without the bodies of their functions.
"""

import re
from dataclasses import dataclass
from functools import lru_cache

from tests.mutants.rattle_functions import NO_CODE, blanked, functions, plain_name, split_parameters

# A comment of a file of specs/, or a text in it.
COMMENT_OR_TEXT = re.compile(r'--.*|"(?:\\.|[^"\\])*"')
IMPORT = re.compile(r"\buse Rattle\.([\w.]+?)(?:\.\{([^}]*)\}| as (\w+))")
# The first line of a definition, or of an equation of one.
HEAD = re.compile(r"^(?:abbrev |unfoldable |pub |record |data )*(?P<name>[^\s:(){}]+)")
SIGNATURE = re.compile(r"^(?:(?:abbrev |unfoldable |pub )*(?:record|data) |(?:abbrev |unfoldable |pub )*[^\s:(){}]+ :)")
INNER = re.compile(r"^ +(?:abbrev |unfoldable )*pub (?:record |data )?([^\s:(){}]+) *[:({]", re.MULTILINE)
WORD = re.compile(r"[^\s(){}\[\].,;:|=λ→×∀]+")
ITEM = re.compile(
    r"^ *(?:pub(?:\([\w: ]*\))? )?(?:(?P<kind>struct|enum|trait|const|static|type)\s+(?P<name>\w+)"
    r"|impl\b(?P<head>[^;{]*)(?=\{))",
    re.MULTILINE,
)
GHOST = re.compile(r"\bghost \w+ =")
# A `use` line of a source file, and a path in its text.
USE = re.compile(r"(?<!ghost )\buse ([^;]+);")
PATH = re.compile(r"\b\w+(?:::\w+)+")


@dataclass(frozen=True)
class Unit:
    """A text that gives a name its meaning, and where it is: a crate, a file of it, and a name in that."""

    crate: str
    file: str
    name: str
    text: str


def words_in(text):
    """Returns the words of a text: names, and the symbols of operators."""
    return set(WORD.findall(text)) | set(re.findall(r"\w+", text))


def literal(found):
    """Returns a literal that is found, and nothing for a comment."""
    return "" if found[0].startswith(("//", "/*", "--")) else found[0]


def imports_of(text):
    """Yields the module, the names and the other name of each `use` line of the text, which has no comments."""
    for module, names, other in IMPORT.findall(text):
        yield module.split("."), [it.strip() for it in names.split(",") if it.strip()], other


def paths_in(tree, before=()):
    """Yields the path of each name that the tree of a `use` line brings in, and the name that it gets."""
    head, brace, rest = tree.partition("{")
    *path, last = head.strip().split("::")
    if brace:
        depth, begin = 0, 0
        for at, letter in enumerate(rest):
            depth += {"{": 1, "}": -1}.get(letter, 0)
            if (letter == "," and depth == 0) or depth < 0:
                yield from paths_in(rest[begin:at], (*before, *path)) if rest[begin:at].strip() else ()
                begin = at + 1
    else:
        name, _, other = last.partition(" as ")
        yield (*before, *path, name), other or name


def is_named(name, words):
    """Returns whether a text with these words has this name: that of an operator is `◌+◌`, and its symbol `+`."""
    symbols = [it for it in name.split("◌") if it]
    return name in words or ("◌" in name and any(it in words for it in symbols))


def definitions_in(crate, file, text):
    """Returns the definitions of a file of specs/, without comments, by their names. An equation belongs to the
    signature before it, and a fixity to the operator that it names.
    """
    text, found, names = COMMENT_OR_TEXT.sub(literal, text), {}, []
    for block in re.split(r"^(?=\S)", text, flags=re.MULTILINE):
        head = HEAD.match(block)
        if not head or re.match(r"(pub )?use ", block):
            continue
        if head["name"] == "module":
            names = INNER.findall(block)
        elif head["name"].startswith("infix"):
            names = [block.split()[-1]]
        elif SIGNATURE.match(block):
            names = [head["name"]]
        for name in names:
            found[name] = found.get(name, "") + re.sub(r"\s+", " ", block)
    return {name: Unit(crate, file, name, it) for name, it in found.items()}


def items_in(crate, file, text):
    """Yields the types, traits and constants of a source file, and the blocks with ghost members of a type, each with
    its name and without bodies of functions.
    """
    for it in functions(text, file, {}):
        text = text[: it.start + 1] + re.sub(r"[^\n]", " ", text[it.start + 1 : it.end - 1]) + text[it.end - 1 :]
    code = blanked(text)
    for item in ITEM.finditer(code):
        end = item_end(code, item.end())
        if item["name"]:
            yield Unit(crate, file, item["name"], bare(text[item.start() : end]))
        elif GHOST.search(code, item.start(), end):
            _, head = split_parameters(item["head"].strip())
            yield Unit(crate, file, plain_name(head.rpartition(" for ")[2]), bare(text[item.start() : end]))


def item_end(code, start):
    """Returns the offset after the item whose name ends at start: after its braces, or after a semicolon or braces of a
    value, outside of brackets.
    """
    depth, has_value = 0, False
    for at in range(start, len(code)):
        letter = code[at]
        depth += {"(": 1, "[": 1, "{": 1, ")": -1, "]": -1, "}": -1}.get(letter, 0)
        has_value = has_value or (depth == 0 and letter == "=")
        if depth == 0 and (letter == ";" or (letter == "}" and not has_value)):
            return at + 1
    return len(code)


def bare(text):
    """Returns a text of a source file without comments, with one space where it had more."""
    return re.sub(r"\s+", " ", NO_CODE.sub(literal, text)).strip()


def without_comments(file, text):
    """Returns the text of a file without comments and empty lines. A literal is kept, whatever is in it."""
    pattern = NO_CODE if file.endswith(".rt") else COMMENT_OR_TEXT
    text = pattern.sub(literal, text)
    return "\n".join(line.rstrip() for line in text.splitlines() if line.strip())


class Definitions:
    """All definitions, types and constants of some crates."""

    def __init__(self, crates):
        self.crates = crates

    @lru_cache(maxsize=None)
    def text(self, crate, file):
        """Returns the text of a file of a crate, or nothing if there is none."""
        path = self.crates.folder(crate) / file
        return path.read_text(encoding="utf-8") if path.is_file() else ""

    @lru_cache(maxsize=None)
    def definitions(self, crate, file):
        return definitions_in(crate, file, self.text(crate, file))

    @lru_cache(maxsize=None)
    def items(self, crate):
        """Returns the types, traits and constants of a crate, by their names."""
        found = {}
        for path in sorted((self.crates.folder(crate) / "src").rglob("*.rt")):
            file = str(path.relative_to(self.crates.folder(crate)))
            for unit in items_in(crate, file, self.text(crate, file)):
                found.setdefault(unit.name, []).append(unit)
        return found

    @lru_cache(maxsize=None)
    def imported(self, crate, file):
        """Returns the units of each name that a file imports."""
        text, found = self.text(crate, file), {}
        for module, names, other in imports_of(COMMENT_OR_TEXT.sub(literal, text) if file.endswith(".antt") else text):
            for name in [other] if other else names:
                found.setdefault(name, []).extend(self.of_module(module, None if other else name))
        return found

    def of_module(self, module, name):
        """Returns the units that a module gives a name, or all of it if none is named. What is of the kit has none."""
        crate, part, *path = module
        if crate not in self.crates.lines:
            return []
        if part == "specs" and path[:1] == ["declared"]:
            items = self.items(crate)
            return [it for word in [*path, name] for it in items.get(word, [])]
        file = f"{part}/{'/'.join(path)}.antt"
        here = self.definitions(crate, file)
        if name in here:
            return [here[name]]
        # It hands out what it imports, too.
        return self.imported(crate, file).get(name) or list(here.values())

    def at_path(self, crate, path):
        """Returns the types, traits and constants that a path in a source file of a crate names on its way."""
        home = path[0] if path[0] in self.crates.lines else crate
        here = [it for name in path for it in self.items(home).get(name, [])]
        return here or [it for each in self.crates.below(home) for it in self.items(each).get(path[-1], [])]

    @lru_cache(maxsize=None)
    def used(self, crate, file):
        """Returns the units of each name that the `use` lines of a source file bring in, or that the file has."""
        found = {}
        for tree in USE.findall(blanked(self.text(crate, file))):
            for path, name in paths_in(" ".join(tree.split())):
                found.setdefault(name, []).extend(self.at_path(crate, path))
        for name, units in self.items(crate).items():
            found.setdefault(name, []).extend(it for it in units if it.file == file)
        return found

    @lru_cache(maxsize=None)
    def named_in(self, unit):
        """Returns the units that a unit names."""
        words, found = words_in(unit.text), []
        if unit.file.endswith(".antt"):
            found += [it for name, it in self.definitions(unit.crate, unit.file).items() if is_named(name, words)]
        else:
            used = self.used(unit.crate, unit.file)
            found += [it for name in words & used.keys() for it in used[name]]
            found += [it for path in PATH.findall(unit.text) for it in self.at_path(unit.crate, path.split("::"))]
        for name, units in self.imported(unit.crate, unit.file).items():
            found += units if is_named(name, words) else []
        return found

    def reached_from(self, units):
        """Returns the units that these reach by the names in them, with these."""
        found, waiting = set(units), list(units)
        while waiting:
            for it in self.named_in(waiting.pop()):
                if it not in found:
                    found.add(it)
                    waiting.append(it)
        return found
