"""Checks that the definitions that a headline depends on are in one folder, and that the folder has no others.

It begins with the names in the contracts of STARTS, and goes from each definition to those that it names. What it
reaches has to be in FOLDER, and what is there has to be reached. It checks docs/DEFINITIONS.md against that: how many
lines the folder has, and which constants of the code the definitions use.

It does the same for the headline of the whole language, with WHOLE_STARTS and WHOLE_FOLDER. That headline also depends
on definitions of FOLDER, and on those of `pf_posix`.

No file that is reached names anything else than definitions of these folders, declarations of the code, and
definitions of the library: a word of `proofs/` or of another crate could mean anything.

What is reached is listed in reached.md, also what REFUSALS, those in the whole language, reach, and neither ACCEPTED
nor FOLDER has. `python3 -m tests.documents.test_reach` writes that file. It has the sizes, too: also of what an answer
of the program depends on, and of what the calls of the C library do. docs/VERIFICATION.md has these numbers.
"""

import re
from dataclasses import dataclass, field
from functools import lru_cache

from tests.frame.cases import tests_of
from tests.frame.harness import TOP

PAGE = TOP / "tests/documents/reached.md"
FOLDER = "Rattle.pf_values.specs.meaning"
# The functions whose contracts are the headline, and what a refusal says.
STARTS = [("pf_compare/src/laws.rt", "headline"), ("pf_text/src/checking.rt", "check")]
# The same for the headline of the whole language, and the crate whose definitions it uses that lie in no such
# folder.
WHOLE_FOLDER = "Rattle.pf_whole.specs.meaning"
WHOLE_STARTS = [("pf_whole/src/laws.rt", "headline")]
# The law that names no canonical text.
SAMENESS_STARTS = [("pf_compare/src/laws.rt", "sameness")]
LOWER = "Rattle.pf_posix.specs"
# The words for a refusal in the whole language, each with the function whose contract has it; and the words for
# acceptance.
REFUSALS = [(f"{LOWER}.Refusals", "IsWholeRefusedAt"), (f"{LOWER}.Unnumbered", "IsUnnumberedRefusedAt")]
REFUSED_BY = [
    ("pf_posix/src/argument_types.rt", "arguments"),
    ("pf_whole/src/canonical_texts.rt", "check"),
]
ACCEPTED = [(f"{LOWER}.Items", "HasArguments"), (f"{LOWER}.Stretches", "IsUnnumberedAccepted")]
# The function whose contract is that of the program, and the crate whose exported functions are the calls of the C
# library.
PROGRAM_STARTS = [("fmtcanon/src/run.rt", "run")]
LIBRARY = "fmtcanon_c/src"
EXPORTED = re.compile(r'^pub extern "C" fn (\w+)', re.MULTILINE)
# What the files may name, besides each other: the library's definitions, the code's declarations, and the number of a
# character, which is built into the prover.
KNOWN = r"(Rattle\.(std\.specs|\w+\.specs\.declared)|Prim\.Native\.Char)\."
# Where a refusal in the whole language has definitions, too.
READERS = ["Rattle.pf_values.specs", "Rattle.pf_text.specs"]
NAME = r"[^\W\d]\w*"
# An import: of names of a module, or of a module by another name.
IMPORT = re.compile(
    rf"^ *(?:ghost )?(pub )?use ((?:Rattle|Prim)[\w.]+?)(?:\.\{{([^{{}}]*)\}}| as ({NAME}));?$", re.MULTILINE
)
# What a definition begins with, at the margin or inside a module with parameters.
HEAD = re.compile(rf"^(?:  )?(?:abbrev |inst )?(?:pub )?(record |data )?({NAME}) *(?:[:({{]|where)")
WORDS = re.compile(rf"(?<![\w.])({NAME})((?:\.{NAME})*)")


@dataclass
class Module:
    """The definitions of a file, and the names that it imports, each with the module and the name there."""

    texts: dict = field(default_factory=dict)
    # The constructors of each type, by their names.
    types: dict = field(default_factory=dict)
    imports: dict = field(default_factory=dict)
    aliases: dict = field(default_factory=dict)

    def named(self, text):
        """What a text names: each a module and a name in it."""
        for word, rest in WORDS.findall(text):
            if rest and word in self.aliases:
                yield self.aliases[word], rest.split(".")[1]
            elif word in self.imports:
                yield self.imports[word]


def without_comments(text):
    """The text of a file without its comments."""
    return re.sub(r"(^|\s)(--\s|//).*$", r"\1", text, flags=re.MULTILINE)


def imports_of(text, module):
    """Notes the imports of a file, and returns the text without them."""
    for _, path, names, alias in IMPORT.findall(text):
        if alias:
            module.aliases[alias] = path
        for name in filter(None, (it.strip() for it in names.split(","))):
            there, _, here = name.partition(" as ")
            module.imports[(here or there).strip()] = (path, there.strip())
    return IMPORT.sub("", text)


def file_of(path):
    """The file of a module of definitions; None for those of the code and of the library."""
    crate, _, inside = path.removeprefix("Rattle.").partition(".specs.")
    file = TOP / "crates" / crate / "specs" / (inside.replace(".", "/") + ".antt")
    return file if file.is_file() else None


@lru_cache(maxsize=None)
def module_of(path):
    """The module of this path, with the parameters of a `module _` before each definition inside."""
    module, shared, name = Module(), "", None
    for line in imports_of(without_comments(file_of(path).read_text(encoding="utf-8")), module).splitlines():
        head = HEAD.match(line)
        if line.startswith("module "):
            shared, name = line, None
        elif head and (not line.startswith(" ") or shared) and not re.match(r"  pub (?!record |data )", line):
            name, shared = head[2], shared if line.startswith(" ") else ""
            module.texts.setdefault(name, shared + "\n")
            module.types.setdefault(name, name)
            data = name if head[1] == "data " else None
        if name:
            module.texts[name] += line + "\n"
            if data and line.startswith("  "):
                module.types.update({it: data for it in line.partition(":")[0].split()})
    return module


def definition(path, name):
    """The definition of a name that a module has or hands on: for a constructor its type; None for others."""
    if file_of(path) is None:
        return None
    module = module_of(path)
    if name in module.types:
        return path, module.types[name]
    return definition(*module.imports[name]) if name in module.imports else None


def plain_body(text, name):
    """The text of a definition without its own name, and without the names of fields before their types and values."""
    text = re.sub(rf"(?<![\w.]){re.escape(name)}(?!\w)", " ", text)
    return re.sub(rf"^ +pub {NAME}|([{{;]\s*){NAME}(?= =)", r"\1", text, flags=re.MULTILINE)


def contract(file, function):
    """The names in the clauses of a function: each a module and a name in it."""
    module = Module()
    text = imports_of(without_comments((TOP / "crates" / file).read_text(encoding="utf-8")), module)
    clauses = re.search(rf'^pub (?:extern "C" )?fn {function}\b.*?^{{', text, flags=re.DOTALL | re.MULTILINE)[0]
    return list(module.named(clauses))


def reached(starts):
    """The definitions that are reached from some contracts, and the other names: each a module and a name in it."""
    return reached_from(name for file, function in starts for name in contract(file, function))


def reached_from(names):
    """The same from some names."""
    found, others = set(), set()
    left = list(names)
    while left:
        path, name = left.pop()
        there = definition(path, name)
        if there is None:
            others.add((path, name))
        elif there not in found:
            found.add(there)
            module = module_of(there[0])
            body = plain_body(module.texts[there[1]], there[1])
            own = {word for word, _ in WORDS.findall(body) if word in module.types}
            left += [(there[0], word) for word in own] + list(module.named(body))
    return found, others


def library_starts():
    """The calls of the C library, each with its file."""
    files = [file.relative_to(TOP / "crates") for file in sorted((TOP / "crates" / LIBRARY).glob("*.rt"))]
    return [
        (file, name) for file in files for name in EXPORTED.findall((TOP / "crates" / file).read_text(encoding="utf-8"))
    ]


def size_of(found):
    """How many definitions these are, and how many lines they have, without comments, imports and empty lines."""
    lines = [line for path, name in found for line in module_of(path).texts[name].splitlines() if line.strip()]
    return len(found), len(lines)


def sizes():
    """What each begins with, and the size of what it depends on."""
    starts = {
        "Which formats are equivalent": SAMENESS_STARTS,
        "The headline and a rejection": STARTS,
        "The headline of the whole language": WHOLE_STARTS,
        "An answer of the program": PROGRAM_STARTS,
        "The calls of the C library": library_starts(),
    }
    return {name: size_of(reached(start)[0]) for name, start in starts.items()}


def all_there(folder):
    """The definitions of a folder."""
    top = file_of(folder).with_suffix("")
    paths = [
        f"{folder}.{file.relative_to(top).with_suffix('')}".replace("/", ".") for file in sorted(top.rglob("*.antt"))
    ]
    return {(path, name) for path in paths for name in module_of(path).texts}


def lines_there(folder):
    """How many lines a folder has, and how many without comments, imports and empty lines."""
    texts = [file.read_text(encoding="utf-8") for file in file_of(folder).with_suffix("").rglob("*.antt")]
    plain = [
        line for text in texts for line in imports_of(without_comments(text), Module()).splitlines() if line.strip()
    ]
    return [sum(text.count("\n") for text in texts), len(plain)]


def of_code(others):
    """The types and the constants of the code among these names, without the variants of the types."""
    found = {(path, name) for path, name in others if ".specs.declared." in path}
    constants = {name for path, name in found if path.endswith(".TheConstants")}
    types = {
        path.removesuffix(".TheVariants").rpartition(".")[2]
        for path, name in found
        if not path.endswith(".TheConstants")
    }
    return types, constants


def strays(text, folders):
    """What the text of a file of definitions names outside of these folders and of what is KNOWN: the modules that it
    imports, and the lines with paths or imports that are left.
    """
    module = Module()
    rest = imports_of(without_comments(text), module)
    paths = {path for path, _ in module.imports.values()} | set(module.aliases.values())
    outside = [
        it for it in paths if not re.match(KNOWN, it + ".") and not it.startswith(tuple(f"{at}." for at in folders))
    ]
    return sorted(outside) + re.findall(r"^.*\bRattle\..*$|^ *(?:pub )?use .*$", rest, re.MULTILINE)


def in_words(names):
    """These definitions, to be printed."""
    return sorted(f"{path}.{name}" for path, name in names)


def of_library(others):
    """The words of the library among these names, without operators."""
    return {name for path, name in others if path.startswith("Rattle.std.") and re.fullmatch(r"[a-zA-Z_]\w+", name)}


def counted(text, words):
    """The two numbers of lines after these words of a document."""
    found = re.search(rf"{re.escape(words)}[^\n]*?([\d,]+) lines, ([\d,]+) of them without comments", text)
    return found and [int(it.replace(",", "")) for it in found.groups()]


def by_file(names):
    """Lines of a list: each file of these definitions, with their names."""
    files = {}
    for path, name in sorted(names):
        files.setdefault(path.removeprefix("Rattle.").replace(".specs.", "/specs/").replace(".", "/"), []).append(name)
    return [f"- `crates/{file}.antt`: " + ", ".join(f"`{it}`" for it in found) for file, found in files.items()]


def in_line(what, names):
    return f"{what}: " + ", ".join(f"`{it}`" for it in sorted(names)) + "." if names else f"{what}: none."


def of_headlines():
    """What both headlines and the refusals of the whole language depend on: definitions, and names of others."""
    first, others = reached(STARTS)
    whole, more = reached(WHOLE_STARTS)
    (refused, named), (accepted, known) = reached_from(REFUSALS), reached_from(ACCEPTED)
    own = {(path, name) for path, name in refused - accepted if not path.startswith(FOLDER + ".")}
    return (first, others), (whole - first, more - others), (own - whole, named - known)


def page():
    """The text of reached.md."""
    heads = [
        "The headline and a rejection",
        "The headline of the whole language, besides",
        "A rejection in the whole language, besides",
    ]
    lines = ["# What the headlines depend on", "", "`python3 -m tests.documents.test_reach` writes this file."]
    lines += ["", "| Depends on | Definitions | Lines |", "|---|---|---|"]
    lines += [f"| {name} | {count:,} | {length:,} |" for name, (count, length) in sizes().items()]
    for head, (found, others) in zip(heads, of_headlines()):
        types, constants = of_code(others)
        lines += ["", f"## {head}", "", *by_file(found), ""]
        lines += [
            in_line("Types of the code", types),
            in_line("Constants of the code", constants),
            in_line("Words of the library", of_library(others)),
        ]
    return "\n".join(lines) + "\n"


def test_page(trials):
    """reached.md has what is reached."""
    trials.expect("tests/documents/reached.md", PAGE.read_text(encoding="utf-8"), page())


def test_reach(trials):
    """The folder has what is reached and no more, and docs/DEFINITIONS.md says how large it is."""
    found, others = reached(STARTS)
    there = all_there(FOLDER)
    trials.expect(f"definitions of {FOLDER} that the headline doesn't depend on", in_words(there - found), [])
    trials.expect(f"definitions that the headline depends on, outside of {FOLDER}", in_words(found - there), [])
    text = (TOP / "docs/DEFINITIONS.md").read_text(encoding="utf-8")
    constants = re.search(r"two constants of the code, `(\w+)`, 4,095, and `(\w+)`, 2\^62", text)
    trials.expect(
        "constants of the code in docs/DEFINITIONS.md", constants and set(constants.groups()), of_code(others)[1]
    )
    wanted = lines_there(FOLDER)
    trials.expect("lines in docs/DEFINITIONS.md", counted(text, "The headline and a rejection depend on"), wanted)
    try_whole(trials, others)


def test_strays(trials):
    """What the headlines and refusals depend on is in their folders and in what is known, however it is named."""
    first, whole, refused = ({path for path, _ in found} for found, _ in of_headlines())
    for paths, folders in [
        (first, [FOLDER]), (whole, [FOLDER, WHOLE_FOLDER, LOWER]), (refused - whole, [FOLDER, LOWER, *READERS])
    ]:
        for path in sorted(paths):
            trials.expect(f"what {path} names besides", strays(file_of(path).read_text(encoding="utf-8"), folders), [])


def test_planted_strays(trials):
    """Each way out of the folder is seen."""
    text = file_of(f"{FOLDER}.Items").read_text(encoding="utf-8")
    trials.expect("what Items.antt names besides", strays(text, [FOLDER]), [])
    for old, new in [
        (f"use {FOLDER}.Spelling.", "use Rattle.pf_values.proofs.Hidden."),
        (f"use {FOLDER}.Spelling.", f"use Rattle.pf_values.proofs.Hidden.{{MayBe}}\nuse {FOLDER}.Spelling."),
        ("IsAccepted t =", "IsAccepted t = Rattle.pf_values.proofs.Hidden.MayBe t ×"),
        (f"use {FOLDER}.Spelling.", f"use Rattle.memchr.specs.Find\nuse {FOLDER}.Spelling."),
        (f"use {FOLDER}.Spelling.", f"use Rattle.memchr.specs.Find.{{◌≡◌}}\nuse {FOLDER}.Spelling."),
        (f"use {FOLDER}.Spelling.", f"use Rattle.std.proofs.Common as common\nuse {FOLDER}.Spelling."),
        (f"use {FOLDER}.Spelling.", f"use native.Mathlib.Nat.{{least}}\nuse {FOLDER}.Spelling."),
    ]:
        edited = text.replace(old, new, 1)
        trials.expect(
            f"{new}: is in the text, and is seen", (edited != text, strays(edited, [FOLDER]) != []), (True, True)
        )


def try_whole(trials, known):
    """The same for the headline of the whole language; `known` are the names that the first headline uses, too."""
    found, others = reached(WHOLE_STARTS)
    there, below = all_there(WHOLE_FOLDER), all_there(FOLDER)
    lower = {(path, name) for path, name in found if path.startswith(LOWER + ".")}
    outside = f"definitions that it depends on, outside of {WHOLE_FOLDER}, {FOLDER} and {LOWER}"
    needless = f"definitions of {WHOLE_FOLDER} that the headline of the whole language doesn't depend on"
    trials.expect(needless, in_words(there - found), [])
    trials.expect(outside, in_words(found - there - below - lower), [])
    trials.expect("constants of the code that the first headline doesn't use", of_code(others - known)[1], set())
    trials.expect("words of the library that the first headline doesn't use", of_library(others - known), set())
    wanted = lines_there(WHOLE_FOLDER)
    at = "The headline of the whole language depends on"
    page = (TOP / "crates/pf_whole/DEFINITIONS.md").read_text(encoding="utf-8")
    trials.expect("lines in DEFINITIONS.md of pf_whole", counted(page, at), wanted)
    verification = (TOP / "docs/VERIFICATION.md").read_text(encoding="utf-8").replace(",", "")
    sizes = re.search(
        r"headlines depend on have (\d+) and (\d+) lines and the second headline uses (\d+) definitions of `pf_posix`",
        verification,
    )
    counts = [lines_there(FOLDER)[0], wanted[0], len(lower)]
    trials.expect("lines in docs/VERIFICATION.md", sizes and [int(it) for it in sizes.groups()], counts)
    read = re.search(r"the (\d+) lines of that folder", verification)
    trials.expect("lines to read, in docs/VERIFICATION.md", read and int(read[1]), counts[0])
    readme = re.search(r"the ([\d,]+) lines of definitions", (TOP / "README.md").read_text(encoding="utf-8"))
    trials.expect("lines to read, in the README", readme and int(readme[1].replace(",", "")), counts[0])


def test_sizes(trials):
    """docs/VERIFICATION.md says how many definitions an answer depends on, in tens, and how many lines they have, in
    hundreds.
    """
    text = (TOP / "docs/VERIFICATION.md").read_text(encoding="utf-8").replace(",", "")
    said = re.search(
        r"answer of the program depends on some (\d+) definitions with (\d+) lines those of the C calls on (\d+) with "
        r"(\d+)",
        text,
    )
    found = sizes()
    wanted = [
        round(number, -digits)
        for name in ("An answer of the program", "The calls of the C library")
        for number, digits in zip(found[name], (1, 2))
    ]
    trials.expect("definitions and lines in docs/VERIFICATION.md", said and [int(it) for it in said.groups()], wanted)
    # Each call of the header is counted, but not fmtcanon_fmtcheck, which is C code.
    header = (TOP / "include/fmtcanon.h").read_text(encoding="utf-8")
    calls = set(re.findall(r"^u?int\d+_t (fmtcanon_\w+)\(", header, re.MULTILINE))
    trials.expect("calls of the C library that are counted", {name for _, name in library_starts()}, calls)


def test_refusals(trials):
    """The contracts of a refusal in the whole language have the words that the list begins with."""
    for word, (file, function) in zip(REFUSALS, REFUSED_BY):
        trials.expect(f"the contract of {function} has {word[1]}", word in contract(file, function), True)
    (_, others), (_, known) = reached_from(REFUSALS), reached_from(ACCEPTED)
    trials.expect("constants of the code in a refusal that acceptance doesn't use", of_code(others - known)[1], set())


Tests = tests_of(globals())

if __name__ == "__main__":
    PAGE.write_text(page(), encoding="utf-8")
