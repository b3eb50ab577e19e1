"""Finds names that nothing uses: those that a file imports, and lemmas, definitions and functions.

An import is used if its file names it again; in a source file a contract, ghost code or an attribute has to. A lemma or
a definition is used if its file names it outside of its own text, or if another file does that names its file. A
function is used if other code names it. The goals of proof files, fields of records, examples, tests, exported
functions, methods of traits and laws need no use.

Of the Python module it finds imports that don't go down, and names that two classes have.
"""

import ast
import re
from collections import Counter, defaultdict
from pathlib import Path

from tests.frame.cases import tests_of
from tests.frame.harness import TOP
from tests.mutants import rattle_functions
from tests.mutants.crates import PARTS
from tests.mutants.definitions import without_comments
from tests.mutants.public_functions import exported, is_public

IMPORT = re.compile(r"^ *(?:ghost )?use Rattle\.[\w.]+(?:\.\{([^}]*)\}| as (\w+));?$", re.MULTILINE)
# What begins a part of a source file that may name what `ghost use` imports; the part is in the braces after it.
GHOST = re.compile(r"\b(?:ensures|requires|decreases|ghost)\b[^{};]*(?=\{)")
WORD = re.compile(r"\[\]|[^\s(){}\[\].,;:]+")
SIGNATURE = re.compile(r" *(?:(?:abbrev|unfoldable|inst|pub|record|data) )*([^\s:(){}\[\]]+)(?: *[:({]| +where\b)")
NO_SIGNATURE = re.compile(r" *(?:(?:pub )?(?:use|mod)|infix\w*) ")
PROGRAM = "fmtcanon"
# The floors of the Python module, from its own files up to the commands: a file imports from its package and from lower
# floors. Those on one floor don't import each other.
FLOORS = (
    *("fmtcanon", "frame", "formats", "source", "catalogs", "compiling", "fitting", "rewriting"),
    "checker diff explain lsp po replace",
)
PLANTED_PYTHON = {
    "fmtcanon/models.py": "from .kinds import diff\nfrom . import frame\nclass Twice: pass\n",
    "fmtcanon/source/places.py": "import re\nfrom ..fitting.unit import lost\nfrom .tokens import NAME\n"
    "from .. import same\n",
    "fmtcanon/diff/trees.py": "from fmtcanon.po import lost\nfrom ..frame.output import put\nclass Twice: pass\n",
}
# Files with unused names, which are `lost` or in which `lost` is a part of the name.
PLANTED = {
    "crates/low/src/low.rt": """ghost use Rattle.low.specs.Low.{◌+lost◌, known, lost, ◌·◌};
ghost use Rattle.low.specs.Low as lost_module;

/// Here it is lost.
fn called(lost: u8) -> u8
    ensures { result ≡ known · 1 }
{
    lost
}

fn lost_function() -> u8 {
    lost_function(called(1))
}
""",
    "crates/low/specs/Low.antt": """use Rattle.std.specs.Prelude.{ℕ, [], lost, zero as lost_zero}

module _ (n : ℕ) where
  -- not lost_again
  pub known : List ℕ
  known = []

  pub record lost_again : Type 0 where
    pub field : lost_again

pub returns : goal.returns
returns c = refl
""",
    "crates/low/proofs/Other.antt": "pub lost_again : ℕ\nlost_again = lost_again\n",
}


def words_in(text):
    """Returns how often each word occurs in a text: a name, a part of a path, or a symbol."""
    return Counter(WORD.findall(text))


def times(name, words):
    """Returns how often these words have a name: that of an operator is `◌+◌`, and its symbol `+`."""
    return min(words[it] for it in name.split("◌") if it)


def ghost_text(text):
    """Returns the contracts, the ghost code and the attributes of a source file without comments."""
    code = rattle_functions.blanked(text)
    parts = [text[it.start() : rattle_functions.group_end(code, it.end())] for it in GHOST.finditer(code)]
    return " ".join([*parts, *re.findall(r"#!?\[[^\]]*\]", text)])


def unused_imports(file, text):
    """Returns the imports of a file without comments that it doesn't use."""
    names = [it.split(" as ")[-1] for group, other in IMPORT.findall(text) for it in (other or group).split(",")]
    rest = IMPORT.sub("", text)
    words = words_in(ghost_text(rest) if file.endswith(".rt") else rest)
    return [it for it in map(str.strip, names) if it and not times(it, words)]


def definitions_in(text):
    """Returns the texts of the lemmas and definitions of a file without comments, by their names."""
    found, name, levels = defaultdict(str), None, [0]
    for line in text.splitlines():
        indent = len(line) - len(line.lstrip())
        while indent < levels[-1]:
            levels.pop()
        if indent == levels[-1]:
            signature = SIGNATURE.match(line)
            if line.lstrip().startswith("module "):
                name, levels = None, [*levels, indent + 2]
            elif NO_SIGNATURE.match(line):
                name = None
            elif signature:
                name = signature[1]
        if name:
            found[name] += line + "\n"
    return {name: it for name, it in found.items() if not re.search(r"[:→]\s*goal\.", it)}


def unused_definitions(texts):
    """Yields the file and the name of each lemma and definition that nothing uses."""
    words = {file: words_in(text) for file, text in texts.items()}
    stems, naming = {Path(file).stem for file in texts}, defaultdict(list)
    for file, it in words.items():
        for stem in stems & it.keys():
            naming[stem].append(file)
    for file in texts:
        if file.endswith(".antt") and not file.endswith("Examples.antt"):
            others = [words[it] for it in naming[Path(file).stem] if it != file]
            for name, own in definitions_in(texts[file]).items():
                if times(name, words[file]) == times(name, words_in(own)) and not any(times(name, it) for it in others):
                    yield file, name


def code_words(text):
    """Returns how often each name occurs in code."""
    return Counter(re.findall(r"\w+", rattle_functions.blanked(text)))


def needs_no_use(function, crate, exports):
    """Returns whether nothing in the repository has to call a function."""
    is_exported = function.visibility == "pub extern" if crate == PROGRAM else is_public(function, *exports)
    return is_exported or " for " in function.block or function.path == "main" or function.path.startswith("laws::")


def unused_functions(texts):
    """Yields the file and the name of each function that nothing uses."""
    words, crates = Counter(), defaultdict(dict)
    for file, text in texts.items():
        if file.endswith(".rt"):
            words += code_words(text)
            crates[Path(file).parts[1]]["/".join(Path(file).parts[2:])] = text
    for crate, sources in crates.items():
        homes, exports = rattle_functions.homes_of(sources), exported(sources)
        for file, text in sources.items():
            for it in rattle_functions.functions(text, file, homes) if "/tests" not in file else []:
                name = it.path.rpartition("::")[2]
                is_used = words[name] > code_words(text[it.head : it.end])[name]
                if not is_used and not needs_no_use(it, crate, exports):
                    yield f"crates/{crate}/{file}", name


def unused(texts):
    """Returns the file and the name of each import, definition and function that nothing uses, of texts by their
    files.
    """
    texts = {file: without_comments(file, text) for file, text in texts.items()}
    imports = [(file, it) for file, text in texts.items() for it in unused_imports(file, text)]
    return [*imports, *unused_definitions(texts), *unused_functions(texts)]


def upwards(texts):
    """Returns the file and the package of each import that doesn't go down, of texts of Python by their files, and the
    names that two classes have.
    """
    floors = {name: number for number, names in enumerate(FLOORS) for name in names.split()}
    found, classes = [], Counter()
    for file, text in texts.items():
        own = Path(file).parts[-2]
        for node in ast.walk(ast.parse(text)):
            classes[node.name if isinstance(node, ast.ClassDef) else None] += 1
            is_of_module = isinstance(node, ast.ImportFrom) and (node.level or node.module.split(".")[0] == "fmtcanon")
            if is_of_module and (node.level != 1 or own == "fmtcanon"):
                path = (node.module or "").split(".")
                names = [it for it in path if it not in ("", "fmtcanon")] or [it.name for it in node.names]
                packages = [it for it in names if it in floors] or ["fmtcanon"]
                found += [(file, it) for it in packages if it != own and floors[it] >= floors[own]]
    return found, [name for name, count in classes.items() if name and count > 1]


def test_floors(trials):
    """Imports of the Python module go down, and no two of its classes have one name."""
    wanted = [("models.py", "frame"), ("places.py", "fitting"), ("trees.py", "po")]
    found, twice = upwards(PLANTED_PYTHON)
    trials.expect(
        "imports that are planted", ([(Path(file).name, it) for file, it in found], twice), (wanted, ["Twice"])
    )
    files = sorted(TOP.glob("python/fmtcanon/**/*.py"))
    trials.expect("floors", upwards({str(it): it.read_text(encoding="utf-8") for it in files}), ([], []))


def test_unused_names(trials):
    """Nothing brings in or defines a name that nothing uses."""
    planted = [(Path(file).name, it) for file, it in unused(PLANTED)]
    wanted = [("low.rt", it) for it in ["◌+lost◌", "lost", "lost_module"]]
    wanted += [("Low.antt", it) for it in ["lost", "lost_zero", "lost_again"]]
    wanted += [("Other.antt", "lost_again"), ("low.rt", "lost_function")]
    trials.expect("unused names that are planted", planted, wanted)
    files = [it for part in PARTS for it in sorted(TOP.glob(f"crates/*/{part}/**/*.*t*"))]
    found = unused({str(it.relative_to(TOP)): it.read_text(encoding="utf-8") for it in files})
    trials.expect("names that nothing uses", found, [])


Tests = tests_of(globals())
