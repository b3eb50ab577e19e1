"""The names of definitions: a name means one thing, whichever crate defines it, and a thing has one name.

The `specs/` of two crates define no name, except a few with a reason each. What the whole language has of its own bears
the name that the profile gives it, with `Whole` before it, and not the name of a standard.
"""

import re

from tests.frame.cases import tests_of
from tests.frame.harness import TOP

# A name that two crates define, and why it may stay so.
EXCEPTIONS = {}
# Comments, and the names of a crate and its tests.
CRATE = re.compile(r"(?://|--).*|\bpf_posix\b|\bmod posix\b")
# Words that stood for `WholeConv`, `WholeLength` and `WholeArgType`, and for `Whole`.
OTHER_WORDS = re.compile(r"\b(?:Whole)?(?:Conversion|Modifier|ArgumentType)\b(?=::)|\w*[Pp]osix\w*")


def definitions(path):
    """The names that a file of specs/ defines, except the fields of records and the constructors of data."""
    inside = None
    for line in path.read_text(encoding="utf-8").splitlines():
        indent = len(line) - len(line.lstrip())
        if not line.strip() or line.lstrip().startswith("--") or inside is not None and indent > inside:
            continue
        inside = None
        found = re.match(r"\s*((?:(?:abbrev|pub|record|data) )+)([^\s:({]+)", line)
        if found and found.group(2) not in ("mod", "use"):
            if {"record", "data"} & set(found.group(1).split()):
                inside = indent
            yield found.group(2)


def clashes():
    """The names that two crates define, with these crates."""
    crates = {}
    for path in sorted(TOP.glob("crates/*/specs/**/*.antt")):
        crate = path.relative_to(TOP / "crates").parts[0]
        for name in definitions(path):
            crates.setdefault(name, set()).add(crate)
    return {name: sorted(where) for name, where in crates.items() if len(where) > 1}


def test_definitions(trials):
    """No name is defined in the specs/ of two crates, but EXCEPTIONS, and these are needed."""
    found = clashes()
    names = sorted(found.keys() - EXCEPTIONS.keys())
    trials.expect("names that definitions of two crates have", {name: found[name] for name in names}, {})
    trials.expect("exceptions that are not needed", sorted(EXCEPTIONS.keys() - found.keys()), [])


def test_vocabulary(trials):
    """The whole language has the profile's words, and nothing but a crate and its tests is named for POSIX."""
    for path in sorted([*TOP.glob("crates/*/specs/**/*.antt"), *TOP.glob("crates/*/src/**/*.rt")]):
        code = CRATE.sub("", path.read_text(encoding="utf-8"))
        trials.expect(f"other words of {path.relative_to(TOP)}", sorted(set(OTHER_WORDS.findall(code))), [])


Tests = tests_of(globals())
