"""Checks the doc comments of the public functions in Rattle.

Each begins with a verb, and those of a function that returns a `Result` or an `Option` say when it is `Err` or `None`.
"""

import re

from tests.frame.cases import tests_of
from tests.frame.harness import TOP

VERBS = set(
    """
    Adds Answers Appends Checks Compares Copies Ends Formats Lists Makes Marks Proves Puts Returns Runs Says Takes Wraps
    Writes
""".split()
)
HEAD = re.compile(r'^ *pub (?:const |unsafe |extern "C" )*fn (\w+)')
# What has to be in a comment, by the type that comes after the arrow.
RESULTS = {"Result": r"\bErr\b", "Option": r"\bNone\b"}


def doc_above(lines):
    """The doc comment at the end of some lines, which attributes and comments may follow."""
    found = []
    for line in reversed([it.strip() for it in lines]):
        if line.startswith("///"):
            found.insert(0, line[3:].strip())
        elif found or not line.startswith(("#[", "// ")):
            break
    return " ".join(found)


def public_functions():
    """Yields the public functions, each as its file, its name, its doc comment and the type that it returns."""
    for path in sorted(TOP.glob("crates/*/src/**/*.rt")):
        lines = path.read_text(encoding="utf-8").splitlines()
        for at, line in enumerate(lines):
            if head := HEAD.match(line):
                rest = " ".join(it.strip() for it in lines[at : at + 20])
                returned = re.split(r" (?:ensures|requires)\b| \{", rest)[0].partition("-> ")[2]
                yield str(path.relative_to(TOP)), head[1], doc_above(lines[:at]), returned


def test_doc_comments(trials):
    """Their doc comments begin with a verb, and say when a result is `Err` or `None`."""
    no_verb, silent, count = [], [], 0
    for file, name, doc, returned in public_functions():
        count += 1
        if doc.split(" ")[0] not in VERBS:
            no_verb.append(f"{file}: {name}: {doc[:40]}")
        for kind, word in RESULTS.items():
            if re.match(rf"(?:\w+::)*{kind}\b", returned) and not re.search(word, doc):
                silent.append(f"{file}: {name} returns {kind}")
    trials.expect("doc comments that begin with no verb", no_verb, [])
    trials.expect("doc comments that don't say when a result is Err or None", silent, [])
    trials.expect("public functions", count > 300, True)


Tests = tests_of(globals())
