"""Checks the grammar of docs/REFUSALS.md against formats that are accepted, and formats that are rejected.

The formats and their verdicts are rows of tests/rows.
"""

import json
import re

from tests.frame.cases import tests_of
from tests.frame.harness import TOP

# A rule in words, and the bytes that it allows.
IN_WORDS = {'any byte except "%" and NUL': r"[^%\0]"}
# The kinds of formats that the grammar doesn't have. For others the text below the grammar gives the reason.
OUTSIDE = [1, 2, 3, 4, 5, 6, 9, 10, 11]
TOKEN = re.compile(r'"([^"]*)"|(\w+)|([{}\[\]|])')
MARKS = {"{": "(?:", "}": ")*", "[": "(?:", "]": ")?", "|": "|"}


def rules():
    """The rules of the page, by their names."""
    text = (TOP / "docs/REFUSALS.md").read_text(encoding="utf-8").split("## The grammar of the profile\n")[1]
    return dict(re.findall(r"^    (\w+) += (.*)$", text.split("\n## ")[0], re.MULTILINE))


def pattern_of(name, given):
    """A regular expression for the texts of a rule, which uses none that uses it."""
    rule = given[name]
    if rule in IN_WORDS:
        return IN_WORDS[rule]
    parts = (
        re.escape(text) if text else pattern_of(inner, given) if inner else MARKS[mark]
        for text, inner, mark in TOKEN.findall(rule)
    )
    return f"(?:{''.join(parts)})"


def rows(name):
    """The rows of a file of tests/rows, after the one that says where they come from."""
    lines = (TOP / "tests/rows" / name).read_text(encoding="utf-8").splitlines()
    return [json.loads(line) for line in lines[1:]]


def test_grammar(trials):
    """Accepted formats are of the grammar, and formats that are rejected as a kind of OUTSIDE aren't."""
    whole = re.compile(pattern_of("format", rules()), re.DOTALL)
    accepted = [row[0] for name in ("formats.jsonl", "canonical_formats.jsonl") for row in rows(name)]
    trials.expect("accepted formats out of the grammar", [it for it in accepted if not whole.fullmatch(it)], [])
    refused = [format for format, kind, _ in rows("refused.jsonl") if kind in OUTSIDE]
    trials.expect("refused formats of the grammar", [it for it in refused if whole.fullmatch(it)], [])
    trials.expect("formats for the grammar", len(accepted) > 150 and len(refused) > 100, True)


Tests = tests_of(globals())
