"""Checks that `==` of each type of the crates is the one that `derive` makes, which compares all that a value has.

The contract of `PartialEq` asks for an equivalence only, so one written by hand could say that all values are equal,
and tests that compare by it would see nothing.
"""

import re

from tests.frame.cases import tests_of
from tests.frame.harness import TOP

# An implementation by hand, with parameters or without.
BY_HAND = re.compile(r"^impl\b[^{]*\bPartialEq\b[^{]*\bfor\s+(\w+)", re.MULTILINE)


def test_derived(trials):
    """No file of the crates implements it by hand, and many derive it."""
    texts = {path: path.read_text(encoding="utf-8") for path in sorted(TOP.glob("crates/*/src/**/*.rt"))}
    by_hand = {str(path.relative_to(TOP)): found for path, text in texts.items() if (found := BY_HAND.findall(text))}
    trials.expect("types whose `==` is written by hand", by_hand, {})
    derived = [path for path, text in texts.items() if re.search(r"^#\[derive\(.*\bPartialEq\b", text, re.MULTILINE)]
    trials.expect("a file that derives it", derived != [], True)


def test_planted(trials):
    """One by hand is seen."""
    for line, name in [
        ("impl PartialEq for Bounds {", "Bounds"),
        ("impl<A: Copy> PartialEq<Found<A>>\n    for Found<A>\n{", "Found"),
    ]:
        trials.expect(f"the type of {line!r}", BY_HAND.findall(f"\n{line}\n"), [name])


Tests = tests_of(globals())
