"""Tries the completions with the other shells, and the manual pages with groff and mandoc."""

import re

from tests.frame.cases import tests_of
from tests.frame.harness import TOP
from tests.library.test_library import lines_of

# What fish completes after these words.
FISH = [
    (" s", ["same", "show", "stream"]),
    (" canon --model=", ["--model=ilp32", "--model=llp64", "--model=lp64"]),
    (" same --model ", ["all", "both", "ilp32", "llp64", "lp64"]),
    (" fits --model ", ["all", "both", "ilp32", "llp64", "lp64"]),
    (" format %d ", ["n:", "s:"]),
    (" format -- %d ", []),
    (" canon -- --m", []),
]
FISH_COMMANDS = [
    ("-diff --model l", ["llp64", "lp64"]),
    ("-replace --list", ["--list", "--list-functions"]),
    ("-po --output=s", ["--output=sarif"]),
]


def test_shells(tools, trials):
    """The other shells read their completions, and groff the manual page."""
    if tools.has("zsh", "zsh"):
        for name in ["_fmtcanon", "_fmtcanon-commands"]:
            trials.expect(f"zsh reads {name}", lines_of(["zsh", "-n", TOP / "completions" / name]), (0, ""))
    if tools.has("fish", "fish"):
        for name, rows in [("fmtcanon", FISH), ("fmtcanon-commands", FISH_COMMANDS)]:
            file = TOP / f"completions/{name}.fish"
            trials.expect(f"fish reads {name}.fish", lines_of(["fish", "-n", file]), (0, ""))
            for words, wanted in rows:
                status, output = lines_of(
                    ["fish", "--no-config", "-c", f"source {file}; complete -C 'fmtcanon{words}'"]
                )
                trials.expect(
                    f"fish: fmtcanon{words}",
                    (status, [line.split("\t")[0] for line in output.splitlines()]),
                    (0, wanted),
                )
    if tools.has("groff", "groff"):
        for page in sorted((TOP / "man").iterdir()):
            trials.expect(f"groff reads {page.name}", lines_of(["groff", "-man", "-ww", "-z", page]), (0, ""))
            _, text = lines_of(["groff", "-man", "-Tutf8", "-P-bcou", "-rLL=80n", page])
            broken = [it for it in text.splitlines() if re.search(r"\w[-\u2010]$", it)]
            trials.expect(f"words that are broken in {page.name}", broken, [])
    if tools.has("mandoc", "mandoc"):
        for page in sorted((TOP / "man").iterdir()):
            trials.expect(f"mandoc finds nothing in {page.name}", lines_of(["mandoc", "-Tlint", page]), (0, ""))


Tests = tests_of(globals())
