"""Tries the options that fmtcanon-check, -diff and -replace share: each has one meaning in all of them."""

import re

from tests.commands.tool import Tool
from tests.frame.cases import tests_of

SAYS = "#include <stdio.h>\nvoid say(int, const char *, ...);\n"
CALL = SAYS + 'void f(size_t n, unsigned long m) { printf("%lu", n); say(1, "%lu", n); printf("%ld", m); }\n'
# The options of check, diff and replace, the status, and what is said: the file, the line and the kind of each finding.
SHARED = [
    ("check", ["."], 1, ["a.c:3 size", "in/b.c:3 size"]),
    ("check", ["--exclude", "in", "."], 1, ["a.c:3 size"]),
    ("check", ["--exclude", "*.c", "."], 0, []),
    ("check", ["--exclude=in", "--function", "say:2", "."], 1, ["a.c:3 size", "a.c:3 size"]),
    ("check", ["--exclude=in", "--function", "say:2:3", "."], 1, ["a.c:3 size", "a.c:3 size"]),
    ("check", ["--exclude=in", "--function", "say:2:0", "."], 1, ["a.c:3 size"]),
    ("check", ["--exclude=in", "--fail-on", "rank", "."], 0, ["a.c:3 size"]),
    ("check", ["--exclude=in", "--fail-on", "sign", "--sign", "."], 1, ["a.c:3 size", "a.c:3 sign"]),
    ("check", ["--exclude=in", "--fail-on=", "none.c"], 2, ["none.c:1 skipped"]),
    ("check", ["--exclude=in", "--dry-run", "."], 0, ["a.c:3 fixed"]),
    ("replace", ["--dry-run", "%lu", "%1lu", "a.c"], 1, ["a.c:3 replaced", "a.c:3 skipped"]),
    ("replace", ["--dry-run", "--exclude=in", "--function", "say:2", "%lu", "%1lu", "."], 0, ["a.c:3 replaced"] * 2),
    (
        "replace",
        ["--dry-run", "--exclude=in", "--fail-on=", "%lu", "%1lu", "."],
        0,
        ["a.c:3 replaced", "a.c:3 skipped"],
    ),
    ("replace", ["--dry-run", "--exclude=in", "--fail-on=replaced", "%ld", "%li", "."], 1, ["a.c:3 replaced"]),
    ("replace", ["--dry-run", "--exclude=in", "--flag=-fplugin=x", "%ld", "%li", "."], 2, ["a.c:1 skipped"]),
    ("diff", ["old", "."], 1, ["a.c:3 types"] * 3 + ["in/b.c:3 types"] * 3),
    ("diff", ["--exclude=in", "--function", "say:1", "old", "."], 1, ["a.c:3 types", "a.c:3 types"]),
    ("diff", ["--exclude=in", "--fail-on=words", "old", "."], 0, ["a.c:3 types"] * 3),
]


def test_shared(folder, python, trials, work):
    for name, text in [("a.c", CALL), ("in/b.c", CALL)]:
        for side, source in [("new", text), ("old", text.replace("%l", "%ll"))]:
            file = work / side / name
            file.parent.mkdir(parents=True, exist_ok=True)
            file.write_text(source, encoding="utf-8")
    (work / "old").rename(work / "before")
    for command, words, status, wanted in SHARED:
        words = ["../before" if it == "old" else it for it in words]
        found, output, fault = Tool(command, folder, work / "new", python).run(*words)
        said = [re.sub(r"^(?:\./)?([^:]+:\d+):.*\[(\w+)\]$", r"\1 \2", it) for it in output.splitlines()]
        trials.expect(f"{command} {words}: {output} {fault}", (found, said), (status, wanted))
        trials.expect(f"{command} {words}: the file", (work / "new/a.c").read_text(encoding="utf-8"), CALL)


def test_calls_without_database(folder, python, trials, work):
    """With --flag, fmtcanon-diff asks the compiler whether the new call fits, as with -p."""
    for name, format in [("old.c", "%d"), ("new.c", "%ld")]:
        (work / name).write_text(f'{SAYS}void f(LONG n) {{ printf("{format}", n); say(1, "{format}", n); }}\n', "utf-8")
    for words, notes in [([], 0), (["--flag=-DLONG=long"], 1), (["--flag=-DLONG=long", "--function=say:2"], 2)]:
        _, output, fault = Tool("diff", folder, work, python).run(*words, "old.c", "new.c")
        trials.expect(f"{words}: {output} {fault}", output.count("and the call fits"), notes)


Tests = tests_of(globals())
