"""Tries fmtcanon-replace without libclang: usage errors, and that it is missing."""

import sys

from tests.commands.replace.more_replace import NEW, OLD, PLAIN, SCRIPT
from tests.commands.tool import Tool
from tests.frame.cases import tests_of

USAGE = [
    ([], "usage: fmtcanon-replace"),
    (["%i"], "the following arguments are required"),
    (["--what", "%i", "%d", "a.c"], "unrecognized arguments"),
    (["--model", "LP64", "%i", "%d", "a.c"], "invalid choice"),
    (["--by", "pattern", "%i", "%d", "a.c"], "unrecognized arguments"),
    (["--function", "tell", "%i", "%d", "a.c"], "isn't NAME:FORMAT[:FIRST]"),
    (['%d"', "%d", "a.c"], "between the quotes"),
    (["%d\\", "%d", "a.c"], "between the quotes"),
    (["%d\\q", "%d", "a.c"], "between the quotes"),
    (["--list", "--pairs", "x", "a.c"], "give one of --pairs and --list"),
    (["--list-functions", "--list", "a.c"], "give one of --list and --list-functions"),
    (["--pairs", "nowhere", "a.c"], "nowhere: No such file or directory"),
    (["--output", "xml", "%i", "%d", "a.c"], "argument --output: invalid choice"),
]
# What is said without libclang, with the Python that lacks it.
WITHOUT_LIBCLANG = (
    "fmtcanon-replace: libclang is missing: {python} has no module clang.cindex. The package python3-clang has it for "
    "the system's Python; for this one: {python} -m pip install libclang\n"
)


def tool(folder, work):
    """The command, with a Python that finds no libclang."""
    found = Tool("replace", folder, work, script=SCRIPT)
    found.put("modules/clang/__init__.py", "raise ImportError\n")
    found.environment["PYTHONPATH"] = f"{work}/modules:{found.environment['PYTHONPATH']}"
    return found


def test_usage(tool, trials):
    for words, line in USAGE:
        status, report, fault = tool.run(*words)
        trials.expect(f"replace {words}", (status, report, line in fault or fault), (2, "", True))
    status, report, fault = tool.run("--help")
    trials.expect("replace --help", (status, "usage: fmtcanon-replace" in report, fault), (0, True, ""))


def test_without_libclang(tool, trials):
    """It says what is missing, and no file is changed."""
    file = tool.put("a.c", PLAIN)
    said = WITHOUT_LIBCLANG.format(python=sys.executable)
    trials.expect("without libclang", tool.run(OLD, NEW, "a.c"), (2, "", said))
    trials.expect("the file then", file.read_text(), PLAIN)


Tests = tests_of(globals())
