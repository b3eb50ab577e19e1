"""Tests of what fmtcanon-check has for every day, without libclang."""

import argparse
import json
import os
import random
import re
import tempfile
import unittest
from collections import Counter
from pathlib import Path
from unittest import mock

from fmtcanon import Type
from fmtcanon.checker import check_options, command
from fmtcanon.checker.baseline import Baseline
from fmtcanon.checker.changes import GitChange, changed_lines
from fmtcanon.compiling.calls import Argument, Call
from fmtcanon.compiling.formats import Format, Literal
from fmtcanon.compiling.git import FileChange
from fmtcanon.fitting.checking import Answer, CallLines, Found
from fmtcanon.fitting.judging import judged
from fmtcanon.fitting.fault_macros import Macros, definitions_in, macro_at
from fmtcanon.fitting.silencing import Silences, comments_of
from fmtcanon.frame.findings import Finding
from fmtcanon.source.comments import ok_comments
from fmtcanon.source.files import Unreadable

from tests.frame.cases import tests_of
from tests.frame.fixtures import prepared

# Sources, and of each comment that silences findings its line and column, the lines that it is for, and its kinds.
COMMENTS = [
    (b"f(); /* fmtcanon: ok */\n", [(1, 6, 1, 1, ())]),
    (b"// fmtcanon: ok size\nf();\n", [(1, 1, 2, 2, ("size",))]),
    (b"  /* fmtcanon: ok size, rank kind */\nf();", [(1, 3, 2, 2, ("size", "rank", "kind"))]),
    (b"/* fmtcanon: ok */ f();\n", [(1, 1, 1, 1, ())]),
    (b"f(); // fmtcanon: ok -- size and more\n", [(1, 6, 1, 1, ())]),
    (b"f(); // fmtcanon: ok size--a reason\n", [(1, 6, 1, 1, ("size",))]),
    (b"/* fmtcanon: ok size --\n   reasons */\nf();\n", [(1, 1, 3, 3, ("size",))]),
    (b"a; /* fmtcanon: ok\n*/ f();\n", [(1, 4, 1, 2, ())]),
    (b"/*** fmtcanon:ok ***/\n", [(1, 1, 2, 2, ())]),
    (b"#define F \\\n  /* fmtcanon: ok */ \\\n  f()\n", [(2, 3, 3, 3, ())]),
    (b"/* first */ // fmtcanon: ok\n", [(1, 13, 2, 2, ())]),
    ("/* ä */ f(); // fmtcanon: ok\n".encode(), [(1, 14, 1, 1, ())]),
    (b'f("/* fmtcanon: ok */");\n', []),
    (b'f(R"(// fmtcanon: ok)");\n', []),
    (b"f('\"'); // fmtcanon: ok\n", [(1, 9, 1, 1, ())]),
    (b"// fmtcanon: okay\n// fmtcanon:\n// see fmtcanon: ok\n// fmtcanon: ok-ish\n", []),
]


def test_where(case):
    for source, wanted in COMMENTS:
        case.assertEqual([tuple(it) for it in ok_comments(source)], wanted, source)


def test_silenced(case):
    """Lines are silenced, for all kinds or those that are named; a comment that silences nothing is noted."""
    with tempfile.TemporaryDirectory() as folder:
        file = Path(folder, "a.c")
        file.write_text("a // fmtcanon: ok size\nb // fmtcanon: ok\nc // fmtcanon: ok siez\n", encoding="utf-8")
        comments_of.cache_clear()
        silences = Silences()
        for line, kind, is_silenced in [
            (1, "size", True),
            (1, "rank", False),
            (2, "rank", True),
            (3, "size", False),
            (4, "size", False),
        ]:
            case.assertEqual(silences.cover([(str(file), line)], kind), is_silenced, (line, kind))
        case.assertFalse(silences.cover([("nothing.c", 2)], "size"))
        unused = [(it.line, it.kind, it.level) for it in silences.unused(str(file))]
        case.assertEqual(unused, [(3, "unused", "note")])
        case.assertEqual([it.line for it in Silences().unused(str(file))], [1, 2, 3])


COUNTED = Counter(files=1), Counter(), {}


def finding(line, kind="size", file="a.c", **details):
    return Finding(file, line, 1, kind, "error", f"of line {line}", details={"function": "printf", **details})


# Preprocessed text with definitions, and the names, files and lines of those outside of system headers.
DEFINED = b"""# 1 "a.c"
# 1 "<built-in>"
#define __LP64__ 1
# 1 "/usr/include/stdio.h" 1 3 4
#define EOF (-1)
# 2 "a.c" 2
# 1 "in/a \\"b.h" 1
#define FMT "%lu"

#define SHOW(n) LOG(FMT, n)
# 7 "in/a \\"b.h"
#define LOG(...) printf("log " __VA_ARGS__)
# 3 "a.c" 2
int x;
#define OTHER(n) printf("%lu", n)
"""
DEFINITIONS = [("FMT", 'in/a "b.h', 1), ("SHOW", 'in/a "b.h', 3), ("LOG", 'in/a "b.h', 7), ("OTHER", "a.c", 4)]
# Lines of a call, and the macro that has the literal "%lu" of its format.
CALLS = [
    ("SHOW(n);", "FMT"),
    ("LOG(FMT, n);", "FMT"),
    ("OTHER(n);", "OTHER"),
    ('printf("x" FMT, n);', "FMT"),
    ("OTHER(n); SHOW(n);", None),
    ('LOG("%lu" FMT, n);', None),
    ("LOG(n);", None),
    ("unknown(n);", None),
]
# A source, and in whose definition each of its words `at` is.
PLACES = b"""#define A "at"
"at" #define
 # define B(x) \\
   f(x, "at") \\
   "at"
"at"
#undef A "at"
"""


def test_definitions(case):
    found = [(it.name, os.path.relpath(it.file), it.line) for it in definitions_in(DEFINED, ".") if not it.is_system]
    case.assertEqual(found[1:], DEFINITIONS)


def test_in_macros_calls(case):
    """The macro is known by the names in the lines of the call, if only one of them has the literal."""
    known = Macros(DEFINED, ".")
    format = Format('"%lu"', (Literal('"%lu"'),))
    with tempfile.TemporaryDirectory() as folder:
        for at, (lines, wanted) in enumerate(CALLS):
            file = Path(folder, f"{at}.c")
            file.write_text(f"first\n{lines}\nlast\n", encoding="utf-8")
            call = Call(str(file), 2, "printf", (format,), (Argument(Type.INT, "int", "int"),), 2)
            [fault] = judged([{(1, "printf", 0): call}] * 4).faults
            found = known.of(fault)
            case.assertEqual(found and found.name, wanted, lines)


def test_places(case):
    at = [it.start() for it in re.finditer(rb"\bat\b", PLACES)]
    case.assertEqual([macro_at(PLACES, it) for it in at], ["A", "", "B", "B", "", ""])


def test_answers(case):
    """What several files have is said once, and what a header's macro has at the end, with all uses."""

    def found(file, line, *uses, **details):
        return Found(finding(line, file=file, **details), None, frozenset(CallLines(*it) for it in uses))

    used = ("a.c", 5, 5, 0), ("a.c", 5, 5, 1), ("b.c", 7, 8, 0), ("a.h", 2, 2, 0)
    answers = [
        {1: found("a.c", 1), 2: found("a.h", 2), 3: found("a.h", 3, *used[1::2], macro="M")},
        {2: found("a.h", 2), 3: found("a.h", 3, used[2], used[3], used[0], macro="M", format="b")},
        {4: found("c.c", 4, used[0], used[2], macro="OWN")},
    ]
    answers = [Answer(f"{name}.c", it, *COUNTED) for name, it in zip("abc", answers)]
    said = [
        [(it.finding.line, it.finding.details.get("uses")) for it in one.found.values()]
        for one in command.each_once(answers)
    ]
    case.assertEqual(said, [[(1, None), (2, None)], [], [(4, 2)], [(3, 4)]])
    *_, last = command.each_once(answers)
    [one] = last.found.values()
    calls = [(it["file"], it["line"]) for it in one.finding.details["calls"]]
    case.assertEqual(calls, [("a.c", 5), ("a.c", 5), ("a.h", 2), ("b.c", 7)])
    # What is said of one call is that of the first, in whatever order files come.
    case.assertEqual((last.file, last.counts, one.finding.details["format"]), ("a.h", Counter(), "b"))


# Texts before and after a change, and the lines that it adds, or between which it removes some.
CHANGES = [
    ("a\nb\nc\n", "a\nb\nc\n", []),
    ("a\nb\nc\n", "a\nx\ny\nc\n", [(2, 3)]),
    ("a\nb\nc\n", "a\nc\n", [(2, 1)]),
    ("a\nb\nc\n", "b\nc\n", [(1, 0)]),
    ("a\nb\n", "a\nb\nc\n", [(3, 3)]),
    ("", "a\nb\n", [(1, 2)]),
    ("a\nb", "a\nb\n", [(3, 3)]),
    ("a\r\nb\r\n", "a\r\nc\r\n", [(2, 2)]),
    ("a\rb\nc\n", "a\rb\nd\n", [(2, 2)]),
    ("a\na\na\n", "a\na\n", [(3, 2)]),
    ("1\n2\n3\n4\n5\n", "0\n1\n2\n4\nfive\n", [(1, 1), (4, 3), (5, 5)]),
]
# The first and the last line of a call, and whether a change of the lines 3 and 4, and the loss of lines between 8 and
# 9, are in it.
TOUCHED = [(1, 2, False), (2, 3, True), (4, 4, True), (1, 9, True), (5, 8, False), (8, 9, True), (9, 12, False)]


def test_lines(case):
    for old, new, wanted in CHANGES:
        case.assertEqual(list(changed_lines(old.encode(), new.encode())), wanted, (old, new))


def test_as_diff(case):
    """The lines are right: without them, and with what they replace, a text is the other."""
    chosen = random.Random(3)
    for _ in range(300):
        old, new = ([chosen.choice("abc") for _ in range(chosen.randrange(12))] for _ in range(2))
        ranges = list(changed_lines("\n".join(old).encode(), "\n".join(new).encode()))
        kept = [it for at, it in enumerate(new, 1) if not any(start <= at <= end for start, end in ranges)]
        rest = iter(old)
        case.assertTrue(all(it in rest for it in kept), (old, new, ranges))
        case.assertEqual(ranges == [], old == new, (old, new))


def test_changed_calls(case):
    change = GitChange([FileChange("a.c", b"1\n2\n", b"1\n2\n3\n4\n")], False)
    change.lines[os.path.realpath("a.c")] = [(3, 4), (9, 8)]
    for first, last, is_touched in TOUCHED:
        found = Found(finding(100), lines=frozenset([(os.path.realpath("a.c"), first, last)]))
        case.assertEqual(change.has(found), is_touched, (first, last))
        case.assertFalse(change.has(found._replace(lines=frozenset([(os.path.realpath("b.c"), first, last)]))))
    case.assertTrue(change.has(Found(finding(4))))
    case.assertTrue(change.has(Found(finding(0, file="b.c"))))
    case.assertFalse(change.has(Found(finding(5))))


def test_fixes(case):
    """Only what is reported is fixed."""
    change = GitChange([FileChange("a.c", b"a\nb\n", b"a\nc\n")], False)
    found = {1: Found(finding(1), 10), 2: Found(finding(2), 20)}
    answer = change.part_of(Answer("a.c", found, Counter(), Counter(), {10: (b"x", ""), 20: (b"y", "")}))
    case.assertEqual(([*answer.found], [*answer.fixes]), ([2], [20]))


def test_numbers(case):
    case.assertEqual([check_options.shard_of(it) for it in ("1/1", "2/3", "10/10")], [(1, 1), (2, 3), (10, 10)])
    for word in ("0/2", "3/2", "1", "1/", "-1/2", "1/0", "a/b", "1/2/3", "01/2"):
        with case.assertRaises(argparse.ArgumentTypeError, msg=word):
            check_options.shard_of(word)


class Baselines(unittest.TestCase):
    def setUp(self):
        self.folder = tempfile.TemporaryDirectory()
        self.addCleanup(self.folder.cleanup)
        before = os.getcwd()
        self.addCleanup(os.chdir, before)
        os.chdir(self.folder.name)

    def run_of(self, *findings, is_update=False, judged=("a.c", "b.c"), path="known"):
        """Which findings of a run are new, and what is said at its end."""
        baseline = Baseline(path, is_update)
        new = [it.line for it in findings if baseline.is_new(it)]
        for file in judged:
            baseline.add_judged(file)
        return new, baseline.end()


def baselines():
    yield from prepared(Baselines)


def test_life(baselines):
    """The first run records, later ones know what it had, and only an update writes again."""
    first = [finding(1, format="%d"), finding(2, format="%d"), finding(3, format="%u"), finding(4, "errno")]
    baselines.assertEqual(baselines.run_of(*first), ([1, 2, 3, 4], "known: 4 recorded"))
    text = Path("known").read_bytes()
    baselines.assertEqual([it["count"] for it in json.loads(text)["findings"]], [1, 2, 1])
    # Lines moved, and one is more.
    moved = [finding(11, format="%d"), finding(12, format="%d"), finding(13, format="%d"), finding(14, "errno")]
    baselines.assertEqual(baselines.run_of(*moved), ([13], "known: 1 not there any more (--update-baseline)"))
    baselines.assertEqual(baselines.run_of(finding(1, "rank", format="%d"), judged=()), ([1], ""))
    baselines.assertEqual(baselines.run_of(finding(1, file="b.c", format="%d"), judged=()), ([1], ""))
    baselines.assertEqual(Path("known").read_bytes(), text)
    baselines.assertEqual(baselines.run_of(*moved, is_update=True), ([13], "known: 4 recorded"))
    baselines.assertEqual(baselines.run_of(*moved), ([], ""))
    baselines.assertEqual(os.listdir(), ["known"])


def test_files_that_were_not_read(baselines):
    """An update keeps what is known of files that weren't judged, as a header, and as often."""
    of_header = [finding(it, file="a.h") for it in range(3)]
    baselines.run_of(finding(1), finding(1, file="b.c"), *of_header)
    baselines.run_of(finding(2), of_header[0], is_update=True, judged=["a.c"])
    baselines.assertEqual(baselines.run_of(finding(1, file="b.c"), finding(3), *of_header), ([], ""))


def test_folders(baselines):
    """Names are those below the folder of the baseline, wherever the command runs."""
    os.mkdir("in")
    baselines.run_of(finding(1, file="in/a.c"))
    os.chdir("in")
    baselines.assertEqual(baselines.run_of(finding(5), path="../known"), ([], ""))


def test_what_is_never_known(baselines):
    """A file that wasn't judged stays said, and so does a comment that silences nothing."""
    found = [finding(1, "skipped"), finding(2, "unused")]
    baselines.assertEqual(baselines.run_of(*found), ([1, 2], "known: 0 recorded"))
    baselines.assertEqual(baselines.run_of(*found), ([1, 2], ""))


def test_damaged(baselines):
    """What isn't a baseline is never overwritten, also not by an update."""
    for text in ["", "{}", "[]", '{"form": 1, "findings": []}', '{"form": 2, "findings": [1]}']:
        Path("known").write_text(text, encoding="utf-8")
        for is_update in (False, True):
            with baselines.assertRaises(Unreadable):
                Baseline("known", is_update)
        baselines.assertEqual(Path("known").read_text(encoding="utf-8"), text)
    with baselines.assertRaises(Unreadable):
        Baseline(".", False)


def test_race(baselines):
    """A file that came meanwhile isn't overwritten."""
    baseline = Baseline("known", False)
    Path("known").write_text("another's", encoding="utf-8")
    with baselines.assertRaises(FileExistsError):
        baseline.end()
    baselines.assertEqual(Path("known").read_text(encoding="utf-8"), "another's")


def test_failed_update(baselines):
    """An update that fails leaves the file as it was."""
    baselines.run_of(finding(1))
    text = Path("known").read_bytes()
    with mock.patch("os.replace", side_effect=OSError("no")), baselines.assertRaises(OSError):
        baselines.run_of(finding(2), is_update=True)
    baselines.assertEqual((Path("known").read_bytes(), os.listdir()), (text, ["known"]))


Tests = tests_of(globals())
