"""Tests of what fmtcanon-diff says of a pair, and of the forms in which findings are printed: python3 -m unittest, in
the folder above.
"""

import io
import json
import re
from dataclasses import replace

import fmtcanon
from fmtcanon import Model, Type
from fmtcanon.diff.pair_judging import RULES, judge
from fmtcanon.diff.pairing import paired
from fmtcanon.formats.verdicts import (
    PairKind,
    Taker,
    directives_in,
    narrowed,
    shortened,
    specifications,
    taker_of,
)
from fmtcanon.frame.findings import ERROR, NOTE, WARNING, Finding, Printer, by_place
from fmtcanon.kinds import TYPE_NAMES
from fmtcanon.source.places import Source

from tests.frame.cases import tests_of

ALL = list(Model)


def finding(old, new, models=ALL, call="f(%s, x);"):
    """The finding on the one pair of two sources of a call."""
    sources = [Source((call % it).encode()) for it in (old, new)]
    [pair] = paired(*sources).changed
    return judge("a.c", pair, models)


# The literals of an old and a new place, the kind and the message, and the data models in which that holds.
SAID = [
    (
        '"%05d"',
        '"%.5d"',
        "different",
        'different: "%05d" and "%.5d" print "-0001" and "-00001" for -1',
        "lp64 ilp32 llp64",
    ),
    (
        '"%s %lu"',
        '"%s %d"',
        "types",
        'types differ at argument 2: %lu takes unsigned long and %d takes int, in "%s %lu" and "%s %d"',
        "lp64 ilp32 llp64",
    ),
    ('"%td"', '"%ld"', "types", 'same in lp64 only: "%td" and "%ld"', "ilp32 llp64"),
    ('"%zx"', '"%x"', "types", 'same in ilp32 only: "%zx" and "%x"', "lp64 llp64"),
    ('"%jd"', '"%lld"', "types", 'same in ilp32 and llp64 only: "%jd" and "%lld"', "lp64"),
    (
        '"%d files"',
        '"%d file names"',
        "words",
        'the words differ: "%d files" and "%d file names"',
        "lp64 ilp32 llp64",
    ),
    ('"%d%%"', '"%d %%"', "words", 'the words differ: "%d%%" and "%d %%"', "lp64 ilp32 llp64"),
    ('"%d"', '"%i"', "same", 'same: "%d" and "%i"', "lp64 ilp32 llp64"),
    ('"%d" "\\n"', '"%\\x69\\12"', "same", 'same: "%d\\n" and "%i\\n"', "lp64 ilp32 llp64"),
    (
        '"%d"',
        '"none"',
        "types",
        'types differ at argument 1: %d takes int and no argument, in "%d" and "none"',
        "lp64 ilp32 llp64",
    ),
    ('"%" PRIu64', '"%lu"', "types", 'same in lp64 only: "%" PRIu64 and "%lu"', "ilp32 llp64"),
    ('"%" PRIu32 "!"', '"%u" "!"', "same", 'same: "%" PRIu32 "!" and "%u!"', "lp64 ilp32 llp64"),
    ('"%d"', '"%y"', "rejected", 'rejected now: refused 3 Unexpected at byte 1 of "%y"', "lp64 ilp32 llp64"),
    (
        '"%2$s %1$d"',
        '"%2$s %1$y"',
        "rejected",
        'rejected now: refused 3 Unexpected at byte 8 of "%2$s %1$y"',
        "lp64 ilp32 llp64",
    ),
    ('"%y"', '"%d"', "unjudged", 'not judged: refused 3 Unexpected at byte 1 of "%y"', "lp64 ilp32 llp64"),
    ('"100% "', '"100%% %d"', "unjudged", 'not judged: refused 2 Truncated at byte 5 of "100% "', "lp64 ilp32 llp64"),
    ('"%d"', 'L"%d"', "unjudged", "not judged: a wide string literal", "lp64 ilp32 llp64"),
    ('"%d"', '"%d" X', "unjudged", "not judged: the macro X is part of it", "lp64 ilp32 llp64"),
    ('"%d"', '"%\\q"', "unjudged", "not judged: literal 3 BadEscape at byte 2", "lp64 ilp32 llp64"),
    (
        '"%1$d"',
        '"%1$s"',
        "types",
        'types differ at argument 1: %1$d takes int and %1$s takes string, in "%1$d" and "%1$s"',
        "lp64 ilp32 llp64",
    ),
    (
        '"%s: %d"',
        '"%.3s: %d"',
        "different",
        'different: "%s: %d" and "%.3s: %d" print "AAAA: 0" and "AAA: 0" for "AAAA", 0',
        "lp64 ilp32 llp64",
    ),
    (
        '"%ld items"',
        '"%td pieces"',
        "types",
        'same in lp64 only, with other words: "%ld items" and "%td pieces"',
        "ilp32 llp64",
    ),
    # The words differ, too: what is shown is the change of the specifications.
    (
        '"ID: %x (%p)\\n"',
        '"ID: %u (%p)"',
        "different",
        'different: "ID: %x (%p)\\n" and "ID: %u (%p)" print "ID: ffffffff (%p)\\n'
        '" and "ID: 4294967295 (%p)" for 4294967295, any',
        "lp64 ilp32 llp64",
    ),
    (
        '"%s: %.20s left"',
        '"%s: %.30s right"',
        "different",
        'different: "%s: %.20s left" and "%s: %.30s right" print ": AAAAAAAAAAAAAAAAAAAA left" and ": '
        'AAAAAAAAAAAAAAAAAAAAA right" for "", "AAAA.." of 21 bytes',
        "lp64 ilp32 llp64",
    ),
    ('"%d\u00a0m"', '"%d m"', "words", 'the words differ: "%d\\xa0m" and "%d m"', "lp64 ilp32 llp64"),
    ('"%c"', '"%hhd"', "different", 'different: "%c" and "%hhd" print "\\000" and "0" for 0', "lp64 ilp32 llp64"),
]
WHOLE = [
    (
        '"%f and %05d %p"',
        '"%f and %.5d %p"',
        "different",
        'different: "%f and %05d %p" and "%f and %.5d %p" print "%f and -0001 %p" and "%f and -00001 %p" for any, -1, '
        'any',
    ),
    (
        '"%.6lf %05d"',
        '"%f %.5d"',
        "different",
        'different: "%.6lf %05d" and "%f %.5d" print "%f -0001" and "%f -00001" for any, -1',
    ),
    (
        '"%.6lf %s|"',
        '"%f %.10s|"',
        "different",
        'different: "%.6lf %s|" and "%f %.10s|" print "%f AAAAAAAAAAA|" and "%f AAAAAAAAAA|" for any, "AAAAAAAAAAA"',
    ),
    ('"%d %f"', '"%d %e"', "directives", 'directives differ at argument 2: "%f" and "%e"'),
    ('"%*d %s"', '"%d%d %s"', "directives", 'directives differ at argument 1: "%*d" and "%d"'),
    ('"%d: %m"', '"%d: "', "directives", 'directives differ by %m, in the first alone: "%d: %m" and "%d: "'),
    ('"%d: "', '"%d: %m"', "directives", 'directives differ by %m, in the second alone: "%d: " and "%d: %m"'),
    ('"%m %s"', '"%s %m"', "directives", 'directives differ by %m, in both: "%m %s" and "%s %m"'),
    ('"%*d"', '"%*i"', "same", 'same: "%*d" and "%*i"'),
    ('"%f km"', '"%f miles"', "words", 'the words differ: "%f km" and "%f miles"'),
    (
        '"%f and %d"',
        '"%f and %s"',
        "types",
        'types differ at argument 2: %d takes int and %s takes string, in "%f and %d" and "%f and %s"',
    ),
    ('"%.2f"', '"%.3f"', "directives", 'directives differ at argument 1: "%.2f" and "%.3f"'),
    ('"%f at %p"', '"%.6lf at %p"', "same", 'same: "%f at %p" and "%.6lf at %p"'),
    ('"%jn"', '"%ln"', "types", 'same in lp64 only: "%jn" and "%ln"'),
    ('"%2$s %1$f"', '"%2$s  %1$f"', "unjudged", 'not judged: refused 6 Numbered at byte 2 of "%2$s %1$f"'),
]
FOUND = Finding(
    "a b.c",
    3,
    7,
    "types",
    ERROR,
    'types: 100% "%d", a',
    (3, 12),
    ("%d", "%s"),
    ("lp64", "llp64"),
    {"old": "%d", "new": "%s"},
)


def printed(output, *findings):
    stream = io.TextIOWrapper(io.BytesIO(), encoding="utf-8")
    printer = Printer("fmtcanon-diff", output, RULES, stream)
    for one in findings:
        printer.add(one)
    printer.end()
    return stream.buffer.getvalue().decode()


def test_said(case):
    for old, new, kind, message, models in SAID:
        found = finding(old, new)
        case.assertEqual((found.kind, found.message, " ".join(found.models)), (kind, message, models), (old, new))
        case.assertEqual(
            (found.line, found.column, found.kind == "words"),
            (1, 4 if new[0] == "L" else 3, message.startswith("the words")),
        )


def test_whole_language(case):
    for old, new, kind, message in WHOLE:
        found = finding(old, new)
        case.assertEqual((found.kind, found.message), (kind, message), (old, new))


def test_models(case):
    case.assertEqual(finding('"%td"', '"%ld"', models=[Model.LP64]).message, 'same: "%td" and "%ld"')
    found = finding('"%td"', '"%ld"', models=[Model.ILP32, Model.LLP64])
    case.assertEqual(
        (found.message, found.models),
        (
            'types differ at argument 1: %td takes int and %ld takes long, in "%td" and "%ld"',
            ("ilp32", "llp64"),
        ),
    )
    case.assertEqual(
        finding('"%td"', '"%ld"').details["verdicts"], {"lp64": "same", "ilp32": "types", "llp64": "types"}
    )


def test_levels(case):
    for kind, level in [
        (("%d", "%i"), NOTE),
        (("%d", "%u"), ERROR),
        (("%d", "%x"), ERROR),
        (("%d", "%y"), ERROR),
        (("%y", "%d"), WARNING),
        (("%d m", "%d km"), NOTE),
    ]:
        case.assertEqual(finding(*[f'"{it}"' for it in kind]).level, level)


def test_details(case):
    found = finding('"%d" "\\n"', '"%" PRIu64', call="fprintf(stderr, %s)")
    case.assertEqual(
        {it: found.details[it] for it in ["old", "new", "function", "argument"]},
        {"old": "%d\n", "new": "%lu", "function": "fprintf", "argument": 2},
    )
    case.assertEqual((found.formats, found.end), (("%d\n", "%lu"), (1, 27)))
    case.assertEqual(finding('"%d" "\\n"', '"%d" X').details["new"], '"%d" X')


def test_specification(case):
    """Where the specification is that takes the argument at which the types differ."""
    for old, new, wanted in [
        ('"%s %lu"', '"%s %d"', (1, 7, 1, 9)),
        ('"\\t%s" "%lu"', '"\\t%s" /* "%" */\n  u8"\\x25i"', (2, 6, 2, 11)),
        ('"%d"', '"none"', None),
        ('"%" PRIu64', '"%" PRIu32', None),
        ('"%5.*d"', '"%5.*s"', (1, 4, 1, 9)),
    ]:
        at = finding(old, new).details.get("specification")
        case.assertEqual(
            at and tuple(at[it] for it in ["line", "column", "end_line", "end_column"]), wanted, (old, new)
        )


def test_short(case):
    """A long text shows where the two begin to differ, and a long string is as short as the difference lets it
        be.
        """
    words = "word " * 100
    found = finding(f'"{words}%05d{words}"', f'"{words}%.5d{words}"').message
    case.assertLess(len(found), 400)
    case.assertIn("%05d", found)
    case.assertIn("-0001", found)
    case.assertEqual(shortened(b"%s%d", b"%.20s%d", (b"a" * 4096, 1), Model.LP64), (b"a" * 21, 1))
    case.assertEqual(shortened(b"%.4094s", b"%.4095s", (b"a" * 4096,), Model.LP64), (b"a" * 4095,))
    found = finding('"%.4094s"', '"%.4095s"').message
    case.assertLess(len(found), 300)
    case.assertIn(" of 4095 bytes", found)


def test_narrowed(case):
    """What two formats share is cut off, in the back from a percent sign on, where no specification is cut."""
    for old, new, wanted in [
        (b"x%05d|", b"x%.5d|", (1, 0)),
        (b"%5d", b"%5d", (3, 0)),
        (b"%d%d%u", b"%d%i%u", (2, 2)),
        (b"a%lld", b"a%ld", (1, 0)),
        (b"%d %%%d.", b"%d %%%%d.", (5, 0)),
        (b"5%d", b"%d", (0, 2)),
        (b"%s%%: %d of %d\n", b"%s%%: %x of %d\n", (6, 3)),
        (b"%m%m%d", b"%m%d", (2, 2)),
        (b"some words", b"some other", (5, 0)),
        (b"a%d%%%d", b"b%%d%%%d", (0, 4)),
        (b"a" + b"%" * 40, b"%%b" + b"%" * 40, (0, 40)),
        (b"a%%" + b"%" * 40 + b"d", b"%" * 40 + b"%d", (0, 0)),
    ]:
        case.assertEqual(narrowed(old, new), wanted, (old, new))


def test_long(case):
    """A long format is judged as a short one is."""
    for front, back in [("%d x" * 5_000, ""), ("", "%s y" * 5_000), ("%d x" * 3_000, "%d x" * 3_000)]:
        for old, new, kind, at in [
            ("%05d", "%.5d", "different", None),
            ("%d", "%i", "same", None),
            ("%d", "%u", "types", 0),
            ("%d", "%d%d", "types", None),
            ("a", "b", "words", None),
            ("%d", "%y", "rejected", None),
            ("%y", "%d", "unjudged", None),
        ]:
            found = finding(f'"{front}{old} {back}"', f'"{front}{new} {back}"')
            case.assertEqual(
                (found.kind, len(found.message) < 400),
                (kind, True),
                (front[:4], back[:4], old, new, found.message),
            )
            if at is not None:
                case.assertIn(
                    f"at argument {front.count('%') + 1}: %d takes int and %u takes unsigned int",
                    found.message,
                )
            if old == "%05d":
                case.assertIn(
                    ' print "-0001" and "-00001" for -1',
                    found.message.replace("-0001 ", "-0001").replace("-00001 ", "-00001"),
                )


def test_long_of_whole_language(case):
    front = "%d x" * 5_000
    found = finding(f'"{front}%f "', f'"{front}%e "').message
    case.assertEqual(found, 'directives differ at argument 5001: "%f" and "%e"')


def test_titles(case):
    """What no call takes isn't a format if it is rejected, as a title may be; otherwise it is judged."""
    for old, new, call, wanted in [
        ("CPU% ", "MEM% ", "{ %s, 1 }", None),
        ("CPU% ", "CPU", "x = _(%s);", None),
        ("CPU", "CPU% ", "return %s;", None),
        ("CPU% ", "CPU", "f(%s, x);", "unjudged"),
        ("CPU% ", "CPU", "#define TITLE %s", "unjudged"),
        ("%d files", "%s files", "{ %s, 1 }", "types"),
        ("%d files", "%y files", "{ %s, 1 }", "rejected"),
    ]:
        found = finding(f'"{old}"', f'"{new}"', call=call)
        case.assertEqual(found and found.kind, wanted, (old, new, call))


def test_bytes(case):
    """Formats may have bytes that aren't UTF-8."""
    sources = [Source(b'f("\xe9 ' + it + b'", x)') for it in (b"%05d", b"%.5d")]
    [pair] = paired(*sources).changed
    case.assertEqual(
        judge("a.c", pair, ALL).message,
        'different: "\\xe9 %05d" and "\\xe9 %.5d" print "\\xe9 -0001" and "\\xe9 -00001" for -1',
    )


def test_specifications(case):
    case.assertEqual(specifications(b"a %d%% %-5.*s b"), b"%d%-5.*s")
    takers = [taker_of(b"a%5.*lu%%%c", it, Model.LP64) for it in range(4)]
    whole = Taker(1, 7, b"%5.*lu", Type.ULONG)
    case.assertEqual(takers, [whole._replace(type=Type.INT), whole, Taker(9, 11, b"%c", Type.INT), None])


def test_directives_of_any_text(case):
    """Those of a text that is not a format, around what is rejected: by hand."""
    for text, wanted in [
        (b"%d %y %s", [b"%d", b"%s"]),
        (b"100% %d%", [b"%d"]),
        (b"%m: %5d", [b"%5d"]),
        (b"%d\0%s", [b"%d", b"%s"]),
        (b"%5%%d %x", [b"%x"]),
        (b"%2$d%", [b"%2$d"]),
        (b"%3$s %5y%2$*4$s", [b"%3$s", b"%2$*4$s"]),
        (b"none", []),
    ]:
        found = [text[it.start : it.end] for it in directives_in(text)]
        case.assertEqual(found, wanted, text)


# What reads a line: `%f:%l:%c:%m` and `%f:%l:%m` of vim's errorformat, the entry `gnu` of Emacs' list for compilers,
# `$gcc` of VS Code, and `%f:%l:%c: %m` and `%f:%l: %m`, which are given to reviewdog.
EDITORS = {
    "vim": r"^(?P<file>[^:]+):(?P<line>\d+):(?:(?P<column>\d+):)?(?P<text>.+)$",
    "Emacs": r"^(?:[A-Za-z][-\w.]+: ?)?(?P<file>(?:[0-9]*[^0-9\n])(?:[^\n :]|\x20[^-/\n]|:[^ \n])*?): ?"
    r"(?P<line>[0-9]+)(?:[.:](?P<column>[0-9]+))?(?:-[0-9]+(?:\.[0-9]+)?)?:(?: *warning:| "
    r"*note:|[^0-9\n]|[0-9][0-9][0-9])",
    "VS Code": r"^(?P<file>.*?):(?P<line>\d+):(?P<column>\d*):?\s+(?:fatal\s+)?(?:warning|error):\s+(?P<text>.*)$",
    "reviewdog": r"^(?P<file>.+?):(?P<line>\d+):(?:(?P<column>\d+):)? (?P<text>.+)$",
}


def test_names_of_types(case):
    case.assertEqual(set(TYPE_NAMES), set(Type))
    case.assertEqual(len(set(TYPE_NAMES.values())), len(Type))


def test_text(case):
    case.assertEqual(printed("text", FOUND), 'a b.c:3:7: error: types: 100% "%d", a [types]\n')
    whole = Finding("b.c", 0, None, "skipped", WARNING, "not judged: x")
    case.assertEqual(printed("text", whole), "b.c:1: warning: not judged: x [skipped]\n")
    case.assertEqual(printed("text"), "")
    # Vim would take the text in quotes for the name of a file, and all before `:1:9` for one.
    said = Finding("b.c", 2, 3, "different", ERROR, 'print "%d" and "0: x" for 1')
    case.assertEqual(printed("text", said), "b.c:2:3: error: print '%d' and '0: x' for 1 [different]\n")
    said = Finding("b.c", 2, None, "skipped", WARNING, "a.h:1:9: error: x")
    case.assertEqual(printed("text", said), "b.c:2: warning: a.h:1: error: x [skipped]\n")


def test_editors(case):
    """Editors and reviewers read a line by the patterns that they have for compilers."""
    for level in (ERROR, WARNING, NOTE):
        for column in (7, None):
            line = printed("text", Finding("a/b.c", 3, column, "types", level, 'text: "%d" and "%5d: 3", 1')).rstrip()
            for editor, pattern in EDITORS.items():
                found = re.search(pattern, line)
                if editor == "VS Code" and level == NOTE:
                    # Its pattern knows no notes.
                    case.assertIsNone(found)
                    continue
                case.assertIsNotNone(found, (editor, line))
                wanted = ("a/b.c", "3", str(column) if column else None)
                case.assertEqual((found["file"], found["line"], found["column"] or None), wanted, (editor, line))
    case.assertEqual(by_place([FOUND, replace(FOUND, line=2), replace(FOUND, column=1)])[0].line, 2)


def test_json(case):
    lines = printed("json", FOUND, Finding("b.c", 0, None, "unjudged", WARNING, "x")).splitlines()
    wanted = {
        "file": "a b.c",
        "line": 3,
        "column": 7,
        "end_line": 3,
        "end_column": 12,
        "kind": "types",
        "level": "error",
        "message": 'types: 100% "%d", a',
        "models": ["lp64", "llp64"],
        "old": "%d",
        "new": "%s",
    }
    case.assertEqual(json.loads(lines[0]), wanted)
    case.assertEqual(
        json.loads(lines[1]),
        {
            "file": "b.c",
            "line": 0,
            "column": None,
            "kind": "unjudged",
            "level": "warning",
            "message": "x",
            "models": [],
        },
    )


def test_github(case):
    case.assertEqual(
        printed("github", FOUND), '::error file=a b.c,line=3,col=7,endColumn=12::types: 100%25 "%25d", a\n'
    )
    wanted = "::warning file=a%2Cb%3A.c::x%0Ay%25\n"
    case.assertEqual(printed("github", Finding("a,b:.c", 0, None, "unjudged", WARNING, "x\ny%")), wanted)
    case.assertEqual(
        printed("github", Finding("a", 1, 2, "same", NOTE, "x", (2, 1))),
        "::notice file=a,line=1,col=2,endLine=2::x\n",
    )


def test_sarif(case):
    """The facts of the schema of SARIF 2.1.0 that concern what is printed."""
    log = json.loads(printed("sarif", FOUND, Finding("/x/%.c", 0, None, "unjudged", WARNING, "x")))
    case.assertEqual((set(log), log["version"]), ({"$schema", "version", "runs"}, "2.1.0"))
    case.assertTrue(re.search(r"sarif.*2\.1\.0.*\.json$", log["$schema"]))
    [run] = log["runs"]
    case.assertEqual(set(run), {"tool", "columnKind", "results"})
    case.assertIn(run["columnKind"], ["utf16CodeUnits", "unicodeCodePoints"])
    driver = run["tool"]["driver"]
    case.assertEqual((set(driver), driver["version"]), ({"name", "version", "rules"}, fmtcanon.__version__))
    ids = [it["id"] for it in driver["rules"]]
    case.assertEqual((ids, len(set(ids))), ([it.value for it in PairKind], len(ids)))
    for rule in driver["rules"]:
        case.assertEqual((set(rule), set(rule["shortDescription"])), ({"id", "shortDescription"}, {"text"}))
    for result in run["results"]:
        case.assertEqual(set(result), {"ruleId", "ruleIndex", "level", "message", "locations", "properties"})
        case.assertEqual(ids[result["ruleIndex"]], result["ruleId"])
        case.assertIn(result["level"], ["none", "note", "warning", "error"])
        case.assertEqual(set(result["message"]), {"text"})
    first, second = [it["locations"][0]["physicalLocation"] for it in run["results"]]
    case.assertEqual(
        first,
        {
            "artifactLocation": {"uri": "a%20b.c"},
            "region": {"startLine": 3, "startColumn": 7, "endLine": 3, "endColumn": 12},
        },
    )
    case.assertEqual(second, {"artifactLocation": {"uri": "file:///x/%25.c"}})
    case.assertEqual(json.loads(printed("sarif"))["runs"][0]["results"], [])


Tests = tests_of(globals())
