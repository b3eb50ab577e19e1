"""Tries fmtcanon-po on the catalogs of tests/catalogs.

more_catalogs.py compares it with msgfmt.
"""

import json
import os
import re
import struct
import subprocess
import sys
import tempfile
from pathlib import Path

from tests.frame.cases import tests_of
from tests.frame.harness import NO_PROGRAM, SONAME, TIMEOUT, TOP

CATALOGS = TOP / "tests/catalogs"
# A catalog with its exit status, and what is printed of it.
CHECKED = [
    ("right.po", 0, "2 messages judged, 0 not judged\n"),
    ("empty.po", 0, "0 messages judged, 0 not judged\n"),
    (
        "singular.po",
        1,
        """\
singular.po:9:1: warning: 'msgid' isn't checked: refused 21 MissingArgument at byte 16 [unjudged]
singular.po:16:12: error: number of format specifications in 'msgid_plural' and 'msgstr[1]' does not match: 1 and 0 [number]
1 message judged, 1 not judged
found 1 fatal error
""",
    ),
    (
        "wrong.po",
        1,
        """\
wrong.po:7:9: error: argument 1 is string (%s) in 'msgid', and int (%d) in 'msgstr' [types]
wrong.po:11:9: error: argument 1 is int (%d) in 'msgid', and long (%ld) in 'msgstr' [types]
wrong.po:15:9: error: number of format specifications in 'msgid' and 'msgstr' does not match: 2 and 1 [number]
wrong.po:19:11: error: 'msgstr' is not a valid C format string, unlike 'msgid'. Reason: `%` isn't a directive, write `%%`: refused 2 Truncated at byte 3 [format]
wrong.po:23:16: error: argument 2 is double (%5.1f) in 'msgid', and string (%s) in 'msgstr' [types]
6 messages judged, 0 not judged
found 5 fatal errors
""",
    ),
    (
        "whole.po",
        1,
        """\
whole.po:16:9: error: number of format specifications in 'msgid' and 'msgstr' does not match: 2 and 3 [number]
whole.po:20:18: error: argument 2 is string (%s) in 'msgid', and double (%e) in 'msgstr' [types]
whole.po:28:13: error: argument 2 is uint64_t (%<PRIu64>) in 'msgid', and int64_t (%<PRId64>) in 'msgstr' [types]
whole.po:32:9: error: argument 1 is uintmax_t (%<PRIuMAX>) in 'msgid', and unsigned long (%lu) in 'msgstr' [types]
whole.po:36:22: error: 'msgstr' is not a valid C format string, unlike 'msgid'. Reason: refused 20 Mixed at byte 15 [format]
whole.po:40:9: error: 'msgstr' is not a valid C format string, unlike 'msgid'. Reason: refused 21 MissingArgument at byte 4 [format]
11 messages judged, 0 not judged
found 6 fatal errors
""",
    ),
    (
        "digits.po",
        1,
        """\
digits.po:11:17: error: 'msgstr' is not a valid C format string, unlike 'msgid'. Reason: refused 3 Unexpected at byte 9 [format]
digits.po:15:9: error: 'msgstr' is not a valid C format string, unlike 'msgid'. Reason: refused 3 Unexpected at byte 1 [format]
digits.po:18:8: warning: 'msgstr' isn't checked, since 'msgid' is refused 3 Unexpected at byte 1 [unjudged]
4 messages judged, 1 not judged
found 2 fatal errors
""",
    ),
    (
        "newlines.po",
        1,
        """\
newlines.po:7:1: error: 'msgid' and 'msgstr' entries do not both end with '\\n' [newline]
newlines.po:10:1: error: 'msgid' and 'msgstr' entries do not both end with '\\n' [newline]
newlines.po:24:1: error: 'msgid' and 'msgstr[1]' entries do not both begin with '\\n' [newline]
newlines.po:24:1: error: 'msgid' and 'msgstr[0]' entries do not both end with '\\n' [newline]
newlines.po:32:1: error: 'msgid' and 'msgstr' entries do not both end with '\\n' [newline]
1 message judged, 0 not judged
found 5 fatal errors
""",
    ),
    (
        "forms.po",
        1,
        """\
forms.po:9:1: error: it has plural forms, but the header has no nplurals= and no plural= [plurals]
forms.po:16:12: error: number of format specifications in 'msgid_plural' and 'msgstr[0]' does not match: 1 and 0 [number]
2 messages judged, 0 not judged
found 2 fatal errors
""",
    ),
    (
        "ranges.po",
        1,
        """\
ranges.po:16:12: error: number of format specifications in 'msgid_plural' and 'msgstr[1]' does not match: 1 and 0 [number]
2 messages judged, 0 not judged
found 1 fatal error
""",
    ),
    (
        "flags.po",
        1,
        """\
flags.po:3:9: error: argument 1 is int (%d) in 'msgid', and string (%s) in 'msgstr' [types]
1 message judged, 0 not judged
found 1 fatal error
""",
    ),
    (
        "bytes.po",
        1,
        """\
bytes.po:7:1: error: 'msgstr' has a byte that is not of the charset UTF-8: 0xff [charset]
0 messages judged, 0 not judged
found 1 fatal error
""",
    ),
    (
        "escape.po",
        1,
        """\
escape.po:6:15: error: number of format specifications in 'msgid' and 'msgstr' does not match: 1 and 2 [number]
1 message judged, 0 not judged
found 1 fatal error
""",
    ),
]
# One catalog in each data model, and in both.
IN_MODELS = [
    (
        ["--model", "lp64"],
        """\
models.po:12:16: error: argument 2 is int (%d) in 'msgid', and long (%zd) in 'msgstr' [types]
models.po:16:9: error: argument 1 is int (%d) in 'msgid', and unsigned int (%u) in 'msgstr' [types]
3 messages judged, 0 not judged
found 2 fatal errors
""",
    ),
    (
        ["--model", "ilp32"],
        """\
models.po:8:9: error: argument 1 is unsigned int (%zu) in 'msgid', and unsigned long (%lu) in 'msgstr' [types]
models.po:16:9: error: argument 1 is int (%d) in 'msgid', and unsigned int (%u) in 'msgstr' [types]
3 messages judged, 0 not judged
found 2 fatal errors
""",
    ),
    (
        ["--model", "both"],
        """\
models.po:8:9: error: argument 1 is unsigned int (%zu) in 'msgid', and unsigned long (%lu) in 'msgstr', in ILP32 [types]
models.po:12:16: error: argument 2 is int (%d) in 'msgid', and long (%zd) in 'msgstr', in LP64 [types]
models.po:16:9: error: argument 1 is int (%d) in 'msgid', and unsigned int (%u) in 'msgstr' [types]
3 messages judged, 0 not judged
found 3 fatal errors
""",
    ),
]
# They can't be read, with the line where it is known.
UNREADABLE = [("torn.po", 1), ("rule.po", 0), ("nothing.po", 0), ('msgid "a"', 0), (".", 0)]
# Texts that are not catalogs, with the line.
NO_CATALOGS = [
    ('msgid "a"\n"b"\nmsgid "c"\nmsgstr "d"\n', 1),
    ('msgstr "d"\n', 1),
    ('"d"\n', 1),
    ('msgid "a"\nmsgstr\n', 2),
    ('msgid "a"\nmsgstr[0] "b"\n', 2),
    ('msgid "a"\nmsgid_plural "b"\nmsgstr "c"\n', 3),
    ('msgid "a"\nmsgid_plural "b"\nmsgstr[1] "c"\nmsgstr[1] "d"\n', 4),
    ('msgid "a"\nmsgstr "\\q"\n', 2),
    ('msgid "a"\nmsgstr "\\777"\n', 2),
    ('msgid "a"\nmsgstr "b\n', 2),
    ('msgid ""\nmsgstr "Content-Type: text/plain; charset=NOSUCH\\n"\n', 0),
]
PLURAL = b"Content-Type: text/plain; charset=ISO-8859-1\nPlural-Forms: nplurals=2; plural=n != 1;\n"
# The messages of a .mo file, and what is printed of it with each option.
BINARY = [
    (b"", PLURAL),
    (b"%d file\0%d files", b"%d Datei\0%s Dateien"),
    (b"%s", b"f\xfcr %s"),
    (b"100% of it", b"100 % von"),
    (b"menu\4%u", b"%u\n"),
    (b"no format", b"\n"),
]
REPORTS_OF_BINARY = [
    (
        [],
        0,
        """\
a.mo:1: warning: if it is a C format: argument 1 is int (%d) in 'msgid_plural', and string (%s) in 'msgstr[1]', of "%d file" [types]
a.mo:3: warning: if it is a C format: 'msgstr' is not a valid C format string, unlike 'msgid'. Reason: refused 3 Unexpected at byte 6, of "100% of it" [format]
a.mo:4: error: 'msgid' and 'msgstr' entries do not both end with '\\n', of "%u" [newline]
a.mo:5: error: 'msgid' and 'msgstr' entries do not both begin with '\\n', of "no format" [newline]
a.mo:5: error: 'msgid' and 'msgstr' entries do not both end with '\\n', of "no format" [newline]
2 messages judged, 2 not judged
found 3 fatal errors
""",
    ),
    (
        ["--c-format"],
        1,
        """\
a.mo:1: error: argument 1 is int (%d) in 'msgid_plural', and string (%s) in 'msgstr[1]', of "%d file" [types]
a.mo:3: error: 'msgstr' is not a valid C format string, unlike 'msgid'. Reason: refused 3 Unexpected at byte 6, of "100% of it" [format]
a.mo:4: error: 'msgid' and 'msgstr' entries do not both end with '\\n', of "%u" [newline]
a.mo:5: error: 'msgid' and 'msgstr' entries do not both begin with '\\n', of "no format" [newline]
a.mo:5: error: 'msgid' and 'msgstr' entries do not both end with '\\n', of "no format" [newline]
4 messages judged, 0 not judged
found 5 fatal errors
""",
    ),
]


def binary(messages, order):
    """A .mo file of these messages, by the layout that the manual of gettext gives."""
    count = len(messages)
    texts = [text for column in zip(*messages) for text in column]
    start, table, strings = 28 + 16 * count, b"", b""
    for text in texts:
        table += struct.pack(order + "II", len(text), start + len(strings))
        strings += text + b"\0"
    return struct.pack(order + "7I", 0x950412DE, 0, count, 28, 28 + 8 * count, 0, start) + table + strings


def check_po(folder, words, stdin=b"", where=CATALOGS):
    """The status, standard output and standard error of the command."""
    environment = {
        **os.environ,
        "FMTCANON_LIBRARY": str(folder / SONAME),
        "FMTCANON_PROGRAM": NO_PROGRAM,
        "PYTHONDONTWRITEBYTECODE": "1",
        "PYTHONPATH": str(TOP / "python"),
        "PYTHONIOENCODING": "utf-8",
    }
    # No package of the machine is taken.
    done = subprocess.run(
        [sys.executable, "-S", TOP / "examples/check_po.py", *words],
        cwd=where,
        env=environment,
        timeout=TIMEOUT,
        check=False,
        input=stdin,
        stdout=subprocess.PIPE,
        stderr=subprocess.PIPE,
    )
    return done.returncode, done.stdout.decode(), done.stderr.decode()


def test_binaries(folder, trials):
    with tempfile.TemporaryDirectory() as work:
        file = Path(work) / "a.mo"
        for order in "<>":
            file.write_bytes(binary(BINARY, order))
            for words, _, report in REPORTS_OF_BINARY:
                trials.expect(
                    f"check_po.py {words} a.mo", check_po(folder, [*words, "a.mo"], where=work), (1, "", report)
                )
        whole = file.read_bytes()
        for size in [4, 10, 27, 28, 40, len(whole) - 2]:
            file.write_bytes(whole[:size])
            status, out, report = check_po(folder, ["a.mo"], where=work)
            trials.expect(
                f"{size} bytes of a.mo", (status, out, report.startswith("a.mo:1: error: it can't be read: ")), (
                    1, "", True
                )
            )
        file.write_bytes(binary(BINARY[:1] + [(b"%d", b"%s")], "<"))
        trials.expect("a warning alone", check_po(folder, ["a.mo"], where=work)[0], 0)
        trials.expect("a warning alone, --strict", check_po(folder, ["--strict", "a.mo"], where=work)[0], 1)


def test_forms(folder, trials):
    """The other forms of output, which go to standard output."""
    status, out, report = check_po(folder, ["--output", "json", "wrong.po", "singular.po"])
    found = [json.loads(line) for line in out.splitlines()]
    kinds = [(7, 9, "types"), (11, 9, "types"), (15, 9, "number"), (19, 11, "format"), (23, 16, "types")]
    wanted = [
        *(("wrong.po", line, column, kind, "error") for line, column, kind in kinds),
        ("singular.po", 9, 1, "unjudged", "warning"),
        ("singular.po", 16, 12, "number", "error"),
    ]
    trials.expect(
        "findings as JSON",
        [tuple(one[it] for it in ["file", "line", "column", "kind", "level"]) for one in found],
        wanted,
    )
    trials.expect(
        "messages in JSON",
        (status, found[0]["message"]),
        (
            1,
            "argument 1 is string (%s) in 'msgid', and int (%d) in 'msgstr'",
        ),
    )
    trials.expect(
        "formats in JSON",
        (found[0]["msgid"], found[0]["formats"], found[0]["models"]),
        ("%s: %d", ["%s: %d", "%d: %s"], ["lp64", "ilp32", "llp64"]),
    )
    trials.expect(
        "the numbers after JSON", report.splitlines(), ["7 messages judged, 1 not judged", "found 6 fatal errors"]
    )
    found = [json.loads(line) for line in check_po(folder, ["--output=json", "models.po"])[1].splitlines()]
    trials.expect(
        "data models in JSON",
        [one["models"] for one in found],
        [["ilp32", "llp64"], ["lp64", "llp64"], ["lp64", "ilp32", "llp64"]],
    )
    status, out, report = check_po(folder, ["--output", "github", "wrong.po"])
    said = "argument 1 is string (%25s) in 'msgid', and int (%25d) in 'msgstr'"
    wanted = f"::error file=wrong.po,line=7,col=9,endColumn=11::{said}"
    trials.expect("a command of GitHub", (status, out.splitlines()[0]), (1, wanted))
    status, out, report = check_po(folder, ["--output", "sarif", "wrong.po"])
    trials.expect(
        "the log of SARIF",
        (status, [one["ruleId"] for one in json.loads(out)["runs"][0]["results"]]),
        (1, [kind for *_, kind in kinds]),
    )


def test_catalogs(folder, trials):
    """The check of message catalogs."""
    for catalog, status, report in CHECKED:
        trials.expect(f"check_po.py {catalog}", check_po(folder, [catalog]), (status, "", report))
        data = (CATALOGS / catalog).read_bytes()
        report = re.sub(rf"^{catalog}:", "-:", report, flags=re.MULTILINE)
        trials.expect(f"check_po.py - of {catalog}", check_po(folder, ["-"], data), (status, "", report))
        has_unjudged = " 0 not judged" not in report
        trials.expect(
            f"check_po.py --strict {catalog}", check_po(folder, ["--strict", catalog])[0], 1 if has_unjudged else status
        )
    for catalog, line in UNREADABLE:
        status, out, report = check_po(folder, [catalog])
        trials.expect(f"check_po.py {catalog}", (status, out), (1, ""))
        trials.expect(
            f"what it says of {catalog}",
            report.startswith(f"{catalog}:{f'{line}:1' if line else 1}: error: it can't be read: ")
            and "Traceback" not in report,
            True,
        )
    for text, line in NO_CATALOGS:
        status, out, report = check_po(folder, ["-"], text.encode())
        trials.expect(
            f"no catalog: {text!r}",
            (status, out, report[: report.find(" ")]),
            (1, "", f"-:{line}:1:" if line else "-:1:"),
        )
    for words, report in IN_MODELS:
        trials.expect(f"check_po.py {words} models.po", check_po(folder, [*words, "models.po"]), (1, "", report))
    trials.expect("both data models where none is said", check_po(folder, ["models.po"])[2], IN_MODELS[-1][1])
    for words in [["--model", "LP64", "right.po"], ["--model", "both"], ["--what", "right.po"], []]:
        status, out, report = check_po(folder, words)
        trials.expect(f"check_po.py {words}", (status, out, report.startswith("usage: fmtcanon-po")), (2, "", True))
    status, out, report = check_po(folder, ["--help"])
    trials.expect("check_po.py --help", (status, "usage: fmtcanon-po" in out, report), (0, True, ""))
    report = "2 messages judged, 0 not judged\n"
    trials.expect("two catalogs", check_po(folder, ["--", "right.po", "empty.po"]), (0, "", report))


Tests = tests_of(globals())
