"""Tests of what the commands show on a terminal and in a pipe: excerpts, colours, progress, and help in 80 columns."""

import io
import os
import re
import subprocess
import sys
import time
import unittest
from unittest import mock

from fmtcanon.catalogs.catalog_lines import CatalogSource, Mark
from fmtcanon.frame import progress
from fmtcanon.frame.excerpts import Excerpt, excerpt_lines, shown_finding
from fmtcanon.frame.terminals import Style, columns, style_of

from tests.commands.shared.terminal import on_terminal, plain
from tests.frame import TOP
from tests.frame.cases import tests_of
from tests.frame.fixtures import InFolder, prepared


CATALOG = """\
msgid ""
msgstr "Content-Type: text/plain; charset=UTF-8\\nPlural-Forms: nplurals=2; plural=n != 1;\\n"

#, c-format
msgid "%d of %zu files were copied"
msgstr "%d von %lu Dateien kopiert"

#, c-format
msgid "\\tremoved %d file"
msgid_plural "\\tremoved %d files"
msgstr[0] "\\t%d Datei gel\u00f6scht"
msgstr[1] ""
"\\tEs wurden alle gel\u00f6scht: "
"gel\u00f6scht: %s Dateien"

#, c-format
msgid "%s: %5d"
msgstr "%s: %#d"
"""
# What a terminal of 80 columns shows of it: the lines, and carets under the specifications, by hand.
CATALOG_SHOWN = """\
de.po:6:16: error: argument 2 is unsigned int (%zu) in 'msgid', and unsigned
    long (%lu) in 'msgstr', in ILP32 [types]
 5 | msgid "%d of %zu files were copied"
   |              ^^^ unsigned int
 6 | msgstr "%d von %lu Dateien kopiert"
   |                ^^^ unsigned long
de.po:14:12: error: argument 1 is int (%d) in 'msgid_plural', and string (%s)
    in 'msgstr[1]' [types]
 10 | msgid_plural "\\tremoved %d files"
    |                         ^^ int
 14 | "gel\u00f6scht: %s Dateien"
    |            ^^ string
de.po:18:13: error: 'msgstr' is not a valid C format string, unlike 'msgid'.
    Reason: `%#d` isn't a directive, write `%d`: refused 13 AltUndefined at
    byte 6 [format]
 18 | msgstr "%s: %#d"
    |             ^^^ AltUndefined
    help: `#` has no meaning with `d`. Write %d.
3 messages judged, 0 not judged
found 3 fatal errors
"""
OLD = """\
void f(int n, const char *name, double d) {
\tprintf("%-20s|%d files\\n", name, n);
\tprintf("%05d\\n", n);
\tprintf("%d %f\\n", n, d);
\tprintf("%d ok\\n", n);
}
"""
NEW = OLD.replace("%d files", "%s files").replace("%05d", "%.5d").replace("%f", "%e").replace("%d ok", "%y ok")
DIFF_SHOWN = """\
new.c:2:9: error: types differ at argument 2: %d takes int and %s takes string,
    in "%-20s|%d files\\n" and "%-20s|%s files\\n" [types]
 old 2 |     printf("%-20s|%d files\\n", name, n);
       |                   ^^ int
 new 2 |     printf("%-20s|%s files\\n", name, n);
       |                   ^^ string
new.c:3:9: error: different: "%05d\\n" and "%.5d\\n" print "-0001\\n" and
    "-00001\\n" for -1 [different]
 old 3 |     printf("%05d\\n", n);
       |             ^^^^ the sign is one of the 5 bytes
 new 3 |     printf("%.5d\\n", n);
       |             ^^^^ 5 digits, and the sign before them
new.c:4:9: error: directives differ at argument 2: "%f" and "%e" [directives]
 old 4 |     printf("%d %f\\n", n, d);
       |                ^^ 6 digits after the decimal point
 new 4 |     printf("%d %e\\n", n, d);
       |                ^^ one digit, 6 digits after the decimal point, and an
       |                   exponent after `e`
new.c:5:9: error: rejected now: refused 3 Unexpected at byte 1 of "%y ok\\n"
    [rejected]
 new 5 |     printf("%y ok\\n", n);
       |             ^^ Unexpected
    help: The byte can't continue the specification. Flags, width, precision,
          length modifier and conversion come in this order. A percent sign is
          `%%`.
4 formats changed: 1 printing differently, 1 taking different types, 1 with
    other directives, 1 rejected now; 0 literals added, 0 removed
"""


class OnScreen(InFolder):
    def piped(self, words):
        """The status of a command, and all that it writes into a pipe."""
        run = [sys.executable, "-B", *words]
        streams = {"stdout": subprocess.PIPE, "stderr": subprocess.STDOUT}
        done = subprocess.run(run, cwd=self.work, check=False, **streams)
        return done.returncode, done.stdout.decode()

    def shown(self, *words, **names):
        return on_terminal(words, folder=self.work, **names)


def here():
    yield from prepared(OnScreen)


# What is shown of files, on a terminal of 80 columns, and that a pipe gets one line for each finding.
def test_catalog(here):
    here.put("de.po", CATALOG)
    words = ["-m", "fmtcanon.po", "de.po"]
    here.assertEqual(here.shown(*words, NO_COLOR="1"), (1, CATALOG_SHOWN))
    status, text = here.piped(words)
    here.assertEqual((status, len(text.splitlines())), (1, 5))
    here.assertEqual(len(re.findall(r"^de\.po:\d+:\d+: error: ", text, re.MULTILINE)), 3)


def test_diff(here):
    here.put("old.c", OLD)
    here.put("new.c", NEW)
    words = ["-m", "fmtcanon.diff", "old.c", "new.c"]
    here.assertEqual(here.shown(*words, NO_COLOR="1"), (1, DIFF_SHOWN))
    status, text = here.piped(words)
    here.assertEqual((status, len(text.splitlines())), (1, 5))


def test_document(here):
    """The block of docs/EXPLAINING.md is what a terminal shows."""
    page = (TOP / "docs/EXPLAINING.md").read_text(encoding="utf-8").partition("## Findings on a terminal")[2]
    wanted = re.findall(r"^    (.*)$", page, re.MULTILINE)
    here.put("de.po", '#, c-format\nmsgid "%s: %d"\nmsgstr "%s: %s"\n')
    _, text = here.shown("-m", "fmtcanon.po", "de.po", NO_COLOR="1")
    here.assertEqual(text.splitlines()[: len(wanted)], wanted)


def test_jobs(here):
    """Many catalogs give one output in one order, however many are read at a time."""
    names = [f"{at}.po" for at in range(20)]
    for at, name in enumerate(names):
        here.put(name, CATALOG.replace("files were", f"files {at} were"))
    found = {it: here.shown("-m", "fmtcanon.po", "-j", it, *names, NO_COLOR="1") for it in ["1", "3"]}
    here.assertEqual(found["1"], found["3"])
    here.assertEqual(re.findall(r"^(\d+\.po):6:", found["1"][1], re.MULTILINE), names)


def test_charsets(here):
    """Carets are at their places in catalogs of other charsets, also after escapes by number."""
    head = 'msgid ""\nmsgstr "Content-Type: text/plain; charset=ISO-8859-1\\n"\n\n#, c-format\n'
    for front, line in [("\u00e4\u00f6", ' 6 | msgstr "\u00e4\u00f6 %s"'), (r"\344", ' msgstr | "\u00e4 %s"')]:
        text = head + f'msgid "%d"\nmsgstr "{front} %s"\n'
        (here.work / "de.po").write_bytes(text.encode("iso-8859-1"))
        _, text = here.shown("-m", "fmtcanon.po", "de.po", NO_COLOR="1")
        lines = text.splitlines()
        here.assertIn(line, lines)
        mark = lines[lines.index(line) + 1]
        here.assertEqual(line[mark.index("^") : mark.index("^") + 2], "%s")


def test_missing_argument(here):
    """Of texts with other numbers of arguments, the first specification is marked that has no partner."""
    here.put("de.po", '#, c-format\nmsgid "%d of %5d"\nmsgstr "%d ist"\n')
    _, text = here.shown("-m", "fmtcanon.po", "de.po", NO_COLOR="1")
    lines = [' 2 | msgid "%d of %5d"', "   |              ^^^ int", ' 3 | msgstr "%d ist"']
    lines += ["   |         ^^^^^^ takes no such argument"]
    here.assertEqual(text.splitlines()[2:6], lines)


def test_screens_progress(here):
    """Commands say how many files are done, on a terminal only, here from the first one on."""
    names = [f"{at}.po" for at in range(3)]
    for name in names:
        here.put(name, CATALOG)
    for folder in ["old", "new"]:
        (here.work / folder).mkdir()
        for name in ["a.c", "b.c", "same.c"]:
            here.put(f"{folder}/{name}", 'f("%d");\n' if folder == "old" or name == "same.c" else 'f("%i");\n')
    for package, words, wanted in [
        ("po", names, ["1 of 3", "2 of 3", "3 of 3"]),
        ("diff", ["old", "new"], ["1 of 2", "2 of 2"]),
    ]:
        script = "from fmtcanon.frame import progress; progress.BEGIN = progress.EVERY = 0; "
        script += f"from fmtcanon.{package}.command import main; main({words})"
        _, text = here.shown("-c", script)
        here.assertEqual(re.findall(r"\r\x1b\[K(\d+ of \d+) files done", text), wanted)
        here.assertNotIn("files done", here.piped(["-c", script])[1])


def test_binary_catalog(here):
    """A .mo file has no lines, so its texts are shown, under their names."""
    here.put("de.po", CATALOG)
    subprocess.run(["msgfmt", "-o", "de.mo", "de.po"], cwd=here.work, check=True)
    status, text = here.shown("-m", "fmtcanon.po", "--c-format", "de.mo", NO_COLOR="1")
    shown = [' msgid_plural | "\\tremoved %d files"', "              |            ^^ int"]
    here.assertEqual((status, [it for it in shown if it.rstrip() not in text]), (1, []), text)


def test_colours(here):
    """Colours are for a terminal, unless NO_COLOR is set or an option says otherwise."""
    here.put("de.po", CATALOG)
    words = ["-m", "fmtcanon.po", "de.po"]
    for more, names, has in [
        ([], {}, True),
        ([], {"NO_COLOR": ""}, True),
        ([], {"NO_COLOR": "1"}, False),
        (["--color", "never"], {}, False),
        (["--color", "always"], {"NO_COLOR": "1"}, True),
    ]:
        _, text = here.shown(*words, *more, **names)
        here.assertEqual(("\x1b[" in text, plain(text)), (has, CATALOG_SHOWN), (more, names))
    status, text = here.piped([*words, "--color", "always"])
    here.assertEqual((status, "\x1b[" in text, plain(text)), (1, True, here.piped(words)[1]))


def test_explain(here):
    """Lines are wrapped at the width of the terminal."""
    _, text = here.shown("-m", "fmtcanon.explain", "%5zu and %-05d", NO_COLOR="1")
    lines = text.splitlines()
    here.assertLessEqual(max(map(len, lines)), 79)
    here.assertEqual(lines[0], "%5zu and %-05d")
    here.assertIn("`-` overrides `0`", text)


# How one excerpt is laid out.
def lines(*excerpts, width=79):
    return list(excerpt_lines(excerpts, Style(width, False, True), ""))


def test_columns(case):
    """Carets are under what they mark: after tabs, wide characters and what is shown as an escape."""
    rows = [
        ("\tab", 1, 3, "    ab", "    ^^"),
        ("\u65e5%d", 1, 3, "\u65e5%d", "  ^^"),
        ("\x01%d", 1, 3, "\\x01%d", "    ^^"),
    ]
    for line, start, end, shown, mark in rows:
        found = lines(Excerpt("7", line, start, end))
        case.assertEqual(found, [f" 7 | {shown}", f"   | {mark}"])


def test_long_lines(case):
    """A line that is too long is cut so that the mark is seen."""
    for before, after in [(200, 200), (0, 200), (200, 0)]:
        line = "a" * before + "%5d" + "b" * after
        shown, mark = lines(Excerpt("1", line, before, before + 3))
        case.assertLessEqual(max(columns(shown), columns(mark)), 79)
        begin = mark.index("^")
        case.assertEqual(shown[begin : begin + 3], "%5d")
        case.assertEqual((shown[5:7] == "..", shown.endswith("..")), (before > 0, after > 0))


def test_long_marks(case):
    """A mark that is too long is cut, too."""
    for front in [0, 100]:
        shown, mark = lines(Excerpt("1", "a" * front + "b" * 300 + "c", front, front + 300))
        case.assertLessEqual(max(columns(shown), columns(mark)), 79)
        case.assertEqual(mark.count("^"), shown.count("b"))


def test_labels(case):
    found = lines(Excerpt("9", "x", 0, 1), Excerpt("10", "y", 0, 1))
    case.assertEqual(found, ["  9 | x", "    | ^", " 10 | y", "    | ^"])


def test_lines_pipe(case):
    """A message that is not for a terminal is one line, however long."""
    message = "word " * 40
    [line] = shown_finding("a.c:1:", message, "error", (), "", Style(79, False))
    case.assertEqual(line, f"a.c:1: {message}")


def test_styles(case):
    with mock.patch.dict(os.environ, {"COLUMNS": "80"}):
        case.assertEqual(style_of("auto", None), Style(104, False))
        case.assertEqual(style_of("always", io.StringIO()), Style(104, True))


# Where a part of a text is in a catalog.
def excerpt(text, line, *mark):
    found = CatalogSource(text.encode()).excerpt(line, Mark(*mark))
    return found.label, found.line[found.start : found.end]


def test_escapes(case):
    """Escapes by name and by number count as one byte."""
    text = 'msgid "a"\nmsgstr "\\t\\303\\244\\x41\\"%5d"\n'
    case.assertEqual(excerpt(text, 2, "msgstr", b'\t\xc3\xa4A"%5d', 5, 8, ""), ("2", "%5d"))


def test_forms(case):
    text = 'msgid "%d"\nmsgid_plural "%ds"\nmsgstr[0] "x"\nmsgstr[ 1 ] "y"\n\t"%s"\n'
    case.assertEqual(excerpt(text, 3, "msgstr[1]", b"y%s", 1, 3, ""), ("5", "%s"))
    case.assertEqual(excerpt(text, 3, "msgid_plural", b"%ds", 0, 2, ""), ("2", "%d"))


def test_unknown(case):
    """A text that isn't found is shown by itself."""
    for text, line in [("", 1), ("# nothing\n", 1), ('msgid "x\nmsgstr "%d"\n', 2)]:
        case.assertEqual(excerpt(text, line, "msgstr", b'"%d"', 1, 3, ""), ("msgstr", "%d"))


class Terminal(io.BytesIO):
    """A stream that says that it is a terminal."""

    def __init__(self, is_terminal=True):
        super().__init__()
        self.is_terminal, self.buffer = is_terminal, self

    def isatty(self):
        return self.is_terminal


# Progress, with a clock of the test.
def said(seconds, is_terminal=True):
    """What is said while each of some files takes this long."""
    stream, clock = Terminal(is_terminal), [0.0]
    with mock.patch.object(sys, "stderr", stream), mock.patch.object(time, "monotonic", lambda: clock[0]):
        shown = progress.Progress()
        shown.expect(len(seconds))
        for at, _ in enumerate(shown.each(iter(seconds))):
            clock[0] += seconds[at]
    return stream.getvalue().decode().replace("\r\x1b[K", "|")


def test_slow_progress(case):
    case.assertEqual(said([0.6, 0.6, 0.6]), "|2 of 3 files done|3 of 3 files done|")


def test_short_work(case):
    case.assertEqual(said([0.2, 0.2, 0.2]), "")


def test_slow_pipe(case):
    case.assertEqual(said([5.0, 5.0], is_terminal=False), "")


def test_often(case):
    """It isn't said more often than a person reads."""
    case.assertEqual(said([1.0] + [0.01] * 30).count("files done"), 2)


def test_helps(case):
    """The help of each command fits 79 columns, shows what is required, and has an example that it accepts."""
    for name, usage in [
        ("check", ["-p DIR [FILE...]", "FILE...", "--git [REV] [FILE...]"]),
        ("diff", ["OLD NEW", "--git [REV [REV]] [-- PATH...]"]),
        ("explain", ["FORMAT", "FORMAT FORMAT", "--kind KIND", "--at FILE:LINE:COLUMN"]),
        ("po", ["FILE..."]),
        (
            "replace",
            ["OLD NEW [FILE...]", "--pairs FILE [FILE...]", "--list [FILE...]", "--list-functions [FILE...]"],
        ),
    ]:
        module = "checker" if name == "check" else name
        words = [sys.executable, "-B", "-m", f"fmtcanon.{module}", "--help"]
        environment = {**os.environ, "COLUMNS": "80"}
        text = subprocess.run(words, env=environment, stdout=subprocess.PIPE, check=True).stdout.decode()
        case.assertLessEqual(max(map(len, text.splitlines())), 79, name)
        head = text.partition("\n\n")[0].replace("usage: ", "       ").split("\n")
        case.assertEqual(head, [f"       fmtcanon-{name} [OPTION]... {it}" for it in usage])
        examples = re.findall(rf"^  (fmtcanon-{name} .*)$", text.partition("\nExamples:\n")[2], re.MULTILINE)
        case.assertGreaterEqual(len(examples), 2, name)
        for value in ["lp64, 64-bit", "ilp32, 32-bit systems", "llp64, 64-bit"]:
            case.assertIn(value, " ".join(text.split()), name)
        case.assertIn("NO_COLOR", text)


Tests = tests_of(globals())
