"""Tests that the commands need the library alone: FMTCANON_PROGRAM names a file that isn't there."""

import os
import subprocess
import sys
import tempfile
import unittest
from pathlib import Path

from fmtcanon.compiling.libclang import MISSING, cindex

from tests.frame.cases import tests_of
from tests.frame.fixtures import prepared

PROGRAM = "/nothing/fmtcanon"
SOURCE = '#include <stdio.h>\nint main(void) { return printf("%s", -1L) < 0; }\n'
CATALOG = """\
msgid ""
msgstr "Content-Type: text/plain; charset=UTF-8\\n"

#, c-format
msgid "%d files"
msgstr "%s Dateien"
"""
# Each command with its arguments, the status, and a line that it writes.
ROWS = [
    ("explain", ["%05d", "%.5d"], 1, "  -00001    %.5d: 5 digits, and the sign before them"),
    (
        "diff",
        ["old.c", "new.c"],
        1,
        'new.c:2:32: error: different: "%05ld" and "%.5ld" print "-0001" and "-00001" for -1 [different]',
    ),
    ("po", ["de.po"], 1, "1 message judged, 0 not judged"),
]
# Those that need libclang, and say so without it.
OF_LIBCLANG = [
    ("checker", ["new.c"], 0, "1 file, 1 format, 1 argument: nothing found"),
    (
        "replace",
        ["--model", "lp64", "%.5ld", "%05ld", "new.c"],
        1,
        "new.c:2:32: warning: not replaced: the two print different bytes for -1 [skipped]",
    ),
]


class WithoutProgram(unittest.TestCase):
    def setUp(self):
        folder = tempfile.TemporaryDirectory()
        self.addCleanup(folder.cleanup)
        self.work = Path(folder.name)
        for name, format in [("old.c", "%05ld"), ("new.c", "%.5ld")]:
            (self.work / name).write_text(SOURCE.replace("%s", format), encoding="utf-8")
        (self.work / "de.po").write_text(CATALOG, encoding="utf-8")

    def try_row(self, name, words, status, line):
        done = subprocess.run(
            [sys.executable, "-B", "-m", f"fmtcanon.{name}", *words],
            cwd=self.work,
            env={**os.environ, "FMTCANON_PROGRAM": PROGRAM, "COLUMNS": "80"},
            stdout=subprocess.PIPE,
            stderr=subprocess.STDOUT,
            encoding="utf-8",
            check=False,
            timeout=60,
        )

        self.assertEqual((done.returncode, line in done.stdout.splitlines()), (status, True), done.stdout)


def without():
    yield from prepared(WithoutProgram)


def test_commands(without):
    for row in ROWS:
        with without.subTest(command=row[0]):
            without.try_row(*row)


def test_commands_with_libclang(without):
    for name, words, status, line in OF_LIBCLANG:
        with without.subTest(command=name):
            command = "check" if name == "checker" else name
            missing = (2, f"fmtcanon-{command}: {MISSING}")
            without.try_row(name, words, *((status, line) if cindex else missing))


Tests = tests_of(globals())
