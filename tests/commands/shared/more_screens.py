"""Tries what fmtcanon-replace and fmtcanon-check show on a terminal. They need libclang; the other commands
are in tests/commands/shared/test_terminal.py.
"""

import os
import subprocess

from tests.commands.shared.terminal import on_terminal
from tests.frame.cases import tests_of
from tests.frame.harness import SONAME, TIMEOUT, TOP

SOURCE = """\
#include <stdio.h>
void f(int n, size_t size) {
\tprintf("%d: %05d\\n", n, n);
\tfputs("%d: %05d\\n", stderr);
\tprintf("%lu", size);
\tprintf("%#d", 1);
}
"""
# What a terminal of 80 columns shows, by hand: the lines of places that are left, and NEW.
REPLACE = ["-m", "fmtcanon.replace", "--dry-run", r"%d: %05d\n", r"%d: %.5d\n", "a.c"]
REPLACE_SHOWN = """\
a.c:3:9: warning: not replaced: the two print different bytes for 0, -1
    [skipped]
   3 |     printf("%d: %05d\\n", n, n);
     |                 ^^^^ the sign is one of the 5 bytes
 NEW | "%d: %.5d\\n"
     |      ^^^^ 5 digits, and the sign before them
a.c:4:8: warning: not replaced: the two print different bytes for 0, -1
    [skipped]
   4 |     fputs("%d: %05d\\n", stderr);
     |                ^^^^ the sign is one of the 5 bytes
 NEW | "%d: %.5d\\n"
     |      ^^^^ 5 digits, and the sign before them
"""
# OLD or NEW that is rejected.
REFUSED = ["-m", "fmtcanon.replace", "%d", "%#d", "a.c"]
REFUSED_SHOWN = """\
fmtcanon-replace: NEW is refused 13 AltUndefined at byte 2
refused 13 AltUndefined at byte 2
%#d
  ^ `#` has no meaning with `d`. Write %d.
"""
# The line of a call, and a format that isn't accepted.
CHECK = ["-m", "fmtcanon.checker", "a.c"]
CHECK_SHOWN = """\
a.c:5:10: error: %lu for a size_t: wrong size on 64-bit Windows, wrong type on
    32-bit systems; use %zu [size]
 5 |     printf("%lu", size);
   |             ^^^ use %zu
a.c:6: warning: not judged: refused 13 AltUndefined at byte 2 of a format of
    printf [unjudged]
 format | "%#d"
        |  ^^^ AltUndefined
    help: `#` has no meaning with `d`. Write %d.
1 file, 2 formats, 3 arguments: 1 size, 1 unjudged
"""


def test_screens(folder, python, trials, work):
    """What a terminal and a pipe get, with a Python that has libclang."""
    names = {"FMTCANON_LIBRARY": str(folder / SONAME), "PYTHONPATH": str(TOP / "python"), "NO_COLOR": "1"}
    (work / "a.c").write_text(SOURCE, encoding="utf-8")

    def shown(words):
        return on_terminal(words, folder=work, python=str(python), **names)

    for words, status, text in [(REPLACE, 1, REPLACE_SHOWN), (REFUSED, 2, REFUSED_SHOWN), (CHECK, 1, CHECK_SHOWN)]:
        trials.expect(f"{words} on a terminal", shown(words), (status, text))
    for words in [REPLACE, CHECK]:
        done = subprocess.run(
            [python, "-B", *words],
            cwd=work,
            env={**os.environ, **names},
            timeout=TIMEOUT,
            check=False,
            capture_output=True,
        )
        lines = done.stdout.decode().splitlines()
        trials.expect(f"{words} in a pipe", [it[:4] for it in lines], ["a.c:"] * 2)
        module, *rest = words[1:]
        script = "from fmtcanon.frame import progress; progress.BEGIN = progress.EVERY = 0; "
        script += f"from {module}.command import main; main({rest})"
        trials.expect(f"progress of {module}", "1 of 1 files done" in shown(["-c", script])[1], True)


Tests = tests_of(globals())
