"""Tries the pages that people read first: each command of the tutorial, and the picture of the README, on a
terminal. They need libclang and git.
"""

import re
import subprocess

from tests.commands.shared import first_screen
from tests.commands.checker.more_check import LARGE
from tests.commands.shared.reader import Reader
from tests.frame.cases import tests_of
from tests.frame.harness import TIMEOUT, TOP, section

# A line of docs/FINDINGS.md, and whether it is one to write.
LINE = re.compile(r"(Write)?\n\n```c\n(.*?)```", re.DOTALL)
# What the lines of docs/FINDINGS.md need: the declarations of each, as the program has them.
DECLARED = """\
#define _GNU_SOURCE
#include <errno.h>
#include <inttypes.h>
#include <stdio.h>
#include <string.h>
#include <sys/stat.h>
#include <sys/time.h>
#include <unistd.h>
typedef unsigned long long maxuint_t;
struct active { struct { int container_member; } info; int curr_state; };
int _HFI_VDBG(const char *, ...) __attribute__((format(printf, 1, 2)));
int dprintf(const char *, ...) __attribute__((format(printf, 1, 2)));
void log(int, const char *, ...) __attribute__((format(printf, 2, 3)));
enum { DEBUG };
void f(ssize_t size, struct stat stbuff, struct active *a, struct timeval tv, char *array_states[], char tmp[100],
       struct { const char *name; } *itr, const char *filename, time_t to_timestamp, off_t epos,
       volatile uint64_t *shared_affinity_ptr, int shm_location, long *unit_start, int node_id) {
"""


def reader(folder, python, program, work):
    return Reader(work, folder, python, program)


def test_tutorial(reader, trials):
    """Each command of the tutorial, on the files that it shows."""
    reader.try_page(trials, TOP / "docs/TUTORIAL.md")


def test_picture(reader, trials):
    """The picture is what a terminal shows."""
    picture = first_screen.drawn(first_screen.screens(reader))
    trials.expect("docs/first.svg", first_screen.PICTURE.read_text(encoding="utf-8"), picture)


def test_findings(reader, trials):
    """Each line of docs/FINDINGS.md is reported, and one that is to be written isn't: by the command where it is
    compiled, and by gcc for 32 bits alone.
    """
    lines = LINE.findall(section(TOP / "docs/FINDINGS.md", "Calls that other systems get wrong"))
    trials.expect("lines, and one to write", (len(lines) > 4, any(it for it, _ in lines)), (True, True))
    for write, line in lines:
        # stdio.h has a function of this name with other parameters.
        text = DECLARED + line + "}\n"
        reader.put("a.c", text.replace("dprintf(", "own_dprintf("))
        found = reader.screen("fmtcanon-check --no-cache --output json a.c")
        kinds = re.findall(r'"kind": "(\w+)"', found)
        trials.expect(f"{line} {found}", bool(kinds), not write)
        trials.expect(f"{line}: the kinds", set(kinds) - {"size"}, set())
        for words, is_warned in [(["-Wall"], False), (["-m32", *LARGE, "-Wformat"], not write)]:
            words = ["gcc", *words, "-fsyntax-only", "a.c"]
            done = subprocess.run(
                words, cwd=reader.work, capture_output=True, encoding="utf-8", timeout=TIMEOUT, check=False
            )
            got = (done.returncode, "-Wformat=" in done.stderr)
            trials.expect(f"{words} of {line}", got, (0, is_warned))


Tests = tests_of(globals())
