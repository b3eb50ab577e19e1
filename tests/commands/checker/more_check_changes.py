"""Tries fmtcanon-diff with compile commands: signs, added formats, and macros that the compiler knows; and how signals
end fmtcanon-check.

It needs libclang and gcc.
"""

import json
import os
import re
import signal
import subprocess
import time
from pathlib import Path

from tests.commands.checker.more_check import SAYS
from tests.commands.tool import Tool
from tests.frame.cases import tests_of
from tests.frame.harness import TIMEOUT

# The seconds in which the command ends after a signal.
SOON = 2
SIGN = "types differ at argument 1: %d takes int and %u takes unsigned int, in "
# The same with more of what the compiler knows: how what is said begins and ends. None is nothing.
KNOWN_HERE = [
    (
        'printf("%d a", n);',
        'printf("%u a", n);',
        SIGN,
        '"%d a" and "%u a"; in the call %u for an int: wrong sign; use %d',
    ),
    ('printf("%x b", n);', 'printf("%lx b", m);', "types differ, and the call fits: ", '"%x b" and "%lx b"'),
    (
        'printf("%d c", n);',
        'printf("%lx c", m);',
        "types differ at argument 1: ",
        '"%lx c"; in the call %lx for a long: wrong sign; use a cast to unsigned long',
    ),
    ('printf("%u d", u);', 'printf("%d d", n);', "types differ, and the call fits: ", '"%u d" and "%d d"'),
    ("#ifdef NEVER\n", "#ifdef NEVER\n", None, None),
    ('printf("%d e", n);', 'printf("%u e", u);', SIGN, "; the call isn't compiled here"),
    ("#endif\n", "#endif\n", None, None),
    ('other("%d f", n);', 'other("%u f", u);', SIGN, "; no call of a known function has it as its format"),
    (
        'printf(PREFIX "%d", n);',
        'printf(PREFIX "%ld", m);',
        "types differ, and the call fits: ",
        "; with PREFIX as it is compiled here",
    ),
    ('printf("long %" LONG "d", m);', 'printf("long %ld", m);', "same: ", "; with LONG as it is compiled here"),
    ('printf("%" NUMBER, n);', 'printf("%" NUMBER "!", n);', "not judged: the macro NUMBER is part of it", ""),
    ('other("CPU% ");', 'other("MEM% ");', None, None),
    ("", 'printf("%lu g", strlen(s));', "%lu for a size_t: ", "; use %zu"),
    ("", 'printf("%zu h %d", strlen(s));', "no argument for %d", ""),
    ("", 'printf("%zu i", strlen(s));', None, None),
    ("", 'other("%lu j", strlen(s));', None, None),
]
MACROS = '#define PREFIX "prefix: "\n#define LONG "l"\n#define NUMBER number()\n#define number() "d"\n'


def tool(folder, work, python):
    return Tool("check", folder, work, python)


def test_known_here(tool, trials):
    """With -p, a sign isn't another unseen, added formats are judged in their calls, and macros are the compiler's."""
    front = f'{SAYS}#include "macros.h"\nint other(const char *, ...);\n'
    front += "void f(const char *s, int n, unsigned u, long m) {\n"
    for name, side in [("old.c", 0), ("new.c", 1)]:
        tool.put(name, front + "".join(f"{it[side]}\n" for it in KNOWN_HERE) + "}\n")
    tool.put("macros.h", MACROS)
    tool.put_commands(["gcc", "-c", "new.c"])
    diff = Tool("diff", tool.folder, tool.work, tool.python)
    status, output, fault = diff.run("-p", ".", "--verbose", "old.c", "new.c")
    said = [re.sub(r"^.*?: \w+: | \[\w+\]$", "", it) for it in output.splitlines()]
    wanted = [it[2:] for it in KNOWN_HERE if it[2] is not None]
    trials.expect(f"how much is said: {output} {fault}", (status, len(said)), (1, len(wanted)))
    for line, (begin, end) in zip(said, wanted):
        trials.expect(f"{begin}: {line}", (line.startswith(begin), line.endswith(end)), (True, True))
    trials.expect(
        "the counts", "; 4 literals added, with 3 of 4 formats judged in their calls, 0 removed" in fault, True
    )
    options = ["--not-printf", "other", "--not-printf", "printf"]
    trials.expect("no printf", diff.run("-p", ".", "--verbose", *options, "old.c", "new.c")[1], "")
    status, output, _ = diff.run("-p", ".", "--fail-on", "different", "--output", "json", "old.c", "new.c")
    levels = {(it["kind"], it["level"]) for it in map(json.loads, output.splitlines())}
    trials.expect("levels", (status, {("size", "warning"), ("kind", "warning")} <= levels), (0, True))
    status, output, _ = diff.run("-p", ".", "--model", "lp64", "old.c", "new.c")
    trials.expect("in one data model", ("%lu g" in output, "no argument for %d" in output), (False, True))
    # A file without a command, one that can't be preprocessed, and a new one.
    tool.put("old/a.c", 'void f(int n) { printf("%d", n); }')
    tool.put("new/a.c", 'void f(int n) { printf("%ld", n); }')
    tool.put("new/b.c", f'{SAYS}void g(void) {{ printf("%d", 1.0); }}\n')
    for words, why in [
        ([["gcc", "-c", "new.c"]], "compile_commands.json has no command for it"),
        ([["gcc", "-c", "-include", "nothing.h", "new/a.c"]], "its compiler can't preprocess it: "),
        ([["gcc", "-c", "new/b.c"]], "compile_commands.json has no command for it"),
    ]:
        tool.put_commands(*words)
        status, output, _ = diff.run("-p", ".", "old", "new")
        trials.expect(f"{why}: {output}", (status, f"; the call isn't judged: {why}" in output), (1, True))
    trials.expect("a new file", "new/b.c:5:24: error: %d for a double: it takes an int" in output, True)


# Signals that come one after the other, and whether the group of the command gets each.
INTERRUPT, INTERRUPT_ALL = (signal.SIGINT, False), (signal.SIGINT, True)
SIGNALS = [
    *(
        [(number, is_of_group)]
        for number in [signal.SIGINT, signal.SIGTERM, signal.SIGHUP]
        for is_of_group in [False, True]
    ),
    [INTERRUPT_ALL, INTERRUPT_ALL],
    [INTERRUPT, INTERRUPT_ALL],
]


def test_signals(tool, trials):
    """A signal, or two, ends the command with its processes and the compilers, and leaves no copy."""
    for number in range(40):
        tool.put(f"{number}.c", f'{SAYS}void f(size_t n) {{ printf("%lu", n); }}\n')
    tool.put_commands(*(["gcc", "-c", f"{number}.c"] for number in range(40)))
    names = {it.name for it in tool.work.iterdir()}
    for signals in SIGNALS:
        running = subprocess.Popen(
            [tool.python, "-m", "fmtcanon.checker", "-p", ".", "-j2"],
            cwd=tool.work,
            env=tool.environment,
            stdout=subprocess.DEVNULL,
            stderr=subprocess.PIPE,
            start_new_session=True,
        )
        children = Path(f"/proc/{running.pid}/task/{running.pid}/children")
        while running.poll() is None and len(children.read_text().split()) < 2:
            time.sleep(0.01)
        time.sleep(0.3)
        there = children.read_text().split()
        for number, is_of_group in signals:
            (os.killpg if is_of_group else os.kill)(running.pid, number)
            time.sleep(0.1)
        began = time.monotonic()
        errors = running.communicate(timeout=TIMEOUT)[1]
        while time.monotonic() < began + SOON and any(map(runs, there)):
            time.sleep(0.01)
        left = {it.name for it in tool.work.iterdir()} - names
        found = (running.returncode, len(there), any(map(runs, there)), errors, left, time.monotonic() - began < SOON)
        trials.expect(f"signals {signals}", found, (128 + signals[0][0], 2, False, b"", set(), True))


def runs(process):
    """Whether a process is there, and hasn't ended."""
    try:
        return Path(f"/proc/{process}/stat").read_bytes().rpartition(b")")[2].split()[0] != b"Z"
    except (FileNotFoundError, ProcessLookupError):
        return False


Tests = tests_of(globals())
