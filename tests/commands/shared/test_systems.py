"""Tries what runs where there are no signals, processes and limits of POSIX, as on Windows, and what says that it
doesn't.
"""

import os
import subprocess
import sys
import textwrap
from pathlib import Path
from unittest import mock

import fmtcanon

from tests.frame import TOP
from tests.frame.cases import tests_of

PYTHON = str(TOP / "python")
# Takes away what Windows lacks, and then runs a module with its arguments.
WITHOUT = textwrap.dedent(
    """
    import os, runpy, signal, sys
    for name in ("fcntl", "resource", "termios", "tty", "pwd", "grp"):
        sys.modules[name] = None
    for name in ("SIGHUP", "SIGALRM", "SIGPIPE", "SIGCHLD", "pthread_sigmask", "setitimer", "ITIMER_REAL", "SIG_BLOCK"):
        delattr(signal, name)
    for name in ("setsid", "killpg", "getpgid", "geteuid", "getuid", "listxattr", "getxattr", "setxattr", "mkfifo"):
        delattr(os, name)
    module, *sys.argv[1:] = sys.argv[1:]
    sys.platform = module.partition(":")[2] or sys.platform
    runpy.run_module(module.partition(":")[0], run_name="__main__")
    """
)


def run(*words, stdin=b""):
    """Returns the status of a run without them, and what it writes to both streams."""
    environment = {**os.environ, "PYTHONPATH": PYTHON}
    done = subprocess.run(
        [sys.executable, "-c", WITHOUT, *words], input=stdin, env=environment, capture_output=True, check=False
    )
    return done.returncode, done.stdout.decode(), done.stderr.decode()


def test_commands_that_run(case):
    status, out, err = run("fmtcanon.explain", "%5c", "    %c")
    case.assertEqual((status, out.split("\n")[0], err), (0, "same", ""))
    status, out, err = run("fmtcanon.po", "--version")
    case.assertEqual((status, out, err), (0, f"fmtcanon {fmtcanon.__version__}\n", ""))


def test_commands_that_say_so(case):
    for package, name in [("checker", "check"), ("diff", "diff"), ("replace", "replace"), ("lsp", "lsp")]:
        status, out, err = run(f"fmtcanon.{package}:win32", "a.c")
        case.assertEqual((status, out, err.count("\n")), (1, "", 1), err)
        case.assertTrue(err.startswith(f"fmtcanon-{name}: it needs Linux or macOS"), err)


def test_names_of_the_library(case):
    for system, wanted in [("linux", "libfmtcanon.so.1"), ("darwin", "libfmtcanon.dylib"), ("win32", "fmtcanon.dll")]:
        with mock.patch.object(sys, "platform", system), mock.patch.dict(os.environ):
            os.environ.pop("FMTCANON_LIBRARY", None)
            case.assertEqual(Path(fmtcanon._library_name()).name, wanted)


Tests = tests_of(globals())
