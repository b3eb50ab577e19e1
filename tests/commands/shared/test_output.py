"""Tests of output that is closed or full: every command says so in one line, and ends with status 2."""

import os
import signal
import subprocess
import sys

from tests.frame.cases import tests_of

# The names of the commands, and the package of each.
COMMANDS = {"check": "checker", "diff": "diff", "explain": "explain", "po": "po", "replace": "replace"}
# What the shell does with the streams, and what is said of standard output.
UNWRITABLE = [(">&-", "standard output is closed"), (">/dev/full", "standard output: No space left on device")]


def shell(words: str, streams: str) -> "subprocess.CompletedProcess[str]":
    """A run of a command, with its streams as the shell makes them."""
    script = f'exec "$0" -B -m fmtcanon.{words} {streams}'
    return subprocess.run(["sh", "-c", script, sys.executable], capture_output=True, text=True, check=False, timeout=60)


def test_help_and_version(case):
    for command, package in COMMANDS.items():
        for option in ["--help", "--version"]:
            for streams, said in UNWRITABLE:
                done = shell(f"{package} {option}", streams)
                case.assertEqual(
                    (done.returncode, done.stdout, done.stderr), (2, "", f"fmtcanon-{command}: {said}\n")
                )


def test_a_list(case):
    for streams, said in UNWRITABLE:
        done = shell("replace --list-functions", streams)
        case.assertEqual((done.returncode, done.stderr), (2, f"fmtcanon-replace: {said}\n"))


def test_standard_error(case):
    for package in COMMANDS.values():
        for streams in ["2>&-", "2>/dev/full", ">&- 2>&-"]:
            done = shell(f"{package} --nonsense", streams)
            case.assertEqual((done.returncode, done.stdout), (2, ""), (package, streams))


def test_nobody_reads(case):
    for words in ["--list-functions", "--help"]:
        reading, writing = os.pipe()
        os.close(reading)
        words = [sys.executable, "-B", "-m", "fmtcanon.replace", words]
        done = subprocess.run(words, stdout=writing, stderr=subprocess.PIPE, check=False, timeout=60)
        os.close(writing)
        case.assertEqual((done.returncode, done.stderr), (128 + signal.SIGPIPE, b""))


def test_numbers_of_streams(case):
    """No file takes the number of a stream that is closed."""
    script = (
        "import os, sys; from fmtcanon.frame.output import occupy; occupy(); "
        "sys.exit(min(os.open(os.devnull, os.O_RDONLY), 3))"
    )
    words = ["sh", "-c", 'exec "$0" -B -c "$1" <&- >&- 2>&-', sys.executable, script]
    case.assertEqual(subprocess.run(words, check=False, timeout=60).returncode, 3)


Tests = tests_of(globals())
