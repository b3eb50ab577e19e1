"""Runs the Python module on AArch64: by Debian's Python for that processor, in an emulator.

apt-get fetches the packages of that Python into a folder of its own, and leaves the
system's lists of packages alone. It needs a network, apt-get, dpkg-deb and qemu-aarch64.
"""

import os
import re
import shutil
import subprocess
from pathlib import Path

from tests.frame.harness import SONAME, TOP
from tests.library.test_library import lines_of

# apt-get for another processor, all of whose files are below one folder.
SETTINGS = """\
APT::Architecture "arm64";
APT::Architectures { "arm64"; };
APT::Install-Recommends "false";
APT::Sandbox::User "root";
Dir::Etc::SourceList "WORK/sources.list";
Dir::Etc::SourceParts "/dev/null";
Dir::State "WORK";
Dir::State::Lists "WORK/lists";
Dir::State::Status "WORK/status";
Dir::Cache "WORK";
Dir::Cache::Archives "WORK/archives";
"""
SOURCE = "deb [signed-by=/usr/share/keyrings/debian-archive-keyring.gpg] http://deb.debian.org/debian {} main\n"
# A Python that starts others by its own name. Unlike an emulated program, a script can be executed everywhere.
WRAPPER = """\
#!/bin/sh
exec '{emulator}' -0 "$0" -L '{root}' '{root}/usr/bin/python3' "$@"
"""
# Tests of the module: those that call the library, measure no time, and start few processes, which an emulator takes
# long for.
TESTS = [
    "checker.test_check",
    "diff.test_diff_findings",
    "explain.test_explain",
    "module.test_fmtcanon",
    "module.test_surroundings",
    "shared.test_without_program",
]
# How many of them need the program.
SKIPPED = 2


def fetched(work):
    """Fetches the packages of Python into a folder; returns the status and output of apt-get."""
    for name in ["lists/partial", "archives/partial"]:
        (work / name).mkdir(parents=True)
    (work / "status").write_text("")
    release = re.search(r"VERSION_CODENAME=(\w+)", Path("/etc/os-release").read_text(encoding="utf-8")).group(1)
    (work / "sources.list").write_text(SOURCE.format(release))
    (work / "apt.conf").write_text(SETTINGS.replace("WORK", str(work)))
    environment = {**os.environ, "APT_CONFIG": str(work / "apt.conf")}
    for words in [["update"], ["--yes", "--download-only", "install", "python3"]]:
        status, output = lines_of(["apt-get", "--quiet", *words], env=environment)
        if status != 0:
            break
    return status, output


def emulated_python(work, trials):
    """Returns a command that runs Debian's Python for AArch64, or None if it can't be had."""
    work.mkdir()
    status, output = fetched(work)
    trials.expect(f"apt-get fetches Python for arm64: {output[-300:] if status else ''}", status, 0)
    for package in sorted((work / "archives").glob("*.deb")):
        subprocess.run(["dpkg-deb", "-x", package, work / "root"], check=True)
    python = work / "python3"
    python.write_text(WRAPPER.format(emulator=shutil.which("qemu-aarch64"), root=work / "root"))
    python.chmod(0o755)
    machine = lines_of([python, "-c", "import platform; print(platform.machine())"])
    trials.expect("an emulated Python", machine, (0, "aarch64\n"))
    return python if machine[0] == 0 else None


def environment_of(**names):
    """An environment without the program and without the system's modules."""
    without = {
        it: value for it, value in os.environ.items() if it not in (
            "FMTCANON_PROGRAM", "FMTCANON_LIBRARY", "PYTHONPATH"
        )
    }
    return {**without, "PYTHONDONTWRITEBYTECODE": "1", **names}


def try_unit_tests(python, cross, trials):
    """The tests of the module that call the library, without the program."""
    words = [python, "-m", "unittest", *(f"tests.commands.{name}" for name in TESTS)]
    environment = environment_of(FMTCANON_LIBRARY=str(cross / SONAME))
    status, lines = lines_of(words, env=environment, cwd=TOP)
    if status != 0:
        print(lines)
    trials.expect("the tests of the Python module on AArch64", status, 0)
    trials.expect("tests that need the program", re.findall(r"skipped=(\d+)", lines), [str(SKIPPED)])
    print(*re.findall(r"^Ran .*", lines, re.MULTILINE), "on AArch64")
