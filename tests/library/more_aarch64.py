"""Tries the C library for AArch64 in an emulator: against its header, and against the library for x86-64; the tests of
the Python module over it (emulated_python.py), and the packages (aarch64_packages.py).

It needs the library of `make library TARGET=aarch64`, and Debian's gcc-aarch64-linux-gnu, libc6-dev-arm64-cross and
qemu-user.
"""

import math
import re

from tests.frame.cases import tests_of
from tests.frame.fixtures import built
from tests.frame.harness import SONAME
from tests.library.emulated_python import emulated_python, try_unit_tests
from tests.library.test_library import PROGRAMS, SHAPES, TOP, WRAPPED, compile_with, header_calls, lines_of
from tests.packages.aarch64_packages import try_packages
from tests.program.test_sizes import CALLS, TIMES

TOOLS = "aarch64-linux-gnu-"
COMPILER = [f"{TOOLS}gcc", "-std=c99", "-O1"]
# Debian's folder of the C library for the compiler.
EMULATOR = ["qemu-aarch64", "-L", "/usr/aarch64-linux-gnu"]
# How much slower than this processor the emulator may be.
SLOWER = 60
SOURCES = TOP / "tests/library"
RANDOM = 100_000


def cross():
    """The folder of the library for the processor."""
    return built("FMTCANON_CROSS", f"out/c-aarch64/{SONAME}").parent


def archive(cross):
    return cross / "libfmtcanon.a"


def test_programs(archive, trials, work):
    """The programs of tests/library find nothing wrong, those on a small stack among them."""
    for program, options, line in PROGRAMS:
        trials.expect(
            f"{program}.c", compile_with(COMPILER, SOURCES / f"{program}.c", work / program, archive, *options), (0, "")
        )
        trials.expect(program, lines_of([*EMULATOR, work / program]), (0, f"{line}\n"))


def test_random(archive, trials, work):
    """The C library of the processor prints what the answers of random texts say."""
    program = work / "random"
    trials.expect("random.c", compile_with(COMPILER, SOURCES / "random.c", program, archive), (0, ""))
    status, line = lines_of([*EMULATOR, program, str(RANDOM)])
    print(line, end="")
    trials.expect("random texts", status, 0)


def answers_of(compiler, emulator, program, *library):
    """Returns what the answers about all shapes are, in each data model."""
    compiled = compile_with(compiler, SOURCES / "answers.c", program, *library)
    return compiled if compiled != (0, "") else lines_of([*emulator, program, SHAPES])


def test_answers(folder, cross, trials, work):
    """The answers of the archive and of the shared library are those of the library for x86-64, byte for byte."""
    wanted = answers_of(["gcc", "-std=c99"], [], work / "own", folder / "libfmtcanon.a")
    trials.expect("whether there are answers", wanted[0] == 0 and wanted[1].count("\n") > 10_000, True)
    archive = answers_of(COMPILER, EMULATOR, work / "archive", cross / "libfmtcanon.a")
    shared = answers_of(
        COMPILER, [*EMULATOR, "-E", f"LD_LIBRARY_PATH={cross}"], work / "shared", cross / "libfmtcanon.so"
    )
    for name, found in [("archive", archive), ("shared library", shared)]:
        trials.expect(f"whether the {name} answers as x86-64", found == wanted, True)
    print(f"{wanted[1].count(chr(10)):,} lines of answers compared")


def test_sizes(archive, trials, work):
    """Long texts through each call."""
    program = work / "sizes"
    trials.expect("sizes.c", compile_with(COMPILER, SOURCES / "sizes.c", program, archive, *WRAPPED), (0, ""))
    for name, units, took in CALLS:
        words = [*EMULATOR, program, str(math.ceil(SLOWER * TIMES * took)), str(units), name]
        trials.expect(f"{name} over {units} units", lines_of(words), (0, ""))


def test_exports(cross, trials):
    """The library gives its functions and no other name, and needs nothing but the C library."""
    wanted = sorted(name for name, _ in header_calls())
    for words in [["-D", cross / "libfmtcanon.so"], ["-g", cross / "libfmtcanon.a"]]:
        said = lines_of([f"{TOOLS}nm", "--defined-only", *words])[1]
        trials.expect(
            f"names of {words[1].name}", sorted(re.findall(r"^[0-9a-f]+ \w (\S+)$", said, re.MULTILINE)), wanted
        )
    headers = lines_of([f"{TOOLS}objdump", "-p", cross / "libfmtcanon.so"])[1]
    trials.expect("the name that programs ask for", re.findall(r"SONAME\s+(\S+)", headers), [SONAME])
    trials.expect("libraries that it wants", re.findall(r"NEEDED\s+(\S+)", headers), ["libc.so.6"])


def test_module(cross, trials, work):
    """The Python module over the library, and the packages."""
    python = emulated_python(work / "python", trials)
    if python:
        try_unit_tests(python, cross, trials)
    try_packages(cross, python, trials, work)


Tests = tests_of(globals())
