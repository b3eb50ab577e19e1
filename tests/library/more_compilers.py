"""Tries the C library and the examples with compilers and tools that the gate doesn't need.

second.a is the library as the other compiler builds it, by `make check-more`. A tool that is missing is a failure that
names the package that has it; the others are tried all the same.
"""

import os
import shutil
import sys
import tempfile

from tests.frame.cases import tests_of
from tests.frame.harness import SONAME
from tests.library.test_header import (
    HEAD,
    OTHER_MACHINES,
    STANDARDS,
    STANDARDS_OF_CPLUSPLUS,
    compiled,
    is_native,
    try_compiler as try_standards,
    try_warnings,
)
from tests.library.test_library import TOP, compile_with, lines_of, python_lines, shapes, try_compiler


def test_compilers(folder, tools, module, trials, work):
    """Other compilers and standards, and C++."""
    wanted = list(python_lines(module, shapes()))
    compilers = [["gcc", "-std=c11", "-O2"], ["gcc", "-std=c17", "-fsanitize=address,undefined"]]
    if tools.has("clang", "clang"):
        compilers += [["clang", "-std=c99"], ["clang", "-std=c17", "-O2"]]
    for compiler in compilers:
        is_sanitized = any("sanitize" in word for word in compiler)
        if is_sanitized:
            words = compile_with(compiler, TOP / "tests/library/answers.c", work / "answers", folder / "libfmtcanon.a")
            trials.expect(f"{compiler}: answers.c", words, (0, ""))
            lines = lines_of([work / "answers", TOP / "bench/shapes.nul"])[1].splitlines()
        else:
            lines = try_compiler(compiler, folder, trials, work)
        trials.expect(f"{compiler}: the answers are those of the Python module", lines == wanted, True)
    source = work / "header.cpp"
    source.write_text(
        '#include "fmtcanon.h"\nint main() { fmtcanon_error e; return (int)fmtcanon_is_canonical(FMTCANON_ILP32, '
        '"%ld", 3, &e) - 1; }\n'
    )
    for compiler, package in [("g++", "g++"), ("clang++", "clang")]:
        if tools.has(compiler, package):
            for standard in ["c++11", "c++17"]:
                words = compile_with([compiler, f"-std={standard}"], source, work / "header", folder / "libfmtcanon.a")
                trials.expect(f"{compiler} -std={standard}", words, (0, ""))
                trials.expect(f"{compiler} -std={standard}: the call", lines_of([work / "header"])[0], 0)


def test_other_compilers(folder, tools, trials, work):
    """clang and C++, and compilers for other machines."""
    for compiler, package, standards in [
        ("clang", "clang", STANDARDS),
        ("g++", "g++", STANDARDS_OF_CPLUSPLUS),
        ("clang++", "clang", STANDARDS_OF_CPLUSPLUS),
    ]:
        if tools.has(compiler, package):
            try_standards(compiler, standards, folder, trials, work)
    if tools.has("clang++", "clang"):
        words = ["clang++", "-std=c++11", "-Wzero-as-null-pointer-constant", "-Wold-style-cast"]
        trials.expect(
            "the header has no NULL that C++ warns of", compiled(words, f"{HEAD}int unused;\n", work), (0, [])
        )
    for words, package, model in OTHER_MACHINES:
        if tools.has(words[0], package):
            name = " ".join(words)
            trials.expect(f"{name}: {model}", compiled(words, HEAD + is_native(model), work), (0, []))
            try_warnings([*words, "-std=c11"], trials, work)


def test_valgrind(folder, tools, module, trials, work):
    """No byte is read or written that isn't the caller's, and none is left."""
    if tools.has("valgrind", "valgrind"):
        words = ["valgrind", "-q", "--error-exitcode=9", "--leak-check=full", "--show-leak-kinds=all"]
        lines = try_compiler(["gcc", "-std=c99", "-g"], folder, trials, work, words)
        trials.expect("valgrind reports nothing", lines == list(python_lines(module, shapes())), True)


def test_second(folder, module, trials, work):
    """The library as the other compiler builds it returns the same."""
    words = compile_with(["gcc", "-std=c99"], TOP / "tests/library/answers.c", work / "second", folder / "second.a")
    trials.expect("answers.c with second.a", words, (0, ""))
    if words[0] == 0:
        lines = lines_of([work / "second", TOP / "bench/shapes.nul"])[1].splitlines()
        trials.expect("second.a answers as the library", lines == list(python_lines(module, shapes())), True)


def test_random(folder, trials, work):
    """The C library prints what the answers of random texts say."""
    program = work / "random"
    words = compile_with(["gcc", "-std=c99", "-O1"], TOP / "tests/library/random.c", program, folder / "libfmtcanon.a")
    trials.expect("random.c", words, (0, ""))
    status, line = lines_of([program, "3000000"])
    print(line, end="")
    trials.expect("random texts", status, 0)


def test_locale(program, folder, trials):
    """In a locale whose encoding is ISO-8859-1, the module passes the same bytes."""
    with tempfile.TemporaryDirectory() as work:
        status = (
            lines_of(["localedef", "-i", "de_DE", "-f", "ISO-8859-1", f"{work}/de_DE.ISO-8859-1"])[0]
            if shutil.which("localedef")
            else 1
        )
        trials.expect("localedef makes a locale: the package locales has what it needs", status, 0)
        environment = {
            **os.environ,
            "LOCPATH": work,
            "LC_ALL": "de_DE.ISO-8859-1",
            "PYTHONPATH": str(TOP / "python"),
            "PYTHONUTF8": "0",
            "FMTCANON_PROGRAM": program,
            "FMTCANON_LIBRARY": str(folder / SONAME),
        }
        script = (
            "import sys, fmtcanon; print(sys.getfilesystemencoding(), fmtcanon.format('\\xe9%s', '\\xe9'), "
            "fmtcanon.show('\\xe9'))"
        )
        wanted = "iso8859-1 b'\\xc3\\xa9\\xc3\\xa9' [Text(length=2)]\n"
        trials.expect(
            "format and show in ISO-8859-1",
            lines_of([sys.executable, "-c", script], env=environment, cwd=work),
            (0, wanted),
        )


Tests = tests_of(globals())
