"""Tries what programs see of the header alone: that it raises no warnings, that compilers check arguments through
fmtcanon_fmtcheck, which data model FMTCANON_NATIVE is, and that its C code is no more than has to be trusted.

It needs a Linux system with gcc; more_compilers.py tries other compilers.
"""

import re

from tests.frame.cases import tests_of
from tests.library.test_library import HEADER, header_text, lines_of

STANDARDS = ["c99", "c11", "gnu17"]
STANDARDS_OF_CPLUSPLUS = ["c++98", "c++11", "c++17"]
WARNINGS = ["-Wall", "-Wextra", "-Wpedantic", "-Wformat=2", f"-I{HEADER.parent}"]
HEAD = "#include <fmtcanon.h>\n#include <fmtcanon.h>\n#include <stdio.h>\n"
# A program that uses nothing of the header, and one that uses its macro and its inline call.
UNUSED = HEAD + "int main(void) { return 0; }\n"
USED = HEAD + """int main(int count, char **words)
{
    if (FMTCANON_NATIVE != FMTCANON_LP64)
        return 2;
    printf(fmtcanon_fmtcheck(count > 1 ? words[1] : NULL, "%d %s"), 1, "x");
    return 0;
}
"""
# A call, the warning that gcc raises, and that of clang if it has another name.
CALLS = [
    ('printf(fmtcanon_fmtcheck(text, "%d %s"), 1, "x")', None),
    ('printf(fmtcanon_fmtcheck(text, "%d %s"), "x", 1)', "-Wformat"),
    ('printf(fmtcanon_fmtcheck(text, "%d %s"), 1)', "-Wformat", "-Wformat-insufficient-args"),
    ('printf(fmtcanon_fmtcheck(text, "%d %s"), 1, "x", 2)', "-Wformat-extra-args"),
    ('printf(fmtcanon_fmtcheck("%d", text), 1)', "-Wformat-nonliteral"),
    ('printf(text, 1, "x")', "-Wformat-nonliteral"),
]
# The format that a program is given, and what it prints.
PRINTED = [
    ([], "1 x"),
    (["%d %s"], "1 x"),
    (["%2$s, %1$05d"], "x, 00001"),
    (["only %i"], "only 1"),
    (["%s %d"], "1 x"),
    (["%d %s %n"], "1 x"),
    (["%d%"], "1 x"),
]
# The largest numbers of types, and the data model in which they have these.
SHORT, INT, LONG, UINT, ULONG = "32767", "INT32_MAX", "INT64_MAX", "UINT32_MAX", "UINT64_MAX"
SIZES = [
    ((INT, LONG, ULONG, LONG, LONG), "FMTCANON_LP64"),
    ((INT, INT, UINT, INT, LONG), "FMTCANON_ILP32"),
    ((INT, INT, ULONG, LONG, LONG), "FMTCANON_LLP64"),
    # 64 bits in int, in long alone, or in none; 16 in int; pointers of another size than differences.
    ((LONG, LONG, ULONG, LONG, LONG), None),
    ((INT, LONG, UINT, INT, LONG), None),
    ((INT, INT, UINT, INT, INT), None),
    ((SHORT, INT, UINT, INT, LONG), None),
    ((INT, LONG, ULONG, INT, LONG), None),
]
LIMITS = ["INT_MAX", "LONG_MAX", "SIZE_MAX", "PTRDIFF_MAX", "INTMAX_MAX"]
# Compilers for other machines, with the package that has the compiler, and the data model of its programs.
OTHER_MACHINES = [
    (["gcc", "-m32"], "gcc-multilib", "FMTCANON_ILP32"),
    (["x86_64-w64-mingw32-gcc"], "gcc-mingw-w64-x86-64", "FMTCANON_LLP64"),
]


def compiled(compiler, text, work, *more):
    """The status of a compiler over a text, and the options by which it says that it warns."""
    source = work / ("program.cpp" if "++" in compiler[0] else "program.c")
    source.write_text(text)
    status, output = lines_of([*compiler, *WARNINGS, source, *(more or ["-c", "-o", work / "object"])])
    return status, sorted({it.rstrip("=") for it in re.findall(r"\[(-W[\w+-]+=?)\d?\]", output)})


def try_warnings(compiler, trials, work):
    """Programs that use the call and that don't raise no warning, and a call with wrong arguments raises one."""
    name = " ".join(compiler)
    for text, kind in [(UNUSED, "without"), (USED, "with")]:
        trials.expect(f"{name}: a program {kind} the call", compiled(compiler, text, work), (0, []))
    for call, *warnings in CALLS:
        text = HEAD + f"void call(const char *text) {{ {call}; }}\n"
        warning = warnings[-1] if compiler[0].startswith("clang") else warnings[0]
        wanted = (0, [warning] if warning else [])
        trials.expect(f"{name}: warnings of {call}", compiled(compiler, text, work), wanted)


def try_printed(compiler, folder, trials, work):
    """A program prints by the format that it is given if it may, and by its own otherwise."""
    name = " ".join(compiler)
    words = compiled(compiler, USED, work, folder / "libfmtcanon.a", "-o", work / "program")
    trials.expect(f"{name}: a program with the library", words, (0, []))
    for given, wanted in PRINTED:
        trials.expect(f"{name}: what is printed by {given}", lines_of([work / "program", *given]), (0, wanted))


def is_native(model):
    """A program that compiles if and only if FMTCANON_NATIVE is this data model, or isn't defined."""
    if model is None:
        return "#ifdef FMTCANON_NATIVE\n#error it is defined\n#endif\n"
    return f"typedef char is_native[FMTCANON_NATIVE == {model} ? 1 : -1];\n"


def compiler():
    return ["gcc", "-std=c11"]


def test_sizes(compiler, trials, work):
    """FMTCANON_NATIVE by the largest numbers of types, whatever those of the compiler are."""
    models = ["FMTCANON_LP64", "FMTCANON_ILP32", "FMTCANON_LLP64", None]
    for limits, wanted in SIZES:
        lines = [f"#undef {name}\n#define {name} {limit}\n" for name, limit in zip(LIMITS, limits)]
        head = "#include <limits.h>\n#include <stddef.h>\n#include <stdint.h>\n#include <string.h>\n"
        text = head + "".join(lines) + "#include <fmtcanon.h>\n"
        found = [model for model in models if compiled(compiler, text + is_native(model), work) == (0, [])]
        trials.expect(f"FMTCANON_NATIVE for {limits}", found, [wanted])


def test_code(trials):
    """The code of the header is one function: two lengths, a call of the library that decides, and a choice of
    pointers.
    """
    [(name, body)] = re.findall(
        r"^static inline .*?(\w+)\([^)]*\)\n\{\n(.*?)^\}", header_text(), re.MULTILINE | re.DOTALL
    )
    trials.expect("the inline function", name, "fmtcanon_fmtcheck")
    calls = re.findall(r"(\w+)\(", body)
    trials.expect("calls of its body", sorted(set(calls) - {"if"}), ["fmtcanon_fits_fewer", "strlen"])
    trials.expect("what it returns", re.findall(r"return (\w+);", body), ["suspect", "fallback"])
    trials.expect("braces elsewhere", len(re.findall(r"^\{", header_text(), re.MULTILINE)), 1)


def try_compiler(compiler, standards, folder, trials, work):
    for standard in standards:
        words = [compiler, f"-std={standard}"]
        try_warnings(words, trials, work)
        try_printed(words, folder, trials, work)


def test_standards(folder, trials, work):
    try_compiler("gcc", STANDARDS, folder, trials, work)
    unused = compiled(["gcc", "-std=c89"], UNUSED, work)
    trials.expect("gcc -std=c89: a program without the call", unused, (0, []))


Tests = tests_of(globals())
