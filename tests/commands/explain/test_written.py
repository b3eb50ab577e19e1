"""Tests of the formats of a source as it is written: the functions that a text declares, arguments, and bounds on work.
"""

import tempfile
import time
from pathlib import Path

from fmtcanon import Model
from fmtcanon.source.declared import declared_for, declared_in
from fmtcanon.source.known import Shape
from fmtcanon.source.written import WrittenSource, split, trimmed, window

from tests.frame.cases import tests_of

# Declarations, and where the function has its format and its first argument, counted from 0.
DECLARED = [
    ("void f(const char *, ...) __attribute__((format(printf, 1, 2)));", {b"f": Shape(0, 1)}),
    ("void f(int, const char *, va_list) __attribute__ ((__format__ (__printf__, 2, 0)));", {b"f": Shape(1, None)}),
    ("__attribute__((format(printf, 1, 2)))\nint g(const char *format, ...) { return 0; }", {b"g": Shape(0, 1)}),
    ("[[gnu::format(printf, 1, 2)]] int h(const char *format, ...);", {b"h": Shape(0, 1)}),
    ("void f(const char *, ...) __attribute__((noreturn, cold, format(printf, 1, 2)));", {b"f": Shape(0, 1)}),
    ("int a(void); void f(const char *, ...) __attribute__((format(printf, 0 + 1, 2)));", {b"f": Shape(0, 1)}),
    ("void log_it(int level, const char *, ...) __printf(2, 3);", {b"log_it": Shape(1, 2)}),
    ("void g_it(const char *, ...) G_GNUC_PRINTF (1, 2);", {b"g_it": Shape(0, 1)}),
    ("int b(const char *, ...) __printflike(1, 2);", {b"b": Shape(0, 1)}),
    ("void f(const char *, ...) __attribute__((format(scanf, 1, 2)));", {}),
    ("void f(const char *) __attribute__((format_arg(1)));", {}),
    ("void f(const char *, ...) __attribute__((format(printf, N, 2)));", {}),
    ("void f(const char *, ...) __attribute__((format(printf, 1)));", {}),
    ("x = format(printf, 1, 2", {}),
    ("int my_format(printf, 1, 2);", {}),
]
# The text after the bracket of a call, and its arguments.
ARGUMENTS = [
    ("a, b)", ["a", "b"]),
    ("f(a, b), {c, d}, e[1, 2])", ["f(a, b)", "{c, d}", "e[1, 2]"]),
    ("\",)\", ',', /* , */ a)", ['",)"', "','", "/* , */ a"]),
    ('",)", R"x(",)x", b)', ['",)"', 'R"x(",)x"', "b"]),
    ("a, ", ["a", ""]),
    ("a, ; b)", ["a", ""]),
    ("a }", ["a"]),
    (")", [""]),
]


def test_declarations(case):
    for text, wanted in DECLARED:
        case.assertEqual(declared_in(text.encode()), wanted, text)


def test_headers(case):
    """Headers are read that are included in quotes, also by others; each once, and again if it changes."""
    with tempfile.TemporaryDirectory() as folder:
        source, first, second = (Path(folder, it) for it in ("src/a.c", "src/a.h", "include/b.h"))
        for file in (source, second):
            file.parent.mkdir()
        first.write_text('#include "b.h"\n#include <c.h>\n', encoding="utf-8")
        second.write_text('#include "../src/a.h"\n' + DECLARED[0][0], encoding="utf-8")
        text = b'# include "a.h"\n#include "none.h"\n'
        case.assertEqual(declared_for(str(source), text), {b"f": Shape(0, 1)})
        second.write_text(DECLARED[6][0] + "/* longer */", encoding="utf-8")
        case.assertEqual(declared_for(str(source), text), {b"log_it": Shape(1, 2)})


def test_arguments(case):
    for text, wanted in ARGUMENTS:
        data = text.encode()
        found = [data[slice(*trimmed(data, *it))].decode() for it in split(data, 0)]
        case.assertEqual(found, wanted, text)


def test_places(case):
    """Each directive is where the source has it, through escapes, spliced lines, prefixes and macros."""
    rows = [
        (r'printf("\x41\045d\t%5s", a, b);', [r"\045d", "%5s"]),
        ('printf("%\\\n5d%s", a, b);', ["%\\\n5d", "%s"]),
        ('printf(u8"%d" "%s", a, b);', ["%d", "%s"]),
        ('printf("%" PRIX64 "%s", a, b);', ['%" PRIX64', "%s"]),
        ('printf("%5" /* , */ "d", a);', ['%5" /* , */ "d']),
        ('printf(R"(a"%d)", a);', ['R"(a"%d)"']),
    ]
    for text, wanted in rows:
        data = f"void f(void)\n{{\n    {text}\n}}\n".encode()
        [format] = WrittenSource(data, Model.LP64).formats()
        found = [data[it.start : it.end].decode() for it in format.directives]
        case.assertEqual(found, wanted, text)


def test_window(case):
    """What is near an offset is the function around it."""
    function = b"void f(void)\n{\n    g();\n}\n"
    data = function * 9
    begin, end = window(data, 4 * len(function) + 5)
    case.assertEqual(data[begin:end].strip(), function.strip())
    case.assertLess(len(data[slice(*window(b"x;\n" * 100_000, 150_000))]), 110_000)


def test_bounds(case):
    """Texts that nobody writes take no long time: each of these has a bound, and took below a second."""
    calls = b'printf("%d", ' * 20_000
    written = WrittenSource(calls, Model.LP64)
    begin = time.monotonic()
    written.call_at(150_000)
    declared_in(b"format(printf, 1" * 50_000)
    declared_in(b"void f(" * 50_000 + b"__printf(" * 50_000)
    WrittenSource(b'printf("' + b"%d" * 5_000 + b'");', Model.LP64).at(9_000)
    case.assertLess(time.monotonic() - begin, 20)


Tests = tests_of(globals())
