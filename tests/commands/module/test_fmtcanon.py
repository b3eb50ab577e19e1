"""Tests of the module."""

import doctest
import os
import subprocess
import sys
import threading
from pathlib import Path

import fmtcanon
from fmtcanon import Kind, Model, Part, Refused, Type, Verdict

from tests.frame import TOP
from tests.frame.cases import tests_of




def test_canonical(case):
    case.assertEqual(fmtcanon.canonical("Total: %i of %u%%"), "Total: %d of %u%%")
    case.assertEqual(fmtcanon.canonical(b"%5c"), b"    %c")
    case.assertEqual(fmtcanon.canonical("é%i"), "é%d")
    case.assertEqual(fmtcanon.canonical(b"\xff%i"), b"\xff%d")
    case.assertEqual(fmtcanon.canonical(bytearray(b"%i")), b"%d")
    case.assertEqual(fmtcanon.canonical(memoryview(b"%i")), b"%d")
    case.assertEqual(fmtcanon.canonical(""), "")
    case.assertEqual(len(fmtcanon.canonical("%4095d" * 10)), 10 * (4084 + 4))


def test_is_canonical(case):
    case.assertTrue(fmtcanon.is_canonical("%d"))
    case.assertFalse(fmtcanon.is_canonical("%i"))


def test_types(case):
    wanted = [Type.INT, Type.UINT, Type.LONG, Type.ULONG]
    wanted += [Type.LONG_LONG, Type.ULONG_LONG, Type.STRING]
    case.assertEqual(fmtcanon.types("%d%u%ld%lu%lld%llu%s%%"), wanted)
    case.assertEqual(fmtcanon.types(b""), [])
    case.assertEqual(fmtcanon.types("%d" * 5000), [Type.INT] * 5000)


def test_same(case):
    case.assertTrue(fmtcanon.same("%5c", b"    %c"))
    case.assertFalse(fmtcanon.same("%05d", "%.5d"))


def test_directives(case):
    case.assertEqual(fmtcanon.directives("%2$*1$d"), [(0, 7, Type.INT, 1, 0, None)])
    wanted = [(1, 7, Type.ULONG, 1, None, 0), (9, 11, Type.INT, 2, None, None)]
    case.assertEqual(fmtcanon.directives("a%5.*lu%%%c"), wanted)
    wanted = [(0, 5, Type.DOUBLE, 2, 0, 1), (7, 9, Type.STRING, 3, None, None)]
    case.assertEqual(fmtcanon.directives("%*.*fé%s"), wanted)
    # An argument may be used more than once, and as a width before its own conversion.
    wanted = [(0, 11, Type.STRING, 0, 1, 1), (12, 16, Type.INT, 1, None, None)]
    case.assertEqual(fmtcanon.directives(b"%1$*2$.*2$s|%2$d"), wanted)
    case.assertEqual(fmtcanon.directives("%zn", model="llp64")[0].type, Type.POINTER_TO_LONG_LONG)
    case.assertEqual(fmtcanon.directives("%%"), [])
    case.assertEqual(fmtcanon.directives(""), [])
    case.assertEqual(len(fmtcanon.directives("%d" * 5000)), 5000)


def test_specifications(case):
    none, numbers = Part(0), Part.WIDTH | Part.PRECISION
    first = (1, 8, 2, 3, 4, 6, Type.LONG, 0, None, None, 5, 3, Part.PLUS | numbers | Part.MODIFIER, none, none)
    second = (10, 15, 11, 12, 13, 14, Type.UINT, 1, None, None, 2, 0, Part.ZERO | numbers, Part.ZERO, Part.ZERO)
    case.assertEqual(fmtcanon.specifications("a%+5.3ld%%%02.x"), [first, second])
    wanted = (2, 14, 5, 6, 9, 13, Type.DOUBLE, 2, 0, 1, None, None, Part.MINUS | numbers, none, none)
    case.assertEqual(fmtcanon.specifications("é%3$-*1$.*2$f"), [wanted])
    case.assertEqual(fmtcanon.specifications("%zu", model="ilp32")[0].needless, Part.MODIFIER)
    case.assertEqual(fmtcanon.specifications("%zu")[0].needless, none)
    case.assertEqual(fmtcanon.specifications("%%"), [])
    case.assertEqual(len(fmtcanon.specifications("%+d" * 5000)), 5000)


def test_specification_of_a_rejected_format(case):
    # The offsets, and the argument that is left out.
    rows = [
        ("%s%+#5d", (2, 7, 3, 5, 6, 6), None),
        (b"ab%5y", (2, 4, 4, 4, 4, 4), None),
        ("%1$s %4$d %2$d", (5, 9, 8, 8, 8, 8), 2),
    ]
    for format, offsets, argument in rows:
        with case.subTest(format=format), case.assertRaises(Refused) as caught:
            fmtcanon.specifications(format)
        case.assertEqual(caught.exception.specification, (*offsets, None, argument, *(None,) * 4, *(Part(0),) * 3))
    for call, format in [(fmtcanon.specifications, "%d\0"), (fmtcanon.directives, "%#d")]:
        with case.assertRaises(Refused) as caught:
            call(format)
        case.assertIsNone(caught.exception.specification)


def test_bounds(case):
    rows = [("", 0, 0), ("%d", 1, 11), (b"%ld", 1, 20), ("%+.0d", 1, 11), ("%#x", 1, 10), ("é%hhb", 3, 10)]
    rows += [("[%5.3s]", 7, 7), ("%.3s %c%%", 3, 6), ("id=%s", 3, None), ("%4095d" * 2, 8190, 8190)]
    for format, least, greatest in rows:
        with case.subTest(format=format):
            case.assertEqual(fmtcanon.bounds(format), fmtcanon.Bounds(least, greatest))
    case.assertEqual(fmtcanon.bounds("%ld", model=Model.ILP32).greatest, 11)
    case.assertEqual(fmtcanon.bounds("%zu", model="llp64"), (1, 20))


def test_fits_fewer(case):
    rows = [("%d files in %s", "one file", True), ("%s: %d", "%1$s", True), ("%d", "%d%n", False)]
    rows += [(b"%d%s", "%s", False), ("%s of %d", b"%2$d/%1$s", True), ("%u", "%d", False), ("", "", True)]
    for first, second, answer in rows:
        with case.subTest(first=first, second=second):
            case.assertIs(fmtcanon.fits(first, second, fewer=True), answer)
            case.assertEqual(fmtcanon.fits_in(first, second, fewer=True), list(Model) if answer else [])
    case.assertFalse(fmtcanon.fits("%d files in %s", "one file"))
    case.assertEqual(fmtcanon.fits_in("%d", ""), [])
    case.assertEqual(fmtcanon.fits_in("%zu%s", "%lu", fewer=True), [Model.LP64])
    case.assertTrue(fmtcanon.fits("%zu%s", "%u", fewer=True, model="ilp32"))
    with case.assertRaises(ValueError):
        fmtcanon.fits("%d", "%d", fewer=True, model=3)
    with case.assertRaises(TypeError):
        fmtcanon.fits_in("%d", "%d", True)


def test_fits(case):
    case.assertTrue(fmtcanon.fits("%s of %d", "%2$d/%1$s"))
    case.assertFalse(fmtcanon.fits("%.2f of %s", "%.2f von %d"))
    case.assertEqual(fmtcanon.fits_in("%zu", "%lu"), [Model.LP64])
    case.assertEqual(fmtcanon.fits_in("%ju", b"%llu"), [Model.ILP32, Model.LLP64])
    case.assertEqual(fmtcanon.fits_in("%d", "%i"), list(Model))
    case.assertEqual(fmtcanon.fits_in("%d", "%s"), [])


def test_compare(case):
    case.assertEqual(fmtcanon.compare("%i", "%d"), (Verdict.SAME, None, None, None))
    case.assertEqual(fmtcanon.compare("%d%s", "%d"), (Verdict.TYPES, 1, None, None))
    case.assertEqual(fmtcanon.compare("%05d%s", "%.5d%s").arguments, (-1, b""))
    case.assertEqual(fmtcanon.compare("a", "b"), (Verdict.DIFFERENT, None, (), None))
    # The words are longer than the first buffer.
    case.assertEqual(fmtcanon.compare("%s", "%.4095s").arguments, (b"A" * 4096,))
    many = fmtcanon.compare("%d" * 3000 + "a", "%d" * 3000 + "b")
    case.assertEqual(many.arguments, (0,) * 3000)


def test_printed(case):
    for text, arguments, wanted in [
        ("%d%%", [5], b"5%"),
        ("%5.1s|%c", ["ab", 65], b"    a|A"),
        (b"%.6f%05d", (None, -1), b"%f-0001"),
        ("%-08.3lf %ls %i", [None, None, 7], b"%-8.3f %ls 7"),
        ("%*d %s", [None, None, "a"], b"%*d a"),
        ("%*d %s", [3, 4, b"a"], b"%*d a"),
        ("%d %s", [None, None], b"%d %s"),
        ("%n%p", [None, None], b"%n%p"),
        ("\u00e9 %.2s", ["\u00e9"], "\u00e9 \u00e9".encode()),
        (b"\xe9%% %d%s %f", [-5, "\u00e9", None], b"\xe9% -5\xc3\xa9 %f"),
        ("%s", [b"\xe9"], b"\xe9"),
        ("", [], b""),
    ]:
        case.assertEqual(fmtcanon.printed(text, arguments), wanted, text)
    case.assertEqual(fmtcanon.printed("%zd %hhd%zn", [-1, 300, None], model="ilp32"), b"-1 44%n")


def test_printed_of_compared(case):
    """What two formats print for the arguments that tell them apart differs."""
    for first, second in [("%f%05d", "%f%.5d"), ("x %f %05d", "x %f %.5d"), ("%p%5c", "%p%6c"), ("%u", "%x")]:
        arguments = fmtcanon.compare(first, second, whole=True).arguments
        case.assertNotEqual(*(fmtcanon.printed(it, arguments) for it in (first, second)))


def test_printed_faults(case):
    for text, arguments in [
        ("%d", []),
        ("%d", [1, 2]),
        ("%*f", [1]),
        ("%d", ["a"]),
        ("%s", [1]),
        ("%d", [2**31]),
    ]:
        with case.assertRaises(ValueError):
            fmtcanon.printed(text, arguments)
    for text in ["%y", "%1$d", "a\0"]:
        case.assertRaises(Refused, fmtcanon.printed, text, [None])
    with case.assertRaises(TypeError):
        fmtcanon.printed("%d", [1.5])
    with case.assertRaises(ValueError):
        fmtcanon.printed("%d", [1], model="lp65")


def test_calls_whole_language(case):
    case.assertEqual(fmtcanon.canonical("%i: %-08.6lf (%5c)", whole=True), "%d: %-8f (    %c)")
    case.assertEqual(fmtcanon.canonical(b"\xff%C%i", whole=True), b"\xff%lc%d")
    case.assertEqual(fmtcanon.canonical("%zn", model="ilp32", whole=True), "%n")
    case.assertEqual(fmtcanon.canonical("%i", whole=True), "%d")
    case.assertTrue(fmtcanon.same("%.6f%%%i", "%f%%%d", whole=True))
    case.assertFalse(fmtcanon.same("%1f", "%f", whole=True))
    case.assertEqual(fmtcanon.same_in("%zn", b"%ln", whole=True), [Model.LP64])
    case.assertEqual(fmtcanon.same_in("%f", "%lf", whole=True), list(Model))
    case.assertEqual(fmtcanon.compare("%f%i", "%.6f%d", whole=True), (Verdict.SAME, None, None, None))
    case.assertEqual(fmtcanon.compare("%f%d", "%f%s", whole=True), (Verdict.TYPES, 1, None, None))
    case.assertEqual(fmtcanon.compare("%d%f", "%d%e", whole=True), (Verdict.DIRECTIVES, None, None, 1))
    case.assertEqual(fmtcanon.compare("%*d", "%d%d", whole=True).directives_differ_at, 0)
    case.assertEqual(fmtcanon.compare("%f%05d%p", "%f%.5d%p", whole=True).arguments, (None, -1, None))
    case.assertEqual(fmtcanon.compare("%5.0s%f", "%.0s%f", whole=True).arguments, (b"", None))
    # The word of a string may look like that of an argument that may be any.
    case.assertEqual(fmtcanon.compare("%f%s", "%f%.4095s", whole=True).arguments, (None, b"A" * 4096))
    for call in [fmtcanon.canonical, fmtcanon.same, fmtcanon.same_in, fmtcanon.compare]:
        formats = ["%f"] if call is fmtcanon.canonical else ["%f", "%f"]
        with case.assertRaises(Refused):
            call(*formats)
        with case.assertRaises(Refused):
            call(*formats, whole=False)


def test_format(case):
    case.assertEqual(fmtcanon.format("%-8s|%+05d|%#x", "ab", 42, 255), b"ab      |+0042|0xff")
    case.assertEqual(fmtcanon.format("%c%c", 200, 0), b"\xc8\x00")
    case.assertEqual(fmtcanon.format(b"\xc3\xa9%s", "\u00e9".encode()), b"\xc3\xa9\xc3\xa9")
    case.assertEqual(fmtcanon.format("-%d", -1), b"--1")
    case.assertEqual(fmtcanon.format("a\nb%%"), b"a\nb%")
    case.assertEqual(fmtcanon.format("%lu", 2**32 - 1, model="ilp32"), b"4294967295")
    wrong = [
        ("%d%d", (1,), "argument count: wanted 2, given 1"),
        ("%d", ("x",), "argument 0: wrong type"),
        ("%d%d", (1, 2**31), "argument 1: wrong type"),
        ("%llu", (10**20,), "argument 0: not an argument"),
    ]
    for format, arguments, reason in wrong:
        with case.assertRaises(ValueError) as raised:
            fmtcanon.format(format, *arguments)
        case.assertEqual(str(raised.exception), reason)
    with case.assertRaises(ValueError):
        fmtcanon.format("%s", b"a\0b")
    with case.assertRaises(TypeError):
        fmtcanon.format("%d", 1.5)
    with case.assertRaises(UnicodeEncodeError):
        fmtcanon.format("%s", "\udcff")


def test_format_of_any_bytes(case):
    case.assertEqual(fmtcanon.format(b"\xff%s", b"\x80"), b"\xff\x80")
    case.assertEqual(fmtcanon.format("a" * 200000), b"a" * 200000)
    case.assertEqual(fmtcanon.format("%4095d|%s", 7, "b" * 5000), b"7".rjust(4095) + b"|" + b"b" * 5000)


def test_numbers_of_formats(case):
    for text, number in [("%llu", 2**64 - 1), ("%lld", -(2**63)), ("%ld", 2**63 - 1), ("%u", 2**32 - 1)]:
        case.assertEqual(fmtcanon.format(text, number), b"%d" % number)
    for text, number in [
        ("%llu", -1), ("%lld", 2**63), ("%ld", 2**64 - 1), ("%u", 2**32), ("%s", 0), ("%lld", -(2**63) - 1)
    ]:
        with case.assertRaisesRegex(ValueError, "argument 0: wrong type"):
            fmtcanon.format(text, number)
    for number in [10**20, -(10**20)]:
        with case.assertRaisesRegex(ValueError, "argument 0: not an argument"):
            fmtcanon.format("%lld", number)


def test_show(case):
    wanted = [fmtcanon.Text(1), fmtcanon.Directive("%20d", "int", 9, 0, "%11d", 0), fmtcanon.Percent()]
    case.assertEqual(fmtcanon.show("x%20d%%"), wanted)
    wanted = [fmtcanon.Directive("% 5jd", "long long", 0, 0, "% 5lld", 0)]
    case.assertEqual(fmtcanon.show(b"% 5jd", model=Model.ILP32), wanted)
    case.assertEqual(fmtcanon.show(""), [])
    case.assertEqual([piece.spelling for piece in fmtcanon.show("%%%.0s")], ["%%", "%.0s"])


def test_models(case):
    wanted = [Type.INT, Type.UINT, Type.LONG_LONG, Type.ULONG_LONG, Type.LONG]
    case.assertEqual(fmtcanon.types("%td%zu%jd%ju%ld", model=Model.ILP32), wanted)
    wanted = [Type.LONG, Type.ULONG, Type.LONG, Type.ULONG, Type.LONG]
    case.assertEqual(fmtcanon.types("%td%zu%jd%ju%ld", model=Model.LP64), wanted)
    case.assertEqual(fmtcanon.types("%td%zu%jd%ju%ld"), wanted)
    wanted = [Type.LONG_LONG, Type.ULONG_LONG, Type.LONG_LONG, Type.ULONG_LONG, Type.LONG]
    case.assertEqual(fmtcanon.types("%td%zu%jd%ju%ld", model=Model.LLP64), wanted)
    case.assertEqual(fmtcanon.canonical("%zx", model="llp64"), "%llx")
    case.assertEqual(fmtcanon.canonical("%ju", model=Model.ILP32), "%llu")
    case.assertEqual(fmtcanon.canonical(b"%ju"), b"%lu")
    case.assertTrue(fmtcanon.is_canonical("%lld", model=Model.ILP32))
    case.assertTrue(fmtcanon.same("%zu", "%u", model=Model.ILP32))
    case.assertFalse(fmtcanon.same("%zu", "%lu", model=Model.ILP32))
    case.assertEqual(fmtcanon.compare("%zu", "%u", model=Model.ILP32).verdict, Verdict.SAME)
    case.assertEqual(fmtcanon.compare("%zu", "%u").types_differ_at, 0)
    found = fmtcanon.compare("%zx", "%u", model=Model.ILP32)
    case.assertEqual(found.arguments, (4294967295,))


def test_same_in(case):
    case.assertEqual(fmtcanon.same_in("%i", b"%d"), [Model.LP64, Model.ILP32, Model.LLP64])
    case.assertEqual(fmtcanon.same_in("%td", "%jd"), [Model.LP64, Model.LLP64])
    case.assertEqual(fmtcanon.same_in("%td", "%ld"), [Model.LP64])
    case.assertEqual(fmtcanon.same_in("%zu", "%llu"), [Model.LLP64])
    case.assertEqual(fmtcanon.same_in("%zd", "%d"), [Model.ILP32])
    case.assertEqual(fmtcanon.same_in("%d", "%u"), [])


def test_no_model(case):
    for wrong in [3, -1, 64, 1 << 32, "LP65", "both", "", None]:
        for call in [fmtcanon.canonical, fmtcanon.is_canonical, fmtcanon.types, fmtcanon.bounds]:
            with case.assertRaises(ValueError):
                call("%d", model=wrong)
        for call in [fmtcanon.same, fmtcanon.compare]:
            for whole in [False, True]:
                with case.assertRaises(ValueError):
                    call("%d", "%d", model=wrong, whole=whole)
        with case.assertRaises(ValueError):
            fmtcanon.canonical("%f", model=wrong, whole=True)
    case.assertEqual(fmtcanon.types("%zu", model=1), [Type.UINT])
    case.assertEqual(fmtcanon.types("%zu", model="ilp32"), [Type.UINT])
    case.assertEqual(fmtcanon.canonical("%zu", model="lp64"), "%lu")
    case.assertTrue(fmtcanon.is_canonical("%u", model="ilp32"))
    case.assertTrue(fmtcanon.same("%zu", "%u", model="ilp32"))
    case.assertEqual(fmtcanon.compare("%zu", "%u", model="lp64").types_differ_at, 0)
    with case.assertRaises(TypeError):
        fmtcanon.same("%d", "%d", Model.LP64)


def test_version(case):
    case.assertEqual(fmtcanon.__version__, ".".join(map(str, fmtcanon.version())))


def test_examples(case):
    case.assertEqual(doctest.testmod(fmtcanon).failed, 0)


def test_page(case):
    """The examples of docs/PYTHON.md and of the page of the module on a package index."""
    for page in ["docs/PYTHON.md", "python/README.md"]:
        done = doctest.testfile(str(TOP / page), module_relative=False)
        case.assertEqual((done.failed, done.attempted > 5), (0, True))


def refused(case, call, *formats):
    with case.assertRaises(Refused) as caught:
        call(*formats)
    return caught.exception


def test_each_call(case):
    one = [fmtcanon.check, fmtcanon.canonical, fmtcanon.is_canonical, fmtcanon.types, fmtcanon.bounds]
    for call in one:
        refusal = refused(case, call, "%d and %*d")
        case.assertEqual((refusal.kind, refusal.name), (Kind.STAR, "Star"))
        case.assertEqual((refusal.byte, refusal.side), (8, 0))
        case.assertEqual(str(refusal), "refused 5 Star at byte 8")
    for call in [fmtcanon.same, fmtcanon.same_in, fmtcanon.compare]:
        case.assertEqual(refused(case, call, "%d", "%y").side, 1)
        case.assertEqual(refused(case, call, "%f", "%y").side, 0)


def test_refusals_whole_language(case):
    refusal = refused(case, lambda text: fmtcanon.canonical(text, whole=True), "%f %1$d")
    case.assertEqual((refusal.kind, refusal.byte, refusal.side), (Kind.NUMBERED, 5, 0))
    for call in [fmtcanon.same, fmtcanon.same_in, fmtcanon.compare]:
        refusal = refused(case, lambda *formats, call=call: call(*formats, whole=True), "%*f", "%*1$d")
        case.assertEqual((refusal.kind, refusal.byte, refusal.side), (Kind.MIXED, 2, 1))


def test_refused_in_one_data_model(case):
    refusal = refused(case, fmtcanon.fits_in, "%lu", "%1$zu %1$lu")
    case.assertEqual((refusal.kind, refusal.byte, refusal.side), (Kind.TWO_TYPES, 10, 1))
    case.assertEqual(refused(case, fmtcanon.fits_in, "%1$d%d", "%y").side, 0)
    refusal = refused(case, lambda *formats: fmtcanon.fits_in(*formats, fewer=True), "%lu%d", "%1$zu %1$lu")
    case.assertEqual((refusal.kind, refusal.byte, refusal.side), (Kind.TWO_TYPES, 10, 1))
    refusal = refused(case, fmtcanon.directives, "%1$s%1$d")
    case.assertEqual((refusal.kind, refusal.byte, refusal.side), (Kind.TWO_TYPES, 7, 0))


def test_bytes_are_counted(case):
    case.assertEqual(refused(case, fmtcanon.check, "é%y").byte, 3)


def test_zero_byte(case):
    case.assertEqual(refused(case, fmtcanon.check, "a\0b").kind, Kind.NUL_BYTE)
    case.assertEqual(refused(case, fmtcanon.check, b"\0").byte, 0)


def test_no_format(case):
    for wrong in [5, None, ["%d"], 1.5]:
        with case.assertRaises(TypeError):
            fmtcanon.check(wrong)
    for call in [fmtcanon.check, fmtcanon.canonical, fmtcanon.is_canonical, fmtcanon.types]:
        with case.assertRaises(UnicodeEncodeError):
            call("%d\udcff")
    case.assertEqual(fmtcanon.canonical(os.fsencode("%i\udcff")), b"%d\xff")


def test_refused_by_the_program_calls(case):
    for call in [fmtcanon.format, fmtcanon.show]:
        refusal = refused(case, call, "%d and %*d")
        case.assertEqual((refusal.kind, refusal.name, refusal.byte), (Kind.STAR, "Star", 8))
        case.assertEqual(refused(case, call, "a\0").kind, Kind.NUL_BYTE)


def test_refusal_is_a_value_error(case):
    case.assertIsInstance(refused(case, fmtcanon.check, "%"), ValueError)


def import_with(library, before="pass"):
    environment = {**os.environ, "FMTCANON_LIBRARY": library, "LC_ALL": "C.UTF-8"}
    words = [sys.executable, "-c", f"import fmtcanon; {before}; fmtcanon.check('')"]
    done = subprocess.run(words, env=environment, stderr=subprocess.PIPE, check=False)
    return done.returncode, done.stderr.decode().rstrip("\n").rpartition("\n")[2]


def test_no_library(case):
    status, line = import_with("/nothing/libfmtcanon.so")
    case.assertEqual(status, 1)
    case.assertIn("ImportError: the library of fmtcanon isn't there", line)
    case.assertIn("FMTCANON_LIBRARY", line)


def test_another_library(case):
    status, line = import_with("libc.so.6")
    case.assertEqual(status, 1)
    case.assertIn("ImportError: libc.so.6 is another library", line)


def test_another_version(case):
    major, minor, patch = fmtcanon.version()
    library = fmtcanon._library_name()
    for other, passes in [((major, minor), True), ((major, minor + 1), False), ((major + 1, minor), False)]:
        with case.subTest(other=other):
            status, line = import_with(library, f"fmtcanon._VERSION = {other}")
            case.assertEqual(status, 0 if passes else 1)
            if not passes:
                case.assertIn(
                    f"has the version {major}.{minor}.{patch}, and the module needs {other[0]}.{other[1]}", line
                )


def test_calls_from_threads(case):
    formats = [f"%0{width}i|%{width}c" for width in range(1, 60)]
    wanted = [fmtcanon.canonical(one) for one in formats]
    found = []

    def work():
        found.append([fmtcanon.canonical(one) for one in formats] == wanted)

    threads = [threading.Thread(target=work) for _ in range(4)]
    for thread in threads:
        thread.start()
    for thread in threads:
        thread.join()
    case.assertEqual(found, [True] * 4)


Tests = tests_of(globals())
