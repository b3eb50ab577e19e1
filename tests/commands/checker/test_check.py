"""Tests of the parts of fmtcanon-check that need no libclang."""

import contextlib
import io
import itertools
import os
import pkgutil
import re
import subprocess
import tempfile
from pathlib import Path

import fmtcanon
from fmtcanon import Model, Type
from fmtcanon.checker import check_options
from fmtcanon.compiling.calls import Argument, Call
from fmtcanon.compiling.formats import Format, Literal
from fmtcanon.compiling.markers import Marker
from fmtcanon.compiling.platforms import PLATFORMS
from fmtcanon.compiling.retargeting import retargeted, write_headers
from fmtcanon.compiling.stand_ins import Original
from fmtcanon.diff import call_fitting
from fmtcanon.fitting import composing, fixing, proposals, reporting
from fmtcanon.fitting.judging import Fit, fit_of, judged
from fmtcanon.source.known import Shape
from fmtcanon.fitting.locating import Located, Piece, with_markers
from fmtcanon.frame.findings import Finding
from fmtcanon.source.respelling import runs_in

from tests.frame.cases import tests_of

L, UL, LL, ULL, I, U = Type.LONG, Type.ULONG, Type.LONG_LONG, Type.ULONG_LONG, Type.INT, Type.UINT
# The types of arguments on each platform, by their names.
TYPES = {
    "size_t": (UL, U, U, ULL),
    "ssize_t": (L, I, I, LL),
    "ptrdiff_t": (L, I, I, LL),
    "uint64_t": (UL, ULL, ULL, ULL),
    "uintptr_t": (UL, U, U, ULL),
    "time_t": (L, L, LL, LL),
    "off_t": (L, L, LL, LL),
    "dev_t": (UL, ULL, ULL, ULL),
    "long": (L, L, L, L),
    "unsigned long": (UL, UL, UL, UL),
    "long long": (LL, LL, LL, LL),
    "int": (I, I, I, I),
    "unsigned int": (U, U, U, U),
    "pid_t": (I, I, I, I),
}
# A directive, the name of its argument's type, how it fits on each platform, and what is proposed.
ROWS = [
    ("%zu", "size_t", "equal equal equal equal", None),
    ("%lu", "size_t", "equal rank rank size", "%zu"),
    ("%ld", "ssize_t", "equal rank rank size", "%zd"),
    ("%-8.3ld", "ptrdiff_t", "equal rank rank size", "%-8.3td"),
    ("%d", "size_t", "size sign sign size", "%zu"),
    ("%+-5d", "size_t", "size sign sign size", "%-5zu"),
    ("%+ld", "ssize_t", "equal rank rank size", "%+zd"),
    ("%lx", "uint64_t", "equal size size size", '%" PRIx64 "'),
    ("%#lo", "uintptr_t", "equal rank rank size", '%#" PRIoPTR "'),
    ("%ld", "time_t", "equal equal size size", "%jd with a cast to intmax_t"),
    ("%zu", "off_t", "sign rank size sign", "%jd with a cast to intmax_t"),
    ("%lx", "off_t", "sign sign size size", "%jx with a cast to uintmax_t"),
    ("%lu", "dev_t", "equal size size size", "%ju with a cast to uintmax_t"),
    ("%ld", "long long", "rank size size size", "%lld"),
    ("%ld", "int", "size rank rank rank", "%d"),
    ("%hhd", "long", "size rank rank rank", "%ld"),
    ("%u", "int", "sign sign sign sign", "%d"),
    ("%d", "unsigned int", "sign sign sign sign", "%u"),
    ("%02x", "int", "sign sign sign sign", "a cast to unsigned int"),
    ("%#lX", "long", "sign sign sign sign", "a cast to unsigned long"),
    ("%zx", "ssize_t", "sign sign sign sign", "a cast to size_t"),
    ("%tx", "ptrdiff_t", "sign sign sign sign", "%jx with a cast to uintmax_t"),
    ("%u", "pid_t", "sign sign sign sign", "%jd with a cast to intmax_t"),
    ("%hhx", "int", "", None),
    ("%hu", "int", "", None),
    ("%zu", "unsigned long", "equal rank rank size", "%lu"),
    ("%c", "long", "size rank rank rank", "a cast to int"),
    ("%-3c", "uint64_t", "size size size size", "a cast to int"),
    ("%lc", "long", "size rank rank rank", "a cast to wint_t"),
    ("%C", "size_t", "size equal equal size", "a cast to wint_t"),
    ("%*d", "size_t", "size sign sign size", "a cast to int"),
    ("%.*s", "ssize_t", "size equal equal size", "a cast to int"),
]
# What a directive takes, how C spells a type that isn't an integer, and whether it fits.
OTHERS = [
    (Type.STRING, "const char *", True),
    (Type.STRING, "char *const", True),
    (Type.STRING, "unsigned char *", True),
    (Type.STRING, "void *", False),
    (Type.STRING, "int *", False),
    (Type.POINTER_TO_VOID, "struct s *", True),
    (Type.POINTER_TO_VOID, "void (*)(int)", True),
    (Type.POINTER_TO_VOID, "double", False),
    (Type.DOUBLE, "double", True),
    (Type.DOUBLE, "long double", False),
    (Type.LONG_DOUBLE, "double", False),
    (Type.WIDE_STRING, "const char *", False),
    (Type.POINTER_TO_SCHAR, "char *", True),
    (Type.POINTER_TO_SCHAR, "unsigned char *", True),
    (Type.POINTER_TO_SCHAR, "signed char *", True),
    (Type.POINTER_TO_SCHAR, "short *", False),
    (Type.POINTER_TO_LONG, "unsigned long *", True),
    (Type.POINTER_TO_LONG, "long long *", False),
    (Type.INT, "char *", False),
    (Type.ULONG, "double", False),
    (Type.INT, "", False),
]
# What `%ls` takes in each data model.
WIDE_STRINGS = {
    Model.LP64: ["const int *", "int *const", "unsigned int *"],
    Model.ILP32: ["const long *", "unsigned long *"],
    Model.LLP64: ["const unsigned short *", "short *"],
}
# A typedef of a system header, and what it is on each platform.
TEXTS = [
    ("typedef unsigned long size_t;", ["unsigned long", "unsigned int", "unsigned int", "unsigned long long"]),
    ("typedef __size_t size_t;", ["unsigned long", "unsigned int", "unsigned int", "unsigned long long"]),
    ("typedef long\nint time_t;", ["long \n", "long \n", "long long \n", "long long \n"]),
    ("typedef long mine;", ["long", "long", "long", "long"]),
    ("typedef struct time_t time_t;", ["struct time_t"] * 4),
    ("typedef long off_t;", ["long", "long", "long long", "long long"]),
    ("typedef __off64_t off_t;", ["long", "long long", "long long", "long long"]),
    ("typedef __off_t off_t;", ["long", "long", "long long", "long long"]),
    ("typedef long int suseconds_t;", ["long"] * 4),
    ("typedef __suseconds_t mine;", ["__suseconds_t", "__suseconds_t", "long long", "__suseconds_t"]),
    ("typedef __fsblkcnt64_t fsblkcnt64_t;", ["unsigned long", *["unsigned long long"] * 3]),
    ("typedef unsigned long int wctype_t;", [*["unsigned long"] * 3, "unsigned short"]),
    ("typedef const __int32_t * wctrans_t;", [*["const int *"] * 3, "unsigned short"]),
    ("typedef fmtcanon_type_size_t size_t;", ["unsigned long", "unsigned int", "unsigned int", "unsigned long long"]),
    ("typedef fmtcanon_type_size_t mine;", ["fmtcanon_type_size_t"] * 4),
    (
        "typedef unsigned fmtcanon_type_ptrdiff_t mine;",
        [f"unsigned {it}" for it in ("long", "int", "int", "long long")],
    ),
    ("typedef __typeof__(long) _Atomic mine;", ["__typeof__(long) "] * 4),
    ("typedef _Atomic(long) mine;", ["__typeof__(long)"] * 4),
    ("typedef an_Atomic mine;", ["an_Atomic"] * 4),
]
# A struct of a system header, and what the type of its member is on each platform.
STRUCTS = [
    ("struct stat64 { __ino64_t st_ino; __off_t st_size; };", "st_size", ["__off_t", *["long long"] * 2, "__off_t"]),
    ("struct stat { __off_t st_size; };", "st_size", ["__off_t", "__off_t", "long long", "__off_t"]),
    (
        "struct timeval { __time_t tv_sec; __suseconds_t tv_usec; };",
        "tv_usec",
        ["__suseconds_t"] * 2 + ["long long", "long"],
    ),
    ("struct timeval { __time_t tv_sec; int x[2]; };", "tv_sec", ["__time_t", "__time_t", "long long", "long"]),
    (
        "struct r_debug { enum { A, B } r_state; Elf64_Addr r_ldbase; };",
        "r_ldbase",
        ["Elf64_Addr", *["unsigned int"] * 2, "Elf64_Addr"],
    ),
    ("typedef struct { long int quot; long int rem; } imaxdiv_t;", "rem", ["long int", *["long long"] * 3]),
    (
        "struct user { unsigned long int u_debugreg [8]; };",
        "u_debugreg",
        ["unsigned long int", "int", "int", "unsigned long int"],
    ),
    (
        'struct _IO_FILE { int x;\n# 9 "b.h" 3 4\n __off_t _old_offset; };',
        "_old_offset",
        ["__off_t", "__off_t", "long", "__off_t"],
    ),
]
# What some macros are on each platform.
MACROS = [
    ['"lu" "ld" "lx"', "5L", "7UL", "18446744073709551615UL)", "-9223372036854775807L - 1", "9223372036854775807L)"],
    *[['"llu" "d" "x"', "5LL", "7ULL", "4294967295U)", "-9223372036854775807LL - 1", "2147483647L)"]] * 2,
    ['"llu" "lld" "x"', "5LL", "7ULL", "18446744073709551615ULL)", "-9223372036854775807LL - 1", "2147483647L)"],
]
# The types that the compiler has macros for, on each platform.
DECLARED = {
    "size_t": ["unsigned long", "unsigned int", "unsigned int", "unsigned long long"],
    "ptrdiff_t": ["long", "int", "int", "long long"],
    "int64_t": ["long", "long long", "long long", "long long"],
    "uintmax_t": ["unsigned long", "unsigned long long", "unsigned long long", "unsigned long long"],
    "wchar_t": ["int", "long", "long", "unsigned short"],
    "uint_fast16_t": ["unsigned long", "unsigned int", "unsigned int", "unsigned short"],
}
# Macros of the compiler and of headers, and what they are on each platform.
BUILT_IN = {
    "unsigned __PTRDIFF_TYPE__": ["unsigned long", "unsigned int", "unsigned int", "unsigned long long"],
    "signed __INT64_TYPE__": ["signed long", *["signed long long"] * 3],
    "__SIZE_MAX__": ["(18446744073709551615UL)", *["(4294967295U)"] * 2, "(18446744073709551615ULL)"],
    "__LONG_MAX__": ["(9223372036854775807L)", *["(2147483647L)"] * 3],
    "__INT64_C(5)": ["(5L)", "(5LL)", "(5LL)", "(5LL)"],
    "UINT64_C(1024 * 2)": ["(1024 * 2UL)", *["(1024 * 2ULL)"] * 3],
    "UINT64_C((1 << (2)) * 3)": ["((1 << (2)) * 3UL)", *["((1 << (2)) * 3ULL)"] * 3],
    "__WCHAR_MAX__": ["(2147483647)", *["(2147483647L)"] * 2, "(65535)"],
    "WCHAR_MIN": ["(-2147483647 - 1)", *["(-2147483647L - 1)"] * 2, "(0U)"],
    "WEOF": [*["(4294967295U)"] * 3, "(65535)"],
    "CLOCKS_PER_SEC": [*["(1000000L)"] * 3, "(1000)"],
}
CONSTANTS = (
    "INT64_MAX INT64_MIN UINT64_MAX SIZE_MAX PTRDIFF_MIN INTPTR_MAX UINTMAX_MAX LONG_MAX LONG_MIN ULONG_MAX SSIZE_MAX"
)
OF_COMPILER = (
    "__SIZE_MAX__ __LONG_MAX__ __INT_FAST16_MAX__ __WCHAR_MAX__ __WCHAR_MIN__ __INT64_C(-1) __UINT64_C(7) WCHAR_MAX"
)


def calls_of(format, name, count=1, tokens=None):
    """A call on each platform with arguments whose types have a name."""
    source = f'"{format}"'
    written = Format(source, tokens or (Literal(source),))
    number = format.count("*") + 1
    return [
        Call("a.c", 1, "printf", (written,), tuple(Argument(type, name, name) for _ in range(number * count)))
        for type in TYPES[name]
    ]


def faults_of(format, name, **more):
    return judged([{(1, "printf", 0): it} for it in calls_of(format, name, **more)]).faults


def fault_in(tokens):
    """The fault of a size_t in a format of these literals, each with the PRI macro that made it."""
    text = "".join(it.strip('"') for it, _ in tokens)
    return faults_of(text, "size_t", tokens=tuple(Literal(*it) for it in tokens))[0]


class Defined:
    """A unit with definitions of macros."""

    def __init__(self, text):
        self.text = text

    def definitions(self):
        return self.text


def never(_):
    return False


def text_of(proposal):
    return None if proposal is None else str(proposal)


def test_no_module_hides_a_call(case):
    """An imported module becomes an attribute of the package, in the place of what has its name there."""
    names = {it.name for it in pkgutil.iter_modules(fmtcanon.__path__)}
    case.assertEqual(names & set(fmtcanon.__all__), set())


def test_rows(case):
    for format, name, fits, proposed in ROWS:
        found = faults_of(format, name)
        if proposed is None:
            case.assertEqual(found, [], (format, name))
            continue
        case.assertEqual(" ".join(it.value for it in found[0].fits), fits, (format, name))
        case.assertEqual(text_of(proposals.proposal(found[0])), proposed, (format, name))


def test_other_types(case):
    for (wanted, spelling, is_right), model in itertools.product(OTHERS, Model):
        fit = fit_of(wanted, Argument(None, spelling, spelling), model)
        case.assertEqual(fit, Fit.EQUAL if is_right else Fit.KIND, (wanted, spelling))
    for model, other in itertools.product(Model, Model):
        for spelling in WIDE_STRINGS[other]:
            fit = fit_of(Type.WIDE_STRING, Argument(None, spelling, spelling), model)
            case.assertEqual(fit, Fit.EQUAL if model is other else Fit.KIND, (model, spelling))
    case.assertEqual(fit_of(Type.STRING, Argument(I, "int", "int"), Model.LP64), Fit.KIND)
    case.assertEqual(fit_of(Type.WIDE_CHAR, Argument(U, "unsigned int", "wint_t"), Model.LP64), Fit.EQUAL)
    case.assertEqual(fit_of(Type.WIDE_CHAR, Argument(I, "int", "wchar_t"), Model.LP64), Fit.EQUAL)
    case.assertEqual(fit_of(Type.WIDE_CHAR, Argument(L, "long", "wchar_t"), Model.ILP32), Fit.RANK)
    case.assertEqual(fit_of(Type.WIDE_CHAR, Argument(None, "char *", "char *"), Model.LP64), Fit.KIND)


def test_a_missing_argument(case):
    found = faults_of("%ld %ld", "long")
    case.assertEqual([(it.number, set(it.fits)) for it in found], [(1, {Fit.KIND})])
    case.assertIsNone(proposals.proposal(found[0]))
    details = reporting.details_of(found[0])
    case.assertEqual([details["type"], details["platforms"]["LP64"]["is"]], [None, None])


def test_never_negative(case):
    """An int that can't be negative fits %u, and a long doesn't."""
    for format, is_unsigned, is_fitting in [("%u", True, True), ("%02x", True, True), ("%u", False, False)]:
        given = Argument(I, "int", "uint16_t", is_unsigned)
        calls = [it._replace(arguments=(given,)) for it in calls_of(format, "int")]
        case.assertEqual(judged([{(1, "printf", 0): it} for it in calls]).faults == [], is_fitting, format)


def test_skipped(case):
    """What is left out in front of a format isn't judged, and the rest is at its place."""
    calls = [
        it._replace(formats=(Format('"%d %lu"', (Literal('"%d %lu"'),), 3),)) for it in calls_of("%lu", "size_t")
    ]
    [fault] = judged([{(1, "printf", 0): it} for it in calls]).faults
    case.assertEqual((fault.text, fault.directive, fault.shown, fault.range), (b"%lu", "%lu", "%lu", (0, 3)))


def test_stars(case):
    first, second = faults_of("%*.*f", "size_t")[:2]
    case.assertEqual([first.range, second.range], [(1, 2), (3, 4)])
    case.assertEqual([it.is_star for it in (first, second)], [True, True])


def test_errno(case):
    """`%m` takes no argument, and it is reported where it is missing, unless the function is syslog."""
    case.assertEqual([it.directive for it in faults_of("%m: %lu %lu", "size_t", count=2)], ["%lu", "%lu"])
    for format, function, at in [
        ("%d: %m", "printf", [4]),
        ("%d: %m %m", "error", [4]),
        ("%d %%m", "printf", []),
        ("%d: %m", "syslog", []),
        ("%d: %m", "vsyslog", []),
    ]:
        calls = [it._replace(function=function) for it in calls_of(format, "int")]
        own = judged([{(1, function, 0): it._replace(is_library=False)} for it in calls])
        case.assertEqual(own.errnos, [])
        found = judged([{(1, function, 0): it} for it in calls])
        case.assertEqual(([it.at for it in found.errnos], found.faults, found.refused), (at, [], []), format)
        for one in found.errnos:
            shown = reporting.errno_finding(one)
            case.assertEqual((shown.kind, shown.level, shown.models), ("errno", "warning", ("llp64",)))
            case.assertIn(f"a format of {function}: missing on 64-bit Windows", shown.message)


def test_lost_and_refused(case):
    calls = calls_of("%lu", "size_t")
    found = judged([{(1, "printf", 0): it} for it in calls[:2]] + [{}, {(1, "printf", 0): calls[3]}])
    case.assertEqual(([names for _, names in found.lost], found.faults), ([["ILP32 with 64-bit time_t"]], []))
    found = judged([{(1, "printf", 0): it} for it in calls_of("%y", "int")])
    [(_, text, why)] = found.refused
    case.assertEqual((text, str(why)), (b"%y", "refused 3 Unexpected at byte 1"))
    shown = reporting.refused_finding(found.refused[0], list(Model))
    case.assertEqual(shown.message, "not judged: refused 3 Unexpected at byte 1 of a format of printf")
    [excerpt] = shown.excerpts
    case.assertEqual((excerpt.line, excerpt.start, excerpt.end), ('"%y"', 1, 3))
    case.assertIn("can't continue", shown.help)


def test_composed(case):
    for tokens, is_composed in [
        ([('"%lu"', "")], False),
        ([('"%"', ""), ('"lu"', "PRIu64")], False),
        ([('"%"', ""), ('"lu"', "")], True),
        ([('"%"', ""), ('"l"', ""), ('"u"', "")], True),
        ([('"%lu"', ""), ('" "', "")], False),
    ]:
        fault = fault_in(tokens)
        case.assertEqual(composing.is_composed(fault, Defined(b""), lambda: None), is_composed, tokens)


def test_own_macros(case):
    """A macro of the program that is one of <inttypes.h> may be another after `#if`."""
    own = b'#define PRI_SIZE PRIu64\n#define SIZE PRI_SIZE\n#define FULL "%" PRIu64\n'
    for source, definitions, is_composed in [
        (b'"%" PRIu64', own, False),
        (b'"%" /* x */ PRIu64 "a"', own, False),
        (b'"%" PRI_SIZE', own, True),
        (b'"%"SIZE', own, True),
        (b'"%" PRI_SIZE', b"", False),
        (b'"%" f', own, False),
        (None, own, True),
        (None, b'#define FULL "%" PRIu64\n', True),
        (None, b'#define LOG(n) printf("%" PRIu64, n)\n', False),
        (None, b'#define LOG printf("%" PRIu64, n)\n', False),
        (b'#define F "%" PRIu64', own, False),
        (b'#if A\n# define F "%" PRIu64\n#endif', own, True),
        (b'#if A\n#define F \\\n"%" PRIu64\n#endif', own, True),
        (b'#if A\n#endif\n#define F "%" PRIu64\n', own, False),
        (b'#if A\nf("%" PRIu64);\n#endif', own, False),
        (None, b"#define OTHER PRIu32\n", False),
    ]:
        fault = fault_in([('"%"', ""), ('"lu"', "PRIu64")])
        places = list(runs_in(source)) if source else []
        pieces = [Piece(it, 0) for it in places[:1]]
        where = Located(Original("a.c", source or b"", os.stat(".")), {(fault.key, 0): (b"%lu", pieces)})
        found = composing.is_composed(fault, Defined(definitions), lambda: where)
        case.assertEqual(found, is_composed, (source, definitions))


def test_shown(case):
    """A PRI macro is shown by its name, and not by what it is in LP64."""
    for tokens, shown in [
        ([('"%lu"', "")], "%lu"),
        ([('"%"', ""), ('"lu"', "PRIu64")], '%" PRIu64 "'),
        ([('"a %"', ""), ('"l"', "__PRI64_PREFIX"), ('"u b"', "")], "%lu"),
        ([('"%-5"', ""), ('"lu"', "PRIuPTR"), ('" x"', "")], '%-5" PRIuPTR "'),
    ]:
        fault = fault_in(tokens)
        case.assertEqual(fault.shown, shown, tokens)
        case.assertIn(f"{shown} for a size_t: wrong size", reporting.message_of(fault, list(Model)))
        case.assertEqual(reporting.details_of(fault)["directive"], shown)


def test_kinds(case):
    fault = faults_of("%lu", "size_t")[0]
    kinds = [reporting.kind_of(fault, models, never) for models in ([Model.LP64], [Model.ILP32], list(Model))]
    case.assertEqual(kinds, [None, "rank", "size"])
    case.assertEqual(reporting.kind_of(faults_of("%u", "int")[0], list(Model), never), "sign")
    kinds = [reporting.kind_of(faults_of(it, "size_t")[0], list(Model), bool) for it in ("%lu", "%zd")]
    case.assertEqual(kinds, ["composed", "sign"])


def test_messages(case):
    fault = faults_of("%lu", "size_t")[0]
    said = "%lu for a size_t: wrong size on 64-bit Windows, wrong type on 32-bit systems; use %zu"
    case.assertEqual(reporting.message_of(fault, list(Model)), said)
    fault = faults_of("%*d", "ptrdiff_t")[0]
    said = "the * of %*d for a ptrdiff_t: wrong size on 64-bit Unix; use a cast to int"
    case.assertEqual(reporting.message_of(fault, [Model.LP64]), said)
    fault = faults_of("%ld", "time_t")[0]
    said = "%ld for a time_t: wrong size on 32-bit systems with a 64-bit time_t and 64-bit Windows; "
    case.assertEqual(reporting.message_of(fault, list(Model)), said + "use %jd with a cast to intmax_t")
    names = [reporting.a(it) for it in ("int", "uint8_t", "unsigned long")]
    case.assertEqual(names, ["an int", "a uint8_t", "an unsigned long"])


def test_fix(case):
    """What JSON says of a fix: the bytes that it replaces, and what it needs."""
    spot = reporting.Spot("a.c", 1, 1, (1, 4), (7, 10))
    for name, format, wanted in [
        ("size_t", "%lu", ("%zu", None, None)),
        ("uint64_t", "%lu", ('%" PRIu64 "', None, "inttypes.h")),
        ("off_t", "%ld", ("%jd", "intmax_t", "stdint.h")),
    ]:
        fix = reporting.fix_of(faults_of(format, name)[0], spot)
        case.assertEqual((fix["start"], fix["end"], fix["verified"]), (7, 10, False))
        case.assertEqual((fix["text"], fix["cast"], fix["include"]), wanted)
    case.assertIsNone(reporting.fix_of(faults_of("%lu", "size_t")[0], reporting.Spot("a.c", 1)))


def test_source(case):
    with tempfile.TemporaryDirectory() as work:
        file = Path(work, "a.c")
        file.write_text('int a;\n\tprintf("%lu", a);\n')
        found = Finding(str(file), 2, 10, "size", "error", "wrong", (2, 13))
        [excerpt] = reporting.with_source(found).excerpts
        case.assertEqual((excerpt.label, excerpt.line), ("2", '\tprintf("%lu", a);'))
        case.assertEqual(excerpt.line[excerpt.start : excerpt.end], "%lu")
        unknown = Finding(str(file), 2, None, "size", "error", "x")
        case.assertEqual(reporting.with_source(unknown).excerpts, ())


def test_fitting(case):
    found = Finding("a.c", 3, 10, "types", "error", "wrong", (3, 20), ("%d", "%zu"))
    note = call_fitting.as_note(found)
    case.assertEqual((note.level, note.message), ("note", 'types differ, and the call fits: "%d" and "%zu"'))


def test_commands(case):
    """A text is written only if all compile commands that use its place agree."""
    for listed, wanted in [
        ([{1: (b"%zu", "")}], {1: (b"%zu", "")}),
        ([{1: (b"%zu", "")}, {}], {1: (b"%zu", "")}),
        ([{1: (b"%zu", "")}, {1: (b"%zu", "")}], {1: (b"%zu", "")}),
        ([{1: (b"%zu", "")}, {1: (None, "")}], {1: (None, fixing.NOT_EVERYWHERE)}),
        ([{1: (b"%zu", "")}, {1: (b"%ju", "")}], {1: (None, fixing.NOT_EVERYWHERE)}),
        ([{1: (None, "")}], {}),
        ([{1: (None, fixing.NOT_WHOLE)}], {1: (None, fixing.NOT_WHOLE)}),
    ]:
        case.assertEqual(fixing.merged(listed), wanted, listed)


# The marker before the text of a system header.
SYSTEM = '# 1 "/usr/include/a.h" 1 3 4\n'


def test_typedefs(case):
    for text, types in TEXTS:
        for platform, type in zip(PLATFORMS, types):
            name = text.rstrip(";").split()[-1]
            wanted = f"typedef {type}{'' if type.endswith(chr(10)) else ' '}{name};"
            found = retargeted(SYSTEM + text, platform, {})
            case.assertEqual(" ".join(found.partition(SYSTEM)[2].split(" ")), wanted, platform.name)


def test_members(case):
    for text, name, types in STRUCTS:
        for platform, type in zip(PLATFORMS, types):
            found = retargeted(SYSTEM + text, platform, {})
            [given] = re.findall(rf"(?:[{{;]|\n)\s*([\w ]+?) +{name}\b", found)
            case.assertEqual((given, found.count("\n")), (type, (SYSTEM + text).count("\n")), (platform.name, text))


def test_bit_fields(case):
    """Where `long` has 32 bits, a bit-field of all of them is a `long`."""
    for text, is_whole in [
        ("unsigned long b : 32;", True),
        ("long int b:32;", True),
        ("long b : 31;", False),
        ("unsigned long long b : 32;", False),
        ("unsigned b : 32;", False),
        ("long long : 32;", False),
        ("long unsigned int b : 32;", True),
        ("prolong b : 32;", False),
    ]:
        whole = text.partition(":")[0].rstrip() + ";"
        for platform in PLATFORMS:
            wanted = whole if is_whole and platform.model is not Model.LP64 else text
            case.assertEqual(retargeted(text, platform, {}), wanted, (text, platform.name))


def test_own_names(case):
    """A typedef or a struct of the source that has a name of the C library's is the source's."""
    after = '# 7 "a.c" 2\n'
    for platform in PLATFORMS:
        for text in ("typedef unsigned short off_t;", "struct stat64 { int st_size; };", "typedef __off_t mine;"):
            for front in ('# 1 "a.c"\n', SYSTEM + "typedef long size_t;\n" + after):
                found = retargeted(front + text, platform, {})
                case.assertEqual(found.splitlines()[-1], text, platform.name)
        found = retargeted("typedef long mine;\n", platform, {"mine": "int"})
        case.assertEqual(found, "typedef int mine;\n")


def preprocessed(case, source):
    """What gcc makes of a source with the headers of the command, and without them."""
    with tempfile.TemporaryDirectory() as work:
        file = Path(work, "a.c")
        file.write_text(source)
        words = write_headers(os.path.join(work, "headers"))
        runs = [subprocess.run(["gcc", "-E", *it, str(file)], capture_output=True, text=True) for it in (words, [])]
    case.assertEqual([it.returncode for it in runs], [0, 0], runs[0].stderr)
    return [it.stdout for it in runs]


def test_macros(case):
    front = "#include <inttypes.h>\n#include <limits.h>\n"
    macros = "f(PRIu64 PRIdPTR PRIxFAST16, INT64_C(5), UINTMAX_C(7), SIZE_MAX, INT64_MIN, LONG_MAX)"
    text = preprocessed(case, front + macros)[0]
    texts = [re.sub(r"/\*PRI\w+\*/", "", retargeted(text, it, {})) for it in PLATFORMS]
    plain = [" ".join(it.partition("f(")[2].split()) for it in texts]
    joined = ["".join(it for it in one.split("\n") if not it.startswith("#")) for one in plain]
    for one, parts in zip(joined, MACROS):
        case.assertEqual([it for it in parts if it not in one], [], one)


def test_built_in(case):
    """The compiler's own macros, and an expression in a constant, are those of each platform."""
    front = "#include <stdint.h>\n#include <time.h>\n#include <wchar.h>\n"
    text = preprocessed(case, front + "".join(f"between {it}\n" for it in BUILT_IN))[0]
    for at, platform in enumerate(PLATFORMS):
        parts = re.sub(r"(?m)^#.*\n", "", retargeted(text, platform, {})).split("between ")[1:]
        found = [" ".join(it.split()).replace("( ", "(").replace(" )", ")") for it in parts]
        case.assertEqual(found, [it[at] for it in BUILT_IN.values()], platform.name)


def test_declarations(case):
    """The types of the compiler's macros are declared in one line before the others."""
    for at, platform in enumerate(PLATFORMS):
        line, rest = retargeted("fmtcanon_type_int64_t a;", platform, {}).split("\n")
        case.assertEqual(rest, "fmtcanon_type_int64_t a;")
        for name, types in DECLARED.items():
            case.assertIn(f"typedef {types[at]} fmtcanon_type_{name};", line)


def test_conditions(case):
    """In `#if` the constants have their values."""
    pairs = list(itertools.permutations(CONSTANTS.split(), 2))
    tests = [f"#if {a} < {b}\nyes_{a}_{b}\n#endif\n" for a, b in pairs]
    tests += [f"#if {a} < {b}\nyes\n#endif\n" for a, b in itertools.permutations(OF_COMPILER.split(), 2)]
    tests.append("#if INT64_C(9) > INTMAX_C(8) && UINT64_C(1) && SIZE_MAX == 18446744073709551615UL\nyes\n#endif\n")
    texts = preprocessed(case, "#include <stdint.h>\n#include <limits.h>\n" + "".join(tests))
    found = [[it for it in text.split("\n") if it.startswith("yes")] for text in texts]
    case.assertEqual(found[0], found[1])
    case.assertTrue(0 < len(found[0]) < len(tests) and found[0][-1] == "yes")


def test_markers(case):
    source = b'f("%d" /* x */ "a", "b%u"); g("%s");'
    places = [it for it in runs_in(source) if b"%" in it.text]
    marker = Marker()
    text = with_markers(source, places, marker)
    literals = [marker.literal(it) for it in range(3)]
    case.assertEqual(text, b'f(%s "%%d" /* x */ "a", %s "b%%u"); g(%s "%%s");' % tuple(literals))


def refused(case, *words):
    with contextlib.redirect_stderr(io.TextIOWrapper(io.BytesIO())) as stream:
        with case.assertRaises(SystemExit) as raised:
            check_options.parsed(words)
    stream.seek(0)
    return raised.exception.code, stream.read().splitlines()[-1]


def test_words(case):
    words = ["--function", "failf:2:3", "--type", "counter_t=uint64_t", "--rank", "a.c", "--", "-b.c"]
    found = check_options.parsed(words)
    case.assertEqual((found.function, found.type), ([("failf", Shape(1, 2))], [("counter_t", "uint64_t")]))
    case.assertEqual((found.files, found.rank, found.sign), (["a.c", "-b.c"], True, False))


def test_refused(case):
    for words, said in [
        ([], "give files or folders, or the folder of a compile_commands.json"),
        (["--function", "failf", "a.c"], "'failf' isn't NAME:FORMAT[:FIRST], counted from 1"),
        (["--function", "failf:0:1", "a.c"], "'failf:0:1' isn't NAME:FORMAT[:FIRST], counted from 1"),
        (["--function", "failf:2:1", "a.c"], "'failf:2:1' isn't NAME:FORMAT[:FIRST], counted from 1"),
        (["--type", "counter_t", "a.c"], "'counter_t' isn't NAME=TYPE"),
        (["--type", "counter_t=other", "a.c"], "'other' is neither an integer type nor a typedef of the C library"),
        (["--fix", "--diff", "a.c"], "not allowed with argument"),
    ]:
        status, line = refused(case, *words)
        case.assertEqual((status, said in line), (2, True), line)


Tests = tests_of(globals())
