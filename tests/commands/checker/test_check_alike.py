"""Tests of what the calls of a unit are on every platform by what they are on one, without libclang: python3 -m
unittest, in the folder above.
"""

from types import SimpleNamespace

from fmtcanon import Type
from fmtcanon.compiling.calls import Argument, Call
from fmtcanon.compiling.formats import Format, Literal
from fmtcanon.compiling.platforms import PLATFORMS
from fmtcanon.fitting.alike import call_on_all, calls_on_all, own_text

from tests.frame.cases import tests_of

INT, LONG = Argument(Type.INT, "int", "int"), Argument(Type.LONG, "long", "long", False, True)
SIZE = Argument(Type.ULONG, "unsigned long", "size_t")
# The same as the source declares it, `sizeof`, and a variable of another typedef.
DECLARED_SIZE = SIZE._replace(typedef="size_t")
SIZE_OF = Argument(Type.ULONG, "unsigned long", "unsigned long", typedef="size_t")
WIDE_INT = Argument(Type.LONG, "long", "own_t", typedef="int64_t")
TEXT, WIDE, REAL = (Argument(None, it, it) for it in ("char *", "int *", "double"))
# Formats and arguments of calls, and whether it is known what these are everywhere, whatever fits.
CALLS = [
    ("%d", [INT], True),
    ("%x", [INT], True),
    ("%hhd %c", [INT, INT], True),
    ("%*.*f", [INT, INT, REAL], True),
    ("%s", [TEXT], True),
    ("%p", [WIDE], True),
    ("%ld", [LONG], True),
    ("%d", [LONG], True),
    ("%lu", [SIZE], False),
    ("%d", [SIZE], False),
    ("%zu", [SIZE], False),
    ("%zu", [INT], True),
    ("%jd", [Argument(Type.LONG_LONG, "long long", "long long")], True),
    ("%lld", [Argument(Type.LONG_LONG, "long long", "long long")], True),
    ("%s", [WIDE], False),
    ("%ls", [WIDE], False),
    ("%lc", [INT], False),
    ("%d", [REAL], False),
    ("%d", [], False),
    ("%y", [INT], False),
    ("%d", [INT, SIZE], True),
    ("%lu", [DECLARED_SIZE], True),
    ("%zu %d", [SIZE_OF, WIDE_INT], True),
    ("%zu %zu", [DECLARED_SIZE, SIZE], False),
    ("%lc", [DECLARED_SIZE], False),
]
# Arguments, and their types, spellings and names in LP64, ILP32, ILP32 with a 64-bit time_t, and LLP64.
TYPES = [
    (INT, [(Type.INT, "int", "int")] * 4),
    (LONG, [(Type.LONG, "long", "long")] * 4),
    (
        DECLARED_SIZE,
        [
            (Type.ULONG, "unsigned long", "size_t"),
            (Type.UINT, "unsigned int", "size_t"),
            (Type.UINT, "unsigned int", "size_t"),
            (Type.ULONG_LONG, "unsigned long long", "size_t"),
        ],
    ),
    (
        SIZE_OF,
        [
            (Type.ULONG, "unsigned long", "unsigned long"),
            (Type.UINT, "unsigned int", "unsigned int"),
            (Type.UINT, "unsigned int", "unsigned int"),
            (Type.ULONG_LONG, "unsigned long long", "unsigned long long"),
        ],
    ),
    (
        Argument(Type.LONG, "long", "time_t", typedef="time_t"),
        [
            (Type.LONG, "long", "time_t"),
            (Type.LONG, "long", "time_t"),
            (Type.LONG_LONG, "long long", "time_t"),
            (Type.LONG_LONG, "long long", "time_t"),
        ],
    ),
]
# The literals of formats, and the texts on the same platforms.
MACROS = [
    ([("a%", ""), ("ld", "PRId64"), ("\\t%%", "")], ["a%ld\\t%%", "a%lld\\t%%", "a%lld\\t%%", "a%lld\\t%%"]),
    ([("%", ""), ("lx", "PRIxPTR")], ["%lx", "%x", "%x", "%llx"]),
    ([("%", ""), ("l", "__PRI64_PREFIX"), ("u", "")], ["%lu", "%llu", "%llu", "%llu"]),
]
FRONT = '# 1 "a.c"\n# 1 "/usr/include/stddef.h" 1 3 4\n'
# Texts of units, and whether nothing in them can be another elsewhere.
TEXTS = [
    ('# 1 "a.c"\nint x = sizeof(long);\n', True),
    (f'{FRONT}typedef int wchar_t;\n# 2 "a.c" 2\nint x;\n', True),
    (f'{FRONT}typedef int wchar_t;\n# 2 "a.c" 2\nwchar_t x;\n', True),
    # A macro of another header in a system header, whose markers lack the flag.
    (f'{FRONT}typedef\n# 2 "/usr/include/stddef.h"\nfmtcanon_type_wchar_t\n# 2 "a.c" 2\nint x;\n', True),
    # A macro of a system header in the file itself, whose marker has the flag.
    (f'{FRONT}# 2 "a.c" 2\nvoid *p =\n# 2 "a.c" 3 4\n0\n# 2 "a.c"\n; L"x";\n', False),
    ('# 1 "a.c"\nint x = (fmtcanon_WCHAR_MAX + 2147483647);\n', False),
    ('# 1 "a.c"\nlong x = (fmtcanon_UINT64_C + 1UL);\n', True),
    ('# 1 "a.c"\nlong x = (fmtcanon_LONG_MIN + -9223372036854775807L - 1);\n', True),
    ('# 1 "a.c"\nint x = L\'x\';\n', False),
    ('# 1 "a.c"\nint x = \'L\'; char *y = "L" "wchar_t";\n', True),
    ('# 1 "a.c"\nint x = f("\\"", L"x");\n', False),
    ('# 1 "a.c"\nint x = __builtin_types_compatible_p(typeof(a), typeof(&(a)[0]));\n', True),
    ('# 1 "a.c"\nint x = __builtin_types_compatible_p(typeof(a), typeof(&(b)[0]));\n', False),
    ('# 1 "a.c"\nint x = _Generic(sizeof 1, unsigned: 1, default: 2);\n', False),
    ('# 1 "a.c"\nstruct s { unsigned long x : 32; };\n', False),
    ('# 1 "a.c"\nstruct user *user;\n', False),
    ('# 1 "a.c"\nint user;\n', True),
    ('# 1 "a.c"\nucontext_t *context;\n', False),
    ('# 1 "a.c"\nstruct timeval t;\n', True),
    ('# 1 "a.c"\ngreg_t x;\n', True),
]


def call(format, arguments):
    source = f'"{format}"'
    return Call("a.c", 1, "printf", (Format(source, (Literal(source),)),), tuple(arguments))


def unit(calls=(), is_cxx=False, is_computed=False, is_settled=True):
    found = dict(enumerate(calls))
    command = SimpleNamespace(is_cxx=lambda: is_cxx)
    formats = SimpleNamespace(is_computed=is_computed)
    return SimpleNamespace(command=command, formats=formats, is_settled=is_settled, found=found, integers=[])


def is_known(text, **given):
    return calls_on_all(unit(**given), text) is not None


def test_calls(case):
    for format, arguments, wanted in CALLS:
        one = call(format, arguments)
        case.assertEqual(call_on_all(one) is not None, wanted, (format, arguments))
        case.assertEqual(is_known("int x;\n", calls=[call("%d", [INT]), one]), wanted, format)


def test_types(case):
    """Arguments on each platform, and whether they fit there: a format alone has no more than they have."""
    for argument, wanted in TYPES:
        on_all = call_on_all(call("%ld", [argument]))
        found = [(it.type, it.spelling, it.name) for one in on_all for it in one.arguments]
        case.assertEqual(found, wanted, argument)


def test_macros(case):
    """Formats with PRI macros on each platform."""
    for tokens, wanted in MACROS:
        literals = tuple(Literal(f'"{text}"', macro) for text, macro in tokens)
        source = "".join(it.source[1:-1] for it in literals)
        one = Call("a.c", 1, "printf", (Format(f'"{source}"', literals),), (WIDE_INT,))
        found = [it.formats[0].source for it in call_on_all(one)]
        case.assertEqual(found, [f'"{it}"' for it in wanted], tokens)


def test_calls_on_all(case):
    """Each platform has each call, with its own arguments."""
    found = calls_on_all(unit([call("%zu", [DECLARED_SIZE]), call("%d", [INT])]), "int x;\n")
    spellings = [[it.arguments[0].spelling for it in one.values()] for one in found]
    sizes = ["unsigned long", "unsigned int", "unsigned int", "unsigned long long"]
    case.assertEqual(spellings, [[it, "int"] for it in sizes])
    case.assertEqual([list(it) for it in found], [[0, 1]] * len(PLATFORMS))


def test_texts(case):
    for text, wanted in TEXTS:
        case.assertEqual(is_known(text), wanted, text)


def test_units(case):
    """What C++ chooses by a type, and what a value chooses, may be another elsewhere."""
    case.assertTrue(is_known("int x;\n"))
    case.assertTrue(is_known("int x;\n", is_cxx=True))
    case.assertFalse(is_known("int x;\n", is_cxx=True, is_settled=False))
    case.assertFalse(is_known("int x;\n", is_computed=True))
    for text in ("template <> struct s<long> {};", "std::conditional<a, b, c>::type x;", "decltype(x) y;"):
        case.assertFalse(is_known(f'# 1 "a.cpp"\n{text}\n', is_cxx=True), text)
        case.assertTrue(is_known(f'# 1 "a.h" 1 3 4\n{text}\n', is_cxx=True), text)


def test_own_text(case):
    text = '# 1 "a.c"\nint a;\n# 1 "/x.h" 1 3\nint b;\n# 3 "/x.h"\nint c;\n'
    text += '# 2 "in.h" 1\nint d;\n# 2 "a.c" 2\nint e\n# 2 "a.c" 3 4\n= 0\n# 2 "a.c"\n;\n'
    case.assertEqual(own_text(text).split(), ["int", "a;", "int", "d;", "int", "e", "=", "0", ";"])


Tests = tests_of(globals())
