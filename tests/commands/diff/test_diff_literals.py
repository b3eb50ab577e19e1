"""Tests of how fmtcanon-diff reads places and pairs them."""

import time

from fmtcanon import Model
from fmtcanon.diff.pair_judging import is_judged
from fmtcanon.diff.pairing import matching, paired
from fmtcanon.source.macros import PlacePart, expansion
from fmtcanon.source.places import EnclosingCall, Position, Source

from tests.frame.cases import tests_of

# A source, and of each place the line and column of its quote, its call and its bytes in LP64, or why there are none.
READ = [
    (b'printf("%d");', [((1, 8), (b"printf", 0, 0), b"%d")]),
    (
        b'fprintf(f,\n  "a" /* b */\n  "%d", g(x), "c");',
        [((2, 3), (b"fprintf", 1, 0), b"a%d"), ((3, 15), (b"fprintf", 3, 0), b"c")],
    ),
    (b'f("a\\\n%d");\ng("b");', [((1, 3), (b"f", 0, 0), b"a%d"), ((3, 3), (b"g", 0, 0), b"b")]),
    (b'f(\\\r\n"a\\\r\nb" "c");\r\n  g("d")', [((2, 1), (b"f", 0, 0), b"abc"), ((4, 5), (b"g", 0, 0), b"d")]),
    (b'printf(_("%d"), x)', [((1, 10), (b"printf", 0, 0), b"%d")]),
    (
        b'printf(ngettext("one", "%d", n), n)',
        [((1, 17), (b"printf", 0, 0), b"one"), ((1, 24), (b"printf", 0, 1), b"%d")],
    ),
    (b'printf(("%d"), x); x = ("a");', [((1, 9), (b"printf", 0, 0), b"%d"), ((1, 25), (b"", 0, 0), b"a")]),
    (
        b'if (f("a")) return "b"; else "c";',
        [((1, 7), (b"f", 0, 0), b"a"), ((1, 20), (b"", 0, 0), b"b"), ((1, 30), (b"", 0, 0), b"c")],
    ),
    (b'f("%" PRIu64 "\\n")', [((1, 3), (b"f", 0, 0), b"%lu\n")]),
    (b'f(PRIu64 "x")', [((1, 10), (b"f", 0, 0), b"lux")]),
    (
        b'#define F "%d" "\\n"\nf(F, 1); f("x" F);',
        [((1, 11), (b"#define F", 0, 0), b"%d\n"), ((2, 3), (b"f", 0, 0), b"%d\n"), ((2, 12), (b"f", 0, 0), b"x%d\n")],
    ),
    (
        b'#define Z "zu"\n#define F "%" Z\nf(F)',
        [
            ((1, 11), (b"#define Z", 0, 0), b"zu"),
            ((2, 11), (b"#define F", 0, 0), b"%zu"),
            ((3, 3), (b"f", 0, 0), b"%zu"),
        ],
    ),
    (
        b'#define F "%d"\n#define F "%u"\nf("a" F)',
        [
            ((1, 11), (b"#define F", 0, 0), b"%d"),
            ((2, 11), (b"#define F", 0, 0), b"%u"),
            ((3, 3), (b"f", 0, 0), "the macro F is part of it"),
        ],
    ),
    (b'f("a" X);', [((1, 3), (b"f", 0, 0), "the macro X is part of it")]),
    (b'f(X "a");', [((1, 5), (b"f", 0, 0), "the macro X is part of it")]),
    (b'f(L"%d", u8"%u")', [((1, 4), (b"f", 0, 0), "a wide string literal"), ((1, 12), (b"f", 1, 0), b"%u")]),
    (b'f(R"x(a"b)x", LR"(c)")', [((1, 4), (b"f", 0, 0), b'a"b'), ((1, 17), (b"f", 1, 0), "a wide string literal")]),
    (b'f(R"(a\\\nb)", "c\\\nd")', [((1, 4), (b"f", 0, 0), b"a\\\nb"), ((2, 6), (b"f", 1, 0), b"cd")]),
    (b'f("\\q")', [((1, 3), (b"f", 0, 0), "literal 3 BadEscape at byte 1")]),
    (b'// "a"\n/* "b" */ "c" \'"\' \'\\\'\' "d"', [((2, 11), (b"", 0, 0), b"c"), ((2, 24), (b"", 0, 0), b"d")]),
    (b'#include "a.h"\n#error don\'t "x\n#if "y"\nf("b")', [((4, 3), (b"f", 0, 0), b"b")]),
    (b'f("a"\n#ifdef X\n"b"\n#endif\n)', [((1, 3), (b"f", 0, 0), b"a"), ((3, 1), (b"f", 0, 0), b"b")]),
    (
        b'#define L(f, ...) p("x " f, \\\n  __VA_ARGS__)\ng("a")',
        [((1, 21), (b"p", 0, 0), "the macro f is part of it"), ((3, 3), (b"g", 0, 0), b"a")],
    ),
    (b'#define OPEN(x) f(x\ng("a")', [((2, 3), (b"g", 0, 0), b"a")]),
    (b'asm volatile ("b" : "=r"(x))', [((1, 15), (b"volatile", 0, 0), b"b"), ((1, 21), (b"volatile", 0, 0), b"=r")]),
    ('f("é", "%d")'.encode(), [((1, 3), (b"f", 0, 0), "é".encode()), ((1, 8), (b"f", 1, 0), b"%d")]),
    ('f("é", "%d")'.encode("latin-1"), [((1, 3), (b"f", 0, 0), b"\xe9"), ((1, 8), (b"f", 1, 0), b"%d")]),
    (b'f(;\n"a"', [((2, 1), (b"", 0, 0), b"a")]),
    (b'f("a', []),
    (b'/* f("a")', []),
]
# An old source and a new one, and the pairs that changed, by their bytes, with what came and went.
PAIRED = [
    ("equal", b'f("%d");', b' f ( "%d" ) ;', [], (0, 0)),
    ("a split literal", b'f("ab");', b'f("a" "b");', [(b"ab", b"ab")], (0, 0)),
    (
        "moved in a list of likes",
        b'f("%d\\n", a);\nf("%d\\n", b);\nf("%u\\n", c);\n',
        b'f("%d\\n", b);\nf("%lu\\n", c);\n',
        [(b"%u\n", b"%lu\n")],
        (0, 1),
    ),
    (
        "a lone bracket between",
        b'if (x)\n{\n f("%d a");\n}\ng("%d b");\n',
        b'if (y)\n g("%u b");\nelse\n{\n f("%u a");\n}\n',
        [(b"%d b", b"%u b"), (b"%d a", b"%u a")],
        (0, 0),
    ),
    (
        "a block that moved",
        b'a1;\nb1;\nf("%d one");\nc1;\nd1;\n',
        b'f("%u one");\na1;\nb1;\nc1;\nd1;\n',
        [(b"%d one", b"%u one")],
        (0, 0),
    ),
    ("another call", b'f("%d");', b'g("%u");', [], (1, 1)),
    (
        "the same words in another call",
        b'f("%d files", x);',
        b'g(out, "%u files", x);',
        [(b"%d files", b"%u files")],
        (0, 0),
    ),
    (
        "the same words, told apart by what follows",
        b'f("%d x", a);\nf("%ld x", b);\n',
        b'f("%lu x", b);\n',
        [(b"%ld x", b"%lu x")],
        (0, 1),
    ),
    ("the same words twice", b'f("%d files", x);', b'g("%u files", x); h("%u files", x);', [], (2, 1)),
    (
        "a rewritten text in place",
        b'f("%d old", x, y);',
        b'f("completely %u different", x, y);',
        [(b"%d old", b"completely %u different")],
        (0, 0),
    ),
    ("escapes", b'f("\\x74\\x61\\x62 %d", x);\ng();', b'f("tab %i", y);\nh();', [(b"tab %d", b"tab %i")], (0, 0)),
    (
        "a macro's definition",
        b'#define Z "zu"\nf("%" Z);\n',
        b'#define Z "u"\nf("%" Z);\n',
        [(b"zu", b"u"), (b"%zu", b"%u")],
        (0, 0),
    ),
    (
        "a macro's definition far above",
        b'#define Z "zu"\na();\nb();\nf("%" Z);\nc();\n',
        b'#define Z "u"\na();\nb();\nf("%" Z);\nc();\n',
        [(b"zu", b"u"), (b"%zu", b"%u")],
        (0, 0),
    ),
    (
        "arguments that come last",
        b'f("%d", x); g();',
        b'f("%d and then %s here", x, y); h();',
        [(b"%d", b"%d and then %s here")],
        (0, 0),
    ),
    (
        "brackets that moved",
        b'f("one", x);\n}\naa();\nf("red", y);\nelse\nbb();\n',
        b'}\nf("quite %d other", x);\naa();\nelse\nf("%d blue cars", y);\nbb();\n',
        [(b"one", b"quite %d other"), (b"red", b"%d blue cars")],
        (0, 0),
    ),
    ("a macro alone", b'#define F "%zu"\nf(F);\n', b'#define F "%u"\nf(F);\n', [(b"%zu", b"%u")], (0, 0)),
    (
        "a format moved into a macro",
        b'f("%d\\n", x);\n',
        b'#define F "%d\\n"\nf(F, x);\n',
        [(b"%d\n", b"%d\n")],
        (1, 0),
    ),
    ("a file that is new", b"", b'f("%d"); g("a");', [], (2, 0)),
]


def test_places(case):
    for data, wanted in READ:
        source = Source(data).read()
        found = []
        for place in source.places:
            text, why = place.text(Model.LP64)
            found.append((source.position(place.quote), place.call, why if text is None else text))
        case.assertEqual(found, [(Position(*at), EnclosingCall(*call), text) for at, call, text in wanted], data)


def test_end(case):
    source = Source(b'f("a"\n  "bc" , 1)').read()
    case.assertEqual(source.places[0].span(), (Position(1, 3), Position(2, 7)))
    case.assertEqual(Source(b'f("a"\\\n, 1)').read().places[0].span(), (Position(1, 3), Position(1, 6)))


def test_macros(case):
    names = {
        b"PRIu64": [b"lu", b"llu", b"llu"],
        b"PRIdMAX": [b"ld", b"lld", b"lld"],
        b"PRIxPTR": [b"lx", b"x", b"llx"],
        b"PRId32": [b"d"] * 3,
        b"PRIu8": [b"u"] * 3,
        b"PRIoLEAST16": [b"o"] * 3,
        b"PRIiFAST32": [b"li", b"i", b"i"],
        b"PRIXFAST8": [b"X"] * 3,
        b"PRIuFAST64": [b"lu", b"llu", b"llu"],
        b"PRIu65": [None] * 3,
        b"SCNu64": [None] * 3,
    }
    for name, wanted in names.items():
        case.assertEqual([expansion(name, it) for it in Model], wanted, name)


def test_defined_macro(case):
    place = Source(b'f("a" X);').read().places[0]
    case.assertEqual(place.words, b'"a" X')
    place.define({b"X": (PlacePart("string", b'"b%d"'),)}, Model.LP64)
    case.assertEqual(place.words, b"ab%")


def test_reading_time(case):
    """Texts that a pattern could match in many ways take linear time."""
    units = [
        b"f(1); ",
        b"a ",
        b'"a" ',
        b"/* ",
        b"'a ",
        b"#a ",
        b"1'",
        b"a",
        b"1",
        b" ",
        b"#define a b",
        b'R"(x ',
        b'"\\n',
        b"(((",
        b"f",
        b"\\\n",
    ]
    began = time.process_time()
    for unit in units:
        for text in [unit * (40_000 // len(unit)), b"#define " + unit * (40_000 // len(unit))]:
            Source(text).read()
            paired(Source(text), Source(text + b"x"))
    # Each has a delimiter of its own, with which nothing ends.
    Source(b"".join(b'R"a%d(x ' % number for number in range(50_000))).read()
    case.assertLess(time.process_time() - began, 20)


def test_what_is_judged(case):
    """Only what has a specification on either side, and may be a format."""
    for old, new, wanted in [
        (b'f("%d")', b'f("x")', True),
        (b'f("x")', b'f("%d")', True),
        (b'f("x")', b'f("y")', False),
        (b'f("%%")', b'f("%% ")', False),
        (b'f("%%")', b'f("%")', True),
        (b'f("\\x25i")', b'f("x")', True),
        (b'f(L"%d")', b'f("x")', True),
        (b'puts("%d")', b'puts("%u")', False),
        (b'fputs(_("%d"), f)', b'fputs(_("%u"), f)', False),
        (b'sscanf(a, "%d")', b'sscanf(a, "%i")', False),
        (b'fscanf(f, "%s")', b'fscanf(f, "%d")', False),
        (b'std::strftime(a, 9, "%d", t)', b'std::strftime(a, 9, "%i", t)', False),
        (b'wscanf(L"%d")', b'wscanf(L"%i")', False),
        (b'my_scanf("%d")', b'my_scanf("%i")', True),
        (b'__asm__ volatile ("%0" : )', b'__asm__ volatile ("%1" : )', False),
        (b"f(PRIu64)", b"f(PRId64)", False),
        # An argument of printf that isn't its format, and functions that a program may have itself.
        (b'printf(s, "100% d")', b'printf(s, "99% d")', False),
        (b'fprintf(f, "%d")', b'fprintf(f, "%u")', True),
        (b'__snprintf_chk(b, 9, 1, 9, "%d")', b'__snprintf_chk(b, 9, 1, 9, "%u")', True),
        (b'vsnprintf(b, 9, x, "%d")', b'vsnprintf(b, 9, x, "%u")', False),
        (b'my_printf(s, "%d")', b'my_printf(s, "%u")', True),
        (b'warn(topic, "%d")', b'warn(topic, "%u")', True),
        (b'log_error("%V")', b'log_error("%d")', False),
        (b'_(log_error("%V"))', b'_(log_error("%d"))', False),
        (b'log_errors("%V")', b'log_errors("%d")', True),
        (b'trace("%d")', b'trace("%u")', False),
        (b'trace(1, "%d")', b'trace(1, "%u")', True),
    ]:
        places = [Source(it).read().places for it in (old, new)]
        functions = {b"log_error": None, b"other": None, b"trace": 1}
        case.assertEqual(bool(places[0]) and is_judged(places[0][0], places[1][0], functions), wanted, (old, new))


def test_blocks(case):
    for first, second, wanted in [
        ("", "", []),
        ("abc", "abc", [(0, 0, 3)]),
        ("abcd", "abxd", [(0, 0, 2), (3, 3, 1)]),
        ("xay", "zbaw", [(1, 2, 1)]),
        ("aabb", "bbaa", [(0, 2, 2)]),
        ("pqrst", "prqst", [(0, 0, 1), (1, 2, 1), (3, 3, 2)]),
    ]:
        found = matching(first, second)
        joined = "".join(first[a : a + size] for a, _, size in found)
        case.assertEqual(joined, "".join(second[b : b + size] for _, b, size in found))
        case.assertEqual(len(joined), sum(size for _, _, size in wanted), (first, second, found))


def test_weights(case):
    """Of blocks that exclude each other, that with more items is found; some items count twice."""
    for twice, wanted in [("a", "ad"), ("b", "bc"), ("bc", "bc"), ("ad", "ad"), ("d", "ad"), ("c", "bc")]:
        found = matching("adbc", "bcad", frozenset(twice))
        case.assertEqual("".join("adbc"[a : a + size] for a, _, size in found), wanted, twice)


def test_pairs(case):
    for name, old, new, wanted, (came, went) in PAIRED:
        found = paired(Source(old), Source(new))
        texts = [(old.text(Model.LP64)[0], new.text(Model.LP64)[0]) for old, new in found.changed]
        case.assertEqual((texts, found.came, found.went), (wanted, came, went), name)


def test_pairing_time(case):
    """Lines and places that are all alike, and long texts, take little time."""
    began = time.process_time()
    line = b'f("%d\\n", x);\n'
    found = paired(Source(line * 8_000), Source(line * 3_000 + b'f("%u\\n", x);\n' + line * 4_999))
    case.assertEqual((len(found.changed), found.came, found.went), (1, 0, 0))
    found = paired(
        Source(line.rstrip() * 8_000), Source(line.rstrip() * 3_000 + b'f("%u\\n", x);' + line.rstrip() * 4_999)
    )
    case.assertEqual((len(found.changed), found.came, found.went), (1, 0, 0))
    found = paired(Source(b'f("' + b"%d " * 500_000 + b'");'), Source(b'f("' + b"%d " * 499_999 + b'%u ");'))
    case.assertEqual((len(found.changed), found.came, found.went), (1, 0, 0))
    found = paired(
        Source(line * 2_000 + b'g("a");\nh();\n' * 2_000), Source(b'g("a");\nh();\n' * 2_000 + line * 2_000)
    )
    case.assertLess(time.process_time() - began, 20)


Tests = tests_of(globals())
