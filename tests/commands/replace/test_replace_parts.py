"""Tests of the parts of fmtcanon-replace that need no compiler."""

import tempfile
import time

from fmtcanon.compiling.left import Left
from fmtcanon.compiling.parsing import GNU_PRINTF, as_utf8
from fmtcanon.compiling.targets import assertions_in
from fmtcanon.rewriting import doubts
from fmtcanon.rewriting.rewritten_files import with_sources
from fmtcanon.source.known import GETTEXT, KNOWN
from fmtcanon.source.respelling import literals_of, respelled, runs_in
from fmtcanon.source.tokens import Tokens, common_front

from tests.frame.cases import tests_of

ASSERTIONS = (b"_Static_assert", b"static_assert")
# A source, and the bytes of the literals in it.
FOUND = [
    (b'f("%i", "a" "b")', [b"%i", b"ab"]),
    (b'f("%i"\n  /* two */ "\\n" // three\n "x")', [b"%i\nx"]),
    (b'f("a\\\nb" \\\n "c")', [b"abc"]),
    (b'f("a\\\r\nb")', [b"ab"]),
    (b"'\"' f(\"%i\") '\\\"'", [b"%i"]),
    (b'/* "a" */ // "b" \\\n "c"\n "d"', [b"d"]),
    (b'L"a" u8"b" u"c" U"d" R"x("e")x" "f"', [b"f"]),
    (b'R"("a")" u8R"--("b"))--" "c"', [b"c"]),
    (b'1\'000 "a" 0x1p+3', [b"a"]),
    (b'"a" L"b" "c" u8"d" "e" R"(f)" "g"', [b"a", b"c", b"e", b"g"]),
    (b'#include "a%d.h"\n#error "%d"\n#pragma x "%d"\n#define F "%i"\nf("b")', [b"%i", b"b"]),
    (b'"\\q" "a', []),
    (b'"a\\0b"', []),
    (b'"??=" "a\\??="', []),
    (b'"http://x" "y"', [b"http://xy"]),
]
# A source, the new text, and the source that spells it.
SPELLED = [
    (b'"%i\\n"', b"%d\n", b'"%d\\n"'),
    (b'"\\303\\251%i"', b"\xc3\xa9%d", b'"\\303\\251%d"'),
    (b'"\xc3\xa9%i"', b"\xc3\xa9%d", b'"\xc3\xa9%d"'),
    (b'"\\x41 \\45i\\x2e"', b"A %d.", b'"\\x41 \\45d\\x2e"'),
    # The digit or letter would become part of the escape before it.
    (b'"\\x25i"', b"%d", b'"%d"'),
    (b'"\\1" "i"', b"\x012", b'"\\1" "2"'),
    (b'"%i" " of " "%i"', b"%d of %d", b'"%d" " of " "%d"'),
    (b'"%i"\n  /* x */ "%i"', b"%d%d", b'"%d"\n  /* x */ "%d"'),
    (b'"%5c"', b"    %c", b'"    %c"'),
    (b'"%i"', b"", b'""'),
    (b'""', b"%d", b'"%d"'),
    (b'"a" ""', b"ab", b'"ab" ""'),
    # No trigraph comes into being.
    (b'"?i="', b"??=", b'"?\\?="'),
    (b'"%\\\ni"', b"%d", b'"%\\\nd"'),
]


def test_found(case):
    for source, wanted in FOUND:
        case.assertEqual([it.text for it in runs_in(source)], wanted, source)


def test_literals_time(case):
    """What comes after a literal is read once, however it could be cut into comments."""
    for between in [b"// x " * 2_000 + b"\n", b"/* x */ " * 2_000, b"/***/ // /* \n" * 2_000, b" \\\n" * 2_000]:
        began = time.process_time()
        source = b'"a" ' + between + b"; " + b'"b" ' + between + b'"c"'
        case.assertEqual([it.text for it in runs_in(source)], [b"a", b"bc"])
        case.assertLess(time.process_time() - began, 5)


def test_lines(case):
    case.assertEqual([it.line for it in runs_in(b'"a"; /*\n\n*/ "b"\n"c"; "d"')], [1, 3, 4])


def test_spelled(case):
    for source, new, wanted in SPELLED:
        [place] = runs_in(source)
        case.assertEqual(respelled(place, new), wanted, source)


def test_spliced(case):
    [place] = runs_in(b'"a\\\n%i"')
    case.assertEqual(respelled(place, b"a%d"), b'"a\\\n%d"')
    case.assertEqual(respelled(place, b"b%i"), b'"b\\\n%i"')
    [place] = runs_in(b'"%\\\ni"')
    case.assertIsNone(respelled(place, b"x"))


def test_parts(case):
    case.assertEqual(literals_of(b'"a\\\nb" /* c */ "d"'), [b'"ab"', b'"d"'])


def test_a_file(case):
    source = b'f("a"); g("b");'
    case.assertEqual(with_sources(source, list(runs_in(source)), [b'"c"', b'"d" "e"']), b'f("c"); g("d" "e");')


def test_tokens(case):
    text = b'# 1 "a.c"\nint x;\n\nf("a" L"b", 1.5e-3, \'"\');\n# 9 "b.h" 1\ny'
    wanted = [b"int", b"x", b";", b"f", b"(", b'"a"', b'L"b"', b",", b"1.5e-3", b",", b"'\"'", b")", b";", b"y"]
    found = Tokens(text, ASSERTIONS)
    case.assertEqual(found.words, wanted)
    case.assertEqual(found.lines, [2] * 3 + [4] * 10 + [6])


def test_both_ways(case):
    text = (
        b'# 1 "a.c"\nint f(void) { return g(L"a\\"b", \'\\n\', 0x1p-3) + 1; }\n\n#pragma x\n'
        b' static_assert(1, "x"); y\n'
    )
    slow = Tokens(text + b'R"(z)"', ASSERTIONS)
    case.assertEqual(
        (slow.words[:-1], slow.lines[:-1]), (Tokens(text, ASSERTIONS).words, Tokens(text, ASSERTIONS).lines)
    )
    case.assertEqual(Tokens(b'R"x(a\nb)x"\nc', ()).words, [b'R"x(a\nb)x"', b"c"])
    case.assertEqual(Tokens(b'R"x(a\nb)x"\nc', ()).lines, [1, 3])


def test_static_assertions(case):
    text = b'a _Static_assert((1), "x(") ; static_assert(f(2)); b'
    case.assertEqual(Tokens(text, ASSERTIONS).words, [b"a", b";", b";", b"b"])


def test_names_like_static_assertions(case):
    """In C17, `static_assert` is an ordinary name, and in C++ `_Static_assert` is."""
    text = b'(printf("x"), c.static_assert = ("x"));'
    for version in ["199901L", "201112L", "201710L"]:
        case.assertIn(b"static_assert", Tokens(text, assertions_in({"__STDC_VERSION__": version})).words)
        case.assertEqual(Tokens(b"_Static_assert(1);", assertions_in({"__STDC_VERSION__": version})).words, [b";"])
    case.assertEqual(Tokens(b"static_assert(1);", assertions_in({"__STDC_VERSION__": "202311L"})).words, [b";"])
    case.assertEqual(Tokens(b"static_assert(1);", assertions_in({"__cplusplus": "201703L"})).words, [b";"])
    case.assertIn(b"_Static_assert", Tokens(b"_Static_assert(1);", assertions_in({"__cplusplus": "1"})).words)


def test_common_front(case):
    first = b'# 1 "a.h"\nint x;\n# 2 "a.c"\nf("a");\n'
    case.assertEqual(first[common_front(first, first.replace(b'"a")', b'"b")')) :], b'\n# 2 "a.c"\nf("a");\n')
    case.assertEqual(common_front(first, b"int"), 0)
    case.assertEqual(common_front(first + b'R"x()x"', first), 0)
    case.assertEqual(common_front(first, first), len(b'# 1 "a.h"\nint x;'))
    # A text isn't cut at a marker within a declaration.
    second = first + b'# 3 "a.c"\n_Static_assert (\n# 3 "b.h" 3 4\n1,\n# 3 "a.c"\n"x");'
    case.assertEqual(second[common_front(second, second + b" ") :][:12], b'\n# 3 "a.c"\n_')


def test_gnu_printf(case):
    """In an attribute it is the standard language of formats, and elsewhere it is a name."""
    for text, wanted in [
        (b"__attribute__((format(gnu_printf, 1, 2)))", b"__attribute__((format(printf, 1, 2)))"),
        (
            b'((__format__ \n# 30 "u.h" 3\n (__gnu_printf__, \n# 30 "u.h"\n 1, 2)))',
            b'((__format__ \n# 30 "u.h" 3\n (printf, \n# 30 "u.h"\n 1, 2)))',
        ),
        (b'gnu_printf("%i");', b'gnu_printf("%i");'),
        (b"my_format(gnu_printf, 1);", b"my_format(gnu_printf, 1);"),
        (b"f(gnu_printf); __gnu_printf__(1);", b"f(gnu_printf); __gnu_printf__(1);"),
    ]:
        case.assertEqual(GNU_PRINTF.sub(rb"\1printf", text), wanted)


def test_utf8(case):
    case.assertEqual(as_utf8("é".encode()), "é".encode())
    case.assertEqual(as_utf8(b"\xe9a"), b"_a")


LEFT = [
    b'int mine(const char *, ...) __asm__("printf");',
    b'void f(void) { asm volatile("call " "printf"); }',
    b'void f(void) { __asm__("\\160rintf"); }',
    b'int x; asm("");',
    b'void f(void) {} asm ("");',
    b"int main() { register_printf_specifier(1, 0, 0); }",
    b'void f(void) { __asm__(".incbin \\"a.c\\""); }',
    b'void f(void) { __asm__(".inc" "lude \\"a.s\\""); }',
    b'void f(void) { __asm__(".macro m a b\\n.set \\\\a\\\\b, mine\\n.endm\\nm prin tf"); }',
    b'void f(void) { __asm__(".irp x, tf\\n.set prin\\\\x, mine\\n.endr"); }',
    b'void f(void) { __asm__(".set %c0, mine" : : "i"(printf)); }',
]


FINE = [
    b'void f(void) { asm volatile("nop" : : "r"(1)); }',
    b"void xprintf(const char *);",
    b'void f(void) { g("asm(printf)"); }',
    b'void f(int err) { __asm__("nop" : "=r"(err)); }',
    b'void f(void) { __asm__("movl %eax, .includes"); }',
]


# Words that leave a file, whatever libclang says.
def test_words(case):
    for text in LEFT:
        with case.assertRaises(Left, msg=text):
            doubts.check_words(text)
    for text in FINE:
        doubts.check_words(text)


def test_columns(case):
    for text in [b"int x = __builtin_COLUMN();", b"f(__builtin_source_location());"]:
        with case.assertRaises(Left, msg=text):
            doubts.check_columns(text)
    doubts.check_columns(b"int x = __builtin_LINE(), my__builtin_COLUMN;")


def test_doubts_time(case):
    began = time.process_time()
    case.assertIsNone(doubts.LINE_DIRECTIVE.search(b"/* x */ " * 2_000 + b"y\n" + b" " * 100_000 + b"z"))
    case.assertLess(time.process_time() - began, 5)


def test_line_directives(case):
    for number, (text, wanted) in enumerate(
        [
            ("#line 1\n", True),
            ('  # 1 "x" 3\n', True),
            ("/* x */ %: line 4\n", True),
            ("#de\\\nfine line\n", False),
            ("#li\\\nne 4\n", True),
            ("x # 1\n", False),
        ]
    ):
        with tempfile.NamedTemporaryFile("w", suffix=".c") as file:
            file.write(text)
            file.flush()
            case.assertEqual(doubts.has_line_directive(file.name, number), wanted, text)


def test_known(case):
    case.assertEqual((KNOWN["snprintf"].index, KNOWN["snprintf"].parameters), (2, 3))
    case.assertEqual((KNOWN["__snprintf_chk"].index, KNOWN["__snprintf_chk"].parameters), (4, 5))
    case.assertEqual((KNOWN["__printf_chk"].index, KNOWN["__vprintf_chk"].is_variadic), (1, False))
    case.assertTrue(KNOWN["syslog"].header.fullmatch("sys/syslog.h"))
    case.assertFalse(KNOWN["printf"].header.fullmatch("err.h"))


def test_translators(case):
    for name in ["_", "N_", "gettext", "dcgettext", "ngettext", "dcngettext", "libintl_dgettext", "rpl_gettext"]:
        case.assertTrue(GETTEXT.fullmatch(name), name)
    case.assertFalse(GETTEXT.fullmatch("printf"))


Tests = tests_of(globals())
