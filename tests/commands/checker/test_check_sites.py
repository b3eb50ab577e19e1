"""Tests of where calls of functions with formats may be in preprocessed text, without libclang."""

from fmtcanon.compiling.call_sites import call_sites, declared_names, names_in
from fmtcanon.compiling.retargeting import own_spans

from tests.frame.cases import tests_of

# Declarations, and the names in them whose calls may have formats.
DECLARATIONS = [
    ("int say(const char *, ...);", {"say"}),
    ("int say(const char *, int);", set()),
    ("int (*say)(const char *, ...);", {"say"}),
    ("int (*say[2])(const char *, ...);", {"say"}),
    ("int (*choose(int which))(const char *, ...);", {"choose", "which"}),
    ("struct s { int x; void (*say)(int, const char *, ...); };", {"say"}),
    ("void say [[gnu::__format__(__printf__, 1, 2), gnu::cold]] (const char *, ...);", {"say"}),
    ("int say(const char *,\n# 3 \"x.h\" 3 4\n ...\n# 4 \"x.h\"\n);", {"say"}),
    ("typedef int say_t(const char *, ...); struct s { say_t *say; };", {"say_t", "say"}),
    ("typedef int (*say_t)(const char *, ...); typedef say_t more_t; more_t first, second;", None),
    ("using say_t = int (*)(const char *, ...); say_t say;", {"say"}),
    ("void say() __attribute__((format(printf, FIRST, 2)));", {"say"}),
    ("__attribute__((__format__(__printf__, FIRST, 2))) void say();", {"say"}),
    ("int say(std::vector<int> x = {}, ...);", {"say"}),
    ("auto say = other;", {"say"}),
    ("__typeof__(other(1)) *say, *more;", {"say", "more"}),
    ("template <class... T> void f(T... given) { g(given...); }", {"g"}),
    ("void f(void) { try { g(); } catch (...) { } }", set()),
    ("switch (x) { case 1 ... 2: break; }", set()),
]
FRONT = (
    '# 1 "a.c"\n# 1 "/usr/include/x.h" 1 3 4\nint say(const char *, ...);\nint in_x(void) { say("x"); }\n# 2 "a.c" 2\n'
    ''
)
# Texts of a file that includes a header, and what is before each parenthesis that may be of a call.
CALLS = [
    ('void f(void) { say("x"); }', ["say"]),
    ('void f(void) { g("x"); }', []),
    ('void f(void) { essay("x"); say_more("x"); }', []),
    ('void f(void) { printf("x"); __builtin_printf("x"); __printf_chk(1, "x"); }', ["printf", "printf", "chk"]),
    ('void f(void) { say\n# 3 "a.c" 3 4\n  ("x"); }', ["say"]),
    ('void f(void) { (*say)("x"); }', [")"]),
    ('void f(void) { (say)("x"); table[1]("x"); get()("x"); }', [")", "]", ")"]),
    ('void f(void) { same<int>("x"); }', [">"]),
    ('void f(void) { say("%d", say("x")); }', ["say", "say"]),
    ('void f(void) { p =\n# 3 "a.c" 3 4\n  0\n# 3 "a.c"\n  ; say("x"); }', ["say"]),
    ('void given_one(int); void f(void) { given(1, "x"); }', ["given"]),
    ('struct s { void operator()(const char *, ...); } g; void f() { g("x"); }', ["operator", ")", "f", "g"]),
]


def test_names(case):
    for text, wanted in DECLARATIONS:
        front = '# 1 "a.c"\n' + text
        found = declared_names(front, own_spans(front))
        if wanted is None:
            case.assertLessEqual({"say_t", "more_t", "first", "second"}, found, text)
        else:
            case.assertEqual(found, wanted, text)


def test_calls(case):
    for text, wanted in CALLS:
        text = FRONT + text
        spans = own_spans(text)
        sites = call_sites(text, spans, names_in(text, spans, ["given"]))
        case.assertEqual({text[it] for it in sites} - {"("}, set(), text)
        found = [word_before(text, it) for it in sites]
        case.assertEqual(found, wanted, text)


def word_before(text, at):
    """Returns the last word or character before an offset that isn't in a line of a marker."""
    lines = [it for it in text[:at].split("\n") if not it.startswith("# ")]
    before = "\n".join(lines).rstrip()
    start = len(before) - 1
    while before[start].isalpha() and before[start - 1].isalpha():
        start -= 1
    return before[start:]


Tests = tests_of(globals())
