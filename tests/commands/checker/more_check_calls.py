"""Tries which calls fmtcanon-check reads, counts, proposes for and fixes: against gcc for 32 bits, and by tables.

It needs libclang and the compilers of the platforms.
"""

import json
import os
import re
from collections import Counter

from tests.commands.checker.more_check import COMPILERS, SAYS, compiled, tool
from tests.commands.tool import Tool
from tests.frame.cases import tests_of

ILP32 = "ILP32"
# How many expressions are in each other, or names for each other: more than Python allows calls.
DEEP = 1500
# Declarations, and calls of size_t as %lu that gcc -m32 reports, each on a line of its own.
DECLARED = """\
#define ATTRIBUTE(n) __attribute__((format(__printf__, n, n+1)))
#define BRACKETS(a, b) __attribute__((__format__(__printf__, (a), (b))))
void plus(const char *f, ...) ATTRIBUTE(1);
void bracketed(int, const char *f, ...) BRACKETS(2, 3);
typedef void (*log_fn)(int, const char *, ...) __attribute__((format(printf, 2, 3)));
typedef void fn(const char *, ...) __attribute__((format(printf, 1, 2)));
struct o { void (*log)(const char *, ...) __attribute__((format(printf, 1, 2))); log_fn two; fn *three; fn *four[3]; };
extern log_fn say;
fn direct;
int (__attribute__((format(printf, 1, 2))) *pointer)(const char *, ...);
fn *get(void);
const char *tr(const char *key, const char *f) __attribute__((format_arg(2)));
[[gnu::format(printf, 1, 2)]] void before(const char *, ...);
void after [[gnu::__format__(__printf__, 1, 2), gnu::cold]] (const char *, ...);
"""
WAYS = [
    'plus("%lu", n);',
    'bracketed(1, "%lu", n);',
    'say(1, "%lu", n);',
    'direct("%lu", n);',
    'before("%lu", n);',
    'after("%lu", n);',
    'pointer("%lu", n);',
    'get()("%lu", n);',
    '((fn *)o)("%lu", n);',
    '(printf)("%lu", n);',
    '(&printf)("%lu", n);',
    '(*printf)("%lu", n);',
    '(*o->log)("%lu", n);',
    '(o->log)("%lu", n);',
    'o->two(1, "%lu", n);',
    'o->four[1]("%lu", n);',
    '(c ? o->log : o->three)("%lu", n);',
    '__builtin_printf("%lu", n);',
    '__builtin_snprintf(s, 3, "%lu", n);',
    'printf("x%lu" + 1, n);',
    'printf(1 + "x%lu", n);',
    'printf(&"x%lu"[1], n);',
    'printf("%%d %lu" + (1 + 1), n);',
    'printf(_Generic(c, int: "%lu", default: "%d"), n);',
    'printf(_Generic(n, size_t: "%lu", long: "%ld"), n);',
    'printf(_Generic((n), char *: "%s", default: "%lu"), n);',
    'printf(_Generic(s, const char *: "%s", char *: "%lu"), n);',
    'printf(_Generic((const char *)s, char *: "%s", char const *: "%lu"), n);',
    'printf(__builtin_choose_expr(1, "%lu", "%d"), n);',
    'printf(__builtin_choose_expr(sizeof(int) == 3, "%s", "%lu"), n);',
    'printf(__extension__ "%lu", n);',
    'printf(c ? "%lu" : "%zu", n);',
    'printf(c ? "%lu" : 0, n);',
    'printf(sizeof(n) == 77 ? "%s" : "%lu", n);',
    'printf(tr("%s", "%lu"), n);',
    'printf(u8"%lu", n);',
    'printf("%" PRIu64, n);',
    'printf("%" PRIu64 "", n);',
    'printf("x %" PRIu64 "\\n", n);',
]
# The same, which gcc doesn't report.
MORE = [
    'printf(({ int z = 0; (void) z; "%lu"; }), n);',
    'printf((c, "%lu"), n);',
    'printf((const char[]){"%lu"}, n);',
]
# Calls that gcc -m32 doesn't report, and nobody should.
RIGHT = [
    'plus("%d of %s", c, "x");',
    'printf(tr("%s", "%zu"), n);',
    'printf("%lu %zu" + 4, n);',
    'printf(&"%lu %zu"[4], n);',
    'printf(_Generic(n, size_t: "%zu", default: "%s"), n);',
    'printf(__builtin_choose_expr(1, "%zu", "%s"), n);',
    'printf(sizeof(n) == 77 ? "%s" : "%zu", n);',
    'printf(c ? "%zu" : (char *)0, n);',
    'printf("%" PRIu64, (uint64_t)n);',
]


def test_ways(tool, trials):
    """Every call that gcc for 32 bits reports is reported, and two more."""
    lines = [f"  {it}" for it in (*WAYS, *MORE, *RIGHT)]
    front = f"{SAYS}{DECLARED}void f(struct o *o, int c, size_t n, char *s) {{\n"
    tool.put("ways.c", front + "\n".join(lines) + "\n}\n")
    said, errors = compiled([*COMPILERS[ILP32][0], "-std=gnu11"], "ways.c", tool.work)
    first = front.count("\n") + 1
    wanted = Counter(range(first, first + len(WAYS)))
    trials.expect("gcc -m32 reports the calls", (said, errors), (wanted, []))
    wanted.update(range(first + len(WAYS), first + len(WAYS) + len(MORE)))
    status, output, fault = tool.run("--rank", "--output", "json", "ways.c")
    found = [json.loads(it) for it in output.splitlines()]
    wrong = Counter(it["line"] for it in found if it.get("platforms", {}).get(ILP32, {}).get("fit") in ("rank", "size"))
    for line in sorted(set(wanted) ^ set(wrong)):
        trials.expect(f"ways.c:{line}: {lines[line - first]}", wrong[line], wanted[line])
    trials.expect(f"ways.c: {fault}", (status, wrong == wanted, len(found)), (1, True, len(wanted)))
    unknown = [it["line"] for it in found if not it["column"]]
    trials.expect("each has a column except that of u8", unknown, [first + WAYS.index('printf(u8"%lu", n);')])
    for body in ('static const char s[] = "a%lu";', 'static const char *const s = "a%lu";'):
        tool.put("array.c", f"{SAYS}{body}\nvoid f(size_t n) {{ printf(s + 1, n); }}\n")
        found = [json.loads(it) for it in tool.run("--output", "json", "array.c")[1].splitlines()]
        trials.expect(body, [(it["line"], it["column"]) for it in found], [(5, body.index("%") + 1)])


# Sources of a unit, words of a run, the kinds of what is found, and a part of the last line.
COUNTED = [
    (
        'void f(const char *s, int n) { printf(s, n); printf("%d", n); }',
        [],
        [],
        "1 call with a format that wasn't read",
    ),
    (
        'void f(char *s, int n) { printf(n ? "%d" : s, n); fprintf(stderr, s); }',
        [],
        [],
        "2 calls with formats that weren't read",
    ),
    ("#include <stdarg.h>\nvoid f(const char *s, va_list a) { vprintf(s, a); }", [], [], "nothing found\n"),
    # Arguments that no format takes, as gcc and clang say by default.
    *(
        (
            f"void f(int n, char *s) {{ {call} }}",
            [],
            ["surplus"] if is_found else [],
            f"{'1 surplus' if is_found else 'found'}\n",
        )
        for call, is_found in [
            ('printf("%d", n, 2);', True),
            ('printf("x", n);', True),
            ('printf(n ? "%d" : "", n, n);', True),
            ('printf("%1$d", n, n);', True),
            ('printf(n ? "%d %d" : "%d", n, n);', False),
            ('printf("%2$d %1$d", n, n);', False),
            ('printf("%*d", n, n);', False),
        ]
    ),
    ('void f(int n, char *s) { printf(n ? "%d" : s, n, n); }', [], [], "1 call with a format that wasn't read\n"),
    ("void f(char *s) { printf(s); }", ["--unread"], ["unread"], "1 unread; 1 call with a format that wasn't read\n"),
    # %Lx is judged as %llx, and said to be undefined.
    (
        'void f(long long n) { printf("%#Lx %*Ld", n, 1, n); }',
        [],
        ["undefined"] * 2,
        "1 format, 3 arguments: 2 undefined\n",
    ),
    ('void f(int n) { printf("%Lx", n); }', [], ["undefined", "size"], "1 format, 1 argument: 1 size, 1 undefined\n"),
    ('void f(int n) { printf("%La", n); printf("%Lc", n); }', [], ["unjudged", "kind"], "1 kind, 1 unjudged\n"),
    # %m is the C library's, and said once for a file.
    ('void f(void) { printf("%m"); printf("a %m"); }', [], ["errno"], "2 formats, 0 arguments: 1 errno\n"),
    (
        'void say(const char *, ...) __attribute__((format(printf, 1, 2)));\nvoid f(void) { say("%m"); }',
        [],
        [],
        "1 format, 0 arguments: nothing found\n",
    ),
    # Question marks that the source keeps from being a trigraph.
    ('void f(size_t n) { printf("?\\?\\?(%d)?\\?=\\n", n); }', [], ["size"], "1 format, 1 argument: 1 size\n"),
    (
        'enum { N = 1 };\nvoid say(const char *, ...) __attribute__((format(printf, N, N + 1)));\n'
        'void f(long n) { say("%d", n); }',
        [],
        [],
        "1 call with a format that wasn't read",
    ),
    ('void f(void) { warn("%d", 1); printf("%d", 1); }', [], [], "1 call with a format that wasn't read"),
    (
        'void say(int, const char *, ...);\nvoid f(long n) { say(1, "%d", n); say(1, "%d", n); }',
        [],
        [],
        "2 calls of say (--function say:2)",
    ),
    # From ten calls on a function is always named; one alone in any case.
    (
        "void say(int, const char *, ...), tell(const char *, ...), ask(const char *, ...);\nvoid f(int n) { "
        + 'printf("%d", n); ' * 9
        + 'tell("%d", n); ask("%d", n); '
        + 'say(1, "%d", n); ' * 10
        + "}",
        [],
        [],
        "%: 10 calls of say (--function say:2), 2 calls of 2 others\n",
    ),
    (
        "void say(int, const char *, ...);\nvoid f(int n) { " + 'printf("%d", n); say(1, "%d", n); ' * 9 + "}",
        [],
        [],
        "nothing found; functions that aren't known get literals with %: 9 calls of say (--function say:2)\n",
    ),
    (
        'void say(int, const char *, ...);\nvoid f(long n) { say(1, "%d", n); }',
        ["--function", "say:2:3"],
        ["size"],
        "1 size\n",
    ),
    (
        'int read_it(const char *, const char *, ...) __attribute__((format(scanf, 2, 3)));\n'
        'void f(char *s, int *n) { read_it(s, "%d", n); }',
        [],
        [],
        "nothing found\n",
    ),
    (
        'struct o { void (*say)(const char *, ...); };\nvoid f(struct o *o) { o->say("%d", 1L); o->say("plain"); }',
        [],
        [],
        "1 call of say (--function say:1)",
    ),
    # A project's own functions with names of the C library.
    (
        'void warn(const char *topic, ...);\nvoid f(void) { warn("50%d", 0.5); }',
        [],
        [],
        "1 call of warn (--function warn:1)",
    ),
    ('void syslog(int, const char *, ...);\nvoid f(void) { syslog(1, "50%d", 0.5); }', [], [], "0 formats"),
    ('#include <err.h>\nvoid f(void) { warn("50%d", 0.5); }', [], ["kind"], "1 kind\n"),
    ('#include <syslog.h>\nvoid f(void) { syslog(1, "50%d", 0.5); }', [], ["kind"], "1 kind\n"),
]
# Sources without <stdio.h>, the kinds of what is found, and a part of the last line.
BARE = [
    ('int printf(const char *, ...);\nvoid f(void) { printf("%d", 1L); }', ["size"], "1 size\n"),
    ('int printf(int, const char *, ...);\nvoid f(void) { printf(1, "%d", 1L); }', [], "1 call of printf"),
    ('int printf();\nint main(void) { printf("%d\\n", 1); return 0; }', [], "1 format, 1 argument: nothing found\n"),
    ('int warnx();\nvoid f(void) { warnx("%d", 1); }', [], "1 call with a format that wasn't read"),
]


def test_counted(tool, trials):
    """What isn't read is counted, and functions that aren't known are named, also if nearly nothing was judged."""
    rows = [(f"{SAYS}{body}\n", words, kinds, said) for body, words, kinds, said in COUNTED]
    rows += [(f"{body}\n", [], kinds, said) for body, kinds, said in BARE]
    for text, words, kinds, said in rows:
        tool.put("counted.c", text)
        status, output, fault = tool.run("--output", "json", *words, "counted.c")
        found = [json.loads(it)["kind"] for it in output.splitlines()]
        is_error = any(it in ("size", "kind") for it in kinds)
        trials.expect(f"{text} {words}: {fault}", (found, status, said in fault), (kinds, int(is_error), True))


OWN = "#define OWN PRIi64\n"
CHOSEN = '#if __SIZEOF_LONG__ == 8\n# define {0} {1}\n#else\n# define {0} "li"\n#endif\n'
# Sources, and what is shown of the directives that are errors, and of those that only --composed adds.
MACROS = [
    ('void f(size_t n) { printf("%10" PRIi64 "a", n); }', ['%10" PRIi64 "'], []),
    (CHOSEN.format("OWN", "PRIi64") + 'void f(time_t n) { printf("%10"OWN"\\n", n); }', [], ['%10" PRIi64 "']),
    (CHOSEN.format("OWN", "PRIi64") + 'void f(time_t n) { printf("%10"OWN, n); }', [], ['%10" PRIi64 "']),
    ('#define FULL "%" PRIu64\nvoid f(size_t n) { printf("a " FULL, n); }', ['%" PRIu64 "'], []),
    ('#define LINE(f) "%" f "\\n"\nvoid f(size_t n) { printf(LINE(PRIu64), n); }', ['%" PRIu64 "'], []),
    (OWN + '#include "log.h"\nvoid f(size_t n) { LOG(n); }', ['%" PRIu64 "'], []),
    (CHOSEN.format("FULL", '"%" PRIu64') + 'void f(size_t n) { printf("a " FULL, n); }', [], ['%" PRIu64 "']),
    ('#include "full.h"\nvoid f(size_t n) { printf(FULL "\\n", n); }', [], ['%" PRIu64 "']),
    (OWN.replace("PRIi64", "PRIu64") + '#include "log.h"\nvoid f(size_t n) { LOG(n); }', [], ['%" PRIu64 "']),
]


def test_macros(tool, trials):
    """A directive whose end is the program's own macro is composed; one whose end is a macro of <inttypes.h> isn't."""
    tool.put("log.h", '#define LOG(n) printf("%" PRIu64, n)\n')
    tool.put("full.h", CHOSEN.format("FULL", '"%" PRIu64'))
    for body, errors, composed in MACROS:
        tool.put("macros.c", f"{SAYS}{body}\n")
        found = [json.loads(it) for it in tool.run("--composed", "--output", "json", "macros.c")[1].splitlines()]
        shown = [[it["directive"] for it in found if (it["kind"] == "composed") == chosen] for chosen in (False, True)]
        trials.expect(body, shown, [errors, composed])


# Arguments of %u that can't be negative, those that can, and what gcc reports of others.
UNSIGNED = ["a", "b", "o", "p->x", "5"]
SIGNED = ["c", "s", "i", "p->y", "-5", "e"]


def test_signs(tool, trials):
    """--sign reports what can go wrong alone."""
    lines = [f'  printf("%u", {it});' for it in (*UNSIGNED, *SIGNED)]
    lines += [f'  printf("%{it}", c);' for it in ("hhu", "hhx", "hu")]
    front = f"{SAYS}enum e {{ M = -1 }}; struct p {{ unsigned x : 4; int y : 4; }};\n"
    front += "void f(unsigned char a, uint16_t b, _Bool o, struct p *p, signed char c, short s, int i, enum e e) {\n"
    tool.put("signs.c", front + "\n".join(lines) + "\n}\n")
    found = [json.loads(it) for it in tool.run("--sign", "--output", "json", "signs.c")[1].splitlines()]
    first = front.count("\n") + 1
    wanted = list(range(first + len(UNSIGNED), first + len(UNSIGNED) + len(SIGNED)))
    trials.expect("--sign", [it["line"] for it in found], wanted)
    trials.expect("proposals of a sign", {it["proposal"] for it in found}, {"%d"})


# Expressions whose proposals are written and compiled, and the directives that they are given to.
EXPRESSIONS = ["z", "d", "m", "l", "w", "v", "q", "i", "u", "t", "p", "h", "sizeof z", "&i - &i"]
PARAMETERS = (
    "size_t z, ptrdiff_t d, intmax_t m, long l, unsigned long w, long long v, uint64_t q, int i, unsigned u, time_t t, "
    "pid_t p, uintptr_t h"
)
DIRECTIVES = [
    f"%{length}{letter}"
    for letter in "diuoxXc"
    for length in ("", "h", "l", "ll", "z", "t", "j")
    if letter != "c" or length in ("", "l")
]
CAST = re.compile(r"(?:(?P<directive>\S.*?) with )?a cast to (?P<cast>[\w ]+)")


def written(call, proposal):
    """A call with what is proposed for it."""
    directive, argument = call
    found = CAST.fullmatch(proposal)
    if not found:
        return f'  printf("{proposal}", {argument});'
    return f'  printf("{found["directive"] or directive}", ({found["cast"]})({argument}));'


def test_proposals(tool, trials):
    """Every proposal, written into its call, is right for the compilers of all platforms with <inttypes.h>, and differs
    from what was there.
    """
    calls = [(it, argument) for it in [*DIRECTIVES, "%C"] for argument in EXPRESSIONS]
    front = f"{SAYS}#include <wchar.h>\n#include <sys/types.h>\nvoid f({PARAMETERS}) {{\n"
    first = front.count("\n") + 1
    tool.put("before.c", front + "".join(f'  printf("{one}", {other});\n' for one, other in calls) + "}\n")
    found = [json.loads(it) for it in tool.run("--rank", "--sign", "--output", "json", "before.c")[1].splitlines()]
    made = {it["line"]: (calls[it["line"] - first], it["proposal"], it["kind"]) for it in found if it.get("proposal")}
    trials.expect("most have a proposal", len(made) > 500, True)
    for call, proposal, _ in made.values():
        trials.expect(f"{call} has another proposal than itself", proposal != call[0], True)
    lines = [written(call, proposal) for call, proposal, _ in made.values()]
    file = tool.put("after.c", front + "\n".join(lines) + "\n}\n")
    for platform, (words, _) in COMPILERS.items():
        said, errors = compiled([*words, "-D__USE_MINGW_ANSI_STDIO=1"], file, tool.work)
        trials.expect(f"{platform}: proposals compile", errors, [])
        wrong = [(*list(made.values())[it - first], lines[it - first]) for it in said]
        trials.expect(f"{platform}: {len(lines)} proposals", wrong, [])


LATIN = SAYS.encode() + b'void f(size_t n) { printf("\xe9 %lu\\n", n); }\n'


def test_written(tool, trials):
    """What --fix writes, and what it leaves."""
    tool.put("latin.c", "")
    (tool.work / "latin.c").write_bytes(LATIN)
    status, output, _ = tool.run("--fix", "latin.c")
    is_fixed = (tool.work / "latin.c").read_bytes() == LATIN.replace(b"%lu", b"%zu")
    trials.expect(f"a byte of Latin-1: {output}", (status, is_fixed), (0, True))
    own = (
        'void say(const char *f, ...) __attribute__((format(printf, 1, 2)));\nvoid f(void) { say("%lu", sizeof(int)); }'
    )
    for body, words, is_fixed, said in [
        (own, [], False, "; not written: argument of say, not a known printf-like function; try --attribute"),
        (own, ["--attribute"], True, "%lu is now %zu, for a size_t [fixed]"),
        (
            own.split("\n", maxsplit=1)[0].split(" __attribute__")[0] + ";\n" + own.split("\n")[1],
            ["--function", "say:1"],
            True,
            " [fixed]",
        ),
        ('void f(uint32_t n) { printf("%ld", n); }', [], False, "; not written: its new text prints something else"),
        ('void f(uint32_t n) { printf("%ld", n); }', ["--wrong"], True, "%ld is now %u, for a uint32_t [fixed]"),
        (
            'void f(size_t n, int i) { printf("%lu %ld", n, i); }',
            ["--wrong"],
            True,
            "%ld is now %d, for an int [fixed]",
        ),
        ('void f(unsigned long n) { printf("%zu", n); }', [], False, "; not written: its length modifier names a type"),
        ('void f(long n) { printf("%jd %td", n, n); }', [], False, "; not written: its length modifier names a type"),
        ('void f(size_t n) { printf("x%lu" + 1, n); }', [], False, "; not written: it is only a part of a format"),
    ]:
        text = f"{SAYS}{body}\n"
        tool.put("written.c", text)
        status, output, fault = tool.run("--fix", "--rank", *words, "written.c")
        is_same = (tool.work / "written.c").read_text(encoding="utf-8") == text
        trials.expect(f"{body} {words}: {output} {fault}", (is_same, said in output), (not is_fixed, True))


# Directives with their arguments, and what is said of the type.
NAMED = [
    ("%ld", "(a - b) / 60", "a time_t: wrong size on 32-bit systems with a 64-bit time_t and 64-bit Windows;"),
    ("%ld", "l + s->st_mtime", "a time_t: wrong size on 32-bit systems with a 64-bit time_t and 64-bit Windows;"),
    ("%ld", "s->st_size", "an off_t: wrong size on 32-bit systems with a 64-bit time_t and 64-bit Windows;"),
    ("%lu", "n * 2", "a size_t: wrong size on 64-bit Windows, wrong type on 32-bit systems;"),
    ("%u", "(uint32_t)l + (uint64_t)u", "a uint64_t: wrong size;"),
    ("%lu", "l ? n : 1", "a size_t: wrong size on 64-bit Windows, wrong type on 32-bit systems;"),
    ("%lu", "u / sizeof(int)", "an unsigned long: wrong size on 64-bit Windows, where it is an unsigned long long;"),
    ("%d", "l", "a long: wrong size on 64-bit Unix, wrong type on 32-bit systems and 64-bit Windows;"),
]


def test_names(tool, trials):
    """A type is named by the typedef of a part that has the same type everywhere, or it is said what it is elsewhere.
    """
    front = (
        f"{SAYS}#include <sys/stat.h>\nvoid f(time_t a, time_t b, struct stat *s, size_t n, long l, unsigned long u) "
        f"{{\n"
    )
    calls = "".join(f'printf("{directive}", {given});\n' for directive, given, _ in NAMED)
    tool.put("names.c", f"{front}{calls}}}\n")
    _, output, fault = tool.run("--output", "json", "names.c")
    messages = [json.loads(it)["message"] for it in output.splitlines()]
    found = [it.startswith(f"{directive} for {said}") for it, (directive, _, said) in zip(messages, NAMED)]
    trials.expect(f"{messages} {fault}", found, [True] * len(NAMED))


def test_headers_found_twice(tool, trials):
    """A header that is in the file's own folder and found by -I is read alike by the file's name and from its source.
    """
    tool.put("src/b.h", "#ifndef B\n#define B\n#include <stdio.h>\n\n\n\n#endif\n")
    tool.put("lib/u.h", '#include "b.h"\n')
    text = (
        '#include "b.h"\n#include "u.h"\nvoid f(size_t n, unsigned long m) {\n  printf("%lu\\n", n);\n  printf("%lu\\n'
        '", m); }\n'
    )
    tool.put("src/a.c", text)
    words = "--flag=-Isrc", "--flag=-Ilib", "src/a.c"
    for cache in [{}, {"XDG_CACHE_HOME": str(tool.work / "cache")}]:
        status, output, fault = tool.run(*words, **cache)
        trials.expect(
            f"{output} {fault}", (status, output.startswith("src/a.c:4:11: error: %lu for a size_t")), (1, True)
        )
    status, output, fault = tool.run("--fix", *words)
    fixed = (tool.work / "src/a.c").read_text(encoding="utf-8")
    trials.expect(f"{output} {fault}", (status, fixed), (0, text.replace("%lu", "%zu", 1)))


def test_troubles(tool, trials):
    """The trouble of one file is that file's: the others are judged."""
    tool.put("kr.c", 'int printf();\nint err();\nvoid f(void) { printf("%d", 1); err(1, "%d", 1); warn("%d", 1); }\n')
    tool.put("b.c", SAYS + 'void f(size_t n) { printf("%lu", n); }\n')
    tool.put("a.h", "int a;\n")
    os.mkfifo(tool.work / "fifo.c")
    status, output, fault = tool.run("kr.c", "none.c", "fifo.c", "a.h", "b.c")
    said = [it.split(": ", 1) for it in output.splitlines()]
    trials.expect(f"the names: {output} {fault}", [it[0] for it in said], ["none.c:1", "fifo.c:1", "a.h:1", "b.c:5:28"])
    levels = [it[1].partition(":")[0] for it in said]
    trials.expect("the levels", levels, ["warning", "warning", "note", "error"])
    trials.expect("the status", (status, tool.run("a.h", "kr.c")[0]), (2, 0))
    trials.expect("with --diff", tool.run("--diff", "a.h", "b.c")[0], 0)
    tool.put_commands(["gcc", "-c", "kr.c"])
    diff = Tool("diff", tool.folder, tool.work, tool.python)
    tool.put("old.c", (tool.work / "kr.c").read_text().replace('printf("%d"', 'printf("%ld"'))
    status, output, fault = diff.run("-p", ".", "old.c", "kr.c")
    trials.expect(f"fmtcanon-diff -p: {output} {fault}", (status, "Traceback" in fault), (0, False))


def test_crashes(tool, trials):
    """libclang evaluates a variable that is its own value until it crashes, at least in version 14."""
    crash = 'static const char *const s = s;\nvoid f(size_t n) { printf(s, n); }\n'
    tool.put("a.c", SAYS + crash)
    tool.put("b.c", SAYS + 'void f(size_t n) { printf("%lu", n); }\n')
    left = "a.c:1: warning: not judged: it can't be read: the process that read it ended by signal "
    more = [f"{number}.c" for number in range(8)]
    for name in more:
        tool.put(name, SAYS)
    for words in [["-j1", "a.c", "b.c"], ["-j2", "a.c", *more, "b.c"]]:
        status, output, fault = tool.run(*words)
        lines = output.splitlines()
        is_left = [it[: len(left)] for it in lines[:-1]] == [left]
        found = ("".join(lines[-1:]).startswith("b.c:5:28: error: "), is_left or len(lines) == 1, status)
        trials.expect(f"{words}: {output} {fault}", found, (True, True, 2 if is_left else 1))
    tool.put_commands(["gcc", "-c", "a.c"])
    tool.put("old.c", SAYS + crash.replace("= s", '= "%d"'))
    status, output, fault = Tool("diff", tool.folder, tool.work, tool.python).run("-p", ".", "old.c", "a.c")
    trials.expect(f"fmtcanon-diff -p: {output} {fault}", ("its processes" in fault, "literal" in fault), (False, True))


def test_deep(tool, trials):
    """An expression as deep as machines write them is read as every other."""
    names = "".join(f"static const char *const a{it + 1} = a{it};\n" for it in range(DEEP))
    for name, front, body, count in [
        ("choices", "", f"""printf({'n ? "%lu" : ' * DEEP}"%zu", n);""", DEEP),
        ("sums", "", f"""printf("%lu"{" + 0" * DEEP}, n);""", 1),
        ("names", f'static const char *const a0 = "%lu";\n{names}', f"printf(a{DEEP}, n);", 1),
        ("functions", "", f"""({"n ? printf : " * DEEP}printf)("%lu", n);""", 1),
    ]:
        tool.put("deep.c", f"{SAYS}{front}void f(size_t n) {{ {body} }}\n")
        status, output, fault = tool.run("deep.c")
        found = (status, output.count("%lu for a size_t"), fault.count("\n"))
        trials.expect(f"{name}: {output[:200]} {fault[:200]}", found, (1, count, 1))


def test_long(tool, trials):
    """Many calls on one line take about as long as on lines of their own."""
    times = {}
    for between in (" ", "\n"):
        calls = between.join('printf("%lu", n);' for _ in range(4000))
        tool.put("long.c", f"{SAYS}void f(size_t n) {{\n{calls}\n}}\n")
        before = os.times()
        _, output, _ = tool.run("--output", "json", "long.c")
        after = os.times()
        times[between] = after.children_user - before.children_user
        trials.expect("all are found", output.count("\n"), 4000)
    trials.expect(f"one line: {times}", times[" "] < 1.6 * times["\n"], True)


def test_literals(tool, trials):
    """A format of many literals takes about as long as one of a single literal."""
    times = {}
    for between in ("", '" "'):
        text, arguments = between.join(["%d"] * 1000), ", ".join(["n"] * 1000)
        tool.put("literals.c", f'{SAYS}void f(size_t n) {{\nprintf("{text}", {arguments});\n}}\n')
        before = os.times()
        _, output, _ = tool.run("--output", "json", "literals.c")
        after = os.times()
        times[between] = after.children_user - before.children_user
        trials.expect("all are found", output.count("\n"), 1000)
    trials.expect(f"literals: {times}", times['" "'] < 3 * times[""], True)


Tests = tests_of(globals())
