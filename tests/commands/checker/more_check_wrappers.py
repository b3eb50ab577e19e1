"""Tries which functions fmtcanon-check takes for such as print, as they hand their formats on to one that does.

It needs libclang.
"""

import json
import time

from tests.commands.tool import Tool
from tests.frame.cases import tests_of

SAYS = "#include <stdio.h>\n#include <stdarg.h>\n#include <stddef.h>\n#include <syslog.h>\n#include <err.h>\n"
WRONG = "%d for a size_t: wrong size"
# Bodies of `void say(int n, const char *f, ...)`, and what is said of the function after its name; nothing if it isn't
# known to print.
BODIES = [
    ("vprintf(f, a);", "hands its format to vprintf at say.c:6"),
    ("vprintf((f), a);", "hands its format to vprintf at say.c:6"),
    ("vfprintf(stderr, (const char *)f, a);", "hands its format to vfprintf at say.c:6"),
    ("char b[9]; vsnprintf(b, sizeof b, f, a); puts(b);", "hands its format to vsnprintf at say.c:6"),
    ("vsyslog(n, f, a);", "hands its format to vsyslog at say.c:6"),
    ("if (n) vwarnx(f, a);", "hands its format to vwarnx at say.c:6"),
    ("va_list b; va_copy(b, a); vprintf(f, b); va_end(b);", "hands its format to vprintf at say.c:6"),
    ("vprintf(gettext(f), a);", "hands its format to vprintf at say.c:6"),
    ("f = gettext(f); vprintf(f, a);", "hands its format to vprintf at say.c:6"),
    ("vprintf(_(f), a);", "hands its format to vprintf at say.c:6"),
    ("vsay(f, a);", "hands its format to vsay at say.c:6"),
    ("vtold(n, a, f);", "hands its format to vtold at say.c:6"),
    # Another format than the parameter, or other arguments.
    ('char b[99]; snprintf(b, sizeof b, "%%d: %s", f); vprintf(b, a);', ""),
    ("vprintf(f + 1, a);", ""),
    ("f++; vprintf(f, a);", ""),
    ("f += n; vprintf(f, a);", ""),
    ("f = other(f); vprintf(f, a);", ""),
    ("change(&f); vprintf(f, a);", ""),
    ("n = va_arg(a, int); vprintf(f, a);", ""),
    ("for (; *f; f++) if (*f == '%') n += va_arg(a, int);", ""),
    ("vscanf(f, a);", ""),
    ("vown(f, a);", ""),
    ('vprintf("%d", a);', ""),
    ("puts(f);", ""),
]
FRONT = """\
const char *gettext(const char *), *_(const char *), *other(const char *);
void change(const char **);
static void vsay(const char *f, va_list a) { vprintf(f, a); }
void vtold(int n, va_list a, char const *f) __attribute__((format(printf, 3, 0)));
void vown(const char *f, va_list a) { for (; *f; f++) if (*f == '%') putchar(va_arg(a, int)); }
"""


def tool(folder, work, python, tools):
    """The command."""
    return Tool("check", folder, work, python)


def found_by(tool, *words):
    """The place and the message of each error."""
    status, output, fault = tool.run("--output", "json", *words)
    return [(it["file"], it["line"], it["message"]) for it in map(json.loads, output.splitlines())], fault


def test_bodies(tool, trials):
    """A function prints if it hands its format and its arguments on as they are."""
    for body, said in BODIES:
        function = f"void say(int n, const char *f, ...) {{ va_list a; va_start(a, f); {body} va_end(a); }}"
        call = 'void g(size_t n) { say(1, "%d", n); }'
        # The line of the function is the one after that of the headers.
        text = f"{SAYS}{FRONT}#line 6\n{function}\n{call}\n"
        tool.put("say.c", text)
        found, fault = found_by(tool, "say.c")
        listed = [message for _, _, message in found if message.startswith(WRONG)]
        is_said = [message.endswith(f"(say {said})") for message in listed]
        trials.expect(f"{body} {found} {fault}", is_said, [True] if said else [])


HEADER = f"""{SAYS}
struct to {{ int n; void (*error)(struct to *, const char *, ...); void (*warn)(struct to *, const char *, ...); }};
typedef int (*print)(FILE *, const char *, ...);
void dump(print to, FILE *file, size_t n);
void tell(int n, char *f, ...);
void vtell(int n, const char *f, va_list a);
"""
FILES = {
    "a.c": """\
static void out(struct to *, const char *, ...) __attribute__((format(printf, 2, 3)));
static void out(struct to *to, const char *f, ...) { va_list a; va_start(a, f); vfprintf(stderr, f, a); va_end(a); }
struct to all = {
    1, /* the number */
    /* and the function */ out,
};
void begin(struct to *to) { to->warn = out; }
static int own(FILE *file, const char *f, ...) { va_list a; va_start(a, f); return vfprintf(file, f, a); }
void use(void) { dump(own, stdout, 3); }
void vtell(int n, const char *f, va_list a) { vprintf(f, a); }
""",
    "b.c": "void tell(int n, char *f, ...) { va_list a; va_start(a, f); vtell(n, f, a); va_end(a); }\n",
    "c.c": """\
void g(struct to *to, size_t n) { to->error(to, "%d", n); }
void h(struct to *to, size_t n) { (*to->warn)(to, "%d", n); }
void i(size_t n) { tell(1, "%d", n); }
void dump(int (*to)(FILE *, const char *, ...), FILE *file, size_t n) { to(file, "%d", n); }
""",
}
SAID = ["error may be out at a.c:6", "warn may be out at a.c:8", "tell hands its format to vtell at b.c:2"]
SAID += ["to may be own at a.c:10"]


def test_files(tool, trials):
    """What is called in a file may be in another one: of the compile commands, or of the folder."""
    tool.put("all.h", HEADER)
    for name, text in FILES.items():
        tool.put(name, '#include "all.h"\n' + text)
    for title, words in [("a folder", ["."]), ("one file", ["c.c"]), ("the commands", ["-p", "."])]:
        for cache in [{}, {"XDG_CACHE_HOME": str(tool.work / "cache")}, {"XDG_CACHE_HOME": str(tool.work / "cache")}]:
            tool.put_commands(*(["gcc", "-c", it] for it in FILES))
            status, output, fault = tool.run("--output", "json", *words, **cache)
            found = [json.loads(it)["message"].rpartition(" (")[2] for it in output.splitlines()]
            trials.expect(f"{title}: {output} {fault}", (status, found), (1, [f"{it})" for it in SAID]))
    # A function that moves is said to be where it is.
    tool.put("b.c", "\n" + (tool.work / "b.c").read_text(encoding="utf-8"))
    _, output, _ = tool.run("-p", ".", XDG_CACHE_HOME=str(tool.work / "cache"))
    trials.expect(output, "tell hands its format to vtell at b.c:3" in output, True)


def test_fix(tool, trials):
    """Formats of such functions are written with --attribute if the unit defines them."""
    front = "#include <stdio.h>\n#include <stdarg.h>\n"
    own = "static void say(const char *f, ...) { va_list a; va_start(a, f); vprintf(f, a); va_end(a); }\n"
    tool.put("b.c", front + "void tell(const char *f, ...) { va_list a; va_start(a, f); vprintf(f, a); va_end(a); }\n")
    text = f'{front}void tell(const char *, ...);\n{own}void f(size_t n) {{ say("%lu", n); tell("%lu!", n); }}\n'
    tool.put("a.c", text)
    _, output, fault = tool.run("--diff", "a.c")
    why = "not written: argument of say, not a known printf-like function"
    trials.expect(f"without: {output} {fault}", (output, why in fault), ("", True))
    _, output, fault = tool.run("--fix", "--attribute", "a.c")
    fixed = (tool.work / "a.c").read_text(encoding="utf-8")
    trials.expect(f"{output} {fault}", fixed, text.replace('"%lu"', '"%zu"'))
    why = "argument of tell, which another file defines, and which isn't declared with the attribute format"
    trials.expect(f"{output} {fault}", why in output + fault, True)


def test_programs(tool, trials):
    """Programs in one folder have functions of one name: that with the same parameters is meant, and if one of several
    takes arguments by itself, none.
    """
    one = "void say(const char *f, ...) { va_list a; va_start(a, f); vprintf(f, a); va_end(a); }\n"
    two = "void say(int n, const char *f, ...) { va_list a; va_start(a, f); vprintf(f, a); va_end(a); }\n"
    own = (
        "void say(const char *f, ...) { va_list a; va_start(a, f); while (*f++) putchar(va_arg(a, int)); va_end(a); "
        "}\n"
    )
    calls = 'void f(size_t n) { say("%d", n); }\n', 'void f(size_t n) { say(1, "%d", n); }\n'
    tool.put("1.c", SAYS + one + calls[0])
    tool.put("2.c", SAYS + two + calls[1])
    tool.put("3.c", SAYS + "void say(int, const char *, ...);\n" + calls[1])
    found, fault = found_by(tool, "1.c", "2.c", "3.c")
    trials.expect(f"{found} {fault}", [it[:2] for it in found], [("1.c", 7), ("2.c", 7), ("3.c", 7)])
    tool.put("2.c", SAYS + own)
    tool.put("3.c", SAYS + "void say(const char *, ...);\n" + calls[0])
    found, fault = found_by(tool, "1.c", "2.c", "3.c")
    trials.expect(f"own: {found} {fault}", [it[:2] for it in found], [("1.c", 7)])


TAKING = """\
static int take(va_list a) { return va_arg(a, int); }
static int take_at(va_list *a) { return va_arg(*a, int); }
const char *gettext(const char *);
void print(const char *, va_list), say(const char *, ...);
int own(const char *, ...), lib(const char *, ...) __attribute__((format(printf, 1, 2)));
struct log { int (*say)(const char *, ...); };
typedef int callback(const char *, ...);
"""
# Bodies of `void msg(const char *f, ...)` that print, and that may take their arguments or print their text otherwise.
PRINTING = [
    "vprintf(f, a);",
    "if (f && *f && f[strlen(f) - 1] == '%') n++; vprintf(f, a);",
    "if (strchr(f, 'd')) puts(\"d\"); else vprintf(f, a);",
    "if (n) printf(f); vprintf(f, a);",
    "vprintf(f, a); va_end(a); va_start(a, f); vfprintf(stderr, f, a);",
    "(void)f; vprintf(f, a);",
]
OTHERWISE = [
    "if (take(a)) vprintf(f, a);",
    "if (take_at(&a)) vprintf(f, a);",
    "va_list *p = &a; n = va_arg(*p, int); vprintf(f, a);",
    "if (n) fputs(f, stdout); else vprintf(f, a);",
    "char b[99]; snprintf(b, sizeof b, f); vprintf(f, a); puts(b); *(char *)f = 0;",
    "const char *p = f; p++; puts(p); vprintf(f, a);",
    "char *p = strchr(f, 'd'); vprintf(f, a); puts(p);",
    "kept = f; vprintf(f, a);",
    "if (n) print(f, a); else vprintf(f, a);",
    'if (n) vprintf("%s", a); else vprintf(f, a);',
    "((char *)f)[0] = 'x'; vprintf(f, a);",
]


def test_evidence(tool, trials):
    """A function isn't one that prints if its list or its format goes anywhere but to functions that do."""
    for body in [*PRINTING, *OTHERWISE]:
        function = f"void msg(const char *f, ...) {{ va_list a; va_start(a, f); {body} va_end(a); }}"
        text = f"{SAYS}#include <string.h>\nint n; const char *kept;\n{TAKING}{function}\n"
        tool.put("a.c", f'{text}void g(size_t z) {{ msg("%d", z); }}\n')
        found, fault = found_by(tool, "a.c")
        listed = [it for it in found if it[2].startswith(WRONG)]
        trials.expect(f"{body} {found} {fault}", len(listed), int(body in PRINTING))


# What the calls of pointers after some declarations are said to be.
GIVING = [
    ("struct log a = { printf };", "a.say", True),
    ("struct log a = { printf }, b = { own };", "a.say", False),
    ("struct log a = { .say = own }, b = { .say = printf };", "a.say", False),
    ("struct log a = { printf }; void set(int (*f)(const char *, ...)) { a.say = f; }", "a.say", False),
    (
        "struct log a = { printf }; void set(int (*f)(const char *, ...)) { a.say = f; } void b(void) { set(lib); }",
        "a.say",
        True,
    ),
    ("struct log a = { printf }; void *find(void); void set(void) { a.say = find(); }", "a.say", False),
    ("struct log a = { 0 }; void set(void) { a.say = printf; a.say = NULL; }", "a.say", True),
    ("struct log a = { printf }; void fill(void *); void set(void) { fill(&a.say); }", "a.say", False),
    ("struct log a = { lib };", "a.say", True),
    ("static callback *a = printf; static callback *b = own;", "b", False),
    ("static callback *a = printf; static callback *b = own;", "a", True),
    ("static callback *a = printf; static callback *b = lib;", "b", True),
    ("extern callback *a; void set(struct log *b) { a = b->say; b->say = printf; }", "a", True),
    ("extern callback *a; void set(struct log *b) { a = b->say; b->say = printf; b->say = own; }", "a", False),
]


def test_given(tool, trials):
    """A pointer, a member or a typedef prints only if all that it is given does."""
    for declared, called, is_said in GIVING:
        text = f'{SAYS}{TAKING}{declared}\nvoid g(size_t z) {{ {called}("%d", z); }}\n'
        tool.put("a.c", text)
        found, fault = found_by(tool, "a.c")
        trials.expect(f"{declared} {called} {found} {fault}", bool(found), is_said)
    # The evidence may be in another file, also if nothing there has a list.
    tool.put("all.h", f"{SAYS}{TAKING}")
    tool.put("a.c", '#include "all.h"\nstruct log a = { printf };\nvoid g(size_t z) { a.say("%d", z); }\n')
    tool.put("b.c", '#include "all.h"\nvoid set(struct log *a) { a->say = own; }\n')
    found, fault = found_by(tool, "a.c", "b.c")
    trials.expect(f"{found} {fault}", found, [])
    tool.put("b.c", '#include "all.h"\nvoid set(struct log *a) { a->say = lib; }\n')
    found, fault = found_by(tool, "a.c", "b.c")
    trials.expect(f"{found} {fault}", len(found), 1)


def test_local(tool, trials):
    """A pointer in a function is the same on each platform, though the text before it isn't."""
    out = 'int (*out)(const char *, ...) = printf; out("%d", z);'
    # Each platform is parsed, and `time_t` makes the text before the pointer longer on some.
    chosen = "time_t before; int chosen = _Generic(0, int: 1, default: 2);"
    tool.put("a.c", f"{SAYS}#include <time.h>\n{chosen}\nvoid g(size_t z) {{ {out} }}\n")
    found, fault = found_by(tool, "a.c")
    trials.expect(f"{found} {fault}", [it[2].partition(" on ")[0] for it in found], [WRONG])


HANDED = "void msg(const char *f, ...) { va_list a; va_start(a, f); vprintf(f, a); va_end(a); }\n"
OWN = "void msg(const char *f, ...) { va_list a; va_start(a, f); print(f, a); va_end(a); }\n"
HELPED = "static void in(const char *f, va_list a) { vprintf(f, a); }\n" + OWN.replace("print(", "in(")
TAKES = OWN.replace("print(f, a)", "while (*f++) putchar(va_arg(a, int))")


def test_twins(tool, trials):
    """If a definition of a name that may be meant doesn't print, none does; what a unit defines itself is meant there.
    """
    calls = f'{SAYS}void msg(const char *, ...);\nvoid g(size_t z) {{ msg("%d", z); }}\n'
    for first, second, is_said in [
        (HANDED, "", True),
        (HELPED, "", True),
        (HANDED, HELPED, True),
        (HANDED, OWN, False),
        (HELPED, TAKES, False),
        (HANDED, OWN.replace("print(f, a);", "f = mine(f); vprintf(f, a);"), False),
    ]:
        front = f"{SAYS}void print(const char *, va_list);\nconst char *mine(const char *);\n"
        tool.put("a.c", front + first)
        tool.put("b.c", front + second)
        tool.put("c.c", calls)
        for words in (["."], ["c.c"]):
            found, fault = found_by(tool, *words)
            trials.expect(f"{first} {second} {words} {found} {fault}", bool(found), is_said)
    tool.put("a.c", front + HANDED)
    tool.put("b.c", front + OWN + 'void g(size_t z) { msg("%d", z); }\n')
    found, fault = found_by(tool, "a.c", "b.c")
    trials.expect(f"its own: {found} {fault}", found, [])
    text = front + OWN + 'void g(size_t z) { msg("%lu", z); }\n'
    tool.put("b.c", text)
    tool.run("--fix", "--attribute", "b.c")
    trials.expect("nothing is written", (tool.work / "b.c").read_text(encoding="utf-8"), text)


def test_static_names(tool, trials):
    """Static functions of one name in several files have nothing to do with each other."""
    front = f"{SAYS}void print(const char *, va_list);\n"
    outer = "void tell(const char *f, ...) { va_list a; va_start(a, f); in(f, a); va_end(a); }\n"
    tool.put("a.c", front + "static void in(const char *f, va_list a) { vprintf(f, a); }\n" + outer)
    other = "static void in(const char *f, va_list a) { print(f, a); }\n" + outer.replace("tell", "other")
    tool.put("b.c", front + other)
    calls = (
        'void tell(const char *, ...), other(const char *, ...);\n'
        'void g(size_t z) { tell("%d", z); other("%d", z); }\n'
    )
    tool.put("c.c", SAYS + calls)
    for words in (["."], ["c.c"]):
        found, fault = found_by(tool, *words)
        trials.expect(
            f"{found} {fault}", [it[2].rpartition(" (")[2] for it in found], ["tell hands its format to in at a.c:8)"]
        )


def test_summary(tool, trials):
    """All calls with literals of functions that aren't known are counted; an option is proposed for those alone that
    don't take their arguments themselves.
    """
    calls = "".join(f'one("%d", {it}); ' for it in range(12)) + 'two("%d", 1); three("%d", 1); four("%d", 1);'
    known = 'printf("%zu", z); ' * 4
    front = "void one(const char *, ...), two(const char *, ...), three(const char *, ...);\n"
    tool.put("a.c", f'{SAYS}{front}{TAKES.replace("msg", "four")}void g(size_t z) {{ {calls} {known} }}\n')
    _, _, fault = tool.run("a.c")
    said = fault.strip().partition("; ")[2]
    names = "12 calls of one (--function one:1), 2 calls of 2 others"
    own = "functions that take their arguments themselves get literals with %: 1 call of four"
    trials.expect(fault, said, f"functions that aren't known get literals with %: {names}; {own}")


def test_built_in(tool, trials):
    """gcc's functions that say whether an operation overflows hide nothing, though libclang doesn't know them."""
    calls = " + ".join(f"__builtin_{it}_overflow_p(c, 3, 0)" for it in ("add", "sub", "mul"))
    tool.put("a.c", f'{SAYS}int f(int c) {{ return {calls}; }}\nvoid g(size_t n) {{ printf("%d", n); }}\n')
    status, output, fault = tool.run("a.c")
    trials.expect(f"{output} {fault}", (status, "skipped" in fault, WRONG in output), (1, False, True))


def test_abroad(tool, trials):
    """Nothing is said of 64-bit Windows alone in a file that can't be there: it is counted."""
    text = '#include <stdio.h>\n{}void g(size_t z, long n) {{ printf("%lu", z); printf("%m"); printf("%d", n); }}\n'
    cases = [
        ("", (), 3, ""),
        ("#include <sys/ptrace.h>\n", (), 1, "2 more on 64-bit Windows alone"),
        ("#include <sys/ptrace.h>\n", ("--model", "llp64"), 2, ""),
        ("#include <sys/ptrace.h>\n#ifdef _WIN32\n#endif\n", (), 3, ""),
    ]
    for front, words, count, said in cases:
        tool.put("a.c", text.format(front))
        _, output, fault = tool.run("--output", "json", *words, "a.c")
        trials.expect(f"{front} {words} {output} {fault}", (len(output.splitlines()), said in fault), (count, True))


def test_many(tool, trials):
    """The time that the search takes grows as the text does."""
    times = []
    for count in (300, 2400):
        chain = "".join(
            f"void f{it}(const char *f, va_list a) {{ {f'f{it + 1}' if it < count else 'vprintf'}(f, a); }}\n"
            for it in reversed(range(count + 1))
        )
        given = "p = printf;" * (5 * count)
        tool.put("a.c", f"{SAYS}{chain}void all(void) {{ int (*p)(const char *, ...); {given} }}\n")
        start = time.monotonic()
        status, output, fault = tool.run("a.c")
        times.append(time.monotonic() - start)
        trials.expect(f"{output} {fault}", status, 0)
    trials.expect(str(times), times[1] < 12 * times[0], True)


Tests = tests_of(globals())
