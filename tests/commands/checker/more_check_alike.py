"""Tries that fmtcanon-check says the same with one parse of a unit, if that is enough, as with one for each platform.

It needs libclang and gcc.
"""

import subprocess

from tests.commands.checker.more_check import CALLS, CXX, SAYS, SOURCE
from tests.commands.tool import Tool
from tests.frame.cases import tests_of
from tests.frame.harness import TIMEOUT

# The command, in which each unit is parsed for each platform; and one that counts those that aren't.
COMMAND = """import sys
from fmtcanon.checker import command
from fmtcanon.fitting import unit
def noted(*given, calls_on_all=unit.calls_on_all):
    found = calls_on_all(*given)
    if found:
        print("alike", file=sys.stderr)
    return found
unit.calls_on_all = {}
sys.exit(command.main())
"""
NONE_ALIKE, COUNTED = COMMAND.format("lambda *_: None"), COMMAND.format("noted")
# Bodies of functions with arguments of all sorts, each of them a unit.
BODIES = [
    'printf("%d %u %x %c %s %p %f %lld", 1, 2u, 3u, 4, "5", (void *)"6", 7.0, 8ll);',
    'long n = 1; printf("%ld %lx", n, (unsigned long)n);',
    'long n = 1; printf("%d %lu", n, n);',
    'printf("%lu", strlen("x"));',
    'printf("%ld %lu", strtol("1", 0, 10), strtoul("1", 0, 10));',
    'extern unsigned long own(int), *array; printf("%lu %lu %lu", own(1), array[1], *array);',
    'size_t n[2] = {1}; printf("%lu %lu %lu", n[1], *n, n[0] + 1ul);',
    'size_t n = 1; printf("%lu", n);',
    'size_t n = 1; printf("%d", (int)n);',
    'unsigned long n = sizeof n; printf("%lu %zu", n, n);',
    '__auto_type n = sizeof(int); printf("%lu", n);',
    '__typeof__(sizeof 1) n = 1; printf("%lu", n);',
    'wchar_t c = 1; printf("%d %lc %ls", c, c, &c);',
    'wchar_t c = 1; if (NULL) printf("%d", c);',
    'wchar_t c = 1, s[] = {1}; struct { wchar_t c; wint_t *p; } w = {0}; '
    'printf("%d %d %d %d", c + 1, s[0], w.c, *w.p);',
    'wchar_t c = 1; typedef wchar_t own_t; own_t d = c; int n = c; printf("%d %d %d %ld", d, n, (int)c, n ? 1l : d);',
    'wchar_t c = 1; __typeof__(c) d = c; __auto_type e = c; printf("%d %u", d, 1u); printf("%d", e);',
    'wint_t c = 1; wchar_t s[] = {1}; printf("%u %d %d", towlower(c), *wcschr(s, 1), (int)wcslen(s)); '
    'printf("%d", btowc(1));',
    'wchar_t c = 1; size_t n = 1; printf("%zu %ld %zu", n + c, c + 1l, c ? n : 1); printf("%d", c == 1);',
    'wchar_t c = 1; printf("%d %s %c %.*s", 1, "x", 2, 3, "y"); (void) c;',
    'wchar_t c = 1; enum { A = sizeof c } a = A; int n[sizeof c] = {0}; printf("%d %d %d %zu", A, a, n[c], sizeof c);',
    'printf("%d %s", _Generic(sizeof 1, unsigned long: 1, default: 1ll), (char *)NULL);',
    'printf("%d %ld", L\'x\', L\'y\');',
    'printf("%u %d", WEOF, WCHAR_MAX);',
    'printf("%ld %jd", imaxdiv(1, 2).quot, imaxdiv(1, 2).rem);',
    'struct timeval t = {0}; printf("%ld.%06ld", t.tv_sec, t.tv_usec);',
    'struct { long a; long b : 32; long c : 20; } s = {0}; printf("%ld %d %d", s.a, s.b, s.c);',
    'struct { long a; unsigned long b : 32; } s = {0}; printf("%ld %u", s.a, s.b);',
    'enum { SMALL = 1, BIG = 0x100000000 }; printf("%d %ld", SMALL, BIG);',
    'enum e { LARGE = 0xffffffff } e = LARGE; printf("%u %d", e, e);',
    'printf(_Generic(sizeof 1, unsigned: "%u", default: "%lu"), sizeof 1);',
    'printf(sizeof(long) == 8 ? "%ld" : "%d", 1);',
    'printf("%ld%d" + 3, 1);',
    'printf("%" PRId32 " %" PRIu8, (int32_t)1, (uint8_t)2);',
    'printf("%" PRId64 " %" PRIuMAX, (int64_t)1, (uintmax_t)2);',
    'printf("%d %ld", (int)LONG_MAX, LONG_MAX);',
    'printf("%s", L"x"); printf("%p", L"y");',
    'printf("%d %s"); printf("%y", 1); printf("%m");',
    'typedef long count_t; count_t n = 1; printf("%ld", n);',
    'register_t r = 1; printf("%ld", r);',
    'greg_t r = 1; printf("%lld", r); printf("%lld", r + 1);',
    'ucontext_t u; printf("%lld", u.uc_mcontext.gregs[0] + 1);',
    'struct user_fpregs_struct u = {0}; printf("%d", u.cwd + 1);',
    'printf("%hhn%hn%n%ln", (signed char *)0, (short *)0, (int *)0, (long *)0);',
    'printf("%d", 1 ? 1 : sizeof 1); printf("%ld", 2147483648); printf("%u", 4294967295);',
    'printf("%td", (char *)0 - (char *)0); printf("%d", (char *)0 > (char *)1);',
    'const char *f = "%lu"; printf(f, 1ul); static const char g[] = "%lu"; printf(g, 1ul);',
]
BODIES += [
    'size_t n = 1; uint64_t m = 2; printf("%lu %lu %zu %zd %llu", n, m, n, m, m);',
    'printf("%lu %zu %u %zu", sizeof(int), sizeof 1, sizeof n, _Alignof(int));',
    'time_t t = 1; printf("%ld %jd %lld", t, (intmax_t)t, t);',
    'off_t o = 1; ino_t i = 1; dev_t d = 1; printf("%ld %lu %lu %d", o, i, d, i);',
    'typedef uint64_t own_t; own_t n = 1, *p = &n, a[2] = {1}; printf("%lu %lu %lu %lu", n, *p, a[1], (own_t)1);',
    'struct { size_t n; uint64_t b : 40; uint64_t *p; } s = {0}; printf("%zu %lu %lu", s.n, s.b, *s.p);',
    'uint64_t n = 1; size_t m = 1; printf("%lu %lu %lu %lu %ld", n + 1, n * m, -n, m + n, n ? 1 : m);',
    'nlink_t n = 1; int_fast16_t f = 1; uint_fast32_t g = 1; printf("%lu %ld %lu", n, f, g);',
    'uint64_t n = 1; printf("a\\t%" PRIu64 "%%\\x41%" PRIxPTR "%s" PRId8, n, (uintptr_t)2, "");',
    'int64_t n = 1; printf("%" PRId64 "%d%" __PRI64_PREFIX "x", n, n, n);',
    '__SIZE_TYPE__ n = 1; __INT64_TYPE__ m = 1; printf("%lu %ld %zu", n, m, n);',
    'ssize_t n = 1; ptrdiff_t d = 1; intptr_t p = 1; printf("%ld %ld %ld %d", n, d, p, n);',
    'printf("%lu %lu", strlen("x"), strtoull("1", 0, 10)); printf("%lu", fread(0, 1, 1, stdin));',
    'typedef unsigned long ulong_t; ulong_t n = 1; printf("%lu %zu", n, n);',
    'size_t n = 1; __typeof__(n) m = 1; __auto_type o = n; printf("%zu %zu", m, o);',
    'size_t n[2] = {1}, *p = n; printf("%lu %lu", *(1 ? p : 0), 1[p]);',
    'size_t f(void), (*g)(void) = f; printf("%lu %lu", f(), g());',
    'size_t n = 1, m = 2; int i = 1; printf("%zu %lu %d %lx", n + 1, n * m - 1, (n - i) / 2, -n); printf("%lu", ~n);',
    'size_t n = 1; unsigned u = 1; long l = 1; '
    'printf("%zu %zu %zu %zu", n + u, n + l, n << u, n ? n : u); printf("%lu", n - 1ul);',
    'ssize_t n = 1; unsigned u = 1; short s = 1; printf("%zd %zd %zd %ld", n + s, n + u, n % 3, (n, n)); '
    'printf("%zd", n = 2);',
    'uint64_t n = 1; int64_t m = 1; size_t k = 1; printf("%lu %ld %lu %lu", n | 1, m & 3, n ^ m, n + k); '
    'printf("%d", n && m);',
    'size_t n = 1, *p = &n; printf("%zu %zu %zu %zu", *p + 1, p[0] - n, n++ + 1, sizeof n * 2 + strlen("x"));',
    'time_t a = 1, b = 2; printf("%ld %ld", a - b, (a - b) / 60); ptrdiff_t d = 1; printf("%td", d + 1);',
    'int a[2]; printf("%d %d", __builtin_types_compatible_p(__typeof__(a), __typeof__(&(a)[0])), a[1]);',
]
# The same in C++, where what is called may depend on a type.
CXX_BODIES = [
    'size_t n = 1; uint64_t m = 2; printf("%lu %lu %zu", n, m, n); std::printf("%lu", sizeof n);',
    'printf("%" PRIu64 " %zu", (uint64_t)1, static_cast<size_t>(2)); printf("%lu", size_t(1));',
    'std::string s; std::vector<size_t> v; printf("%s %zu %lu", s.c_str(), s.size(), v[0]);',
    'std::vector<int> v; printf("%d %zu", v[2], v.size());',
    'printf("%d", one(1)); printf("%d", one(sizeof(int)));',
    'size_t n = 1; printf("%f", chosen(n));',
    'size_t n = 1; printf("%d", (int)chosen(n));',
    'size_t n = 1; printf("%d", chosen(1u) != 0);',
    'size_t n = 1; printf("%d", unclear(n));',
    'uint64_t n = 1; printf("%d", unclear(n));',
    'size_t n = 1; auto x = chosen(n); printf("%f", x);',
    'size_t n = 1; auto x = unclear(n); printf("%d", x);',
    'size_t n = 1; printf("%d", (int)std::max(n, 1ul));',
    'uint64_t n = 1; printf("%d %d", std::min(1, 2), n == std::min(n, (uint64_t)2));',
    'std::pair<int, size_t> p; printf("%d %lu", p.first, p.second);',
    'printf("%d %d", same(1), (int)same(sizeof 1)); printf("%lu", same<size_t>(1));',
    'Result<size_t>::type x = 1; printf("%d", x);',
    'Sized<sizeof(long)> x; printf("%d", x.value); printf("%d", x.get());',
    'Logger log; log.say("%lu", sizeof 1); log.say(1, "%d", 1); log.say(sizeof 1, "%d", 1);',
    'Logger log; size_t n = 1; log.say(n, "%d", 1);',
    'std::map<std::string, size_t> m; for (const auto &it : m) printf("%s %lu", it.first.c_str(), it.second);',
    'auto f = [](size_t n) { printf("%lu", n); }; f(1); enum E : size_t { A }; printf("%f", chosen(A));',
]
CXX_FRONT = "".join(
    f"#include <{it}>\n" for it in ["algorithm", "cinttypes", "cstdio", "map", "string", "utility", "vector"]
) + """int chosen(unsigned int); double chosen(unsigned long);
int unclear(unsigned int); int unclear(unsigned long);
int one(size_t);
template <class T> T same(T value) { return value; }
struct Logger {
  void say(const char *, ...) __attribute__((format(printf, 2, 3)));
  void say(unsigned, const char *, ...) __attribute__((format(printf, 3, 4)));
  void say(unsigned long, const char *, ...) __attribute__((format(printf, 3, 4)));
};
"""
# What has templates of its own, that choose by types.
TEMPLATES = """template <class T> struct Result { typedef int type; };
template <> struct Result<unsigned int> { typedef long long type; };
template <int N> struct Sized { int value; int get(); };
template <> struct Sized<4> { long long value; long long get(); };
"""
FRONT = "#define _GNU_SOURCE\n" + SAYS + "".join(
    f"#include <{it}.h>\n"
    for it in "string stdlib wchar wctype limits sys/time sys/types ucontext sys/user".split()
)
OPTIONS = [[], ["--rank", "--sign", "--composed"], ["--model", "llp64"]]


def tool(folder, work, python):
    return Tool("check", folder, work, python)


def run(tool, script, words):
    done = subprocess.run(
        [tool.python, "-c", script, *words],
        cwd=tool.work,
        env=tool.environment,
        capture_output=True,
        text=True,
        check=False,
        timeout=5 * TIMEOUT,
    )
    return done.returncode, done.stdout, done.stderr


def compare(tool, trials, sources, words, least):
    """Tries that one parse says the same of sources as one for each platform, and is enough for some, but not for all.
    """
    for name, text in sources.items():
        tool.put(name, text)
    tool.put_commands(*(["g++" if name.endswith("pp") else "gcc", "-D_GNU_SOURCE", "-c", name] for name in sources))
    words = ["-p", ".", "--no-cache", "--output", "json", *words]
    wanted = run(tool, NONE_ALIKE, words)
    found = run(tool, COUNTED, [*words, "-j1"])
    said = found[0], found[1], found[2].replace("alike\n", "")
    trials.expect(f"{words}: what is said", said, wanted)
    alike = found[2].count("alike\n")
    is_tried = least < alike < len(sources), wanted[1].count("\n") > 20
    trials.expect(f"{words}: {alike} of {len(sources)} units are alike", is_tried, (True, True))


def test_one_parse(tool, trials):
    """What is said is the same, byte for byte, for calls of all sorts; many units need one parse alone."""
    sources = {f"body{at}.c": f"{FRONT}void f(void) {{ {it} }}\n" for at, it in enumerate(BODIES)}
    sources.update((f"call{at}.c", f"{SAYS}{body}\n") for at, (body, _, _) in enumerate(CALLS))
    sources["expressions.c"] = SOURCE.read_text(encoding="utf-8")
    for words in OPTIONS:
        compare(tool, trials, sources, words, 30)


def test_overloads(tool, trials):
    """The same of C++, where a type may choose what is called."""
    of_cxx = "".join(f"#include <{it}>\n" for it in ["cstdio", "vector", "cstdint"])
    sources = {f"cxx{at}.cpp": f"{of_cxx}{it}\n" for at, (it, _) in enumerate(CXX)}
    for at, it in enumerate(CXX_BODIES):
        front = CXX_FRONT + (TEMPLATES if "Result<" in it or "Sized<" in it else "")
        sources[f"chosen{at}.cpp"] = f"{front}void f() {{ {it} }}\n"
    compare(tool, trials, sources, OPTIONS[1], 5)


Tests = tests_of(globals())
