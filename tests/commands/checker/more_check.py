"""Tries fmtcanon-check against compilers of the platforms: gcc for 64 and for 32 bits, also with a 64-bit time_t, and
gcc for 64-bit Windows.

It needs libclang and these compilers; the parts that need neither are in tests/commands/checker/test_check.py.
"""

import itertools
import json
import os
import re
import subprocess
from collections import Counter

from tests.commands.tool import Tool
from tests.commands.checker.typed_calls import try_typed_calls
from tests.commands.checker.typed_headers import try_typed_headers
from tests.frame.cases import tests_of
from tests.frame.harness import TIMEOUT, TOP, examples, page_examples

SOURCE = TOP / "tests/platforms/expressions.c"
LARGE = ["-D_TIME_BITS=64", "-D_FILE_OFFSET_BITS=64"]
WINDOWS = "x86_64-w64-mingw32-gcc"
# The compiler of each platform, and the package that has it.
COMPILERS = {
    "LP64": (["gcc", "-m64"], "gcc"),
    "ILP32": (["gcc", "-m32"], "gcc-multilib"),
    "ILP32 with 64-bit time_t": (["gcc", "-m32", *LARGE], "gcc-multilib"),
    "LLP64": ([WINDOWS], "gcc-mingw-w64-x86-64"),
}
# A line about which gcc says more: it has a type of its own for a bit-field of 40 bits.
BIT_FIELD = '  printf("%lu\\n", (p->b40));'
# What replaces the length modifiers of all integers.
MODIFIERS = ["", "hh", "l", "ll", "z", "t", "j"]
DIRECTIVE = re.compile(r"%([-+ #0*.\d]*)(?:hh|h|ll|l|j|z|t)?([diuoxX])")
# What isn't said of types: that an argument is missing has no type in gcc's words.
MESSAGE = re.compile(r"expects (?:argument of type|a matching)")
# The C library's functions without an attribute, with the index of the format, from 1, and that of what follows it.
FUNCTIONS = {"printf": (1, 2), "fprintf": (2, 3), "sprintf": (2, 3)}
# Typedefs that the C library of a platform hasn't, or which are others there.
OF_GLIBC = re.compile(
    r"__.*|.*(?:off|loff|blkcnt|suseconds|ino|dev|nlink|rlim|fsblkcnt|fsfilcnt)(?:64)?_t|(?:elf_)?greg_t"
)
# Typedefs that aren't of numbers or pointers, and one that another header defines as a macro.
NO_NUMBERS = re.compile(r"__jmp_buf|fpos_t|__size_t")
HEADERS = ["stdint.h", "inttypes.h", "limits.h", "stddef.h", "time.h", "wctype.h", "wchar.h", "sys/types.h"]
OF_WINDOWS = ["dirent.h", "sys/time.h"]
OF_LINUX = ["sys/resource.h", "sys/procfs.h", "sys/ucontext.h", "sys/vfs.h", "linux/types.h"]


def compiled(words, file, work):
    """The lines of a file for which a compiler says that the type of an argument is wrong, and its errors."""
    words = [*words, "-fsyntax-only", "-Wformat", "-fdiagnostics-format=json", str(file)]
    done = subprocess.run(
        words, cwd=work, env={**os.environ, "LC_ALL": "C"}, capture_output=True, text=True, check=False, timeout=TIMEOUT
    )
    lines, errors = Counter(), []
    for found in json.loads(next(it for it in done.stderr.split("\n") if it.startswith("["))):
        if "error" in found["kind"]:
            errors.append(found["message"])
        elif found.get("option") == "-Wformat=" and MESSAGE.search(found["message"]):
            lines[found["locations"][0]["caret"]["line"]] += 1
    return lines, errors


def windows_text(tool, name):
    """The text of a file as the command makes it for Windows, with the functions of the GNU C library."""
    script = (
        "import sys; from fmtcanon.compiling.platforms import PLATFORMS; from fmtcanon.compiling.retargeting import *; "
        "import subprocess; words = ['gcc', '-D_GNU_SOURCE', *write_headers(sys.argv[2]), '-E', sys.argv[1]]; "
        "text = subprocess.run(words, capture_output=True, text=True).stdout; "
        "sys.stdout.write(retargeted(text, PLATFORMS[3], {}))"
    )
    words = [tool.python, "-c", script, name, tool.work / "headers"]
    text = subprocess.run(
        words, cwd=tool.work, env=tool.environment, capture_output=True, text=True, check=True, timeout=TIMEOUT
    ).stdout
    for function, (index, first) in FUNCTIONS.items():
        attribute = rf"\1 __attribute__((format(gnu_printf, {index}, {first})))"
        text = re.sub(rf"(extern \w+ {function} \([^;]*?\.\.\.\))", attribute, text)
    text = re.sub(r"(format(?:__)?\s*\(\s*)(?:__)?printf(?:__)?(\s*,)", r"\1gnu_printf\2", text)
    return text.replace("_Float128", "__float128").replace("__int128", "long long")


def said_by(tool, name, platform):
    """What the compiler of a platform says of a file."""
    words, _ = COMPILERS[platform]
    if platform != "LLP64":
        return compiled([*words, "-D_GNU_SOURCE"], name, tool.work)
    file = tool.put(f"{name}.i", windows_text(tool, name))
    return compiled([*words, "-fno-builtin", "-xcpp-output"], file, tool.work)


def tool(folder, work, python, tools):
    """The command, where the compilers of the platforms are."""
    for words, package in COMPILERS.values():
        tools.need(words[0], package)
    return Tool("check", folder, work, python)


def test_compilers(tool, trials):
    """On each platform the command says of each line as much as its compiler, with each length modifier."""
    source = SOURCE.read_text(encoding="utf-8")
    texts = {"plain": source}
    texts.update((f"with-{it}", DIRECTIVE.sub(rf"%\g<1>{it}\2", source)) for it in MODIFIERS)
    for name, text in texts.items():
        tool.put(f"{name}.c", text)
    tool.put_commands(*(["gcc", "-D_GNU_SOURCE", "-c", f"{name}.c"] for name in texts))
    status, output, fault = tool.run("-p", ".", "--rank", "--composed", "--output", "json")
    trials.expect(f"expressions.c: {fault}", (status, "skipped" in fault), (1, False))
    found = [json.loads(line) for line in output.splitlines()]
    line = source.split("\n").index(BIT_FIELD) + 1
    for platform in COMPILERS:
        agreed = total = 0
        for name in texts:
            wrong = Counter(
                it["line"]
                for it in found
                if it["file"] == f"{name}.c" and "platforms" in it
                and it["platforms"][platform]["fit"] in ("size", "kind", "rank")
            )
            said, errors = said_by(tool, f"{name}.c", platform)
            trials.expect(f"{platform}: {name}.c is compiled", errors, [])
            agreed, total = agreed + sum((wrong & said).values()), total + sum(said.values())
            wrong.pop(line, None)
            said.pop(line, None)
            trials.expect(f"{platform}: {name}.c", (wrong - said, said - wrong), (Counter(), Counter()))
        print(f"fmtcanon-check says {agreed} of the {total} things that the compiler of {platform} says")


def generic(name, type, value=""):
    """An assertion that something has a type, and a value if one is given."""
    text = f'_Static_assert(_Generic({name}, {type}: 1, default: 0), "{name} is {type}");\n'
    return text + (f'_Static_assert({name.strip("+")} == {value}, "{name} is {value}");\n' if value else "")


def facts(tool, platform):
    """A program that states the table of a platform, of what its C library has."""
    script = (
        "import json, sys; from fmtcanon.compiling.platforms import PLATFORMS; "
        "print(json.dumps([[it.types, it.modifiers, it.constants, it.members] for it in PLATFORMS]))"
    )
    found = subprocess.run(
        [tool.python, "-c", script], env=tool.environment, capture_output=True, check=True, timeout=TIMEOUT
    ).stdout
    types, modifiers, constants, structs = json.loads(found)[list(COMPILERS).index(platform)]
    is_windows = platform == "LLP64"
    lines = [f"#include <{it}>\n" for it in HEADERS + (OF_WINDOWS if is_windows else OF_LINUX)]
    count = 0
    # Those of Linux are tried by typed_headers.py.
    for struct, members in structs.items() if is_windows else ():
        whole = struct if struct.endswith("_t") else f"struct {struct}"
        for name, type in members.items():
            count, lines = count + 1, [*lines, generic(f"(({whole} *)0)->{name}", type)]
    others = OF_GLIBC if is_windows else NO_NUMBERS
    for name, type in types.items():
        if not others.fullmatch(name):
            count, lines = count + 1, [*lines, generic(f"({name})0", type)]
    for name, value in constants.items():
        if name.endswith("_C"):
            text = generic(f"{name}(5)", generic_type(value), f"5{value}")
        elif not (is_windows and name.startswith("SSIZE")):
            text = generic(f"+{name}", generic_type(re.sub(r"^-?\d+| - 1$", "", value)), value)
            text = f"#ifdef {name}\n{text}#endif\n"
        else:
            continue
        count, lines = count + 1, [*lines, text]
    for end, modifier in modifiers.items():
        for letter in "diouxX":
            name, count = f"PRI{letter}{end}", count + 1
            lines.append(f'const char *of_{name} = "<{name}=" {name} ">{modifier}{letter}";\n')
    return "".join(lines), count


def generic_type(suffix):
    """The type of a constant with a suffix."""
    unsigned, long = "unsigned " if "U" in suffix else "", {0: "int", 1: "long", 2: "long long"}[suffix.count("L")]
    return unsigned + long


def test_tables(tool, trials):
    """The typedefs, the constants and the PRI macros of each platform are those of its headers."""
    for platform, (words, _) in COMPILERS.items():
        text, count = facts(tool, platform)
        file = tool.put("facts.c", text)
        done = subprocess.run(
            [*words, "-std=gnu11", "-D_GNU_SOURCE", "-D__USE_MINGW_ANSI_STDIO=1", "-S", "-o", "facts.s", str(file)],
            cwd=tool.work,
            capture_output=True,
            text=True,
            check=False,
            timeout=TIMEOUT,
        )
        trials.expect(f"{platform}: {count} facts", (done.stderr, done.returncode, count > 100), ("", 0, True))
        if done.returncode == 0:
            found = re.findall(r'"<(PRI\w+)=(\w+)>(\w+)(?:\\0)?"', (tool.work / "facts.s").read_text())
            wrong = [it for it in found if it[1] != it[2]]
            trials.expect(f"{platform}: PRI macros", (wrong, len(found) > 40), ([], True))


# Sources, words of a run, and what is said of each line: its number, its column or None, its kind, and a part of what
# is proposed.
SAYS = '#include <stdio.h>\n#include <stddef.h>\n#include <inttypes.h>\n#include <time.h>\n'
CALLS = [
    ('void f(size_t n) { printf("a %lu\\n", n); }', [], [(5, 30, "size", "%zu")]),
    ('void f(size_t n) { printf("a" /* % */ "b %-5lu", n); }', [], [(5, 42, "size", "%-5zu")]),
    (
        '#define LOG(f, ...) printf("log: " f "\\n", __VA_ARGS__)\nvoid f(size_t n) { LOG("%lu", n); }',
        [],
        [(6, 25, "size", "%zu")],
    ),
    ('#define SHOW(n) printf("%lu\\n", n)\nvoid f(size_t n) { SHOW(n); SHOW(n); }', [], [(5, 25, "size", "%zu")]),
    (
        '#define SHOW(n) printf("%lu\\n", n)\nvoid f(size_t n) { SHOW(n); SHOW(sizeof n); }',
        [],
        [(5, 25, "size", "%zu")],
    ),
    ('void f(size_t n) { printf("%lu", n); printf("%lu", n); }', [], [(5, 28, "size", "%zu"), (5, 46, "size", "%zu")]),
    ('void f(uint64_t n) { printf("%" PRIu64 " %lu", n, n); }', [], [(5, 42, "size", "PRIu64")]),
    ('void f(time_t n) { printf("%ld", n); }', [], [(5, 28, "size", "%jd with a cast to intmax_t")]),
    ('void f(size_t n) { printf("%*d", n, 1); }', [], [(5, 29, "size", "a cast to int")]),
    ('typedef __SIZE_TYPE__ mine;\nvoid f(mine n) { printf("%lu", n); }', [], [(6, 26, "size", "%zu")]),
    ('void f(void) { printf("%ld", (__PTRDIFF_TYPE__)1); }', [], [(5, 24, "size", "%td")]),
    ('void f(void) { printf("%zu %jd", (__SIZE_TYPE__)1, imaxdiv(1, 2).quot); }', [], []),
    ('void f(const char a[], char b[2], int n[3]) { printf("%s %s %p", a, b, n); }', [], []),
    ('void f(char *a, unsigned char *b) { printf("%hhn%hhn", a, b); }', [], []),
    ('void f(void) { printf("%d", UINT64_C(1024 * 2) > 5); }', [], []),
    ('void f(_Float64 n) { printf("%f", n); }', [], [(5, 30, "kind", None)]),
    ('void f(__int128 n) { printf("%lld", n); }', [], [(5, 30, "kind", None)]),
    ('typedef unsigned char dev_t; typedef int fpos64_t;\nvoid f(dev_t n) { printf("%d", n); }', [], []),
    ('void f(size_t n) { printf("%d"); }', [], [(5, 28, "kind", None)]),
    ('void f(size_t n) { printf("%s", n); }', [], [(5, 28, "kind", None)]),
    ('void f(size_t n) { printf("%lu", n); }', ["--model", "lp64"], []),
    ('void f(size_t n) { printf("%lu", n); }', ["--model", "ilp32"], []),
    ('void f(size_t n) { printf("%lu", n); }', ["--model", "ilp32", "--rank"], [(5, 28, "rank", "%zu")]),
    ('void f(int n) { printf("%u", n); }', [], []),
    ('void f(int n) { printf("%u", n); }', ["--sign"], [(5, 25, "sign", "%d")]),
    ('#define F "l" "u"\nvoid f(size_t n) { printf("%" F, n); }', [], []),
    ('#define F "l" "u"\nvoid f(size_t n) { printf("%" F, n); }', ["--composed"], [(6, 28, "composed", "%zu")]),
    ('void failf(void *p, const char *f, ...);\nvoid f(size_t n) { failf(0, "%lu", n); }', [], []),
    (
        'void failf(void *p, const char *f, ...);\nvoid f(size_t n) { failf(0, "%lu", n); }',
        ["--function", "failf:2:3"],
        [(6, 30, "size", "%zu")],
    ),
    (
        'void die(int, const char *, ...) __attribute__((__format__(__printf__, 2, 3)));\n'
        'void f(size_t n) { die(0, "%lu", n); }',
        [],
        [(6, 28, "size", "%zu")],
    ),
    ('typedef unsigned long counter_t;\nvoid f(counter_t n) { printf("%lu", n); }', [], []),
    (
        'typedef unsigned long counter_t;\nvoid f(counter_t n) { printf("%lu", n); }',
        ["--type", "counter_t=size_t"],
        [(6, 31, "size", "%zu")],
    ),
    (
        '#define HERE(n) _Static_assert(sizeof(long) == 8, ""); printf("%lu", n)\nvoid f(size_t n) { HERE(n); }',
        [],
        [(5, 64, "size", "%zu")],
    ),
    ('void f(long a[sizeof(long) == 8 ? 1 : -1]) { printf("%ld", a[0]); }', [], [(5, None, "lost", None)]),
    ('void f(int n) { printf("%y", n); }', [], [(5, None, "unjudged", None)]),
]


def test_calls(tool, trials):
    """What is said of a call: the line, the column, the kind and the proposal."""
    tool.put_commands(*(["gcc", "-c", f"call{at}.c"] for at in range(len(CALLS))))
    for at, (body, words, wanted) in enumerate(CALLS):
        tool.put(f"call{at}.c", f"{SAYS}{body}\n")
        status, output, fault = tool.run("-p", ".", "--output", "json", *words, f"call{at}.c")
        found = [json.loads(it) for it in output.splitlines()]
        said = [(it["line"], it["column"], it["kind"], it.get("proposal")) for it in found]
        is_right = len(said) == len(wanted) and all(
            one[:3] == other[:3] and (other[3] or "") in (one[3] or "") for one, other in zip(said, wanted)
        )
        trials.expect(f"{body} {words}: {said} {fault}", is_right, True)
        is_error = any(it[2] in ("size", "kind") for it in wanted)
        trials.expect(f"the status of {body} {words}", status, int(is_error))


# Functions of C++, and the lines and columns of what is found in them.
CXX = [
    ('void f(size_t n) { std::printf("%lu", n); }', [(7, 33)]),
    ('void f(std::vector<int> &v, const long &l) { printf("%lu %ld", v.size(), l); }', [(7, 54)]),
    (
        'struct o { void say(const char *, ...) __attribute__((format(printf, 2, 3))); };\n'
        'void f(o p) { p.say("%d", 1L); }',
        [(8, 22)],
    ),
    ('template <typename T> void f(T t) { printf("%lu", t); }\nvoid g() { f(1); }', []),
    ('void f(int64_t n) { auto g = [](int64_t m) { printf("%ld", m); }; g(n); }', [(7, 54)]),
]


def test_cxx(tool, trials):
    """C++ is judged as C is, and written with --fix."""
    front = "#include <cstdint>\n#include <cstdio>\n#include <string>\n#include <vector>\n#include <cinttypes>\n\n"
    for body, places in CXX:
        file = tool.put("a.cpp", f"{front}{body}\n")
        status, output, fault = tool.run("--output", "json", "a.cpp")
        found = [(it["line"], it["column"]) for it in map(json.loads, output.splitlines())]
        trials.expect(f"{body}: {output} {fault}", (found, status), (places, int(bool(places))))
    file = tool.put("a.cpp", f"{front}{CXX[0][0]}\n")
    tool.run("--fix", "a.cpp")
    trials.expect("--fix", file.read_text(encoding="utf-8"), f"{front}{CXX[0][0]}\n".replace("%lu", "%zu"))


def test_files(tool, trials):
    """A fault in a header is found once, with its line; a file that can't be judged is left, and sets the status."""
    tool.put("shown.h", SAYS + 'static inline void shown(size_t n) {\n  printf("%lu", n);\n}\n')
    for name in ("one.c", "two.c", "three.c"):
        tool.put(name, '#include "shown.h"\nvoid f(size_t n) { shown(n); }\n')
    tool.put_commands(*(["gcc", "-c", it] for it in ("one.c", "two.c", "three.c")))
    status, output, fault = tool.run("-p", ".", "--output", "json")
    places = [(it["file"], it["line"], it["column"]) for it in map(json.loads, output.splitlines())]
    trials.expect("a header in three units", places, [("shown.h", 6, None)])
    trials.expect("the summary", (status, fault), (1, "3 files, 3 formats, 3 arguments: 1 size\n"))
    for words, said in [
        (["gcc", "-m32", "-c", "one.c"], "it is compiled for ILP32, and not for LP64"),
        (["gcc", "-specs=x", "-c", "one.c"], "its compile command has -specs=x"),
        (["gcc", "-DNONE=(", "-include", "none.h", "-c", "one.c"], "its compiler can't preprocess it"),
    ]:
        tool.put_commands(words)
        status, output, _ = tool.run("-p", ".")
        trials.expect(f"{words}: {output}", (status, f": warning: not judged: {said}" in output), (2, True))
    status, output, fault = tool.run("-p", ".", "two.c")
    trials.expect("no command", (status, "has no command for it" in output), (2, True))
    trials.expect("no folder", tool.run("-p", "nowhere")[0], 2)
    nested = "void g(void) { int h(void) { return 1; } h(); }\n"
    tool.put("part.c", SAYS + 'void f(size_t n) { printf("%lu", n); }\n' + nested)
    status, output, fault = tool.run("part.c")
    said = "part.c:1: warning: not judged: libclang can't parse a part of it: part.c:6: "
    trials.expect("a nested function", (status, said in output, "part.c:5:28: error: %lu" in output), (2, True, True))


def test_outputs(tool, trials):
    """The forms of the output."""
    tool.put("a.c", SAYS + 'void f(size_t n) {\n\tprintf("%lu", n);\n}\n')
    message = "%lu for a size_t: wrong size on 64-bit Windows, wrong type on 32-bit systems; use %zu"
    text = f"a.c:6:10: error: {message} [size]\n"
    trials.expect("text", tool.run("a.c"), (1, text, "1 file, 1 format, 1 argument: 1 size\n"))
    line = f"::error file=a.c,line=6,col=10,endColumn=13::{message.replace('%', '%25')}\n"
    trials.expect("github", tool.run("--output", "github", "a.c")[1], line)
    found = json.loads(tool.run("--output", "json", "a.c")[1])
    types = [(name, it["is"]) for name, it in found["platforms"].items()]
    wanted = ["unsigned long", "unsigned int", "unsigned int", "unsigned long long"]
    trials.expect("json: the types", types, list(zip(COMPILERS, wanted)))
    said = found["models"], found["directive"], found["end_column"]
    trials.expect("json: the models", said, (["ilp32", "llp64"], "%lu", 13))
    start = (tool.work / "a.c").read_text(encoding="utf-8").index("%lu")
    fix = {"start": start, "end": start + 3, "text": "%zu", "cast": None, "include": None, "verified": True}
    trials.expect("json: the fix", found["fix"], fix)
    log = json.loads(tool.run("--output", "sarif", "a.c")[1])
    trials.expect("sarif", [it["ruleId"] for it in log["runs"][0]["results"]], ["size"])


# The quote before a literal with a directive.
LITERAL = re.compile(r'"(?=[^"\n]*%[^"\n]*")')


def assembler(tool, name):
    """What gcc makes of a file, without the string literals."""
    words = ["gcc", "-O2", "-w", "-D_GNU_SOURCE", "-S", "-o", "-", name]
    text = subprocess.run(words, cwd=tool.work, capture_output=True, text=True, check=True, timeout=TIMEOUT).stdout
    return re.sub(r'\.string\s+".*"', ".string", text)


# Sources that --fix leaves as they are, and why.
NOT_FIXED = [
    ('void f(size_t n) { printf("%ld", n); }', "its new text prints something else"),
    ('void f(size_t n, int c) { printf(c ? "%lu" : "%lu.", n); }', "it isn't the whole argument of a call"),
    ('void f(size_t n) { printf("%" PRIu64 " %lu", n, n); }', "it is only a part of a format"),
    ('#define SHOW(n) printf("%lu", n)\nvoid f(size_t n) { SHOW(n); SHOW(1ul); }', "another use of it would be wrong"),
    ('void f(time_t n) { printf("%ld", n); }', ""),
    ('static const char s[] = "%lu";\nvoid f(size_t n) { printf(s, n); }', "it isn't the whole argument of a call"),
    ('asm("");\nvoid f(size_t n) { printf("%lu", n); }', "it has an asm at file scope"),
]


def test_fix(tool, trials):
    """What --fix writes prints the same, and nothing is said of it any more; a second run writes nothing."""
    # Each literal is another, so that no two become one.
    numbers = itertools.count()
    source = LITERAL.sub(lambda _: f'"{next(numbers)}: ', SOURCE.read_text(encoding="utf-8"))
    tool.put("expressions.c", source)
    tool.put_commands(["gcc", "-D_GNU_SOURCE", "-c", "expressions.c"])
    before, said = assembler(tool, "expressions.c"), said_by(tool, "expressions.c", "ILP32")[0]
    status, diff, _ = tool.run("-p", ".", "--diff")
    trials.expect("--diff changes no file", (tool.work / "expressions.c").read_text(encoding="utf-8") == source, True)
    status, output, fault = tool.run("-p", ".", "--fix", "--output", "json")
    found = [json.loads(it) for it in output.splitlines()]
    fixed = [it for it in found if it["kind"] == "fixed"]
    print(f"fmtcanon-check --fix fixes {len(fixed)} of {len(found)} directives")
    text = (tool.work / "expressions.c").read_text(encoding="utf-8")
    trials.expect("--fix fixes most", (status, len(fixed) > 20, text != source), (1, True, True))
    changed = sum(one != other for one, other in zip(source.split("\n"), text.split("\n")))
    trials.expect("--diff shows the lines", len(re.findall(r"^\+(?!\+\+ )", diff, flags=re.MULTILINE)), changed)
    trials.expect("the assembler is the same", assembler(tool, "expressions.c") == before, True)
    lines = {it["line"] for it in fixed} - {it["line"] for it in found if it["kind"] != "fixed"}
    for platform in COMPILERS:
        after = said_by(tool, "expressions.c", platform)[0]
        trials.expect(f"{platform}: nothing is said of what is fixed", sorted(lines & set(after)), [])
    trials.expect("something was said before", len(lines & set(said)) > 10, True)
    again = tool.run("-p", ".", "--fix", "--output", "json")[1].splitlines()
    trials.expect("a second run", [it for it in again if '"kind": "fixed"' in it], [])
    after = (tool.work / "expressions.c").read_text(encoding="utf-8")
    trials.expect("a second run changes nothing", after == text, True)


def test_not_fixed(tool, trials):
    """Nothing else is written."""
    for body, why in NOT_FIXED:
        text = f"{SAYS}{body}\n"
        tool.put("left.c", text)
        status, output, fault = tool.run("--fix", "left.c")
        is_same = (tool.work / "left.c").read_text(encoding="utf-8") == text
        is_said = f"; not written: {why}" in output or not why
        trials.expect(f"{body}: {output} {fault}", (is_same, is_said), (True, True))
    # Two commands for one file: one makes the type another.
    body = "#ifdef WIDE\ntypedef size_t mine;\n#else\ntypedef unsigned long mine;\n#endif\n"
    body += 'void f(mine n) { printf("%lu", n); }\n'
    tool.put("left.c", SAYS + body)
    tool.put_commands(["gcc", "-DWIDE", "-c", "left.c"], ["gcc", "-c", "left.c"])
    status, output, fault = tool.run("-p", ".", "--fix")
    is_same = (tool.work / "left.c").read_text() == SAYS + body
    said = "another use of it would be wrong" in output
    trials.expect(f"two commands: {output} {fault}", (said, is_same), (True, True))
    tool.put_commands(["gcc", "-DWIDE", "-c", "left.c"], ["gcc", "-DWIDE", "-O2", "-c", "left.c"])
    status = tool.run("-p", ".", "--fix")[0]
    found = status, (tool.work / "left.c").read_text()
    trials.expect("two commands that agree", found, (0, SAYS + body.replace("%lu", "%zu")))


def test_visitor(tool, trials):
    """What a visitor raises comes out of the visit, and ends it."""
    tool.put("a.c", "int f(void) { return 1; }\n")
    script = (
        "from fmtcanon.compiling.compile_commands import default_command; import os; "
        "from fmtcanon.compiling.parsing import Parsed; seen = []\n"
        "def see(cursor):\n    seen.append(cursor)\n    raise ValueError('a fault')\n"
        "unit = Parsed(default_command(os.path.realpath('a.c'), []), b'int f(void) { return 1; }')\n"
        "try:\n    unit.visit(see)\nexcept ValueError as error:\n    print(error, len(seen))\n"
    )
    done = subprocess.run(
        [tool.python, "-c", script], cwd=tool.work, env=tool.environment, capture_output=True, text=True, check=False
    )
    trials.expect("an exception of a visitor", (done.stdout, done.stderr), ("a fault 1\n", ""))


# Lines of an old and a new file, and what is said of the second with its compile command.
CHANGED = [
    ('printf("%lu a", n);', 'printf("%zu a", n);', 'types differ, and the call fits: "%lu a" and "%zu a"'),
    (
        'printf("%d b", (int)m);',
        'printf("%ld b", (int)m);',
        "types differ at argument 1: %d takes int and %ld takes long",
    ),
    ('printf("%ld c", m);', 'printf("%jd c", (intmax_t)m);', 'types differ, and the call fits: "%ld c" and "%jd c"'),
    ('printf("%d d", 1);', 'printf("%" PRIu64 " d", u);', "types differ, and the call fits: "),
    ('printf("%d e", 1);', 'printf("%d%s e", 1);', "types differ at argument 2: no argument and %s takes string"),
    ('other("%d f", 1);', 'other("%ld f", 1);', "types differ at argument 1: %d takes int and %ld takes long"),
]


def test_diff(tool, trials):
    """With -p, fmtcanon-diff says of other types whether the new call fits."""
    front = f"{SAYS}int other(const char *, ...);\nvoid f(size_t n, long m, uint64_t u) {{\n"
    for name, lines in [("old.c", [it[0] for it in CHANGED]), ("new.c", [it[1] for it in CHANGED])]:
        tool.put(name, front + "".join(f"  {it}\n" for it in lines) + "}\n")
    tool.put_commands(["gcc", "-c", "new.c"])
    diff = Tool("diff", tool.folder, tool.work, tool.python)
    status, output, fault = diff.run("-p", ".", "old.c", "new.c")
    said = [it.split(": ", 2)[2] for it in output.splitlines()]
    for (old, new, wanted), line in zip(CHANGED, said):
        trials.expect(f"{old} {new}: {line} {fault}", line.startswith(wanted), True)
    trials.expect(
        "the status", (status, len(said), "6 taking different types, 3 of them fitting" in fault), (1, 6, True)
    )
    trials.expect("without -p", "and the call fits" in diff.run("old.c", "new.c")[1], False)
    for words in (["--git", "--cached"], ["--git", "HEAD~1", "HEAD"], ["--git", "HEAD~1..HEAD"]):
        status, _, fault = diff.run("-p", ".", *words)
        trials.expect(f"-p {words}", (status, "-p needs the work tree as the new one" in fault), (2, True))
    trials.expect("-p nowhere", diff.run("-p", "nowhere", "old.c", "new.c")[0], 2)


def test_types(tool, trials):
    """The types of arguments are those that the compilers see, in all sorts of expressions and in all headers."""
    compilers, jobs = {platform: words for platform, (words, _) in COMPILERS.items()}, min(4, os.cpu_count() or 1)
    try_typed_calls(tool, compilers, trials, jobs)
    try_typed_headers(tool, compilers, trials, jobs)


def test_nothing_is_written(tool, trials):
    """Columns are known, and no file is made in the folder of a source, which would change its time."""
    source = '#include <stdio.h>\nvoid f(unsigned long *p) { printf("%p %s: %lu\\n", p, "x", sizeof p); }\n'
    folder = tool.put("own/a.c", source).parent
    before = os.stat(folder).st_mtime_ns
    [found] = map(json.loads, tool.run("--output=json", "own/a.c")[1].splitlines())
    trials.expect("its columns", (found["line"], found["column"], found["end_column"]), (2, 43, 46))
    trials.expect("the folder", (os.listdir(folder), os.stat(folder).st_mtime_ns), (["a.c"], before))


def test_examples(tool, trials):
    """The examples of the page and of the manual page print what these show."""
    script = f"fmtcanon-check() {{ '{tool.python}' -m fmtcanon.checker \"$@\"; }}\n"
    of_page = list(page_examples(TOP / "man/fmtcanon-check.1"))
    for command, output in [*examples(TOP / "docs/PORTING.md"), *of_page]:
        if command == "cat names.c":
            tool.put("names.c", "\n".join(output) + "\n")
        done = subprocess.run(
            ["bash", "-c", script + command],
            cwd=tool.work,
            env=tool.environment,
            stdout=subprocess.PIPE,
            stderr=subprocess.STDOUT,
            check=False,
            timeout=TIMEOUT,
            encoding="utf-8",
        )
        trials.expect(f"an example: {command}", done.stdout.splitlines(), output)


Tests = tests_of(globals())
