"""Tries fmtcanon-replace: programs that are compiled and run before and after, and files that it must leave.

It needs libclang. test_replace.py tries what the command says without it; the parts that need no compiler are in
tests/commands/replace/test_replace_parts.py.
"""

import json
import os
import resource
import shlex
import subprocess

from tests.commands.tool import Tool
from tests.frame.cases import tests_of
from tests.frame.harness import TIMEOUT, TOP, examples

SCRIPT = TOP / "examples/replace_format.py"
FOLDER = TOP / "tests/rewrites"
OLD, NEW = "%i\\n", "%d\\n"
# Programs in tests/rewrites/ that print something else if the place is replaced, and what is said of them. A second row
# of
# a file has other words.
LEFT = [
    ("asm-label.c", [], "an asm names printf"),
    ("chosen-shadow.c", ["--function", "log:1"], "4: argument of log, which is no function"),
    ("comment-end.c", [], "7: a macro makes other text of it"),
    ("comment-even.c", [], "7: a macro makes other text of it"),
    ("escapes-charset.c", ["--flag=-fexec-charset=latin1"], "its compile command has -fexec-charset=latin1"),
    ("escapes-charset.c", ["--flag=-finput-charset=latin1"], "its compile command has -finput-charset=latin1"),
    ("format-parameter.c", [], "5: argument of printf, which is no function"),
    ("gcc-branch.c", [], "6: a macro makes other text of it"),
    ("gcc-label.c", [], "7: printf is declared in gcc-label.c, too"),
    ("gcc-parameter.c", [], "8: argument of printf, which is no function"),
    ("file-asm.c", [], "it has an asm at file scope"),
    ("has-include.c", [], "7: a macro makes other text of it"),
    ("kr-depth.c", [], "12: printf is declared in kr-depth.c, and not in the C library's header"),
    ("line-marker.c", [], "line-marker.c has #line or a line marker"),
    ("redefine-extname.c", [], "a pragma names printf"),
    ("reference.cpp", [], "6: argument of printf, which is no function"),
    ("register-specifier.c", [], "it names register_printf_specifier"),
    ("system-header.c", [], "4: warn is declared in system-header.h, and not in the C library's header"),
    ("twice.c", [], "it includes itself"),
    ("weak.c", [], "a pragma names printf"),
    ("fmt-library.cpp", [], "4: sprintf is declared in printf.h, and not in the C library's header"),
    ("spdlog.cpp", [], "3: warn is declared in spdlog.h, and not in the C library's header"),
]
# Programs in which the place is replaced although another text is printed then: nothing in the file shows it.
NOT_SEEN = [("function-key.c", ["--function", "once:1"]), ("other-file.c", []), ("wrap.c", [])]
# What a compiler needs to build a program.
LINKED = {
    "fmt-library.cpp": ["-lfmt"],
    "spdlog.cpp": ["-DSPDLOG_COMPILED_LIB", "-DSPDLOG_FMT_EXTERNAL", "-lspdlog", "-lfmt"],
}
# Bodies of main, or whole programs, in which the place is the format of a call of the C library; each with flags of the
# compiler and what is said, where that isn't that one place is replaced.
CALLS = {
    "plain": ('printf("%i\\n", 5);', [], None),
    "in a condition": ('if (printf("%i\\n", 5) < 0) return 1;', [], None),
    "of a fortified header": (
        'char out[9]; snprintf(out, sizeof out, "%i\\n", 5); fputs(out, stdout); printf("%i\\n", 6);',
        ["-O2", "-D_FORTIFY_SOURCE=2"],
        None,
    ),
    "of fprintf": ('fprintf(stdout, ("%i\\n"), 5);', [], None),
    "as an argument of a macro": ("#define TWICE(x) x; x\n", 'TWICE(printf("%i\\n", 5));', [], None),
}
SHOW = "#define SHOW(...) printf(__VA_ARGS__)\n"
# Sources of functions: what comes before the function, its body, the flags of the command, and the report of line 3.
SOURCES = [
    ("", 'printf("%i\\n", 1);', [], "replaced"),
    ("", 'printf("%i" "\\n", 1);', [], "replaced"),
    ("", 'printf("\\x25i\\12", 1);', [], "replaced"),
    ("", 'puts("%i\\n");', [], "argument of puts, not a known printf-like function"),
    ("", 'fprintf(stderr, "%s", "%i\\n");', [], "it isn't the format of fprintf"),
    ("", 'const char *p = "%i\\n"; (void)p;', [], "it isn't the whole argument of a call"),
    ("", 'printf(stdout ? "%i\\n" : "", 1);', [], "it isn't the whole argument of a call"),
    ("", 'printf("%i\\n" + 0, 1);', [], "it isn't the whole argument of a call"),
    ("", '/* printf("%i\\n", 1); */', [], ""),
    ('#define X "x"', 'printf(X "%i\\n", 1);', [], "it isn't the whole argument of a call"),
    ("#define STR(x) #x", 'puts(STR("%i\\n"));', [], "a macro makes other text of it"),
    ("#define TWO(f) printf(f, 1); puts(f)", 'TWO("%i\\n");', [], "argument of puts, not a known printf-like function"),
    ("#define TWO(f) printf(f, 1); printf(f, 2)", 'TWO("%i\\n");', [], "replaced"),
    ("#define TWO(f) printf(f, 1); (void)f[0]", 'TWO("%i\\n");', [], "a macro uses it for something else, too"),
    ("#define CHECK(f) _Static_assert(sizeof f > 1, f); printf(f, 1)", 'CHECK("%i\\n");', [], "replaced"),
    (
        "#include <stdlib.h>\n#define DIE(s, f) ((void)sizeof(struct { _Static_assert(s + 1, #f); int x; }), "
        "printf(f, s))",
        'DIE(EXIT_FAILURE, "%i\\n");',
        [],
        "replaced",
    ),
    (
        "char *gettext(const char *); ",
        'printf(gettext("%i\\n"), 1);',
        [],
        "a key for translators, argument of gettext",
    ),
    (
        "char *gettext(const char *);\n#define _(x) gettext(x)",
        'printf(_("%i\\n"), 1);',
        [],
        "a key for translators, argument of gettext",
    ),
    (
        "void say(const char *, ...) __attribute__((format(printf, 1, 2)));",
        'say("%i\\n", 1);',
        [],
        "argument of say, not a known printf-like function; try --attribute",
    ),
    (
        "void say(const char *, ...) __attribute__((format(printf, 1, 2)));",
        'say("%i\\n", 1);',
        ["--attribute"],
        "replaced",
    ),
    (
        "void say(int, const char *, ...) __attribute__((__format__(__printf__, 2, 3)));",
        'say(1, "%i\\n", 1);',
        ["--attribute"],
        "replaced",
    ),
    (
        "void say(const char *, ...) __attribute__((format(scanf, 1, 2)));",
        'say("%i\\n", 1);',
        ["--attribute"],
        "argument of say, not a known printf-like function",
    ),
    ("void say(int, const char *, ...);", 'say(1, "%i\\n", 1);', ["--function", "say:2"], "replaced"),
    ("", 'say("%i\\n", 1);', [], "argument of say, not a known printf-like function"),
    ("int printf(const char *, ...);", 'printf("%i\\n", 1);', [], "printf is declared in a.c, too"),
    (
        "static int f(void) { extern int printf(const char *, ...); return printf != 0; }",
        'printf("%i\\n", 1);',
        [],
        "printf is declared in a.c, too",
    ),
    ("#ifdef ON", 'printf("%i\\n", 1);\n}\nvoid h(void) {\n#endif', [], None),
    ("#ifdef ON", 'printf("%i\\n", 1);\n}\nvoid h(void) {\n#endif', ["--flag=-DON"], "replaced"),
    ("#line 7", 'printf("%i\\n", 1);', [], None),
    ("", 'printf("%d\\n", 1);', [], ""),
    ("", 'printf("%-i\\n", 1);', [], "it means the same, and is spelled otherwise"),
]
# Options with the formats, and what is said of a place that is OLD.
DIFFERENCES = [
    (["%05d", "%.5d"], "the two print different bytes for -1"),
    (["%d", "%ld"], "the types differ at argument 1: %d takes int and %ld takes long"),
    (
        ["%zu", "%lu"],
        "in ILP32 the types differ at argument 1: %zu takes unsigned int and %lu takes unsigned "
        "long; in LLP64 the types differ at argument 1: %zu takes unsigned long long and %lu takes "
        "unsigned long",
    ),
    (
        ["--model", "both", "%zd", "%d"],
        "in LP64 the types differ at argument 1: %zd takes long and %d takes int",
    ),
    (["--model", "ilp32", "%zx", "%u"], "the two print different bytes for 4294967295"),
    (["--model", "lp64", "%zu", "%lu"], "replaced"),
    (
        ["%'i", "%d"],
        "the flag ' groups digits in other locales; use --posix-locale if the program prints only in POSIX",
    ),
    (
        ["%i", "%'d"],
        "the flag ' groups digits in other locales; use --posix-locale if the program prints only in POSIX",
    ),
    (["%%'%i", "%%'%d"], "replaced"),
    (["--posix-locale", "%'i", "%d"], "replaced"),
    (["%i: %.2f\\n", "%d: %.2f\\n"], "replaced"),
    (["%.6lf of %5c", "%f of     %c"], "replaced"),
    (["%-08.*f|%+ p", "%-8.*f|%+p"], "replaced"),
    (["%i: %.2f", "%d: %.3f"], "the directives differ at argument 2: %.2f and %.3f"),
    (["%*d", "%d%d"], "the directives differ at argument 1: %*d and %d"),
    (["%f%05d", "%f%.5d"], "the two print different bytes for any, -1"),
    (["%f", "%Lf"], "the types differ at argument 1: %f takes double and %Lf takes long double"),
    (
        ["%jn%f", "%ln%f"],
        "in ILP32 the types differ at argument 1: %jn takes pointer to long long and %ln takes "
        "pointer to long; in LLP64 the types differ at argument 1: %jn takes pointer to long long and "
        "%ln takes pointer to long",
    ),
    (
        ["%'f", "%f"],
        "the flag ' groups digits in other locales; use --posix-locale if the program prints only in POSIX",
    ),
    (["--posix-locale", "%'f", "%f"], "replaced"),
]
WRONG = [
    (["%y", "%d", "a.c"], "OLD is refused 3 Unexpected at byte 1"),
    (["%f", "%1$f", "a.c"], "NEW is refused 6 Numbered at byte 2"),
    (["%*1$d", "%d", "a.c"], "OLD is refused 20 Mixed at byte 2"),
    (["%i", "%d"], "give files or folders, or the folder of a compile_commands.json"),
    (["-p", "nowhere", "%i", "%d"], "nowhere"),
]
# The seconds of the processor that a line of 400,000 bytes may take, and one literal of ten million.
LONG_LINE, SECONDS = 400_000, 20


REPLACED = "note: replaced [replaced]"


def said_of(place, why):
    """The line on a place that isn't replaced, or on a file that isn't judged, which has no number of a line."""
    if ":" not in place:
        return f"{place}:1: warning: not judged: {why} [skipped]\n"
    return f"{place}: {REPLACED if why == 'replaced' else f'warning: not replaced: {why} [skipped]'}\n"


def tool(folder, work, python, trials):
    found = Tool("replace", folder, work, python, SCRIPT)
    yield found
    # A test has one with these letters itself.
    left = [it.name for it in work.rglob(".fmtcanon-*") if "abcdefgh" not in it.name]
    trials.expect("stand-ins that are left", left, [])


def test_left(tool, trials):
    """Each program prints the same before and after, since the place is left."""
    for file in FOLDER.iterdir():
        tool.put(file.name, file.read_bytes())
    for name, words, said in LEFT:
        before = tool.printed(name, LINKED.get(name, []))
        trials.expect(f"{name} is compiled", before[0] != "not compiled" or before, True)
        old, new = [f"\\303\\251{it}" if name.startswith("escapes") else it for it in (OLD, NEW)]
        line, _, why = said.rpartition(": ") if said[0].isdigit() else ("", "", said)
        wanted = (1, said_of(f"{name}:{line}", why), "") if line else (2, said_of(name, why), "")
        found = tool.run_by_lines(*words, old, new, name)
        trials.expect(f"{name} {words}", (found[0], found[1].replace(f"{tool.work}/", ""), found[2]), wanted)
        trials.expect(f"{name} stays", (tool.work / name).read_bytes(), (FOLDER / name).read_bytes())
        trials.expect(f"{name}: what it prints", tool.printed(name, LINKED.get(name, [])), before)
    for name, words in NOT_SEEN:
        status, report, fault = tool.run_by_lines("--dry-run", *words, OLD, NEW, name)
        trials.expect(f"{name} isn't seen", (REPLACED in report, fault), (True, ""))
    tool.put("part.inc", 'printf("%i\\n", 1);\n')
    found = tool.run_by_lines(OLD, NEW, "part.inc", "fragment.c")
    said = said_of("part.inc", "a header, or a part of a file, isn't compiled by itself")
    trials.expect("a part of a file", found, (2, said, ""))


def test_calls(tool, trials):
    """Each program prints the same before and after, though its places are replaced."""
    rows = {name: (row if len(row) == 4 else ("", *row)) for name, row in CALLS.items()}
    for name, (front, body, flags, _) in rows.items():
        source = f"#include <stdio.h>\n{front}int main(void) {{ {body} return 0; }}\n"
        for compiler in ["gcc", "clang"]:
            tool.put("a.c", source)
            before = tool.printed("a.c", flags)
            database = [
                {"directory": str(tool.work), "file": "a.c", "arguments": [compiler, *flags, "-c", "a.c", "-o", "a.o"]}
            ]
            tool.put("compile_commands.json", json.dumps(database))
            found = tool.run_by_lines("-p", ".", OLD, NEW, "a.c")
            trials.expect(
                f"a call {name}, {compiler}",
                found,
                (0, said_of(f"a.c:{2 + front.count(chr(10))}", "replaced") * body.count("%i"), ""),
            )
            trials.expect(f"a call {name}: the source", (tool.work / "a.c").read_text(), source.replace("%i", "%d"))
            trials.expect(f"a call {name}: what it prints", tool.printed("a.c", flags), before)
    (tool.work / "compile_commands.json").unlink()


def test_sources(tool, trials):
    """What is said of one place, by what is around it; and a second run says nothing of what was replaced."""
    for front, body, words, said in SOURCES:
        lines = f"#include <stdio.h>\n{front}\nvoid g(void) {{ {body} }}\n"
        if "#ifdef" in front:
            lines = f"#include <stdio.h>\nvoid g(void) {{\n{front}\n{body}\n}}\n"
        tool.put("a.c", lines)
        status, report, fault = tool.run_by_lines(*words, OLD, NEW, "a.c")
        after = (tool.work / "a.c").read_text()
        if said == "replaced":
            trials.expect(f"{body} {words}", (status, set(report.split(" ", 1)[1:]), fault), (0, {f"{REPLACED}\n"}, ""))
            trials.expect(f"{body}: the source", after != lines, True)
            trials.expect(f"{body}: a second run", tool.run_by_lines(*words, OLD, NEW, "a.c"), (0, "", ""))
            continue
        trials.expect(f"{body}: the source", after, lines)
        is_file = ": warning: not judged: " in report
        trials.expect(f"{body} {words}", (status, fault), (0 if said == "" else 2 if is_file else 1, ""))
        is_said = f": warning: not replaced: {said}" in report or (said is None and ": warning: not " in report)
        trials.expect(f"{body} {words}: {report}", is_said if said != "" else report == "", True)


def test_differences(tool, trials):
    for words, said in DIFFERENCES:
        source = '#include <stdio.h>\nvoid g(void) { printf("' + words[-2] + '", 1); }\n'
        tool.put("a.c", source)
        wanted = (0 if said == "replaced" else 1, said_of("a.c:2", said), "")
        trials.expect(f"replace {words}", tool.run_by_lines(*words, "a.c"), wanted)


def test_commands(tool, trials):
    """Compile commands: relative names, several for one file, none, what is written, and a file that is given by a
    link.
    """
    tool.put("src/inc/x.h", "#include <stdio.h>\n")
    tool.put(
        "src/a.c",
        '#include "x.h"\n#ifdef A\nvoid f(void) { printf("%i\\n", 1); }\n#else\n'
        '#define printf(...) puts(#__VA_ARGS__)\nvoid f(void) { printf("%i\\n", 1); }\n#endif\n',
    )
    tool.put(
        "src/b.c",
        '#include "x.h"\n#ifdef A\n#undef A\n#define A(x) x\n#else\n#define A(x) puts(#x)\n#endif\n'
        'void f(void) { A(printf("%i\\n", 1)); }\n',
    )
    tool.put("src/none.c", 'int x = 1; // printf("%i\\n", 1);\nvoid f(void) { printf("%i\\n", 1); }\n')
    commands = []
    for name in ["a.c", "b.c"]:
        for flags in [["-DA"], []]:
            commands.append(
                {
                    "directory": str(tool.work / "src"),
                    "file": name,
                    "arguments": [
                        "ccache",
                        "cc",
                        *flags,
                        "-Iinc",
                        "-MD",
                        "-MF",
                        "x.d",
                        "-save-temps",
                        "-c",
                        "-o",
                        "x.o",
                        name,
                    ],
                }
            )
    tool.put("compile_commands.json", json.dumps(commands))
    places = [("src/a.c:3", "replaced"), *((it, "a macro makes other text of it") for it in ("src/a.c:6", "src/b.c:8"))]
    lines = [said_of(*it) for it in places]
    report = "".join([*lines, said_of("src/none.c", "compile_commands.json has no command for it")])
    trials.expect(
        "several commands", tool.run_by_lines("-p", ".", OLD, NEW, "src/a.c", "src/b.c", "src/none.c"), (2, report, "")
    )
    trials.expect("nothing else is written", sorted(os.listdir(tool.work / "src")), ["a.c", "b.c", "inc", "none.c"])
    status, report, fault = tool.run_by_lines("-p", ".", OLD, NEW)
    trials.expect(
        "all files of the database",
        (status, report.replace(f"{tool.work}/", ""), fault),
        (1, "".join(lines[1:]), ""),
    )
    tool.put(
        "compile_commands.json", json.dumps([{**commands[0], "arguments": ["cc", "-Wl,--wrap=printf", "-c", "a.c"]}])
    )
    tool.put("src/a.c", '#include <stdio.h>\nvoid f(void) { printf("%i\\n", 1); }\n')
    trials.expect(
        "a command that wraps",
        tool.run_by_lines("-p", ".", OLD, NEW, "src/a.c"),
        (2, said_of("src/a.c", "its compile command has -Wl,--wrap=printf"), ""),
    )
    (tool.work / "compile_commands.json").unlink()


PLAIN = '#include <stdio.h>\nint main(void) { return printf("%i\\n", 1) < 0; }\n'


def test_files(tool, trials):
    """Rights, links, names, and errors after which the command goes on."""
    file = tool.put("plain.c", PLAIN)
    (tool.work / "link.c").symlink_to("plain.c")
    trials.expect("a link", tool.run_by_lines(OLD, NEW, "link.c"), (0, said_of("link.c:2", "replaced"), ""))
    trials.expect("what it links to", ('"%d' in file.read_text(), (tool.work / "link.c").is_symlink()), (True, True))
    os.link(tool.put("hard.c", PLAIN), tool.work / "other.c")
    trials.expect(
        "a hard link",
        tool.run_by_lines(OLD, NEW, "hard.c"),
        (2, said_of("hard.c", "it has hard links, which would be torn apart"), ""),
    )
    tool.put("locked.c", PLAIN).chmod(0o444)
    said = said_of("locked.c", "it is read-only")
    trials.expect("a file that is read-only", tool.run_by_lines(OLD, NEW, "locked.c"), (2, said, ""))
    tool.put("mode.c", PLAIN).chmod(0o640)
    os.chown(tool.work / "mode.c", os.getuid(), os.getgid())
    trials.expect(
        "rights", (tool.run_by_lines(OLD, NEW, "mode.c")[0], (tool.work / "mode.c").stat().st_mode & 0o7777), (0, 0o640)
    )
    tool.put("again.c", PLAIN)
    found = tool.run_by_lines(OLD, NEW, "nothing.c", "again.c")
    said = said_of("again.c:2", "replaced")
    trials.expect("after an error", found, (2, said, "nothing.c: No such file or directory\n"))
    name = b"caf\xe9.c"
    with open(os.path.join(os.fsencode(tool.work), name), "w", encoding="ascii") as stream:
        stream.write(PLAIN)
    status, report, fault = tool.run_by_lines("--output", "json", OLD, NEW, os.fsdecode(name))
    found = json.loads(report or "{}")
    trials.expect(
        "a name that isn't UTF-8",
        (status, found.get("file"), found.get("kind"), fault),
        (0, os.fsdecode(name), "replaced", ""),
    )
    tool.put("wrong.c", f"{PLAIN}int x = ;\n")
    status, report, _ = tool.run_by_lines(OLD, NEW, "wrong.c")
    trials.expect(
        "a file with an error",
        (status, report.startswith("wrong.c:1: warning: not judged: libclang can't parse it: wrong.c:3: ")),
        (2, True),
    )
    tool.put("lost.c", f'#include "nowhere.h"\n{PLAIN}')
    status, report, _ = tool.run_by_lines(OLD, NEW, "lost.c")
    is_said = ": warning: not judged: its compiler can't preprocess it: " in report
    trials.expect("a header that isn't there", (status, is_said), (2, True))
    os.utime(tool.put("time.c", f"{PLAIN}const char *t = __TIMESTAMP__;\n"), (0, 0))
    status, report, _ = tool.run_by_lines(OLD, NEW, "time.c")
    trials.expect(
        "a file that has its own time",
        (status, report),
        (2, said_of("time.c", "its compiler reads it otherwise once literals are replaced")),
    )
    for source in [
        "const char *t = __DATE__ __TIME__, *f = __FILE__; int n = __LINE__ + __COUNTER__;\n",
        "#include <assert.h>\nvoid a(int x) { assert(x); }\n",
    ]:
        tool.put("line.c", source + PLAIN)
        trials.expect(f"a file with {source[:30]}", tool.run_by_lines(OLD, NEW, "line.c")[0], 0)


def test_sizes(tool, trials):
    """The time and the memory are linear in the length of a line and of a literal."""
    call = ' printf("%i" "\\n", 1 / 2) ;'
    for name, source, count in [
        (
            "a long line",
            f"#include <stdio.h>\nint main(void) {{ {call * (LONG_LINE // len(call))} }}\n",
            LONG_LINE // len(call),
        ),
        ("a long literal", PLAIN + 'const char *x = "' + "x" * 10_000_000 + '";\n', 1),
    ]:
        tool.put("a.c", source)
        before = resource.getrusage(resource.RUSAGE_CHILDREN)
        status, report, fault = tool.run_by_lines(OLD, NEW, "a.c")
        after = resource.getrusage(resource.RUSAGE_CHILDREN)
        trials.expect(name, (status, report.count(REPLACED), fault), (0, count, ""))
        trials.expect(f"{name} in {SECONDS} seconds of the processor", after.ru_utime - before.ru_utime < SECONDS, True)


TREE = {
    "tree/a.c": '#include <stdio.h>\nvoid f(void) { printf("%i\\n", 1); printf("%5c|", 1); }\n',
    "tree/in/b.c": '#include "b.h"\nvoid g(void) { printf("%-i\\n", 1);\n  puts("%i"); fprintf(stderr, "%d\\n'
    '" , 1); printf("%y", 1); }\n',
    "tree/in/b.h": '#include <stdio.h>\nstatic inline void h(void) { say("%f"); say("%f"); printf("%d" OWN, 1); }\n',
    "tree/notes": 'printf("%i\\n");\n',
}
LISTED = """\
"    %c|": 1 place
tree/a.c:2:42: note: "%5c|" [format]

"%d\\n": 3 places, 3 spellings
tree/a.c:2:23: note: "%i\\n" [format]
tree/in/b.c:2:23: note: "%-i\\n" [format]
tree/in/b.c:3:31: note: "%d\\n" [format]

"%f": 2 places
tree/in/b.h:2:34: note: "%f" [format]
tree/in/b.h:2:45: note: "%f" [format]

not judged: 2 places
tree/in/b.c:3:51: warning: not judged: refused 3 Unexpected at byte 1 of "%y" [unjudged]
tree/in/b.h:2:59: warning: not judged: the macro OWN is part of it [unjudged]
"""
FUNCTIONS = "printf:1: known, 5 places\nsay:1: not known, 2 places\nfprintf:2: known, 1 place\n"
# Files of pairs that can't be used, and what is said of them.
WRONG_PAIRS = [
    ("%i\n", "pairs:1: it isn't two formats"),
    ("%i\t%d\t%u\n", "pairs:1: it isn't two formats"),
    ('%i\t"\n', "pairs:1: it isn't two formats"),
    ("%i\t%d\n\n%i\t%u\n", "pairs:3: the old format has another new one before"),
    ("%i\t%d\n%y\t%d\n", 'OLD is refused 3 Unexpected at byte 1 of "%y"'),
]
WRONG_COMMANDS = ["", "{", "[1]", "null", '[{"directory": 5}]', "\0"]


def test_trees(tool, trials):
    """Folders, files of pairs, lists, unified diffs, and forms of output."""
    for name, text in TREE.items():
        tool.put(name, text)
    trials.expect("the list of a tree", tool.run("--list", "tree"), (0, LISTED, ""))
    trials.expect("the functions of a tree", tool.run_by_lines("--list-functions", "tree"), (0, FUNCTIONS, ""))
    trials.expect(
        "a function that is given",
        "say:1: known, 2 places" in tool.run_by_lines("--list-functions", "--function", "say:1", "tree")[1],
        True,
    )
    status, known, _ = tool.run_by_lines("--list-functions")
    trials.expect(
        "the functions that are known",
        (status, {"printf:1: known", "fprintf:2: known", "syslog:2: known"} <= set(known.splitlines())),
        (0, True),
    )
    found = [json.loads(line) for line in tool.run_by_lines("--list", "--output", "json", "tree/a.c")[1].splitlines()]
    trials.expect(
        "the list as JSON",
        [(one["kind"], one["line"], one["column"], one["format"], one["canonical"]) for one in found],
        [("format", 2, 42, "%5c|", "    %c|"), ("format", 2, 23, "%i\n", "%d\n")],
    )
    tool.put("pairs", "%i\\n\t%d\\n\n%5c|\t    %c|\n")
    for words in [["--diff"], ["--dry-run"]]:
        status, output, fault = tool.run(*words, "--pairs", "pairs", "tree")
        said = said_of("tree/a.c:2:23", "replaced") + said_of("tree/a.c:2:42", "replaced")
        said += said_of("tree/in/b.c:2:23", "it means the same, and is spelled otherwise")
        trials.expect(f"pairs, {words}", (status, fault if words == ["--diff"] else output), (1, said))
        trials.expect(f"a file after {words}", (tool.work / "tree/a.c").read_text(), TREE["tree/a.c"])
        if words == ["--diff"]:
            patch = output
    trials.expect(
        "a run with --output github",
        tool.run_by_lines("--output", "github", "--dry-run", OLD, NEW, "tree/a.c"),
        (0, "::notice file=tree/a.c,line=2,col=23,endColumn=29::replaced\n", ""),
    )
    found = [
        json.loads(line) for line in tool.run_by_lines("--output", "json", "--pairs", "pairs", "tree")[1].splitlines()
    ]
    wanted = [
        ("tree/a.c", 2, 23, "replaced", "note", "%i\n", "%d\n"),
        ("tree/a.c", 2, 42, "replaced", "note", "%5c|", "    %c|"),
        ("tree/in/b.c", 2, 23, "skipped", "warning", "%-i\n", None),
    ]
    trials.expect(
        "pairs as JSON",
        [(*(one[it] for it in ["file", "line", "column", "kind", "level", "old"]), one.get("new")) for one in found],
        wanted,
    )
    start = TREE["tree/a.c"].index('"%i')
    fix = {"start": start, "end": start + 6, "text": '"%d\\n"', "cast": None, "include": None, "verified": True}
    trials.expect("fixes as JSON", [found[0]["fix"], found[2]["fix"]], [fix, None])
    after = (tool.work / "tree/a.c").read_text()
    trials.expect("a file after pairs", after, TREE["tree/a.c"].replace("%i", "%d").replace("%5c", "    %c"))
    tool.put("tree/a.c", TREE["tree/a.c"])
    done = subprocess.run(
        ["patch", "-p0"], input=patch.encode(), cwd=tool.work, check=False, capture_output=True, timeout=TIMEOUT
    )
    trials.expect(
        "patch applies what --diff prints", (done.returncode, (tool.work / "tree/a.c").read_text()), (0, after)
    )
    for text, line in WRONG_PAIRS:
        tool.put("pairs", text)
        status, report, fault = tool.run_by_lines("--pairs", "pairs", "tree")
        trials.expect(
            f"a file of pairs {text!r}: {fault}",
            (status, report, line in fault, "Traceback" in fault),
            (2, "", True, False),
        )
    for text in WRONG_COMMANDS:
        tool.put("compile_commands.json", text)
        status, report, fault = tool.run_by_lines("-p", ".", OLD, NEW)
        trials.expect(
            f"compile commands {text!r}: {fault}",
            (status, report, "compile_commands.json" in fault, "Traceback" in fault),
            (2, "", True, False),
        )


def test_document(tool, trials):
    """Each command of that part of docs/REFACTORING.md prints what is shown below it."""
    script = f"fmtcanon-replace() {{ {shlex.join(tool.words)} \"$@\"; }}\n"
    for command, output in examples(TOP / "docs/REFACTORING.md", "Replacing a format"):
        done = subprocess.run(
            ["bash", "-c", script + command],
            cwd=tool.work,
            env=tool.environment,
            check=False,
            stdout=subprocess.PIPE,
            stderr=subprocess.STDOUT,
            timeout=TIMEOUT,
        )
        trials.expect(f"docs/REFACTORING.md: {command}", done.stdout.decode(), "".join(f"{line}\n" for line in output))


def test_wrong(tool, trials):
    tool.put("a.c", PLAIN)
    for words, line in WRONG:
        status, report, fault = tool.run_by_lines(*words)
        trials.expect(f"replace {words}", (status, report, line in fault or fault), (2, "", True))


Tests = tests_of(globals())
