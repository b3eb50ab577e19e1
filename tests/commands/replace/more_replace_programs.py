"""Tries fmtcanon-replace on programs that print something else if a place is replaced, and on files, links and streams
that could be harmed.

It needs libclang, and uses the tool of more_replace.py.
"""

import json
import os
import re
import shutil
import signal
import subprocess
import tempfile
import time
from typing import Dict, NamedTuple, Sequence

from tests.commands.replace.more_replace import NEW, OLD, PLAIN, SCRIPT, tool
from tests.commands.tool import Tool
from tests.frame.cases import tests_of
from tests.frame.harness import TIMEOUT

# The seconds in which the command ends after a signal.
SOON = 2


class Program(NamedTuple):
    """A program of several files, the words of a run, and what is said, as a pattern. The files are in one
    compile_commands.json, with these flags.
    """

    name: str
    files: Dict[str, str]
    said: str
    flags: Sequence[str] = ()
    words: Sequence[str] = ("-p", ".", OLD, NEW)
    compiler: str = "gcc"
    # Whether the system can be expected to build it.
    is_built: bool = True


MAIN = "#include <stdio.h>\nint main(void) {{ {} return 0; }}\n"
MINE = "int mine(const char *f, ...) { return fputs(f, stdout); }\n"
SHORT = (
    '#define LOG(f, ...) do { _Static_assert(sizeof(f) <= 64, "a message has 64 bytes"); printf(f, __VA_ARGS__); } '
    'while (0)\n'
)
DIGITS = "0123456789" * 5 + "012345678"
# The files of a program with a part that another file includes, too.
PARTS = {
    "part.c": '#include <stdio.h>\nvoid part(void) { printf("%i\\n", 1); }\n',
    "all.c": "#include <stdio.h>\n#define printf(...) puts(#__VA_ARGS__)\n#define part part2\n"
    '#include "part.c"\nint main(void) { part2(); return 0; }\n',
}
LEFT = [
    Program(
        "a file that another unit includes",
        PARTS,
        r"part\.c:1: warning: not judged: all\.c includes it, too \[skipped\]\n",
    ),
    Program(
        "a file that another unit includes, of a few files",
        PARTS,
        r"part\.c:1: warning: not judged: all\.c includes it, too \[skipped\]\n",
        words=("-p", ".", OLD, NEW, "part.c"),
    ),
    Program(
        "another data model",
        {"c.c": '#include <stdio.h>\nint main(void) { return printf("%jd %d\\n", 5000000000, 7) < 0; }\n'},
        r"c\.c:1: warning: not judged: it is compiled for ILP32, which --model leaves out \[skipped\]\n",
        ["-m32"],
        ("-p", ".", "--model", "lp64", "%jd %d\\n", "%ld %d\\n"),
        is_built=False,
    ),
    Program(
        "a data model by another word",
        {"c.c": PLAIN},
        r"c\.c:1: warning: not judged: it is compiled for LP64, which --model leaves out \[skipped\]\n",
        words=("-p", ".", "--model", "ilp32", OLD, NEW),
    ),
    Program(
        "a static assertion on the length",
        {"log.c": "#include <stdio.h>\n" + SHORT + f'int main(void) {{ LOG("{DIGITS}%i\\n", 1); return 0; }}\n'},
        r"log\.c:1: warning: not judged: its compiler rejects the result: log\.c:2:.*a message has 64 bytes.* "
        r"\[skipped\]\n",
        words=("-p", ".", f"{DIGITS}%i\\n", f"{DIGITS}%.1d\\n"),
    ),
    Program(
        "a warning that is an error",
        {"u.c": MAIN.format('printf("%u\\n", 1u);')},
        r"u\.c:1: warning: not judged: its compiler rejects the result: u\.c:2:.*'?\+'? flag used with .*%u.* "
        r"\[skipped\]\n",
        ["-Wall", "-Werror"],
        ("-p", ".", "%u\\n", "%+u\\n"),
    ),
    Program(
        "a conversion that another file defines",
        {
            "a.c": '#include <stdio.h>\nvoid a(void) { printf("%i\\n", 7); }\n',
            "register.c": "#include <printf.h>\n#include <stdio.h>\nvoid a(void);\n"
            "static int shown(FILE *out, const struct printf_info *i, const void *const *a)"
            ' { (void)i; (void)a; return fprintf(out, "<seven>"); }\n'
            "static int sized(const struct printf_info *i, size_t n, int *t, int *s)"
            " { (void)i; (void)s; if (n) *t = PA_INT; return 1; }\n"
            "int main(void) { register_printf_specifier('i', shown, sized); a(); return 0; }\n",
        },
        r"a\.c:1: warning: not judged: register\.c names register_printf_specifier \[skipped\]\n",
    ),
    Program(
        "static_assert as a name",
        {
            "n.c": "#include <stdio.h>\nstruct { const char *static_assert; } c;\n"
            "#define LOG(f, n) (printf(f, n), c.static_assert = (f))\n"
            'int main(void) { LOG("%i\\n", 1); fputs(c.static_assert, stdout); return 0; }\n'
        },
        r"n\.c:4: warning: not replaced: a macro uses it for something else, too \[skipped\]\n",
        ["-std=c17"],
    ),
    Program(
        "a label from a macro round the header",
        {
            "label.c": '#define printf(...) printf(__VA_ARGS__) __asm__("mine")\n#include <stdio.h>\n#undef printf\n'
            + MINE
            + 'int main(void) { printf("%i\\n", 1); return 0; }\n'
        },
        r"label\.c:5: warning: not replaced: printf has an asm label \[skipped\]\n",
    ),
    Program(
        "an alias from a macro round the header",
        {
            "alias.c": '#define printf(...) printf(__VA_ARGS__) __attribute__((alias("mine")))\n'
            "#include <stdio.h>\n#undef printf\n" + MINE + 'int main(void) { printf("%i\\n", 1); return 0; }\n'
        },
        r"alias\.c:5: warning: not replaced: printf has the attribute alias \[skipped\]\n",
    ),
    Program(
        "a function with gcc's name of the language",
        {
            "c.c": '#include <stdio.h>\nint main(void) { return gnu_printf("%i\\n") < 0; }\n',
            "d.c": "#include <stdio.h>\nint gnu_printf(const char *f) { return fputs(f, stdout); }\n",
        },
        r"c\.c:2: warning: not replaced: (argument of gnu_printf, not a known printf-like function|the function "
        r"gnu_printf isn't declared) \[skipped\]\n",
    ),
    Program(
        "an assembler that reads the file",
        {
            "in.c": "#include <stdio.h>\nextern char text[], end[];\nint main(void) {\n"
            '  __asm__(".pushsection .data\\n.globl text\\ntext: .incbin \\"in.c\\"\\n.globl end\\nend:\\n'
            '.popsection");\n'
            '  fwrite(text, 1, end - text, stdout);\n  return printf("%i\\n", 1) < 0;\n}\n'
        },
        r"in\.c:1: warning: not judged: an asm names \.incbin \[skipped\]\n",
    ),
    Program(
        "an assembler that makes a name",
        {
            "m.c": "#include <stdio.h>\n" + MINE + "int main(void) {\n"
            '  __asm__(".macro m a b\\n.set \\\\a\\\\b, mine\\n.endm\\nm prin tf");\n'
            '  printf("%i\\n", 1);\n  return 0;\n}\n'
        },
        r"m\.c:1: warning: not judged: an asm names \.macro \[skipped\]\n",
    ),
    Program(
        "a column",
        {"column.c": MAIN.format('printf("%i\\n", __builtin_COLUMN());')},
        r"column\.c:1: warning: not judged: it names __builtin_COLUMN, and a column would change \[skipped\]\n",
        words=("-p", ".", OLD, "%.1d\\n"),
        compiler="clang",
    ),
]
# Programs that are like those, and whose places are replaced.
REPLACED = [
    Program(
        "a unit that includes another file",
        {
            "a.c": '#include "b.c"\nint main(void) { b(); return printf("%i\\n", 1) < 0; }\n',
            "b.c": PARTS["part.c"].replace("part", "b").replace("%i", "%d"),
        },
        r"a\.c:2: note: replaced \[replaced\]\n",
    ),
    Program(
        "its own data model",
        {"c.c": '#include <stdio.h>\nint main(void) { return printf("%jd %d\\n", 5000000000, 7) < 0; }\n'},
        r"c\.c:2: note: replaced \[replaced\]\n",
        words=("-p", ".", "--model", "lp64", "%jd %d\\n", "%ld %d\\n"),
    ),
    Program(
        "32 bits",
        {"c.c": 'int say(const char *, ...);\nvoid f(void) { say("%zu\\n", sizeof(int)); }\n'},
        r"c\.c:2: note: replaced \[replaced\]\n",
        ["-m32"],
        ("-p", ".", "--model", "ilp32", "--function", "say:1", "%zu\\n", "%u\\n"),
        is_built=False,
    ),
    Program(
        "a static assertion that holds",
        {"log.c": "#include <stdio.h>\n" + SHORT + 'int main(void) { LOG("%i\\n", 1); return 0; }\n'},
        r"log\.c:3: note: replaced \[replaced\]\n",
    ),
    Program(
        "a column that stays",
        {"column.c": MAIN.format('printf("%i\\n", __builtin_COLUMN());')},
        r"column\.c:2: note: replaced \[replaced\]\n",
        compiler="clang",
    ),
    Program(
        "an attribute with gcc's name of the language",
        {
            "say.c": '__attribute__((__format__(__gnu_printf__, 1, 2))) void say(const char *, ...);\n'
            'void f(void) { say("%i\\n", 1); }\n'
        },
        r"say\.c:2: note: replaced \[replaced\]\n",
        words=("-p", ".", "--attribute", OLD, NEW),
        is_built=False,
    ),
]


def entries(tool, files, flags=(), compiler="gcc"):
    """Writes the compile commands of files."""
    found = [
        {"directory": str(tool.work), "file": it, "arguments": [compiler, *flags, "-c", it, "-o", f"{it}.o"]}
        for it in files
    ]
    tool.put("compile_commands.json", json.dumps(found))


def printed(tool, program):
    """What a program prints."""
    words = [program.compiler, "-w", *(it for it in program.flags if it != "-Werror"), "-o", "program", *program.files]
    built = subprocess.run(words, cwd=tool.work, check=False, timeout=TIMEOUT, capture_output=True)
    if built.returncode:
        return built.stderr.decode()
    done = subprocess.run(["./program"], cwd=tool.work, check=False, timeout=TIMEOUT, capture_output=True)
    return done.returncode, done.stdout


def try_program(folder, python, program, is_left, trials):
    """A program prints the same before and after."""
    with tempfile.TemporaryDirectory() as work:
        tool = Tool("replace", folder, os.path.realpath(work), python, SCRIPT)
        for name, text in program.files.items():
            tool.put(name, text)
        if program.name.startswith("a unit that includes"):
            program = program._replace(files={"a.c": program.files["a.c"]})
        entries(tool, program.files, program.flags, program.compiler)
        before = printed(tool, program) if program.is_built else None
        if program.is_built:
            trials.expect(f"{program.name} is built", isinstance(before, tuple) or before, True)
        status, report, fault = tool.run_by_lines(*program.words)
        report = report.replace(f"{tool.work}/", "")
        wanted = 2 if "not judged" in program.said else int(is_left)
        trials.expect(f"{program.name}: {report}", (status, fault), (wanted, ""))
        trials.expect(f"{program.name}: {report!r}", re.fullmatch(program.said, report) is not None, True)
        after = {name: (tool.work / name).read_text() for name in program.files}
        trials.expect(f"{program.name}: its files stay", after == program.files, is_left)
        if program.is_built:
            trials.expect(f"{program.name}: what it prints", printed(tool, program), before)


# Words of a compile command that name a file to write.
WRITING = {
    "gcc": [["-Wp,-DX,-MD,precious.c"], ["--output=keep.o"], ["--output", "keep.o"], ["-time=keep.o"]]
    + [["--write-dependencies"], ["-save-stats"], ["-aux-info", "keep.o"], ["-fdump-tree-all=keep.o"]],
    "clang": [["-Wp,-DX,-MD,precious.c"], ["--output=keep.o"], ["--output", "keep.o"], ["-ftime-trace"]]
    + [["--serialize-diagnostics", "keep.o"], ["-save-stats"], ["-Xclang", "-disable-O0-optnone"]],
}


def test_words(tool, trials):
    """Nothing is written that a compile command names, and it is used all the same."""
    kept = {"plain.c": PLAIN, "precious.c": "int precious;\n", "keep.o": "an object"}
    for name, text in kept.items():
        tool.put(name, text)
    for compiler, rows in WRITING.items():
        for words in rows:
            entries(tool, ["plain.c"], words, compiler)
            for option in ["--dry-run", "--diff"]:
                status, report, fault = tool.run_by_lines("-p", ".", option, OLD, NEW, "plain.c")
                said = re.sub(r":2:\d+:", ":2:", fault) if option == "--diff" else report
                trials.expect(
                    f"{compiler} {words} {option}", (status, said), (0, "plain.c:2: note: replaced [replaced]\n")
                )
            found = {
                it.name: it.read_text(errors="replace")
                for it in tool.work.iterdir()
                if it.name != "compile_commands.json"
            }
            trials.expect(f"{compiler} {words}: the files", found, kept)
    entries(tool, ["plain.c"], ["-fplugin=x.so"])
    said = "plain.c:1: warning: not judged: its compile command has -fplugin=x.so [skipped]\n"
    trials.expect("a word that isn't known", tool.run_by_lines("-p", ".", OLD, NEW, "plain.c"), (2, said, ""))


def test_folders(tool, trials):
    """Links out of a folder, copies that a killed run left, names, and files that are named twice."""
    outside = tool.put("outside/a.c", PLAIN)
    tool.put("tree/b.c", PLAIN)
    tool.put("tree/.fmtcanon-abcdefgh-b.c", PLAIN)
    tool.put("tree/a\nc.c", PLAIN)
    long = tool.put("tree/" + "n" * 240 + ".c", PLAIN)
    (tool.work / "tree/l.c").symlink_to("../outside/a.c")
    status, report, fault = tool.run_by_lines(OLD, NEW, "tree")
    report = report.replace("a\\nc.c", "a\nc.c")
    wanted = "".join(f"tree/{it}:2: note: replaced [replaced]\n" for it in ["a\nc.c", "b.c", long.name])
    trials.expect("a folder", (status, report, fault), (0, wanted, ""))
    trials.expect("a file outside of it", outside.read_text(), PLAIN)
    tool.put("a.c", PLAIN)
    trials.expect(
        "a file twice", tool.run_by_lines(OLD, NEW, "a.c", "./a.c"), (0, "a.c:2: note: replaced [replaced]\n", "")
    )
    for _ in range(8):
        tool.put("part.c", '#include <stdio.h>\nstatic void part(void) { printf("%i\\n", 2); }\n')
        tool.put("all.c", '#include "part.c"\n' + PLAIN)
        found = tool.run_by_lines(OLD, NEW, "part.c", "all.c")
        trials.expect(
            "files of which one includes the other",
            found,
            (0, "part.c:2: note: replaced [replaced]\nall.c:3: note: replaced [replaced]\n", ""),
        )
    os.mkfifo(tool.work / "fifo.c")
    said = "fifo.c: it isn't a regular file\n"
    trials.expect("a FIFO", tool.run_by_lines(OLD, NEW, "fifo.c", "a.c"), (2, "", said))


def test_streams(tool, trials):
    """Nothing is changed if the report of it can't be written."""
    script = 'exec "$0" "$@" {}'
    for streams, said in [
        (">&-", "standard output is closed; no file was changed"),
        (">/dev/full", "standard output: No space left on device; no file was changed"),
        ("--diff >&-", "standard output is closed; no file was changed"),
    ]:
        file = tool.put("a.c", PLAIN)
        done = subprocess.run(
            ["sh", "-c", script.format(streams), *tool.words, OLD, NEW, "a.c"],
            cwd=tool.work,
            env=tool.environment,
            check=False,
            timeout=TIMEOUT,
            capture_output=True,
        )
        trials.expect(f"{streams}", (done.returncode, done.stderr.decode()), (2, f"fmtcanon-replace: {said}\n"))
        trials.expect(f"{streams}: the file", file.read_text(), PLAIN)


# A compiler that tells when it gets another source, by standard input, and then takes long.
SLOW = """#!/bin/sh
case "$*" in *"-x c - "*) touch "{work}/running"; sleep 20;; esac
exec cc "$@"
"""


def test_signals(tool, trials):
    """No stand-in is left when the command is ended, and no file is changed."""
    tool.put("slow", SLOW.format(work=tool.work)).chmod(0o755)
    for number in [signal.SIGINT, signal.SIGTERM, signal.SIGHUP]:
        file = tool.put("slow.c", PLAIN)
        tool.put(
            "compile_commands.json",
            json.dumps([{"directory": str(tool.work), "file": "slow.c", "arguments": ["./slow", "-c", "slow.c"]}]),
        )
        (tool.work / "running").unlink(missing_ok=True)
        running = subprocess.Popen(
            [*tool.words, "-p", ".", OLD, NEW, "slow.c"],
            cwd=tool.work,
            env=tool.environment,
            stdout=subprocess.DEVNULL,
            stderr=subprocess.PIPE,
            start_new_session=True,
        )
        for _ in range(100 * TIMEOUT):
            if (tool.work / "running").exists() or running.poll() is not None:
                break
            time.sleep(0.01)
        began = time.monotonic()
        os.killpg(running.pid, number)
        said = running.communicate(timeout=TIMEOUT)[1].decode()
        trials.expect(f"signal {number}: soon", time.monotonic() - began < SOON, True)
        left = [it for it in os.listdir(tool.work) if it.startswith(".fmtcanon-")]
        wanted = (128 + number, "fmtcanon-replace: interrupted; no file was changed\n", [], PLAIN)
        trials.expect(f"signal {number}", (running.returncode, said, left, file.read_text()), wanted)
    (tool.work / "compile_commands.json").unlink()


def run_until(tool, words, is_ready):
    """Starts the command, and waits until it is ready."""
    running = subprocess.Popen(
        [*tool.words, *words], cwd=tool.work, env=tool.environment, stdout=subprocess.PIPE, stderr=subprocess.PIPE
    )
    for _ in range(100 * TIMEOUT):
        if is_ready() or running.poll() is not None:
            break
        time.sleep(0.01)
    time.sleep(0.2)
    return running


def test_hanging(tool, trials):
    """A signal ends the command, whatever its compiler waits for."""
    tool.put("hanging", '#!/bin/sh\ntouch running\nsleep 60 & sleep 60\nexec gcc "$@"\n').chmod(0o755)
    os.mkfifo(tool.work / "fifo.h")
    for name, text, compiler in [("slow.c", PLAIN, "./hanging"), ("header.c", '#include "fifo.h"\n' + PLAIN, "gcc")]:
        file = tool.put(name, text)
        entries(tool, [name], (), compiler)
        for number in [signal.SIGINT, signal.SIGTERM]:
            (tool.work / "running").unlink(missing_ok=True)
            is_ready = (tool.work / "running").exists if compiler != "gcc" else lambda: time.sleep(1) is None
            running = run_until(tool, ["-p", ".", OLD, NEW], is_ready)
            began = time.monotonic()
            running.send_signal(number)
            errors = running.communicate(timeout=2 * TIMEOUT)[1].decode()
            trials.expect(f"{name}: {number}: soon", time.monotonic() - began < SOON, True)
            said = "fmtcanon-replace: interrupted; no file was changed\n"
            trials.expect(
                f"{name}: {number}", (running.returncode, errors, file.read_text()), (128 + number, said, text)
            )


def test_programs(folder, python, trials):
    for is_left, programs in [(True, LEFT), (False, REPLACED)]:
        for program in programs:
            missing = shutil.which(program.compiler) is None
            trials.expect(f"{program.compiler} is there: the package {program.compiler} has it", missing, False)
            if not missing:
                try_program(folder, python, program, is_left, trials)


Tests = tests_of(globals())
