"""Tries what fmtcanon-lsp finds by compiling, against fmtcanon-check and the compilers of the platforms.

It needs libclang and these compilers; the parts that need neither are in tests/commands/lsp/test_lsp_compiled.py.
"""

import json
import os
import random
import re
import signal
import subprocess
import time
from pathlib import Path

from tests.commands.checker.more_check import COMPILERS
from tests.commands.lsp.lsp_client import Client
from tests.commands.tool import Tool
from tests.frame.cases import tests_of
from tests.frame.harness import TIMEOUT, TOP

# The kinds of findings of fmtcanon-check that are compared: that a format is rejected, the text says, too.
COMPARED = ("size", "kind", "rank", "sign", "composed", "lost", "errno", "unused")
ADDED = ["rank", "sign", "composed"]
SOURCES = ["examples/*.c", "tests/library/*.c", "tests/program/*.c", "tests/platforms/expressions.c", "bench/*.c"]
# Each line has one finding, or none.
CASES = """\
#include <stdio.h>
#include <stdlib.h>
#include <sys/types.h>
#include <time.h>

struct item { long size; off_t offset; char *name; };

void show(size_t n, time_t when, off_t at, const struct item *item, int i, long *list)
{
    printf("é😀 %lu\\n", n);
    printf("%ld|%s\\n", when, item->name);
    printf("%ld %ld\\n", (long)i, at);
    printf("%d\\n", item->size);
    printf("%5d\\n", list[i] + 1);
    printf("%*d\\n", (int)n, i);
    printf("%.*s\\n", n, item->name);
    printf("%lx", n * 2);
}
"""
FRONT = "#include <stddef.h>\n#include <stdint.h>\n#include <stdio.h>\n#include <sys/types.h>\n"
# Functions of a source that is edited, in C and C++.
PARTS = [
    'int one(size_t n, long l)\n{\n    return printf("%lu %d", n, l);\n}\n',
    '#define BOTH "%lu:%d"\nstatic void two(size_t n, int i) {\n    printf(BOTH, n, i);\n    printf(BOTH ".", n, i);\n'
    '}\n',
    'void three(uint64_t u, off_t at)\n{\n    fprintf(stderr, "%lu" " %ld\\n", u, at);\n}\n',
    'static const char form[] = "%ld";\nvoid four(off_t at) { printf(form, at); }\n',
    'struct pair { long a; int b; };\nvoid five(struct pair *it)\n{\n    printf("%d %s", it->a, it->b);\n}\n',
    "int seven(void);\nint eight = sizeof(int);\nlong nine(int n)\n{\n    return n + eight;\n}\n",
]
CXX = [
    'namespace a { namespace b {\nvoid six(size_t n) { printf("%lu", n); }\n} }\n',
    'extern "C" {\nvoid ten(size_t n) { printf("%lu", n); }\n}\nclass c { void m(size_t n) { printf("%lu", n); } };\n',
    'template <class T> void t(T n) { printf("%lu", sizeof n); }\n',
    'auto d(long n) { return n; }\nvoid e() { printf("%d", d(1)); }\n',
]
EDITS = [
    ("%lu", "%zu"),
    ("%zu", "%lu"),
    ("%d", "%ld"),
    ("long ", "int "),
    ("int ", "long "),
    ("size_t ", "unsigned "),
    (";\n", ";\n\n\n"),
    ("{", "{ /* { */ "),
    ("}\n", "}\nint more(size_t n) { return printf(\"%lu\", n); }\n"),
    ("printf(", "printf ("),
    ("\n", "\n#include <inttypes.h>\n"),
    ('"%l', '"x" "%l'),
    (";", ""),
]
PIECES = [", n", ")", ";", "{", "}", "\n", "#define X ", "#include <", "\\\n", "/*", "*/", '"', "'", "L", "int ", "é"]
PIECES += ["printf(", '"%lu"', "\0", "%s", "size_t n", "=", "#if 1\n", "#endif\n", "\ud83d"]


class Editor:
    """An editor with one document after another, by a server that has libclang."""

    def __init__(self, folder, work, python, root=None, encodings=None, **options):
        tool = Tool("lsp", folder, work, python)
        root = f"file://{root}" if root else None
        self.client = Client(
            python=python, environment=tool.environment, options=options, encodings=encodings, root=root
        )
        self.version = 0

    def open(self, path, text, language="c"):
        """What is compiled of a new document."""
        self.client.uri = f"file://{path}"
        self.client.open(text, language)
        self.version = 1
        return self.client.diagnostics(1)

    def change(self, *changes):
        """What is compiled of the document after changes: of text, of what replaces a range of offsets."""
        self.version += 1
        for start, end, new in changes:
            text = self.client.text
            places = [position(text, it) for it in (start, end)]
            edit = {"range": {"start": places[0], "end": places[1]}, "text": new}
            self.client.change(edit, version=self.version)
            self.client.text = text[:start] + new + text[end:]
        self.client.diagnostics(self.version)
        return self.client.diagnostics(self.version)

    def put(self, text):
        """What is compiled of the document with another text."""
        return self.change((0, len(self.client.text), text))

    def actions(self, range):
        given = {"textDocument": {"uri": self.client.uri}, "range": range, "context": {}}
        return self.client.request("textDocument/codeAction", given)["result"]

    def worker(self):
        """The number of the process that compiles."""
        pid = self.client.process.pid
        [found] = Path(f"/proc/{pid}/task/{pid}/children").read_text(encoding="ascii").split()
        return int(found)

    def end(self):
        return self.client.stop()


def position(text, offset):
    front = text[:offset]
    return {"line": front.count("\n"), "character": len(front.rpartition("\n")[2].encode("utf-16-le")) // 2}


def messages(diagnostics):
    return sorted(it["message"] for it in diagnostics)


def shown(diagnostics):
    """What is compared of diagnostics: where they are, their kinds and what they say."""
    listed = [(it["range"], it["code"], it["message"]) for it in diagnostics if it["code"] in COMPARED]
    return sorted((*it["start"].values(), *it["end"].values(), code, message) for it, code, message in listed)


def said_by_check(check, *words):
    """What fmtcanon-check says, by files, as a server would. Columns count characters."""
    _, output, _ = check.run("--output", "json", "--no-cache", *words)
    found = {}
    for one in map(json.loads, output.splitlines()):
        if one["kind"] not in COMPARED:
            continue
        line = one["line"] - 1
        if one["column"] is None:
            text = Path(check.work, one["file"]).read_text(encoding="utf-8").split("\n")[line]
            place = (line, len(text) - len(text.lstrip()), line, len(text.rstrip()))
        else:
            place = (line, one["column"] - 1, one["end_line"] - 1, one["end_column"] - 1)
        found.setdefault(one["file"], []).append((*place, one["kind"], one["message"]))
    return {file: sorted(it) for file, it in found.items()}


def test_equal(folder, work, python, trials):
    """In sources of the repository, the same is found as by fmtcanon-check."""
    files = sorted(str(it.relative_to(TOP)) for pattern in SOURCES for it in TOP.glob(pattern))
    check = Tool("check", folder, TOP, python)
    wanted = said_by_check(check, "--flag=-Iinclude", *(f"--{it}" for it in ADDED), *files)
    editor = Editor(folder, work, python, root=TOP, flags=["-Iinclude"], added=ADDED)
    for name in files:
        found = shown(editor.open(TOP / name, (TOP / name).read_text(encoding="utf-8")))
        trials.expect(name, found, wanted.get(name, []))
    trials.expect("some are found", sum(map(len, wanted.values())) > 50, True)
    editor.end()


def edited(folder, work, python, trials, name, parts, seed):
    """After each of random changes, as much is found as by fmtcanon-check in a file that has the text."""
    chosen = random.Random(seed)
    check = Tool("check", folder, work, python)
    words = [*(f"--{it}" for it in ADDED), name]
    text = FRONT + "".join(parts)
    file = check.put(name, text)
    editor = Editor(folder, work, python, added=ADDED)
    found = shown(editor.open(file, text, "c" if name.endswith(".c") else "cpp"))
    trials.expect(name, found, said_by_check(check, *words).get(name, []))
    judged = 0
    for number in range(25):
        old, new = chosen.choice([it for it in EDITS if it[0] in text])
        at = chosen.choice([it.start() for it in re.finditer(re.escape(old), text)])
        found = shown(editor.change((at, at + len(old), new)))
        before, text = text, text[:at] + new + text[at + len(old) :]
        file.write_text(text, encoding="utf-8")
        status, _, fault = check.run("--no-cache", name)
        if status == 2:
            # What can't be parsed isn't compared: it is taken back.
            editor.change((at, at + len(new), old))
            text = before
            continue
        judged += 1
        wanted = said_by_check(check, *words).get(name, [])
        trials.expect(f"{name} {number}: {old!r} to {new!r} at {at} {fault}", found, wanted)
    trials.expect(f"{name}: most are judged", judged > 10, True)
    editor.end()


def test_edits(folder, work, python, trials):
    edited(folder, work, python, trials, "a.c", PARTS, 1)


def test_edits_of_cxx(folder, work, python, trials):
    edited(folder, work, python, trials, "a.cc", [*PARTS, *CXX], 2)


def test_positions(folder, work, python, trials):
    """Columns count bytes or what UTF-16 has, and changes that weren't saved are read."""
    file = work / "a.c"
    for encodings, size in [(["utf-8"], 1), (None, 2)]:
        file.write_text("int x;\n", encoding="utf-8")
        editor = Editor(folder, work, python, encodings=encodings)
        found = editor.open(file, CASES)
        front = '    printf("é😀 '.encode("utf-8" if size == 1 else "utf-16-le")
        wanted = {"line": 9, "character": len(front) // size}
        trials.expect(f"{encodings}", found[0]["range"]["start"], wanted)
        end = {**wanted, "character": wanted["character"] + 3}
        trials.expect(f"the end, {encodings}", found[0]["range"]["end"], end)
        if size == 2:
            # It moves with the text before it is compiled again.
            at = CASES.index("é")
            editor.version += 1
            place = position(CASES, at)
            editor.client.change({"range": {"start": place, "end": place}, "text": "😀 "}, version=editor.version)
            trials.expect("moved", editor.client.diagnostics(editor.version)[0]["range"]["start"], end)
        editor.end()


def warnings(name, words, work):
    """The lines of a file at which a compiler says something of formats."""
    more = ["-D__USE_MINGW_ANSI_STDIO=1"] if "mingw" in words[0] else []
    command = [*words, *more, "-fsyntax-only", "-Wformat", "-fdiagnostics-format=json", name]
    done = subprocess.run(command, cwd=work, check=False, timeout=TIMEOUT, capture_output=True, text=True)
    listed = json.loads(next(it for it in done.stderr.split("\n") if it.startswith("[")))
    of_formats = [it for it in listed if it["kind"] == "error" or "-Wformat" in it.get("option", "")]
    return sorted((it["locations"][0]["caret"]["line"], it["message"]) for it in of_formats)


def test_fixes(folder, work, python, tools, trials):
    """Each fix alone has its finding go away, and no other come; after all, no compiler says anything."""
    for words, package in COMPILERS.values():
        tools.need(words[0], package)
    (work / "a.c").write_text(CASES, encoding="utf-8")
    editor = Editor(folder, work, python)
    found = editor.open(work / "a.c", CASES)
    trials.expect("lines", [it["range"]["start"]["line"] + 1 for it in found], [10, 11, 12, 13, 14, 16, 17])
    for one in found:
        [action] = editor.actions(one["range"])
        trials.expect("what it is for", action["diagnostics"][0]["message"], one["message"])
        rest = editor.put(editor.client.apply(action))
        trials.expect(f"after {action['title']}", messages(rest), messages(it for it in found if it is not one))
        trials.expect(f"before {action['title']}", messages(editor.put(CASES)), messages(found))
    for _ in found:
        [action] = editor.actions(found[0]["range"])
        found = editor.put(editor.client.apply(action))
    text = editor.client.text
    trials.expect(f"nothing is left in\n{text}", found, [])
    (work / "fixed.c").write_text(text, encoding="utf-8")
    for platform, (words, _) in COMPILERS.items():
        trials.expect(f"warnings of {platform} in\n{text}", warnings("fixed.c", words, work), [])
        trials.expect(f"{platform} warned before", warnings("a.c", words, work) != [], True)
    editor.end()


def test_worker(folder, work, python, trials):
    """A process that compiles is killed, or stops: the server lives, and the next text gets another."""
    editor = Editor(folder, work, python, seconds=3)
    file = work / "a.c"
    file.write_text(CASES, encoding="utf-8")
    count = len(editor.open(file, CASES))
    first = editor.worker()
    os.kill(first, signal.SIGKILL)
    trials.expect("after a kill", len(editor.change((0, 0, "\n"))), count)
    second = editor.worker()
    trials.expect("another process", second != first, True)
    os.kill(second, signal.SIGSTOP)
    editor.version += 1
    editor.client.text = CASES
    editor.client.change({"text": CASES}, version=editor.version)
    trials.expect("old findings stay", len(editor.client.diagnostics(editor.version)), count)
    begin = time.monotonic()
    trials.expect("a hover meanwhile", editor.client.hover("%s") is not None, True)
    trials.expect("it doesn't wait", time.monotonic() - begin < 1, True)
    said = editor.client.logged()
    while "takes too long" not in said:
        said = editor.client.logged()
    trials.expect("after a stop", len(editor.change((0, 0, "\n"))), count)
    trials.expect("a third process", editor.worker() in (first, second), False)
    third = editor.worker()
    trials.expect("the status", editor.end(), 0)
    trials.expect("no process is left", Path(f"/proc/{third}").exists(), False)


def test_hostile(folder, work, python, trials):
    """Texts that no one writes end nothing, and a right one after them has its findings."""
    editor = Editor(folder, work, python)
    file = work / "a.c"
    file.write_text(CASES, encoding="utf-8")
    count = len(editor.open(file, CASES))
    pid, chosen = editor.worker(), random.Random(4)
    for number in range(60):
        text = "".join(chosen.choices(PIECES, k=chosen.randrange(40)))
        text = CASES[: chosen.randrange(len(CASES))] + text if number % 2 else text
        editor.version += 1
        editor.client.change({"text": text}, version=editor.version)
        for _ in range(2):
            found = editor.client.diagnostics(editor.version)
        everywhere = {"start": {"line": 0, "character": 0}, "end": {"line": 999, "character": 0}}
        given = {"textDocument": {"uri": editor.client.uri}, "range": everywhere, "context": {}}
        trials.expect(f"{text!r} {found}", "result" in editor.client.request("textDocument/codeAction", given), True)
    editor.version += 1
    editor.client.change({"text": CASES}, version=editor.version)
    editor.client.diagnostics(editor.version)
    trials.expect("the text after all", len(editor.client.diagnostics(editor.version)), count)
    trials.expect("the same process", editor.worker(), pid)
    logged = [it["params"]["message"] for it in editor.client.held if it.get("method") == "window/logMessage"]
    trials.expect("no fault is said", [it for it in logged if "Error" in it], [])
    editor.end()


def test_beside_clangd(folder, work, python, tools, trials):
    """Next to clangd, what clang says isn't said again, and all the rest is."""
    tools.need("clang", "clang")
    file = work / "a.c"
    text = CASES.replace("(int)n, i", "n, i").replace('"%lx"', '"%y %m"')
    file.write_text(text, encoding="utf-8")
    words = ["clang", "-fsyntax-only", "-Wformat", "a.c"]
    done = subprocess.run(words, cwd=work, check=False, timeout=TIMEOUT, capture_output=True, text=True)
    by_clang = {int(it) for it in re.findall(r"^a\.c:(\d+):\d+: warning", done.stderr, re.MULTILINE)}
    listed = {}
    for beside in (False, True):
        editor = Editor(folder, work, python, beside_clangd=beside)
        listed[beside] = {it["range"]["start"]["line"] + 1 for it in editor.open(file, text)}
        editor.end()
    trials.expect("all lines", by_clang <= listed[False], True)
    trials.expect("beside clangd", listed[True], listed[False] - by_clang)
    trials.expect("both have some", (len(by_clang) > 2, len(listed[True]) > 2), (True, True))


def test_database(folder, work, python, trials):
    """The compile_commands.json above a file is used; another program than a compiler of PATH is run only if named."""
    file = work / "src/a.c"
    file.parent.mkdir()
    text = '#include <stdio.h>\n#ifdef SIZE\nvoid f(SIZE n) { printf("%lu", n); }\n#endif\n'
    file.write_text(text, encoding="utf-8")
    program = work / "bin/cc"
    program.parent.mkdir()
    program.write_text(f'#!/bin/sh\ntouch {work}/ran\nexec gcc "$@"\n', encoding="utf-8")
    program.chmod(0o755)
    own, named = str(program), {"database": str(work / "build")}
    (work / "build").mkdir()
    for words, options, count, is_run in [("gcc", {}, 1, False), (own, {}, 0, False), (own, named, 1, True)]:
        arguments = [words, "-DSIZE=unsigned long long", "-c", "src/a.c"]
        entry = {"directory": str(work), "file": "src/a.c", "arguments": arguments}
        (work / "build/compile_commands.json").write_text(json.dumps([entry]), encoding="utf-8")
        editor = Editor(folder, work, python, **options)
        trials.expect(f"findings with {words}, {options}", len(editor.open(file, text)), count)
        trials.expect(f"{words} is run", (work / "ran").exists(), is_run)
        logged = [it["params"]["message"] for it in editor.client.held if it.get("method") == "window/logMessage"]
        trials.expect(f"said of {words}", [own in it for it in logged], [True] if not count else [])
        editor.end()


def test_header_changes(folder, work, python, trials):
    """A header that is saved is read again."""
    (work / "own.h").write_text("typedef unsigned long number;\n", encoding="utf-8")
    text = '#include <stdio.h>\n#include "own.h"\nvoid f(number n) { printf("%lu", n); }\n'
    (work / "a.c").write_text(text, encoding="utf-8")
    editor = Editor(folder, work, python)
    trials.expect("before", editor.open(work / "a.c", text), [])
    (work / "own.h").write_text("typedef unsigned long long number;\n", encoding="utf-8")
    editor.client.notify("textDocument/didSave", textDocument={"uri": f"file://{work}/own.h"})
    trials.expect("after", [it["code"] for it in editor.client.diagnostics(1)], ["size"])
    editor.end()


Tests = tests_of(globals())
