"""Tries fmtcanon-check --git: only what a change adds is reported, of the work tree or of what is staged.

It needs libclang, gcc and git.
"""

import json
import os
import re
import subprocess

from tests.commands.checker.more_check import SAYS
from tests.commands.pages.more_recipes import entries
from tests.commands.tool import Tool
from tests.frame.cases import tests_of
from tests.frame.harness import TIMEOUT, TOP

HEADER = """#include <stdio.h>
#define SHOW(n) printf("%lu", n)
static inline void shown(size_t n) { printf("%lu", n); }
"""
BEFORE = f"""{SAYS}#include "a.h"
void f(size_t n, long m) {{
  printf("%lu", n);
  SHOW(n);
  printf("%d"
    " %lu",
    1,
    n);
  printf("%ld %d %lu",
    m,
    1,
    n);
}}
"""
# Edits of the source, and the lines of what is found then.
EDITS = [
    ("  SHOW(n);\n", "  SHOW(n);\n  printf(\"%lu\", n);\n", ["a.c:9"]),
    ("  SHOW(n);\n", "  SHOW(n);\n  SHOW(n);\n", ["a.h:2"]),
    ("void f", "\n\nvoid f", []),
    # The format of a call, its arguments, and an argument that went.
    ('"%d"\n', '"%d:"\n', ["a.c:10"]),
    ("    1,\n    n);\n  printf", "    2,\n    n);\n  printf", ["a.c:10"]),
    ('"%ld %d %lu",\n    m,\n', '"%ld %d %lu",\n', ["a.c:13"] * 3),
    ('  printf("%lu", n);\n', '  printf("%zu", n);\n', []),
    ('  printf("%lu", n);\n', "", []),
    ("SHOW(n);", "SHOW(n + 0);", ["a.h:2"]),
]


def tool(folder, work, python):
    return Tool("check", folder, work, python)


def start(tool):
    """A repository with a source, its header, and another source that includes it."""
    tool.git("init", "-q")
    tool.put("a.h", HEADER)
    tool.put("a.c", BEFORE)
    tool.put("b.c", '#include "a.h"\nvoid g(size_t n) { SHOW(n); shown(n); }\n')
    tool.put("c.c", SAYS + 'void h(size_t n) { printf("%lu", n); }\n')
    tool.put_commands(*(["gcc", "-c", f"{it}.c"] for it in "abc"))
    tool.git("add", ".")
    tool.git("commit", "-qm", "first")


def places(output):
    return [re.match(r"[^:]*:\d+", it)[0] for it in output.splitlines()]


def test_edits(tool, trials):
    """What a change adds or whose format it changes is reported, with a database, with files, or of all that changed.
    """
    start(tool)
    for words in (["-p", ".", "--git"], ["-p", ".", "--git=HEAD", "a.c", "b.c", "c.c"]):
        trials.expect(f"{words}: nothing changed", tool.run(*words)[:2], (0, ""))
    for old, new, wanted in EDITS:
        trials.expect(f"{old!r} is there", BEFORE.count(old), 1)
        tool.put("a.c", BEFORE.replace(old, new))
        for words in (["-p", ".", "--git"], ["--git"], ["--git", "HEAD", "a.c"], ["--git", "a.c"]):
            status, output, fault = tool.run(*words)
            trials.expect(f"{old!r} {words}: {output} {fault}", (status, places(output)), (int(bool(wanted)), wanted))
        tool.git("add", "a.c")
        tool.put("a.c", BEFORE)
        trials.expect(f"{old!r}: the work tree is as it was", tool.run("--git")[:2], (0, ""))
        status, output, fault = tool.run("--git", "--cached")
        trials.expect(f"{old!r}, staged: {output} {fault}", (status, places(output)), (int(bool(wanted)), wanted))
        tool.git("reset", "-q", "--hard")


def test_headers(tool, trials):
    """A header is judged with the files that include it, and no other is read."""
    start(tool)
    tool.put("a.h", HEADER.replace('printf("%lu", n); }', 'printf("%lu ", n); }'))
    status, output, fault = tool.run("-p", ".", "--git")
    said = status, places(output), fault.split(",")[0]
    trials.expect(f"a function of a header: {output} {fault}", said, (1, ["a.h:3"], "2 files"))
    tool.put("a.h", HEADER.replace('printf("%lu", n)\n', 'printf("%lu.", n)\n'))
    status, output, _ = tool.run("-p", ".", "--git")
    trials.expect("a macro of a header", (status, places(output), "(2 uses)" in output), (1, ["a.h:2"], True))
    status, output, _ = tool.run("--git")
    wanted = "a.h:1: note: not judged: it isn't compiled by itself; a header is judged with the files that include it"
    trials.expect(f"a header alone: {output}", (status, output.startswith(wanted)), (0, True))
    tool.git("add", "a.h")
    tool.put("a.h", HEADER)
    status, output, _ = tool.run("-p", ".", "--git", "--cached")
    said = "a.h:1: warning: not judged: a header has changes that aren't staged" in output
    trials.expect(f"a header that is staged in part: {output}", (status, said), (2, True))
    tool.git("reset", "-q", "--hard")
    tool.put("d.c", BEFORE)
    tool.git("add", "d.c")
    status, output, _ = tool.run("-p", ".", "--git")
    said = "d.c:1: note: not judged: compile_commands.json has no command for it [skipped]\n"
    trials.expect("no command", (status, output), (0, said))


def test_revisions(tool, trials):
    """A revision, or where HEAD left one; comments, the baseline and --fix go with it."""
    start(tool)
    call = 'void %s(size_t n) { printf("%%lu", n); }\n'
    tool.git("branch", "main-line")
    tool.put("c.c", SAYS + call % "i" + call % "j")
    tool.git("commit", "-qam", "second")
    tool.git("branch", "second")
    trials.expect("a revision", places(tool.run("--git", "HEAD~1")[1]), ["c.c:5", "c.c:6"])
    trials.expect("the last one", tool.run("--git")[:2], (0, ""))
    tool.git("checkout", "-q", "main-line")
    tool.put("b.c", '#include "a.h"\nvoid g(size_t n) { SHOW(n); shown(n); }\n' + call % "k")
    tool.git("commit", "-qam", "third")
    trials.expect("two branches", places(tool.run("-p", ".", "--git", "second")[1]), ["b.c:3", "c.c:5"])
    trials.expect("where they parted", places(tool.run("-p", ".", "--git", "second...")[1]), ["b.c:3"])
    silenced = call.replace("\n", " // fmtcanon: ok\n") % "l"
    tool.put("c.c", SAYS + call % "h" + silenced + call % "m" + "int x; // fmtcanon: ok\n")
    status, output, _ = tool.run("-p", ".", "--git", "--output", "json")
    found = [(it["line"], it["kind"]) for it in map(json.loads, output.splitlines())]
    trials.expect("comments", (status, found), (1, [(7, "size"), (8, "unused")]))
    status, output, _ = tool.run("--git", "--fix")
    text = (tool.work / "c.c").read_text(encoding="utf-8")
    trials.expect("--fix", (status, text.count("%lu"), text.count("%zu")), (0, 2, 1))
    for words, said in [
        (["--git", "nothing"], "git: there is no revision nothing"),
        (["--git", "HEAD..HEAD"], "give one revision"),
        (["--cached", "a.c"], "--cached needs --git"),
        (["--git", "--cached", "--fix"], "--cached isn't for --fix"),
        (["--git", "--baseline", "known.json"], "a baseline is recorded without --git and --shard"),
    ]:
        status, _, fault = tool.run(*words)
        trials.expect(f"{words}: {fault}", (status, said in fault), (2, True))


def shell(tool, command, **names):
    """The status and the output of a line that names the command."""
    tool.put("bin/fmtcanon-check", f'#!/bin/sh\nexec "{tool.python}" -m fmtcanon.checker "$@"\n').chmod(0o755)
    path = os.pathsep.join([str(tool.work / "bin"), os.environ["PATH"]])
    done = subprocess.run(
        ["sh", "-c", command],
        cwd=tool.work,
        env={**tool.environment, "PATH": path, **names},
        check=False,
        timeout=TIMEOUT,
        stdin=subprocess.DEVNULL,
        stdout=subprocess.PIPE,
        stderr=subprocess.STDOUT,
    )
    return done.returncode, done.stdout.decode()


def test_recipes(tool, trials):
    """The hook of pre-commit judges what is staged or, in CI, what a branch adds; the workflow, what a merge adds."""
    start(tool)
    entry = entries(TOP / ".pre-commit-hooks.yaml")["fmtcanon-check"]
    text = (TOP / "examples/ci/workflow.yml").read_text(encoding="utf-8")
    [run] = re.findall(r"^ *- run: (fmtcanon-check .*)$", text, flags=re.MULTILINE)
    call = 'void k(size_t n) { printf("%lu", n); }\n'
    tool.put("c.c", (tool.work / "c.c").read_text(encoding="utf-8") + call)
    status, output = shell(tool, entry)
    trials.expect(f"the hook, nothing is staged: {output}", status, 0)
    tool.git("add", "c.c")
    for words in ("", " -p ."):
        status, output = shell(tool, entry + words)
        trials.expect(f"the hook{words}: {output}", (status, "c.c:6:28: error: " in output), (1, True))
    tool.git("checkout", "-qb", "branch")
    tool.git("commit", "-qm", "branch")
    status, output = shell(tool, entry, PRE_COMMIT_FROM_REF="HEAD~1", PRE_COMMIT_TO_REF="HEAD")
    trials.expect(f"the hook in CI: {output}", (status, "c.c:6:28: error: " in output), (1, True))
    status, output = shell(tool, run)
    command = "::error file=c.c,line=6,col=28,endColumn=31::"
    trials.expect(f"the workflow: {output}", (status, command in output, output.count("::error")), (1, True, 1))


Tests = tests_of(globals())
