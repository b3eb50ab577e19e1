"""Tries what projects copy from here: the hooks of pre-commit and of git, the GitHub workflow, and what meson and CMake
run.

No network is used: of a hook or a workflow the commands are run.
"""

import os
import re
import shutil
import subprocess
import sys

from tests.commands.tool import Tool
from tests.frame.cases import tests_of
from tests.frame.harness import PACKAGES, TIMEOUT, TOP

CI = TOP / "examples/ci"
OLD = '#include <stdio.h>\nvoid f(int n) {\n    printf("%05d\\n", n);\n}\n'
RESPELLED, CHANGED = OLD.replace("%05d", "%0005d"), OLD.replace("%05d", "%.5d")
LINE = 'src.c:3:12: error: different: "%05d\\n" and "%.5d\\n" print "-0001\\n" and "-00001\\n" for -1 [different]\n'
COMMAND = "::error file=src.c,line=3,col=12,endColumn=20::different: "


def installed(tool):
    """A folder with the commands, as an installation has them."""
    for name in ["check", "diff", "po"]:
        tool.put(
            f"bin/fmtcanon-{name}", f'#!/bin/sh\nexec "{sys.executable}" -m fmtcanon.{PACKAGES.get(name, name)} "$@"\n'
        ).chmod(0o755)
    tool.environment["PATH"] = os.pathsep.join([str(tool.work / "bin"), os.environ["PATH"]])


def shell(tool, words, **more):
    done = subprocess.run(
        words,
        cwd=tool.work,
        env=tool.environment,
        check=False,
        timeout=TIMEOUT,
        stdin=subprocess.DEVNULL,
        stdout=subprocess.PIPE,
        stderr=subprocess.STDOUT,
        **more,
    )
    return done.returncode, done.stdout.decode()


def try_hook(tool, trials):
    """The hook lets a commit pass that changes no output, and the first one."""
    shutil.copy(CI / "pre-commit", tool.work / ".git/hooks/pre-commit")
    for text, message, passes in [
        (OLD, "the first commit", True),
        (RESPELLED, "respelled", True),
        (CHANGED, "changed", False),
    ]:
        tool.put("src.c", text)
        tool.git("add", "src.c")
        status, output = shell(tool, ["git", "commit", "-qm", message])
        trials.expect(
            f"the hook of git, {message}: {output}",
            (status == 0, LINE.replace("%05d", "%0005d") in output),
            (passes, not passes),
        )
    trials.expect("without the hook", shell(tool, ["git", "commit", "-qnm", "changed"])[0], 0)
    # What counts is what is staged, and not the work tree.
    for staged, left, passes in [
        (OLD, CHANGED, False),
        (CHANGED.replace("%.5d", "%+.0i"), CHANGED, False),
        (CHANGED, OLD, True),
    ]:
        tool.put("src.c", staged)
        tool.git("add", "src.c")
        tool.put("src.c", left)
        status, output = shell(tool, ["git", "commit", "-qm", "staged", "--allow-empty"])
        trials.expect(f"the hook of git with {staged!r} staged and {left!r} left: {output}", status == 0, passes)
    tool.git("reset", "-q", "--hard")


def entries(file):
    """The entries of the hooks of pre-commit, by their id."""
    return dict(
        re.findall(r"^- id: (\S+)\n(?:  .*\n)*?  entry: (.*)$", file.read_text(encoding="utf-8"), flags=re.MULTILINE)
    )


def try_entries(tool, trials):
    """The entries of .pre-commit-hooks.yaml run."""
    found = entries(TOP / ".pre-commit-hooks.yaml")
    trials.expect("hooks of pre-commit", sorted(found), ["fmtcanon-check", "fmtcanon-diff", "fmtcanon-po"])
    tool.put("src.c", OLD)
    status, output = shell(tool, found["fmtcanon-diff"], shell=True)
    trials.expect(
        "the hook fmtcanon-diff", (status, 'src.c:3:12: error: different: "%.5d\\n" and "%05d\\n"' in output), (1, True)
    )
    status, output = shell(tool, f"{found['fmtcanon-po']} po/de.po", shell=True)
    trials.expect("the hook fmtcanon-po", (status, output), (0, "1 message judged, 0 not judged\n"))
    trials.expect("the hook fmtcanon-check", shell(tool, f"{found['fmtcanon-check']} --help", shell=True)[0], 0)
    # In CI nothing is left to be committed, and pre-commit names the revisions.
    tool.git("commit", "-qnam", "back")
    trials.expect("the hook fmtcanon-diff after a commit", shell(tool, found["fmtcanon-diff"], shell=True), (0, ""))
    tool.environment.update(PRE_COMMIT_FROM_REF="HEAD~1", PRE_COMMIT_TO_REF="HEAD")
    status, output = shell(tool, f"{found['fmtcanon-diff']} --model lp64", shell=True)
    trials.expect(
        f"the hook fmtcanon-diff in CI: {output}", (status, 'src.c:3:12: error: different: "%.5d\\n"' in output), (
            1, True
        )
    )
    for name in ["PRE_COMMIT_FROM_REF", "PRE_COMMIT_TO_REF"]:
        del tool.environment[name]


def test_files(module, trials):
    """The hooks for what git has are run for the files that the commands read."""
    from fmtcanon.source.files import SOURCES

    text = (TOP / ".pre-commit-hooks.yaml").read_text(encoding="utf-8")
    patterns = re.findall(r"id: fmtcanon-(?:diff|check)\n(?:  .*\n)*?  files: (.*)$", text, flags=re.MULTILINE)
    trials.expect("their hooks have one pattern", (len(patterns), len(set(patterns))), (2, 1))
    pattern = patterns[0]
    names = ["c", "h", "y", "l", "m", "mm", "pc", "ec", "cpp", "c++", "h++", "inc", "C", "H", "def"]
    for name in [*(f"src/a.{it}" for it in names), "a.po", "a.c.txt", "c", "a.cs", "Makefile", "a.h.in"]:
        trials.expect(f"the hook for {name}", bool(re.search(pattern, name)), bool(SOURCES.fullmatch(name)))
    trials.expect("the endings of the hook", pattern, SOURCES.pattern.replace(r".*\.(?:", r"\.(") + "$")


def try_workflow(tool, trials):
    """The command of the workflow, on a branch."""
    [command] = re.findall(
        r"^ *- run: (fmtcanon-diff .*)$", (CI / "workflow.yml").read_text(encoding="utf-8"), flags=re.MULTILINE
    )
    # A pull request is checked out as its merge with a branch, which then goes on.
    tool.put("other.c", OLD)
    tool.git("add", "other.c")
    tool.git("commit", "-qnm", "other")
    tool.git("branch", "origin/main")
    tool.git("checkout", "-qb", "request")
    tool.put("src.c", CHANGED)
    tool.git("commit", "-qnam", "request")
    tool.git("checkout", "-qb", "merge", "origin/main")
    tool.git("merge", "-q", "--no-edit", "--no-ff", "request")
    tool.git("checkout", "-q", "origin/main")
    tool.put("other.c", CHANGED)
    tool.git("commit", "-qnam", "other")
    tool.git("checkout", "-q", "merge")
    tool.environment["GITHUB_BASE_REF"] = "main"
    status, output = shell(tool, command, shell=True)
    trials.expect(f"the workflow: {output}", (status, COMMAND in output, "other.c" in output), (1, True, False))


def try_build(tool, name, tools, steps, trials):
    """The target of a build system fails where the output changes, and its test of catalogs passes."""
    if not all(
        tools.has(*it)
        for it in {
            "meson": [("meson", "meson"), ("ninja", "ninja-build")],
            "cmake": [("cmake", "cmake"), ("make", "make")],
        }[name]
    ):
        return
    setup, target, check = steps
    trials.expect(f"{name}: {setup}", shell(tool, setup)[0], 0)
    for text, passes in [(CHANGED, True), (OLD, False)]:
        tool.put("src.c", text)
        status, output = shell(tool, target)
        trials.expect(
            f"{name}: {target}: {output}", (status == 0, "src.c:3:12: error: different" in output), (passes, not passes)
        )
    status, output = shell(tool, check)
    trials.expect(f"{name}: {check}: {output}", status, 0)


def test_recipes(folder, tools, trials, work):
    tool = Tool("diff", folder, work)
    installed(tool)
    tool.git("init", "-q")
    tool.put(
        "po/de.po",
        'msgid ""\nmsgstr "Content-Type: text/plain; charset=UTF-8\\n"\n\n#, c-format\nmsgid "%d"\nmsgstr "%i"\n',
    )
    for name in ["meson.build", "CMakeLists.txt"]:
        shutil.copy(CI / name, tool.work)
    try_hook(tool, trials)
    try_entries(tool, trials)
    try_workflow(tool, trials)
    try_build(
        tool,
        "meson",
        tools,
        [
            ["meson", "setup", "build"],
            ["meson", "compile", "-C", "build", "formats"],
            ["meson", "test", "-C", "build"],
        ],
        trials,
    )
    build = "made"
    steps = [
        ["cmake", "-B", build],
        ["cmake", "--build", build, "--target", "formats"],
        ["sh", "-c", f"cd {build} && ctest"],
    ]
    try_build(tool, "cmake", tools, steps, trials)


Tests = tests_of(globals())
