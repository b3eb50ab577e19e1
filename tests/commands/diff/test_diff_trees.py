"""Tries fmtcanon-diff on what git and folders have: what is staged, renamed, hidden or ignored; on names that can't be
seen; on an output that can't be written; and its exit statuses.
"""

import json
import shutil
import subprocess

from tests.commands.diff.test_diff import tool
from tests.commands.tool import Tool
from tests.frame.cases import tests_of
from tests.frame.harness import TIMEOUT

OLD, RIGHT, WRONG = (f'printf("{it}\\n", n);\n' for it in ["%05d", "%0005d", "%s"])
TYPES = (
    '{}:1:8: error: types differ at argument 1: %05d takes int and %s takes string, in "%05d\\n" and "%s\\n" [types]\n'
)
# The old and the new argument of a call, the options, and the exit status.
STATUSES = [
    ("%05d", "%.5d", [], 1),
    ("%05d", "%.5d", ["--fail-on", "types"], 0),
    ("%05d", "%.5d", ["--fail-on=types,different"], 1),
    ("%05d", "%.5d", ["--fail-on", ""], 0),
    ("%d files", "%d file names", [], 0),
    ("%d files", "%d file names", ["--fail-on", "words"], 1),
    ("%d", "%s", [], 1),
    ("%d", "%s", ["--fail-on", "words,directives,different,rejected,unjudged,same"], 0),
    ("%f", "%e", [], 1),
    ("%f", "%e", ["--fail-on", "directives"], 1),
    ("%f", "%e", ["--fail-on", "types,different,rejected"], 0),
    ("%d", "%y", [], 1),
    ("%d", "%y", ["--fail-on", "rejected"], 1),
    ("%d", "%y", ["--fail-on", "unjudged,types"], 0),
    ("%y", "%d", [], 0),
    ("%y", "%d", ["--fail-on", "unjudged"], 1),
    ("%d", "%i", [], 0),
    ("%d", "%i", ["--fail-on", "same"], 1),
    # The words differ, and in two data models the types.
    ("%ld items", "%td pieces", [], 1),
    ("%ld items", "%td pieces", ["--model", "lp64"], 0),
    ("%ld items", "%td pieces", ["--fail-on", "different"], 0),
]
# A file that git finds again under another name, though its format changed.
BODY = "".join(f"int name_{number};\n" for number in range(20))
# How many files are renamed, and how many git would look at by its configuration.
RENAMED, LIMIT = 4, 1
# A program that git runs by its configuration, and the file that it leaves.
WATCHER = '#!/bin/sh\necho run > "{}"\nprintf "token\\0"\n'
FORGED = "\n::stop-commands::abc\n.c"


def repository(tool, **files):
    """A repository with one commit of files, whose names have `_` for a dot."""
    tool.git("init", "-q")
    for name, text in files.items():
        tool.put(name.replace("_", "."), text)
    tool.git("add", ".")
    tool.git("commit", "-qm", "first")


def test_cached(tool, trials):
    """What is staged is judged with --cached, and the work tree without it."""
    repository(tool, a_c=OLD, b_c=OLD)
    tool.put("a.c", WRONG)
    tool.git("add", "a.c")
    tool.put("a.c", OLD)
    wrong = (1, TYPES.format("a.c"))
    trials.expect("a bad change that is staged alone", tool.run("--git")[:2], (0, ""))
    for words in [["--git", "--cached"], ["--cached", "--git", "HEAD"], ["--git", "--cached", "--", "a.c"]]:
        trials.expect(f"fmtcanon-diff {words}", tool.run(*words)[:2], wrong)
    trials.expect("another path", tool.run("--git", "--cached", "--", "b.c")[:2], (0, ""))
    tool.git("reset", "-q")
    tool.put("a.c", WRONG)
    tool.put("b.c", RIGHT)
    tool.git("add", "b.c")
    trials.expect("a bad change that isn't staged", tool.run("--git")[:2], wrong)
    trials.expect("a harmless change that is staged", tool.run("--git", "--cached")[:2], (0, ""))
    for words in [["--cached"], ["--cached", "a.c", "b.c"], ["--git", "--cached", "HEAD", "HEAD"]]:
        status, output, fault = tool.run(*words)
        trials.expect(
            f"fmtcanon-diff {words}: {fault}", (status, output, "--cached needs --git" in fault), (2, "", True)
        )


def test_renamed(tool, trials):
    """Each file that was renamed is judged, however many there are, and with changes that aren't staged."""
    repository(tool, **{f"f{number}_c": OLD + BODY.replace("name", f"n{number}") for number in range(RENAMED)})
    tool.git("config", "diff.renameLimit", str(LIMIT))
    for number in range(RENAMED):
        tool.git("mv", f"f{number}.c", f"g{number}.c")
        tool.put(f"g{number}.c", WRONG + BODY.replace("name", f"n{number}"))
    lines = "".join(TYPES.format(f"g{number}.c") for number in range(RENAMED))
    trials.expect("renamed files with changes that aren't staged", tool.run("--git")[:2], (1, lines))
    tool.git("add", ".")
    trials.expect("renamed files with staged changes", tool.run("--git")[:2], (1, lines))
    tool.git("commit", "-qm", "second")
    for words in [["HEAD~1", "HEAD"], ["HEAD~1..HEAD"], ["HEAD~1"]]:
        trials.expect(f"renamed files, {words}", tool.run("--git", *words)[:2], (1, lines))


def test_revisions(tool, trials):
    """A...B begins at the merge base, and a bare repository has revisions, too."""
    repository(tool, a_c=OLD, b_c=OLD)
    tool.git("checkout", "-qb", "side")
    tool.put("a.c", WRONG)
    tool.git("commit", "-qam", "side")
    tool.git("checkout", "-q", "-")
    tool.put("b.c", WRONG)
    tool.git("commit", "-qam", "other")
    line = TYPES.format("a.c")
    trials.expect("from the merge base", tool.run("--git", "HEAD...side")[:2], (1, line))
    trials.expect("from the merge base to HEAD", tool.run("--git", "side...")[:2], (1, TYPES.format("b.c")))
    trials.expect("both sides", len(tool.run("--git", "HEAD..side")[1].splitlines()), 2)
    for revision in ["nowhere...side", "side...nowhere"]:
        wanted = (2, "", "fmtcanon-diff: git: there is no revision nowhere\n")
        trials.expect(f"fmtcanon-diff --git {revision}", tool.run("--git", revision), wanted)
    tool.git("checkout", "-q", "--orphan", "alone")
    tool.git("commit", "-qm", "alone")
    status, _, fault = tool.run("--git", "side...alone")
    trials.expect(f"no merge base: {fault}", (status, "side and alone have no merge base" in fault), (2, True))
    tool.git("clone", "-q", "--bare", ".", "bare")
    for revisions in [["side~1", "side"], ["side~1..side"]]:
        found = tool.run("--git", *revisions, where="bare")
        trials.expect(f"a bare repository, {revisions}", found[:2], (1, line))
    status, output, fault = tool.run("--git", where="bare")
    trials.expect("the work tree of a bare repository", (status, output, fault.count("\n")), (2, "", 1))


def test_configuration(tool, trials):
    """The program that a repository names to watch its files isn't run."""
    repository(tool, a_c=OLD)
    mark = tool.work / "mark"
    tool.put("watch", WATCHER.format(mark)).chmod(0o755)
    tool.git("config", "core.fsmonitor", str(tool.work / "watch"))
    tool.put("a.c", WRONG)
    trials.expect("the work tree", tool.run("--git")[:2], (1, TYPES.format("a.c")))
    trials.expect("the program that watches files was run", mark.exists(), False)
    tool.git("status", "-s")
    trials.expect("git runs it otherwise", mark.exists(), True)


def test_promised(tool, trials):
    """An object that is missing isn't fetched: for that git would run what the repository names."""
    (tool.work / "new").mkdir()
    made = Tool("diff", tool.folder, tool.work / "new")
    repository(made, a_c=OLD, b_c=OLD)
    made.put(".gitignore", "*.o\n")
    made.git("add", ".")
    made.git("commit", "-qm", "second")
    made.git("update-index", "--skip-worktree", ".gitignore")
    (made.work / ".gitignore").unlink()
    for folder in (made.work / ".git/objects").glob("??"):
        shutil.rmtree(folder)
    mark = tool.work / "mark"
    for name, value in [
        ("core.repositoryformatversion", "1"),
        ("extensions.partialClone", "o"),
        ("remote.o.promisor", "true"),
        ("remote.o.url", "ssh://x/y"),
        ("core.sshCommand", f"touch {mark}; false"),
        ("protocol.ext.allow", "always"),
    ]:
        made.git("config", name, value)
    made.put("c.c", OLD)
    tool.put("old/c.c", OLD)
    for url in ["ssh://x/y", f"ext::touch {mark}"]:
        made.git("config", "remote.o.url", url)
        status, output, fault = tool.run("old", "new")
        found = (status, output, fault.endswith("; 2 literals added, 0 removed\n"), mark.exists())
        trials.expect(f"a missing object of a folder, {url}", found, (0, "", True, False))
        status, output, fault = made.run("--git")
        found = (status, output, mark.exists())
        trials.expect(f"a missing object of a repository, {url}: {fault}", found, (2, "", False))
        words = ["git", "cat-file", "-e", "1" * 40]
        subprocess.run(words, cwd=made.work, env=made.environment, check=False, stderr=subprocess.DEVNULL)
        trials.expect(f"git runs it otherwise, {url}", mark.exists(), True)
        mark.unlink()


def test_submodule(tool, trials):
    """A submodule that changed is named, and not compared."""
    repository(tool, a_c=OLD)
    (tool.work / "inner").mkdir()
    inner = Tool("diff", tool.folder, tool.work / "inner")
    repository(inner, a_c=OLD)
    tool.git("-c", "protocol.file.allow=always", "submodule", "--quiet", "add", "./inner", "lib")
    tool.git("commit", "-qm", "second")
    trials.expect("a submodule as it was", tool.run("--git"), (0, "", ""))
    line = "lib:1: warning: a submodule that changed isn't compared [unjudged]\n"
    tool.put("lib/new.c", OLD)
    trials.expect("a submodule with a file that git doesn't know", tool.run("--git")[:2], (0, ""))
    tool.put("lib/a.c", WRONG)
    trials.expect("a submodule with changes that aren't committed", tool.run("--git")[:2], (0, ""))
    made, mark = Tool("diff", tool.folder, tool.work / "lib"), tool.work / "mark"
    made.git("commit", "-qam", "third")
    trials.expect("a submodule with another commit", tool.run("--git"), (0, line, ""))
    status, output, _ = tool.run("--git", "--fail-on", "unjudged", "--output", "json")
    found = json.loads(output)
    trials.expect("as JSON", (status, found["file"], found["kind"], found["level"]), (1, "lib", "unjudged", "error"))
    trials.expect("other paths", tool.run("--git", "--", "a.c")[:2], (0, ""))
    trials.expect("--exclude", tool.run("--git", "--exclude", "lib")[:2], (0, ""))
    tool.put("watch", WATCHER.format(mark)).chmod(0o755)
    made.git("config", "core.fsmonitor", str(tool.work / "watch"))
    trials.expect("with a program that watches its files", (tool.run("--git")[:2], mark.exists()), ((0, line), False))
    made.git("config", "--unset", "core.fsmonitor")
    tool.git("add", "lib")
    for words in [["--git"], ["--git", "--cached"]]:
        trials.expect(f"fmtcanon-diff {words}", tool.run(*words)[:2], (0, line))
    tool.git("commit", "-qm", "fourth")
    trials.expect("two revisions", tool.run("--git", "HEAD~1", "HEAD")[:2], (0, line))


def test_moved(tool, trials):
    """Of two folders, a file that has another name is compared by what it contains."""
    for number in range(RENAMED):
        text = BODY.replace("name", f"n{number}")
        tool.put(f"old/f{number}.c", OLD + text)
        tool.put(f"new/src/f{number}.c", OLD + text)
    tool.put("new/src/f1.c", WRONG + BODY.replace("name", "n1"))
    tool.put("old/gone.c", OLD + BODY.replace("name", "gone"))
    tool.put("new/more.c", OLD)
    status, output, fault = tool.run("old", "new")
    found = (status, output, fault.endswith("; 1 literals added, 1 removed\n"))
    trials.expect(f"files in another folder: {fault}", found, (1, TYPES.format("new/src/f1.c"), True))


def test_ignored(tool, trials):
    """In folders, what git ignores is left out, unless it ignores the whole folder."""
    tool.git("init", "-q")
    tool.put(".gitignore", "made.c\n/out/\n")
    for side, text in [("old", OLD), ("new", WRONG), ("out/old", OLD), ("out/new", WRONG)]:
        tool.put(f"{side}/a.c", text)
        tool.put(f"{side}/made.c", text)
    trials.expect("ignored files", tool.run("old", "new")[:2], (1, TYPES.format("new/a.c")))
    lines = "".join(TYPES.format(f"out/new/{name}.c") for name in ["a", "made"])
    trials.expect("ignored folders", tool.run("out/old", "out/new")[:2], (1, lines))
    trials.expect("an ignored file by its name", tool.run("old/made.c", "new/made.c")[0], 1)
    tool.git("add", "-f", "new/made.c")
    status, output, fault = tool.run("old", "new")
    found = (status, output, fault.endswith("; 1 literals added, 0 removed\n"))
    trials.expect("a file that git has, though it is ignored", found, (1, TYPES.format("new/a.c"), True))


def test_left_out(tool, trials):
    """Hidden files and folders, and those of --exclude, are left out."""
    names = ["a.c", ".pc/a.c", "src/.b.c", "src/b.c", "src/lib/c.c", "lib/d.c", "lib/e.h"]
    for side, text in [("old", OLD), ("new", WRONG)]:
        for name in names:
            tool.put(f"{side}/{name}", text)
    for globs, left in [
        ([], ["a.c", "lib/d.c", "lib/e.h", "src/b.c", "src/lib/c.c"]),
        (["lib"], ["a.c", "src/b.c"]),
        (["src/lib"], ["a.c", "lib/d.c", "lib/e.h", "src/b.c"]),
        (["src/*"], ["a.c", "lib/d.c", "lib/e.h"]),
        (["*.c"], ["lib/e.h"]),
        (["[ab].c", "*.h"], ["lib/d.c", "src/lib/c.c"]),
        (["new", "c", "lib/d", ""], ["a.c", "lib/d.c", "lib/e.h", "src/b.c", "src/lib/c.c"]),
    ]:
        words = [it for glob in globs for it in ["--exclude", glob]]
        lines = "".join(TYPES.format(f"new/{name}") for name in left)
        trials.expect(f"fmtcanon-diff {words}", tool.run(*words, "old", "new")[:2], (1, lines))
    trials.expect("a hidden file by its name", tool.run("old/src/.b.c", "new/src/.b.c")[0], 1)


def test_excluded(tool, trials):
    """--exclude leaves out files of git, too."""
    repository(tool, a_c=OLD)
    tool.put("lib/b.c", OLD)
    tool.git("add", ".")
    tool.git("commit", "-qm", "second")
    tool.put("a.c", WRONG)
    tool.put("lib/b.c", WRONG)
    for globs, left in [(["lib"], ["a.c"]), (["lib/*.c"], ["a.c"]), (["a.c"], ["lib/b.c"])]:
        words = [it for glob in globs for it in ["--exclude", glob]]
        lines = "".join(TYPES.format(name) for name in left)
        trials.expect(f"fmtcanon-diff --git {words}", tool.run("--git", *words)[:2], (1, lines))


def test_names(tool, trials):
    """Names that can't be seen are escapes, in findings and in errors."""
    tool.put(f"old/z{FORGED}", OLD)
    tool.put(f"new/z{FORGED}", WRONG + "\0")
    for form in ["text", "json", "sarif", "github"]:
        status, output, fault = tool.run("--output", form, "old", "new")
        forged = [it for it in (output + fault).splitlines() if it.startswith("::stop")]
        trials.expect(f"a name that is a command, as {form}: {fault}", (status, forged), (2, []))
    trials.expect("its error", r"new/z\n::stop-commands::abc\n.c: it is a binary file" in fault, True)
    tool.put("old/a\x1b[31m\x9b.c", OLD)
    tool.put("new/a\x1b[31m\x9b.c", WRONG)
    status, output, _ = tool.run("old", "new")
    trials.expect("a name with escapes", (status, output), (2, TYPES.format(r"new/a\x1b[31m\x9b.c")))


def test_statuses(tool, trials):
    """The kinds of findings for which the status is 1, whose level is error."""
    for old, new, words, wanted in STATUSES:
        tool.put("old.c", f'printf("{old}", x);')
        tool.put("new.c", f'printf("{new}", x);')
        status, output, _ = tool.run("--output", "json", *words, "old.c", "new.c")
        levels = [json.loads(line)["level"] == "error" for line in output.splitlines()]
        trials.expect(
            f"the status of {old} and {new} with {words}", (status, levels), (wanted, [bool(wanted)] * len(levels))
        )
        trials.expect(f"lines of {old} and {new} with {words}", len(levels), int(wanted or (old, new) != ("%d", "%i")))


def test_outputs(tool, trials):
    """Output that can't be written is said in one line, with the status 2."""
    tool.put("a.c", OLD)
    tool.put("b.c", WRONG)
    for name, redirection in [("closed", ">&-"), ("full", "> /dev/full")]:
        for form in ["text", "json", "sarif", "github"]:
            done = subprocess.run(
                ["sh", "-c", f'exec "$@" {redirection}', "sh", *tool.words, "--output", form, "a.c", "b.c"],
                cwd=tool.work,
                env=tool.environment,
                check=False,
                stderr=subprocess.PIPE,
                timeout=TIMEOUT,
            )
            said = done.stderr.decode().splitlines()
            lines = [it for it in said if it.startswith("fmtcanon-diff: standard output")]
            trials.expect(f"{name} output, {form}: {said}", (done.returncode, len(lines), len(said)), (2, 1, 1))
    status, output, _ = tool.run("a.c", "b.c")
    done = subprocess.run(
        ["sh", "-c", 'exec "$@" 2>&-', "sh", *tool.words, "a.c", "b.c"],
        cwd=tool.work,
        env=tool.environment,
        check=False,
        stdout=subprocess.PIPE,
        timeout=TIMEOUT,
    )
    trials.expect("closed standard error", (done.returncode, done.stdout.decode()), (status, output))


Tests = tests_of(globals())
