"""Tries fmtcanon-diff: on changes with the verdicts written down by hand, on files, folders and git, and on what can't
be read.

more_diff.py tries its time, and pairs from a generator.
"""

import json
import subprocess
import sys

from tests.commands.diff import changes
from tests.commands.tool import Tool
from tests.frame.cases import tests_of
from tests.frame.harness import TIMEOUT, TOP, VERSION, examples

# Two files, and what is said of the second.
OLD = """\
void f(long n, int x) {
    printf("%05d\\n", x);
    printf("%s has %lu\\n", name, n);
    printf("%td\\n", n);
    printf("%d files\\n", x); puts("%d");
    printf("%d %d\\n", x, x);
    printf("%d!\\n", x);
    gone("%d");
}
"""
NEW = """\
void f(long n, int x) {
    printf("%.5d\\n", x);
    printf("%s has %d\\n", name, n);
    printf("%ld\\n", n);
    printf("%d file names\\n", x); puts("%s");
    printf("%i "
           "%d\\n", x, x);
    printf("%d%!\\n", x);
    came("%d %s", x, name); came("%d");
}
"""
LINES = """\
FILE:2:12: error: different: "%05d\\n" and "%.5d\\n" print "-0001\\n" and "-00001\\n" for -1 [different]
FILE:3:12: error: types differ at argument 2: %lu takes unsigned long and %d takes int, in "%s has %lu\\n" and "%s has %d\\n" [types]
FILE:4:12: error: same in lp64 only: "%td\\n" and "%ld\\n" [types]
FILE:5:12: note: the words differ: "%d files\\n" and "%d file names\\n" [words]
FILE:6:12: note: same: "%d %d\\n" and "%i %d\\n" [same]
FILE:8:12: error: rejected now: refused 3 Unexpected at byte 3 of "%d%!\\n" [rejected]
"""
SUMMARY = (
    "6 formats changed: 1 equivalent, 1 with other words, 1 printing differently, 2 taking different types, 1 "
    "rejected now"
    "; 2 literals added, 1 removed\n"
)
# The same of the whole language: the old and the new part of each line, and what is said of it.
WHOLE = [
    (
        'printf("%d: %f\\n", n, d);',
        'printf("%d: %e\\n", n, d);',
        'directives differ at argument 2: "%f" and "%e"',
    ),
    (
        'printf("%" DIGITS "e\\n", d);',
        'printf("%" DIGITS "e\\n", d);',
        'directives differ at argument 1: "%.3e" and "%.4e"',
    ),
    (
        'printf("%.6lf: %05d\\n", d, n);',
        'printf("%f: %.5d\\n", d, n);',
        'different: "%.6lf: %05d\\n" and "%f: %.5d\\n" print "%f: -0001\\n" and "%f: -00001\\n" for any, -1',
    ),
    ('printf("%i %.6f\\n", n, d);', 'printf("%d %f\\n", n, d);', 'same: "%i %.6f\\n" and "%d %f\\n"'),
    (
        'printf("%*d\\n", 5, n);',
        'printf("%d%d\\n", 5, n);',
        'directives differ at argument 1: "%*d" and "%d"',
    ),
]
WHOLE_KINDS = ["directives", "directives", "different", "same", "directives"]
WHOLE_SUMMARY = (
    "5 formats changed: 1 equivalent, 1 printing differently, 3 with other directives; 0 literals added, 0 removed\n"
)
UNSIGNED = 'error: types differ at argument 1: %d takes int and %u takes unsigned int, in "%d" and "%u" [types]'
USAGE = [
    ([], "give OLD and NEW, or --git"),
    (["a.c"], "give OLD and NEW, or --git"),
    (["a.c", "b.c", "c.c"], "give OLD and NEW, or --git"),
    (["--git", "a", "b", "c"], "--git takes at most two revisions"),
    (["--model", "LP64", "a.c", "b.c"], "argument --model: invalid choice: 'LP64'"),
    (["--output=xml", "a.c", "b.c"], "argument --output: invalid choice: 'xml'"),
    (["--what", "a.c", "b.c"], "--what"),
    (["--jobs", "many", "a.c", "b.c"], "argument -j/--jobs: invalid int value: 'many'"),
    (["--fail-on", "types,word", "a.c", "b.c"], "argument --fail-on: 'word' is not a kind: use same, words, "),
]


def program_of(body):
    return body if isinstance(body, bytes) else f"{changes.FRONT}int main(void) {{\n{body}\nreturn 0;\n}}\n".encode()


def printed(work, source):
    """What a program prints, or what its compiler says."""
    words = ["gcc", "-w", "-x", "c", "-o", work / "program", "-"]
    built = subprocess.run(words, input=source, timeout=TIMEOUT, check=False, capture_output=True)
    if built.returncode:
        return built.stderr
    return subprocess.run([work / "program"], timeout=TIMEOUT, check=False, stdout=subprocess.PIPE).stdout


def tool(folder, work):
    return Tool("diff", folder, work)


def test_changes(tool, trials):
    """Each change has its verdict; what is printed differently is printed differently by gcc's program."""
    for number, (_, old, new, _) in enumerate(changes.CHANGES):
        tool.put(f"old/{number:02}.c", program_of(old))
        tool.put(f"new/{number:02}.c", program_of(new))
    status, output, _ = tool.run("--verbose", "--output", "json", "old", "new")
    found = [json.loads(line) for line in output.splitlines()]
    trials.expect("the status of all changes", status, 1)
    trials.expect(
        "keys of a finding",
        [
            one
            for one in found
            if not {"file", "line", "column", "kind", "level", "message", "models", "old", "new"} <= set(one)
        ],
        [],
    )
    for number, (name, old, new, wanted) in enumerate(changes.CHANGES):
        kinds = [one["kind"] for one in found if one["file"] == f"new/{number:02}.c"]
        trials.expect(f"{name}: {old!r} and {new!r}", kinds, wanted)
        if wanted in (changes.DIFFERENT, changes.WORDS) and isinstance(old, str):
            outputs = [printed(tool.work, program_of(one)) for one in (old, new)]
            trials.expect(
                f"{name}: what is printed: {outputs}",
                outputs[0] != outputs[1] and b"error" not in b"".join(outputs),
                True,
            )
        if wanted == changes.SAME and isinstance(old, str):
            trials.expect(f"{name}: what is printed", *[printed(tool.work, program_of(one)) for one in (old, new)])


def test_lines(tool, trials):
    """The lines of each kind of finding, in files and in folders."""
    tool.put("old/src/a.c", OLD)
    tool.put("new/src/a.c", NEW)
    tool.put("old/only.c", 'f("a");')
    tool.put("new/text.txt", 'f("a");')
    plain = "".join(line for line in LINES.splitlines(keepends=True) if " same: " not in line)
    for words, file, lines, more in [
        (["old/src/a.c", "new/src/a.c"], "new/src/a.c", plain, 0),
        (["--verbose", "old/src/a.c", "new/src/a.c"], "new/src/a.c", LINES, 0),
        (["old", "new"], "new/src/a.c", plain, 1),
        (["--model=all", "old", "new/"], "new/src/a.c", plain, 1),
        (["--jobs", "1", "--", "old", "new"], "new/src/a.c", plain, 1),
    ]:
        wanted = (1, lines.replace("FILE", file), SUMMARY.replace("1 removed", f"{1 + more} removed"))
        trials.expect(f"fmtcanon-diff {words}", tool.run(*words), wanted)
    trials.expect("two files that are equal", tool.run("old/src/a.c", "old/src/a.c"), (0, "", ""))
    status, output, _ = tool.run("--model", "lp64", "--verbose", "old", "new")
    trials.expect(
        "--model lp64",
        (status, 'new/src/a.c:4:12: note: same: "%td\\n" and "%ld\\n" [same]\n' in output, "only" in output),
        (1, True, False),
    )
    tool.put("c.c", 'printf("%d\\n", x);')
    tool.put("d.c", 'printf("%i\\n", x);')
    trials.expect("what is the same", tool.run("c.c", "d.c")[:2], (0, ""))
    tool.put("d.c", 'printf("%d %y\\n", x);')
    trials.expect(
        "what is rejected now",
        tool.run("c.c", "d.c")[:2],
        (1, 'd.c:1:8: error: rejected now: refused 3 Unexpected at byte 4 of "%d %y\\n" [rejected]\n'),
    )
    trials.expect(
        "what isn't judged",
        tool.run("d.c", "c.c")[:2],
        (0, 'c.c:1:8: warning: not judged: refused 3 Unexpected at byte 4 of "%d %y\\n" [unjudged]\n'),
    )
    tool.put("c.c", 'log_error("%d", x); printf("%d", x); { "CPU% ", 1 };')
    tool.put("d.c", 'log_error("%V", x); printf("%s", x); { "MEM% ", 1 };')
    words = [
        ["--not-printf", "log_error"], ["--not-printf=other", "--not-printf=log_error"], ["--not-printf", "log_err"]
    ]
    for given, count in zip(words, [1, 1, 2]):
        lines = tool.run(*given, "c.c", "d.c")[1].splitlines()
        trials.expect(f"fmtcanon-diff {given}: {lines}", len(lines), count)
    status, output, _ = tool.run("--output", "sarif", "--verbose", "old", "new")
    log = json.loads(output)
    results = log["runs"][0]["results"]
    trials.expect(
        "the log of SARIF",
        (status, log["version"], [one["ruleId"] for one in results]),
        (1, "2.1.0", ["different", "types", "types", "words", "same", "rejected"]),
    )
    region = {"startLine": 6, "startColumn": 12, "endLine": 7, "endColumn": 18}
    trials.expect(
        "a region of it",
        results[4]["locations"][0]["physicalLocation"],
        {"artifactLocation": {"uri": "new/src/a.c"}, "region": region},
    )
    status, output, _ = tool.run("--output", "github", "old", "new")
    wanted = (
        "::error file=new/src/a.c,line=3,col=12,endColumn=25::types differ at argument 2: "
        "%25lu takes unsigned long and %25d takes int, in "
    )
    trials.expect("a command of GitHub", (status, f"\n{wanted}" in output), (1, True))
    wanted = "::notice file=new/src/a.c,line=5,col=12,endColumn=29::the words differ: "
    trials.expect("a notice of GitHub", f"\n{wanted}" in output, True)


def test_whole(tool, trials):
    """The lines of the whole language, and the finding of other directives in each form."""
    for name, digits, side in [("old.c", 3, 0), ("new.c", 4, 1)]:
        lines = "".join(f"    {one[side]}\n" for one in WHOLE)
        tool.put(name, f'#define DIGITS ".{digits}"\nvoid f(double d, int n) {{\n{lines}}}\n')
    levels = ["note" if it == "same" else "error" for it in WHOLE_KINDS]
    said = [f"{level}: {one[2]} [{kind}]" for level, one, kind in zip(levels, WHOLE, WHOLE_KINDS)]
    wanted = [f"new.c:{number}:12: {it}" for number, it in enumerate(said, 3)]
    status, output, fault = tool.run("--verbose", "old.c", "new.c")
    trials.expect("lines of the whole language", (status, output.splitlines(), fault), (1, wanted, WHOLE_SUMMARY))
    status, output, _ = tool.run("--output", "json", "old.c", "new.c")
    found = [json.loads(line) for line in output.splitlines()]
    models = ["lp64", "ilp32", "llp64"]
    finding = {
        "file": "new.c",
        "line": 3,
        "column": 12,
        "end_line": 3,
        "end_column": 22,
        "kind": "directives",
        "level": "error",
        "message": WHOLE[0][2],
        "models": models,
        "old": "%d: %f\n",
        "new": "%d: %e\n",
        "function": "printf",
        "argument": 1,
        "verdicts": {it: "directives" for it in models},
        "specification": {"line": 3, "column": 17, "end_line": 3, "end_column": 19},
    }
    trials.expect("other directives as JSON", (status, found[:1]), (1, [finding]))
    trials.expect(
        "kinds as JSON", [one["kind"] for one in found], ["directives", "directives", "different", "directives"]
    )
    trials.expect(
        "the text of a macro as JSON",
        (found[1]["old"], found[1]["new"], "specification" in found[1]),
        ("%.3e\n", "%.4e\n", False),
    )
    status, output, _ = tool.run("--output", "sarif", "old.c", "new.c")
    [one] = json.loads(output)["runs"]
    result = one["results"][0]
    trials.expect(
        "other directives in SARIF",
        (status, result["ruleId"], result["level"], result["message"]),
        (1, "directives", "error", {"text": WHOLE[0][2]}),
    )
    trials.expect(
        "the rule of other directives", one["tool"]["driver"]["rules"][result["ruleIndex"]]["id"], "directives"
    )
    region = {"startLine": 3, "startColumn": 12, "endLine": 3, "endColumn": 22}
    trials.expect(
        "the place of other directives",
        result["locations"][0]["physicalLocation"],
        {"artifactLocation": {"uri": "new.c"}, "region": region},
    )
    status, output, _ = tool.run("--output", "github", "old.c", "new.c")
    trials.expect(
        "other directives for GitHub",
        (status, output.splitlines()[0]),
        (
            1,
            '::error file=new.c,line=3,col=12,endColumn=22::directives differ at argument 2: "%25f" and "%25e"',
        ),
    )


def test_git(tool, trials):
    """The work tree, revisions and paths of a repository."""
    tool.put("src/a.c", OLD)
    tool.put("b.c", 'printf("%d\\n", x);\n' * 9)
    tool.put("notes.txt", '"%d"')
    tool.git("init", "-q")
    message = "fmtcanon-diff: git: the repository has no commits\n"
    trials.expect("a repository without commits", tool.run("--git"), (2, "", message))
    tool.git("add", ".")
    tool.git("commit", "-qm", "first")
    trials.expect("no change", tool.run("--git"), (0, "", ""))
    tool.put("src/a.c", NEW)
    tool.put("notes.txt", '"%s"')
    plain = "".join(line for line in LINES.splitlines(keepends=True) if " same: " not in line)
    wanted = (1, plain.replace("FILE", "src/a.c"), SUMMARY)
    for words in [["--git"], ["--git", "HEAD"], ["--git", "--", "src"], ["--git", "HEAD", "--", "src/a.c", "b.c"]]:
        trials.expect(f"fmtcanon-diff {words}", tool.run(*words), wanted)
    trials.expect("in a folder", tool.run("--git", "--", ".", where="src"), (1, plain.replace("FILE", "a.c"), SUMMARY))
    trials.expect("another path", tool.run("--git", "--", "b.c"), (0, "", ""))
    trials.expect("a path of another kind", tool.run("--git", "--", "notes.txt")[0], 1)
    tool.git("commit", "-qam", "second")
    tool.git("mv", "b.c", "c.c")
    tool.put("c.c", 'printf("%d\\n", x);\n' * 8 + 'printf("%u\\n", x);\n')
    tool.git("commit", "-qam", "third")
    renamed = (
        1,
        'c.c:9:8: error: types differ at argument 1: %d takes int and %u takes unsigned int, in "%d\\n" and "%u\\n'
        '" [types]\n',
        "1 format changed: 1 taking different types; 0 literals added, 0 removed\n",
    )
    for words in [
        ["--git", "HEAD~1", "HEAD"],
        ["--git", "HEAD~1..HEAD"],
        ["--git", "HEAD~1"],
        ["--git", "HEAD~1", "--", "c.c", "b.c"],
    ]:
        trials.expect(f"a file with another name: {words}", tool.run(*words), renamed)
    status, output, _ = tool.run("--git", "HEAD~2", "HEAD", "--output", "json")
    trials.expect("two commits", (status, len(output.splitlines())), (1, 6))
    for number in range(30):
        tool.put(f"many/{number:02}.c", 'f("%d");')
    tool.git("add", "many")
    tool.git("commit", "-qm", "fourth")
    for number in range(30):
        tool.put(f"many/{number:02}.c", 'f("%u");')
    status, output, _ = tool.run("--git", "--", "many")
    wanted = [f"many/{number:02}.c:1:3: {UNSIGNED}" for number in range(30)]
    trials.expect("many files", (status, output.splitlines()), (1, wanted))
    tool.git("checkout", "-q", "many")
    (tool.work / "c.c").unlink()
    trials.expect(
        "a file that went",
        tool.run("--git"),
        (
            0,
            "",
            "0 formats changed; 0 literals added, 9 removed\n",
        ),
    )
    for words, said in [
        (["--git", "nowhere"], "git: there is no revision nowhere"),
        (["--git", "--", "../outside"], "git: "),
    ]:
        status, output, fault = tool.run(*words)
        trials.expect(
            f"fmtcanon-diff {words}", (status, output, fault.startswith(f"fmtcanon-diff: {said}")), (2, "", True)
        )


def test_faults(tool, trials):
    """What can't be read is named, and the status is 2."""
    tool.put("a.c", 'printf("%d", x);')
    tool.put("b.c", b'printf("%u", x);\0')
    tool.put("folder/a.c", 'printf("%u", x);')
    for words, said in [
        (["a.c", "b.c"], "b.c: it is a binary file"),
        (["a.c", "nothing.c"], "nothing.c: No such file or directory"),
        (["a.c", "folder"], "a.c and folder: one is a folder, and the other is a file"),
    ]:
        status, output, fault = tool.run(*words)
        trials.expect(
            f"fmtcanon-diff {words}",
            (status, output, fault.startswith(f"fmtcanon-diff: {said}"), fault.count("\n")),
            (2, "", True, 1),
        )
    found = tool.run("--git", PATH=str(tool.work))
    trials.expect("no git", found, (2, "", "fmtcanon-diff: git can't be run: No such file or directory\n"))
    for words, said in USAGE:
        status, output, fault = tool.run(*words)
        trials.expect(
            f"fmtcanon-diff {words}: {fault}",
            (status, output, fault.startswith("usage: fmtcanon-diff"), said in fault.splitlines()[-1]),
            (2, "", True, True),
        )
    status, output, fault = tool.run("-h")
    trials.expect(
        "fmtcanon-diff -h",
        (status, output.startswith("usage: fmtcanon-diff [OPTION]... OLD NEW"), fault),
        (0, True, ""),
    )
    trials.expect("fmtcanon-diff --version", tool.run("--version"), (0, f"fmtcanon {VERSION}\n", ""))
    status, output, fault = tool.run("a.c", "folder/a.c", FMTCANON_LIBRARY="nowhere")
    trials.expect(
        "no library",
        (status, output, fault.startswith("fmtcanon-diff: the library of fmtcanon isn't there: ")),
        (2, "", True),
    )
    # One file that can't be read doesn't hide what is found in another.
    tool.put("old/a.c", 'printf("%d", x);')
    tool.put("old/b.c", "x")
    tool.put("new/a.c", 'printf("%u", x);')
    tool.put("new/b.c", "\0")
    status, output, fault = tool.run("old", "new")
    trials.expect(
        "a binary file in a folder",
        (status, output, fault.splitlines()[0]),
        (
            2,
            f"new/a.c:1:8: {UNSIGNED}\n",
            "fmtcanon-diff: new/b.c: it is a binary file",
        ),
    )
    # Root may read any file, except through a link that leads in a circle.
    (tool.work / "circle.c").symlink_to("circle.c")
    status, output, fault = tool.run("a.c", "circle.c")
    trials.expect(
        "a file that can't be read", (status, output, fault.startswith("fmtcanon-diff: circle.c: ")), (2, "", True)
    )


def test_document(tool, trials):
    """Each command of that part of docs/REFACTORING.md prints what is shown below it."""
    script = f"fmtcanon-diff() {{ '{sys.executable}' -m fmtcanon.diff \"$@\"; }}\n"
    for command, output in examples(TOP / "docs/REFACTORING.md", "What a change does"):
        words = ["bash", "-c", script + command]
        done = subprocess.run(
            words,
            cwd=tool.work,
            env=tool.environment,
            check=False,
            stdout=subprocess.PIPE,
            stderr=subprocess.STDOUT,
            timeout=TIMEOUT,
        )
        trials.expect(f"docs/REFACTORING.md: {command}", done.stdout.decode(), "".join(f"{line}\n" for line in output))


def test_no_repository(tool, trials):
    tool.git("--version")
    status, output, fault = tool.run("--git")
    trials.expect(
        "no repository",
        (status, output, fault.startswith("fmtcanon-diff: git: not a git repository"), fault.count("\n")),
        (2, "", True, 1),
    )


Tests = tests_of(globals())
