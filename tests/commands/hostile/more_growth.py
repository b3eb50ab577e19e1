"""Tries that time grows no faster than what is read, and that odd options and signals leave nothing.

It needs libclang and gcc.
"""

import os
import time

from tests.commands.hostile.hostile import HEAD, Folder, held
from tests.frame.cases import tests_of

# Ends by a signal as soon as there is a folder for the new baseline.
STOPPED = """
import os, signal, sys
from fmtcanon.checker import command
make = os.mkdir
def made(path, *more, **others):
    make(path, *more, **others)
    if ".fmtcanon-" in str(path):
        os.kill(os.getpid(), signal.SIGTERM)
os.mkdir = made
sys.exit(command.main(["--no-cache", "--baseline", "known.json", "--update-baseline", "b.c"]))
"""
# How long the lines that differ take to be found in texts of few different lines.
COMPARED = """
import random, sys, time
from fmtcanon.checker.changes import changed_lines
chosen = random.Random(1)
for size, kinds in ((5_000, 130), (20_000, 130), (5_000, 600), (20_000, 600)):
    texts = [b"\\n".join(b"%d;" % chosen.randrange(kinds) for _ in range(size)) for _ in range(2)]
    began = time.process_time()
    list(changed_lines(*texts))
    print(time.process_time() - began)
"""


@held
def test_unclosed_strings():
    """31,000 quotes with backslashes, and 22,500 raw strings, in less than 10 seconds."""
    quotes = "void f(void) { x(" + '"\\' * 31_000 + "\n" + 'printf("%d", 1); }\n'
    raw = "void f(void) { x(" + 'R"x(a\n' * 22_500 + 'printf("%d", 1); }\n'
    bad = []
    for name, text in (("quotes", quotes), ("raw", raw)):
        folder = Folder()
        folder.put("a.c", '"\\' * 31_000 if name == "quotes" else text)
        folder.put("b.c", folder.work.joinpath("a.c").read_text().replace("x(", "y(") + "\n;\n")
        for words in (
            ["diff", "a.c", "b.c"],
            ["explain", "--at", "a.c:1:1"],
            ["replace", "--dry-run", "%d", "%i", "a.c"],
        ):
            began = time.monotonic()
            done = folder.run(*words, seconds=30)
            if done[0] is None or time.monotonic() - began > 10:
                bad.append((name, words[0], round(time.monotonic() - began)))
    return not bad or str(bad)


@held
def test_seconds():
    """Seconds of 1e400 don't end the server."""
    folder = Folder()
    folder.put("a.c", '#include <stdio.h>\nvoid f(long n) { printf("%d\\n", n); }\n')
    done = folder.opened(json='{"seconds": 1e400}', wait=25, seconds=60)
    return ("Traceback" not in done[2] and "wrong size" in done[1]) or str(done)


@held
def test_a_baseline_that_is_interrupted():
    """--update-baseline that ends by a signal as soon as it has made a folder leaves none, nor a torn file."""
    folder = Folder()
    folder.put("b.c", HEAD + 'void f(size_t z) { printf("%lu\\n", z); }\n')
    folder.run("check", "--baseline", "known.json", "b.c")
    before = (folder.work / "known.json").read_bytes()
    done = folder.run_python(STOPPED)
    left = [it.name for it in folder.work.iterdir() if it.name.startswith(".fmtcanon-")]
    is_whole = (folder.work / "known.json").read_bytes() == before
    return (done[0] == 143 and not left and is_whole) or f"{left} {done}"


def seconds_since(before):
    """The seconds of processors that processes used which ended since then."""
    after = os.times()
    return after.children_user + after.children_system - before.children_user - before.children_system


@held
def test_many_comments():
    """4,000 comments `fmtcanon: ok` and as many calls, in less than 12 seconds."""
    folder = Folder()
    folder.put("a.c", "#include <stdio.h>\nvoid f(size_t n) {\n" + 'printf("%d", n); // fmtcanon: ok\n' * 4_000 + "}\n")
    before = os.times()
    done = folder.run("check", "--no-cache", "a.c", seconds=240)
    used = seconds_since(before)
    return used < 12 or f"{used:.0f} s of a processor, {done[0]}"


@held
def test_lines_that_come_again():
    """Changed files of few different lines: four times as many lines take less than eight times as long."""
    status, output, fault = Folder().run_python(COMPARED)
    taken = [*map(float, output.split())] if status == 0 else []
    is_quick = taken and taken[1] < 8 * taken[0] + 0.1 and taken[3] < 8 * taken[2] + 0.1
    return is_quick or f"{taken} {fault[-200:]}"


def check_time(small, large, make):
    taken = []
    for size in (small, large):
        folder = Folder()
        folder.put("x.c", make(size))
        before = os.times()
        folder.run("check", "--no-cache", "x.c", seconds=240)
        taken.append(seconds_since(before))
    return taken[1] < 1.7 * large / small * taken[0] or f"{small}: {taken[0]:.1f} s, {large}: {taken[1]:.1f} s"


@held
def test_uses_of_a_wrong_macro():
    """Five times as many uses of a wrong macro take at most 8.5 times as long."""
    return check_time(
        1_500,
        7_500,
        lambda n: '#include <stdio.h>\n#define M(x) printf("%d\\n", x)\nvoid f(size_t z){\n' + "M(z);\n" * n + "}\n",
    )


@held
def test_adjacent_literals():
    """Five times as many literals in a call take at most 8.5 times as long."""
    return check_time(1_000, 5_000, lambda n: "#include <stdio.h>\nvoid f(size_t z){printf(" + '"%d" ' * n + ",z);}\n")


Tests = tests_of(globals())
