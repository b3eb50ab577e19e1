"""Counts instructions at two sizes: what the calls and commands take is linear in the length.

The instructions of a call are counted inside of it alone, those of a command over the whole run. From one size to
another that is four times as large they may grow a little more than four times. What grows with the square grows
sixteen times.
"""

import re
import subprocess

from tests.frame.cases import tests_of
from tests.frame.harness import TOP
from tests.library.test_library import WRAPPED, compile_with

SIZES = (10_000, 40_000)
# How much more than four times as many instructions there may be, in percent.
PERCENT = 20
SECONDS = 300
COUNTING = ["valgrind", "--tool=callgrind", "--callgrind-out-file=/dev/null"]


def counted(words, stdin=b"", more=()):
    """The status of a run, and its instructions."""
    done = subprocess.run(
        [*COUNTING, *more, *words],
        input=stdin,
        stdout=subprocess.DEVNULL,
        stderr=subprocess.PIPE,
        timeout=SECONDS,
        check=False,
    )
    found = re.search(rb"Collected : (\d+)", done.stderr)
    return done.returncode, int(found.group(1)) if found else 0


def records(*texts):
    return b"".join(text + b"\0" for text in texts)


def runs(count):
    """Runs that read, print, reduce, compare and decode `count` units: a name, the arguments, standard input, and the
    status.
    """
    respelled, normal = b"%i" * count, b"%d" * count
    literals = [b'"' + unit * count + b'"' for unit in (b"\\t", b"\\11")]
    yield "stream", ["stream"], respelled, 0
    yield "types", ["types", "-z"], records(respelled), 0
    yield "types --whole", ["types", "-z", "--whole"], records(respelled), 0
    yield "canon", ["canon", "-z"], records(respelled), 0
    yield "canon, padded", ["canon", "-z"], records(b"%5c" * count), 0
    yield "show", ["show", "-z"], records(respelled), 0
    yield "same", ["same", "-z"], records(respelled, normal), 0
    yield "same, the last differs", ["same", "-z"], records(respelled + b"%05d", normal + b"%.5d"), 1
    opaque = [b"%i%.6f" * count, b"%d%f" * count]
    yield "canon --whole", ["canon", "-z", "--whole"], records(opaque[0]), 0
    yield "same --whole", ["same", "-z", "--whole"], records(*opaque), 0
    yield "same --whole, the last differs", ["same", "-z", "--whole"], records(
        opaque[0] + b"%05d", opaque[1] + b"%.5d"
    ), 1
    yield "same --whole, the last directive differs", ["same", "-z", "--whole"], records(
        opaque[0] + b"%f", opaque[1] + b"%e"
    ), 1
    yield "fits", ["fits", "-z"], records(respelled, normal), 0
    yield "canon --literal", ["canon", "-z", "--literal"], records(literals[1]), 0
    yield "same --literal", ["same", "-z", "--literal"], records(*literals), 0
    yield "fits --literal, refused at its end", ["fits", "-z", "--literal"], records(
        literals[0], literals[0][:-1] + b'%y"'
    ), 2
    yield "format of numbers", ["format", "%d" * count, *["n:-42"] * count], b"", 0
    yield "format of strings", ["format", "%s" * count, *["s:text"] * count], b"", 0
    yield "many records", ["canon", "-z"], records(*[b"%i"] * count), 0


def expect_linear(name, ends, wanted, trials):
    """Both runs end as they are to, and the second one takes a little more than four times as many instructions at
    most.
    """
    (one, few), (other, many) = ends
    is_linear = few > 0 and many * 100 <= (400 + PERCENT) * few
    trials.expect(f"instructions of {name}: {few} and {many}", (one, other, is_linear), (wanted, wanted, True))


def test_linear(program, folder, tools, trials, work):
    """Each call of the library, and each command."""
    if not tools.has("valgrind", "valgrind"):
        return
    sizes = work / "sizes"
    words = compile_with(
        ["gcc", "-std=c99", "-O1"], TOP / "tests/library/sizes.c", sizes, folder / "libfmtcanon.a", *WRAPPED
    )
    trials.expect("sizes.c", words, (0, ""))
    names = subprocess.run([sizes], stdout=subprocess.PIPE, check=True).stdout.decode().split()
    for name in names:
        ends = [counted([sizes, str(SECONDS), str(size), name], more=["--toggle-collect=fmtcanon_*"]) for size in SIZES]
        expect_linear(f"the call {name}", ends, 0, trials)
    for few, many in zip(*map(runs, SIZES)):
        ends = [counted([program, *words], stdin) for _, words, stdin, _ in (few, many)]
        expect_linear(few[0], ends, few[3], trials)


Tests = tests_of(globals())
