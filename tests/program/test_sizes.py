"""Tries the program and the C library over long formats: what they answer, within a time.

Each run may take fifty times what it took when its row was written: a run whose time grows with the square of the
length takes more, and one on a slow machine takes less. All answers are worked out from the lengths. It needs a Linux
system with gcc.
"""

import math
import os
import resource
import subprocess
import tempfile
import threading

from tests.frame.cases import tests_of
from tests.frame.harness import TIMEOUT, TOP, run
from tests.library.test_library import WRAPPED, compile_with

# A run may take this many times the seconds of a processor that its row has.
TIMES = 50
DIRECTIVES, ARGUMENTS, ESCAPES, FIRST_EQUAL = 300_000, 500_000, 1_000_000, 40_000
# More than a megabyte of two bytes a unit.
MEGABYTE = 700_000
# Texts of two bytes a unit, or more.
LARGE = 20_000_000
LONG_RECORD = 400_000_000
PIECE = 1 << 20
# The most directives that a word has room for, whose largest length Linux has as MAX_ARG_STRLEN.
WORD = ((1 << 17) - 1) // 2
# Linux gives arguments no more room than this, whatever the limit of the stack.
MOST_ROOM = 6 << 20
# Rows of tests/library/sizes.c: the number of units, and the seconds that it took.
CALLS = [
    ("check", DIRECTIVES, 0.01),
    ("refused", DIRECTIVES, 0.03),
    ("is_canonical", DIRECTIVES, 0.01),
    ("canonical_length", DIRECTIVES, 0.03),
    ("canonical", DIRECTIVES, 0.05),
    ("types", ARGUMENTS, 0.02),
    ("bounds", DIRECTIVES, 0.02),
    ("same", DIRECTIVES, 0.4),
    ("compare", DIRECTIVES, 0.1),
    ("compare_last", FIRST_EQUAL, 0.06),
    ("compare_two", FIRST_EQUAL, 0.06),
    ("arguments", ARGUMENTS, 0.02),
    ("fits", ARGUMENTS, 0.04),
    ("fits_fewer", ARGUMENTS, 0.1),
    ("directives", ARGUMENTS, 0.1),
    ("specifications", ARGUMENTS, 0.4),
    ("literal_runs", DIRECTIVES, 0.4),
    ("whole_profile", MEGABYTE, 1.2),
    ("canonical", MEGABYTE, 0.1),
    ("compare", MEGABYTE, 0.2),
    ("whole_canonical", DIRECTIVES, 0.3),
    ("whole_same", DIRECTIVES, 1.2),
    ("whole_compare_last", FIRST_EQUAL, 0.06),
    ("whole_compare_stars", FIRST_EQUAL, 0.06),
    ("decode_literal", ESCAPES, 0.06),
    ("encode_literal", ESCAPES, 0.04),
    ("source_offset", ESCAPES, 0.04),
    ("check", LARGE, 0.1),
    ("is_canonical", LARGE, 0.3),
    ("types", LARGE, 0.3),
    ("bounds", LARGE, 0.9),
    ("arguments", LARGE, 0.4),
    ("fits", LARGE, 0.8),
    ("fits_fewer", LARGE, 3.4),
    ("decode_literal", LARGE, 0.8),
    ("encode_literal", LARGE, 0.6),
    ("source_offset", LARGE, 0.6),
]


def records(*texts):
    return b"".join(text + b"\0" for text in texts)


def literal(unit, end=b""):
    """A string literal of many escapes."""
    return b'"' + unit * ESCAPES + end + b'"'


def of_directives():
    """Rows of many directives: the words, standard input, how it ends, and the seconds that it took."""
    respelled, normal = b"%i" * DIRECTIVES, b"%d" * DIRECTIVES
    many = b"%d" * ARGUMENTS
    yield ["stream"], respelled, (0, normal), 0.03
    yield ["canon", "-z"], records(respelled), (0, records(b"0 " + normal)), 0.05
    yield ["show", "-z"], records(respelled), (
        0,
        records(b"0 " + b"\n".join([b"directive %i: int: 0 0 %d 0"] * DIRECTIVES)),
    ), 0.08
    yield ["same", "-z"], records(respelled, normal), (0, records(b"0 same")), 0.05
    yield ["same", "-z", "--model", "all"], records(respelled, normal), (
        0,
        records(b"0 lp64\nsame\nilp32\nsame\nllp64\nsame"),
    ), 0.15
    opaque, plain = b"%i%lf" * DIRECTIVES, b"%d%f" * DIRECTIVES
    yield ["canon", "--whole", "-z"], records(opaque), (0, records(b"0 " + plain)), 0.4
    yield ["same", "-z", "--whole"], records(opaque, plain), (0, records(b"0 same")), 1.0
    types = records(b"0 " + b"\n".join([b"int"] * ARGUMENTS))
    yield ["types", "-z"], records(many), (0, types), 0.03
    yield ["types", "-z", "--whole"], records(many), (0, types), 0.03
    yield ["fits", "-z"], records(many + b"%f", many + b"%f"), (0, records(b"0 fits")), 0.05
    yield ["fits", "-z", "--model", "all"], records(many, many), (
        0,
        records(b"0 lp64\nfits\nilp32\nfits\nllp64\nfits"),
    ), 0.15
    line = b"1 types differ at argument %d" % ARGUMENTS
    yield ["fits", "-z"], records(many + b"%f", many + b"%s"), (1, records(line)), 0.05
    yield ["same", "-z"], records(many + b"%d", many + b"%s"), (1, records(line)), 0.05


def of_arguments():
    """Rows of many arguments: the last one differs or is wrong."""
    front = "%d" * (FIRST_EQUAL - 1)
    answer = b"different\n" + b"n:0\n" * (FIRST_EQUAL - 1) + b"n:-1\n"
    yield ["same", front + "%05d", front + "%.5d"], b"", (1, answer), 0.03
    given = ["n:0"] * (FIRST_EQUAL - 1)
    yield ["format", front + "%5d", *given, "n:-1"], b"", (0, b"0" * (FIRST_EQUAL - 1) + b"   -1"), 0.05
    yield ["format", front + "%5d", *given, "s:x"], b"", (3, b""), 0.05
    yield ["format", "%d" * WORD, *(f"n:{at % 10}" for at in range(WORD))], b"", (
        0,
        "".join(str(at % 10) for at in range(WORD)).encode(),
    ), 0.1


def of_escapes():
    """Rows of string literals of many escapes."""
    tabs, numbers, plain = literal(b"\\t"), literal(b"\\11"), b"2 %s at byte %d"
    last = 2 * ESCAPES + 1
    yield ["canon", "-z", "--literal"], records(numbers), (0, records(b"0 " + tabs)), 0.08
    yield ["canon", "-z", "--literal"], records(literal(b"\\t", b"\\q")), (
        2,
        records(plain % (b"literal 3 BadEscape", last)),
    ), 0.05
    yield ["show", "-z", "--literal"], records(tabs), (0, records(b"0 text %d" % ESCAPES)), 0.05
    yield ["types", "-z", "--literal"], records(literal(b"\\t", b"%y")), (
        2,
        records(plain % (b"refused 3 Unexpected", last + 1)),
    ), 0.05
    wrong = literal(b"\\t", b"%5n")
    yield ["types", "-z", "--whole", "--literal"], records(wrong), (
        2,
        records(plain % (b"refused 19 CountUndefined", last + 2)),
    ), 0.05
    for command, yes in [("same", b"same"), ("fits", b"fits")]:
        yield [command, "-z", "--literal"], records(numbers, tabs), (0, records(b"0 " + yes)), 0.05
    line = plain % (b"second: refused 3 Unexpected", last + 1)
    yield ["fits", "-z", "--literal"], records(tabs, literal(b"\\t", b"%y")), (2, records(line)), 0.08
    yield ["same", "-z", "--literal"], records(tabs, literal(b"\\t", b"%y")), (2, records(line)), 0.05


def seconds_of(program, words, stdin, most):
    """How a run ends that is killed after `most` seconds of a processor, and the seconds that it took."""
    before = resource.getrusage(resource.RUSAGE_CHILDREN)
    limit = lambda: resource.setrlimit(resource.RLIMIT_CPU, (most, most))  # noqa: E731
    status, stdout, _ = run(program, words, stdin, preexec_fn=limit)
    after = resource.getrusage(resource.RUSAGE_CHILDREN)
    return (status, stdout), after.ru_utime + after.ru_stime - before.ru_utime - before.ru_stime


def test_runs(program, trials):
    """Long formats through each command."""
    for words, stdin, wanted, took in [*of_directives(), *of_arguments(), *of_escapes()]:
        got, seconds = seconds_of(program, words, stdin, math.ceil(TIMES * took))
        name = f"{' '.join(words)[:30]} .. over {len(stdin)} bytes, {seconds:.2f} seconds"
        trials.expect(name, (got == wanted, got[0], seconds <= TIMES * took), (True, wanted[0], True))


def test_calls(folder, trials):
    """Long texts through each call of the C library, some of 40 million bytes."""
    with tempfile.TemporaryDirectory() as work:
        program = f"{work}/sizes"
        words = compile_with(
            ["gcc", "-std=c99", "-O1"], TOP / "tests/library/sizes.c", program, folder / "libfmtcanon.a", *WRAPPED
        )
        trials.expect("sizes.c", words, (0, ""))
        names = run(program, [])[1].decode().split()
        trials.expect("rows of sizes.c", sorted(names), sorted({name for name, _, _ in CALLS}))
        for name, units, took in CALLS:
            got = run(program, [str(math.ceil(TIMES * took)), str(units), name])
            trials.expect(f"{name} over {units} units", got, (0, b"", b""))


def test_words(program, trials):
    """As many arguments as the system allows: each is counted."""
    # An argument takes its bytes, a NUL byte and an address. The system keeps some room for itself.
    count = (min(os.sysconf("SC_ARG_MAX"), MOST_ROOM) - (1 << 14)) // (len("n:1") + 1 + 8)
    line = b"argument count: wanted 1, given %d\n" % count
    trials.expect(f"{count} words", run(program, ["format", "%d", *["n:1"] * count], env={}), (3, b"", line))


def send(pipe, parts):
    """Writes these parts, unless the program ends before."""
    try:
        for part in parts:
            pipe.write(part)
        pipe.close()
    except BrokenPipeError:
        pass


def test_record(program, trials):
    """A record that is four times as long as the longest one elsewhere."""
    with subprocess.Popen(
        [program, "canon", "-z"], stdin=subprocess.PIPE, stdout=subprocess.PIPE, bufsize=0
    ) as process:
        piece = b"y" * PIECE
        count, rest = divmod(LONG_RECORD, PIECE)

        sender = threading.Thread(target=send, args=(process.stdin, [piece] * count + [b"y" * rest + b"\0"]))
        sender.start()
        front, found, last = process.stdout.read(2), 0, b""
        while part := process.stdout.read(PIECE):
            found, last = found + part.count(b"y"), part[-1:]
        sender.join()
        got = (front, found, last, process.wait(TIMEOUT))
    trials.expect(f"a record of {LONG_RECORD} bytes", got, (b"0 ", LONG_RECORD, b"\0", 0))


Tests = tests_of(globals())
