"""Tries the built program over standard streams that fail, and in address spaces that are too small.

Standard output: closed; the device that is always full; a pipe whose reader has left, before or after the first bytes;
a pipe that is full and doesn't wait; a directory; standard error closed or full next to it. Standard input, for
`stream`: closed; a directory; opened for writing; a pipe that doesn't wait and has nothing; one byte at a time; a pipe
that stays open; a terminal; a file. For the other commands: a pipe that stays open, which they don't read. How many
reads and writes there are.

No run is ended by a signal, none exits with 0 or 1 with bytes missing, and nothing is written for a rejected format.

It needs a Linux system with gcc.
"""

import os
import pty
import subprocess
import tempfile
import termios
from pathlib import Path

from tests.frame.cases import tests_of
from tests.frame.harness import TIMEOUT, TOP, run

WRITE_FAILED = (4, b"write failed\n")
READ_FAILED = (4, b"read failed\n")
# A pipe has room for 64 KiB, so that this text doesn't fit.
LONG = 200
LONG_FORMAT = "%4095d" * LONG
LONG_TEXT = (b" " * 4084 + b"%11d") * LONG
# Words, standard input, the status, and all that goes to standard output.
ANSWERED = [
    (["types", "%d%s"], b"", 0, b"int\nstring\n"),
    (["canon", "%05u"], b"", 0, b"%.5u\n"),
    (["show", "x%20d%%"], b"", 0, b"text 1\ndirective %20d: int: 9 0 %11d 0\npercent\n"),
    (["format", "%5d|%s", "n:42", "s:abc"], b"", 0, b"   42|abc"),
    (["same", "%zd", "%ld"], b"", 0, b"same\n"),
    (["same", "%d", "%ld"], b"", 1, b"types differ at argument 0\n"),
    (["same", "%05d", "%.5d"], b"", 1, b"different\nn:-1\n"),
    (["same", "%05d%05d", "%.5d%.5d"], b"", 1, b"different\nn:-1\nn:0\n"),
    (["same", "%s", "%.4095s"], b"", 1, b"different\ns:" + b"A" * 4096 + b"\n"),
    (
        ["same", "--model", "all", "%zu", "%lu"],
        b"",
        1,
        b"lp64\nsame\nilp32\ntypes differ at argument 0\nllp64\ntypes differ at argument 0\n",
    ),
    (["same", "--literal", '"%d"', '"\\x25" "i"'], b"", 0, b"same\n"),
    (["fits", "%s of %d", "%2$d/%1$s"], b"", 0, b"fits\n"),
    (["fits", "%d%s", "%d%.2f"], b"", 1, b"types differ at argument 1\n"),
    (["fits", "--literal", '"%d"', '"\\x25" "i"'], b"", 0, b"fits\n"),
    (
        ["fits", "--model", "all", "%zu", "%lu"],
        b"",
        1,
        b"lp64\nfits\nilp32\ntypes differ at argument 0\nllp64\ntypes differ at argument 0\n",
    ),
    (["fits", "--fewer", "%d%s", "%d"], b"", 0, b"fits\n"),
    (["fits", "--fewer", "%d", "%d%s"], b"", 1, b"types differ at argument 1\n"),
    (["fits", "--fewer", "--literal", '"%d%s"', '"\\x25" "i"'], b"", 0, b"fits\n"),
    (
        ["fits", "--fewer", "--model", "all", "%zu%s", "%lu"],
        b"",
        1,
        b"lp64\nfits\nilp32\ntypes differ at argument 0\nllp64\ntypes differ at argument 0\n",
    ),
    (["bounds", "%d|%.3s"], b"", 0, b"2 15\n"),
    (["bounds", "id=%s"], b"", 0, b"3 unbounded\n"),
    (["bounds", "--literal", '"\\x25" "d\\t%%"'], b"", 0, b"3 13\n"),
    (["bounds", LONG_FORMAT], b"", 0, b"%d %d\n" % (4095 * LONG, 4095 * LONG)),
    (["types", "--whole", "%2$s of %1$*3$.2f"], b"", 0, b"double\nstring\nint\n"),
    (["types", "--whole", "%d" * LONG * 10], b"", 0, b"int\n" * LONG * 10),
    (["types", "--whole", "--literal", '"%Lf" "%ls"'], b"", 0, b"long double\nwide string\n"),
    (["types", "--literal", '"\\x25" "d%s"'], b"", 0, b"int\nstring\n"),
    (["canon", "--whole", "%i: %-08.6lf"], b"", 0, b"%d: %-8f\n"),
    (["canon", "--whole", "%f" * LONG * 10], b"", 0, b"%f" * LONG * 10 + b"\n"),
    (["canon", "--whole", "--literal", '"\\x25" "i\\t%.6f"'], b"", 0, b'"%d\\t%f"\n'),
    (["same", "--whole", "%.6f%i", "%f%d"], b"", 0, b"same\n"),
    (["same", "--whole", "%f%05d%p", "%f%.5d%p"], b"", 1, b"different\nany\nn:-1\nany\n"),
    (["same", "--whole", "%d%f", "%d%e"], b"", 1, b"directives differ at argument 1\n"),
    (
        ["same", "--whole", "--model", "all", "%zn", "%ln"],
        b"",
        1,
        b"lp64\nsame\nilp32\ntypes differ at argument 0\nllp64\ntypes differ at argument 0\n",
    ),
    (["same", "--whole", "--literal", '"%f"', '"\\x25" "lf"'], b"", 0, b"same\n"),
    (["canon", "--literal", '"\\x25" "i\\t%%"'], b"", 0, b'"%d\\t%%"\n'),
    (["show", "--literal", '"x" "%%"'], b"", 0, b"text 1\npercent\n"),
    (["format", "--literal", '"%5d" "|%s"', "n:42", "s:abc"], b"", 0, b"   42|abc"),
    (["stream"], b"a%.0sb%5d", 0, b"ab%.0s%5d"),
    (["canon", LONG_FORMAT], b"", 0, LONG_TEXT + b"\n"),
    (["stream"], LONG_FORMAT.encode(), 0, LONG_TEXT),
]
# They write nothing, so that no device is asked for anything.
EMPTY = [["types", "%%"], ["show", ""], ["format", "%.0s", "s:abc"], ["stream"]]
EMPTY += [
    ["types", "--whole", "%%"],
    ["types", "--literal", '"" "%%"'],
    ["show", "--literal", '""'],
    ["format", "--literal", '"%.0s"', "s:abc"],
]
UNEXPECTED = b"refused 3 Unexpected at byte 1\n"
NO_ESCAPE = b"literal 3 BadEscape at byte 1\n"
REFUSED = [
    (["types", "%y"], UNEXPECTED),
    (["canon", "%y"], UNEXPECTED),
    (["show", "%y"], UNEXPECTED),
    (["format", "%y"], UNEXPECTED),
    (["same", "%y", "%d"], b"first: " + UNEXPECTED),
    (["same", "%d", "%y"], b"second: " + UNEXPECTED),
    (["same", "--model", "all", "%d", "%y"], b"second: " + UNEXPECTED),
    (["same", "--literal", '"%d"', '"\\q"'], b"second: " + NO_ESCAPE),
    (["fits", "%y", "%d"], b"first: " + UNEXPECTED),
    (["fits", "%d", "%y"], b"second: " + UNEXPECTED),
    (["fits", "--model", "all", "%d", "%y"], b"second: " + UNEXPECTED),
    (["fits", "--literal", '"\\q"', '"%d"'], b"first: " + NO_ESCAPE),
    (["fits", "--fewer", "%y", "%d"], b"first: " + UNEXPECTED),
    (["fits", "--fewer", "--model", "all", "%d", "%y"], b"second: " + UNEXPECTED),
    (["fits", "--fewer", "--literal", '"%d"', '"\\q"'], b"second: " + NO_ESCAPE),
    (["bounds", "%y"], UNEXPECTED),
    (["bounds", "--literal", '"\\q"'], NO_ESCAPE),
    (["types", "--whole", "%5n"], b"refused 19 CountUndefined at byte 2\n"),
    (["types", "--whole", "--literal", '"\\q"'], NO_ESCAPE),
    (["types", "--literal", '"\\q"'], NO_ESCAPE),
    (["canon", "--whole", "%1$d"], b"refused 6 Numbered at byte 2\n"),
    (["canon", "--whole", "--literal", '"\\q"'], NO_ESCAPE),
    (["same", "--whole", "%y", "%f"], b"first: " + UNEXPECTED),
    (["same", "--whole", "%f", "%1$d"], b"second: refused 6 Numbered at byte 2\n"),
    (["same", "--whole", "--model", "all", "%f", "%y"], b"second: " + UNEXPECTED),
    (["same", "--whole", "--literal", '"%f"', '"\\q"'], b"second: " + NO_ESCAPE),
    (["canon", "--literal", '"\\q"'], NO_ESCAPE),
    (["canon", "--literal", '"\\x25" "y"'], b"refused 3 Unexpected at byte 8\n"),
    (["show", "--literal", '"%y"'], b"refused 3 Unexpected at byte 2\n"),
    (["format", "--literal", '"%y"'], b"refused 3 Unexpected at byte 2\n"),
    (["canon", LONG_FORMAT + "%"], b"refused 2 Truncated at byte 1201\n"),
]
# What `stream` settles before it is rejected, and the report of that, which comes even where nothing can be written.
STREAM_REFUSED = (b"a%.0sb%5d%q", b"ab%.0s%5d", b"refused 3 Unexpected at byte 10\n")
# The length of a wrong word.
WRONG = 100_000
# Words that are a fault of their own or ask for help, with the status.
NOT_ASKED = [
    (["format", "%d", "5"], 3),
    (["format", "%d"], 3),
    (["format", "%d", "n:2147483648"], 3),
    (["format", "%d", "s:x"], 3),
    (["format"], 3),
    (["nothing"], 3),
    (["canon", "--model", "both", "%d"], 3),
    (["fits", "%d"], 3),
    (["fits", "--whole", "%d", "%d"], 3),
    (["fits", "--fewer", "%d"], 3),
    (["bounds"], 3),
    (["bounds", "--model", "both", "%d"], 3),
    (["types", "--whole"], 3),
    (["canon", "--whole"], 3),
    (["same", "--whole", "%f"], 3),
    (["show", "--whole", "%d"], 3),
    (["stream", "--whole"], 3),
    (["canon", "--literal"], 3),
    (["show", "--model", "llp64"], 3),
    (["show", "-z", "--model", "llp64", "%d"], 3),
    (["x" * WRONG], 3),
    (["canon", "--model", "x" * WRONG, "%d"], 3),
    (["format", "%d", "x" * WRONG], 3),
    ([], 3),
    (["--help"], 3),
    (["same", "--help"], 3),
    (["--version"], 3),
]
# How long a run may take that has nothing to wait for, in seconds.
SOON = 60
# The program reads and writes this number of bytes in one call, or fewer.
BLOCK = 8192
# Formats whose answers have this number of bytes, below, at and above a block.
SIZES = [1, 100, BLOCK - 1, BLOCK, BLOCK + 1, 3 * BLOCK, 100_000, 1_000_000]

# Records, and how many writes reply to them: the command, how many bytes are read a call, and the writes. The third
# record has no second one.
RECORDS = b"%5c\0%*d\0%i\0"
REPLIES = [("canon", BLOCK, 1), ("same", BLOCK, 1), ("canon", 1, 3), ("same", 1, 1)]


def name_of(words):
    """The words, cut short."""
    return " ".join(words)[:60]


def left_pipe():
    """The writing end of a pipe that nobody reads."""
    reader, writer = os.pipe()
    os.close(reader)
    return writer


def full_pipe():
    """The writing end of a pipe that is full and doesn't wait, with its reading end."""
    reader, writer = os.pipe()
    os.set_blocking(writer, False)
    try:
        while True:
            os.write(writer, b"x" * 4096)
    except BlockingIOError:
        return reader, writer


def closing(streams):
    """What closes these streams in a run before it starts."""

    def close():
        for stream in streams:
            os.close(stream)

    return close


def run_over(program, words, stdin, stdout=subprocess.DEVNULL, closed=(), stderr=subprocess.PIPE):
    """The status and standard error of a run into this file descriptor, with some streams closed."""
    options = {"stdout": stdout, "stderr": stderr, "preexec_fn": closing(closed)}
    status, _, report = run(program, words, stdin, **options)
    return status, report


def failing_outputs(program, words, stdin):
    """The name of each standard output that fails, and the status and standard error of a run into it."""
    yield "closed", run_over(program, words, stdin, closed=[1])
    for name, path, flags in [("full", "/dev/full", os.O_WRONLY), ("a directory", "/", os.O_RDONLY)]:
        device = os.open(path, flags)
        yield name, run_over(program, words, stdin, device)
        os.close(device)
    writer = left_pipe()
    yield "a pipe that nobody reads", run_over(program, words, stdin, writer)
    os.close(writer)
    reader, writer = full_pipe()
    yield "a full pipe", run_over(program, words, stdin, writer)
    os.close(reader)
    os.close(writer)


def test_outputs(program, trials):
    """What is written fails, and what is rejected or empty ends as ever."""
    for words, stdin, _, _ in ANSWERED:
        for device, got in failing_outputs(program, words, stdin):
            trials.expect(f"{name_of(words)}, standard output {device}", got, WRITE_FAILED)
    for words in EMPTY:
        for device, got in failing_outputs(program, words, b""):
            trials.expect(f"{name_of(words)}, standard output {device}", got, (0, b""))
    for words, line in REFUSED:
        for device, got in failing_outputs(program, words, b""):
            trials.expect(f"{name_of(words)}, standard output {device}", got, (2, line))
    stdin, _, line = STREAM_REFUSED
    for device, got in failing_outputs(program, ["stream"], stdin):
        trials.expect(f"stream of a refused text, standard output {device}", got, (2, line))


def test_rooms(program, trials):
    """A reader that leaves after some bytes, and a pipe that doesn't wait: the first bytes went out, and it fails."""
    for words, stdin in [(["canon", LONG_FORMAT], b""), (["stream"], LONG_FORMAT.encode())]:
        for count in [1, 100, 4096, 65536]:
            with subprocess.Popen(
                [program, *words], stdin=subprocess.PIPE, stdout=subprocess.PIPE, stderr=subprocess.PIPE
            ) as process:
                process.stdin.write(stdin)
                process.stdin.close()
                front = process.stdout.read(count)
                process.stdout.close()
                line = process.stderr.read()
                status = process.wait(TIMEOUT)
            wanted = (*WRITE_FAILED, LONG_TEXT[:count])
            trials.expect(f"{name_of(words)}, read up to {count}", (status, line, front), wanted)
        reader, writer = os.pipe()
        os.set_blocking(writer, False)
        got = run_over(program, words, stdin, writer)
        os.close(writer)
        with open(reader, "rb") as pipe:
            front = pipe.read()
        trials.expect(f"{name_of(words)} into a pipe that doesn't wait", got, WRITE_FAILED)
        is_front = 0 < len(front) < len(LONG_TEXT) and LONG_TEXT.startswith(front)
        trials.expect(f"{name_of(words)}: the pipe has a front of the answer", is_front, True)


def test_errors(program, trials):
    """With standard error closed or full the status and the answer are as ever."""
    with open("/dev/full", "wb") as full:
        for closed, stderr in [([2], subprocess.DEVNULL), ([], full)]:
            for words, stdin, status, text in ANSWERED:
                got = run(program, words, stdin, stderr=stderr, preexec_fn=closing(closed))
                trials.expect(f"{name_of(words)}, no standard error", got[:2], (status, text))
            for words, _ in REFUSED:
                got, _ = run_over(program, words, b"", closed=closed, stderr=stderr)
                trials.expect(f"{name_of(words)}, no standard error", got, 2)


def test_reports(program, trials):
    """The status is as ever where the line on standard error can't be written, whatever it would say."""
    with open("/dev/full", "wb") as full:
        for closed, stderr in [([2], subprocess.DEVNULL), ([], full)]:
            for words, status in NOT_ASKED:
                got, _ = run_over(program, words, b"", closed=closed, stderr=stderr)
                trials.expect(f"{name_of(words)}, no standard error", got, status)
            for words, stdin, _, _ in ANSWERED:
                got, _ = run_over(program, words, stdin, full, closed, stderr)
                trials.expect(f"{name_of(words)}, nothing can be written", got, 4)
            device = os.open("/", os.O_RDONLY)
            got = run_from(program, device, closed, stderr)
            os.close(device)
            trials.expect("stream from a directory, no standard error", got[:2], (4, b""))


def run_idle(program, words, sent=b""):
    """The status and the streams of a run whose standard input is a pipe that stays open, with what was sent."""
    reader, writer = os.pipe()
    os.write(writer, sent)
    try:
        done = subprocess.run(
            [program, *words], stdin=reader, stdout=subprocess.PIPE, stderr=subprocess.PIPE, timeout=SOON, check=False
        )
        return done.returncode, done.stdout, done.stderr
    except subprocess.TimeoutExpired:
        return "it waits"
    finally:
        os.close(reader)
        os.close(writer)


def test_idle(program, trials):
    """A command that needs no input doesn't wait for any; `stream` reports a refusal as soon as it is there."""
    for words, _, status, text in ANSWERED:
        if words != ["stream"]:
            trials.expect(f"{name_of(words)}, an idle pipe", run_idle(program, words), (status, text, b""))
    for words, line in REFUSED:
        trials.expect(f"{name_of(words)}, an idle pipe", run_idle(program, words), (2, b"", line))
    for words, status in [*NOT_ASKED, (["stream", "--help"], 3), (["stream", "x"], 3)]:
        trials.expect(f"{name_of(words)}, an idle pipe", run_idle(program, words)[:2], (status, b""))
    text, settled, line = STREAM_REFUSED
    trials.expect("stream of a refused text, an open pipe", run_idle(program, ["stream"], text), (2, settled, line))
    front = b"x" * 1000
    trials.expect(
        "stream of a refused text with more after it, an open pipe",
        run_idle(program, ["stream"], front + b"%y" + front),
        (2, front, b"refused 3 Unexpected at byte 1001\n"),
    )


def test_terminal(program, trials):
    """One end of file is enough: a terminal gives it once, and then has more."""
    for sent, text in [(b"%5c!\n\x04", b"    %c!\n"), (b"\x04", b"")]:
        master, slave = pty.openpty()
        modes = termios.tcgetattr(slave)
        modes[3] &= ~termios.ECHO
        termios.tcsetattr(slave, termios.TCSANOW, modes)
        os.write(master, sent)
        try:
            done = subprocess.run(
                [program, "stream"],
                stdin=slave,
                stdout=subprocess.PIPE,
                stderr=subprocess.PIPE,
                timeout=SOON,
                check=False,
            )
            got = (done.returncode, done.stdout, done.stderr)
        except subprocess.TimeoutExpired:
            got = "it waits"
        os.close(master)
        os.close(slave)
        trials.expect(f"stream from a terminal that ends after {sent!r}", got, (0, text, b""))


def calls_of(program, words, text, work, stdin=None, stdout=subprocess.PIPE, **limits):
    """The reads and the writes of the standard streams in a run: the stream, what was asked for, and what was moved.

    Standard input is a pipe with the text, or a file.
    """
    notes = Path(work) / "notes"
    notes.write_text("")
    environment = {**os.environ, "LD_PRELOAD": str(Path(work) / "calls.so"), "CALLS": str(notes), **limits}
    source = {"input": text} if stdin is None else {"stdin": stdin}
    subprocess.run(
        [program, *words],
        env=environment,
        stdout=stdout,
        stderr=subprocess.PIPE,
        timeout=TIMEOUT,
        check=False,
        **source,
    )
    calls = [line.split() for line in notes.read_text().splitlines()]
    return [[tuple(map(int, numbers)) for name, *numbers in calls if name == kind] for kind in ("read", "write")]


def library_of(name, work):
    """A library for LD_PRELOAD of this file here, and whether gcc made it."""
    library = f"{work}/{name}.so"
    words = ["gcc", "-shared", "-fPIC", "-O1", "-o", library, TOP / f"tests/program/{name}.c"]
    return library, subprocess.run(words, check=False, timeout=TIMEOUT).returncode == 0


def blocks(size):
    return -(-size // BLOCK)


def test_calls(program, trials):
    """An answer is one write, and of `stream` as few as it has blocks, none of them empty; nothing but `stream`
    reads.
    """
    with tempfile.TemporaryDirectory() as work:
        trials.expect("calls.c", library_of("calls", work)[1], True)
        for words, stdin, _, text in ANSWERED:
            reads, writes = calls_of(program, words, stdin, work)
            out = [(asked, moved) for stream, asked, moved in writes if stream == 1]
            trials.expect(f"{name_of(words)}: what is written", sum(moved for _, moved in out), len(text))
            is_whole = all(asked == moved > 0 for asked, moved in out)
            trials.expect(f"{name_of(words)}: no write is empty or cut", is_whole, True)
            most = blocks(len(text)) if words == ["stream"] else 1
            trials.expect(f"{name_of(words)}: {len(out)} writes", 1 <= len(out) <= most, True)
            trials.expect(f"{name_of(words)}: nothing on standard error", [one for one in writes if one[0] == 2], [])
            if words != ["stream"]:
                trials.expect(f"{name_of(words)}: no read", reads, [])
        for words in EMPTY:
            trials.expect(f"{name_of(words)}: no write", calls_of(program, words, b"", work)[1], [])
        for words, _ in [*REFUSED, *NOT_ASKED]:
            reads, writes = calls_of(program, words, b"", work)
            is_report = [stream == 2 and asked == moved > 0 for stream, asked, moved in writes]
            trials.expect(
                f"{name_of(words)}: no read, and one write, which is the report", (reads, is_report), ([], [True])
            )
        for size in SIZES:
            reads, writes = calls_of(program, ["stream"], b"x" * size, work)
            trials.expect(f"stream of {size} bytes: writes", [one[0] for one in writes], [1] * blocks(size))
            ends = [moved for _, _, moved in reads if moved <= 0]
            moved = sum(moved for _, _, moved in reads)
            trials.expect(f"stream of {size} bytes: reads, of which one is the end", (moved, ends), (size, [0]))
            trials.expect(f"stream of {size} bytes: none is empty", all(asked for _, asked, _ in reads), True)
            trials.expect(f"stream of {size} bytes: {len(reads)} reads", len(reads) <= 2 * blocks(size) + 2, True)
        try_failed_calls(program, work, trials)


def try_failed_calls(program, work, trials):
    """After a write that fails there is one more at most, that of what waits, then the report; and no read."""
    for words, stdin in [
        (["stream"], LONG_FORMAT.encode()),
        (["canon", LONG_FORMAT], b""),
        (["canon", "-z"], b"%4095d\0" * LONG),
    ]:
        with open("/dev/full", "wb") as full:
            reads, writes = calls_of(program, words, stdin, work, stdout=full)
        streams = [stream for stream, _, _ in writes]
        fit = streams in ([1, 2], [1, 1, 2]) and len(reads) <= 1
        trials.expect(f"{name_of(words)} into a full device: writes to {streams}, and {len(reads)} reads", fit, True)


def test_replies(program, trials):
    """The replies to the records of one read are one write, made before the next read; if it fails, none follows."""
    with tempfile.TemporaryDirectory() as work:
        trials.expect("calls.c", library_of("calls", work)[1], True)
        for command, step, count in REPLIES:
            _, writes = calls_of(program, [command, "-z"], RECORDS, work, STEP=str(step))
            streams = [stream for stream, _, _ in writes if stream == 1]
            trials.expect(f"{command} -z, {step} bytes a read: writes", len(streams), count)
        with open("/dev/full", "wb") as full:
            reads, _ = calls_of(program, ["canon", "-z"], RECORDS, work, stdout=full, STEP="1")
        whole = RECORDS.index(b"\0") + 1
        trials.expect("canon -z: what is read before a write fails", [moved for _, _, moved in reads], [1] * whole)


def run_from(program, stdin, closed=(), stderr=subprocess.PIPE):
    """The status, standard output and standard error of `stream` over this file descriptor."""
    done = subprocess.run(
        [program, "stream"],
        stdin=stdin,
        stdout=subprocess.PIPE,
        stderr=stderr,
        timeout=TIMEOUT,
        check=False,
        preexec_fn=closing(closed),
    )
    return done.returncode, done.stdout, done.stderr


def test_inputs(program, trials):
    """A standard input that can't be read fails `stream`, with nothing written; other commands don't read."""
    status, line = READ_FAILED
    trials.expect("stream, standard input closed", run_from(program, subprocess.DEVNULL, [0]), (status, b"", line))
    for name, path, flags in [("a directory", "/", os.O_RDONLY), ("for writing", "/dev/null", os.O_WRONLY)]:
        device = os.open(path, flags)
        trials.expect(f"stream, standard input {name}", run_from(program, device), (status, b"", line))
        os.close(device)
    # What came before a read that fails is settled: a byte of a directive isn't, nor what waits.
    for text, settled in [(b"", b""), (b"ab", b"ab"), (b"a%.0sb%5", b"ab")]:
        reader, writer = os.pipe()
        os.set_blocking(reader, False)
        os.write(writer, text)
        got = run_from(program, reader)
        trials.expect(f"stream over a pipe that doesn't wait, after {text!r}", got, (status, settled, line))
        os.close(reader)
        os.close(writer)
    for words, _, status, text in ANSWERED:
        if words != ["stream"]:
            got = run(program, words, preexec_fn=closing([0]))
            trials.expect(f"{name_of(words)}, standard input closed", got, (status, text, b""))


def test_bytes(program, trials):
    """Input that comes a byte at a time gives what it gives in one piece."""
    for stdin, text, line in [(b"a%.0sb%5d", b"ab%.0s%5d", b""), STREAM_REFUSED]:
        with subprocess.Popen(
            [program, "stream"], stdin=subprocess.PIPE, stdout=subprocess.PIPE, stderr=subprocess.PIPE, bufsize=0
        ) as process:
            for byte in stdin:
                process.stdin.write(bytes([byte]))
            process.stdin.close()
            got = (process.stdout.read(), process.stderr.read(), process.wait(TIMEOUT))
        trials.expect(f"stream of {stdin!r} byte by byte", got, (text, line, 2 if line else 0))


def stream_between(program, source, target):
    done = subprocess.run(
        [program, "stream"], stdin=source, stdout=target, stderr=subprocess.PIPE, timeout=TIMEOUT, check=False
    )
    return done.returncode, done.stderr


def run_between_files(program, text, front):
    """`stream` from a file into a file that has a front: its status and line, the second file, and the place in the
    first.
    """
    with tempfile.TemporaryFile() as source, tempfile.TemporaryFile() as target:
        source.write(text)
        source.seek(0)
        target.write(front)
        target.flush()
        status, line = stream_between(program, source, target)
        target.seek(0)
        return status, line, target.read(), os.lseek(source.fileno(), 0, os.SEEK_CUR)


def test_files(program, trials):
    """What files show of the standard streams: how far `stream` reads, and that it appends just what it settles."""
    rest = b"x" * (3 * BLOCK)
    texts = [(b"", b""), (b"a%.0sb%5d", b"ab%.0s%5d"), (LONG_FORMAT.encode(), LONG_TEXT), (rest, rest)]
    for text, out in texts:
        got = run_between_files(program, text, b"before")
        trials.expect(f"stream of {len(text)} bytes of a file", got, (0, b"", b"before" + out, len(text)))
    text, out, _ = STREAM_REFUSED
    for before in [b"", rest[: BLOCK - 11], rest[: BLOCK - 10], rest[: BLOCK + 1]]:
        place = len(before) + 10
        status, line, found, end = run_between_files(program, before + text + rest, b"before")
        wanted = (2, b"refused 3 Unexpected at byte %d\n" % place, b"before" + before + out)
        trials.expect(f"stream of a file that is refused at byte {place}", (status, line, found), wanted)
        trials.expect(
            f"what is read of a file that is refused at byte {place}: {end}", place < end <= place + BLOCK, True
        )
    with tempfile.TemporaryFile() as source, open("/dev/full", "wb") as full:
        source.write(rest)
        source.seek(0)
        trials.expect("stream of a file that can't be written", stream_between(program, source, full), WRITE_FAILED)
        end = os.lseek(source.fileno(), 0, os.SEEK_CUR)
        trials.expect(f"it stops reading where a write fails: {end}", end < len(rest), True)


Tests = tests_of(globals())
