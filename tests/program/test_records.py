"""Tries the built program over records: conversations, many of them, long ones, records without an end, and devices
that fail.

It needs a Linux system with gcc.
"""

import os
import subprocess
import tempfile
import threading

from tests.frame.cases import tests_of
from tests.frame.harness import TIMEOUT, run
from tests.program.conversations import CONVERSATIONS, fronts_of, name_of, sent_of
from tests.program.test_devices import READ_FAILED, SOON, WRITE_FAILED, blocks, calls_of, library_of

TIMES = 1_000
MANY = 1_000_000
LONG = 100_000_000
RECORDS = b"%5c\0%*d\0%i\0"
REPLIES = [b"0     %c\0", b"2 refused 5 Star at byte 1\0", b"0 %d\0"]
WHOLE = b"".join(REPLIES)
# A run over this number of records, and a record of this number of bytes, whose reads and writes are counted.
COUNTED = 1_000
COUNTED_BYTES = 1_000_000


def reply_to(process, sent):
    """The bytes up to a NUL that come after these were sent; fewer where the program ends."""
    process.stdin.write(sent)
    reply = b""
    while not reply.endswith(b"\0"):
        byte = process.stdout.read(1)
        if not byte:
            break
        reply += byte
    return reply


def test_conversation(program, trials):
    """Each record is answered before the next one is sent, or each two.

    A program that doesn't flush would wait for ever.
    """
    for words, turns, wanted in [
        (["canon", "-z"], [(b"%%i %d\0" % at, b"0 %%d %d\0" % at) for at in range(1, TIMES + 1)], 0),
        (["same", "-z"], [(b"%%%dd\0%%%dd\0" % (at, at), b"0 same\0") for at in range(1, TIMES + 1)], 0),
        *CONVERSATIONS,
    ]:
        with subprocess.Popen([program, *words], stdin=subprocess.PIPE, stdout=subprocess.PIPE, bufsize=0) as process:
            watch = threading.Timer(SOON, process.kill)
            watch.start()
            wrong = [sent for sent, reply in turns if reply_to(process, sent) != reply]
            process.stdin.close()
            got = (wrong, process.stdout.read(), process.wait(TIMEOUT))
            watch.cancel()
        trials.expect(f"a conversation of {len(turns)} with {words}", got, ([], b"", wanted))


def test_many(program, trials):
    """A million records, and one of 100 million bytes with and without NUL after it."""
    got = run(program, ["canon", "-z"], b"x\0" * MANY)
    trials.expect("a million records of one byte", got == (0, b"0 x\0" * MANY, b""), True)
    long = b"y" * LONG
    for after in [b"", b"\0%y\0"]:
        wanted = (
            (2, b"0 " + long + b"\0" + b"2 refused 3 Unexpected at byte 1\0", b"")
            if after
            else (0, b"0 " + long + b"\0", b"")
        )
        trials.expect(
            f"a record of {LONG} bytes, and then {after!r}", run(program, ["canon", "-z"], long + after) == wanted, True
        )


def test_calls(program, trials):
    """What comes in one read is read in one call, and its replies go out in one write, whatever the command."""
    with tempfile.TemporaryDirectory() as work:
        trials.expect("calls.c", library_of("calls", work)[1], True)
        reads, writes = calls_of(program, ["canon", "-z"], RECORDS, work)
        trials.expect(
            "reads of three records, the last at the end", [moved for _, _, moved in reads], [len(RECORDS), 0]
        )
        trials.expect("writes of their replies", [(stream, moved) for stream, _, moved in writes], [(1, len(WHOLE))])
        for words, turns, _ in CONVERSATIONS:
            times = COUNTED // len(turns) + 1
            text, replies = sent_of(turns) * times, fronts_of(turns)[-1] * times
            try_counted(program, words, text, len(replies), work, trials)
        long = b"y" * COUNTED_BYTES + b"\0"
        try_counted(program, ["canon", "-z"], long, len(long) + 2, work, trials, 1)
        count = COUNTED_BYTES // len("string\n")
        try_counted(program, ["types", "-z"], b"%s" * count + b"\0", count * len("string\n") + 2, work, trials, 1)


def try_counted(program, words, text, replied, work, trials, most=None):
    """No more reads than blocks and the end, and no more writes than reads, or than are given, none of them empty or
    cut.
    """
    with tempfile.TemporaryFile() as source:
        source.write(text)
        source.seek(0)
        reads, writes = calls_of(program, words, None, work, stdin=source)
    name = f"{name_of(words)}, {len(text)} bytes"
    moved = [moved for _, _, moved in reads]
    trials.expect(
        f"{name}: reads", (sum(moved), moved.count(0), len(reads) <= blocks(len(text)) + 2), (len(text), 1, True)
    )
    out = [(asked, moved) for stream, asked, moved in writes if stream == 1]
    is_whole = all(asked == moved > 0 for asked, moved in out)
    is_few = len(out) <= (most or min(len(reads), blocks(replied)))
    trials.expect(
        f"{name}: {len(out)} writes", (sum(moved for _, moved in out), is_whole, is_few), (replied, True, True)
    )


def test_ends(program, trials):
    """Records without an end: a run ends where its replies can't be written, and reads no file to its end then."""
    for words, turns, _ in CONVERSATIONS:
        with open("/dev/zero", "rb") as endless, open("/dev/full", "wb") as full:
            trials.expect(
                f"{name_of(words)} of records without an end, into a full device",
                ended(program, words, endless, full),
                WRITE_FAILED,
            )
            reader, writer = os.pipe()
            left = threading.Thread(target=lambda end=reader: (os.read(end, 1), os.close(end)))
            left.start()
            trials.expect(
                f"{name_of(words)} of records without an end, into a pipe that is left",
                ended(program, words, endless, writer),
                WRITE_FAILED,
            )
            os.close(writer)
            left.join()
        with tempfile.TemporaryFile() as source, open("/dev/full", "wb") as full:
            text = sent_of(turns) * 10_000
            source.write(text)
            source.seek(0)
            trials.expect(
                f"{name_of(words)} of a file into a full device", ended(program, words, source, full), WRITE_FAILED
            )
            end = os.lseek(source.fileno(), 0, os.SEEK_CUR)
            trials.expect(
                f"{name_of(words)} stops reading where a write fails: {end} of {len(text)}", end < len(text), True
            )


def ended(program, words, stdin, stdout):
    """The status and standard error of a run that has to end soon."""
    try:
        done = subprocess.run(
            [program, *words], stdin=stdin, stdout=stdout, stderr=subprocess.PIPE, timeout=SOON, check=False
        )
        return done.returncode, done.stderr
    except subprocess.TimeoutExpired:
        return "it goes on"


def test_devices(program, trials):
    """Before a read that fails the records that are whole have their replies; and a write that fails is reported."""
    for text, count in [(b"", 0), (b"%5", 0), (b"%5c\0%", 1), (RECORDS, 3), (RECORDS + b"x", 3)]:
        reader, writer = os.pipe()
        os.set_blocking(reader, False)
        os.write(writer, text)
        done = subprocess.run(
            [program, "canon", "-z"],
            stdin=reader,
            stdout=subprocess.PIPE,
            stderr=subprocess.PIPE,
            timeout=TIMEOUT,
            check=False,
        )
        got = (done.returncode, done.stderr, done.stdout)
        trials.expect(
            f"canon -z over a pipe that doesn't wait, after {text!r}", got, (*READ_FAILED, b"".join(REPLIES[:count]))
        )
        os.close(reader)
        os.close(writer)
    with open("/dev/full", "wb") as full:
        status, _, line = run(program, ["canon", "-z"], RECORDS, stdout=full)
        trials.expect("canon -z into a full device", (status, line), WRITE_FAILED)
    for step in range(1, len(RECORDS) + 1):
        with subprocess.Popen(
            [program, "canon", "-z"], stdin=subprocess.PIPE, stdout=subprocess.PIPE, bufsize=0
        ) as process:
            for at in range(0, len(RECORDS), step):
                process.stdin.write(RECORDS[at : at + step])
            process.stdin.close()
            got = (process.stdout.read(), process.wait(TIMEOUT))
        trials.expect(f"canon -z of {step} bytes at a time", got, (WHOLE, 2))


Tests = tests_of(globals())
