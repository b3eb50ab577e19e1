"""Tries the built program over standard streams that fail in the middle.

Standard output takes some bytes and then fails: each answer of worked.jsonl, whole.jsonl, opaque.jsonl, bounds.jsonl,
literals.jsonl and written.jsonl in tests/rows/, each canonical text, what `stream` settles before a refusal, what
formats print, and replies to records go out in each room that is too small for them. What the C library prints goes
into one room for each text. Standard input hands out some bytes and then fails, or ends there: formats and records are
cut after each byte. The streams are those of narrow.c. How many bytes they move a call, and the error, take turns from
run to run; in more_short_streams.py every run is made with each of them.

It needs a Linux system with gcc.
"""

import errno
import itertools
import os
from concurrent.futures import ThreadPoolExecutor

from tests.frame.cases import tests_of
from tests.frame.harness import run
from tests.program.conversations import CONVERSATIONS, fronts_of, sent_of
from tests.program.test_devices import READ_FAILED, WRITE_FAILED, library_of
from tests.program.test_rows import fields_of, rows_of, takes_unsigned, values

STEPS = [1, 2, 3, 7, 4096]
FAULTS = [errno.EIO, errno.EAGAIN, errno.EPIPE, errno.ENOSPC]
NAMES = {1: "NulByte", 2: "Truncated", 3: "Unexpected", 4: "BadPercent", 5: "Star", 6: "Numbered", 7: "WidthTooLarge"}
NAMES |= {8: "PrecisionTooLarge", 9: "Float", 10: "Pointer", 11: "Count", 12: "Wide", 13: "AltUndefined"}
NAMES |= {15: "GroupUndefined", 16: "PrecisionUndefined", 17: "LengthUndefined"}


class Narrow:
    """Runs of the program over streams that fail, a few side by side."""

    def __init__(self, program, library, trials, tries_each):
        self.program, self.library, self.trials = program, library, trials
        ways = list(itertools.product(STEPS, FAULTS))
        self.turns = itertools.cycle([ways] if tries_each else [[way] for way in ways])
        # How often a fast run is made, so that it takes more than one of the ways.
        self.rounds = 1 if tries_each else len(STEPS)
        self.asked = []

    def expect(self, words, stdin, wanted, **limits):
        """A run over streams with these limits, by ROOM and FEED, that is to end so."""
        for step, fault in next(self.turns):
            self.asked.append((words, stdin, limits | {"STEP": step, "FAULT": fault}, wanted))

    def answer(self, asked):
        words, stdin, limits, _ = asked
        environment = {**os.environ, "LD_PRELOAD": self.library, **{name: str(it) for name, it in limits.items()}}
        return run(self.program, words, stdin, env=environment)

    def end(self):
        """Makes the runs, and holds each to what it was to be."""
        with ThreadPoolExecutor(os.cpu_count()) as pool:
            for (words, stdin, limits, wanted), got in zip(self.asked, pool.map(self.answer, self.asked)):
                self.trials.expect(f"{words} over {stdin!r} with {limits}", got, wanted)


def narrow(program, work, trials, tries_each):
    library, is_made = library_of("narrow", work)
    trials.expect("narrow.c", is_made, True)
    runs = Narrow(program, library, trials, tries_each)
    yield runs
    runs.end()


def tries_each():
    return False


def try_rooms(narrow, words, stdin, text):
    """In each room that is too small just what fits goes out, and the write is reported."""
    status, line = WRITE_FAILED
    for room in range(len(text)):
        narrow.expect(words, stdin, (status, text[:room], line), ROOM=room)


def test_answers(narrow):
    """The answers of the commands, and what `stream` settles of a text and of a directive."""
    given = [row for name in ["worked", "whole", "opaque", "bounds", "literals"] for row in rows_of(f"{name}.jsonl")]
    rows = [
        (row["words"], row.get("stdin", "").encode("latin-1"), row["stdout"], row["status"])
        for row in given
        if row["status"] < 2
    ]
    texts = [row for name in ["written", "cut_directives", "canonical_formats"] for row in rows_of(f"{name}.jsonl")]
    rows += [(["stream"], text.encode("latin-1"), canonical, 0) for text, canonical in texts]
    for words, stdin, text, status in rows:
        try_rooms(narrow, words, stdin, text.encode("latin-1"))
        narrow.expect(words, stdin, (status, text.encode("latin-1"), b""), ROOM=len(text))


def test_long_answers(narrow):
    """Answers of some blocks: a room below, at and above each block's end, and some between."""
    padded = b" " * 4084 + b"%11d"
    string = b"different\ns:" + b"A" * 4096 + b"\n"
    for words, stdin, text, status in [
        (["stream"], b"%4095d" * 5, padded * 5, 0),
        (["canon", "%4095d" * 5], b"", padded * 5 + b"\n", 0),
        (["stream"], b"%.0s%.0s%4095c", b" " * 4094 + b"%.0s%.0s%c", 0),
        (["same", "%s", "%.4095s"], b"", string, 1),
    ]:
        rooms = {place + more for place in range(0, len(text), 4096) for more in (-1, 0, 1, 1000)}
        for room in sorted(it for it in rooms if 0 <= it < len(text)):
            narrow.expect(words, stdin, (WRITE_FAILED[0], text[:room], WRITE_FAILED[1]), ROOM=room)
        narrow.expect(words, stdin, (status, text, b""), ROOM=len(text))


def test_refusals(narrow):
    """What is settled is written before a refusal, which is reported even where that can't be."""
    for format, settled, number, place in rows_of("settled.jsonl"):
        text = settled.encode()
        for room in range(len(text) + 1):
            narrow.expect(["stream"], format.encode(), (2, text[:room], refusal(number, place)), ROOM=room)


def test_two_faults(narrow):
    """A read that fails is reported even if what was settled can't be written."""
    status, line = READ_FAILED
    for room in range(3):
        narrow.expect(["stream"], b"ab%5d", (status, b"ab"[:room], line), FEED=2, ROOM=room)


def test_formats(narrow):
    """What formats print, in each room that is too small, and in one that isn't."""
    rows = [
        (format, [f"n:{number}"], text)
        for name in ["numbers.txt", "vectors.txt"]
        for format, number, text in fields_of(name)
    ]
    for format, words, text in [*rows, *rows_of("formats.jsonl")]:
        words, whole = ["format", "--", format, *words], text.encode()
        try_rooms(narrow, words, b"", whole)
        narrow.expect(words, b"", (0, whole, b""), ROOM=len(whole))


def test_grid(narrow):
    """What the C library prints, each text in one room that is too small; these take turns."""
    rows = [(row[0], zip(values(int(row[1]), takes_unsigned(row[0])), row[2:])) for row in fields_of("grid.txt")]
    texts = [(format, number, text.encode()) for format, pairs in rows for number, text in pairs if text]
    status, line = WRITE_FAILED
    for turn, (format, number, text) in enumerate(texts):
        room = turn % len(text)
        narrow.expect(["format", "--", format, f"n:{number}"], b"", (status, text[:room], line), ROOM=room)


def refusal(number, place):
    return b"refused %d %s at byte %d\n" % (number, NAMES[number].encode(), place)


def try_front(narrow, text, length, answer, written, settled):
    """A text that ends after this number of bytes, or fails there: a refusal before that comes first."""
    ended = (0, written, b"") if answer is None else (2, written, refusal(*answer))
    is_refused_before = answer is not None and answer[1] < length
    failed = (2, settled, refusal(*answer)) if is_refused_before else (READ_FAILED[0], settled, READ_FAILED[1])
    for _ in range(narrow.rounds):
        narrow.expect(["stream"], text[:length], ended)
        narrow.expect(["stream"], text, failed, FEED=length)


def test_fronts(narrow):
    """Formats cut after each byte: what waits isn't settled, and what began isn't whole."""
    for row in rows_of("fronts.jsonl"):
        for length, answer, written, settled in row["fronts"]:
            try_front(narrow, row["format"].encode("latin-1"), length, answer, written.encode(), settled.encode())
    for text, literals, number, place in rows_of("cut_refusals.jsonl"):
        text = text.encode("latin-1")
        for length in range(len(text) + 1):
            front = text[: min(length, literals)]
            answer = (number, place) if length > place else (2, length) if length > literals else None
            try_front(narrow, text, length, answer, front, front)
    for row in rows_of("cut_directives.jsonl"):
        text, whole = (it.encode("latin-1") for it in row)
        for length in range(len(text) + 1):
            answer = (2, length) if 0 < length < len(text) else None
            out = whole if length == len(text) else b""
            try_front(narrow, text, length, answer, out, out)


def test_records(narrow):
    """Replies to records of each command: in each room, and to those that are whole where a read fails."""
    for words, turns, status in CONVERSATIONS:
        text, fronts = sent_of(turns), fronts_of(turns)
        replies = fronts[-1]
        ends = list(itertools.accumulate(len(sent) for sent, _ in turns))
        for _ in range(narrow.rounds if words == ["canon", "-z"] else 1):
            for room in range(len(replies)):
                narrow.expect(words, text, (WRITE_FAILED[0], replies[:room], WRITE_FAILED[1]), ROOM=room)
            narrow.expect(words, text, (status, replies, b""), ROOM=len(replies))
            for length in range(len(text) + 1):
                whole = fronts[sum(end <= length for end in ends)]
                narrow.expect(words, text, (READ_FAILED[0], whole, READ_FAILED[1]), FEED=length)


Tests = tests_of(globals())
