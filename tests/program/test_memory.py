"""Tries the built program where memory is refused, and measures what it holds.

Address spaces: each command in spaces that grow by a page at a time, until it succeeds. Allocations: each allocation of
each command refused, one a run, and each of a run over records. What is held: over few records and over many of each
command, and in a conversation with a gigabyte of replies. A program that leaks 64 bytes a record is measured the same
way, and has to be found.

A space may be too small for the system to start the program, which it then kills, or its loader ends it: the sizes are
printed. It needs a Linux system with gcc.
"""

import os
import resource
import subprocess
import tempfile
from bisect import bisect_right
from concurrent.futures import ThreadPoolExecutor
from pathlib import Path

from tests.frame.cases import tests_of
from tests.frame.harness import TIMEOUT, TOP, run
from tests.program.conversations import CONVERSATIONS, fronts_of, name_of as name_of_all, sent_of
from tests.program.test_devices import ANSWERED, NOT_ASKED, REFUSED, WRONG, library_of, name_of

OUT_OF_MEMORY = (4, b"out of memory\n")
# The records or pairs of two runs, and how many KiB more than the first the second may hold: more than random addresses
# make it seem, and less than 40,000 times 64 bytes.
FEW, MANY = 1_000, 41_000
SLACK = 1_024
# The replies of a long conversation, and how many canonical texts of 4,088 bytes each has: more than 2^30 bytes in all.
REPLIES, TEXTS = 1_030, 256
# The most that it may hold, in KiB.
MOST_HELD = 16_384
# In this many pages more than the program needs to start each answer is made.
MOST_PAGES = 1_024
# The bytes of a long record, and how many allocations more than a short one it may take: buffers grow in large steps.
LONG_RECORD, FEW_ALLOCATIONS = 1_000_000, 40


def run_within(program, words, stdin, size):
    """The status and the streams of a run in an address space of `size` bytes."""
    return run(program, words, stdin, preexec_fn=lambda: resource.setrlimit(resource.RLIMIT_AS, (size, size)))


def is_killed(got):
    """Whether the system killed a program that it couldn't start."""
    status, stdout, stderr = got
    return status < 0 and stdout == b"" and stderr == b""


def is_not_started(got):
    """Whether the system couldn't start the program: it was killed, or the loader had no room for the libraries."""
    status, stdout, stderr = got
    has_no_room = status == 127 and stdout == b"" and (b"shared libraries" in stderr or b"TLS" in stderr)
    return has_no_room or is_killed(got)


def least_space(program, fails):
    """The smallest address space, in pages, in which a run doesn't fail so."""
    low, high = 1, 1 << 16
    while low < high:
        middle = (low + high) // 2
        if fails(run_within(program, ["types", "%y"], b"", middle << 12)):
            low = middle + 1
        else:
            high = middle
    return low


def test_spaces(program, trials):
    """In each space in which the program starts it succeeds, or says that memory is out and has written nothing."""
    loader, start = least_space(program, is_killed), least_space(program, is_not_started)
    print(f"the system kills the program in less than {loader * 4} KiB, and its loader fails in less than {start * 4}")
    few = range(1, start, 8)
    ended = [is_not_started(run_within(program, ["canon", "%d"], b"", pages << 12)) for pages in few]
    trials.expect("in no smaller space the program starts", all(ended), True)
    rows = [(words, stdin, (status, text, b"")) for words, stdin, status, text in ANSWERED]
    rows += [(words, b"", (2, b"", line)) for words, line in REFUSED]
    for words, stdin, answer in rows:
        refused, got = 0, None
        for pages in range(start, start + MOST_PAGES):
            got = run_within(program, words, stdin, pages << 12)
            # Long words take room before the program starts.
            if got == (4, b"", b"out of memory\n"):
                refused += 1
            elif refused > 0 or not is_not_started(got):
                break
        trials.expect(f"{name_of(words)} in {pages} pages", got, answer)
        trials.expect(f"{name_of(words)} is out of memory in less", refused > 0, True)


def growth_ends(program, words, stdin, library, answer, count):
    """How each run ends in which one allocation is refused, or all from it on: as ever, out of memory or otherwise."""
    names = {answer: "as ever", (4, b"", b"out of memory\n"): "out of memory"}
    for flags in [{}, {"ALL": "1"}]:
        environment = {**os.environ, "LD_PRELOAD": library, **flags}
        with ThreadPoolExecutor(os.cpu_count()) as pool:
            runs = pool.map(
                lambda number: run(program, words, stdin, env={**environment, "GROWTH": str(number)}), range(count + 1)
            )
        yield [names.get(got, "otherwise") for got in runs]


def test_growths(program, trials):
    """If allocations are refused from one on, whichever it is, memory is out, and nothing was written.

    Where it is one alone, too, except for the room of the list of the words, which std asks for ahead, and then again
    as the words come; and where `clap` finds a fault, for what it takes to look for a tip. Then the end is as ever.
    """
    rows = [(words, stdin, (status, text, b"")) for words, stdin, status, text in ANSWERED]
    rows += [(words, b"", (2, b"", line)) for words, line in REFUSED]
    rows += [(words, b"", run(program, words)) for words, _ in NOT_ASKED if WRONG not in map(len, words)]
    with tempfile.TemporaryDirectory() as work:
        library, is_made = library_of("growths", work)
        trials.expect("growths.c", is_made, True)
        for words, stdin, answer in rows:
            notes = Path(work) / "notes"
            notes.write_text("")
            got = run(program, words, stdin, env={**os.environ, "LD_PRELOAD": library, "GROWTHS": str(notes)})
            trials.expect(f"{name_of(words)}, no growth refused", got == answer, True)
            count = len(notes.read_text())
            one, all_after = growth_ends(program, words, stdin, library, answer, count)
            trials.expect(
                f"{name_of(words)}: each of {count} growths and all after it",
                all_after,
                ["out of memory"] * count + ["as ever"],
            )
            trials.expect(f"{name_of(words)}: another end of one refused", {"otherwise"} & set(one), set())
            if (words, answer[0]) not in NOT_ASKED:
                trials.expect(f"{name_of(words)}: refused and not reported", one[:-1].count("as ever"), 1)


def count_growths(program, words, stdin, library, notes):
    """How many allocations a run makes."""
    notes.write_text("")
    run(program, words, stdin, env={**os.environ, "LD_PRELOAD": library, "GROWTHS": str(notes)})
    return len(notes.read_text())


def test_record_growths(program, trials):
    """Where an allocation is refused, all replies to the records before the one that it is for are out, and no part of
    another.
    """
    with tempfile.TemporaryDirectory() as work:
        library, is_made = library_of("growths", work)
        trials.expect("growths.c", is_made, True)
        notes = Path(work) / "notes"
        for words, turns, _ in CONVERSATIONS:
            stdin, fronts = sent_of(turns), fronts_of(turns)
            # How many allocations there are up to the reply to each record.
            counts = [
                count_growths(program, words, sent_of(turns[:count]), library, notes) for count in range(len(turns) + 1)
            ]
            trials.expect(f"{name_of_all(words)}: a record takes memory: {counts}", counts[0] < counts[-1], True)
            for number in range(counts[-1]):
                wanted = (*OUT_OF_MEMORY, fronts[max(bisect_right(counts, number) - 1, 0)])
                for flags in [{"ALL": "1"}, {}] if number >= counts[0] else [{"ALL": "1"}]:
                    environment = {**os.environ, "LD_PRELOAD": library, "GROWTH": str(number), **flags}
                    status, stdout, stderr = run(program, words, stdin, env=environment)
                    trials.expect(
                        f"{name_of_all(words)}: allocation {number} refused, {flags}", (status, stderr, stdout), wanted
                    )
        counts = [
            count_growths(program, ["canon", "-z"], text, library, notes)
            for text in [b"y\0", b"y" * LONG_RECORD + b"\0"]
        ]
        trials.expect(
            f"allocations for a record of a byte, and of {LONG_RECORD}: {counts}",
            counts[1] <= counts[0] + FEW_ALLOCATIONS,
            True,
        )


def compiled(name, work):
    """A program of this file here."""
    program = f"{work}/{name}"
    subprocess.run(["gcc", "-O0", "-o", program, TOP / f"tests/program/{name}.c"], check=True, timeout=TIMEOUT)
    return program


def held_over(held, program, words, text):
    """The status of a run over these records, and the most memory that it held, in KiB."""
    notes = Path(held + ".notes")
    with tempfile.TemporaryFile() as source:
        source.write(text)
        source.seek(0)
        words = [held, notes, program, *words]
        done = subprocess.run(
            words, stdin=source, stdout=subprocess.DEVNULL, stderr=subprocess.PIPE, timeout=TIMEOUT, check=False
        )
    return done.returncode, int(notes.read_text())


def grows(held, program, words, turns):
    """Whether a run over many records holds more than one over few, how both end, and what they hold."""
    text = sent_of(turns)
    runs = [held_over(held, program, words, text * (count // len(turns))) for count in [FEW, MANY]]
    return runs[1][1] > runs[0][1] + SLACK, runs


def test_held(program, trials):
    """What a run holds doesn't grow with the number of records, whether these are accepted, differ or are refused."""
    with tempfile.TemporaryDirectory() as work:
        held, leaking = compiled("held", work), compiled("leaking", work)
        for words, is_found in [([], True), (["none"], False)]:
            found, runs = grows(held, leaking, words, [(b"\0", b"0 \0")])
            trials.expect(
                f"a program that holds what it takes is found: {runs}",
                (found, [one[0] for one in runs]),
                (is_found, [0, 0]),
            )
        for words, turns, status in CONVERSATIONS:
            found, runs = grows(held, program, words, turns)
            trials.expect(
                f"memory over {name_of_all(words)}: {runs}", (found, [one[0] for one in runs]), (False, [status] * 2)
            )


def test_long_conversation(program, trials):
    """A gigabyte of replies, each as it is to be, from a program that holds little."""
    reply = b"0 " + (b" " * 4084 + b"%11d") * TEXTS + b"\0"
    with tempfile.TemporaryDirectory() as work, tempfile.TemporaryFile() as source:
        held, notes = compiled("held", work), Path(work) / "notes"
        source.write((b"%4095d" * TEXTS + b"\0") * REPLIES)
        source.seek(0)
        with subprocess.Popen(
            [held, notes, program, "canon", "-z"], stdin=source, stdout=subprocess.PIPE, bufsize=1 << 20
        ) as process:
            wrong = sum(process.stdout.read(len(reply)) != reply for _ in range(REPLIES))
            got = (wrong, process.stdout.read(), process.wait(TIMEOUT))
        most = int(notes.read_text())
    trials.expect(f"{REPLIES * len(reply)} bytes of replies", got, (0, b"", 0))
    trials.expect("they are more than a gigabyte", REPLIES * len(reply) > 1 << 30, True)
    trials.expect(f"they take {most} KiB", most <= MOST_HELD, True)


Tests = tests_of(globals())
