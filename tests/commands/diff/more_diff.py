"""Tries the time that fmtcanon-diff takes, and pairs of the whole language from a generator."""

import json
import random
import resource
import time

from tests.commands.diff.test_diff import tool
from tests.frame.cases import tests_of
from tests.frame.harness import TIMEOUT
from tests.library.compiled_formats import (
    Trial,
    alike_pairs,
    kinds_of,
    literal,
    opaque,
    part,
    printed as said_of,
    spelled,
    unlike_pairs,
)
from tests.library.test_opaque import argument_of

# The seconds that a tree of a million lines with a thousand changed files, and a line of ten million bytes, may take.
TREE_SECONDS, LINE_SECONDS = 60, 10
# How many pairs of each kind are tried, and how many of their lists of arguments must be shortened.
PAIRS, SHORTENED = 200, 50
FILES, LINES_OF_FILE, LONG_LINE = 1_000, 1_000, 10_000_000


def timed(tool, *words):
    """What a run answers, the seconds by the clock and those of the processors."""
    before, began = resource.getrusage(resource.RUSAGE_CHILDREN), time.monotonic()
    found = tool.run(*words)
    after = resource.getrusage(resource.RUSAGE_CHILDREN)
    return found, time.monotonic() - began, after.ru_utime - before.ru_utime


def string_pairs(count):
    """Yields pairs that print another number of bytes of a string, next to directives that are spelled in several ways,
    with the kinds of the arguments.
    """
    chosen = random.Random(62)
    for _ in range(count):
        parts = [*(part(chosen) for _ in range(chosen.randrange(3))), opaque(chosen)]
        number = chosen.randrange(9, 90)
        ends = [f"%.{number}s|", chosen.choice(["%s|", f"%.{number + chosen.randrange(1, 40)}s|"])]
        chosen.shuffle(ends)
        yield (*(spelled(chosen, parts) + it for it in ends), [*kinds_of(parts), "string"])


def test_pairs(tool, module, trials):
    """Pairs of the whole language have the verdict that they are made for; for the shortened arguments gcc's program
    prints other bytes.
    """
    from fmtcanon.formats.verdicts import shortened, verdict_on

    unlike = [*unlike_pairs(PAIRS), *string_pairs(PAIRS)]
    pairs = [*((*it, ["same"]) for it in alike_pairs(PAIRS)), *((*it, ["different"]) for it in unlike)]
    for number, pair in enumerate(pairs):
        for side, text in zip(["old", "new"], pair):
            tool.put(f"{side}/{number:03}.c", f"f({literal(text)}, x);")
    _, output, _ = tool.run("--verbose", "--model", "lp64", "--output", "json", "old", "new")
    found = [json.loads(line) for line in output.splitlines()]
    for number, (first, second, _, wanted) in enumerate(pairs):
        kinds = [one["kind"] for one in found if one["file"] == f"new/{number:03}.c"]
        # Of some pairs only the words differ.
        kinds = ["different" if it == "words" else it for it in kinds]
        trials.expect(f"fmtcanon-diff of {first!r} and {second!r}", kinds, [] if first == second else wanted)
    given, count = [], 0
    for first, second, kinds in unlike:
        arguments = verdict_on(first.encode(), second.encode(), module.Model.LP64).arguments
        short = shortened(first.encode(), second.encode(), arguments, module.Model.LP64)
        count += short != arguments
        given.append(Trial(first, second, tuple(map(argument_of, short, kinds))))
    trials.expect("arguments that are shortened", count >= SHORTENED, True)
    said = said_of(given, tool.work, "C.UTF-8", 5 * TIMEOUT)
    trials.expect("arguments that are tried", len(said), len(unlike))
    for one, mark in zip(given, said):
        trials.expect(f"other bytes for shortened arguments: {one}", mark, "#")


def test_times(tool, trials):
    """A tree of a million lines with a thousand changed files, and lines of ten million bytes."""
    body = "".join(
        f'    if (x > {n}) printf("line %d of {n}: %s\\n", x + {n}, "text"); /* a comment */\n'
        for n in range(LINES_OF_FILE - 2)
    )
    for number in range(FILES):
        tool.put(f"old/{number}.c", f"void f(int x) {{\n{body}}}\n")
        tool.put(f"new/{number}.c", f"void f(int x) {{\n{body}}}\n".replace("%d of 500:", "%5d of 500:"))
    (status, output, _), seconds, of_processors = timed(tool, "old", "new")
    print(
        f"{FILES * LINES_OF_FILE} lines with {FILES} changed files: {seconds:.1f} s, {of_processors:.1f} s of "
        f"processors"
    )
    trials.expect("a tree", (status, len(output.splitlines())), (1, FILES))
    trials.expect(f"a tree in {TREE_SECONDS} seconds", seconds < TREE_SECONDS, True)
    for name, unit in [("one literal", "x%d"), ("words", "a b c ")]:
        for side, more in [("old.c", "%05d"), ("new.c", "%.5d")]:
            tool.put(side, f'f("{unit * (LONG_LINE // len(unit))}{more}");')
        (status, output, _), seconds, _ = timed(tool, "old.c", "new.c")
        trials.expect(
            f"a line of 10 MB, {name}: {output[:300]}",
            (status, output.startswith("new.c:1:3: "), len(output) < 400),
            (1, True, True),
        )
        trials.expect(
            f"a line of 10 MB, {name}, in {LINE_SECONDS} seconds: {seconds:.1f}", seconds < LINE_SECONDS, True
        )
    calls = 'f("%d", 1); ' * (LONG_LINE // 12)
    tool.put("old.c", calls + 'f("%05d", 1);' + calls[: LONG_LINE // 3])
    tool.put("new.c", calls + 'f("%.5d", 1);' + calls[: LONG_LINE // 3])
    (status, output, _), seconds, _ = timed(tool, "old.c", "new.c")
    said = 'error: different: "%05d" and "%.5d" print "-0001" and "-00001" for -1 [different]'
    wanted = f"new.c:1:{len(calls) + 3}: {said}\n"
    trials.expect("a line of 10 MB, calls", (status, output), (1, wanted))
    trials.expect(f"a line of 10 MB, calls, in {LINE_SECONDS} seconds: {seconds:.1f}", seconds < LINE_SECONDS, True)


Tests = tests_of(globals())
