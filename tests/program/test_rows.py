"""Tries the built program and the C library on the rows of tests/rows, which are plain data.

Each file of rows begins with where its expected values come from.
"""

import ctypes
import itertools
import json
import re

from tests.frame.cases import tests_of
from tests.frame.harness import TOP, run

ROWS = TOP / "tests/rows"
MODELS = ["lp64", "ilp32", "llp64"]
FLAGS = "-+ #0'"
LENGTHS = ["", "hh", "h", "l", "ll", "j", "z", "t"]
CONVERSIONS = "diuoxXbcs"
GREATEST = 4095
# Linux takes no longer word, with the NUL at its end.
LONGEST_WORD = 131_072


def rows_of(name):
    """The rows of a file with a row of JSON a line, after the line that says where they come from."""
    lines = (ROWS / name).read_text(encoding="utf-8").splitlines()
    assert "source" in json.loads(lines[0])
    return [json.loads(line) for line in lines[1:]]


def fields_of(name):
    """The rows of a file with a row a line, in which `|` comes after each field, and `#` before a remark."""
    lines = (ROWS / name).read_text(encoding="utf-8").splitlines()
    return [line.split("|")[:-1] for line in lines if not line.startswith("#")]


def answer(program, command, model, *words, stdin=b""):
    """The status and the two streams of a command in a data model, over words that may begin with a minus."""
    return run(program, [command, "--model", model, "--", *words], stdin)


def printed(program, model, format, words):
    """What a format prints for the words, or the status and the line where it prints nothing."""
    status, stdout, stderr = answer(program, "format", model, format, *words)
    return stdout if status == 0 and not stderr else (status, stderr)


def test_commands(program, trials):
    """Each run ends, writes and reports as its row says."""
    for row in rows_of("worked.jsonl"):
        wanted = (row["status"], row["stdout"].encode("latin-1"), row["stderr"].encode())
        trials.expect(row["words"], run(program, row["words"]), wanted)


def try_streams(program, trials, name):
    """Runs over words and over records, by all that they leave."""
    for row in rows_of(name):
        status, stdout, stderr = run(program, row["words"], row.get("stdin", "").encode("latin-1"))
        wanted_err = stderr if row["stderr"] is None else row["stderr"].encode()
        trials.expect(
            row["words"], (status, stdout, stderr), (row["status"], row["stdout"].encode("latin-1"), wanted_err)
        )


def test_streams(program, trials):
    for name in ["records", "literals", "whole", "opaque", "errno", "bounds"]:
        try_streams(program, trials, f"{name}.jsonl")


def test_usages(program, trials):
    """Help and usage errors go to standard error alone."""
    for words, begins in rows_of("usages.jsonl"):
        status, stdout, stderr = run(program, words)
        trials.expect(words, (status, stdout, stderr[: len(begins)]), (3, b"", begins.encode()))


# The reader: by the bytes of standard input, by the pieces of a word, and by a call of the library.


def refusal_of(result):
    """The kind and the place of a run's refusal; None where the text is accepted."""
    status, _, stderr = result
    found = re.fullmatch(rb"refused (\d+) \w+ at byte (\d+)\n", stderr)
    if status == 2 and found:
        return [int(number) for number in found.groups()]
    return None if (status, stderr) == (0, b"") else result


def library_refusal(module, text):
    try:
        module.check(text)
    except module.Refused as refusal:
        return [int(refusal.kind), refusal.byte]
    return None


def try_text(program, module, trials, text, wanted):
    """Each way to read a text gives this."""
    name = text if len(text) < 99 else text[:20] + b".." + text[-20:]
    trials.expect(f"the library on {name}", library_refusal(module, text), wanted)
    trials.expect(f"stream on {name}", refusal_of(run(program, ["stream"], text)), wanted)
    # An argument can't hold NUL.
    if b"\0" not in text and len(text) < LONGEST_WORD:
        trials.expect(f"show on {name}", refusal_of(answer(program, "show", "lp64", text)), wanted)


def test_refused(program, module, trials):
    """Each row is rejected at its byte for its reason, or accepted, however it is read."""
    for name in ["refused.jsonl", "grammar.jsonl"]:
        for text, kind, at in rows_of(name):
            try_text(program, module, trials, text.encode(), kind and [kind, at])


def byte_answers(row, everywhere):
    """What each of the 256 bytes does after the front of a row: the refusal, or None, of the front with that byte."""
    front = row["front"]
    for byte in map(chr, range(256)):
        kinds = [
            int(kind) for rows in (row["refused"], everywhere) for kind, letters in rows.items() if byte in letters
        ]
        if byte in row["goes_on"]:
            # The text ends in the middle of an item.
            yield byte, [2, len(front) + 1]
        elif byte in row["ends"]:
            yield byte, None
        else:
            yield byte, [(kinds or [3])[0], len(front)]


def test_bytes(program, module, trials):
    """Each byte after each beginning of a specification goes on, ends it, or is rejected, as the grammar has it."""
    everywhere, *rows = rows_of("bytes.jsonl")
    for row in rows:
        for byte, wanted in byte_answers(row, everywhere["refused"]):
            text = (row["front"] + byte).encode("latin-1")
            trials.expect(f"the library on {text}", library_refusal(module, text), wanted)
            trials.expect(f"stream on {text}", refusal_of(run(program, ["stream"], text)), wanted)


def test_hostile(program, module, trials):
    """A million flags or digits, and numbers that are small again modulo a power of two."""
    for front, middle, count, back, kind, at in rows_of("hostile.jsonl"):
        text = front.encode() + middle.encode() * count + back.encode()
        try_text(program, module, trials, text, kind and [kind, at])


def test_flags(program, module, trials):
    """Each flag is defined with each conversion, or rejected at it, as the standard's table has it."""
    for conversion, kinds in rows_of("flags.jsonl"):
        for flag, kind in zip(FLAGS, kinds, strict=True):
            try_text(program, module, trials, f"%{flag}{conversion}".encode(), [kind, 2] if kind else None)


# What directives and formats print.


def values(bits, is_unsigned):
    """0, 1, -1, and the smallest and the largest number of this many bits; an unsigned type has those of the same bits.
    """
    half = 1 << bits - 1
    return [0, 1, 2 * half - 1, half, half - 1] if is_unsigned else [0, 1, -1, -half, half - 1]


def binary_values(bits, is_unsigned):
    return [0, 1, 2, 5, 255, (1 << bits) - 1 if is_unsigned else -1]


def takes_unsigned(format):
    """Whether the argument is of an unsigned type; of one byte or two it is an int."""
    return format[-1] not in "di" and not re.search(r"h+.$", format)


def length_of(format):
    return re.search(r"[hljzt]*(?=.$)", format).group()


def with_length(format, length):
    return re.sub(r"[hljzt]*(?=.$)", length, format, count=1)


def try_texts(program, trials, model, format, numbers, texts):
    """A directive prints these texts of the numbers, in one run with a line for each."""
    whole = "\n".join([format] * len(numbers))
    words = [f"n:{number}" for number in numbers]
    trials.expect(f"{model} {format} of {words}", printed(program, model, whole, words), "\n".join(texts).encode())


# The modifiers under which another data model prints what LP64 prints under this one, except those that name other
# bits there.
ALIKE = {
    "ilp32": {"": ["", "l", "z", "t"], "hh": ["hh"], "h": ["h"], "ll": ["ll", "j"], "j": ["ll", "j"]},
    "llp64": {"": ["", "l"], "hh": ["hh"], "h": ["h"], "ll": ["ll", "j", "z", "t"], "j": ["ll", "j", "z", "t"]},
}


def whole_text(field, byte):
    """A text in which the longest run of a byte is given by its length: what comes before, how often, what comes
    after.
    """
    head, count, tail = field.split("~")
    return head + byte * int(count) + tail


def test_grid(program, trials):
    """Each integer conversion under each modifier prints what a C library prints, in each data model."""
    for format, bits, *texts in fields_of("grid.txt"):
        numbers = values(int(bits), takes_unsigned(format))
        try_texts(program, trials, "lp64", format, numbers, texts)
        for model, alike in ALIKE.items():
            for length in alike.get(length_of(format), []):
                try_texts(program, trials, model, with_length(format, length), numbers, texts)
    for format, bits, byte, *fields in fields_of("long.txt"):
        numbers = values(int(bits), takes_unsigned(format))
        try_texts(program, trials, "lp64", format, numbers, [whole_text(field, byte) for field in fields])
    for format, bits, *texts in fields_of("shapes.txt"):
        try_texts(program, trials, "lp64", format, binary_values(int(bits), takes_unsigned(format)), texts)


def test_numbers(program, trials):
    """Single directives print what is worked out by hand, and what others say."""
    for name in ["numbers.txt", "vectors.txt"]:
        for format, number, text in fields_of(name):
            try_texts(program, trials, "lp64", format, [number], [text])


def test_formats(program, trials):
    """Whole formats, strings and single bytes are printed as their rows say."""
    for format, words, text in rows_of("formats.jsonl"):
        trials.expect([format, words], printed(program, "lp64", format, words), text.encode())
    for format, words, text in rows_of("chars.jsonl"):
        trials.expect([format, words], printed(program, "lp64", format, words), text.encode("latin-1"))


def test_long_formats(program, trials):
    """Long strings, many arguments and long formats are printed whole."""
    text = "abcdefgh" * 12_500
    strings = {"%s": text, "%4095s": text, "%.4095s": text[:4095], "%-4095.4094s": text[:4094] + " "}
    for format, wanted in strings.items():
        trials.expect(
            f"{format} of a long string", printed(program, "lp64", format, ["s:" + text]) == wanted.encode(), True
        )
    rows = [
        ("%4095c%-4095c", ["n:65", "n:66"], " " * 4094 + "AB" + " " * 4094),
        ("%d,%s;" * 500, ["n:-7", "s:x"] * 500, "-7,x;" * 500),
        ("a%%%3ld" * 10_000, ["n:5"] * 10_000, "a%  5" * 10_000),
        ("abcdefghi\n" * 13_000, [], "abcdefghi\n" * 13_000),
    ]
    for format, words, wanted in rows:
        trials.expect(
            f"{format[:20]}.. is printed whole", printed(program, "lp64", format, words) == wanted.encode(), True
        )


# What directives are reduced to.


def shown(program, model, formats):
    """What each directive of a list is reduced to: its spelling, spaces, zeros, core and trail, by few runs of
    `show`.
    """
    texts, size = [[]], 0
    for format in formats:
        size += len(format)
        if size >= LONGEST_WORD:
            texts, size = [*texts, []], len(format)
        texts[-1].append(format)
    pattern = r"directive (%\S*(?: \S+)*): [\w ]+: (\d+) (\d+) (%.*) (\d+)"
    for part in texts:
        lines = answer(program, "show", model, "".join(part))[1].decode().splitlines()
        assert len(lines) == len(part), "not a line for each directive"
        for line in lines:
            spelling, spaces, zeros, core, trail = re.fullmatch(pattern, line).groups()
            yield spelling, int(spaces), int(zeros), core, int(trail)


def test_spellings(program, trials):
    """Each directive is shown in its one spelling."""
    for format, spelling in rows_of("spellings.jsonl"):
        trials.expect(f"the spelling of {format}", [row[0] for row in shown(program, "lp64", [format])], [spelling])


def test_reduced(program, trials):
    """Each directive is reduced to what its row says."""
    for model, format, spaces, zeros, core, trail in fields_of("reduced.txt"):
        wanted = (int(spaces), int(zeros), core, int(trail))
        trials.expect(f"{model} {format}", [row[1:] for row in shown(program, model, [format])], [wanted])


def directives(widths, precisions):
    """Each directive with these numbers that is defined, as the standard's table of flags and modifiers has it."""
    undefined = {**dict.fromkeys("diu", "#"), **dict.fromkeys("oxXb", "'"), "c": "#0'", "s": "#0'"}
    for conversion, length in itertools.product(CONVERSIONS, LENGTHS):
        if conversion in "cs" and length:
            continue
        flags = [flag for flag in FLAGS if flag not in undefined[conversion]]
        for chosen in itertools.product(*[("", flag) for flag in flags]):
            for width, precision in itertools.product(widths, precisions if conversion != "c" else [""]):
                yield f"%{''.join(chosen)}{width}{precision}{length}{conversion}"


def test_cores(program, module, trials):
    """Over a grid of directives, each core is its own core, and just what is its own core is canonical."""
    numbers = [*range(1, 13), GREATEST]
    given = list(directives(["", *numbers], ["", ".0", *[f".{number}" for number in numbers]]))
    for model in MODELS:
        reduced = dict(zip(given, shown(program, model, given)))
        cores = sorted({core for _, _, _, core, _ in reduced.values()})
        moved = [row for core, row in zip(cores, shown(program, model, cores)) if row != (core, 0, 0, core, 0)]
        trials.expect(f"{model}: cores that are no core of their own", moved, [])
        number = module.Model[model.upper()]
        wrong = [
            format
            for format, row in reduced.items()
            if module.is_canonical(format, model=number) != (row == (format, 0, 0, format, 0))
        ]
        trials.expect(f"{model}: directives that are canonical and no core, or the other way round", wrong, [])
        trials.expect(f"{model}: directives of the grid", len(reduced) > 300_000, True)


# Numbers that tell directives of a type apart: the candidates of docs/DEFINITIONS.md.
INTS = [0, 1, 2, 257, 129, 32769, -1, -127, -32767, -2147483647, -128, -32768, -2147483648, 127, 32767, 2147483647, 3]
CANDIDATES = {
    "int": INTS,
    "unsigned int": [0, 1, 2, (1 << 32) - 1, 3],
    "unsigned long long": [0, 1, 2, (1 << 64) - 1, 3],
    "long long": [0, 1, -1, -(1 << 63), (1 << 63) - 1],
}
CANDIDATES_OF_A_LONG = {
    "lp64": {"long": CANDIDATES["long long"], "unsigned long": CANDIDATES["unsigned long long"]},
    "ilp32": {"long": [0, 1, -1, -(1 << 31), (1 << 31) - 1], "unsigned long": CANDIDATES["unsigned int"]},
}
CANDIDATES_OF_A_LONG["llp64"] = CANDIDATES_OF_A_LONG["ilp32"]
STRINGS = ["", "A", "A" * 4096, "B" * 4096]


def type_of(program, model, format):
    return answer(program, "types", model, format)[1].decode().strip()


def candidate_words(model, kind):
    """The words of the candidates of a type."""
    if kind == "string":
        return [f"s:{text}" for text in STRINGS]
    return [f"n:{number}" for number in {**CANDIDATES, **CANDIDATES_OF_A_LONG[model]}[kind]]


def texts_of(program, model, format, words):
    """What a directive prints for each of the words, by one run."""
    return printed(program, model, "\n".join([format] * len(words)), words).split(b"\n")


def test_reductions(program, trials):
    """A directive and what it is reduced to print the same of each number that tells directives apart."""
    formats = [format for format, in rows_of("reductions.jsonl")]
    for model in MODELS:
        for format, (_, spaces, zeros, core, trail) in zip(formats, shown(program, model, formats)):
            # Every number of the int candidates fits a long of 32 bits.
            kind = type_of(program, model, format)
            words = candidate_words(model, "int" if kind == "long" and model != "lp64" else kind)
            parts = [
                b" " * spaces + b"0" * zeros + text + b" " * trail for text in texts_of(program, model, core, words)
            ]
            trials.expect(f"{model} {format} and {core}", texts_of(program, model, format, words), parts)


# Comparisons.


def are_told_apart(program, model, first, second, words):
    """Whether two formats print different bytes for the arguments."""
    texts = [printed(program, model, format, words) for format in (first, second)]
    return all(isinstance(text, bytes) for text in texts) and texts[0] != texts[1]


def verdict_of(program, model, first, second):
    """What two formats are to each other, in the words of the rows; arguments are confirmed by printing them."""
    status, stdout, stderr = answer(program, "same", model, first, second)
    lines = stdout.decode().splitlines()
    refused = re.fullmatch(rb"(first|second): refused (\d+) \w+ at byte (\d+)\n", stderr)
    if status == 2 and refused:
        return b" ".join(refused.groups()).decode()
    if (status, lines) == (0, ["same"]):
        return "same"
    differs = re.fullmatch(r"types differ at argument (\d+)", lines[0])
    if differs:
        return f"types {differs.group(1)}"
    is_confirmed = are_told_apart(program, model, first, second, lines[1:])
    return " ".join(["different", *map(short_word, lines[1:]), *([] if is_confirmed else ["unconfirmed"])])


def short_word(word):
    """A word, with the number of the bytes in the place of a long string."""
    return f"{word[:3]}*{len(word) - 2}" if word.startswith("s:") and len(word) > 3 else word


def test_verdicts(program, trials):
    """Each pair has the verdict of a model of the definitions, and the arguments are confirmed."""
    for first, second, wanted in rows_of("verdicts.jsonl"):
        trials.expect([first, second], verdict_of(program, "lp64", first, second), wanted)


def test_every_two(program, trials):
    """Formats are the same just where their canonical texts are one; otherwise they are told apart."""
    rows = rows_of("canonical_pairs.jsonl")
    for (first, canonical), (second, other) in itertools.product(rows, rows):
        found = verdict_of(program, "lp64", first, second)
        is_right = found == "same" if canonical == other else found.startswith(("types", "different"))
        trials.expect([first, second], is_right and "unconfirmed" not in found, True)
    for first, canonical in rows:
        trials.expect([first, canonical], verdict_of(program, "lp64", first, canonical), "same")
        trials.expect([canonical, first], verdict_of(program, "lp64", canonical, first), "same")


def compared(module, model, first, second):
    """The verdict of the library with how many words it gives, and how many renderings that took."""
    texts = [text.encode() for text in (first, second)]
    answer, error = module.prototypes.CComparison(), module.prototypes.CError()
    sized = [part for text in texts for part in (text, len(text))]
    call = module._library().fmtcanon_compare
    size = max(0, call(module.Model[model.upper()], *sized, None, 0, answer, error))
    out = ctypes.create_string_buffer(size + 1)
    call(module.Model[model.upper()], *sized, out, len(out), answer, error)
    return answer.verdict, answer.number, answer.renderings, out.raw[:size].split(b"\0")[:-1]


def test_comparisons(program, module, trials):
    """The last argument that tells two formats apart, and the place of it among the candidates."""
    for model, first, second, verdict, last, renderings in rows_of("comparisons.jsonl"):
        expected = " ".join(filter(None, [verdict, last]))
        found = re.sub(r"^different.* ", "different ", verdict_of(program, model, first, second))
        trials.expect(
            f"{model} {first} {second}", [found, compared(module, model, first, second)[2]], [expected, renderings]
        )


def test_long_comparisons(module, trials):
    """Formats with thousands of directives are told apart, in time."""
    for first, second, number, renderings in rows_of("long_comparisons.jsonl"):
        texts = ["".join(part * count for part, count in parts) for parts in (first, second)]
        verdict, many, found, words = compared(module, "lp64", *texts)
        wanted = (3 if number else 1, number, renderings, number)
        trials.expect(f"{first} {second}", (verdict, many, found, len(words)), wanted)


# Every two normal directives of a grid are told apart by a candidate.


def grid_numbers(digits, more):
    return list(dict.fromkeys(number for number in [*more, digits - 1, digits, digits + 1] if number > 0))


def digits_of(program, model, format, words):
    """The most digits that a conversion prints; of a string as many bytes as the second largest precision has."""
    if format[-1] in "cs":
        return {"c": 2, "s": GREATEST - 1}[format[-1]]
    return max(len(text.lstrip(b"-")) for text in texts_of(program, model, format, words))


def grid_of(program, model, kind):
    """The normal directives of a type, of few numbers about the most digits that are printed."""
    given = []
    for conversion, length in itertools.product(CONVERSIONS, LENGTHS):
        bare = f"%{length}{conversion}"
        if conversion in "cs" and length or type_of(program, model, bare) != kind:
            continue
        digits = digits_of(program, model, bare, candidate_words(model, kind))
        for precision in [None, 0, *grid_numbers(digits, [1, 2])]:
            longest = max(digits, 1 if precision is None else precision)
            widths = [*grid_numbers(digits, [1, 2]), longest + 1, longest + 2]
            wanted = "" if precision is None else f".{precision}"
            near = [str(width) for width in dict.fromkeys(widths) if width <= GREATEST]
            given += [
                one
                for one in directives(["", *near], [wanted])
                if one.endswith(f"{wanted}{length}{conversion}") and length_of(one) == length and one[-1] == conversion
            ]
    reduced = dict(zip(given, shown(program, model, given)))
    return [format for format, row in reduced.items() if row == (format, 0, 0, format, 0) and row[3] != "%.0s"]


def places_that_differ(first, second):
    return [place for place, (one, other) in enumerate(zip(first, second)) if one != other]


def test_candidates(program, trials):
    """Every two are told apart, and just these candidates are needed: without one of them two fall together."""
    for kind, count, needed in rows_of("candidates.jsonl"):
        for model in MODELS:
            words = candidate_words(model, kind)
            formats = grid_of(program, model, kind)
            texts = [texts_of(program, model, format, words) for format in formats]
            places_of_pairs = [places_that_differ(one, other) for one, other in itertools.combinations(texts, 2)]
            alone = sorted({places[0] for places in places_of_pairs if len(places) == 1})
            name = f"{model}: {kind}"
            trials.expect(f"{name}: directives of the grid", len(formats), count)
            trials.expect(f"{name}: pairs that no candidate tells apart", places_of_pairs.count([]), 0)
            trials.expect(f"{name}: candidates that tell a pair apart alone", alone, needed)


def test_single_candidates(program, trials):
    """One candidate alone tells these apart; every two of some forms of int are told apart."""
    for first, second, place in rows_of("told_by_one.jsonl"):
        words = candidate_words("lp64", type_of(program, "lp64", first))
        texts = [texts_of(program, "lp64", format, words) for format in (first, second)]
        trials.expect([first, second], places_that_differ(*texts), [place])
    forms = [format for format, in rows_of("forms_of_int.jsonl")]
    texts = {format: texts_of(program, "lp64", format, candidate_words("lp64", "int")) for format in forms}
    for first, second in itertools.combinations(forms, 2):
        trials.expect(f"{first} and {second} are told apart", texts[first] != texts[second], True)


# Sizes on either side of each power of two: memory that is there is used.


def sizes(most):
    return sorted({size for power in range(most + 1) for size in (1 << power, (1 << power) - 1)})


def test_literal_sizes(program, trials):
    """Each command answers for a text of literal bytes; one that no word can hold goes through `stream` and as a
    record.
    """
    for size in sizes(20):
        text = (b"abb" * (size // 3 + 1))[:size]
        shown_line = b"text %d\n" % size if size else b""
        runs = [(["stream"], text, text), (["canon", "-z"], text + b"\0", b"0 " + text + b"\0")]
        if size + len("s:") < LONGEST_WORD:
            runs += [
                (["canon", text], b"", text + b"\n"),
                (["types", text], b"", b""),
                (["show", text], b"", shown_line),
            ]
            runs += [
                (["format", text], b"", text),
                (["format", "%s", b"s:" + text], b"", text),
                (["same", text, text], b"", b"same\n"),
            ]
        for words, stdin, wanted in runs:
            trials.expect(f"{words[0]} of {size} bytes", run(program, words, stdin) == (0, wanted, b""), True)


def test_many_directives(program, trials):
    """Each command answers for any number of directives that a word can hold."""
    for count in sizes(15):
        given, canonical = "%i" * count, "%d" * count
        wanted = {
            "canon": (given, canonical + "\n"),
            "types": (given, "int\n" * count),
            "show": (canonical, "directive %d: int: 0 0 %d 0\n" * count),
        }
        for command, (word, text) in wanted.items():
            is_right = answer(program, command, "lp64", word) == (0, text.encode(), b"")
            trials.expect(f"{command} of {count} directives", is_right, True)
        trials.expect(f"same of {count}", answer(program, "same", "lp64", given, canonical), (0, b"same\n", b""))
        is_right = run(program, ["stream"], given.encode()) == (0, canonical.encode(), b"")
        trials.expect(f"stream of {count} directives", is_right, True)


def test_many_arguments(program, trials):
    """`format` prints any number of arguments, and `same` prints their words."""
    for count in range(41):
        digits = [str(at % 10) for at in range(count)]
        words = [f"n:{digit}" for digit in digits]
        trials.expect(f"{count} arguments", printed(program, "lp64", "%d" * count, words), "".join(digits).encode())
        front = "%d" * count
        trials.expect(f"{count} and one alike", verdict_of(program, "lp64", front + "%d", front + "%i"), "same")
        expected = " ".join(["different", *["n:0"] * (count + 1)])
        trials.expect(f"{count} and one other", verdict_of(program, "lp64", front + "%d", front + "%5d"), expected)


# The calls of the C library.


def called(module, row):
    """What a call of a row answers: its result, its buffer, its error and its comparison."""
    call, model, texts, room = row["call"], row["model"], row["texts"], row["room"]
    error, found = module.prototypes.CError(7, 8, 9), module.prototypes.CComparison(7, 8, 9)
    out = ctypes.create_string_buffer(b"Z" * (room or 0), room or 0)
    words = [] if model is None else [model]
    for text in texts:
        words += [text.encode(), len(text.encode())] if isinstance(text, str) else [text]
    words += [] if room is None else [out, room]
    words += [found] if call == "compare" else []
    words += [] if call in ("kind_name", "version") else [error]
    result = getattr(module._library(), f"fmtcanon_{call}")(*words)
    return {
        "result": result,
        "out": out.raw[: len(row["out"])].decode("latin-1"),
        "error": [error.at, error.kind, error.side],
        "comparison": [found.number, found.verdict],
    }


def test_calls(module, trials):
    """Each call returns what its row says, and leaves everything else as it was."""
    for row in rows_of("calls.jsonl"):
        wanted = {key: row[key] for key in ("result", "out", "error", "comparison")}
        trials.expect(f"{row['call']} {row['model']} {row['texts']}", called(module, row), wanted)


Tests = tests_of(globals())
