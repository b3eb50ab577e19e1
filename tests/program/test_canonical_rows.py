"""Tries the built program and the C library on rows of canonical texts, and of texts that are compared.

The rows are in tests/rows.
"""

import itertools

from tests.frame.cases import tests_of
from tests.frame.harness import run
from tests.program.test_rows import LENGTHS, LONGEST_WORD, answer, called, refusal_of, rows_of, type_of, verdict_of


def whole_of(text):
    """A text that a row has whole, or as parts with how often each stands."""
    return text if isinstance(text, str) else "".join(part * count for part, count in text)


def answer_or_refusal(module, call, *texts, **options):
    """What a call of the module answers, or the kind and the place of its refusal."""
    try:
        return call(*texts, **options)
    except module.Refused as refusal:
        return [int(refusal.kind), refusal.byte]


def canonical_length(module, model, text):
    """What the library returns as the length of the canonical text, or the kind and the place of its refusal."""
    found = called(module, {"call": "canonical_length", "model": int(model), "texts": [text], "room": None, "out": ""})
    at, kind, _ = found["error"]
    return found["result"] if found["result"] >= 0 else [kind, at]


def try_canonical(program, module, trials, name, format, text):
    """A format has this canonical text, which is its own, or is rejected so, by each call and command."""
    model = module.Model[name.upper()]
    shown_name = f"{name} {format[:40]}"
    wanted = [text] * 2 + [format == text, len(text)] if isinstance(text, str) else [text] * 4
    found = [answer_or_refusal(module, module.canonical, format, model=model), text]
    if isinstance(text, str):
        found[1] = module.canonical(text, model=model)
        trials.expect(
            f"the library on the canonical text of {shown_name}", module.is_canonical(text, model=model), True
        )
    found += [
        answer_or_refusal(module, module.is_canonical, format, model=model),
        canonical_length(module, model, format),
    ]
    trials.expect(f"the library on {shown_name}", found == wanted, True)
    runs = [run(program, ["stream", "--model", name], format.encode())]
    if "\0" not in format and len(format) < LONGEST_WORD:
        runs.append(answer(program, "canon", name, format))
    for (status, stdout, stderr), end in zip(runs, ["", "\n"]):
        is_right = (
            (status, stdout, stderr) == (0, (text + end).encode(), b"")
            if isinstance(text, str)
            else refusal_of((status, stdout, stderr)) == text
        )
        trials.expect(f"the program on {shown_name}", is_right, True)


def test_canonical_texts(program, module, trials):
    """Each format has the canonical text of its row, or none and a refusal."""
    for format, text in rows_of("canonical_formats.jsonl"):
        try_canonical(program, module, trials, "lp64", format, text)
    for model, format, text in rows_of("canonical_texts.jsonl"):
        try_canonical(program, module, trials, model, format, text)
    for format, kind, at in rows_of("no_canonical.jsonl"):
        try_canonical(program, module, trials, "lp64", format, [kind, at])
    for parts, canonical in rows_of("long_canonical.jsonl"):
        text = canonical if isinstance(canonical[0], int) else whole_of(canonical)
        try_canonical(program, module, trials, "lp64", whole_of(parts), text)
    for model, format, length in rows_of("canonical_lengths.jsonl"):
        found = canonical_length(module, module.Model[model.upper()], whole_of(format))
        trials.expect(f"the length of {model} {format}", found, length)
    for format, wanted in rows_of("recognised.jsonl"):
        trials.expect(f"whether {format} is canonical", module.is_canonical(format), wanted)


def test_settled(program, trials):
    """`stream` writes what is settled before a refusal, and then reports it."""
    for format, settled, kind, at in rows_of("settled.jsonl"):
        status, stdout, stderr = run(program, ["stream"], format.encode())
        found = (stdout, refusal_of((status, stdout, stderr)))
        trials.expect(f"stream on {format}", found, (settled.encode(), [kind, at]))


def same_or_refusal(module, first, second):
    """Whether the library takes two formats for the same, or the side, the kind and the place of its refusal."""
    try:
        return module.same(first, second)
    except module.Refused as refusal:
        return [refusal.side, int(refusal.kind), refusal.byte]


def test_steps(program, module, trials):
    """Two formats are the same, or differ, or one of them is rejected, as their row says."""
    for first, second, wanted in rows_of("steps.jsonl"):
        name = [first, second]
        first, second = whole_of(first), whole_of(second)
        trials.expect(f"the library on {name}", same_or_refusal(module, first, second), wanted)
        found = verdict_of(program, "lp64", first, second)
        if isinstance(wanted, bool):
            trials.expect(
                f"the program on {name}",
                [found == "same", found.startswith(("types", "different"))],
                [wanted, not wanted],
            )
        else:
            side, kind, at = wanted
            trials.expect(f"the program on {name}", found, f"{['first', 'second'][side]} {kind} {at}")


def test_every_two_texts(module, trials):
    """Of every two accepted texts just those are the same that have one canonical text; a refusal is that of the first
    refused one.
    """
    formats, refused = rows_of("canonical_formats.jsonl"), rows_of("settled.jsonl")
    for (first, text), (second, other) in itertools.product(formats, repeat=2):
        trials.expect(f"{first} and {second}", same_or_refusal(module, first, second), text == other)
    for first, _, *refusal in refused:
        for second, *_ in formats + refused:
            trials.expect(f"{first} and {second}", same_or_refusal(module, first, second), [0, *refusal])
        for second, _ in formats:
            trials.expect(f"{second} and {first}", same_or_refusal(module, second, first), [1, *refusal])


def test_differences(module, trials):
    """Texts that differ at one byte, wherever it is, or at the end of one are told apart. If both are rejected, the
    first refusal is returned.
    """
    (row,) = rows_of("differences.jsonl")
    text, items, spellings = row["text"], row["items"], row["spellings"]
    replaced = [text[:at] + "#" + text[at + 1 :] for at in range(len(text))]
    trials.expect("a mark for each byte", len(items), len(text))
    # Literal bytes before them, since several bytes are compared together.
    for front in ["x" * count for count in (0, 1, 14, 15, 16, 33)]:
        for first, second in itertools.product(spellings, repeat=2):
            trials.expect(f"{front}{first} and {second}", same_or_refusal(module, front + first, front + second), True)
        for (at, mark), first in itertools.product(enumerate(items), spellings):
            for second in (replaced[at], text[:at]):
                found = [
                    same_or_refusal(module, front + first, front + second),
                    same_or_refusal(module, front + second, front + first),
                ]
                is_right = found == [False, False] if mark == "^" else are_refused_from(found, len(front) + at)
                trials.expect(f"{front}{first} and {second}", is_right, True)
    # The first text ends at one byte, and another one is replaced in the second.
    for ends, at in itertools.product(range(len(text)), repeat=2):
        found = same_or_refusal(module, text[:ends], replaced[at])
        if items[ends] == "-":
            is_right = found == [0, 2, ends]
        elif items[at] == "-":
            is_right = isinstance(found, list) and found[0] == 1 and found[2] >= at
        else:
            is_right = found is False
        trials.expect(f"{text[:ends]} and {replaced[at]}", is_right, True)


def are_refused_from(answers, at):
    """Whether the second text is rejected at this byte or after it, as the second and as the first."""
    return all(isinstance(found, list) and found[0] == side and found[2] >= at for side, found in zip([1, 0], answers))


def canonical(program, model, format):
    status, stdout, stderr = answer(program, "canon", model, format)
    return stdout.decode() if status == 0 and not stderr else (status, stderr)


def test_models(program, trials):
    """Each conversion under each modifier takes its type, has its canonical text, and fills a field up to its
    digits.
    """
    for row in rows_of("models.jsonl"):
        model, types, most_digits = row["model"], by_letter(row["types"]), by_letter(row["digits"])
        for conversion, (at, length) in itertools.product("diuoxXb", enumerate(LENGTHS)):
            given, core = f"{length}{conversion}", f"{row['modifiers'][at]}{conversion.replace('i', 'd')}"
            trials.expect(f"{model} types of %{given}", type_of(program, model, f"%{given}"), types[conversion][at])
            trials.expect(f"{model} canon %{given}", canonical(program, model, f"%{given}"), f"%{core}\n")
            # A number of a signed type has a sign before its digits.
            width = most_digits[conversion][at] + (conversion in "di")
            wanted = f"{' ' * (200 - width)}%{width}{core}\n"
            trials.expect(f"{model} canon %200{given}", canonical(program, model, f"%200{given}"), wanted)
        for conversion, kind in {"c": "int", "s": "string"}.items():
            trials.expect(f"{model} types of %{conversion}", type_of(program, model, f"%{conversion}"), kind)
            trials.expect(
                f"{model} canon %{conversion}", canonical(program, model, f"%{conversion}"), f"%{conversion}\n"
            )


def by_letter(table):
    """The rows of a table that has one for several letters, by each of these."""
    return {letter: row for letters, row in table.items() for letter in letters}


Tests = tests_of(globals())
