"""What fmtcanon-po says of mutated translations, compared with `msgfmt -c`: a table in Markdown.

Usage: python3 -m tests.field.mutations [--list] [COUNT]

COUNT messages, 40,000 by default, are formats of bench/shapes.nul and a list of the whole language, a fifth of them
after one edit. Each translation is its message after one to three edits of its specifications, made by a generator with
a fixed seed. Both tools read the same catalog. --list prints each message on which the two disagree, with its class, to
standard error. It needs gettext, and the module fmtcanon with its library.
"""

import io
import os
import random
import re
import subprocess
import sys
import tempfile
from collections import Counter
from pathlib import Path

import fmtcanon
from fmtcanon.frame.findings import as_text
from fmtcanon.catalogs.catalog_checking import Checker
from tests.frame.harness import TOP

COUNT = 40_000
SEED = 56
HEADER = 'msgid ""\nmsgstr ""\n"Content-Type: text/plain; charset=UTF-8\\n"\n\n'
SPECIFICATION = re.compile(
    r"%(?:[0-9]+\$)?[-+ #0'I]*(?:\*(?:[0-9]+\$)?|[0-9]+)?(?:\.(?:\*(?:[0-9]+\$)?|[0-9]*))?(?:hh|h|ll|l|[jztLqZ])?(?:[a-zA-Z%]|<\w+>)"
)
CONVERSIONS = list("diouxXbcsfFeEgGaApnCSmyk%")
LENGTHS = ["", "", "hh", "h", "l", "ll", "j", "z", "t", "L", "q", "Z"]
FLAGS = list("-+ #0'I")
# Formats with what bench/shapes.nul lacks.
WHOLE = [
    "%.2f of %s",
    "%5.1f%%",
    "%e or %G",
    "%Lf",
    "%a",
    "%*d",
    "%-*s|",
    "%.*s: %d",
    "%*.*f",
    "%p",
    "%p at %s",
    "%lc",
    "%ls",
    "%C%S",
    "%n",
    "%hhn",
    "%2$s of %1$d",
    "%1$*2$d",
    "%3$s %1$s %2$lu",
    "%1$.2f %2$s %1$.1f",
    "%<PRIu64> bytes",
    "%s: %<PRId64> of %<PRIuMAX>",
    "%m",
    "%s: %m",
    "%'d",
    "%'.2f",
]
MACROS = ["<PRId64>", "<PRIi64>", "<PRIu64>", "<PRIx64>", "<PRIdMAX>", "<PRIxPTR>"]


def replaced(random, text, new):
    """Replaces one specification of a text by what a function makes of it."""
    found = list(SPECIFICATION.finditer(text))
    if not found:
        return text + "%d"
    one = random.choice(found)
    return text[: one.start()] + new(one.group()) + text[one.end() :]


def conversion(random, text):
    return replaced(random, text, lambda one: re.sub(r"(.|<\w+>)$", random.choice(CONVERSIONS), one))


def length(random, text):
    return replaced(
        random,
        text,
        lambda one: re.sub(r"(hh|h|ll|l|[jztLqZ])?(.)$", lambda end: random.choice(LENGTHS) + end.group(2), one),
    )


def flag(random, text):
    return replaced(random, text, lambda one: "%" + random.choice(FLAGS) + one[1:])


def width(random, text):
    return replaced(
        random, text, lambda one: "%" + random.choice(["5", "*", ".3", ".*", "12.4", ".", "5000", "05"]) + one[-1]
    )


def macro(random, text):
    return replaced(random, text, lambda one: "%" + random.choice(MACROS))


def dropped(random, text):
    return replaced(random, text, lambda one: "")


def doubled(random, text):
    return replaced(random, text, lambda one: one + " " + one)


def percent(random, text):
    at = random.randrange(len(text) + 1)
    return text[:at] + random.choice(["%", "%%", "%m", "%1$m", "% "]) + text[at:]


def cut(random, text):
    return text[: random.randrange(len(text) + 1)]


def numbered(random, text):
    """Numbers the arguments, mostly in their order, and exchanges two of the specifications."""
    parts, number = SPECIFICATION.split(text), 0
    found = SPECIFICATION.findall(text)
    for at, one in enumerate(found):
        if not one.endswith("%") and "*" not in one and "$" not in one:
            number += 1
            found[at] = f"%{number if random.random() < 0.95 else number + 1}${one[1:]}"
    if len(found) > 1:
        one, other = random.sample(range(len(found)), 2)
        found[one], found[other] = found[other], found[one]
    return "".join(part + one for part, one in zip(parts, found + [""]))


MUTATIONS = [conversion, conversion, length, length, flag, width, macro, dropped, doubled, percent, cut, numbered]


def formats():
    """The formats that a catalog in UTF-8 can hold, without newlines at their ends."""
    for text in (TOP / "bench/shapes.nul").read_bytes().split(b"\0"):
        try:
            word = text.decode().strip("\n")
        except UnicodeDecodeError:
            continue
        if "%" in word and word.isprintable():
            yield word


def pairs(count):
    """The messages with their translations. The same count gives the same ones."""
    generator, known = random.Random(SEED), sorted(set(formats()))
    for number in range(count):
        original = generator.choice(WHOLE if generator.random() < 0.25 else known)
        if generator.random() < 0.2:
            original = generator.choice(MUTATIONS)(generator, original)
        translation = original
        for _ in range(generator.choice([1, 1, 1, 2, 3])):
            translation = generator.choice(MUTATIONS)(generator, translation)
        # Each message has another text. Without its number it would be there twice.
        yield f"{number}: {original}", f"{number}: {translation}"


def quoted(text):
    return '"' + text.replace("\\", "\\\\").replace('"', '\\"').replace("\n", "\\n") + '"'


def catalog(messages):
    """The text of the catalog, and the line of each msgstr."""
    parts, line, lines = [HEADER], HEADER.count("\n"), []
    for original, translation in messages:
        parts.append(f"#, c-format\nmsgid {quoted(original)}\nmsgstr {quoted(translation)}\n\n")
        lines.append(line + 3)
        line += 4
    return "".join(parts), lines


def by_line(report):
    found = {}
    for line, words in re.findall(r"^[^:\n]+:(\d+):(?:\d+:)? ([^\n]*)", report, flags=re.MULTILINE):
        if (
            "format specifications" in words
            or "[types]" in words
            or "valid C format" in words
            or words.startswith("warning")
        ):
            found.setdefault(int(line), []).append(words)
    return found


def reports(text):
    """What each of the two says, by line."""
    with tempfile.TemporaryDirectory() as work:
        file = Path(work) / "a.po"
        file.write_text(text, encoding="utf-8")
        environment = {**os.environ, "LC_ALL": "C", "LANGUAGE": ""}
        done = subprocess.run(
            ["msgfmt", "-c", "-o", os.devnull, str(file)], env=environment, check=False, stderr=subprocess.PIPE
        )
        ours = io.StringIO()
        Checker(lambda it: print(as_text(it), file=ours), list(fmtcanon.Model)).check_data("a.po", file.read_bytes())
    return by_line(ours.getvalue()), by_line(done.stderr.decode(errors="replace"))


def class_of(original, translation, ours, theirs):
    """Under which class a message is counted: who finds a fault, and why the other doesn't."""
    fault = next((words for words in ours if not words.startswith("warning")), None)
    warning = next((words for words in ours if words.startswith("warning")), None)
    if fault and theirs:
        return "both", "a fault"
    if warning and "isn't checked" in warning:
        return ("msgfmt" if theirs else "neither"), "the message isn't judged by fmtcanon-po"
    if not fault and not theirs:
        return "neither", "a warning of fmtcanon-po: " + kinds(warning) if warning else "nothing"
    if fault:
        return "fmtcanon-po", why_refused(original, translation, fault)
    if warning:
        return "msgfmt", "a warning of fmtcanon-po: " + kinds(warning)
    return "msgfmt", re.sub(r".*(the character '.'|are not the same|does not match|Reason: ).*", r"\1", theirs[0])


def why_refused(original, translation, fault):
    if has_b(original):
        return "the message has the conversion b"
    found = re.search(r"refused \d+ (\w+) at byte (\d+)", fault)
    if not found:
        return "types"
    name, byte = found.groups()
    letter = translation.encode()[int(byte) : int(byte) + 1].decode("latin-1")
    return f"{name} at {letter}" if name == "Unexpected" else name


def has_b(text):
    return any(one.endswith("b") for one in SPECIFICATION.findall(text))


def kinds(warning):
    return "a width as another int" if "width" in warning else "an int as another kind"


def main(words):
    is_listed = words[:1] == ["--list"]
    words = words[is_listed:]
    messages = list(pairs(int(words[0]) if words else COUNT))
    text, lines = catalog(messages)
    ours, theirs = reports(text)
    counts = Counter()
    for line, (original, translation) in zip(lines, messages):
        found = class_of(original, translation, ours.get(line, []), theirs.get(line, []))
        counts[found] += 1
        if is_listed and found[0] not in ("both", "neither"):
            print(found, original, "|", translation, "|", ours.get(line), theirs.get(line), file=sys.stderr)
    print("| Fault by | Why | Messages |\n|---|---|---|")
    for (who, why), count in sorted(counts.items(), key=lambda item: (item[0][0], -item[1])):
        print(f"| {who} | {why} | {count:,} |")


if __name__ == "__main__":
    main(sys.argv[1:])
