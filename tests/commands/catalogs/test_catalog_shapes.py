"""Tests of how fmtcanon-po reads catalogs, and of what it needn't ask the library.
"""

import contextlib
import itertools
import json
import os
import random
import subprocess
import sys
import tempfile
import time
from pathlib import Path

import fmtcanon
from fmtcanon import Model
from fmtcanon.catalogs.charsets import charset_named
from fmtcanon.catalogs.message_formats import DEPENDENT, MessageFormat, shape_of
from fmtcanon.catalogs.reading import PoReader
from fmtcanon.catalogs.catalog_tokens import BadCatalog
from fmtcanon.formats.rejections import instead_of, refused_span

from tests.frame.cases import tests_of

LENGTHS = ["", "hh", "h", "l", "ll", "j", "z", "t", "L"]
CONVERSIONS = "diouxXbfFeEgGaAcspnCS"
# What a random text is made of.
LETTERS = ["%"] * 6 + list("$*.019-+ #'Ihljztdsxcfnpm%a!<") + ["<PRIu64>", "1$", "2$", "*1$", "\n"]
# What comes first in a long text, and what it repeats.
FRONTS = [
    "",
    'msgid "',
    'msgid "x"\nmsgstr "',
    "msgid ",
    'msgid "a" msgid_plural "b" msgstr[0] ',
    'msgid "a" msgstr "b" ',
]
UNITS = [
    *['"a"', '"a" ', '"a"\n', '"\\n" ', '"\\\\" ', "#a\n", "# ", " ", "\n", "\\n", "#,", "#, fuzzy\n", '# "\n"x"\n'],
    *['msgid "a" ', 'msgctxt "a" ', 'msgid "a" msgstr "b" ', 'msgid "a"\n#\nmsgstr "\\1"\n#c\n', 'msgstr[0] "a"\n'],
]
TEXTS = 20_000


def answer(text, model=Model.LP64):
    """The types that the library finds in a text of a message, or None if it is rejected."""
    try:
        return MessageFormat(text).codes(model)
    except fmtcanon.Refused:
        return None


def test_time(case):
    """Texts that a pattern could match in many ways take linear time."""
    began = time.process_time()
    for front, unit in itertools.product(FRONTS, UNITS):
        with contextlib.suppress(BadCatalog):
            list(PoReader(charset_named("UTF-8")).read((front + unit * (30_000 // len(unit))).encode()))
    case.assertLess(time.process_time() - began, 30)


def test_shapes(case):
    """The shape of a text takes the same arguments, and is rejected if the text is."""
    chosen, shaped, accepted = random.Random(73), 0, 0
    for _ in range(TEXTS):
        text = "".join(chosen.choices(LETTERS, k=chosen.randrange(1, 12))).encode()
        shape = shape_of(text)
        if shape is not None:
            wanted = answer(text)
            case.assertEqual(answer(shape), wanted, text)
            shaped += 1
            accepted += wanted is not None and b"%" in text
    case.assertGreater(min(shaped, accepted), TEXTS // 50)


def test_shapes_by_hand(case):
    for text, wanted in [
        (b"", b""),
        (b"words", b""),
        (b"%d of %s", b"%d%s"),
        (b"100%% %d", b"%%%d"),
        (b"%-5.*lu!", b"%-5.*lu"),
        (b"%<PRIu64>|%2$*1$d", b"%<PRIu64>%2$*1$d"),
        (b"%! %y", b"%!%y"),
        (b"%d%", b"%d%"),
        (b"%d\0", None),
    ]:
        case.assertEqual(shape_of(text), wanted, text)


def test_two_types(case):
    """Two macros, or a macro and a conversion, that give one argument two types: its number is from 1."""
    for text, said in [
        (b"%1$<PRIu64> of %1$u", "%1$<PRIu64> and %1$u give argument 1 different types"),
        (
            b"%1$d%2$<PRIx8>%2$<PRIx16>",
            "%2$<PRIx8> and %2$<PRIx16> give argument 2 different types",
        ),
        (b"%1$<PRIu64> %1$<PRIx64>", None),
        (b"%m %<PRIu64> %d", None),
    ]:
        case.assertEqual(MessageFormat(text).two_types(Model.LP64), said, text)


def test_rejected(case):
    """Where a text with `%m` or the flag I is rejected: by hand. I is a flag of translations, and no number."""
    for text, is_translation, wanted in [
        (b"%*0m", False, (20, 2)),
        (b"%5-m", False, (3, 2)),
        (b"%lm", False, (3, 2)),
        (b"%Id", False, (3, 1)),
        (b"%I2$d", True, (3, 1)),
        (b"%5Id", True, (3, 2)),
        (b"%-Is", True, (3, 2)),
        (b"%m %<PRIu64> %y", False, (3, 14)),
    ]:
        with case.assertRaises(fmtcanon.Refused) as caught:
            MessageFormat(text, is_translation).codes(Model.LP64)
        case.assertEqual((int(caught.exception.kind), caught.exception.byte), wanted, text)


def test_rejected_specifications(case):
    """After macros, `%m` and the flag I, where the rejected specification is in the text, and what to write: by hand.
    """
    for text, span, instead in [
        (b"%<PRId64> and %-#5d", (14, 19), b"%-5d"),
        (b"%5m%Id %010s|", (7, 12), b"%10s"),
        (b"%<PRIu64>%Zd", (9, 11), b"%zd"),
        (b"%2$<PRId64> %4$d", (0, 11), None),
        (b"%s %I0#d", (3, 8), None),
        (b"%#<PRIx64> %#<PRId64>", (11, 14), None),
    ]:
        with case.assertRaises(fmtcanon.Refused) as caught:
            MessageFormat(text, True).codes(Model.LP64)
        refusal = caught.exception
        found = refused_span(text, refusal), instead_of(text, refusal, Model.LP64)
        case.assertEqual(found, (span, instead), text)


def test_uses(case):
    """The arguments that specifications take, with where these are in the text: by hand."""
    for text, wanted in [
        (b"a %<PRIu64> %5m%d", [(0, b"%<PRIu64>", 2), (1, b"%d", 15)]),
        (b"%*m%-*.*m|%s", [(0, b"%*m", 0), (1, b"%-*.*m", 3), (2, b"%-*.*m", 3), (3, b"%s", 10)]),
        (b"%Id", [(0, b"%Id", 0)]),
        (b"%2$*1$d", [(0, b"%2$*1$d", 0), (1, b"%2$*1$d", 0)]),
    ]:
        found = [(it.argument, it.specification, it.start) for it in MessageFormat(text, True).uses(Model.LP64)]
        case.assertEqual(found, wanted, text)


def test_models(case):
    """What has no j, z or t has one answer in all data models."""
    singles = [f"%{length}{it}" for length, it in itertools.product(LENGTHS, CONVERSIONS)]
    plain = [it for it in singles if not DEPENDENT.search(it.encode())]
    pairs = [f"%1$*2${one[1:]}%1${other[1:]}" for one, other in itertools.product(plain, plain)]
    for text in [*plain, *(f"%1${it[1:]}" for it in plain), *pairs]:
        answers = {answer(text.encode(), model) for model in Model}
        case.assertEqual(len(answers), 1, text)
    others = [it for it in singles if it not in plain]
    case.assertTrue(any(len({answer(it.encode(), model) for model in Model}) > 1 for it in others))


HEADER = 'msgid ""\nmsgstr ""\n"Content-Type: text/plain; charset=UTF-8\\n"\n"Plural-Forms: %s\\n"\n\n'
ENTRY = '%smsgid "%s"\nmsgid_plural "%s"\n%s\n'


def run(texts, *words):
    """What fmtcanon-po finds in catalogs, as JSON, and what it says at the end."""
    with tempfile.TemporaryDirectory() as work:
        names = []
        for number, text in enumerate(texts):
            names.append(os.path.join(work, f"{number}.po"))
            Path(names[-1]).write_text(text, encoding="utf-8")
        words = [sys.executable, "-B", "-m", "fmtcanon.po", "--output", "json", *words, *names]
        done = subprocess.run(words, capture_output=True, check=False, timeout=60)
    return [json.loads(it) for it in done.stdout.splitlines()], done.stderr.decode().splitlines(), done.returncode


# The number of forms is that of the header, as msgfmt -c demands.
def faults(case, rule, entries):
    """The faults of messages, each with the number of its forms, and what comes before it."""
    text = HEADER % rule
    for number, (count, comments) in enumerate(entries):
        forms = "".join(f'msgstr[{form}] "x"\n' for form in range(count)) or 'msgstr[0] ""\n'
        text += ENTRY % (comments, f"a{number}", f"b{number}", forms)
    found, _, status = run([text])
    case.assertEqual(status, int(bool(found)))
    return [(it["msgid"], it["kind"], it["message"].partition(" [")[0]) for it in found]


def test_counts(case):
    two = "it has 2 plural forms, and nplurals is 1"
    one = "it has one plural form, and nplurals is 3"
    for rule, entries, wanted in [
        ("nplurals=1; plural=0;", [(1, ""), (2, ""), (1, "")], [("a1", "plurals", two)]),
        ("nplurals=3; plural=n%3;", [(3, ""), (1, "#, c-format\n")], [("a1", "plurals", one)]),
        ("nplurals=\t2; plural=n!=1;", [(2, "")], []),
        ("nplurals=2; plural=n!=1;", [(1, "#, fuzzy\n")], []),
    ]:
        case.assertEqual(faults(case, rule, entries), wanted, (rule, entries))


def test_headers(case):
    """A header that doesn't say which form is for a number is a fault of the first translation that has forms."""
    beyond = "the expression of the header gives form %d, and nplurals is %d"
    for rule, fault in [
        ("", "the header has no nplurals= and no plural="),
        ("nplurals = 2; plural = n!=1;", "the header has no nplurals= and no plural="),
        ("plural=0;", "the header has no nplurals="),
        ("nplurals=2;", "the header has no plural="),
        ("nplurals=INTEGER; plural=0;", "nplurals of the header is not a number"),
        ("nplurals=; plural=0;", "nplurals of the header is not a number"),
        ("nplurals=2; plural=n==7 ? 3 : n!=1;", beyond % (3, 2)),
        ("nplurals=0; plural=0;", beyond % (0, 0)),
        ("nplurals=2; plural=n;", beyond % (1000, 2)),
    ]:
        entries = [(2, "#, fuzzy\n"), (0, ""), (2, ""), (3, "")]
        wanted = [("a2", "plurals", f"it has plural forms, but {fault}")]
        case.assertEqual(faults(case, rule, entries), wanted, rule)
        case.assertEqual(faults(case, rule, entries[:2]), [], rule)
    case.assertEqual(len(run([ENTRY % ("", "a", "b", 'msgstr[0] "x"\n')])[0]), 1)


def test_an_empty_message(case):
    """msgfmt demands no newlines of a message without text."""
    text = HEADER % "nplurals=2; plural=n!=1;" + 'msgctxt "a"\nmsgid ""\nmsgstr "b\\n"\n'
    case.assertEqual(run([text])[0], [])


def test_untranslated(case):
    text = HEADER % "nplurals=2; plural=n!=1;" + ENTRY % ("", "a", "b", 'msgstr[0] ""\n')
    case.assertEqual(run([text])[0], [])


# A message of the program that isn't a format is named once for all catalogs, with its place in the source.
def test_catalogs(case):
    front = HEADER % "nplurals=1; plural=0;"
    texts = []
    for number in range(12):
        first = f'#: a.c:{number} b.c:7\n#: c.c:8\n#, c-format\nmsgid "%Zd x"\nmsgstr "%Zd {number}"\n\n'
        second = '#. said\n#: "d.c":9\n#, c-format\nmsgctxt "e"\nmsgid ""\n"%Zd y"\nmsgstr "%d"\n\n'
        third = '#, c-format\nmsgid "%Zd z"\nmsgid_plural "%Zd zs"\nmsgstr[0] "%d"\n\n'
        fourth = '#, c-format\nmsgid "%d"\nmsgstr "%s"\n\n'
        texts.append(front + first + second + third + fourth)
    for jobs in ["-j1", "-j3"]:
        found, said, status = run(texts, jobs)
        unjudged = [it for it in found if it["kind"] == "unjudged"]
        listed = [(Path(it["file"]).name, it["line"], it["msgid"], it["source"]) for it in unjudged]
        wanted = [
            ("0.po", 9, "%Zd x", ["a.c:0", "b.c:7", "c.c:8"]),
            ("0.po", 17, "%Zd y", ['"d.c":9']),
            ("0.po", 22, "%Zd z", []),
        ]
        case.assertEqual((listed, len(found) - len(unjudged), status), (wanted, 12, 1))
        case.assertIn("; the message is from a.c:0 and 2 more", unjudged[0]["message"])
        case.assertIn('; the message is from "d.c":9', unjudged[1]["message"])
        counts = ["12 messages judged, 36 not judged", "33 more warnings about the same messages"]
        case.assertEqual(said, [*counts, "found 12 fatal errors"])


def test_names_with_blanks(case):
    text = '#: \u2068a b.c\u2069:7 d.c:1\n#, c-format\nmsgid "%Zd"\nmsgstr "x"\n'
    case.assertEqual([it["source"] for it in run([text])[0]], [["a b.c:7", "d.c:1"]])


def test_the_message_before(case):
    text = '#: a.c:1\nmsgid "a"\nmsgstr ""\n"b"\n#, c-format\nmsgid "%Zd"\nmsgstr "x"\n'
    case.assertEqual([it["source"] for it in run([text])[0]], [[]])


Tests = tests_of(globals())
