"""Compares fmtcanon-po with msgfmt on messages with plural forms, under many rules and ranges.

The messages are made by a generator with a fixed seed.
"""

import io
import itertools
import os
import random
import subprocess
import tempfile
from pathlib import Path

from tests.commands.catalogs.more_catalogs import msgfmt, msgfmt_lines, translation_line
from tests.commands.catalogs.test_catalog_edges import fault_lines
from tests.frame.cases import tests_of

SEED = 7
MESSAGES = 700
# The number of forms, and the expression.
RULES = [
    (2, "n != 1"),
    (2, "n>1"),
    (2, "n<4?0:1"),
    (2, "n<5?0:1"),
    (2, "n>=996 && n<=1000"),
    (2, "n>=997&&n<=1000"),
    (2, "!(n-3)"),
    (5, "n*n%5"),
    (3, "n/400"),
    (2, "n<=2-3"),
    (3, "n==1 ? 0 : n==0 || (n%100>0 && n%100<20) ? 1 : 2"),
    (3, "n%10==1 && n%100!=11 ? 0 : n%10>=2 && n%10<=4 && (n%100<10 || n%100>=20) ? 1 : 2"),
    (4, "n%100==1 ? 0 : n%100==2 ? 1 : n%100==3 || n%100==4 ? 2 : 3"),
    (6, "n==0 ? 0 : n==1 ? 1 : n==2 ? 2 : n%100>=3 && n%100<=10 ? 3 : n%100>=11 ? 4 : 5"),
]
HEADER = (
    'msgid ""\nmsgstr ""\n"Content-Type: text/plain; charset=UTF-8\\n"\n"Plural-Forms: nplurals=%d; plural=%s;\\n"\n\n'
)
TEXTS = ["%d", "x", "%d %s", "%s %d", "%2$s %1$d", "%1$d", "%s", "%m %d", "%d%%"]


def span(generator):
    """A flag `range:`, or nothing for half of the messages."""
    first, count = generator.choice([(generator.randrange(12), 12), (generator.randrange(3000), 2000)])
    return generator.choice(["", f" range: {first}..{first + generator.randrange(count)}"])


def catalog(generator, count, rule, said=None, messages=MESSAGES):
    """A catalog whose messages have `count` forms; its header says that there are another number, if that is given."""
    parts = [HEADER % (count if said is None else said, rule)]
    for number in range(messages):
        text = generator.choice(TEXTS)
        forms = [generator.choice([text, text, generator.choice(TEXTS)]) for _ in range(count)]
        parts.append(f'#, c-format,{span(generator)}\nmsgid "{number} {text}"\nmsgid_plural "{number} {text}"\n')
        parts += [f'msgstr[{form}] "{one}"\n' for form, one in enumerate(forms)] + ["\n"]
    return "".join(parts)


# Fields of a header, which say which of two forms is for a number, or don't.
FIELDS = [
    "Plural-Forms: nplurals=2; plural=n != 1;",
    "plural-forms: plural=n!=1; nplurals=2",
    "Plural-Forms: nplurals=02junk; plural=n>1",
    "",
    "Plural-Forms: nplurals = 2; plural = n != 1;",
    "Plural-Forms: nplurals=2;",
    "Plural-Forms: plural=n != 1;",
    "Plural-Forms: nplurals=INTEGER; plural=0;",
    "Plural-Forms: nplurals=-2; plural=0;",
    "Plural-Forms: nplurals=0; plural=0;",
    "Plural-Forms: nplurals=2; plural=n;",
    "Plural-Forms: nplurals=2; plural=n==1000 ? 2 : 0;",
    "Plural-Forms: nplurals=2; plural=n==1001 ? 2 : 0;",
    "Plural-Forms: nplurals=2; plural=n n;",
]


def test_headers(module, msgfmt, trials):
    """Both demand of a header that it says which form is for a number, if a translation has forms."""
    from fmtcanon.catalogs.catalog_checking import Checker

    entries = {
        True: 'msgid "a"\nmsgid_plural "b"\nmsgstr[0] "c"\nmsgstr[1] "d"\n',
        False: '#, fuzzy\nmsgid "a"\nmsgid_plural "b"\nmsgstr[0] "c"\n\nmsgid "e"\nmsgid_plural "f"\nmsgstr[0] ""\n',
    }
    seen = set()
    for field, has_forms in itertools.product(FIELDS, entries):
        # Of a rule that no translation needs, only one that can't be read is a fault here.
        if has_forms or "plural=" not in field.replace("nplurals=", ""):
            front = 'msgid ""\nmsgstr ""\n"Content-Type: text/plain; charset=UTF-8\\n"\n'
            text = f'{front}"{field}\\n"\n\n{entries[has_forms]}'
            found = []
            Checker(found.append, list(module.Model)).check_data("a.po", text.encode())
            words = ["msgfmt", "-c", "-o", "/dev/null", "-"]
            theirs = subprocess.run(words, input=text.encode(), capture_output=True, check=False).returncode
            trials.expect(f"{field} {has_forms}", bool(found), theirs != 0)
            seen.add(bool(theirs))
    trials.expect("headers with and without a fault", seen, {False, True})


def test_counts(module, msgfmt, trials):
    """Both find that there are more or fewer forms than the header says."""
    from fmtcanon.catalogs.catalog_checking import PLURALS, Checker

    generator, seen = random.Random(SEED), set()
    for said, count, first in itertools.product(range(1, 5), range(1, 5), ["", "#, fuzzy\n"]):
        text = catalog(generator, count, f"n%{said}", said, 2).replace("#, c-format", first + "#, c-format", 1)
        text = text.replace("#, c-format", "#, no-c-format")
        # A form after the others, and a message that isn't translated.
        text += 'msgid "a"\nmsgid_plural "b"\nmsgstr[0] ""\n'
        found = []
        Checker(found.append, list(module.Model)).check_data("a.po", text.encode())
        with tempfile.TemporaryDirectory() as work:
            file = Path(work) / "a.po"
            file.write_text(text)
            words = ["msgfmt", "-c", "-o", "/dev/null", str(file)]
            theirs = subprocess.run(words, capture_output=True, check=False, env={**os.environ, "LC_ALL": "C"}).stderr
        is_theirs = b"...but some messages have" in theirs
        trials.expect(f"{count} forms of {said} {first}", any(it.kind == PLURALS for it in found), is_theirs)
        seen.add(is_theirs)
    trials.expect("catalogs with and without the fault", seen, {False, True})


def test_plurals(module, msgfmt, trials):
    """Both find faults in the same messages."""
    from fmtcanon.catalogs.catalog_checking import Checker
    from fmtcanon.frame.findings import as_text

    generator = random.Random(SEED)
    for count, rule in RULES:
        text, report = catalog(generator, count, rule), io.StringIO()
        Checker(lambda it, out=report: print(as_text(it), file=out), list(module.Model)).check_data(
            "a.po", text.encode()
        )
        with tempfile.TemporaryDirectory() as work:
            file = Path(work) / "a.po"
            file.write_text(text)
            theirs = msgfmt_lines(file)
        ours = sorted({translation_line(text, it) for it in fault_lines(report.getvalue())})
        trials.expect(f"messages with faults under {rule}", ours, theirs)
        trials.expect(f"some messages under {rule} have faults, and some have none", 50 < len(theirs) < MESSAGES, True)


Tests = tests_of(globals())
