"""Checks tables and examples in the text of the pages, which only the library can answer."""

import os
import re
import subprocess
import sys

from tests.frame.cases import tests_of
from tests.frame.harness import NO_PROGRAM, SONAME, TIMEOUT, TOP, section

DOCS = TOP / "docs"
# A catalog with everything that the table of docs/TRANSLATIONS.md has.
CATALOG = b"""\
msgid ""
msgstr "Content-Type: text/plain; charset=UTF-8\\nPlural-Forms: nplurals=3; plural=n==1 ? 0 : n==2 ? 1 : 2;\\n"

#, c-format
msgid "%s of %d"
msgstr "%d in %s"

#, c-format
msgid "%d of %zu"
msgstr "%d von %lu"

#, c-format
msgid "%d and %d"
msgstr "%d"

#, c-format
msgid "%d %%"
msgstr "%d %"

#, c-format
msgid "%d done\\n"
msgstr "%d fertig"

#, c-format
msgid "%d file"
msgid_plural "%d files"
msgstr[0] "%d Datei"
msgstr[1] "%d Dateien"

#, c-format
msgid "%d bytes"
msgstr "%d Byte \xff"

#, c-format
msgid "<%c>"
msgstr "<%d>"

#, c-format
msgid "%d line"
msgid_plural "%d lines"
msgstr[0] "%d Zeile"
msgstr[1] ""
msgstr[2] "%d Zeilen"

#, c-format
msgid "%y"
msgstr "%y."
"""


def read(name):
    return (TOP / name).read_text(encoding="utf-8")


def checked(folder, work, catalog):
    """The lines that fmtcanon-po prints of a catalog."""
    (work / "a.po").write_bytes(catalog)
    names = {
        "FMTCANON_LIBRARY": str(folder / SONAME), "FMTCANON_PROGRAM": NO_PROGRAM, "PYTHONPATH": str(TOP / "python")
    }
    words = [sys.executable, "-B", "-m", "fmtcanon.po", "a.po"]
    done = subprocess.run(
        words, cwd=work, env={**os.environ, **names}, capture_output=True, timeout=TIMEOUT, check=False
    )
    return (done.stdout + done.stderr).decode().splitlines()


def test_translations(folder, work, trials):
    """Each line that docs/TRANSLATIONS.md explains is one that the command prints, at the level that it says; and what
    the translator does makes it go away.
    """
    shown = re.findall(r"^\| (warning: )?`(.*?)`", section(DOCS / "TRANSLATIONS.md", "Check a catalog"), re.MULTILINE)
    lines = checked(folder, work, CATALOG)
    for warning, text in shown:
        parts = [it.strip() for it in text.split("..")]
        level = ": warning: " if warning else ": error: "
        found = [it for it in lines if level in it and all(part in it for part in parts)]
        trials.expect(f"{level}{text}", len(found) > 0, True)
    findings = [it for it in lines if ": error: " in it or ": warning: " in it]
    trials.expect("lines that the table lacks", len(findings), len(shown))
    mended = CATALOG.replace(b"%d in %s", b"%2$d in %1$s").replace(b"von %lu", b"von %zu").replace(
        b'"%d %"', b'"%d %%"'
    )
    mended = mended.replace(b'"%d"', b'"%d und %d"').replace(b"fertig", b"fertig\\n").replace(b"\xff", b"\xc3\xa4")
    texts = [it for it in checked(folder, work, mended) if ": error: " in it]
    trials.expect("errors that are left", [re.search(r"\[(\w+)\]", it)[1] for it in texts], ["plurals"])


def compared():
    """The rows of docs/TRANSLATIONS.md on msgfmt: a message, its translation, and what both tools say."""
    rows = re.findall(
        r"^\| `(%.*?)`, `(%.*?)` \| (\w+) \| (\w+)",
        section(DOCS / "TRANSLATIONS.md", "Compared with `msgfmt -c`"),
        re.MULTILINE,
    )
    header = b'msgid ""\nmsgstr "Content-Type: text/plain; charset=UTF-8\\n"\n\n'
    for first, second, theirs, ours in rows:
        yield header + f'#, c-format\nmsgid "{first}"\nmsgstr "{second}"\n'.encode(), (first, second), theirs, ours


def test_compared(folder, work, trials):
    """What fmtcanon-po says of each row."""
    rows = list(compared())
    for catalog, pair, _, wanted in rows:
        text = "\n".join(checked(folder, work, catalog))
        got = "fault" if ": error: " in text else "warning" if ": warning: " in text else "accepted"
        trials.expect(f"{pair} by fmtcanon-po", got, wanted)
    trials.expect("rows", len(rows) > 5, True)


def test_computed(module, trials):
    """What pages say that a format prints, is spelled as or is rejected for."""
    text = read("docs/DEFINITIONS.md")
    printed = re.findall(r"`(%[^`]+)` prints (-?\d+) as `([^`]+)`(?! and)", text)
    for format, number, out in printed:
        trials.expect(f"{format} of {number}", module.format(format, int(number)).decode(), out)
    trials.expect("formats that print", len(printed) > 4, True)
    for format, out in re.findall(r"`(%[^`]+)` prints `abcdef` as `([^`]+)`", text):
        trials.expect(format, module.format(format, "abcdef").decode(), out)
    refused = re.findall(r"`([^`]+)`(?: is)? (\d+) at (\d+)", text.split("Computed: `100%`")[1].split("\n")[0])
    for format, kind, byte in [("100%", "2", "4"), *refused]:
        try:
            module.check(format)
            got = None
        except module.Refused as error:
            got = (int(error.kind), error.byte)
        trials.expect(f"{format} is refused", got, (int(kind), int(byte)))
    trials.expect("formats that are refused", len(refused) > 3, True)
    spelled = re.findall(r"\| `(%[^`]+)` is `(%[^`]+)`(?: in LP64)? \|", read("crates/pf_whole/DEFINITIONS.md"))
    for format, normal in spelled:
        trials.expect(f"{format}, spelled normally", module.canonical(format, whole=True), normal)
    trials.expect("formats that are spelled", len(spelled) > 9, True)


def test_reduction(module, trials):
    """docs/FAQ.md shows how a format becomes canonical."""
    read_, reduced, spelled = re.findall(r"^    (?:read|reduce|spell) +(\S.*)$", read("docs/FAQ.md"), re.MULTILINE)
    given = [it.strip() for it in read_.split("|")]
    trials.expect("the format", module.canonical("|".join(given)), spelled)
    parts = [module.show(it)[0] for it in given]
    cells = [it.strip() for it in reduced.split("|")]
    trials.expect("reduced", cells, [f"{parts[0].core}, {parts[0].trail} spaces", f"0, {parts[1].core}"])
    bytes_of_int = re.search(
        r"An `int` has at most (\d+) bytes, as `(-\d+)` has. So a field of (\d+) always ends in (\d+)",
        read("docs/FAQ.md"),
    )
    most, least, width, spaces = bytes_of_int.groups()
    trials.expect("bytes of an int", (int(most), int(width) - int(most)), (len(least), int(spaces)))
    trials.expect("the smallest int", int(least), -(2**31))


def test_kinds_of_the_profile(module, trials):
    """docs/REFUSALS.md says which kinds are of the profile alone."""
    rows = re.findall(
        r"^\| `(.*?)` \| (\d+) at \d+ \|", section(DOCS / "REFUSALS.md", "What people write"), re.MULTILINE
    )
    accepted = set()
    for format, kind in rows:
        try:
            module.arguments(format)
            accepted |= {int(kind)} if format != "%m" else set()
        except module.Refused:
            pass
    singles, first, last = re.search(
        r"what ([\d, ]+) and (\d+) to (\d+) reject above", read("docs/REFUSALS.md")
    ).groups()
    named = {*map(int, singles.split(", ")), *range(int(first), int(last) + 1)}
    trials.expect("kinds that the whole language accepts", named, accepted)
    header = read("include/fmtcanon.h")
    never = re.search(r"the whole language never (\d+) and (\d+) to (\d+)\.", header).groups()
    # Without numbered arguments it has 6, too.
    trials.expect(
        "kinds that it never has, in the header",
        {int(never[0]), *range(int(never[1]), int(never[2]) + 1)},
        accepted - {6},
    )


def test_errors(module, trials):
    """docs/C.md has an error for each example."""
    page = read("docs/C.md")
    for number, format in re.findall(r"-(\d+) for `(%[^`]+)`", page):
        try:
            module.check(format)
            got = 0
        except module.Refused as error:
            got = int(error.kind)
        trials.expect(f"the error of {format}", got, int(number))
    number, literal = re.search(r'-(\d+) for `("[^`]+")`', page).groups()
    try:
        module.decode_literal(literal)
        got = 0
    except module.BadLiteral as error:
        got = int(error.kind)
    trials.expect(f"the error of {literal}", got, int(number))


Tests = tests_of(globals())
