"""Tries how fmtcanon-po reads catalogs: bytes that aren't of the charset, long lines and numbers, many catalogs, and
what it counts.
"""

import subprocess
import sys

from tests.commands.catalogs.test_catalog_edges import FIRST, HEADER, TIMES, catalog, checked, fault_lines, message
from tests.commands.catalogs.test_catalogs import binary, check_po
from tests.frame.cases import tests_of
from tests.frame.harness import TIMEOUT, TOP

# A charset, and bytes that aren't of it: the first is named.
NOT_OF_IT = [
    ("UTF-8", b"\xe9", "e9"),
    ("UTF-8", b"\xed\xb3\xa9", "ed"),
    ("ASCII", b"\xc3\xa9", "c3"),
    ("ISO-8859-7", b"\xff", "ff"),
    ("SHIFT_JIS", b"\xff", "ff"),
    ("SHIFT_JIS", b"\x81", "81"),
    ("GBK", b"\xff", "ff"),
    ("EUC-JP", b"\xa4", "a4"),
    ("EUC-TW", b"\xff", "ff"),
    ("EUC-TW", b"\xff\xff\xc4\xe3", "ff"),
]
# Comments, whose bytes are of no interest.
COMMENTS = ["# %s", "#. %s", "#: %s.c:1", '#| msgid "%s"', '#~ msgid "%s"', "#, %s"]
WRONG = '#, c-format\nmsgid "%d files"\nmsgstr "%s Dateien"\n\n'
# The parts of a message in which a byte isn't of the charset: how it is named, and its line after the first one.
PARTS = [
    ('msgctxt "BAD"\nmsgid "%d a"\nmsgstr "%s a"\n', [("msgctxt", 1)]),
    ('msgid "BAD %d"\nmsgstr "%s"\n', [("msgid", 1)]),
    ('msgid "%d a"\nmsgstr ""\n"a"\n"BAD %s"\n', [("msgstr", 2)]),
    ('msgid "%d"\nmsgid_plural "BAD %d"\nmsgstr[0] "%s"\nmsgstr[1] "%s"\n', [("msgid_plural", 2)]),
    ('msgid "%d"\nmsgid_plural "%d a"\nmsgstr[0] "%s"\nmsgstr[1] "BAD %s"\n', [("msgstr[1]", 4)]),
    ('msgid "BAD %d"\nmsgstr "BAD %s"\n', [("msgid", 1), ("msgstr", 2)]),
    ('msgid "BAD %d"\nmsgstr ""\n', [("msgid", 1)]),
]
# Messages with formats of other languages, and what is said of all of them.
OTHERS = [
    ("#, python-format", "%(a)s", "%(a)d", "1 python-format"),
    ("#, python-format, python-brace-format", "{a}", "{b}", "1 python-format"),
    ("#, fuzzy, python-format", "%(a)s", "%(a)d", ""),
    ("#, no-python-format", "%(a)s", "%(a)d", ""),
    ("#, python-format", "%(a)s", "", ""),
    ("#, c-format, perl-format", "%d", "%i", ""),
    ("#, no-c-format, sh-format", "$a", "$b", "1 sh-format"),
    ("#, no-c-format, possible-c-format, impossible-c-format", "%d", "%i", ""),
    ("#, c++-format", "{}", "{}", "1 c++-format"),
]
# The forms of a translation, and which are reported as empty.
EMPTY = [
    (["", "%d b"], "msgstr[0]"),
    (["%d", "%d", ""], "msgstr[2]"),
    (["", "%d b", ""], "msgstr[0], msgstr[2]"),
    (["", ""], ""),
    (["%d", "%d"], ""),
]
COUNT = 20


def header(charset):
    return HEADER % (charset, "n != 1")


def test_comments(folder, work, trials):
    """In a comment, bytes that aren't of the charset are of no interest."""
    for charset, bad, _ in NOT_OF_IT:
        for comment in COMMENTS:
            text = f"{comment % 'BAD'}\n{header(charset)}{comment % 'BAD'}\n{WRONG}{comment % 'BAD'}\n"
            (work / "a.po").write_bytes(text.encode().replace(b"BAD", bad))
            status, report, *_ = checked(folder, ["a.po"], work)
            found = (status, fault_lines(report), "1 message judged" in report)
            trials.expect(f"{comment % bad} in {charset}: {report}", found, (1, [FIRST + 4], True))


def test_bytes(folder, work, trials):
    """A byte that isn't of the charset is a fault of its message, and no other message is lost."""
    for charset, bad, shown in NOT_OF_IT:
        for part, names in PARTS:
            text = f"{header(charset)}{WRONG}#, c-format\n{part}\n{WRONG.replace('files', 'more')}"
            (work / "a.po").write_bytes(text.encode().replace(b"BAD", bad))
            status, report, *_ = checked(folder, ["a.po"], work)
            lines = [
                f"a.po:{FIRST + 4 + line}:1: error: '{name}' has a byte that is not of the charset {charset}: "
                f"0x{shown} ["
                for name, line in names
            ]
            found = [it for it in report.splitlines() if "charset" in it]
            right = len(found) == len(lines) and all(it.startswith(line) for it, line in zip(found, lines))
            trials.expect(f"{part!r} in {charset}: {report}", (status, right), (1, True))
            types = [it for it in report.splitlines() if " [types]" in it]
            trials.expect(f"the others of {part!r}", (len(types), "2 messages judged" in report), (2, True))
    text = (header("UTF-8") + WRONG).replace("Plural", 'X-Name: BAD\\n"\n"Plural')
    (work / "a.po").write_bytes(text.encode().replace(b"BAD", b"\xe9"))
    status, report, *_ = checked(folder, ["a.po"], work)
    trials.expect(f"a byte in the header: {report}", (status, fault_lines(report)), (1, [2, FIRST + 3]))
    rows = [(b"", header("UTF-8").encode().split(b'"')[5] + b"\n"), (b"%d a", b"\xe9 %d"), (b"%d b", b"%s")]
    (work / "a.mo").write_bytes(binary([(b"", b"Content-Type: text/plain; charset=UTF-8\n"), *rows[1:]], "<"))
    status, report, *_ = checked(folder, ["--c-format", "a.mo"], work)
    trials.expect(f"a byte in a .mo file: {report}", (status, fault_lines(report)), (1, [1, 2]))


def test_long(folder, work, trials):
    """Lines, numbers and escapes may be long."""
    # Each has the seconds of a processor that it took; it may take thirty times as many.
    ways = " || ".join(f"n=={number}" for number in range(240))
    ranged = "".join(
        f'#, c-format, range: 2000..3000\nmsgid "%d {at}"\nmsgid_plural "%d {at}s"\n'
        + "".join(f'msgstr[{form}] "%d"\n' for form in range(6))
        for at in range(200)
    )
    lines = "".join(f'#, c-format\nmsgid "%d {at}"\nmsgstr "%s {at}"\n' for at in range(3)).replace("\n#", "\n\n#")
    runs = [
        ("strings in a line", header("UTF-8") + 'msgid "a" msgstr ' + '"" ' * 1_000_000, 0, 4),
        (
            "messages in a line",
            header("UTF-8") + " ".join(f'msgid "a{at}" msgstr "b" "c"' for at in range(150_000)),
            0,
            2,
        ),
        ("escapes of another charset", header("EUC-TW") + 'msgid "a"\nmsgstr "' + r"\304\343" * 80_000 + '"\n', 0, 0.5),
        ("a number of Plural-Forms", (HEADER % ("UTF-8", "n != " + "9" * 90_000)) + WRONG, 1, 0.1),
        ("a rule of many steps", (HEADER % ("UTF-8", ways)).replace("=2", "=6") + ranged, 0, 0.8),
        ("comments", header("UTF-8") + WRONG + "# a\n" * 300_000 + lines, 1, 1),
        ("white space", header("UTF-8") + 'msgid "a"' + " " * 2_000_000 + 'msgstr "b"\n' + WRONG, 1, 0.2),
    ]
    for name, text, wanted, took in runs:
        (work / "a.po").write_text(text)
        status, report, seconds, _ = checked(folder, ["a.po"], work)
        trials.expect(f"{name}: {seconds:.1f} seconds, it took {took}", seconds <= TIMES * took, True)
        trials.expect(f"{name}: {report[-200:]}", (status, "can't be read" in report), (wanted, False))


def test_others(folder, work, trials):
    """The last line counts messages with formats of other languages."""
    for flags, msgid, msgstr, said in OTHERS:
        (work / "a.po").write_text(catalog([message(flags, msgid, msgstr)])[0])
        status, report, *_ = checked(folder, ["--strict", "a.po"], work)
        wanted = [f"1 message of other formats not judged: {said}"] if said else []
        trials.expect(f"{flags}: {report}", (status, report.splitlines()[1:]), (0, wanted))
    (work / "a.po").write_text(catalog([message(*row[:3]) for row in OTHERS])[0])
    wanted = "3 messages judged, 0 not judged\n"
    found = checked(folder, ["a.po", "a.po"], work)[1].splitlines()[-1]
    wanted = "8 messages of other formats not judged: 2 c++-format, 4 python-format, 2 sh-format"
    trials.expect("two catalogs with other formats", found, wanted)
    report = checked(folder, ["--c-format", "a.po"], work)[1]
    trials.expect(f"with --c-format: {report}", "1 c++-format" in report, True)


def test_empty(folder, work, trials):
    """Of a translation, some forms are empty: a warning, which --strict doesn't count."""
    for forms, said in EMPTY:
        text = 'msgid "%d a"\nmsgid_plural "%d as"\n' + "".join(
            f'msgstr[{at}] "{form}"\n' for at, form in enumerate(forms)
        )
        for flags in ["", "#, fuzzy\n"]:
            front = header("UTF-8").replace("nplurals=2", f"nplurals={len(forms)}")
            (work / "a.po").write_text(front + flags + text)
            status, report, *_ = checked(folder, ["--strict", "a.po"], work)
            line = f"a.po:{FIRST + 2 + bool(flags)}:1: warning: {said}: empty, unlike other forms [empty]"
            wanted = [line] if said and not flags else []
            trials.expect(f"{forms} {flags}: {report}", (status, report.splitlines()[:-1]), (0, wanted))


def test_jobs(folder, work, trials):
    """Many catalogs are reported in the order in which they are named, however many are read at a time."""
    names = []
    for number in range(COUNT):
        names.append(f"{number}.po")
        (work / names[-1]).write_text(
            catalog([message("#, c-format", f"%d {number}", "%s" if number % 3 else "%d")] * (number + 1))[0]
        )
    names[5:5] = ["nothing.po", "-"]
    given = (header("UTF-8") + WRONG).encode()
    found = {jobs: check_po(folder, ["--jobs", jobs, *names], given, where=work) for jobs in ["1", "2", "9"]}
    status, out, report = found["1"]
    order = [it.split(":")[0] for it in report.splitlines()[:-2]]
    trials.expect("catalogs in order", order, sorted(order, key=names.index))
    trials.expect("catalogs with faults", (status, out, len(set(order))), (1, "", 2 + COUNT - (COUNT + 2) // 3))
    for jobs in ["2", "9"]:
        trials.expect(f"--jobs {jobs}", found[jobs], found["1"])


def test_outputs(folder, work, trials):
    """Output that can't be written is said in one line, with the status 2."""
    (work / "a.po").write_text(header("UTF-8") + WRONG)
    environment = {"PYTHONPATH": str(TOP / "python"), "FMTCANON_LIBRARY": next(map(str, folder.glob("*.so.?")))}
    for redirection in [">&-", "> /dev/full"]:
        for form in ["json", "sarif", "github"]:
            words = [sys.executable, "-m", "fmtcanon.po", "--output", form, "a.po"]
            done = subprocess.run(
                ["sh", "-c", f'exec "$@" {redirection}', "sh", *words],
                cwd=work,
                env=environment,
                check=False,
                stderr=subprocess.PIPE,
                timeout=TIMEOUT,
            )
            said = done.stderr.decode().splitlines()
            right = len(said) == 1 and said[0].startswith("fmtcanon-po: standard output")
            trials.expect(f"{form} {redirection}: {said}", (done.returncode, right), (2, True))
    # As text, what is found goes to standard error.
    for redirection in ["2>&-", "2> /dev/full"]:
        words = ["sh", "-c", f'exec "$@" {redirection}', "sh", sys.executable, "-m", "fmtcanon.po", "a.po"]
        done = subprocess.run(words, cwd=work, env=environment, check=False, timeout=TIMEOUT)
        trials.expect(f"text {redirection}", done.returncode, 2)


Tests = tests_of(globals())
