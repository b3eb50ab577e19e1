"""Catalogs that are hard to read or to judge, for fmtcanon-po.

more_catalogs.py has what msgfmt says of them.
"""

import os
import re
import struct
import subprocess
import sys

from tests.frame.cases import tests_of
from tests.frame.harness import NO_PROGRAM, SONAME, TIMEOUT, TOP

HEADER = 'msgid ""\nmsgstr ""\n"Content-Type: text/plain; charset=%s\\n"\n"Plural-Forms: nplurals=2; plural=%s;\\n"\n\n'
# A run may take this many times the seconds of a processor that it took when its row was written.
TIMES = 30
# A message begins in this line after the header, and its first msgstr comes this many lines later.
FIRST = 6
PAIRS = [
    # Flags are split at commas and white space, and the last one counts.
    ("#,c-format no-wrap", "%d", "%s", True),
    ("#,\tno-wrap\tc-format", "%d", "%s", True),
    ("#,,c-format,", "%d", "%s", True),
    ("#! c-format", "%d", "%s", True),
    ("#, possible-c-format", "%d", "%s", True),
    ("#, impossible-c-format", "%d", "%s", False),
    ("#, c-format, no-c-format", "%d", "%s", False),
    ("#, no-c-format, c-format", "%d", "%s", True),
    ("#, no-c-format\n#, c-format", "%d", "%s", True),
    ("#, c-format\n#, no-c-format", "%d", "%s", False),
    ("#, fuzzy\n#, c-format", "%d", "%s", True),
    ("#, fuzzy, c-format", "%d", "%s", False),
    ("#, C-format", "%d", "%s", False),
    ("#, ac-format", "%d", "%s", False),
    # The conversion m takes no argument.
    ("#, c-format", "%d: %m", "%m: %d", False),
    ("#, c-format", "%m", "", False),
    ("#, c-format", "%s: %m", "%s", False),
    ("#, c-format", "%s", "%1$s %m", False),
    ("#, c-format", "%s", "%1$s %1$m", False),
    ("#, c-format", "%s", "%-5.3m%s", False),
    ("#, c-format", "%s: %m", "%d: %m", True),
    ("#, c-format", "%d", "%*m", False),
    ("#, c-format", "%s", "%*m", True),
    ("#, c-format", "%s %d", "%1$s %2$*2$m", False),
    ("#, c-format", "%m: %s", "%m: %s%", True),
    # The flag I of the GNU C library.
    ("#, c-format", "%d KB", "%Id KB", False),
    ("#, c-format", "%.1f KB", "%I.1f KB", False),
    ("#, c-format", "%5.1f", "%-I5.1s", True),
    ("#, c-format", "%<PRIu64>", "%I<PRIu64>", False),
    # A translation is rejected, and its message isn't.
    ("#, c-format", "%d", "%y", True),
    ("#, c-format", "%d", "%w32d", True),
    ("#, c-format", "%d", "%qd", True),
    ("#, c-format", "%d", "%Zd", True),
    ("#, c-format", "%lu", "%Zu", True),
    ("#, c-format", "%d", "%1$d%d", True),
    ("#, c-format", "%d", r"%d\000%s", True),
    # Macros have types of their own, and names that C knows.
    ("#, c-format", "%<PRIu32>", "%1$<PRIu64> %1$<PRIu32>", True),
    ("#, c-format", "%<PRIu64>", "%1$<PRIu64> %1$u", True),
    ("#, c-format", "%<PRIu64>", "%1$u %1$<PRIu64>", True),
    ("#, c-format", "%<PRIu64>", "%1$<PRIx64> %1$<PRIu64>", False),
    ("#, c-format", "%<PRIu64>", "%<PRIu6>", True),
    ("#, c-format", "%d", "%<NAME>", True),
    (
        "#, c-format",
        "%<PRIuLEAST8> %<PRIdFAST16> %<PRIiPTR> %<PRIXMAX>",
        "%<PRIoLEAST8> %<PRIiFAST16> %<PRIdPTR> %<PRIuMAX>",
        False,
    ),
    # What isn't accepted as a message isn't judged.
    ("#, c-format", "%<NAME>", "%s", False),
    ("#, c-format", "%y", "%s", False),
]
# Faults for fmtcanon-po, and not for msgfmt, with the reason.
STRICTER = [
    ("%d", "%5000d", "a width above 4,095 need not work"),
    ("%s", "%.5000s", "a precision above 4,095 need not work"),
    ("%x", "%Ix", "the flag I is for decimal numbers"),
    ("%s", "%Is", "the flag I is for decimal numbers"),
    ("%lld", "%qd", "q is a modifier of BSD"),
    ("%s", "%0s", "undefined in C"),
    ("%d", "%#d", "undefined in C"),
    ("%d", "%5%%d", "undefined in C"),
]
# An int is printed as something else: a warning here, and a fault for msgfmt.
CHANGED = [
    ("%d", "%c", "argument 1 otherwise: %d as a number, and %c as a character"),
    ("%d", "%hd", "argument 1 otherwise: %d as a number, and %hd as a number of type short"),
    ("%hhd", "%d", "argument 1 otherwise: %hhd as a number of type signed char, and %d as a number"),
    (
        "%s %d",
        "%s %hhd",
        "argument 2 otherwise: %d as a number, and %hhd as a number of type signed char",
    ),
    (
        "%hhd",
        "%hhx",
        "argument 1 otherwise: %hhd as a number of type signed char, and %hhx as a number of type unsigned char",
    ),
    (
        "%hu",
        "%hi",
        "argument 1 otherwise: %hu as a number of type unsigned short, and %hi as a number of type short",
    ),
    (
        "%1$d",
        "%1$d %1$hd",
        "argument 1 otherwise: %1$d as a number, and %1$d and %1$hd as a number and a number of type short",
    ),
    ("%*d", "%d %d", "argument 1 otherwise: %*d as a width or precision, and %d as a number"),
]
# Types that are equal under other spellings.
UNCHANGED = [
    ("%d", "%i"),
    ("%x", "%u"),
    ("%X", "%o"),
    ("%f", "%e"),
    ("%lc", "%C"),
    ("%ld", "%li"),
    ("%hd", "%hi"),
    ("%<PRId64>", "%<PRIi64>"),
    ("%<PRIu64>", "%<PRIx64>"),
]
# How many numbers a form is for, and whether it may leave an argument out.
FORMS = [
    ("n>=3", "", False),
    ("n>=4", "", False),
    ("n>=5", "", True),
    ("(" * 110 + "n>=5" + ")" * 110, "", True),
    ("(" * 9000 + "n>=5" + ")" * 9000, "", True),
    ("!" * 501 + "n", "", True),
    ("n ? n ? n>=5 : 0 : 0", "", True),
    ("n && 1 / n", "", True),
    ("n<5 || n%2==5 ? 0 : 1", ", range: 0..4", True),
    ("n>=5", ", range: 4..9", False),
    ("n>=5", ", range: 3..4", True),
    # A range begins with a space.
    ("n>=5", ", range:4..9", True),
    ("n>=5", ", range: " + "9" * 5000 + ".." + "9" * 5000, False),
    ("n>=5", ", range: 0.." + "9" * 5000, True),
    ("n==5000 || n>=5000 && n<=6000", ", range: 5000..5001", False),
]
NO_RULES = [
    "n" + "+n" * 10_000,
    "n +",
    "(n",
    "n)",
    "n ? 1",
    "n : 1",
    "1 n",
    "!",
    "n !",
    "",
    "n = 1",
    "m",
    "1/0",
    "n ? 1 : 2 : 3",
    "n ? 1 ? 2 : 3",
    "()",
    "n ? : 1",
]
# A charset, and letters in it that are not ASCII.
CHARSETS = [
    ("VISCII", b"\xe5i"),
    ("EUC-TW", b"\xc4\xe3"),
    ("GEORGIAN-PS", b"\xc0"),
    ("ARMSCII-8", b"\xb2"),
    ("TCVN", b"\xb8"),
    ("CP1133", b"\xa1"),
    ("ISO-8859-1", b"\xe9"),
    ("ISO-8859-2", b"\xb1"),
    ("KOI8-R", b"\xc1"),
    ("CP1251", b"\xe0"),
    ("GB18030", b"\x81\x30\x81\x30"),
    # The second byte of these is a backslash.
    ("SHIFT_JIS", b"\x83\x5c"),
    ("BIG5", b"\xa5\x5c"),
    ("GBK", b"\x81\x5c"),
]
NOT_READ = [
    "UTF-7",
    "UTF-16",
    "UTF-16LE",
    "UTF-32",
    "NOSUCH",
    "unicode_escape",
    "idna",
    "punycode",
    "hex",
    "rot13",
    "undefined",
    "EBCDIC-US",
    "x" * 5000,
    "UTF-8//IGNORE",
    "",
]


# It ends with a line on standard output that has the most memory in KiB and the processor time in seconds. What wait4
# says of memory has that of the process which forked, too.
MEASURED = """
import os, sys
from fmtcanon.po.command import main
status = main(sys.argv[1:])
print(next(line.split()[1] for line in open("/proc/self/status") if line.startswith("VmHWM")), sum(os.times()[:2]))
sys.exit(status)
"""


def checked(folder, words, where):
    """The status, standard error, processor time in seconds and most memory in KiB of fmtcanon-po."""
    environment = {
        **os.environ,
        "FMTCANON_LIBRARY": str(folder / SONAME),
        "FMTCANON_PROGRAM": NO_PROGRAM,
        "PYTHONDONTWRITEBYTECODE": "1",
        "PYTHONPATH": str(TOP / "python"),
        "PYTHONIOENCODING": "utf-8",
    }
    done = subprocess.run(
        [sys.executable, "-S", "-c", MEASURED, *words],
        cwd=where,
        env=environment,
        stdout=subprocess.PIPE,
        stderr=subprocess.PIPE,
        timeout=TIMEOUT,
        check=False,
    )
    memory, seconds = done.stdout.decode().split() or (0, 0)
    return done.returncode, done.stderr.decode(errors="replace"), float(seconds), int(memory)


def message(flags, msgid, msgstr):
    return f'{flags}\nmsgid "{msgid}"\nmsgstr "{msgstr}"\n\n'


def catalog(messages, charset="UTF-8", plural="n != 1"):
    """A catalog of messages, and the line of the msgstr of each."""
    text, lines = HEADER % (charset, plural), []
    for one in messages:
        text += one
        lines.append(text[: -len(one)].count("\n") + one[: one.index("\nmsgstr")].count("\n") + 2)
    return text, lines


def fault_lines(report):
    return sorted(
        {int(line) for line in re.findall(r"^[^:\n]+:(\d+):(?:\d+:)? (?!warning)", report, flags=re.MULTILINE)}
    )


def pairs_catalog():
    # Each message has another text, so that none is there twice.
    messages = [
        message(flags, f"{number}: {msgid}", f"{number}: {msgstr}")
        for number, (flags, msgid, msgstr, _) in enumerate(PAIRS)
    ]
    text, lines = catalog(messages)
    return text, [line for line, row in zip(lines, PAIRS) if row[3]]


def forms_text(plural, flags, forms=("few", "%d")):
    text = f'#, c-format{flags}\nmsgid "%d"\nmsgid_plural "%d"\n' + "".join(
        f'msgstr[{at}] "{form}"\n' for at, form in enumerate(forms)
    )
    return HEADER % ("UTF-8", plural) + text


def test_judged(folder, work, trials):
    """Which messages are judged, and how."""
    file = work / "a.po"
    text, lines = pairs_catalog()
    file.write_text(text)
    trials.expect("lines with faults", fault_lines(checked(folder, ["a.po"], work)[1]), lines)
    for msgid, msgstr, reason in STRICTER:
        file.write_text(catalog([message("#, c-format", msgid, msgstr)])[0])
        status, report, *_ = checked(folder, ["--strict", "a.po"], work)
        trials.expect(
            f"{msgid} as {msgstr} is a fault: {reason}",
            (status, len(fault_lines(report)), "1 message judged" in report),
            (1, 1, True),
        )
    for msgid, msgstr, change in CHANGED:
        file.write_text(catalog([message("#, c-format", msgid, msgstr)])[0])
        status, report, *_ = checked(folder, ["--strict", "a.po"], work)
        found = (
            status,
            "warning: 'msgid' and 'msgstr' use " + change in report,
            "1 message judged, 0 not judged" in report,
        )
        trials.expect(f"{msgid} as {msgstr} is a warning", found, (0, True, True))
    for msgid, msgstr in UNCHANGED:
        file.write_text(catalog([message("#, c-format", msgid, msgstr)])[0])
        trials.expect(
            f"{msgid} as {msgstr} is right",
            checked(folder, ["--strict", "a.po"], work)[:2],
            (0, "1 message judged, 0 not judged\n"),
        )
    for plural, flags, is_fault in FORMS:
        file.write_text(forms_text(plural, flags))
        status, report, *_ = checked(folder, ["a.po"], work)
        trials.expect(
            f"the form of {plural[-20:]} with {flags[:20]}",
            (status, report.count("does not match"), "judged" in report),
            (is_fault, is_fault, True),
        )
    file.write_text(
        (HEADER % ("UTF-8", "n != 1"))
        + '#, c-format\nmsgid "%d"\nmsgid_plural "%d %c"\nmsgstr[0] "%d"\nmsgstr[1] "%d %c"\n'
    )
    trials.expect(
        "an argument that is left out is not changed",
        checked(folder, ["--strict", "a.po"], work)[:2],
        (0, "1 message judged, 0 not judged\n"),
    )
    for plural in NO_RULES:
        file.write_text(forms_text(plural, ""))
        status, report, *_ = checked(folder, ["a.po"], work)
        trials.expect(
            f"no expression: {plural[:20]}", (status, report.startswith("a.po:1: error: it can't be read: ")), (1, True)
        )


def test_charsets(folder, work, trials):
    """The charset is that of the header entry, and is read, or is said not to be."""
    file = work / "a.po"
    for charset, letters in CHARSETS:
        text = catalog(
            [message("#, c-format", "%d", "LETTERS %s"), message("#, c-format", "a %d", "LETTERS %d")], charset
        )[0]
        file.write_bytes(text.encode().replace(b"LETTERS", letters))
        status, report, *_ = checked(folder, ["a.po"], work)
        trials.expect(
            f"a catalog in {charset}",
            (status, fault_lines(report), "2 messages judged" in report),
            (1, [FIRST + 2], True),
        )
        trials.expect(f"no fault in reading {charset}", "can't be read" in report, False)
    for charset in NOT_READ:
        file.write_text(catalog([message("#, c-format", "%d", "+2AA- %s")], charset)[0])
        status, report, *_ = checked(folder, ["a.po"], work)
        found = (
            status,
            report.startswith("a.po:1: error: it can't be read: ") and "not read" in report,
            "Traceback" in report,
        )
        trials.expect(f"a catalog in {charset[:20]}", found, (1, True, False))
    # No comment, no message and no context names the charset.
    for front in [
        "# charset=ISO-8859-1\n",
        '#~ msgid ""\n#~ msgstr "charset=NOSUCH"\n\n',
        'msgctxt "x"\nmsgid ""\nmsgstr "charset=NOSUCH"\n\n',
        'msgid "charset=KOI8-R"\nmsgstr "x"\n\n',
    ]:
        file.write_bytes(
            (front + HEADER % ("UTF-8", "n != 1")).encode() + b'#, c-format\nmsgid "%d"\nmsgstr "\xc3\xa9 %s"\n'
        )
        status, report, *_ = checked(folder, ["a.po"], work)
        trials.expect(
            f"the charset after {front!r}",
            (status, report.count("is int (%d) in 'msgid', and string (%s) in"), "read" in report),
            (1, 1, False),
        )
    for bad in [b"\xff", b"\xed\xa0\x80", rb"\355\240\200", rb"\xff", b"\xc3"]:
        file.write_bytes(
            (HEADER % ("UTF-8", "n != 1")).encode() + b'#, c-format\nmsgid "%d"\nmsgstr "' + bad + b'%s"\n'
        )
        status, report, *_ = checked(folder, ["a.po"], work)
        trials.expect(
            f"bytes that are not UTF-8: {bad!r}",
            (
                status,
                report.startswith("a.po:8:1: error: 'msgstr' has a byte that is not of the charset UTF-8: 0x"),
                fault_lines(report),
            ),
            (1, True, [8]),
        )
    file.write_bytes(
        (HEADER % ("ISO-8859-1", "n != 1")).encode()
        + rb"#, c-format"
        + b'\nmsgid "%d"\nmsgstr "\xe9'
        + rb'\351\45s"'
        + b"\n"
    )
    trials.expect("escapes in another charset", fault_lines(checked(folder, ["a.po"], work)[1]), [FIRST + 2])


def overlapping(count, size):
    """A .mo file in which each message is the same long string."""
    start = 28 + 16 * count
    table = struct.pack("<II", 2, start) + struct.pack("<II", size, start) * (count - 1)
    return (
        struct.pack("<7I", 0x950412DE, 0, count, 28, 28 + 8 * count, 0, start) + table * 2 + b"%d" * (size // 2) + b"\0"
    )


def test_sizes(folder, work, trials):
    """Long and many-sided files take time and memory in proportion to their size: at most thirty times the seconds of a
    processor that they took.
    """
    file = work / "a.po"
    runs = [
        ("zeros after a percent sign", "%" + "0" * 100_000 + "<", "%" + "0" * 100_000 + "<", 0.1),
        ("digits after a percent sign", "%" + "1" * 100_000 + "<", "%.<", 0.1),
        ("stars and digits", "%*" + "1" * 50_000 + ".*" + "1" * 50_000 + "<", "%<", 0.1),
        ("angle brackets", "%<" * 50_000, "%<" + "x" * 100_000, 0.2),
        ("3,000 macros", "%<PRIu64> " * 3000, "%<PRIu64> " * 3000, 0.3),
        ("3,000 macros by number", "%<PRIu64> " * 3000, "".join(f"%{at}$<PRIu64>" for at in range(3000, 0, -1)), 0.3),
        ("backslashes", "\\\\" * 500_000, "\\\\" * 500_000, 0.9),
    ]
    for name, msgid, msgstr, took in runs:
        file.write_text(catalog([message("#, c-format", msgid, msgstr)])[0])
        status, report, seconds, _ = checked(folder, ["a.po"], work)
        trials.expect(
            f"{name}: {seconds:.1f} seconds, it took {took}",
            (seconds <= TIMES * took, "1 message judged" in report or "1 not judged" in report),
            (True, True),
        )
    # Letters that a message is made of, its megabytes, and the memory that it may take.
    texts = [
        ("x", 20, 400),
        ("\u0436", 20, 400),
        ("x\U0001f600" + "y" * 100, 20, 400),
        ("\\n", 2, 60),
        ('a"\n"', 2, 60),
    ]
    for letters, size, most in texts:
        text = letters * (size * 1_000_000 // len(letters.encode()))
        file.write_text(catalog([message("#, c-format", "%d" + text, "%s" + text)])[0], encoding="utf-8")
        status, report, _, memory = checked(folder, ["a.po"], work)
        trials.expect(
            f"{size} MB of {letters[:2]!r}: {memory} KiB",
            (status, memory < most * 1000, "is int (%d) in 'msgid', and string (%s)" in report),
            (1, True, True),
        )
    (work / "a.mo").write_bytes(overlapping(60_000, 1_000_000))
    status, report, seconds, memory = checked(folder, ["a.mo"], work)
    found = (
        status,
        report.startswith("a.mo:1: error: it can't be read: its strings overlap"),
        seconds < TIMES,
        memory < 200_000,
    )
    trials.expect("overlapping strings of a .mo file", found, (1, True, True, True))
    file.write_text(catalog([])[0] + 'msgid "a"\nmsgid_plural "b"\nmsgstr[' + "1" * 5000 + '] "c"\n')
    status, report, *_ = checked(folder, ["a.po"], work)
    trials.expect("a form with 5,000 digits", (status, "Traceback" in report, report[:8]), (1, False, "a.po:8:1"))


Tests = tests_of(globals())
