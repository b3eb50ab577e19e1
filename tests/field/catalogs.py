"""What fmtcanon-po says of a machine's own message catalogs, compared with `msgfmt -c`: a table in Markdown.

Usage: python3 -m tests.field.catalogs [--list] [FOLDER]

FOLDER is /usr/share/locale where it isn't given. Each .mo file below it is turned into a .po file by
msgunfmt, and each message with a % gets the flag c-format, since a .mo file has no flags. Both tools
then read that file. --list writes each message in which only one of the two finds a fault, to
standard error. It needs gettext, and the module fmtcanon with its library.
"""

import io
import os
import re
import subprocess
import sys
from collections import Counter
from concurrent.futures import ThreadPoolExecutor
from pathlib import Path
from tempfile import TemporaryDirectory

import fmtcanon
from fmtcanon.frame.findings import as_text
from fmtcanon.catalogs.catalog_checking import Checker
from tests.commands.catalogs.more_catalogs import translation_line

ENVIRONMENT = {**os.environ, "LC_ALL": "C", "LANGUAGE": ""}
FAULT = re.compile(
    r"^[^\n]*?:(\d+):(?:\d+:)? (?!warning)(.*(?:format specifications|is .* in .*, and|valid C format|do not both).*)", re.MULTILINE
)
WARNING = re.compile(r"^[^\n]*?:(\d+):(?:\d+:)? warning: (.*)", re.MULTILINE)
ROWS = [
    ("catalogs", "Catalogs"),
    ("unread", "Catalogs that one of the two couldn't read"),
    ("messages", "Messages with a `%` and a translation"),
    ("judged", "Messages judged"),
    ("unjudged", "Messages not judged"),
    ("both", "Messages with a fault by both"),
    ("unjudged fault", "Messages not judged, with a fault by `msgfmt -c`"),
    ("msgfmt", "Messages with a fault by `msgfmt -c` alone"),
    ("fmtcanon-po", "Messages with a fault by `fmtcanon-po` alone"),
]


def run(words):
    return subprocess.run(words, env=ENVIRONMENT, check=False, stdout=subprocess.PIPE, stderr=subprocess.PIPE)


def flagged(text):
    """The text of a .po file in which each message with a % has the flag c-format."""
    parts = text.split(b"\n\n")
    return b"\n\n".join(b"#, c-format\n" + part if b"%" in part and at else part for at, part in enumerate(parts))


def faults_of(text, catalog, pattern=FAULT):
    """The lines of a catalog with a translation that has a fault, each with what is said of it first."""
    found = {}
    for line, words in pattern.findall(text):
        found.setdefault(translation_line(catalog, int(line)), words)
    return found


def compared(mo):
    """What both tools say of one file, as counts, and the faults that only one finds."""
    counts, alone = Counter(catalogs=1), []
    plain = run(["msgunfmt", "-w", "0", "--no-wrap", "-o", "-", str(mo)])
    if plain.returncode:
        return Counter(catalogs=1, unread=1), []
    with TemporaryDirectory() as work:
        po = Path(work) / "a.po"
        po.write_bytes(flagged(plain.stdout))
        text = po.read_text(encoding="utf-8", errors="replace")
        report = run(["msgfmt", "-c", "-o", os.devnull, str(po)]).stderr.decode(errors="replace")
        ours = io.StringIO()
        checker = Checker(lambda it: print(as_text(it), file=ours), list(fmtcanon.Model))
        checker.check_data("a.po", po.read_bytes())
    if "can't be read" in ours.getvalue() or "multibyte" in report:
        return Counter(catalogs=1, unread=1), [f"{mo}: {ours.getvalue()[:100]}"]
    counts.update(judged=checker.judged, unjudged=checker.unjudged, messages=checker.judged + checker.unjudged)
    theirs, found = faults_of(report, text), faults_of(ours.getvalue(), text)
    unjudged = faults_of(ours.getvalue(), text, WARNING)
    for line in theirs.keys() | found.keys():
        if line in theirs and line in found:
            counts["both"] += 1
        elif line in unjudged and line in theirs:
            counts["unjudged fault"] += 1
        else:
            who = "msgfmt" if line in theirs else "fmtcanon-po"
            counts[who] += 1
            alone.append(f"{mo}: only {who}: {theirs.get(line) or found.get(line)}")
    return counts, alone


def main(words):
    is_listed = words[:1] == ["--list"]
    words = words[is_listed:]
    folder = Path(words[0] if words else "/usr/share/locale")
    total = Counter()
    with ThreadPoolExecutor(2) as pool:
        for counts, alone in pool.map(compared, sorted(folder.rglob("*.mo"))):
            total.update(counts)
            if is_listed:
                print(*alone, sep="\n", end="\n" if alone else "", file=sys.stderr)
    print("| Of the machine's own catalogs | |\n|---|---|")
    for key, text in ROWS:
        print(f"| {text} | {total[key]:,} |")


if __name__ == "__main__":
    main(sys.argv[1:])
