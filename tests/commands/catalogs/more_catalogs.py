"""Compares what fmtcanon-po says of catalogs with what msgfmt says of them."""

import os
import re
import resource
import subprocess
import tempfile
from pathlib import Path

from tests.commands.catalogs.test_catalog_edges import (
    CHANGED,
    FORMS,
    STRICTER,
    UNCHANGED,
    catalog,
    checked,
    forms_text,
    message,
    pairs_catalog,
)
from tests.commands.catalogs.test_catalogs import CATALOGS, CHECKED
from tests.commands.pages.test_page_tables import compared
from tests.frame.cases import tests_of
from tests.frame.harness import TIMEOUT

# How many times what msgfmt takes many messages may take.
TIMES = 5


def fault_lines(text):
    """The faults of formats and newlines in what either tool prints: each line with the words that both have."""
    kinds = r"types of|number of format|is not a valid C format|do not both"
    theirs = r"format specifications in ('.*') and ('.*') for argument (\d+) are not the same"
    text = re.sub(theirs, lambda it: f"types of {it[1]} and {it[2]} differ at argument {it[3]}", text)
    ours = r"argument (\d+) is .*? in ('.*?'), and .* in ('.*?')"
    text = re.sub(ours, lambda it: f"types of {it[2]} and {it[3]} differ at argument {it[1]}", text)
    for line in text.splitlines():
        found = re.match(rf"([^\s:]+:\d+):(?:\d+:)? (?:error: )?(.*(?:{kinds})[^:.\[]*)", line)
        if found:
            yield found.group(1), found.group(2).strip()


def translation_line(text, line):
    """The line in which the translation begins that has this one, which msgfmt names whatever form has a fault."""
    lines = text.split("\n")
    while line > 1 and not lines[line - 1].startswith(("msgstr[0]", "msgstr ")):
        line -= 1
    return line


def msgfmt(tools):
    tools.need("msgfmt", "gettext")


def test_msgfmt(folder, msgfmt, trials):
    """It finds the faults in the catalogs that msgfmt finds, but where it can't judge."""
    environment = {**os.environ, "LC_ALL": "C", "LANGUAGE": ""}
    for catalog, _, ours in CHECKED:
        text = (CATALOGS / catalog).read_text(encoding="utf-8", errors="replace")
        places = r"^([^:\n]+):(\d+):(?=\d+: error)"
        ours = re.sub(
            places, lambda it, text=text: f"{it[1]}:{translation_line(text, int(it[2]))}:", ours, flags=re.MULTILINE
        )
        # With -c it reads the rule for plural forms, but shows no fault where the header is missing.
        report = "".join(
            subprocess.run(
                ["msgfmt", check, "-o", os.devnull, catalog],
                cwd=CATALOGS,
                env=environment,
                check=False,
                timeout=TIMEOUT,
                stderr=subprocess.PIPE,
            ).stderr.decode()
            for check in ["-c", "--check-format"]
        )
        unjudged = set(re.findall(r"^([^\s:]+:\d+):(?:\d+:)? warning", ours, flags=re.MULTILINE))
        theirs = {fault for fault in fault_lines(report) if fault[0] not in unjudged}
        # What is rejected here may be another fault there.
        refused = {line for line, words in fault_lines(ours) if "valid C format" in words}
        # Of two faults in one line it shows one, and counts both.
        left = theirs - set(fault_lines(ours))
        trials.expect(f"msgfmt {catalog}", sorted(fault for fault in left if fault[0] not in refused), [])
        # A header that lacks both fields is one fault here and two there.
        if not unjudged and theirs and "but the header" not in ours:
            found = set(re.findall(r"found \d+ fatal", ours)) & set(re.findall(r"found \d+ fatal", report))
            trials.expect(f"how many faults msgfmt has in {catalog}", len(found), 1)


def test_page(msgfmt, work, trials):
    """What msgfmt says of each row of docs/TRANSLATIONS.md."""
    for catalog, pair, wanted, _ in compared():
        (work / "a.po").write_bytes(catalog)
        words = ["msgfmt", "--check-format", "-o", os.devnull, "a.po"]
        status = subprocess.run(words, cwd=work, check=False, timeout=TIMEOUT, capture_output=True).returncode
        trials.expect(f"{pair} by msgfmt", "fault" if status else "accepted", wanted)


def msgfmt_lines(file):
    """The lines in which msgfmt finds a fault of a format."""
    environment = {**os.environ, "LC_ALL": "C", "LANGUAGE": ""}
    done = subprocess.run(
        ["msgfmt", "-c", "-o", os.devnull, file], env=environment, check=False, timeout=TIMEOUT, stderr=subprocess.PIPE
    )
    words = r"^[^:\n]+:(\d+): [^\n]*(?:format specifications|types of|valid C format)"
    return sorted({int(line) for line in re.findall(words, done.stderr.decode(errors="replace"), flags=re.MULTILINE)})


def test_edges(msgfmt, trials):
    """msgfmt finds the faults that the rows here say, and none in those that only fmtcanon-po takes for faults."""
    with tempfile.TemporaryDirectory() as work:
        file = Path(work) / "a.po"
        text, lines = pairs_catalog()
        file.write_text(text)
        trials.expect(
            "msgfmt: lines with faults",
            msgfmt_lines(file),
            [line for line in lines if r"\000" not in text.split("\n")[line - 1]],
        )
        for rows, is_fault in [
            (STRICTER, False),
            ([row for row in CHANGED if "*" not in row[0]], True),
            (UNCHANGED, False),
        ]:
            for msgid, msgstr, *_ in rows:
                file.write_text(catalog([message("#, c-format", msgid, msgstr)])[0])
                trials.expect(f"msgfmt: {msgid} as {msgstr}", bool(msgfmt_lines(file)), is_fault)
        for plural, flags, is_fault in FORMS:
            file.write_text(forms_text(plural, flags))
            trials.expect(f"msgfmt: the form of {plural[-20:]} with {flags[:20]}", bool(msgfmt_lines(file)), is_fault)


def test_speed(folder, msgfmt, trials):
    """Many messages take at most some times the time of msgfmt."""
    texts = ["%d files", "%s: %lu of %zu bytes", "100%% of %s", "no format", "%-5.*f|%c"]
    messages = [
        message("#, c-format", f"{text} {number}", f"{number} {text}") for number in range(8_000) for text in texts
    ]
    with tempfile.TemporaryDirectory() as work:
        (Path(work) / "a.po").write_text(catalog(messages)[0])
        status, report, seconds, _ = checked(folder, ["a.po"], work)
        trials.expect("many messages", (status, f"{len(messages)} messages judged" in report), (0, True))
        before = resource.getrusage(resource.RUSAGE_CHILDREN)
        subprocess.run(["msgfmt", "-c", "-o", os.devnull, "a.po"], cwd=work, check=True, stderr=subprocess.DEVNULL)
        after = resource.getrusage(resource.RUSAGE_CHILDREN)
        theirs = after.ru_utime + after.ru_stime - before.ru_utime - before.ru_stime
        print(f"{len(messages)} messages: fmtcanon-po {seconds:.2f} s, msgfmt -c {theirs:.2f} s")
        trials.expect(f"{seconds:.2f} seconds, and {TIMES} times {theirs:.2f}", seconds <= TIMES * theirs, True)


Tests = tests_of(globals())
