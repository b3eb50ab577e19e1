"""Prints what fmtcanon-diff says of releases of source trees: a table in Markdown.

Usage: python3 -m tests.field.releases OLD NEW [OLD NEW]..

Each OLD and NEW are folders with two releases of one package. With --list it prints what is found instead. It needs the
module fmtcanon with its library.
"""

import functools
import os
import sys
import time
from collections import Counter
from pathlib import Path

from fmtcanon import Model
from fmtcanon.diff.diff_reports import DiffQuestion, report_on
from fmtcanon.diff.trees import changes_of
from fmtcanon.frame.findings import as_text
from fmtcanon.frame.processes import in_order

COLUMNS = [
    "places",
    "judged",
    "same",
    "words",
    "different",
    "types",
    "directives",
    "rejected",
    "unjudged",
    "came",
    "went",
]
HEADS = [
    "Releases",
    "Places changed",
    "Judged",
    "Same",
    "Only words differ",
    "Different",
    "Other types",
    "Other directives",
    "Rejected now",
    "Not judged",
    "Came",
    "Went",
    "Seconds",
]


def surveyed(old, new, is_listed):
    """Returns the numbers of places of each kind."""
    counts = Counter()
    work = functools.partial(report_on, question=DiffQuestion(list(Model)))
    for report in in_order(work, changes_of(old, new), os.cpu_count() or 1):
        counts.update(came=report.came, went=report.went, places=len(report.findings))
        for finding in report.findings:
            counts[finding.kind] += 1
            counts["judged"] += finding.kind != "unjudged"
            if is_listed:
                print(as_text(finding))
    return counts


def main(words):
    is_listed = words[:1] == ["--list"]
    folders = words[is_listed:]
    if not folders or len(folders) % 2:
        sys.exit(__doc__)
    if not is_listed:
        print("| " + " | ".join(HEADS) + " |\n|" + "---|" * len(HEADS))
    for old, new in zip(folders[::2], folders[1::2]):
        began = time.monotonic()
        counts = surveyed(old, new, is_listed)
        if not is_listed:
            cells = [f"{counts[it]:,}" for it in COLUMNS]
            print(
                f"| {Path(old).name}, {Path(new).name} | "
                + " | ".join([*cells, f"{time.monotonic() - began:.0f}"])
                + " |",
                flush=True,
            )


if __name__ == "__main__":
    main(sys.argv[1:])
