"""Prints what fmtcanon-replace says of a source tree: a table in Markdown.

Usage: python3 -m tests.field.sources DIR..

Each DIR has a `compile_commands.json`. A place is one or more string literals side by side with a `%`. Of each that the
library accepts it is asked whether it would be replaced by itself, with --attribute. No file is changed. It needs the
module fmtcanon with its library, and libclang.
"""

import os
import re
import sys
from collections import Counter
from concurrent.futures import ProcessPoolExecutor

import fmtcanon
from fmtcanon.compiling.compile_commands import SOURCES, commands_in
from fmtcanon.compiling.left import Left
from fmtcanon.compiling.stand_ins import original
from fmtcanon.compiling.functions import Functions
from fmtcanon.rewriting.rewritten_files import Change, File
from fmtcanon.source.respelling import runs_in

TRANSLATORS = "it is a key for translators"
# What a reason has for one place alone.
DETAILS = [
    (r"(key for translators), an argument of \S+", r"\1"),
    (r"argument of \S+, which", "argument of a function, which"),
    (r"format of \w+", "format of the call"),
    (r"^\w+ is declared in \S+", "the function is declared in another header"),
    (r"libclang can't parse it: .*", "libclang can't parse it"),
    (r"(it names|names|has) \S+$", r"\1 something"),
]


def plain(why):
    for pattern, text in DETAILS:
        why = re.sub(pattern, text, why)
    return why


def is_accepted(text):
    """Returns whether a text is a format of the whole language that can be compared."""
    try:
        fmtcanon.canonical(text, whole=True)
    except fmtcanon.Refused:
        return False
    return True


def surveyed(path, commands):
    """Returns what it says of each place of a file, as counts."""
    read = original(path)
    places = [it for it in runs_in(read.source) if b"%" in it.text]
    accepted = [it for it in places if is_accepted(it.text)]
    counts = Counter(files=1, places=len(places), accepted=len(accepted))
    changes = [Change(it, it.source) for it in accepted]
    try:
        if changes:
            File(read, changes, Functions({}, True)).result(commands)
    except Left as left:
        counts["files left"] += 1
        return counts + Counter({("left", f"the file: {plain(str(left))}"): len(accepted)})
    return counts + Counter(("left", plain(it.why_left)) if it.why_left else "replaced" for it in changes)


def main(folders):
    if not folders:
        sys.exit(__doc__)
    total = Counter()
    for folder in folders:
        database = {
            path: commands
            for path, commands in commands_in(folder).items()
            if SOURCES.fullmatch(path) and os.path.exists(path)
        }
        with ProcessPoolExecutor() as pool:
            for counts in pool.map(surveyed, database.keys(), database.values()):
                total.update(counts)
    keys = sum(count for key, count in total.items() if isinstance(key, tuple) and key[1] == TRANSLATORS)
    print("| Of the source | |\n|---|---|")
    rows = [
        ("files", "Files"),
        ("files left", "Files that are left as a whole"),
        ("places", "Places with a `%`"),
        ("accepted", "Places that are accepted"),
        ("replaced", "Of these replaced"),
    ]
    for key, text in rows:
        print(f"| {text} | {total[key]:,} |")
    print(
        f"| Of those that are no keys for translators, % | "
        f"{100 * total['replaced'] // max(total['accepted'] - keys, 1)} |"
    )
    for (_, why), count in sorted(
        ((key, n) for key, n in total.items() if isinstance(key, tuple)), key=lambda one: -one[1]
    ):
        print(f"| Left: {why} | {count:,} |")


if __name__ == "__main__":
    main(sys.argv[1:])
