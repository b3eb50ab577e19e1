"""Respells the formats of a source tree by fmtcanon-replace, and compares the assembler of each unit before and after.

Usage: python3 -m tests.field.rewrites DIR

DIR has a `compile_commands.json`; its files are changed. Each place that the library accepts and that has another
spelling, as %i for %d, %lf for %f and %-s for %s, is replaced if fmtcanon-replace judges so, with --attribute. The
assembler of each changed unit must stay the same, with each string by its canonical text. It needs the module fmtcanon
with its library, and libclang.
"""

import codecs
import os
import re
import subprocess
import sys
from collections import Counter
from concurrent.futures import ProcessPoolExecutor

import fmtcanon
from fmtcanon.compiling.compile_commands import SOURCES, commands_in
from fmtcanon.compiling.left import Left
from fmtcanon.compiling.stand_ins import original
from fmtcanon.compiling.functions import Functions
from fmtcanon.rewriting.rewritten_files import Change, File, put_in_place
from fmtcanon.source.respelling import respelled, runs_in
from tests.field.sources import is_accepted

# What a format may be instead: each pattern is tried in turn, once.
SPELLINGS = [
    (rb"(?<!%)%((?:%%)*[-+ #0']*(?:\d+|\*)?(?:\.(?:\d*|\*))?[hljzt]*)d", rb"%\1i"),
    (rb"(?<!%)%((?:%%)*[-+ #0']*(?:\d+|\*)?(?:\.(?:\d*|\*))?)([fFeEgGaA])", rb"%\1l\2"),
    (rb"(?<!%)%((?:%%)*)([hljzt]*[uxXocp]|s)", rb"%\1-\2"),
    (rb"%i", b"%d"),
]


def other_spelling(text):
    """Returns another format that means the same in all data models, or None."""
    for pattern, by in SPELLINGS:
        new = re.sub(pattern, by, text, count=1)
        if new != text and is_accepted(text) and len(fmtcanon.same_in(text, new, whole=True)) == len(fmtcanon.Model):
            return new
    return None


STRING_DATA = re.compile(rb"^(\.LC\d+):\n((?:\t\.(?:string|ascii)\t.*\n)+)", re.MULTILINE)
# Where strings lie depends on their length.
STRING_SECTIONS = re.compile(rb"^\t\.(?:align \d+|section\t\.rodata.*|text|previous)\n", re.MULTILINE)


def meant(text):
    """Returns the canonical text of a string, or the string if it is not an accepted format."""
    return fmtcanon.canonical(text, whole=True) if is_accepted(text) else text


def assembler(command):
    """Returns the assembler of a unit, in which each string is named by what it means."""
    words, file = command.used()
    environment = {**os.environ, "SOURCE_DATE_EPOCH": "0"}
    done = subprocess.run(
        [*words, "-g0", "-S", "-o", "-", file], cwd=command.folder, capture_output=True, check=True, env=environment
    )
    strings = {}
    for label, lines in STRING_DATA.findall(done.stdout):
        text = b"".join(codecs.escape_decode(it[1:-1])[0] for it in re.findall(rb'"(?:[^"\\]|\\.)*"', lines))
        strings[label] = b"string " + meant(text.rstrip(b"\0")).hex().encode()
    code = STRING_SECTIONS.sub(b"", STRING_DATA.sub(b"", done.stdout))
    return re.sub(rb"\.LC\d+", lambda found: strings.get(found.group(), found.group()), code)


def rewritten(path, commands):
    """Respells what it may of a file, and returns counts, and the units whose assembler differs."""
    read = original(path)
    changes = []
    for place in runs_in(read.source):
        new = other_spelling(place.text)
        text = new and respelled(place, new)
        if text:
            changes.append(Change(place, text))
    counts = Counter(places=len(changes))
    if not changes:
        return counts, []
    before = [assembler(command) for command in commands]
    try:
        put_in_place(read, File(read, changes, Functions({}, True)).result(commands))
    except Left as left:
        return counts + Counter({f"left: {left}": len(changes)}), []
    done = sum(not it.why_left for it in changes)
    if not done:
        return counts, []
    after = [assembler(command) for command in commands]
    return counts + Counter(replaced=done, units=len(commands)), [
        path for one, other in zip(before, after) if one != other
    ]


def main(words):
    if len(words) != 1:
        sys.exit(__doc__)
    database = {
        path: commands
        for path, commands in commands_in(words[0]).items()
        if SOURCES.fullmatch(path) and os.path.exists(path)
    }
    total, different = Counter(), []
    with ProcessPoolExecutor() as pool:
        for counts, paths in pool.map(rewritten, database.keys(), database.values()):
            total.update(counts)
            different += paths
    for key, count in total.most_common():
        print(f"{count:6} {key}")
    print(f"{len(different):6} units whose assembler differs: {' '.join(different)}")
    return 1 if different else 0


if __name__ == "__main__":
    sys.exit(main(sys.argv[1:]))
