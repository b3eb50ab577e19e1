"""The line markers of preprocessed text, and the files that they name."""

import functools
import os
import re
from typing import List, Sequence, Set, Tuple

from .. import BadLiteral, decode_literal

# A line marker, in a text that begins with a line break: its line, the source of its file's name, and its flags: 1 is
# that of a file that is entered, and 3 that of a system header. A pattern that begins with plain text is found several
# times faster, so that of a line begins with its end.
MARKER = re.compile(r'\n# (\d+) "([^"\\\n]*(?:\\.[^"\\\n]*)*)"([ \d]*)(?![^\n])')
MARKER_IN_BYTES = re.compile(MARKER.pattern.encode())
# White space and line markers.
SPACE = r"(?:\s|(?<=\n)# \d+ [^\n]*)*"


@functools.lru_cache(maxsize=4)
def markers(text: str) -> Sequence[Tuple[int, int, str, str]]:
    """Returns where the markers of a text begin and end, their files and their flags."""
    return [(it.start(), it.end() - 1, it[2], it[3]) for it in MARKER.finditer("\n" + text)]


def parts_in(text: bytes) -> List[Tuple["re.Match[bytes]", int, int]]:
    """Returns the markers of a text, each with where the part begins and ends that comes after it."""
    found = list(MARKER_IN_BYTES.finditer(b"\n" + text))
    ends = [*(it.start() for it in found[1:]), len(text)]
    return [(it, it.end() - 1, end) for it, end in zip(found, ends)]


@functools.lru_cache(maxsize=10_000)
def path_in(name: bytes, folder: str) -> str:
    """Returns the path of a file that a line marker of a command in a folder names. The name is a literal of C: clang
    writes what isn't ASCII as `\\303\\251`.
    """
    try:
        name = decode_literal(b'"%s"' % name)
    except BadLiteral:
        pass
    return os.path.realpath(os.path.join(folder, os.fsdecode(name)))


def files_in(text: bytes, folder: str, own: str) -> Set[str]:
    """Returns the paths of the files in a text, without those in the own folder and those that compilers make up."""
    made_up = os.fsencode(own or os.devnull), b"<"
    names = {name for _, name, _ in MARKER_IN_BYTES.findall(b"\n" + text)}
    return {path_in(it, folder) for it in names if not it.startswith(made_up)}
