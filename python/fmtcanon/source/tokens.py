"""The tokens of C: of a source, to find its string literals, and of what a preprocessor makes of it, to compare."""

import functools
import re
from typing import List, Sequence, Tuple

from ..formats.verdicts import shared_front

# A string literal without a prefix, in which lines may be spliced.
STRING = rb'"[^"\\\n]*(?:\\(?:\r\n|[\s\S])[^"\\\n]*)*"'
RAW = rb"(?:u8|[uUL])?R\"(?P<raw>[^()\\\s\"]{0,16})\([\s\S]*?\)(?P=raw)\""
# A literal that isn't closed, up to the end of its line, or of the text: so none is read again from each quote in it.
OPEN = rb'"(?:[^"\\\n]|\\(?:\r\n|[\s\S]))*|(?<!\w)(?:u8|[uUL])?R"[^()\\\s"]{0,16}\([\s\S]*'
MAY_BE_RAW = re.compile(rb'(?<!\w)(?:u8|[uUL])?R"')
CHARACTER = rb"(?:u8|[uUL])?'(?:[^'\\\n]|\\[\s\S])*'"
NUMBER = rb"\.?[0-9](?:[eEpP][-+]|'?[\w.])*"
NAME = rb"[A-Za-z_$\x80-\xff][\w$\x80-\xff]*"
# Each comment matches in one way only, so that a search that fails takes linear time.
COMMENT = rb"/\*[^*]*\*+(?:[^/*][^*]*\*+)*/|//(?:[^\\\n]|\\[\s\S])*(?=\n|\Z)"
GAP = rb"(?:[ \t\n\v\f\r]|\\\r?\n|" + COMMENT + rb")*"
SPLICE = re.compile(rb"\\\r?\n")
LINE_MARKER = rb"^# \d+ \"[^\n]*"
REST = rb"|".join([CHARACTER, NUMBER, NAME, OPEN, rb"[^\s]"])
PREPROCESSED = re.compile(
    rb"(?P<marker>" + LINE_MARKER + rb")|(?P<string>" + RAW + rb"|(?:u8|[uUL])?" + STRING + rb")|" + REST, re.MULTILINE
)
# The same in one line, without raw strings.
IN_LINE = re.compile(rb"(?:u8|[uUL])?" + STRING + rb"|" + REST)


def common_front(first: bytes, second: bytes) -> int:
    """Returns how long the front is that two preprocessed texts share, up to a line marker after a statement or a
    declaration.

    So neither a token nor a static assertion is cut. Most of a text is its headers, which come first. A raw string may
    have what looks like a marker, so then it is 0.
    """
    if MAY_BE_RAW.search(first):
        return 0
    at = first.rfind(b"\n# ", 0, shared_front(first, second))
    while at > 0 and not first[max(at - 200, 0) : at].rstrip().endswith((b";", b"}")):
        at = first.rfind(b"\n# ", 0, at)
    return max(at, 0)


class Tokens:
    """The tokens of preprocessed text, with the line of the text that each is in.

    Line markers don't count as tokens. Static assertions, which begin with one of these keywords, are left out: they
    may have the text of a literal in them, and are evaluated when the result is compiled.
    """

    def __init__(self, text: bytes, assertions: Sequence[bytes]) -> None:
        self.words: List[bytes] = []
        self.lines: List[int] = []
        if MAY_BE_RAW.search(text):
            self.read(text)
        else:
            self.read_by_lines(text)
        if any(it in text for it in assertions):
            self.leave_assertions(assertions)

    def read(self, text: bytes) -> None:
        """Reads a text whose tokens may go over several lines: raw strings do."""
        line, last = 1, 0
        for found in PREPROCESSED.finditer(text):
            line += text.count(b"\n", last, found.start())
            last = found.start()
            if not found["marker"]:
                self.words.append(found.group())
                self.lines.append(line)

    def read_by_lines(self, text: bytes) -> None:
        """Reads a text in which each token is in one line, several times as fast."""
        for number, line in enumerate(text.split(b"\n"), 1):
            if not re.match(LINE_MARKER, line):
                found = IN_LINE.findall(line)
                self.words += found
                self.lines += [number] * len(found)

    def leave_assertions(self, assertions: Sequence[bytes]) -> None:
        """Takes static assertions out."""
        words, lines, self.words, self.lines = self.words, self.lines, [], []
        depth = -1
        for word, line in zip(words, lines):
            if depth == -1 and word in assertions:
                depth = 0
            elif depth >= 0:
                depth += (word == b"(") - (word == b")")
                depth = -1 if depth == 0 and word == b")" else depth
            else:
                self.words.append(word)
                self.lines.append(line)


def without_splices(text: bytes) -> bytes:
    return SPLICE.sub(b"", text)


@functools.lru_cache(maxsize=16)
def plain_literals(source: bytes) -> Tuple[bytes, Sequence[int]]:
    """Returns string literals with one space for what is between them and without spliced lines, and the offset in the
    source of each byte.

    The last offset is that of the end.
    """
    if re.fullmatch(STRING, source) and not SPLICE.search(source):
        return source, range(len(source) + 1)
    plain, offsets = bytearray(), []
    for found in re.finditer(rb"(?P<string>" + STRING + rb")|(?:[ \t\n\v\f\r]|\\\r?\n|" + COMMENT + rb")+", source):
        if found["string"] is None:
            plain += b" "
            offsets.append(found.start())
            continue
        for piece in re.finditer(rb"(?P<splice>\\\r?\n)|\\[\s\S]|[^\\]+", found["string"]):
            if piece["splice"] is None:
                plain += piece.group()
                start = found.start() + piece.start()
                offsets += range(start, start + len(piece.group()))
    return bytes(plain), [*offsets, len(source)]
