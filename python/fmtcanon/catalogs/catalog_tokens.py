"""The tokens of a .po file in UTF-8, and the bytes of its strings.

In the text, a byte that isn't of the file's charset is a byte that isn't UTF-8.
"""

import re
from typing import Dict, Iterator, NamedTuple, Optional

from .charsets import Charset

# A comment goes to the end of its line. A string is found by the pattern for its parts.
TOKEN = re.compile(
    rb"\s*(?:(?P<comment>#[^\n]*)"
    rb'|(?P<string>")'
    rb"|(?P<keyword>domain|msgctxt|msgid_plural|msgid|msgstr)\b"
    rb"|(?P<form>\[\s*[0-9]+\s*\])|\Z)"
)
SPACE = re.compile(rb"\s*")
# Some parts of a string. Without a bound on their number, a match would keep a state for each.
PARTS = re.compile(rb'[^"\\\n]*(?:\\[^\n][^"\\\n]*){0,1000}')
ESCAPE = re.compile(rb"\\(?:([0-7]{1,3})|x([0-9A-Fa-f]+)|(.))", re.DOTALL)
# An escape that may be of a number above 127.
HIGH = re.compile(rb"\\(?:[2-7][0-7][0-7]|x)")
SIMPLE: Dict[bytes, bytes] = {bytes([name]): bytes([value]) for name, value in zip(b'abfnrtv\\"', b'\a\b\f\n\r\t\v\\"')}
BYTE = [bytes([number]) for number in range(256)]


class BadCatalog(Exception):
    """A catalog can't be read: the line if it is known, and the reason."""

    def __init__(self, line: int, reason: str) -> None:
        super().__init__(reason)
        self.line = line


class Token(NamedTuple):
    """A keyword, a form, a string without its quotes, or a comment, with its line and its column, in bytes, from 1."""

    kind: str
    text: bytes
    line: int
    column: int


def tokens(text: bytes) -> Iterator[Token]:
    """Yields the tokens of the text of a file. Raises `BadCatalog` for what isn't one."""
    # Up to where lines are counted, and where the last one begins.
    counted, line, begin, end = 0, 1, 0, 0
    while True:
        match = TOKEN.match(text, end)
        if match is None:
            at = SPACE.match(text, end).end()  # type: ignore[union-attr]
            raise BadCatalog(line + text.count(b"\n", counted, at), "it is not a keyword, string or comment")
        kind, end = match.lastgroup, match.end()
        if kind is None:
            return
        start = match.start(kind)
        lines = text.count(b"\n", counted, start)
        if lines:
            line, begin = line + lines, text.rfind(b"\n", counted, start) + 1
        counted, found = start, match[kind]
        if kind == "string":
            quote = end
            end = end_of_string(text, quote, line) + 1
            found = text[quote : end - 1]
        yield Token(kind, found, line, start - begin + 1)


def end_of_string(text: bytes, at: int, line: int) -> int:
    """Returns the offset of the quote that closes a string."""
    while True:
        end = PARTS.match(text, at).end()  # type: ignore[union-attr]
        if text[end : end + 1] == b'"':
            return end
        if end == at or text[end : end + 1] != b"\\":
            raise BadCatalog(line, "a string is not closed in its line")
        at = end


def unquoted(string: bytes, charset: Optional[Charset], line: int) -> bytes:
    """Returns the bytes that a string means, in UTF-8.

    An escape by number is a byte in the charset of the file. What isn't of the charset is not UTF-8.
    """
    if b"\\" not in string:
        return string
    # Bytes by their number are bytes of a charset, not of UTF-8, so what is round them is converted to it and back.
    is_mixed = charset is not None and not charset.is_utf_8 and HIGH.search(string) is not None
    encode = charset.encode if charset is not None and is_mixed else bytes
    out, done = bytearray(), 0
    # Joining a list takes some eighty bytes for each escape.
    for match in ESCAPE.finditer(string):
        out += encode(string[done : match.start()])
        out += value_of(match, line)
        done = match.end()
    out += encode(string[done:])
    return charset.decode(bytes(out)) if charset is not None and is_mixed else bytes(out)


def value_of(match: "re.Match[bytes]", line: int) -> bytes:
    """Returns the byte of an escape."""
    octal, hexadecimal, simple = match.groups()
    if simple is not None:
        if simple not in SIMPLE:
            raise BadCatalog(line, f"the escape \\{simple.decode('latin-1')} isn't known")
        return SIMPLE[simple]
    number = int(octal, 8) if octal else int(hexadecimal[-3:] if not hexadecimal[:-3].strip(b"0") else b"fff", 16)
    if number > 255:
        raise BadCatalog(line, "an escape by number is not a byte")
    return BYTE[number]
