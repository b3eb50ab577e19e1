"""Reads message catalogs, .po and .mo, as gettext does."""

import re
import struct
from typing import Dict, Iterator, List, NamedTuple, Optional, Tuple

from .charsets import Charset, Unknown, charset_named
from .catalog_tokens import BadCatalog, Token, tokens, unquoted

MAGIC = {b"\xde\x12\x04\x95": "<", b"\x95\x04\x12\xde": ">"}
# Such a file has strings that depend on the machine, with the number of them here.
MACHINE_REVISION, MACHINE_STRINGS = 1, 36
# Flags are separated by commas and white space. A range is one flag.
FLAG = re.compile(r"range:[\s,]+[^\s,]*|[^\s,]+")
SAID = {"c-format": True, "possible-c-format": True, "no-c-format": False, "impossible-c-format": False}
OTHER_FORMAT = re.compile(r"(?!no-|impossible-|(?:possible-)?c-)[a-z0-9+-]+-format")
FORM_DIGITS = 6


class BadByte(NamedTuple):
    """A byte that isn't of the charset: the line and the column of the text that has it, and the name of the text."""

    line: int
    column: Optional[int]
    name: str
    byte: int


class Message:
    """A message with its translations, all in UTF-8.

    Its line is that of the first msgstr, as msgfmt prints it; in a .mo file it is the message's number.
    """

    def __init__(self, line: int, flags: List[str], has_context: bool = False) -> None:
        self.line = line
        self.column: Optional[int] = None
        # In the order of the file: of `c-format` and `no-c-format` the last one counts.
        self.flags = flags
        self.has_context = has_context
        self.is_fuzzy = False
        self.msgid = b""
        self.plural: Optional[bytes] = None
        self.forms: Dict[int, bytes] = {}
        self.bad_bytes: List[BadByte] = []

    @property
    def is_header(self) -> bool:
        return not self.msgid and not self.has_context

    @property
    def is_translated(self) -> bool:
        return bool(self.forms.get(0))

    @property
    def is_c_format(self) -> Optional[bool]:
        """Whether the flags say that it is a C format, or None if they don't."""
        return next((SAID[flag] for flag in reversed(self.flags) if flag in SAID), None)

    @property
    def other_format(self) -> Optional[str]:
        """The flag of a format of another language, if there is one."""
        return next((flag for flag in self.flags if OTHER_FORMAT.fullmatch(flag)), None)


class Catalog:
    """The messages of a file, and the text of its header."""

    def __init__(
        self, messages: List[Message], has_flags: bool = True, hidden: int = 0, charset: str = "UTF-8"
    ) -> None:
        self.charset = charset
        self.messages = [one for one in messages if not one.is_header or one.bad_bytes]
        header = next((one.forms.get(0, b"") for one in messages if one.is_header), b"")
        self.header = header.decode(errors="replace")
        # Whether it says which messages are C formats.
        self.has_flags = has_flags
        # Messages with a part that depends on the machine, which aren't read.
        self.hidden = hidden


class PoReader:
    """Builds messages of the tokens of a .po file."""

    def __init__(self, charset: Optional[Charset]) -> None:
        self.charset = charset
        self.flags: List[str] = []
        self.is_fuzzy = False
        # The last keyword, with its form and the text of the strings after it, if there are any.
        self.keyword: Optional[bytes] = None
        self.form: Optional[int] = None
        self.text: Optional[bytearray] = None
        self.has_context = False
        self.message: Optional[Message] = None
        self.bad_bytes: List[BadByte] = []
        self.line = self.column = 0

    def read(self, text: bytes) -> Iterator[Message]:
        """Yields each message as soon as the next one begins."""
        for token in tokens(text):
            message = self.take(token)
            if message is not None:
                yield message
        self.finish_keyword()
        message = self.finish_message()
        if message is not None:
            yield message

    def take(self, token: Token) -> Optional[Message]:
        """Takes the next token, and returns the message that ends before it, if one does."""
        if token.kind == "comment":
            self.comment(token.text)
        elif token.kind == "string":
            if self.keyword is None:
                raise BadCatalog(token.line, "a string comes after no keyword")
            self.text = bytearray() if self.text is None else self.text
            self.text += unquoted(token.text, self.charset, token.line)
        elif token.kind == "form":
            self.begin_form(token)
        else:
            self.finish_keyword()
            return self.begin_keyword(token)
        return None

    def comment(self, text: bytes) -> None:
        # A message that is commented out takes its flags with it.
        if text.startswith(b"#~"):
            self.finish_keyword()
            self.flags, self.is_fuzzy = [], False
        elif text.startswith((b"#,", b"#=", b"#!")):
            self.finish_keyword()
            found = FLAG.findall(text[2:].decode("latin-1"))
            # To msgfmt a second comment of flags replaces the first. So a message is fuzzy only by the last one.
            self.is_fuzzy = "fuzzy" in found
            self.flags += found

    def begin_form(self, token: Token) -> None:
        if self.keyword != b"msgstr" or self.form is not None or self.text is not None:
            raise BadCatalog(token.line, "a number in brackets may only come after msgstr")
        digits = token.text[1:-1].strip().lstrip(b"0")
        if len(digits) > FORM_DIGITS:
            raise BadCatalog(token.line, "the number of a form is too large")
        self.form = int(digits or b"0")

    def begin_keyword(self, token: Token) -> Optional[Message]:
        """Begins what a keyword names, and returns the message that ends before it, if one does."""
        keyword, line, ended = token.text, token.line, None
        self.keyword, self.form, self.text, self.line, self.column = keyword, None, None, line, token.column
        if keyword in (b"domain", b"msgctxt", b"msgid"):
            ended = self.finish_message()
        elif self.message is None:
            raise BadCatalog(line, f"{keyword.decode()} comes before msgid")
        if keyword == b"msgid":
            self.message = Message(line, self.flags, self.has_context)
            self.message.is_fuzzy, self.flags, self.is_fuzzy = self.is_fuzzy, [], False
        self.has_context = keyword == b"msgctxt"
        return ended

    def finish_keyword(self) -> None:
        keyword, self.keyword = self.keyword, None
        if keyword is None:
            return
        if self.text is None:
            raise BadCatalog(self.line, f"{keyword.decode()} has no string")
        text, self.text = bytes(self.text), None
        bad = None if self.charset is None or text.isascii() else self.charset.bad_byte(text)
        if bad is not None:
            name = keyword.decode() if self.form is None else f"{keyword.decode()}[{self.form}]"
            self.bad_bytes.append(BadByte(self.line, self.column, name, bad))
        if self.message is not None and keyword not in (b"domain", b"msgctxt"):
            self.put(self.message, keyword, text)

    def put(self, message: Message, keyword: bytes, text: bytes) -> None:
        if keyword == b"msgid":
            message.msgid = text
        elif keyword == b"msgid_plural":
            message.plural = text
        else:
            if (self.form is None) != (message.plural is None) or (self.form or 0) in message.forms:
                raise BadCatalog(self.line, "msgstr has a number if and only if there is a msgid_plural, each another")
            if not message.forms:
                message.line, message.column = self.line, self.column
            message.forms[self.form or 0] = text

    def finish_message(self) -> Optional[Message]:
        message, self.message = self.message, None
        if message is not None:
            if not message.forms:
                raise BadCatalog(message.line, "the message has no msgstr")
            message.bad_bytes, self.bad_bytes = self.bad_bytes, []
        return message


def charset_of(header: bytes) -> Charset:
    """Returns the charset that a header names, or UTF-8. Raises `Unreadable` if it isn't read."""
    _, name, rest = header.partition(b"charset=")
    text = re.split(rb"[ \t\n]", rest, maxsplit=1)[0].decode("latin-1")
    try:
        return charset_named("UTF-8" if not name or text == "CHARSET" else text)
    except Unknown as error:
        raise BadCatalog(0, str(error)) from error


def header_of(text: bytes) -> bytes:
    """Returns the text of the header entry, with its bytes as they are, or nothing."""
    try:
        for message in PoReader(None).read(text):
            if message.is_header:
                return message.forms[0]
    except (BadCatalog, KeyError):
        # What is wrong is found again, and reported, when the catalog is read in its charset.
        pass
    return b""


def read_po(data: bytes) -> Catalog:
    if data.startswith(b"\xef\xbb\xbf"):
        data = data[3:]
    charset = charset_of(header_of(data))
    return Catalog(list(PoReader(charset).read(in_utf_8(data, charset))), charset=charset.name)


def in_utf_8(data: bytes, charset: Charset) -> bytes:
    """Returns a text in UTF-8, except for the bytes that aren't of the charset."""
    try:
        return charset.decode(data)
    except UnicodeError as error:
        raise BadCatalog(0, str(error)) from error


def mo_strings(data: bytes, order: str, count: int, table: int) -> Iterator[bytes]:
    """Yields the strings of a table of a .mo file. Together they are no longer than the file."""
    room = len(data)
    for at in range(table, table + 8 * count, 8):
        length, start = struct.unpack_from(order + "II", data, at)
        if start + length > len(data):
            raise BadCatalog(0, "a string lies after the end")
        room -= length
        if room < 0:
            raise BadCatalog(0, "its strings overlap")
        yield data[start : start + length]


def read_mo(data: bytes, order: str) -> Catalog:
    try:
        revision, count, ids, texts = struct.unpack_from(order + "IIII", data, 4)
        hidden = 0
        if revision & 0xFFFF == MACHINE_REVISION:
            hidden = struct.unpack_from(order + "I", data, MACHINE_STRINGS)[0]
        pairs = list(zip(mo_strings(data, order, count, ids), mo_strings(data, order, count, texts)))
    except struct.error as error:
        raise BadCatalog(0, f"it ends too early: {error}") from error
    charset = charset_of(next((text for original, text in pairs if not original), b""))
    messages = [mo_message(number, pair, charset) for number, pair in enumerate(pairs)]
    return Catalog(messages, False, hidden, charset.name)


def mo_message(number: int, pair: Tuple[bytes, bytes], charset: Charset) -> Message:
    original, translation = texts = [in_utf_8(one, charset) for one in pair]
    context, separator, rest = original.partition(b"\4")
    message = Message(number, [], bool(separator))
    message.msgid, *plural = (rest if separator else context).split(b"\0")
    message.plural = plural[0] if plural else None
    message.forms = dict(enumerate(translation.split(b"\0")))
    bad = [None if it.isascii() else charset.bad_byte(it) for it in texts]
    message.bad_bytes = [
        BadByte(number, None, name, byte) for name, byte in zip(("msgid", "msgstr"), bad) if byte is not None
    ]
    return message


def read_catalog(data: bytes) -> Catalog:
    """Returns the catalog of a file's bytes, of either form."""
    order = MAGIC.get(data[:4])
    return read_mo(data, order) if order else read_po(data)
