"""Converts a catalog from its charset to UTF-8: by Python's codecs, or by iconv of the C library for the others."""

import codecs
import ctypes
import functools
import re
from typing import Callable, Optional

# Names that the codecs of Python know under the meaning that iconv gives them.
CODECS = re.compile(
    r"ASCII|US-ASCII|ANSI_X3\.4-1968|ISO[-_]?8859-(?:[1-9]|1[0-6])|LATIN-?1|KOI8-[RTU]|(?:CP|WINDOWS-)125[0-8]"
    r"|CP(?:437|85[0257]|86[0-6]|874|932|949|950)|GB2312|GBK|GB18030|BIG5(?:-HKSCS)?|EUC-(?:JP|KR)|SHIFT[-_]JIS|JOHAB"
    r"|TIS-620",
    re.IGNORECASE,
)
UTF_8 = re.compile(r"UTF-?8", re.IGNORECASE)
# A catalog is read by these bytes, which must mean themselves.
PLAIN = bytes(range(0x20, 0x7E)) + b"\t\n"
# iconv_open and iconv answer this for a failure, as an address and as a size.
FAILED = ctypes.c_size_t(-1).value
TOO_BIG = 7
MOST_NAME = 40
PART = 1 << 20
# Python's surrogate of a byte that it can't decode is this, and the byte.
BYTES = 0xDC00
MARKED = re.compile(rb"(\xed[\xb0-\xb3][\x80-\xbf])")

Convert = Callable[[bytes], bytes]


class Unknown(LookupError):
    """The charset isn't read."""


class Charset:
    """A charset, by its conversions from and to UTF-8.

    A byte that isn't of the charset becomes one that isn't UTF-8, and such a byte is the byte again.
    """

    def __init__(self, name: str, decode: Convert, encode: Convert) -> None:
        self.name = name
        self.is_utf_8 = bool(UTF_8.fullmatch(name))
        self.decode = decode
        self.encode = encode

    def bad_byte(self, text: bytes) -> Optional[int]:
        """Returns the first byte of a converted text that isn't of the charset, if there is one."""
        try:
            checked(text)
        except UnicodeDecodeError as error:
            rest = text[error.start : error.start + len(marked(0))]
            return text[error.start] if self.is_utf_8 else ord(rest.decode("utf-8", "surrogatepass")[0]) - BYTES
        return None


def marked(byte: int) -> bytes:
    """Returns what a byte that isn't of the charset becomes: what Python has for it, which isn't UTF-8."""
    return chr(BYTES + byte).encode("utf-8", "surrogatepass")


@functools.lru_cache(maxsize=8)
def charset_named(name: str) -> Charset:
    """Returns the charset of this name. Raises `Unknown` if it isn't read."""
    if UTF_8.fullmatch(name):
        return Charset(name, bytes, bytes)
    if CODECS.fullmatch(name):
        codec = codecs.lookup(name)
        found = Charset(
            name,
            lambda data: codec.decode(data, "surrogateescape")[0].encode("utf-8", "surrogatepass"),
            lambda data: codec.encode(data.decode("utf-8", "surrogatepass"), "surrogateescape")[0],
        )
    elif re.fullmatch(r"[\w.:+-]+", name, re.ASCII) and len(name) <= MOST_NAME:
        found = Charset(name, lambda data: converted(data, name, "UTF-8"), lambda data: restored(data, name))
    else:
        raise Unknown(f"the charset {name[:MOST_NAME]!r} is not read")
    if found.decode(PLAIN) != PLAIN:
        raise Unknown(f"the charset {name} is not read, because a byte of ASCII doesn't mean itself in it")
    return found


def checked(data: bytes) -> bytes:
    """Returns UTF-8 as it is, and raises `UnicodeDecodeError` for anything else. It decodes a part at a time."""
    if len(data) <= PART:
        data.decode()
        return data
    decoder = codecs.getincrementaldecoder("utf-8")()
    for at in range(0, len(data) + 1, PART):
        rest = len(decoder.getstate()[0])
        try:
            decoder.decode(data[at : at + PART], at + PART > len(data))
        except UnicodeDecodeError as error:
            place = at - rest + error.start
            raise UnicodeDecodeError("utf-8", data, place, place + 1, error.reason) from None
    return data


def restored(data: bytes, name: str) -> bytes:
    """Returns the bytes in a charset of converted ones."""
    parts = MARKED.split(data)
    parts[::2] = [converted(it, "UTF-8", name) if it else it for it in parts[::2]]
    parts[1::2] = [bytes([ord(it.decode("utf-8", "surrogatepass")) - BYTES]) for it in parts[1::2]]
    return b"".join(parts)


class Iconv:
    """The conversion of iconv from one charset to another. Raises `Unknown` for a charset that it doesn't know."""

    def __init__(self, source: str, target: str) -> None:
        self.library = ctypes.CDLL(None, use_errno=True)
        self.library.iconv_open.restype = ctypes.c_void_p
        self.library.iconv_open.argtypes = [ctypes.c_char_p, ctypes.c_char_p]
        self.library.iconv.restype = ctypes.c_size_t
        size = ctypes.POINTER(ctypes.c_size_t)
        self.library.iconv.argtypes = [ctypes.c_void_p, ctypes.c_void_p, size, ctypes.c_void_p, size]
        self.descriptor = self.library.iconv_open(target.encode(), source.encode())
        if self.descriptor == FAILED:
            raise Unknown(
                f"the charset {target if source == 'UTF-8' else source} is not read, because iconv doesn't know it"
            )

    def convert(self, data: bytes) -> bytes:
        """Returns the converted bytes, with a mark for each byte that isn't of the charset."""
        # It begins as if nothing had been converted.
        self.library.iconv(self.descriptor, None, None, None, None)
        room = len(data) + 64
        buffer, out, parts = (
            ctypes.create_string_buffer(data, len(data)),
            ctypes.create_string_buffer(room),
            bytearray(),
        )
        given, left = ctypes.c_void_p(ctypes.addressof(buffer)), ctypes.c_size_t(len(data))
        is_flushed = False
        while True:
            space, at = ctypes.c_size_t(room), ctypes.c_void_p(ctypes.addressof(out))
            front = None if is_flushed else ctypes.byref(given)
            status = self.library.iconv(
                self.descriptor, front, ctypes.byref(left), ctypes.byref(at), ctypes.byref(space)
            )
            error = ctypes.get_errno()
            parts += memoryview(out)[: room - space.value]
            if status != FAILED:
                if is_flushed:
                    return bytes(parts)
                # A charset with shifts may hold a last character back.
                is_flushed = True
            elif error != TOO_BIG:
                parts += marked(data[len(data) - left.value])
                given.value, left.value = (given.value or 0) + 1, left.value - 1


@functools.lru_cache(maxsize=None)
def iconv(source: str, target: str) -> Iconv:
    return Iconv(source, target)


def converted(data: bytes, source: str, target: str) -> bytes:
    """Converts bytes by iconv. Raises `Unknown` for a charset that it doesn't know."""
    return iconv(source, target).convert(data)
