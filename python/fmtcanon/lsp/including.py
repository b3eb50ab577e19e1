"""Says where a source includes one more header of the C library."""

from typing import Optional

from ..source.directives import directives_in
from .diagnosing import TextEdit


def include_edit(data: bytes, header: str, before: int) -> Optional[TextEdit]:
    """Returns the change that includes a header after those of the system that are included before an offset, outside
    of `#if`, or else after others or at the beginning; None if it is included there.
    """
    wanted = b"<" + header.encode() + b">"
    at = own = 0
    for found in directives_in(data[:before]):
        if found.word == b"include" and found.name == wanted:
            return None
        if found.word == b"include" and found.depth == 0:
            own, at = (own, found.end) if found.name.startswith(b"<") else (found.end, at)
    at = at or own
    end = b"\r\n" if b"\r\n" in data[:before] else b"\n"
    front = end if at and not data[:at].endswith(b"\n") else b""
    return TextEdit(at, at, front + b"#include " + wanted + end)
