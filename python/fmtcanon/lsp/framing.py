"""Messages of JSON-RPC with the headers of the language server protocol."""

import json
from typing import Any, Dict, Iterator, Optional, Union

# No editor sends a longer header or message.
LONGEST_HEADER, LONGEST_MESSAGE = 4_096, 1 << 28
END_OF_HEADER = b"\r\n\r\n"
# The numbers of errors.
PARSE_ERROR, INVALID_REQUEST, METHOD_NOT_FOUND, INVALID_PARAMS = -32700, -32600, -32601, -32602
NOT_INITIALIZED, CANCELLED = -32002, -32800


class BadFraming(Exception):
    """A header doesn't say how long its message is, so nothing more can be read."""


class BadMessage(Exception):
    """A message isn't JSON, or not an object: the number of the error, and why."""

    def __init__(self, number: int, reason: str) -> None:
        super().__init__(reason)
        self.number = number


RemoteMessage = Dict[str, Any]


class Framing:
    """Takes bytes as they come, and gives the messages in them."""

    def __init__(self) -> None:
        self.held = bytearray()
        # How long the message is whose header was read.
        self.length: Optional[int] = None

    def feed(self, data: bytes) -> Iterator[Union[RemoteMessage, BadMessage]]:
        """Yields the messages that are complete with these bytes. Raises `BadFraming`."""
        self.held += data
        while True:
            if self.length is None:
                end = self.held.find(END_OF_HEADER, 0, LONGEST_HEADER)
                if end < 0:
                    if len(self.held) >= LONGEST_HEADER:
                        raise BadFraming("a header that doesn't end")
                    return
                self.length = length_in(bytes(self.held[:end]))
                del self.held[: end + len(END_OF_HEADER)]
            if len(self.held) < self.length:
                return
            body = bytes(self.held[: self.length])
            del self.held[: self.length]
            self.length = None
            yield decoded(body)


def length_in(header: bytes) -> int:
    """Returns the length that a header gives. Raises `BadFraming`."""
    for line in header.split(b"\r\n"):
        name, _, value = line.partition(b":")
        if name.strip().lower() == b"content-length" and value.strip().isdigit():
            length = int(value)
            if length <= LONGEST_MESSAGE:
                return length
    raise BadFraming(f"a header without a length: {header[:80]!r}")


def decoded(body: bytes) -> Union[RemoteMessage, BadMessage]:
    """Returns a message, or what is wrong with it."""
    try:
        found = json.loads(body.decode("utf-8", "surrogatepass"))
    except (ValueError, RecursionError) as error:
        return BadMessage(PARSE_ERROR, str(error))
    return found if isinstance(found, dict) else BadMessage(INVALID_REQUEST, "the message isn't an object")


def framed(message: RemoteMessage) -> bytes:
    """Returns a message with its header. It is ASCII alone, so that lone surrogates pass."""
    body = json.dumps({"jsonrpc": "2.0", **message}, separators=(",", ":")).encode()
    return b"Content-Length: %d\r\n\r\n" % len(body) + body
