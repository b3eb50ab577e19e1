"""Tests of what fmtcanon-lsp knows of the protocol: positions, changes of documents, and messages in parts."""

import random
import re

from fmtcanon.lsp.documents import UTF_8, UTF_16, Document
from fmtcanon.lsp.framing import BadFraming, BadMessage, Framing, framed

from tests.commands.lsp.lsp_client import URI
from tests.frame.cases import tests_of


class Units:
    """A text as a list of the units in which an editor counts, to change it in another way than the server does."""

    def __init__(self, text, encoding):
        self.size, self.name = (1, "utf-8") if encoding == UTF_8 else (2, "utf-16-le")
        self.data = text.encode(self.name)

    @property
    def text(self):
        return self.data.decode(self.name)

    def place(self, position):
        """The offset of a position: lines end with `\\r\\n`, `\\n` or `\\r`."""
        lines = re.split("(\r\n|\n|\r)", self.text)
        front = "".join(lines[: 2 * position["line"]])
        line = lines[2 * position["line"]]
        return len(front.encode(self.name)) + min(position["character"] * self.size, len(line.encode(self.name)))


def test_changes(case):
    """Random changes give the text that an editor has, in both encodings."""
    chosen = random.Random(1)
    count = 0
    for encoding in (UTF_8, UTF_16):
        for _ in range(150):
            text = "".join(chosen.choices("ab%é😀\u0800\n\r", k=chosen.randrange(40)))
            document, units = Document(URI, "c", text, 1, encoding), Units(text, encoding)
            for _ in range(10):
                change, start, end = random_change(chosen, units)
                document.change(change)
                units.data = units.data[:start] + change["text"].encode(units.name) + units.data[end:]
                case.assertEqual(document.data.decode(), units.text, (change, encoding))
                case.assertEqual(document.starts, Document(URI, "c", units.text, 1, encoding).starts)
                count += 1
    case.assertEqual(count, 3000)


def random_change(chosen, units):
    """A change between two characters of a text, and where that is in units."""
    text, lines = units.text, []
    places = []
    for number, line in enumerate(re.split("\r\n|\n|\r", text)):
        lines.append(line)
        for at in range(len(line) + 1):
            column = len(line[:at].encode(units.name)) // units.size
            places.append({"line": number, "character": column})
    start, end = sorted(chosen.choices(range(len(places)), k=2))
    new = "".join(chosen.choices("xy\n%😀é", k=chosen.randrange(5)))
    made = {"range": {"start": places[start], "end": places[end]}, "text": new}
    return made, units.place(places[start]), units.place(places[end])


def test_positions(case):
    """A position after the end of a line is its end, and one within a character its beginning."""
    document = Document(URI, "c", "a😀b\r\n\r\nend", 1, UTF_16)
    rows = [
        ((0, 0), 0),
        ((0, 1), 1),
        ((0, 2), 1),
        ((0, 3), 5),
        ((0, 9), 6),
        ((1, 0), 8),
        ((1, 5), 8),
        ((2, 3), 13),
        ((7, 0), 13),
    ]
    for (line, character), offset in rows:
        case.assertEqual(document.offset({"line": line, "character": character}), offset)
    for offset, place in [(0, (0, 0)), (1, (0, 1)), (3, (0, 1)), (5, (0, 3)), (8, (1, 0)), (13, (2, 3))]:
        case.assertEqual(tuple(document.position(offset).values()), place)


def test_paths(case):
    rows = [("file:///a%20b/c.c", "/a b/c.c"), ("untitled:x", None), ("file:///a%00b", None), ("http://[", None)]
    for uri, path in rows:
        case.assertEqual(Document(uri, "c", "", 1, UTF_8).path, path)


def test_parts(case):
    """Messages come in parts of any length."""
    data = b"".join(framed({"id": it, "method": "é" * it}) for it in range(5))
    for size in range(1, len(data)):
        framing, found = Framing(), []
        for at in range(0, len(data), size):
            found += framing.feed(data[at : at + size])
        case.assertEqual([it["id"] for it in found], [0, 1, 2, 3, 4])


def test_faults(case):
    bodies = [b"{", b"\xff", b"5", b"null", b"[" * 100_000]
    for body in bodies:
        [found] = Framing().feed(b"Content-Length: %d\r\n\r\n%s" % (len(body), body))
        case.assertIsInstance(found, BadMessage)
    for header in (
        b"\r\n\r\n",
        b"X: 1\r\n\r\n",
        b"Content-Length: -1\r\n\r\n",
        b"Content-Length: 999999999999\r\n\r\n",
        b"x" * 5_000,
    ):
        with case.assertRaises(BadFraming):
            list(Framing().feed(header))


Tests = tests_of(globals())
