"""One file: which of its places are replaced, and the check of the result."""

import os
from collections import Counter
from dataclasses import dataclass, field
from typing import List, NamedTuple, Sequence, Tuple, Union

from ..compiling.compile_commands import CompileCommand
from ..compiling.functions import Functions
from ..compiling.left import Left
from ..compiling.markers import MarkedCalls, Marker
from ..compiling.stand_ins import Original, StandIn
from ..compiling.targets import assertions_in
from ..source.respelling import LiteralRun, literals_of
from ..source.tokens import Tokens, common_front
from . import doubts

# The macro for when a file was changed.
OWN_TIME = b"__TIMESTAMP__"
# A token, or the number of the place whose marker it is.
Piece = Union[bytes, int]


@dataclass
class Change:
    """A place, the source that is to replace its literals, and why that isn't done, if it isn't."""

    place: LiteralRun
    source: bytes
    why_left: str = ""
    # Whether a compile command was seen to compile the place.
    is_compiled: bool = field(default=False)


class Seen(NamedTuple):
    """What a compile command makes of a file: the front that doesn't change, the tokens after it, and these with places
    for their literals. And the keywords of static assertions.
    """

    front: bytes
    tokens: Tokens
    pieces: List[Piece]
    assertions: Sequence[bytes]


def with_sources(source: bytes, places: Sequence[LiteralRun], sources: Sequence[bytes]) -> bytes:
    """Returns the source of a file with these in place of the literals of these places."""
    parts, done = [], 0
    for place, text in zip(places, sources):
        parts += [source[done : place.start], text]
        done = place.end
    return b"".join([*parts, source[done:]])


class File:
    """The changes to one file, and how they are judged."""

    def __init__(self, original: Original, changes: List[Change], functions: Functions) -> None:
        self.original, self.changes, self.functions = original, changes, functions
        self.places = [it.place for it in changes]
        self.old = [literals_of(it.place.source) for it in changes]

    def result(self, commands: Sequence[CompileCommand]) -> bytes:
        """Returns the source with what is right by all compile commands replaced, and notes for each other place why it
        is left.
        """
        self.check_rights()
        seen = [self.judge(command) for command in commands]
        for change in self.changes:
            if not change.is_compiled:
                change.why_left = change.why_left or "it isn't compiled: it is in a comment, or left out by #if"
        after = self.with_sources([it.place.source if it.why_left else it.source for it in self.changes])
        if after != self.original.source:
            for command, before in zip(commands, seen):
                self.check_result(before, command.preprocessed(after))
                command.check_compiles(after)
        return after

    def with_sources(self, sources: Sequence[bytes]) -> bytes:
        return with_sources(self.original.source, self.places, sources)

    def changes_columns(self) -> bool:
        """Returns whether a place may get another length."""
        return any(not it.why_left and len(it.source) != len(it.place.source) for it in self.changes)

    def judge(self, command: CompileCommand) -> "Seen":
        """Judges the places by one compile command. Returns what it makes of the file."""
        text, marker = command.preprocessed(self.original.source), Marker()
        doubts.check(command, text)
        if self.changes_columns():
            doubts.check_columns(text)
        assertions = assertions_in(command.macros())
        marked, front, pieces = self.marked(command, text, marker)
        before = Tokens(text[front:], assertions)
        # Whatever is replaced in a file, it has another time then.
        if OWN_TIME in self.original.source or rendered(pieces, self.old) != before.words:
            raise Left("its compiler reads it otherwise once literals are replaced")
        counts = Counter(it for it in pieces if isinstance(it, int))
        calls = MarkedCalls(command, marked, marker, self.functions) if counts else None
        for number, count in counts.items():
            change = self.changes[number]
            change.is_compiled = True
            change.why_left = change.why_left or (calls and calls.why_left(number, count)) or ""
        return Seen(text[:front], before, pieces, assertions)

    def marked(self, command: CompileCommand, before: bytes, marker: Marker) -> Tuple[bytes, int, List[Piece]]:
        """Returns what the preprocessor makes of the file with markers for places.

        With it, the length of the front that it shares with the text before, and the tokens after that, with the number
        of a place for its marker. A place whose marker becomes a part of another token is left, and keeps its literals.
        """
        while True:
            sources = [
                it.place.source if it.why_left else marker.literal(number) + b"\n" * it.place.source.count(b"\n")
                for number, it in enumerate(self.changes)
            ]
            text = command.preprocessed(self.with_sources(sources))
            front = common_front(before, text)
            pieces: List[Piece] = []
            is_torn = False
            for word in Tokens(text[front:], assertions_in(command.macros())).words:
                numbers = marker.numbers(word)
                is_whole = bool(numbers) and word == marker.literal(numbers[0])
                pieces.append(numbers[0] if is_whole else word)
                for number in [] if is_whole else numbers:
                    self.changes[number].why_left, is_torn = "a macro makes other text of it", True
            if not is_torn:
                return text, front, pieces

    def check_result(self, before: "Seen", text: bytes) -> None:
        """Raises Left unless the tokens are the same as before, on the same lines, except for the literals that were
        replaced, each at its place.
        """
        new = [old if it.why_left else literals_of(it.source) for it, old in zip(self.changes, self.old)]
        if not text.startswith(before.front):
            raise Left("the check of the result failed: its compiler reads other headers")
        after = Tokens(text[len(before.front) :], before.assertions)
        if rendered(before.pieces, new) != after.words:
            raise Left("the check of the result failed: its compiler reads other tokens")
        if before.tokens.lines != after.lines:
            raise Left("the check of the result failed: its compiler reads other lines")

    def check_rights(self) -> None:
        """Raises Left for a file that can't be replaced as a whole."""
        if self.original.state.st_nlink > 1:
            raise Left("it has hard links, which would be torn apart")
        if not self.original.state.st_mode & 0o222:
            raise Left("it is read-only")
        if not os.access(os.path.dirname(self.original.path), os.W_OK):
            raise Left("its folder can't be written to")


def put_in_place(original: Original, after: bytes) -> None:
    """Renames a stand-in with this text onto a file, with the file's owner and rights. Raises Left if the file has
    changed.
    """
    with StandIn(original.path) as stand_in:
        stand_in.write(after)
        stand_in.take_rights(original)
        if not original.is_as_read():
            raise Left("it was changed meanwhile")
        stand_in.rename()


def rendered(pieces: List[Piece], literals: Sequence[Sequence[bytes]]) -> List[bytes]:
    """Returns the tokens with the literals of each place in its stead."""
    found: List[bytes] = []
    for piece in pieces:
        if isinstance(piece, int):
            found += literals[piece]
        elif isinstance(piece, bytes):
            found.append(piece)
    return found
