"""A unit: a file as one of its compile commands compiles it, and its calls on every platform."""

import dataclasses
import functools
import os
from typing import AbstractSet, Dict, List, Mapping, NamedTuple, Optional, Sequence, Set, Tuple

from ..compiling.calls import Call, Calls, FormatCalls, Key, words_for
from ..compiling.closure import Candidate, Wrappers, is_local, needs_of
from ..compiling.compile_commands import CompileCommand
from ..compiling.functions import Functions
from ..compiling.left import Left
from ..compiling.line_markers import files_in, markers
from ..compiling.parsing import as_utf8
from ..compiling.platforms import COMPILED, FOR_WINDOWS, NOT_OF_WINDOWS, PLATFORMS, Platform
from ..compiling.retargeting import ENTERED, own_spans, retargeted
from ..compiling.stand_ins import Original, original
from ..compiling.targets import model_in
from ..models import Model
from ..source.files import bytes_of
from ..source.known import Shape
from .alike import calls_on_all


class Settings(NamedTuple):
    """The words that find the headers of this command; functions that take formats, by the options; typedefs, each with
    the one whose type it has; the folder with these headers; and the functions of all units that hand their formats on.
    """

    words: Sequence[str]
    functions: Mapping[str, Shape]
    types: Mapping[str, str]
    folder: str = ""
    found: Wrappers = {}


def read_command(command: CompileCommand, settings: Settings) -> CompileCommand:
    """Returns the command with which a unit is preprocessed. Raises Left if it is of another data model."""
    model = model_in(command.macros())
    if model is not Model.LP64:
        raise Left(f"it is compiled for {model.name if model else 'another data model'}, and not for LP64")
    return command_with(command, settings)


def command_with(command: CompileCommand, settings: Settings) -> CompileCommand:
    """Returns a compile command as units are read by it."""
    words = (command.words[0], *settings.words, *command.words[1:], "-U_FORTIFY_SOURCE")
    return dataclasses.replace(command, words=words)


class Unit:
    """The calls of a unit on each platform, and why libclang can't parse a part of it, if so. Its source may be another
    than that of the file, and what the preprocessor makes of that may be known.
    """

    def __init__(
        self, command: CompileCommand, settings: Settings, source: Optional[bytes] = None, text: Optional[bytes] = None
    ) -> None:
        self.command, self.settings, self.source = read_command(command, settings), settings, source
        # The functions that hand their formats on: those that are known, and the unit's own.
        self.known = settings.found
        self.callable: AbstractSet[str] = frozenset()
        self.read = read = self.text(self.original().source) if text is None else as_utf8(text).decode()
        first = self.parsed(read, COMPILED)
        self.known, self.wrappers, self.callable = first.known, first.own, first.callable
        known = None if settings.types else calls_on_all(first, read)
        others = [it for it in PLATFORMS if it is not COMPILED]
        self.calls: List[Dict[Key, Call]] = known or [first.found, *(self.parsed(read, it).found for it in others)]
        errors = first.errors()
        self.why_left: Optional[str] = errors[0] if errors else None
        self.unread, self.others = first.unread, first.others
        self.candidates, self.called = first.candidates, first.called
        self.defined: Optional[bytes] = None

    def needed(self) -> Set[str]:
        """Returns the keys of functions and pointers of other units that calls and formats of this one depend on."""
        used = {call.key for call in self.calls[0].values() if call.key}
        own = [it for it in self.candidates if not it.is_pointer]
        local = (it for it in self.candidates if it.is_pointer and is_local(it.key))
        return (self.called | used | needs_of([*own, *local])) - {it.key for it in own}

    def is_abroad(self) -> bool:
        """Returns whether the unit can't be one of 64-bit Windows: it includes a header that this lacks, and nothing in
        its sources is for Windows.
        """
        own, is_lacking, was_own = {self.command.file}, False, True
        for _, _, name, flags in markers(self.read):
            file = os.path.join(self.command.folder, name)
            is_lacking = is_lacking or (was_own and flags.startswith(ENTERED) and bool(NOT_OF_WINDOWS.fullmatch(file)))
            was_own = "3" not in flags
            own.update([file] if was_own else ())
        return is_lacking and not any(map(is_for_windows, own))

    def text(self, source: bytes) -> str:
        """Returns what the compiler's preprocessor makes of a source of the file. Each is given in the same way: a
        header that a file finds in its own folder and by -I is read twice if the compiler reads the file, and otherwise
        once.
        """
        return as_utf8(self.command.preprocessed(source)).decode()

    def original(self) -> Original:
        """Returns the file, with the source that is judged. Raises `OSError` if it can't be read."""
        file = original(self.command.file)
        return file if self.source is None else file._replace(source=self.source)

    def files(self) -> Set[str]:
        """Returns the paths of the files in the unit."""
        return files_in(self.read.encode(), self.command.folder, self.settings.folder)

    def definitions(self) -> bytes:
        """Returns the text of the unit with the definitions of its macros."""
        if self.defined is None:
            self.defined = bytes(self.command.run(self.source, "-E", "-dD", "-w").stdout)
        return self.defined

    def parsed(self, text: str, platform: Platform) -> FormatCalls:
        own = {name: platform.types.get(type, type) for name, type in self.settings.types.items()}
        functions = Functions(self.settings.functions, found=self.known, callable=self.callable)
        return FormatCalls(self.command, retargeted(text, platform, own).encode(), platform, functions, self.source)

    def marked(self, text: str) -> Dict[Key, Call]:
        """Returns the calls in the text of another source of the file, as it is compiled."""
        return self.parsed(text, COMPILED).found


@functools.lru_cache(maxsize=10_000)
def is_for_windows(path: str) -> bool:
    """Returns whether a source says that something in it is for Windows."""
    return bool(FOR_WINDOWS.search(bytes_of(path)))


def candidates_of(command: CompileCommand, settings: Settings, text: bytes) -> Tuple[List[Candidate], Set[str]]:
    """Returns the functions of a unit with this text that may hand their formats on, and what pointers are given there;
    and the names of variadic functions and of such pointers, if there are pointers.
    """
    unit = parsed_with(command, settings, text)
    return unit.candidates_among(Functions(settings.functions), own_spans(unit.text.decode("latin-1"))), unit.names


def parsed_with(command: CompileCommand, settings: Settings, text: bytes) -> Calls:
    """Returns a unit as it is compiled."""
    command = read_command(command, settings)
    own = {name: COMPILED.types.get(type, type) for name, type in settings.types.items()}
    changed = retargeted(as_utf8(text).decode(), COMPILED, own).encode()
    return Calls(command, changed, Functions(settings.functions), words_for(COMPILED))
