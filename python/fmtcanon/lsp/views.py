"""Documents that are open, with what is said of them: sources of C and C++, and catalogs."""

import os
import time
from typing import Any, Dict, Iterator, List, Optional, Tuple

from ..catalogs.catalog_checking import Right
from ..compiling.compile_commands import SOURCES
from ..formats.layout import as_source
from ..models import Model
from ..source.declared import Shapes, declared_for, declared_in
from ..source.written import WrittenFormat, WrittenSource
from . import argument_help, diagnosing, open_catalogs
from .open_catalogs import Hover
from .compiled_findings import CompiledPart, after, diagnosis_of, fixes_of, is_said_by
from .diagnosing import Diagnosis, SourceFix
from .documents import Document
from .markdown import about_directive, about_format, one_line
from .editor_options import Options

# Seconds after the last change until a document is read again, or this many times as long as that took.
SOON, REST = 0.1, 3
# Of a longer document, only so much is read from the beginning, and what is around the cursor.
LONGEST = 1_000_000
CATALOGS = ("po", "gettext")
CATALOG_ENDINGS = (".po", ".pot")


class DocumentView:
    """A document, and when it is to be read again. `running` does that step by step."""

    def __init__(self, document: Document, options: Options) -> None:
        self.document, self.options = document, options
        self.found: List[Diagnosis] = []
        self.due: Optional[float] = time.monotonic()
        self.running: Optional[Iterator[Optional[Diagnosis]]] = None
        self.took = 0.0

    @property
    def model(self) -> Model:
        return self.options.models[0]

    def changed(self) -> None:
        """Notes that the document has another text."""
        self.running = None
        self.due = time.monotonic() + max(SOON, REST * self.took)

    def saved(self) -> None:
        """Notes that files were written."""

    def has(self, options: Options) -> None:
        """Takes other options."""
        self.options, self.running, self.due = options, None, time.monotonic()

    @property
    def is_read(self) -> bool:
        """Whether all is found in the text as it is."""
        return self.due is None and self.running is None

    def is_due(self, now: float) -> bool:
        return self.running is not None or (self.due is not None and self.due <= now)

    def advance(self, until: float) -> bool:
        """Goes on up to a time, and returns whether all is found."""
        begin = time.monotonic()
        if self.running is None:
            self.due, self.running, self.found, self.took = None, self.diagnoses(), [], 0.0
        for one in self.running:
            self.found += [one] if one else []
            if time.monotonic() > until:
                self.took += time.monotonic() - begin
                return False
        self.running = None
        self.took += time.monotonic() - begin
        return True

    def diagnoses(self) -> Iterator[Optional[Diagnosis]]:
        """Yields what is wrong with the document, or None after a step without a fault."""
        raise NotImplementedError

    def shown(self) -> List[Diagnosis]:
        """Returns what is said of the document."""
        return self.found

    def hover(self, offset: int) -> Optional[Hover]:
        raise NotImplementedError

    def signature(self, offset: int) -> Optional[Dict[str, Any]]:
        """Returns the format whose argument is typed at an offset; None in a catalog."""
        return None

    def highlighted(self, offset: int) -> List[Tuple[int, int]]:
        """Returns what belongs together with what is at an offset; nothing in a catalog."""
        return []

    def fixes(self, start: int, end: int) -> Iterator[Tuple[Diagnosis, SourceFix]]:
        """Yields what may be done about the faults between two offsets."""
        raise NotImplementedError


class SourceView(DocumentView):
    """A source of C or C++."""

    def __init__(self, document: Document, options: Options) -> None:
        super().__init__(document, options)
        self.shapes: Optional[Shapes] = None
        # The text as it is now, once it is read, and as it was.
        self.written: Optional[WrittenSource] = None
        self.before: Optional[WrittenSource] = None
        self.compiled = CompiledPart(document.data)
        # What was found in the text before it changed, where that is now.
        self.earlier: List[Diagnosis] = []

    def changed(self) -> None:
        before = self.found if self.is_read else self.earlier
        super().changed()
        self.earlier = after(before, [self.compiled.changed(self.document.data)])
        self.written = None

    def saved(self) -> None:
        self.compiled.saved()

    def has(self, options: Options) -> None:
        self.earlier = self.found if self.is_read else self.earlier
        super().has(options)
        self.shapes = None
        self.compiled.saved()

    @property
    def can_be_compiled(self) -> bool:
        """Whether the document is a file that is compiled by itself, and isn't too long."""
        path = self.document.path
        is_source = path is not None and SOURCES.fullmatch(path) is not None and os.path.isfile(path)
        return is_source and len(self.document.data) <= LONGEST

    def diagnoses(self) -> Iterator[Optional[Diagnosis]]:
        data = self.document.data[:LONGEST]
        path = self.document.path
        declared = declared_for(path, data) if path else declared_in(data)
        self.shapes = {**declared, **self.options.functions}
        yield None
        written = WrittenSource(data, self.model, self.shapes)
        self.before = written
        if len(data) == len(self.document.data):
            self.written = written
        yield None
        for format in written.formats():
            yield from diagnosing.diagnoses_of(format, self.model)
            yield None

    def shown(self) -> List[Diagnosis]:
        """Returns what is said of the document, each once, except what clangd says."""
        document, written = self.document, self.found if self.is_read else self.earlier
        rejected: Dict[str, List[int]] = {}
        for one in written:
            if one.format is not None:
                text = one.format.decode(errors="backslashreplace")
                rejected.setdefault(text, []).append(document.line_of(one.start))
        compiled = [it for it in self.compiled.found if not is_said_by(it, rejected, document.line_of(it.start))]
        found = sorted([*written, *map(diagnosis_of, compiled)], key=lambda it: it.start)
        return [it for it in found if not (it.is_by_clang and self.options.beside_clangd)]

    def near(self, offset: int) -> WrittenSource:
        """Returns the source as it is read, or what is near an offset if it changed since."""
        if self.written is not None:
            return self.written
        macros = self.before.source.macros if self.before else None
        return WrittenSource(self.document.data, self.model, self.shapes, offset, macros)

    def given(self, written: WrittenSource, format: WrittenFormat) -> List[str]:
        """Returns the arguments of a format, each in one line."""
        data = self.document.data
        return [one_line(data[start:end]) for start, end in written.arguments(format)]

    def hover(self, offset: int) -> Optional[Hover]:
        written = self.near(offset)
        format = written.at(offset)
        if format is None:
            return None
        given = self.given(written, format)
        one = format.directive_at(offset)
        if one is None:
            words = about_format(format.text, format.explanation, self.model, given)
            return Hover(words, (format.start, format.end))
        source = as_source(one.part.text)
        return Hover(about_directive(one.part, self.model, given, source), (one.start, one.end))

    def signature(self, offset: int) -> Optional[Dict[str, Any]]:
        return argument_help.signature(self.near(offset), offset, self.model)

    def highlighted(self, offset: int) -> List[Tuple[int, int]]:
        return argument_help.highlighted(self.near(offset), self.document.data, offset)

    def fixes(self, start: int, end: int) -> Iterator[Tuple[Diagnosis, SourceFix]]:
        for format in self.near(start).formats():
            if format.start <= end and start <= format.end:
                for one in diagnosing.diagnoses_of(format, self.model):
                    yield from ((one, it) for it in one.fixes if one.start <= end and start <= one.end)
        for found in self.compiled.found:
            if found.start <= end and start <= found.end:
                written = self.near(found.start)
                yield from ((diagnosis_of(found), it) for it in fixes_of(found, written, self.document.data))


class CatalogView(DocumentView):
    """A message catalog."""

    def __init__(self, document: Document, options: Options) -> None:
        super().__init__(document, options)
        # The shapes of pairs of texts without a fault: after a change, most are as they were.
        self.right: Right = set()

    def diagnoses(self) -> Iterator[Optional[Diagnosis]]:
        return open_catalogs.diagnoses_of(self.document, LONGEST, self.options.models, self.right)

    def hover(self, offset: int) -> Optional[Hover]:
        return open_catalogs.hover_at(self.document, offset, self.model)

    def fixes(self, start: int, end: int) -> Iterator[Tuple[Diagnosis, SourceFix]]:
        # After a change the faults are found again first: their offsets are those of the text before it.
        if self.is_read:
            for one in self.found:
                for it in one.fixes if one.start <= end and start <= one.end else ():
                    if open_catalogs.helps(self.document, it, self.options.models):
                        yield one, it


def view_of(document: Document, options: Options) -> DocumentView:
    is_catalog = document.language in CATALOGS or (document.path or "").endswith(CATALOG_ENDINGS)
    return (CatalogView if is_catalog else SourceView)(document, options)
