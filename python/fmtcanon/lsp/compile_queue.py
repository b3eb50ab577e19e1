"""Has the sources compiled that are open, one after another."""

import os
import time
from typing import Any, Callable, List, Mapping, Optional

from ..compiling.libclang import MISSING, cindex
from .compiled_findings import CompiledAnswer
from .compiler import Compiler, CompilerEnded
from .views import DocumentView, SourceView
from .worker import CompiledText


class Compiling:
    """The sources among views that are due, and the process that compiles them. `log` says something, and `publish`
    what is found in a view.
    """

    def __init__(
        self, views: Mapping[str, DocumentView], log: Callable[[str], None], publish: Callable[[DocumentView], None]
    ) -> None:
        self.views, self.log, self.publish = views, log, publish
        self.compiler = Compiler(None)
        # The one whose text is being compiled.
        self.view: Optional[SourceView] = None
        self.is_missing = False

    @property
    def connections(self) -> List[Any]:
        """What can be read once there is an answer."""
        return self.compiler.connections

    def due(self) -> List[SourceView]:
        """Returns the views whose sources are to be compiled."""
        if self.is_missing:
            return []
        sources = [it for it in self.views.values() if isinstance(it, SourceView) and it.compiled.due is not None]
        return [it for it in sources if it.options.compile and it.can_be_compiled]

    def wake(self) -> List[float]:
        """Returns the times at which there is something to do."""
        if not self.compiler.is_idle:
            return [self.compiler.late]
        return [it.compiled.due for it in self.due() if it.compiled.due is not None]

    def work(self) -> None:
        """Takes an answer if there is one, and gives the process the next text."""
        given = self.compiler.given
        try:
            answer = self.compiler.take()
        except CompilerEnded as why:
            self.log(f"{given.path if given else 'a source'}: not judged: {why}")
        else:
            if answer:
                self.take(answer)
        now = time.monotonic()
        ready = [it for it in self.due() if it.compiled.due is not None and it.compiled.due <= now]
        if ready and self.compiler.is_idle:
            self.give(min(ready, key=lambda it: it.compiled.due or 0))

    def take(self, answer: CompiledAnswer) -> None:
        """Takes what was found, unless the document was closed."""
        view = self.view
        if view is not None and self.views.get(answer.uri) is view:
            said = view.compiled.take(answer)
            if said:
                self.log(f"{view.document.path}: {said}")
            self.publish(view)

    def give(self, view: SourceView) -> None:
        """Gives the process the text of a view."""
        if cindex is None:
            self.is_missing = True
            self.log(f"arguments aren't compared with formats: {MISSING}")
            return
        options, document, self.view = view.options, view.document, view
        view.compiled.asked()
        functions = {name.decode(): shape for name, shape in options.functions.items()}
        text = CompiledText(
            document.uri,
            os.path.realpath(document.path or ""),
            "",
            options.database,
            options.flags,
            functions,
            options.models,
            options.added,
        )
        try:
            self.compiler.give(text, document.data, options.seconds)
        except (OSError, ImportError, ValueError) as error:
            self.compiler.stop(kill=True)
            self.log(f"{document.path}: not judged: {error}")

    def stop(self) -> None:
        self.compiler.stop()
