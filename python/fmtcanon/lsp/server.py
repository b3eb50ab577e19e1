"""The server: messages are answered one after another, and between them it works on the documents."""

import os
import select
import sys
import time
from collections import deque
from itertools import islice
from typing import Any, Callable, Deque, Dict, List, Mapping, Optional, Set, Tuple

from .. import __version__
from ..frame.output import complain, write
from .compile_queue import Compiling
from .diagnosing import HINT, UNNECESSARY, WARNING, Diagnosis, SourceFix, TextEdit
from .documents import UTF_8, UTF_16, Document, path_of
from .framing import (
    CANCELLED,
    INVALID_PARAMS,
    INVALID_REQUEST,
    METHOD_NOT_FOUND,
    NOT_INITIALIZED,
    BadFraming,
    BadMessage,
    Framing,
    RemoteMessage,
    framed,
)
from .editor_options import Options, options_of
from .views import CatalogView, DocumentView, SourceView, view_of

NAME = "fmtcanon"
INCREMENTAL = 2
TEXT = 1
QUICK_FIX = "quickfix"
# How many bytes are read at a time, and how many seconds of work come between two looks at the input.
PART, SLICE = 1 << 16, 0.005
# How many quick fixes are offered together: each is tried.
MOST = 50
# What an unexpected message or document may raise, which doesn't end the server.
FAULTS = (KeyError, TypeError, AttributeError, ValueError, IndexError)

Params = Dict[str, Any]


class RequestFault(Exception):
    """A request can't be answered: the number of the error, and why."""

    def __init__(self, number: int, reason: str) -> None:
        super().__init__(reason)
        self.number = number


class Server:
    """A conversation with an editor over two streams: the descriptor of the first, and standard output."""

    def __init__(self, descriptor: int = 0) -> None:
        self.descriptor, self.framing = descriptor, Framing()
        self.waiting: Deque[RemoteMessage] = deque()
        # The requests that were cancelled before they were answered.
        self.cancelled: Set[Any] = set()
        self.views: Dict[str, DocumentView] = {}
        self.compiling = Compiling(self.views, self.log, self.publish)
        self.options, self.encoding = Options(), UTF_16
        self.is_initialized = self.is_stopping = self.is_done = False

    def run(self) -> int:
        """Answers until the editor says exit or goes. Returns the exit status: 0 only after a request to shut down."""
        try:
            while not self.is_done:
                is_more = self.take_in(0.0 if self.waiting else self.pause())
                if self.waiting:
                    self.take(self.waiting.popleft())
                elif not is_more:
                    break
                else:
                    self.work()
        except BadFraming as fault:
            complain(f"fmtcanon-lsp: {fault}")
        finally:
            self.compiling.stop()
        return 0 if self.is_stopping else 1

    def pause(self) -> Optional[float]:
        """Returns the seconds until there is work; None if only a message brings some."""
        if any(it.running for it in self.views.values()):
            return 0.0
        due = [*(it.due for it in self.views.values() if it.due is not None), *self.compiling.wake()]
        return max(0.0, min(due) - time.monotonic()) if due else None

    def take_in(self, seconds: Optional[float]) -> bool:
        """Reads what there is, or waits for it or for what was compiled up to a time. Returns False at the end."""
        while self.descriptor in select.select([self.descriptor, *self.compiling.connections], [], [], seconds)[0]:
            data = os.read(self.descriptor, PART)
            if not data:
                return False
            for message in self.framing.feed(data):
                self.note(message)
            seconds = 0.0
        return True

    def note(self, message: Any) -> None:
        if isinstance(message, BadMessage):
            self.fail(None, message.number, str(message))
        elif message.get("method") == "$/cancelRequest":
            number = (message.get("params") or {}).get("id")
            if any(it.get("id") == number and number is not None for it in self.waiting):
                self.cancelled.add(number)
        elif "method" in message:
            self.waiting.append(message)

    def send(self, **message: Any) -> None:
        write(sys.stdout, framed(message))

    def fail(self, number: Any, error: int, reason: str) -> None:
        self.send(id=number, error={"code": error, "message": reason})

    def log(self, words: str) -> None:
        self.send(method="window/logMessage", params={"type": WARNING, "message": f"fmtcanon-lsp: {words}"})

    def take(self, message: RemoteMessage) -> None:
        """Answers a request, or heeds a notification."""
        number, is_request = message.get("id"), "id" in message
        try:
            if is_request and number in self.cancelled:
                self.cancelled.discard(number)
                raise RequestFault(CANCELLED, "cancelled")
            result = self.answer(str(message["method"]), message.get("params") or {}, is_request)
        except RequestFault as fault:
            if is_request:
                self.fail(number, fault.number, str(fault))
        except FAULTS as fault:
            if is_request:
                self.fail(number, INVALID_PARAMS, f"{type(fault).__name__}: {fault}")
            else:
                self.log(f"{message['method']}: {type(fault).__name__}: {fault}")
        else:
            if is_request:
                self.send(id=number, result=result)

    def answer(self, name: str, params: Params, is_request: bool) -> Any:
        if name == "exit":
            self.is_done = True
            return None
        method = METHODS.get(name)
        if method is None:
            if is_request:
                raise RequestFault(METHOD_NOT_FOUND, f"{name} isn't known")
            return None
        if not self.is_initialized and name != "initialize":
            raise RequestFault(NOT_INITIALIZED, "the first request is initialize")
        if self.is_stopping:
            raise RequestFault(INVALID_REQUEST, "the server was asked to shut down")
        return method(self, params)

    # The life of the server and of documents.

    def initialize(self, params: Params) -> Params:
        self.compiling.compiler.root = root_in(params)
        general = (params.get("capabilities") or {}).get("general") or {}
        offered = general.get("positionEncodings") or [UTF_16]
        # The first is what the editor itself counts in.
        self.encoding = UTF_8 if offered[0] == UTF_8 else UTF_16
        self.options, faults = options_of(params.get("initializationOptions"))
        self.is_initialized = True
        for fault in faults:
            self.log(fault)
        return {"capabilities": self.capabilities(), "serverInfo": {"name": "fmtcanon-lsp", "version": __version__}}

    def capabilities(self) -> Params:
        return {
            "positionEncoding": self.encoding,
            "textDocumentSync": {"openClose": True, "change": INCREMENTAL, "save": True},
            "hoverProvider": True,
            "documentHighlightProvider": True,
            "signatureHelpProvider": {"triggerCharacters": [","]},
            "codeActionProvider": {"codeActionKinds": [QUICK_FIX]},
        }

    def heed(self, params: Params) -> None:
        """Does nothing about a notification that is known."""

    def shut_down(self, params: Params) -> None:
        self.is_stopping = True

    def opened(self, params: Params) -> None:
        given = params["textDocument"]
        language, version = str(given.get("languageId", "")), given.get("version")
        document = Document(given["uri"], language, given["text"], version, self.encoding)
        self.views[document.uri] = view_of(document, self.options)

    def changed(self, params: Params) -> None:
        view = self.views[params["textDocument"]["uri"]]
        for change in params["contentChanges"]:
            view.document.change(change)
        view.document.version = params["textDocument"].get("version")
        view.changed()

    def closed(self, params: Params) -> None:
        uri = params["textDocument"]["uri"]
        if self.views.pop(uri, None) is not None:
            self.send(method="textDocument/publishDiagnostics", params={"uri": uri, "diagnostics": []})

    def saved(self, params: Params) -> None:
        """Has the source compiled again that was saved, or all if that was a header."""
        view = self.views.get(params["textDocument"]["uri"])
        is_alone = isinstance(view, CatalogView) or (isinstance(view, SourceView) and view.can_be_compiled)
        for one in [view] if view and is_alone else self.views.values():
            one.saved()

    def configured(self, params: Params) -> None:
        """Takes other options."""
        settings = params.get("settings")
        given = settings.get(NAME) if isinstance(settings, dict) else None
        if given is not None:
            self.options, faults = options_of(given, self.options)
            for view in self.views.values():
                view.has(self.options)
            for fault in faults:
                self.log(fault)

    def work(self) -> None:
        """Works for a moment on what is due, and publishes what is wrong with a document once all is found."""
        self.compiling.work()
        now = time.monotonic()
        for view in self.views.values():
            try:
                is_done = view.is_due(now) and view.advance(now + SLICE)
            except FAULTS as fault:
                view.running, is_done = None, False
                self.log(f"{view.document.uri}: {type(fault).__name__}: {fault}")
            if is_done:
                self.publish(view)

    def publish(self, view: DocumentView) -> None:
        document = view.document
        listed = [shown_diagnosis(document, it) for it in view.shown()]
        published = {"uri": document.uri, "version": document.version, "diagnostics": listed}
        self.send(method="textDocument/publishDiagnostics", params=published)

    # Requests about a place.

    def at(self, params: Params) -> Tuple[DocumentView, int]:
        """Returns the document and the offset that a request is about."""
        view = self.views[params["textDocument"]["uri"]]
        return view, view.document.offset(params["position"])

    def hover(self, params: Params) -> Optional[Params]:
        view, offset = self.at(params)
        found = view.hover(offset)
        if found is None:
            return None
        shown: Params = {"contents": {"kind": "markdown", "value": found.words}}
        return {**shown, "range": view.document.range(*found.span)} if found.span else shown

    def signature(self, params: Params) -> Optional[Params]:
        view, offset = self.at(params)
        return view.signature(offset)

    def highlight(self, params: Params) -> List[Params]:
        view, offset = self.at(params)
        return [{"range": view.document.range(*it), "kind": TEXT} for it in view.highlighted(offset)]

    def actions(self, params: Params) -> List[Params]:
        view = self.views[params["textDocument"]["uri"]]
        start, end = (view.document.offset(params["range"][it]) for it in ("start", "end"))
        only = (params.get("context") or {}).get("only")
        if only and not any(QUICK_FIX == it or QUICK_FIX.startswith(f"{it}.") for it in only):
            return []
        return [shown_action(view.document, *it) for it in islice(view.fixes(start, end), MOST)]


def root_in(params: Params) -> Optional[str]:
    """Returns the folder that the editor has open, if it is one."""
    folders = params.get("workspaceFolders") or [{"uri": params.get("rootUri")}]
    path = path_of(str(folders[0]["uri"]))
    return path if path and os.path.isdir(path) else None


def shown_diagnosis(document: Document, one: Diagnosis) -> Params:
    """Returns a fault as the protocol has it."""
    shown: Params = {
        "range": document.range(one.start, one.end),
        "severity": one.level,
        "code": one.kind,
        "source": NAME,
        "message": one.words,
    }
    if one.level == HINT:
        shown["tags"] = [UNNECESSARY]
    if one.related:
        places = [{"uri": document.uri, "range": document.range(it.start, it.end)} for it in one.related]
        words = [it.words for it in one.related]
        shown["relatedInformation"] = [{"location": it, "message": text} for it, text in zip(places, words)]
    return shown


def shown_action(document: Document, one: Diagnosis, change: SourceFix) -> Params:
    """Returns what may be done about a fault as the protocol has it."""
    edits = [
        {"range": document.range(it.start, it.end), "newText": it.new.decode("utf-8", "replace")}
        for it in (TextEdit(change.start, change.end, change.new), *change.more)
    ]
    return {
        "title": change.title,
        "kind": QUICK_FIX,
        "isPreferred": True,
        "diagnostics": [shown_diagnosis(document, one)],
        "edit": {"changes": {document.uri: edits}},
    }


METHODS: Mapping[str, Callable[[Server, Params], Any]] = {
    "initialize": Server.initialize,
    "initialized": Server.heed,
    "shutdown": Server.shut_down,
    "workspace/didChangeConfiguration": Server.configured,
    "textDocument/didOpen": Server.opened,
    "textDocument/didChange": Server.changed,
    "textDocument/didSave": Server.saved,
    "textDocument/didClose": Server.closed,
    "textDocument/hover": Server.hover,
    "textDocument/documentHighlight": Server.highlight,
    "textDocument/signatureHelp": Server.signature,
    "textDocument/codeAction": Server.actions,
}
