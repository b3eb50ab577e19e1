"""The process that compiles for the server: it may hang or crash, and then the next text gets another."""

import os
import tempfile
import time
from typing import Any, List, Optional

from ..frame.processes import GRACE, Worker, started, wait_or_kill
from .compiled_findings import CompiledAnswer
from .worker import CompiledText, CompileWorker, remove


class CompilerEnded(Exception):
    """The process that compiles ended, or was ended, while it had a text."""


class Compiler:
    """The process, if it was started, and the text that it has. It gets one after another."""

    def __init__(self, root: Optional[str]) -> None:
        self.root = root
        self.folder = ""
        self.worker: Optional[Worker] = None
        self.given: Optional[CompiledText] = None
        self.late = 0.0

    @property
    def is_idle(self) -> bool:
        return self.given is None

    @property
    def connections(self) -> List[Any]:
        return [self.worker.connection] if self.worker else []

    def give(self, text: CompiledText, data: bytes, seconds: float) -> None:
        """Gives a text to the process, with the seconds that this may take. It is in a file, so that a process that
        doesn't read keeps nobody waiting. Raises `OSError`.
        """
        if self.worker is None:
            self.start()
        assert self.worker is not None
        with open(os.path.join(self.folder, "text"), "wb") as stream:
            stream.write(data)
        self.given, self.late = text._replace(text=stream.name), time.monotonic() + seconds
        self.worker.connection.send(self.given)

    def start(self) -> None:
        self.folder = tempfile.mkdtemp(prefix="fmtcanon-lsp-")
        self.worker = started(CompileWorker(self.folder, self.root).judge)

    def take(self) -> Optional[CompiledAnswer]:
        """Returns an answer if there is one. Raises CompilerEnded."""
        if self.worker is None:
            return None
        try:
            if not self.worker.connection.poll():
                if self.given and time.monotonic() > self.late:
                    # It ends its compilers, which would go on without it.
                    self.stop()
                    raise CompilerEnded("it takes too long")
                return None
            is_done, result = self.worker.connection.recv()
        except (EOFError, OSError) as error:
            self.stop(kill=True)
            raise CompilerEnded("the process that compiles it ended") from error
        self.given = None
        if not is_done:
            raise CompilerEnded(result)
        answer: CompiledAnswer = result
        return answer

    def stop(self, kill: bool = False) -> None:
        """Ends the process, and removes what it kept."""
        worker, self.worker, self.given = self.worker, None, None
        if worker is None:
            return
        worker.connection.close()
        wait_or_kill(worker.process, 0 if kill else GRACE)
        remove(self.folder)
