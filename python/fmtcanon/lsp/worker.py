"""The work of the process that compiles: it judges a text as fmtcanon-check does."""

import os
import shutil
import tempfile
import time
from typing import Iterator, Mapping, NamedTuple, Optional, Sequence, Tuple

from ..compiling.left import Left
from ..compiling.retargeting import write_headers
from ..compiling.sources import Name
from ..fitting import silencing
from ..fitting.asking import job_of
from ..fitting.checking import Question, answer
from ..fitting.reporting import SKIPPED, shown_file
from ..fitting.unit import Settings
from ..frame.findings import Finding
from ..frame.interrupting import CLEANING
from ..models import Model
from ..source.files import known_bytes
from ..source.known import Shape
from .compiled_findings import CompiledAnswer, FindingAt
from .databases import Databases, absolute_path
from .documents import UTF_8, Document


# How often a folder is tried to be removed, and the seconds between.
TRIES, REST = 5, 0.05


class CompiledText(NamedTuple):
    """A text to judge: the document that has it, the path of that, and a file that has the text; and the options."""

    uri: str
    path: str
    text: str
    database: Optional[str]
    flags: Sequence[str]
    functions: Mapping[str, Shape]
    models: Sequence[Model]
    added: Sequence[str]


class CompileWorker:
    """Judges one text after another. Its headers are in a folder, which goes with the process."""

    def __init__(self, folder: str, root: Optional[str]) -> None:
        self.folder, self.root = folder, root
        self.databases = Databases()
        self.words: Sequence[str] = ()

    def start(self) -> None:
        """Takes note that this is a process of its own: nothing that it prints gets to the editor."""
        os.dup2(os.open(os.devnull, os.O_RDWR), 1)
        CLEANING.append(lambda: remove(self.folder))
        os.environ["TMPDIR"] = tempfile.tempdir = self.folder
        os.environ["PATH"] = absolute_path()
        if self.root:
            os.chdir(self.root)
        self.words = write_headers(os.path.join(self.folder, "headers"))

    def judge(self, given: CompiledText) -> CompiledAnswer:
        """Returns what is found in a text."""
        if not self.words:
            self.start()
        # Other files may have changed.
        silencing.comments_of.cache_clear()
        known_bytes.cache_clear()
        with open(given.text, "rb") as stream:
            data = stream.read()
        try:
            files = self.databases.files(given.path, given.database, given.flags)
        except (Left, OSError) as why:
            return CompiledAnswer(given.uri, (), str(why))
        settings = Settings(self.words, given.functions, {})
        question = Question(given.models, given.added, settings)
        found = answer(job_of(files, Name(given.path, given.path), question, data))
        findings = [it.finding for it in found.found.values()]
        why_left = [it.message for it in findings if it.kind == SKIPPED]
        listed = tuple(located_in(data, findings, shown_file(given.path)))
        return CompiledAnswer(given.uri, listed, why_left[0] if why_left else "")


def remove(folder: str) -> None:
    """Removes a folder, in which another thread may still write for a moment."""
    for _ in range(TRIES):
        shutil.rmtree(folder, ignore_errors=True)
        if not os.path.exists(folder):
            return
        time.sleep(REST)


def located_in(data: bytes, findings: Sequence[Finding], file: str) -> Iterator[FindingAt]:
    """Yields the findings in a file that has a text, with their offsets in it."""
    document = Document("", "", "", None, UTF_8)
    document.set(data)
    for finding in findings:
        if finding.file == file and finding.kind != SKIPPED:
            yield FindingAt(*span_of(document, finding), finding)


def span_of(document: Document, finding: Finding) -> Tuple[int, int]:
    """Returns the offsets of a finding, or those of its line without the space around it."""
    line = max(finding.line - 1, 0)
    if finding.column is not None:
        start = document.offset_of_column(line, finding.column - 1)
        end = document.offset_of_column(finding.end[0] - 1, finding.end[1] - 1) if finding.end else start + 1
        return start, end
    text = document.line(line)
    start = document.starts[min(line, len(document.starts) - 1)] + len(text) - len(text.lstrip())
    return start, start + len(text.strip())
