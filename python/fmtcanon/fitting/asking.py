"""What is asked about a file, by the compile commands that it has."""

from typing import FrozenSet, Optional

from ..compiling.left import Left
from ..compiling.sources import Files, Name
from .checking import Job, Question


def job_of(
    files: Files, name: Name, question: Question, source: Optional[bytes] = None, among: FrozenSet[str] = frozenset()
) -> Job:
    """Returns what is to be done for a file."""
    why = files.why_skipped(name)
    try:
        commands = () if why else files.commands(name.path)
    except Left as left:
        return Job(name.path, (), question, str(left))
    return Job(name.path, commands, question, why_skipped=why, source=source, among=among)
