"""What the commands find in files, in one shape, and how it is printed: as text, JSON, SARIF or commands of GitHub."""

from __future__ import annotations

import json
import os
import re
import sys
from dataclasses import dataclass, field, replace
from typing import Any, Dict, Iterable, List, Mapping, Optional, Sequence, TextIO, Tuple
from urllib.parse import quote

from .. import __version__
from .excerpts import Excerpt, shown_finding
from .output import complain, put as put
from .progress import Progress
from .terminals import style_of, wrapped
from .visible import visible

ERROR, WARNING, NOTE = "error", "warning", "note"
# What GitHub calls the levels.
GITHUB_LEVELS = {ERROR: "error", WARNING: "warning", NOTE: "notice"}
# What vim takes for the name of a file: a text in quotes before a number with a colon; and if no column is known, all
# that is before a line and a column.
NAME_TO_VIM = re.compile(r'".*"\D*\d+: ')
POSITION = re.compile(r":(\d+):\d+: ")
SARIF_SCHEMA = "https://json.schemastore.org/sarif-2.1.0.json"


@dataclass(frozen=True)
class Finding:
    """Something that a command found in a file.

    Lines and columns count from 1, and `end` is after the last character. A column is None if it isn't known, and a
    line is 0 if the finding is of the file as a whole. `level` is "error", "warning" or "note". `formats` are those in
    question, and `models` the names of the data models in which it holds. `details` are more keys for JSON. On a
    terminal `excerpts` are shown, and `help`, which says what to do.
    """

    file: str
    line: int
    column: Optional[int]
    kind: str
    level: str
    message: str
    end: Optional[Tuple[int, int]] = None
    formats: Tuple[str, ...] = ()
    models: Tuple[str, ...] = ()
    details: Mapping[str, Any] = field(default_factory=dict)
    excerpts: Tuple[Excerpt, ...] = field(default=(), compare=False)
    help: str = field(default="", compare=False)

    @property
    def place(self) -> str:
        """The file and the position, as compilers write them. A file as a whole has its first line."""
        known = [it for it in (self.line or 1, self.column) if it is not None]
        return "".join(f"{it}:" for it in (self.file, *known))


def leveled(finding: Finding, fail_on: Sequence[str]) -> Finding:
    """Returns a finding as an error if its kind sets the status, and as none otherwise."""
    level = WARNING if finding.level == ERROR else finding.level
    return replace(finding, level=ERROR if finding.kind in fail_on else level)


def as_text(finding: Finding) -> str:
    """Returns a finding as compilers write it, so that editors read it."""
    message = finding.message.replace('"', "'") if NAME_TO_VIM.search(finding.message) else finding.message
    if finding.column is None:
        message = POSITION.sub(r":\1: ", message)
    return visible(f"{finding.place} {finding.level}: {message} [{finding.kind}]")


def by_place(findings: Iterable[Finding]) -> List[Finding]:
    """Returns findings in the order of their places."""
    return sorted(findings, key=lambda it: (it.file, it.line, it.column or 0))


def as_json(finding: Finding) -> str:
    found: Dict[str, Any] = {"file": finding.file, "line": finding.line, "column": finding.column}
    if finding.end:
        found.update(end_line=finding.end[0], end_column=finding.end[1])
    found.update(kind=finding.kind, level=finding.level, message=finding.message, models=list(finding.models))
    return json.dumps({**found, **finding.details})


def as_github(finding: Finding) -> str:
    """Returns a workflow command, whose values escape what ends them."""
    values = {"file": finding.file}
    if finding.line:
        values["line"] = str(finding.line)
    if finding.line and finding.column:
        values["col"] = str(finding.column)
        if finding.end and finding.end[0] == finding.line:
            values["endColumn"] = str(finding.end[1])
        elif finding.end:
            values["endLine"] = str(finding.end[0])
    listed = ",".join(f"{name}={escaped(value, ':,')}" for name, value in values.items())
    return f"::{GITHUB_LEVELS[finding.level]} {listed}::{escaped(finding.message)}"


def escaped(value: str, marks: str = "") -> str:
    """Returns a value of a workflow command, in which marks, `%` and the ends of lines are `%` and two digits."""
    return "".join(f"%{ord(it):02X}" if it in "%\r\n" + marks else it for it in value)


def uri(file: str) -> str:
    """Returns the name of a file as a relative reference, or as a URI if it is absolute."""
    path = quote(os.fsencode(file))
    return f"file://{path}" if file.startswith("/") else path


def sarif_result(finding: Finding, rules: List[str]) -> Dict[str, Any]:
    region: Dict[str, int] = {}
    if finding.line:
        region["startLine"] = finding.line
    if finding.line and finding.column:
        region["startColumn"] = finding.column
        if finding.end:
            region.update(endLine=finding.end[0], endColumn=finding.end[1])
    place: Dict[str, Any] = {"artifactLocation": {"uri": uri(finding.file)}}
    if region:
        place["region"] = region
    return {
        "ruleId": finding.kind,
        "ruleIndex": rules.index(finding.kind),
        "level": finding.level,
        "message": {"text": finding.message},
        "locations": [{"physicalLocation": place}],
        "properties": {"models": list(finding.models), **finding.details},
    }


def as_sarif(command: str, rules: Mapping[str, str], findings: List[Finding]) -> str:
    """Returns a log of SARIF 2.1.0 with one run."""
    listed = [{"id": kind, "shortDescription": {"text": text}} for kind, text in rules.items()]
    driver = {"name": command, "version": __version__, "rules": listed}
    results = [sarif_result(it, list(rules)) for it in findings]
    run = {"tool": {"driver": driver}, "columnKind": "unicodeCodePoints", "results": results}
    return json.dumps({"$schema": SARIF_SCHEMA, "version": "2.1.0", "runs": [run]}, indent=2)


OUTPUTS = ("text", "json", "sarif", "github")


class Printer:
    """Prints findings in one form, each as soon as it is there; only SARIF waits for the last.

    `rules` are the kinds that the command has, each with what it means. On a terminal, a finding as text has its
    excerpts, and long work says how far it is.
    """

    def __init__(
        self,
        command: str,
        output: str,
        rules: Mapping[str, str],
        stream: Optional[TextIO] = None,
        color: str = "auto",
    ) -> None:
        self.command, self.output, self.rules = command, output, rules
        self.stream = sys.stdout if stream is None else stream
        self.style = style_of(color, self.stream)
        self.line = {"text": self.as_text, "json": as_json, "github": as_github}.get(output, as_text)
        self.progress = Progress()
        self.waiting: List[Finding] = []

    @property
    def has_excerpts(self) -> bool:
        """Whether findings are shown with their excerpts."""
        return self.output == "text" and self.style.is_terminal

    def as_text(self, finding: Finding) -> str:
        """Returns a finding as text: in one line, or with its excerpts for a terminal."""
        line = as_text(finding)
        if not self.style.is_terminal and not self.style.is_coloured:
            return line
        file = visible(finding.file)
        position, _, message = line[len(file) :].partition(" ")
        excerpts, help = (finding.excerpts, finding.help) if self.style.is_terminal else ((), "")
        return "\n".join(shown_finding(file + position, message, finding.level, excerpts, help, self.style))

    def add(self, finding: Finding) -> None:
        if self.output == "sarif":
            self.waiting.append(finding)
        else:
            self.progress.clear()
            put(self.stream, self.line(finding))

    def say(self, text: str) -> None:
        """Writes a text to standard error, in lines of its width if that is a terminal."""
        self.progress.clear()
        style = style_of("never", sys.stderr)
        for line in wrapped(text, style.width, "    ") if style.is_terminal else [text]:
            complain(line)

    def end(self) -> None:
        if self.output == "sarif":
            put(self.stream, as_sarif(self.command, self.rules, self.waiting))
