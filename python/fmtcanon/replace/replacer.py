"""Which places of a source get another format, and how each is reported."""

from typing import Any, Dict, List, Optional, Sequence, Tuple

from ..compiling.functions import Functions
from ..compiling.sources import Files, Name
from ..frame.command_line import MODELS, model_names
from ..frame.excerpts import Excerpt, line_of, literal_excerpt
from ..frame.findings import NOTE, WARNING, Finding
from ..rewriting.rewritten_files import Change
from ..rewriting.rewriter import Report, Rewriter, change_to
from ..source.places import column_of
from ..source.respelling import LiteralRun, runs_in, span_in
from .replace_options import NAME, REPLACED, RULES, SKIPPED
from .pairs import Pairs


class Replacer(Rewriter):
    """Replaces formats by others in files."""

    name, rules = NAME, RULES

    def __init__(self, options: Any, files: Files) -> None:
        functions = Functions(dict(options.function), options.attribute)
        super().__init__(files, functions, MODELS[options.model], options.diff)
        self.pairs = Pairs(options.formats, self.models, options.posix_locale, bool(options.pairs))

    def changes_in(self, name: Name, source: bytes) -> List[Change]:
        return [it for it in map(self.change_of, runs_in(source)) if it]

    def change_of(self, place: LiteralRun) -> Optional[Change]:
        """Returns what is to be done with a place, or None if nothing is to be said of it."""
        rule = self.pairs.rule(place.text)
        if rule is None:
            return None
        if rule.why_left:
            return Change(place, place.source, rule.why_left)
        return change_to(place, rule.new)

    def findings_of(self, name: str, source: bytes, changes: Sequence[Change]) -> Sequence[Finding]:
        return [self.finding_of(name, source, it) for it in changes]

    def left(self, name: str, why: str) -> Report:
        finding = Finding(name, 0, None, SKIPPED, WARNING, f"not judged: {why}", models=model_names(self.models))
        return Report(name, [finding], is_skipped=True)

    def finding_of(self, file: str, source: bytes, change: Change) -> Finding:
        place = change.place
        formats = [place.text.decode(errors="backslashreplace")]
        if not change.why_left:
            formats.append(self.pairs.rules[place.text].new.decode(errors="backslashreplace"))
        column = column_of(source, place.start)
        end = (place.line + place.source.count(b"\n"), column_of(source, place.end))
        message = f"not replaced: {change.why_left}" if change.why_left else REPLACED
        kind, level = (SKIPPED, WARNING) if change.why_left else (REPLACED, NOTE)
        excerpts = self.excerpts_of(source, change) if change.why_left else ()
        return Finding(
            file,
            place.line,
            column,
            kind,
            level,
            message,
            end,
            tuple(formats),
            model_names(self.models),
            {**dict(zip(("old", "new"), formats)), "fix": None if change.why_left else fix_of(change)},
            excerpts,
        )

    def excerpts_of(self, source: bytes, change: Change) -> Tuple[Excerpt, ...]:
        """Returns the line of a place that is left, and NEW, with the directives marked in which they differ."""
        place, rule = change.place, self.pairs.rules.get(change.place.text)
        old, new = rule.marks if rule and len(rule.marks) == 2 else (None, None)
        span = span_in(place, old.start, old.end) if old else (place.start, place.end)
        found = [line_excerpt(source, place, span, old.words if old else "")]
        if rule and new:
            found.append(literal_excerpt("NEW", rule.new, *new))
        return tuple(found)


def fix_of(change: Change) -> Dict[str, Any]:
    """Returns what is written instead of the bytes of the source from `start` to `end`, for JSON."""
    text = change.source.decode(errors="backslashreplace")
    span = {"start": change.place.start, "end": change.place.end}
    return {**span, "text": text, "cast": None, "include": None, "verified": True}


def line_excerpt(source: bytes, place: LiteralRun, span: Tuple[int, int], words: str) -> Excerpt:
    """Returns the line of a source in which a part of a place begins, with the part marked."""
    line, first = line_of(source, span[0]), column_of(source, span[0]) - 1
    is_short = b"\n" not in source[span[0] : span[1]]
    number = place.line + source.count(b"\n", place.start, span[0])
    return Excerpt(str(number), line, first, column_of(source, span[1]) - 1 if is_short else len(line), words)
