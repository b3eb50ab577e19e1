"""Says what is wrong with the messages of an open catalog, and what the text at the cursor does."""

from typing import Iterator, List, NamedTuple, Optional, Sequence, Tuple

from .. import Model, Refused
from ..catalogs.catalog_checking import FORMAT, TYPES, Checker, Right
from ..catalogs.message_formats import MessageFormat
from ..catalogs.reading import charset_of, header_of
from ..catalogs.catalog_lines import ends_of, part_around, string_at
from ..catalogs.catalog_tokens import BadCatalog
from ..formats.explaining import ExplainedDirective, Explanation
from ..formats.items import MACRO
from ..formats.rejections import instead_of, instead_span
from ..frame.excerpts import Excerpt
from ..frame.findings import Finding
from ..source.macros import expansion
from ..source.written import explained
from .diagnosing import LEVELS, Diagnosis, Related, SourceFix, fix
from .documents import Document
from .markdown import about_directive, about_format


class Hover(NamedTuple):
    """What is said at an offset of a document, in Markdown, and the offsets of what it is about, if they are known."""

    words: str
    span: Optional[Tuple[int, int]] = None


def findings_of(path: Optional[str], data: bytes, models: Sequence[Model], right: Right) -> List[Finding]:
    """Returns the findings of fmtcanon-po in a catalog, which the editor has in UTF-8."""
    found: List[Finding] = []
    Checker(found.append, models, False, right, True).check_data(path or "", encoded(data))
    return found


def encoded(data: bytes) -> bytes:
    """Returns the bytes that a text of an editor has in the catalog's charset, if it has such."""
    try:
        charset = charset_of(header_of(data))
        return data if charset.is_utf_8 else charset.encode(data)
    except (BadCatalog, UnicodeError):
        return data


def diagnoses_of(document: Document, longest: int, models: Sequence[Model], right: Right) -> Iterator[Diagnosis]:
    """Yields what is wrong with the messages in the first `longest` bytes of a catalog."""
    data = document.data
    data = data if len(data) <= longest else data[: part_around(data, longest)[0]]
    for finding in findings_of(document.path, data, models, right):
        *others, (start, end, words) = spans_of(document, finding)
        related = tuple(Related(*it) for it in others)
        help = f" {finding.help}" if finding.help else ""
        fixes = (*as_the_message(document, finding, related, (start, end)), *accepted(document, finding, start, models))
        said = f"{finding.message}{help}"
        yield Diagnosis(start, end, LEVELS[finding.level], finding.kind, said, fixes, related)


def spans_of(document: Document, finding: Finding) -> List[Tuple[int, int, str]]:
    """Returns the places that a finding is about, in the document: the last one is its own."""
    shown = [it for it in finding.excerpts if it.label.isdigit()]
    if shown:
        return [(*offsets_of(document, it), it.words) for it in shown]
    line = max(finding.line - 1, 0)
    start = document.offset_of_column(line, (finding.column or 1) - 1)
    number = min(line, len(document.starts) - 1)
    return [(start, max(start, document.starts[number] + len(document.line(number))), "")]


def offsets_of(document: Document, excerpt: Excerpt) -> Tuple[int, int]:
    line = int(excerpt.label) - 1
    return document.offset_of_column(line, excerpt.start), document.offset_of_column(line, excerpt.end)


def as_the_message(
    document: Document, finding: Finding, related: Sequence[Related], span: Tuple[int, int]
) -> Iterator[SourceFix]:
    """Yields the change that writes the message's directive in a translation that has another type."""
    if finding.kind == TYPES and len(related) == 1 and span[0] > related[0].end:
        yield fix(*span, document.data[related[0].start : related[0].end])


def accepted(document: Document, finding: Finding, start: int, models: Sequence[Model]) -> Iterator[SourceFix]:
    """Yields the change that writes what is accepted instead of a directive that is rejected at an offset."""
    found = string_at(document.data, start) if finding.kind == FORMAT else None
    if found is None:
        return
    format, ends = MessageFormat(found.text, found.is_translation), [0, *ends_of(found.source)]
    for model in models:
        try:
            format.codes(model)
        except Refused as refusal:
            new = instead_of(found.text, refusal, model)
            first, last = (it - found.before for it in instead_span(found.text, refusal))
            if new is not None and 0 <= first < last < len(ends):
                yield fix(found.start + ends[first], found.start + ends[last], new)
            return


def helps(document: Document, change: SourceFix, models: Sequence[Model]) -> bool:
    """Returns whether a message has fewer findings after a change, in a catalog of the header and it alone."""
    data, counts = document.data, []
    begin, end = part_around(data, change.start)
    head = data[: part_around(data, 0)[1]] + b"\n\n" if begin else b""
    for text in (data[change.start : change.end], change.new):
        part = head + data[begin : change.start] + text + data[change.end : end]
        counts.append(len(findings_of(document.path, part, models, set())))
    return counts[1] < counts[0]


def hover_at(document: Document, offset: int, model: Model) -> Optional[Hover]:
    """Returns what the text of a message does, or the directive, at an offset; None if it has no percent sign."""
    found = string_at(document.data, offset)
    if found is None or b"%" not in found.text:
        return None
    ends = ends_of(found.source)
    at = found.before + next((it for it, end in enumerate(ends) if offset - found.start < end), len(ends))
    format = MessageFormat(found.text, found.is_translation)
    explanation = explained((format.plain,) * len(Model), model)
    if isinstance(explanation, Refused):
        return Hover(about_format(format.plain, explanation, model))
    spans = [(format.place_of(it.start), format.place_of(it.end)) for it in explanation.parts]
    sources = [found.text[start:end] for start, end in spans]
    parts = [with_macro(part, source, model) for part, source in zip(explanation.parts, sources)]
    for part, (start, end), source in zip(parts, spans, sources):
        if start <= at < end:
            return Hover(about_directive(part, model, (), source.decode(errors="replace")))
    is_known = parts == list(explanation.parts)
    whole = explanation if is_known else Explanation(found.text, tuple(parts), {}, None)
    return Hover(about_format(found.text, whole, model))


def with_macro(part: ExplainedDirective, source: bytes, model: Model) -> ExplainedDirective:
    """Returns a directive that is spelled with a macro of <inttypes.h>, with the types that it has with this."""
    macro = MACRO.search(source)
    if macro is None or part.specification is None:
        return part
    front = part.specification.alone()[:-1]
    texts = tuple(front + (expansion(macro.group()[1:-1], it) or b"") for it in Model)
    found = explained(texts, model)
    return found.parts[0]._replace(argument=part.argument, text=source) if isinstance(found, Explanation) else part
