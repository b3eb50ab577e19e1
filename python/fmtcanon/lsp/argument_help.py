"""Says which directive an argument is for: while it is typed, and at the cursor."""

from typing import Any, Dict, List, Optional, Tuple

from .. import Model
from ..formats.layout import as_source
from ..source.written import WrittenSource, trimmed
from .markdown import about_directive

NO_DIRECTIVE = "No directive takes this argument."


def signature(written: WrittenSource, offset: int, model: Model) -> Optional[Dict[str, Any]]:
    """Returns the format whose argument is at an offset, with the directive that this is for, as the protocol has it.
    """
    call = written.call_at(offset)
    if call is None or not call.format.directives:
        return None
    text, label, done = call.format.text, "", 0
    parameters: List[Dict[str, Any]] = []
    active, words = None, NO_DIRECTIVE
    for directive in call.format.directives:
        part = directive.part
        label += as_source(text[done : part.start])
        start = utf_16_length(label)
        label += as_source(part.text)
        done = part.end
        if directive.takes(call.number) and active is None:
            active, words = len(parameters), about_directive(part, model, (), as_source(part.text))
        parameters.append({"label": [start, utf_16_length(label)]})
    label += as_source(text[done:])
    shown = {"label": label, "parameters": parameters, "documentation": {"kind": "markdown", "value": words}}
    # An index after the last one marks nothing.
    return {
        "signatures": [shown],
        "activeSignature": 0,
        "activeParameter": len(parameters) if active is None else active,
    }


def utf_16_length(text: str) -> int:
    """Returns how long a text is as the protocol counts the offsets of a label."""
    return len(text.encode("utf-16-le", "surrogatepass")) // 2


def highlighted(written: WrittenSource, data: bytes, offset: int) -> List[Tuple[int, int]]:
    """Returns the offsets of the directive at an offset and of its arguments, or of the argument and its directives."""
    format = written.at(offset)
    directive = format.directive_at(offset) if format else None
    if format and directive:
        listed = written.arguments(format)
        taken = [trimmed(data, *listed[it]) for it in directive.arguments if it < len(listed)]
        return [(directive.start, directive.end), *taken]
    call = written.call_at(offset)
    if call is None:
        return []
    start, end = trimmed(data, *call.arguments[call.number])
    found = [(it.start, it.end) for it in call.format.directives if it.takes(call.number)]
    return [*found, (start, end)] if found and start <= offset <= end and start < end else []
