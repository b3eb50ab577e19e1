"""Says in Markdown what a format does."""

import re
from typing import List, Optional, Sequence, Union

from .. import Model, Refused
from ..formats.explaining import ExplainedDirective, Explanation
from ..formats.layout import as_source, bounds_words, key_lines, part_words
from ..formats.rejections import advice_on, refused_span

# How many directives are listed, and how much of an argument is shown.
MOST, LONGEST = 20, 60


def code(text: str) -> str:
    """Returns inline code, whatever backquotes are in it."""
    ticks = "`" * (1 + max(map(len, re.findall("`+", text)), default=0))
    pad = " " if text.startswith("`") or text.endswith("`") else ""
    return f"{ticks}{pad}{text}{pad}{ticks}"


def one_line(expression: bytes) -> str:
    """Returns an expression in one line, cut short."""
    words = " ".join(expression.decode(errors="replace").split())
    return words if len(words) <= LONGEST else words[: LONGEST - 2] + ".."


def directive_words(part: ExplainedDirective, model: Model, given: Sequence[str], source: str) -> List[str]:
    """Returns what a directive is in the source, with the argument that is given to it, and what is said of it."""
    at = part.argument
    named = f" ← {code(given[at - 1])}" if at is not None and at <= len(given) and given[at - 1] else ""
    words, *notes = part_words(part, model)
    return [f"{code(source)}{named}: {words}", *notes]


def about_directive(part: ExplainedDirective, model: Model, given: Sequence[str], source: str) -> str:
    return "\n\n".join(directive_words(part, model, given, source))


def about_format(text: bytes, found: Union[Explanation, Refused], model: Model, given: Sequence[str] = ()) -> str:
    """Returns what is said of a format, with what is given for its arguments."""
    if isinstance(found, Refused):
        start, end = refused_span(text, found)
        return f"{code(as_source(text[start:end]))}: {advice_on(text, found, model)}\n\n{found}"
    listed = [directive_words(it, model, given, as_source(it.text)) for it in found.parts[:MOST]]
    lines = [f"- {'; '.join(it)}" for it in listed]
    if len(found.parts) > MOST:
        lines.append(f"- and {len(found.parts) - MOST} more")
    # A star in a format isn't one of Markdown.
    more: List[Optional[str]] = [code(it) if "%" in it else it for it in key_lines(found.canonical, model)]
    more.append(bounds_words(found.bounds) if found.bounds is not None else None)
    return "\n".join([*lines, *(f"\n{it}" for it in more if it)])
