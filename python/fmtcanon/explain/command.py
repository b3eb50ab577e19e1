"""Explains a format, a difference of two, or a kind of rejection."""

from __future__ import annotations

import json
import os
import sys
from typing import Any, Dict, List, Mapping, Optional, Sequence, Union

import fmtcanon
from fmtcanon import BadLiteral, Kind, Model, Refused

from ..formats.explaining import Difference, ExplainedDirective, Explanation, Rejection, compare, explain, reject
from ..formats.layout import difference_lines, explanation_lines, rejection_lines
from ..formats.rejections import REFUSALS, help_on, refused_span
from ..formats.verdicts import PairKind
from ..frame.command_line import USAGE, Parser, status_of
from ..frame.output import complain, put
from ..frame.terminals import Style, style_of, wrapped
from ..kinds import TYPE_NAMES
from ..models import model_of
from ..source.files import Unreadable
from ..source.places import lone_place
from ..source.written import WrittenFormat
from ..specification import NAMES, SpelledSpecification
from .written_at import NoFormat, format_at, format_in_call

NAME = "fmtcanon-explain"
USAGE_LINES = """\
fmtcanon-explain [OPTION]... FORMAT
       fmtcanon-explain [OPTION]... FORMAT FORMAT
       fmtcanon-explain [OPTION]... --kind KIND
       fmtcanon-explain [OPTION]... --at FILE:LINE:COLUMN"""
DESCRIPTION = """\
Says in words what a printf format does, how two formats differ, or what a kind of rejection means.

For each directive it prints the number of its argument, counted from 1, the argument's type, what is printed, and \
which parts have no effect. Formats are those of POSIX fprintf. With --at, and for a call that is pasted as FORMAT, it \
also prints the arguments."""
EPILOG = """\
Examples:
  fmtcanon-explain '%-08.6lf of %5zu%%'
  fmtcanon-explain '%05d' '%.5d'
  fmtcanon-explain --kind AltUndefined
  fmtcanon-explain --at size.c:12:20

The words may change from version to version: scripts use --output json, or the other commands. If a format starts \
with -, put -- before it.

Exit status:
  0  the format is accepted, or the two are the same
  1  the two differ
  2  a format is rejected, the usage is wrong, or there is no format at FILE"""


def parser() -> Parser:
    """Returns the definition of the command line."""
    made = Parser(NAME, USAGE_LINES, DESCRIPTION, EPILOG)
    made.add_model("whose types are named first", default="lp64", choices=[it.name.lower() for it in Model])
    made.add_argument("--literal", action="store_true", help="formats are literals of C, as '\"%%\" PRIu64'")
    made.add_argument("--kind", metavar="KIND", help="explain a kind of rejection, by its number or name")
    at = "explain the format in a source at a line and a column in characters; --at=-:LINE:COLUMN reads standard input"
    made.add_argument("--at", metavar="FILE:LINE:COLUMN", help=at)
    made.add_color()
    made.add_argument(
        "--output", choices=["text", "json"], default="text", metavar="FORM", help="text, the default, or json"
    )
    made.add_argument("formats", metavar="FORMAT", nargs="*", help="a format, or two")
    return made


def main(words: Optional[Sequence[str]] = None) -> int:
    made = parser()
    options, more = made.parsed(words)
    formats = [*options.formats, *more]
    if options.kind is None and options.at is None and len(formats) not in (1, 2):
        made.error("give one format, or two")
    for name in ("kind", "at"):
        if getattr(options, name) is not None and (formats or options.literal):
            made.error(f"--{name} takes no formats")
    if options.kind is not None and options.at is not None:
        made.error("give --kind or --at")
    return status_of(NAME, lambda: run(options, formats))


def run(options: Any, formats: Sequence[str]) -> int:
    """Explains what is asked, and returns the exit status."""
    if options.kind is not None:
        return explain_kind(options.kind, style_of(options.color, sys.stdout), options.output == "json")
    if options.at is not None:
        return explain_place(options)
    is_text = not options.literal and options.output == "text" and len(formats) == 1
    call = format_in_call(os.fsencode(formats[0]), model_of(options.model)) if is_text else None
    if call:
        complain(f"{NAME}: this is a call: its format is explained")
        return put_written(*call, options)
    try:
        texts = [texts_of(it, options.literal) for it in formats]
    except BadLiteral as fault:
        complain(str(fault))
        return USAGE
    found = found_of(texts, model_of(options.model))
    if options.literal and isinstance(found, Rejection):
        source = os.fsencode(formats[found.side or 0])
        found = found._replace(at=fmtcanon.source_offset(source, found.refusal.byte))
    if options.output == "json":
        put(sys.stdout, json.dumps(as_json(found)))
    else:
        for line in lines_of(found, model_of(options.model), style_of(options.color, sys.stdout)):
            put(sys.stdout, line)
    return status_of_found(found)


def explain_place(options: Any) -> int:
    """Explains the format at a place of a source, and prints the arguments that are given to it."""
    try:
        format, given = format_at(options.at, model_of(options.model))
    except (NoFormat, Unreadable) as fault:
        complain(f"{NAME}: {fault}")
        return USAGE
    return put_written(format, given, options)


def put_written(format: WrittenFormat, given: Sequence[str], options: Any) -> int:
    """Explains a format of a source, and prints the arguments that are given to it."""
    model, known = model_of(options.model), format.explanation
    found: Found = reject(format.text, known, model) if isinstance(known, Refused) else known
    if options.output == "json":
        put(sys.stdout, json.dumps({**as_json(found), "given": list(given)}))
        return status_of_found(found)
    arguments = [f"argument {number}: {text}" for number, text in enumerate(given, 1)]
    for line in [*lines_of(found, model, style_of(options.color, sys.stdout)), *arguments]:
        put(sys.stdout, line)
    return status_of_found(found)


def texts_of(word: str, is_literal: bool) -> Dict[Model, bytes]:
    """Returns the bytes of a format that is given as an argument, in each data model: in literals there may be macros
    of <inttypes.h>. Raises `BadLiteral`.
    """
    given = os.fsencode(word)
    if not is_literal:
        return dict.fromkeys(Model, given)
    try:
        return dict.fromkeys(Model, fmtcanon.decode_literal(given))
    except BadLiteral:
        place = lone_place(given)
        texts = {it: text for it in Model for text in [place.text(it)[0] if place else None] if text is not None}
        if len(texts) < len(Model):
            raise
        return texts


Found = Union[Explanation, Difference, Rejection]


def found_of(texts: Sequence[Mapping[Model, bytes]], model: Model) -> Found:
    """Explains one format, or compares two; or says why one is rejected."""
    if len(texts) > 1:
        return compare(texts[0][model], texts[1][model], model, texts[0])
    try:
        return explain(texts[0][model], model, texts[0])
    except Refused as refusal:
        return reject(texts[0][model], refusal, model)


def status_of_found(found: Found) -> int:
    if isinstance(found, Rejection):
        return USAGE
    return 1 if isinstance(found, Difference) and found.verdict is not PairKind.SAME else 0


def lines_of(found: Found, model: Model, style: Style) -> List[str]:
    """Returns what is found as lines of text."""
    if isinstance(found, Explanation):
        return list(explanation_lines(found, model, style))
    if isinstance(found, Rejection):
        return list(rejection_lines(found, model, style))
    return list(difference_lines(found, model, style))


def explain_kind(word: str, style: Style, is_json: bool) -> int:
    """Prints what a kind of rejection means."""
    names = {it.name.replace("_", "").lower(): it for it in Kind}
    kind = names.get(word.lower()) or (Kind(int(word)) if word.isdecimal() and int(word) in set(Kind) else None)
    if kind is None:
        complain(f"{NAME}: {word} is not a kind: give a number from 1 to {len(Kind)}, or a name such as Star")
        return USAGE
    name, help, advice = fmtcanon._name(kind), help_on(kind), REFUSALS[kind].get("advice", "")
    if is_json:
        put(sys.stdout, json.dumps({"kind": int(kind), "name": name, "help": help, "advice": advice or None}))
        return 0
    for text in [f"{int(kind)} {name}: {help}", advice]:
        for line in wrapped(text, style.width) if style.is_terminal else filter(None, [text]):
            put(sys.stdout, line)
    return 0


def text_in_json(text: bytes) -> str:
    """Returns a text for JSON: bytes that are not UTF-8 are lone surrogates, as in names of files."""
    return text.decode("utf-8", "surrogateescape")


def part_in_json(part: Optional[ExplainedDirective]) -> Optional[Dict[str, Any]]:
    if part is None:
        return None
    types = {model.name.lower(): TYPE_NAMES[kind] for model, kind in part.types.items()}
    text = text_in_json(part.text)
    place = {"start": part.start, "end": part.end, "text": text, "argument": part.argument}
    words = {"meaning": part.meaning, "notes": list(part.notes), "type_name": part.type_name or None}
    return {**place, "types": types, **words, **(facts_in_json(part.specification) if part.specification else {})}


def facts_in_json(one: SpelledSpecification) -> Dict[str, Any]:
    """Returns the parts of a specification, and those that have no effect."""
    found = one.found
    stars = {"width_argument": found.width_argument, "precision_argument": found.precision_argument}
    sets = {"needless": found.needless, "together": found.together}
    return {
        "flags": one.flags,
        "width": found.width,
        "precision": found.precision,
        **{name: None if it is None else it + 1 for name, it in stars.items()},
        "modifier": one.modifier,
        "conversion": one.conversion,
        **{key: [name for bit, name in NAMES.items() if bit & it] for key, it in sets.items()},
    }


def as_json(found: Found) -> Dict[str, Any]:
    """Returns what is found as one object."""
    if isinstance(found, Rejection):
        return rejection_in_json(found)
    if isinstance(found, Explanation):
        return explanation_in_json(found)
    return difference_in_json(found)


def rejection_in_json(found: Rejection) -> Dict[str, Any]:
    refusal: Dict[str, Any] = {"kind": int(found.refusal.kind), "name": found.refusal.name, "at": found.refusal.byte}
    if found.at is not None:
        refusal["at"] = found.at
    refusal["start"], refusal["end"] = refused_span(found.format, found.refusal)
    refusal["help"] = found.help
    if found.side is not None:
        refusal["side"] = found.side
    if found.instead is not None:
        refusal["write"] = text_in_json(found.instead)
    types = {"types": difference_in_json(found.types)} if found.types else {}
    return {"format": text_in_json(found.format), "accepted": False, "refusal": refusal, **types}


def explanation_in_json(found: Explanation) -> Dict[str, Any]:
    canonical = {model.name.lower(): text_in_json(text) for model, text in found.canonical.items()}
    bounds = None if found.bounds is None else {"least": found.bounds.least, "greatest": found.bounds.greatest}
    return {
        "format": text_in_json(found.format),
        "accepted": True,
        "directives": [part_in_json(it) for it in found.parts],
        "canonical": canonical or None,
        "bounds": bounds,
    }


def difference_in_json(found: Difference) -> Dict[str, Any]:
    arguments = [text_in_json(it) if isinstance(it, bytes) else it for it in found.arguments]
    return {
        "formats": [text_in_json(it) for it in found.formats],
        "verdict": found.verdict.value,
        "argument": None if found.at is None else found.at + 1,
        "arguments": arguments,
        "printed": [text_in_json(it) for it in found.printed],
        "directives": [part_in_json(it) for it in found.parts],
    }
