"""Lists the formats of sources, grouped by their meaning, and the functions that they are arguments of."""

import collections
from typing import Any, Dict, Iterable, Iterator, List, Mapping, NamedTuple, Sequence, Tuple

from .. import Refused
from ..formats.verdicts import canonical, shown
from ..frame.command_line import counted, model_names
from ..frame.findings import NOTE, WARNING, Finding
from ..models import Model
from ..source.known import GETTEXT, KNOWN, Shape
from ..source.places import NOT_FORMATS, Place, Source

FORMAT, FUNCTION, UNJUDGED = "format", "function", "unjudged"
RULES = {
    FORMAT: "A format, with the canonical text that all formats of its meaning have.",
    FUNCTION: "A function that formats are arguments of.",
    UNJUDGED: "A literal that is not a format that can be judged.",
}


class Listed(NamedTuple):
    """A place in a file: its canonical texts in the data models, or why it has none."""

    file: str
    place: Place
    meaning: Tuple[bytes, ...]
    why: str = ""


def listed_in(file: str, data: bytes, models: Sequence[Model]) -> Iterator[Listed]:
    """Yields the places of a source that have a conversion specification."""
    for place in Source(data).read().places:
        if place.call.function not in NOT_FORMATS and place.has_specification():
            yield Listed(file, place, *meaning_of(place, models))


def meaning_of(place: Place, models: Sequence[Model]) -> Tuple[Tuple[bytes, ...], str]:
    found: List[bytes] = []
    for model in models:
        text, why = place.text(model)
        if text is None:
            return (), why
        try:
            found.append(canonical(text, model))
        except Refused as refusal:
            return (), f"{refusal} of {shown(text)}"
    return tuple(found), ""


def groups(listed: Iterable[Listed]) -> Iterator[List[Listed]]:
    """Yields the places of each meaning, in the order of their canonical texts, and last those that aren't judged."""
    found: Dict[Tuple[bytes, ...], List[Listed]] = collections.defaultdict(list)
    for one in listed:
        found[one.meaning].append(one)
    rest = found.pop((), [])
    for _, group in sorted(found.items()):
        yield group
    if rest:
        yield rest


def finding_of(listed: Listed, models: Sequence[Model]) -> Finding:
    """Returns the finding that lists a place."""
    place = listed.place
    start, end = place.span()
    text = place.text(models[0])[0]
    has_names = text is None or any(it.kind == "name" for it in place.parts)
    spelling = place.shown() if has_names or text is None else shown(text)
    message = f"not judged: {listed.why}" if listed.why else spelling
    format = place.shown() if text is None else text.decode(errors="backslashreplace")
    details: Dict[str, Any] = {
        "format": format,
        "canonical": None if listed.why else listed.meaning[0].decode(errors="backslashreplace"),
    }
    if place.call.function and not place.call.function.startswith(b"#"):
        details.update(function=place.call.function.decode(errors="backslashreplace"), argument=place.call.argument + 1)
    return Finding(
        listed.file,
        start.line,
        start.column,
        UNJUDGED if listed.why else FORMAT,
        WARNING if listed.why else NOTE,
        message,
        (end.line, end.column),
        (format,),
        model_names(models),
        details,
    )


def heading(group: Sequence[Listed]) -> str:
    """Returns the line above the places of one meaning."""
    count = counted(len(group), "place")
    if group[0].why:
        return f"not judged: {count}"
    spellings = len({it.place.text(Model.LP64)[0] for it in group})
    return f"{shown(group[0].meaning[0])}: {count}" + (f", {spellings} spellings" if spellings > 1 else "")


def functions(listed: Iterable[Listed], given: Mapping[str, Shape]) -> Iterator[Tuple[str, List[Listed]]]:
    """Yields the functions that places are arguments of, as `NAME:FORMAT`, whether each is known, and its places."""
    found: Dict[Tuple[str, int], List[Listed]] = collections.defaultdict(list)
    for one in listed:
        call = one.place.call
        if call.function and not call.function.startswith(b"#"):
            found[call.function.decode(errors="backslashreplace"), call.argument].append(one)
    for (name, index), places in sorted(found.items(), key=lambda it: (-len(it[1]), it[0])):
        yield f"{name}:{index + 1}: {how_known(name, index, given)}, {counted(len(places), 'place')}", places


def how_known(name: str, index: int, given: Mapping[str, Shape]) -> str:
    if index in {it.format for it in (given.get(name),) if it} | {it.index for it in (KNOWN.get(name),) if it}:
        return "known"
    return "for translators" if GETTEXT.fullmatch(name) else "not known"


def known_functions(given: Mapping[str, Shape]) -> Iterator[str]:
    """Yields the functions whose formats are known, as `NAME:FORMAT`."""
    indexes = {name: it.index for name, it in KNOWN.items() if not name.startswith("__")}
    for name, index in sorted({**indexes, **{name: it.format for name, it in given.items()}}.items()):
        yield f"{name}:{index + 1}: known"
