"""Judges a pair of places, and says in words what it found."""

import re
from typing import Any, Dict, Iterable, List, Mapping, NamedTuple, Optional, Sequence, Tuple

from .. import Refused
from ..formats.explaining import Marked, marked_parts
from ..formats.items import errnos_of
from ..formats.rejections import advice_on, refused_span
from ..formats.verdicts import (
    PairKind,
    PairVerdict,
    Taker,
    argument_words,
    both_take,
    cut,
    narrowed,
    only_words_differ,
    printed_by,
    shared_front,
    shown,
    shown_arguments,
    taker_of,
    telling_arguments,
    types_of,
    verdict_on,
)
from ..frame.command_line import model_names
from ..frame.excerpts import Excerpt
from ..frame.findings import ERROR, NOTE, WARNING, Finding
from ..models import Model
from ..source.known import KNOWN
from ..source.places import NOT_FORMATS, Place
from .pairing import Pair

RULES = {
    PairKind.SAME.value: "The old and the new format take the same arguments and print the same bytes.",
    PairKind.WORDS.value: "Only the text between the specifications of the old and the new format differs.",
    PairKind.DIFFERENT.value: "The old and the new format take the same arguments and print other bytes.",
    PairKind.TYPES.value: "The old and the new format take arguments of different types.",
    PairKind.DIRECTIVES.value: "The old and the new format have different directives, by their normal spelling.",
    PairKind.REJECTED.value: "The old literal is a format, and the new one is not.",
    PairKind.UNJUDGED.value: "The old or the new literal is not a format that can be judged.",
}
# The kinds for which the status is 1, unless --fail-on names others.
FAULTS = (PairKind.TYPES.value, PairKind.DIFFERENT.value, PairKind.DIRECTIVES.value, PairKind.REJECTED.value)
# What is a note; of several data models it is reported only if no other has more.
NOTES = (PairKind.SAME, PairKind.WORDS)
# The functions that are known by their names alone: a program may have an own `warn` or `error`.
OF_STDIO = re.compile(rb"\A(?:__)?v?(?:f|s|sn)?printf(?:_chk)?\Z")
# A longer format is compared without what it shares with the other.
LONG = 10_000
# How the two sides are named on a terminal.
NAMES = ("old", "new")


class JudgedPair(NamedTuple):
    """The verdict on a pair in a data model, with the two texts, if they are known.

    The texts of long formats are without what they share, which takes `before` arguments at the front. `verdict.at`
    counts these, too.
    """

    verdict: PairVerdict
    old: Optional[bytes]
    new: Optional[bytes]
    before: int = 0


def may_be_format(place: Place, functions: Mapping[bytes, Optional[int]] = {}) -> bool:
    """Returns whether nothing says that a place isn't a format: of a function that is given, or of printf, it is the
    argument that is one, and the function isn't one that takes none.
    """
    name = place.call.function
    if name in functions:
        return place.call.argument == functions[name]
    known = KNOWN.get(printable(name)) if OF_STDIO.search(name) else None
    return name not in NOT_FORMATS and (known is None or place.call.argument == known.index)


def is_judged(old: Place, new: Place, functions: Mapping[bytes, Optional[int]] = {}) -> bool:
    """Returns whether a pair is worth a verdict: one of the two has a specification, and both may be formats."""
    is_format = may_be_format(old, functions) and may_be_format(new, functions)
    return is_format and (old.has_specification() or new.has_specification())


def verdict_in(old: Place, new: Place, model: Model) -> JudgedPair:
    (first, why), (second, why_second) = old.text(model), new.text(model)
    if first is None or second is None:
        return JudgedPair(PairVerdict(PairKind.UNJUDGED, reason=why or why_second), first, second)
    if max(len(first), len(second)) > LONG and b"$" not in first + second:
        judged = long_verdict(first, second, model)
    else:
        judged = JudgedPair(verdict_on(first, second, model), first, second)
    kind, texts = judged.verdict.kind, (judged.old or b"", judged.new or b"")
    if kind is PairKind.DIFFERENT and only_words_differ(*texts, model):
        kind = PairKind.WORDS
    if kind is PairKind.REJECTED and b"%" not in first and printable(new.call.function) not in KNOWN:
        # Nothing says that it is a format.
        kind = PairKind.UNJUDGED
    return judged._replace(verdict=judged.verdict._replace(kind=kind))


def long_verdict(old: bytes, new: bytes, model: Model) -> JudgedPair:
    """Returns the verdict on long formats, by comparing only the parts that they don't share."""
    types: List[bytes] = []
    try:
        for text in (old, new):
            types.append(types_of(text, model))
        front, back = narrowed(old, new)
    except Refused as refusal:
        kind = PairKind.REJECTED if types else PairKind.UNJUDGED
        return JudgedPair(PairVerdict(kind, reason=f"{refusal} of a long format"), old, new)
    first, second = (it[front : len(it) - back] for it in (old, new))
    before = len(types_of(old[:front], model))
    verdict = verdict_on(first, second, model)
    at = shared_front(*types) if verdict.kind is PairKind.TYPES else before + verdict.at
    return JudgedPair(verdict._replace(at=at), first, second, before)


def judge(
    file: str, pair: Pair, models: Sequence[Model], fail_on: Sequence[str] = FAULTS, is_shown: bool = False
) -> Optional[Finding]:
    """Returns the finding on a pair: that of the first data model in which more than words differ, if there is one. It
    has excerpts if it is to be shown. None if the pair isn't one of formats.
    """
    old, new = pair
    found = {model: verdict_in(old, new, model) for model in models}
    verdicts = [it.verdict for it in found.values()]
    if not new.call.function and all(it.kind is PairKind.UNJUDGED and it.refusal for it in verdicts):
        # A title, as "CPU% " is, that no call takes.
        return None
    kinds = {model: it.verdict.kind for model, it in found.items()}
    others = [it for it in models if kinds[it] not in NOTES] or [it for it in models if kinds[it] is not PairKind.SAME]
    model = others[0] if others else models[0]
    kind = kinds[model]
    details = details_of(old, new, model)
    details["verdicts"] = {name: kinds[it].value for name, it in zip(model_names(models), models)}
    wording = Wording(pair, found[model], model)
    details.update(wording.specification())
    excerpts, help = wording.excerpts() if is_shown else ((), "")
    start, end = new.span()
    return Finding(
        file,
        start.line,
        start.column,
        kind.value,
        level_of(kind, details["verdicts"].values(), fail_on),
        message_of(wording, kinds, others),
        (end.line, end.column),
        (details["old"], details["new"]),
        model_names(others or models),
        details,
        excerpts,
        help,
    )


def level_of(kind: PairKind, kinds: Iterable[str], fail_on: Sequence[str]) -> str:
    """Returns the level of a finding: an error if any data model has a kind that sets the status."""
    if any(it in fail_on for it in kinds):
        return ERROR
    return NOTE if kind in NOTES else WARNING


def message_of(wording: "Wording", kinds: Dict[Model, PairKind], others: Sequence[Model]) -> str:
    """Returns what is said of a pair: by the verdict of one data model, and how it differs from the others."""
    kind = wording.judged.verdict.kind
    rest = [it for it in kinds if it not in others]
    if others and rest and kind not in (PairKind.UNJUDGED, PairKind.REJECTED):
        words = ", with other words" if any(kinds[it] is PairKind.WORDS for it in rest) else ""
        return f"same in {' and '.join(model_names(rest))} only{words}: {wording.both()}"
    return wording.message() + elsewhere(kinds, kind)


def details_of(old: Place, new: Place, model: Model) -> Dict[str, Any]:
    """Returns the two texts in a data model, and the function that the new one is an argument of, if there is one."""
    is_call = new.call.function != b"" and not new.call.function.startswith(b"#")
    function = {"function": printable(new.call.function), "argument": new.call.argument + 1} if is_call else {}
    return {"old": text_of(old, model), "new": text_of(new, model), **function}


def elsewhere(kinds: Dict[Model, PairKind], kind: PairKind) -> str:
    """Returns what is added for data models in which the types differ, where another verdict is reported."""
    names = model_names([model for model, it in kinds.items() if it is PairKind.TYPES])
    return f"; types differ in {' and '.join(names)}" if names and kind is not PairKind.TYPES else ""


class Wording:
    """What is said of a pair by its verdict in one data model."""

    def __init__(self, pair: Pair, judged: JudgedPair, model: Model) -> None:
        self.judged, self.model = judged, model
        self.old, self.new = pair

    def both(self) -> str:
        """Returns the two formats, each as its literals or, with macros in it, as its source."""
        texts = []
        for place, text in ((self.old, self.judged.old), (self.new, self.judged.new)):
            has_names = text is None or any(it.kind == "name" for it in place.parts)
            texts.append(place.shown() if has_names or text is None else shown(text))
        return " and ".join(cut(*texts))

    def message(self) -> str:
        verdict, old, new = self.judged.verdict, self.judged.old, self.judged.new
        if verdict.kind is PairKind.UNJUDGED or old is None or new is None:
            return f"not judged: {verdict.reason}"
        if verdict.kind is PairKind.REJECTED:
            return f"rejected now: {verdict.reason}"
        if verdict.kind is PairKind.SAME:
            return f"same: {self.both()}"
        if verdict.kind is PairKind.TYPES:
            taken = both_take(self.takers(old, new))
            return f"types differ at {argument_words(verdict.at)}: {taken}, in {self.both()}"
        if verdict.kind is PairKind.DIRECTIVES:
            return f"directives differ {self.directives(old, new)}"
        if verdict.kind is PairKind.WORDS:
            return f"the words differ: {self.both()}"
        return f"different: {self.both()}{self.example(old, new)}"

    def specification(self) -> Dict[str, Any]:
        """Returns where the specification is that takes the argument at which the types or the directives differ."""
        verdict, text = self.judged.verdict, self.new.text(self.model)[0]
        if verdict.kind not in (PairKind.TYPES, PairKind.DIRECTIVES) or text is None or len(text) > LONG:
            return {}
        taker = taker_of(text, verdict.at, self.model)
        offsets = [self.new.offset_of(it) for it in (taker.start, taker.end - 1)] if taker else []
        places = [self.new.source.position(it) for it in offsets if it is not None]
        if len(places) < 2:
            return {}
        (line, column), (end_line, end_column) = places
        return {"specification": {"line": line, "column": column, "end_line": end_line, "end_column": end_column + 1}}

    def takers(self, old: bytes, new: bytes) -> List[Optional[Taker]]:
        """Returns the specifications that take the argument at which the two differ."""
        return [taker_of(it, self.judged.verdict.at - self.judged.before, self.model) for it in (old, new)]

    def directives(self, old: bytes, new: bytes) -> str:
        """Returns where the directives differ, and which they are: `%m` takes no argument."""
        texts = [None if it is None else it.text for it in self.takers(old, new)]
        counts = [len(errnos_of(it)) for it in (old, new)]
        if texts[0] == texts[1] and any(counts):
            where = ["in the first alone", "in the second alone"] if 0 in counts else ["in both"] * 2
            return f"by %m, {where[counts[0] == 0]}: {self.both()}"
        listed = " and ".join("nothing" if it is None else shown(it) for it in texts)
        return f"at {argument_words(self.judged.verdict.at)}: {listed}"

    def excerpts(self) -> Tuple[Tuple[Excerpt, ...], str]:
        """Returns the lines of the two places with what is wrong in each marked, and what helps."""
        verdict, sides = self.judged.verdict, ((self.old, self.judged.old), (self.new, self.judged.new))
        # Of long formats the texts are only parts of those of the places.
        is_whole = all(text is not None and place.text(self.model)[0] == text for place, text in sides)
        old, new = (text or b"" for _, text in sides)
        if verdict.refusal is not None and is_whole:
            side = verdict.refusal.side if verdict.kind is PairKind.UNJUDGED else 1
            text = (old, new)[side]
            span = refused_span(text, verdict.refusal)
            excerpt = place_excerpt(NAMES[side], sides[side][0], span, verdict.refusal.name)
            return (excerpt,), advice_on(text, verdict.refusal, self.model)
        spans: Sequence[Optional[Marked]] = [None, None]
        if is_whole:
            spans = marked_parts((old, new), verdict, self.model) or spans
        found = zip(NAMES, (self.old, self.new), spans)
        return tuple(place_excerpt(name, place, it and it[:2], it[2] if it else "") for name, place, it in found), ""

    def example(self, old: bytes, new: bytes) -> str:
        """Returns what the two print for arguments that tell them apart."""
        arguments = telling_arguments(old, new, self.judged.verdict.arguments, self.model)
        first, second = (printed_by(it, arguments, self.model) for it in (old, new))
        listed = f"for {shown_arguments(arguments)}"
        if first is None or second is None or first == second:
            return f" {listed}" if arguments else ""
        printed = cut(shown(first), shown(second))
        return f" print {printed[0]} and {printed[1]}" + (f" {listed}" if arguments else "")


def place_excerpt(name: str, place: Place, span: Optional[Tuple[int, int]], words: str) -> Excerpt:
    """Returns the line of a place with a part of its text marked, or its literals if the part isn't known."""
    offsets = [place.offset_of(it) for it in (span[0], span[1] - 1)] if span else []
    first, last = (offsets[0], offsets[1]) if len(offsets) == 2 else (None, None)
    first, last = (place.quote, place.end - 1) if first is None or last is None else (first, last)
    start, end = place.source.position(first), place.source.position(last)
    line = place.source.line(first)
    stop = end.column if end.line == start.line else len(line)
    return Excerpt(f"{name} {start.line}", line, start.column - 1, max(stop, start.column), words)


def text_of(place: Place, model: Model) -> str:
    """Returns the text of a place in a data model, or its source if that isn't known."""
    text = place.text(model)[0]
    return place.shown() if text is None else printable(text)


def printable(text: bytes) -> str:
    return text.decode(errors="backslashreplace")
