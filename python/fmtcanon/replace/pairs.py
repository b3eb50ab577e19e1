"""The pairs of formats that are to be replaced, and what is to be done with a place by them."""

import re
from typing import Dict, Hashable, List, NamedTuple, Optional, Sequence, Tuple

import fmtcanon

from ..formats.explaining import Marked, marked_parts
from ..formats.verdicts import (
    PairKind,
    argument_words,
    both_take,
    canonical,
    compared,
    shown,
    shown_arguments,
    specifications,
    taker_of,
)
from ..source.files import read_file
from ..source.respelling import decoded

OTHERWISE = "it means the same, and is spelled otherwise"
GROUPING = "the flag ' groups digits in other locales; use --posix-locale if the program prints only in POSIX"


class Wrong(Exception):
    """The pairs can't be used, and why. `format` is the one that is rejected, if one is, with what helps."""

    def __init__(self, why: str, format: bytes = b"", refusal: Optional[fmtcanon.Refused] = None) -> None:
        super().__init__(why)
        self.format, self.refusal = format, refusal


def format_of(word: bytes) -> Optional[bytes]:
    """Returns the format that a word spells as C does between the quotes, or None."""
    is_open = re.search(rb'(?<!\\)(?:\\\\)*"|(?<!\\)(?:\\\\)*\\$', word)
    return None if is_open else decoded(b'"' + word + b'"')


def pairs_in(file: str) -> List[Tuple[bytes, bytes]]:
    """Returns the pairs of a file with an old and a new format in each line, with a tab between."""
    try:
        lines = read_file(file, is_given=True).data.splitlines()
    except OSError as error:
        raise Wrong(f"{file}: {error.strerror or error}") from error
    pairs: Dict[bytes, bytes] = {}
    for number, line in enumerate(lines, 1):
        if not line:
            continue
        formats = [format_of(it) for it in line.split(b"\t")]
        if len(formats) != 2 or formats[0] is None or formats[1] is None:
            raise Wrong(f"{file}:{number}: it isn't two formats as C has them between the quotes, with a tab between")
        if pairs.setdefault(formats[0], formats[1]) != formats[1]:
            raise Wrong(f"{file}:{number}: the old format has another new one before")
    return list(pairs.items())


def difference(old: bytes, new: bytes, model: fmtcanon.Model) -> Optional[str]:
    """Returns how two formats differ in a data model, or None. Raises `Refused`."""
    found = compared(old, new, model)
    if found.kind is PairKind.SAME:
        return None
    if found.kind is PairKind.DIFFERENT:
        return f"the two print different bytes for {shown_arguments(found.arguments)}"
    takers = [taker_of(it, found.at, model) for it in (old, new)]
    if found.kind is PairKind.DIRECTIVES:
        both = " and ".join("nothing" if it is None else it.text.decode() for it in takers)
    else:
        both = both_take(takers)
    return f"the {found.kind.value} differ at {argument_words(found.at)}: {both}"


def marked_pair(old: bytes, new: bytes, models: Sequence[fmtcanon.Model]) -> Sequence[Optional[Marked]]:
    """Returns the directives in which two formats differ in the first data model in which they do, or nothing."""
    for model in models:
        found = compared(old, new, model)
        if found.kind is not PairKind.SAME:
            return marked_parts((old, new), found, model)
    return ()


def difference_in(old: bytes, new: bytes, models: Sequence[fmtcanon.Model]) -> Optional[str]:
    """Returns how two formats differ in data models, which are named unless it is the same in each; or None."""
    found = [difference(old, new, model) for model in models]
    if len(set(found)) == 1:
        return found[0]
    return "; ".join(f"in {model.name} {one}" for model, one in zip(models, found) if one)


def has_grouping(text: bytes) -> bool:
    return b"'" in specifications(text)


class Rule(NamedTuple):
    """What is done with a place: the new text, or why it is left. `marks` are the directives in which the two differ.
    """

    new: bytes
    why_left: str = ""
    marks: Sequence[Optional[Marked]] = ()


class Pairs:
    """Pairs of formats, with the verdict on each. Raises `Wrong` for a format that is rejected."""

    def __init__(
        self, pairs: Sequence[Tuple[bytes, bytes]], models: Sequence[fmtcanon.Model], is_posix: bool, is_file: bool
    ) -> None:
        self.models, self.is_posix, self.is_file = models, is_posix, is_file
        self.rules = {old: self.rule_of(old, new) for old, new in pairs}
        self.new = {new for _, new in pairs}
        self.meanings = {self.meaning(it) for it in self.rules}

    def rule_of(self, old: bytes, new: bytes) -> Rule:
        """Returns what is to be done with places that have the old format."""
        why = self.verdict(old, new)
        return Rule(new, why, marked_pair(old, new, self.models) if why else ())

    def verdict(self, old: bytes, new: bytes) -> str:
        """Returns why the old format can't be replaced by the new one, or nothing."""
        try:
            found = difference_in(old, new, self.models) or ""
        except fmtcanon.Refused as refusal:
            which = f" of {shown([old, new][refusal.side])}" if self.is_file else ""
            side = refusal.side
            raise Wrong(f"{['OLD', 'NEW'][side]} is {refusal}{which}", (old, new)[side], refusal) from refusal
        return GROUPING if not found and not self.is_posix and (has_grouping(old) or has_grouping(new)) else found

    def meaning(self, text: bytes) -> Optional[Hashable]:
        """Returns what all texts of one meaning have in common, or None for a text that isn't a format."""
        try:
            found = tuple(canonical(text, it) for it in self.models)
        except fmtcanon.Refused:
            return None
        return found, not self.is_posix and has_grouping(text)

    def rule(self, text: bytes) -> Optional[Rule]:
        """Returns what is to be done with a place that has this text, or None if nothing is to be said of it."""
        if text in self.rules:
            return self.rules[text]
        if text in self.new or b"%" not in text:
            return None
        meaning = self.meaning(text)
        return Rule(text, OTHERWISE) if meaning is not None and meaning in self.meanings else None
