"""The words that all commands use, in one table for every reader of it, also in other languages.

A row of the table has the conversions that it is about, or none for all; what it asks of a specification, by tokens,
where one that begins with `!` must not be there; and a phrase with names in braces. The first row that fits is taken. A
sentence has one phrase of each group of `meaning`, and `needless` has reasons by the name of the part, as in `parts` by
its bit.
"""

import json
from pathlib import Path
from typing import AbstractSet, Any, Dict, Sequence

WORDS: Dict[str, Any] = json.loads((Path(__file__).parent / "formats" / "words.json").read_text(encoding="utf-8"))


def phrase(rows: Sequence[Sequence[Any]], conversion: str, tokens: AbstractSet[str]) -> str:
    """Returns the phrase of the first row that fits; an empty one if none does."""
    for conversions, asked, words in rows:
        if (not conversions or conversion in conversions) and all(is_met(it, tokens) for it in asked):
            return str(words)
    return ""


def is_met(asked: str, tokens: AbstractSet[str]) -> bool:
    return asked[1:] not in tokens if asked[0] == "!" else asked in tokens
