"""Writes what `fmtcanon-explain --output json` prints, for the lines that explain.mjs reads."""

import json
import sys
from pathlib import Path

sys.path.insert(0, str(Path(__file__).resolve().parents[2] / "python"))

from fmtcanon import Model  # noqa: E402
from fmtcanon.explain.command import as_json, found_of  # noqa: E402
from fmtcanon.formats.explaining import Explanation, unlike_key  # noqa: E402
from fmtcanon.formats.layout import bounds_words  # noqa: E402


def number(value):
    return None if value is None else {"number": str(value)}


def told(found, model):
    """What is found, with each argument that is a number, and each size, as a text; and the size in words, and where
    the key isn't the same as the format.
    """
    told = as_json(found)
    for one in (told, told.get("types") or {}):
        if one.get("arguments"):
            one["arguments"] = [it if isinstance(it, str) else number(it) for it in one["arguments"]]
    if isinstance(found, Explanation):
        told["unlike"] = [it.name.lower() for it in unlike_key(found.canonical, model)] if found.canonical else None
        sizes = found.bounds and {name: number(it) for name, it in told["bounds"].items()}
        told["bounds"] = sizes and {**sizes, "words": bounds_words(found.bounds)}
    return told


for line in sys.stdin:
    number_of_model, *formats = json.loads(line)
    asked = Model(number_of_model)
    texts = [dict.fromkeys(Model, it.encode("latin-1")) for it in formats]
    print(json.dumps(told(found_of(texts, asked), asked)))
