"""The options that an editor gives when it starts the server."""

import argparse
from typing import Any, Dict, List, Mapping, NamedTuple, Optional, Sequence, Tuple

from .. import Model
from ..compiling.options import function_of
from ..fitting.reporting import COMPOSED, RANK, SIGN
from ..frame.command_line import MODELS
from ..source.known import Shape


# The kinds of findings that only an option adds.
ADDED = (RANK, SIGN, COMPOSED)


class Options(NamedTuple):
    """The data models, and hovers name the types of the first one first; whether clangd runs, so that what it says
    isn't said again; functions that take formats; whether sources are compiled, how many seconds that may take, with
    which compile_commands.json or flags, and which kinds of findings are added.
    """

    models: Sequence[Model] = MODELS["all"]
    beside_clangd: bool = False
    functions: Mapping[bytes, Shape] = {}
    compile: bool = True
    seconds: float = 60
    database: Optional[str] = None
    flags: Sequence[str] = ()
    added: Sequence[str] = ()

# The most seconds that a text may take.
LONGEST = 3600


def options_of(given: Any, before: Options = Options()) -> Tuple[Options, List[str]]:
    """Returns the options that an editor gives, over those from before, and what is wrong with them."""
    faults: List[str] = []
    options = before
    for name, value in given.items() if isinstance(given, dict) else ():
        if name == "model" and isinstance(value, str) and value in MODELS:
            options = options._replace(models=MODELS[value])
        elif name == "beside_clangd" and isinstance(value, bool):
            options = options._replace(beside_clangd=value)
        elif name == "compile" and isinstance(value, bool):
            options = options._replace(compile=value)
        elif name == "seconds" and type(value) in (int, float) and value > 0:
            options = options._replace(seconds=min(value, LONGEST))
        elif name == "database" and (value is None or isinstance(value, str)):
            options = options._replace(database=value)
        elif name == "flags" and is_list_of_text(value):
            options = options._replace(flags=tuple(value))
        elif name == "added" and is_list_of_text(value) and set(value) <= set(ADDED):
            options = options._replace(added=tuple(value))
        elif name == "functions" and isinstance(value, list):
            options = options._replace(functions=functions_of(value, faults))
        else:
            faults.append(f"the option {name} with the value {value!r} isn't known")
    return options, faults


def is_list_of_text(value: Any) -> bool:
    return isinstance(value, list) and all(isinstance(it, str) for it in value)


def functions_of(words: Sequence[Any], faults: List[str]) -> Dict[bytes, Shape]:
    """Returns the functions that words name as the option --function of the commands does, and adds what is wrong."""
    found: Dict[bytes, Shape] = {}
    for word in words:
        try:
            name, shape = function_of(str(word))
        except argparse.ArgumentTypeError as error:
            faults.append(f"functions: {error}")
        else:
            found[name.encode()] = shape
    return found
