"""libclang, if it is installed."""

import importlib
import sys
from typing import Any

MISSING = (
    f"libclang is missing: {sys.executable or 'this Python'} has no module clang.cindex. "
    f"The package python3-clang has it for the system's Python; for this one: "
    f"{sys.executable or 'python3'} -m pip install libclang"
)


def found() -> Any:
    """Returns the Python module of libclang, or None."""
    try:
        return importlib.import_module("clang.cindex")
    except ImportError:
        return None


cindex = found()
