"""Why something is left as it is."""

from contextlib import contextmanager
from typing import Iterator


class Left(Exception):
    """A file is left as a whole, for this reason."""


@contextmanager
def own_trouble() -> Iterator[None]:
    """Raises Left for every other exception: the trouble of one file is that file's alone."""
    try:
        yield
    except Left:
        raise
    except Exception as trouble:
        words = " ".join(f"{type(trouble).__name__}: {trouble}".split())
        raise Left(f"it can't be read: {words}") from trouble
