"""Files of C source: which these are; and how a file is read whose name is somebody else's."""

import errno
import fnmatch
import functools
import os
import re
import stat
from typing import List, NamedTuple, Sequence, Set, Tuple

# The endings of C and C++, of what they include, and of what is made into them.
SOURCES = re.compile(r".*\.(?:[chyl]|cc|cpp|cxx|c\+\+|hh|hpp|hxx|h\+\+|inc|inl|ipp|tcc|def|C|H|m|mm|pc|ec)", re.DOTALL)


# The most bytes of a file that are read.
MOST = 1 << 28


class Unreadable(Exception):
    """Something can't be read, and why."""


class ReadFile(NamedTuple):
    """The bytes of a file, and its state when they were read."""

    data: bytes
    state: os.stat_result


def read_file(path: str, most: int = MOST, flags: int = 0, is_given: bool = False) -> ReadFile:
    """Reads a file. Raises `OSError` for what isn't a regular file, as a FIFO or a device, or is larger than this: it
    isn't even opened. One that the user names may be of any kind.
    """
    if not is_given:
        check_regular(os.stat(path))
    handle = os.open(path, os.O_RDONLY | (0 if is_given else os.O_NONBLOCK) | flags)
    with open(handle, "rb") as stream:
        state = os.fstat(handle)
        if not is_given:
            check_regular(state)
        data = stream.read(min(state.st_size, most) + 1) or b""
        if len(data) > state.st_size:
            # A file of /proc has no size.
            data += stream.read(most + 1 - len(data)) or b""
    if len(data) > most:
        raise OSError(errno.EFBIG, "it is too large")
    return ReadFile(data, state)


def check_regular(state: os.stat_result) -> None:
    if stat.S_ISDIR(state.st_mode):
        raise IsADirectoryError(errno.EISDIR, os.strerror(errno.EISDIR))
    if not stat.S_ISREG(state.st_mode):
        raise OSError(errno.EINVAL, "it isn't a regular file")


def bytes_of(path: str) -> bytes:
    """Returns the bytes of a file; none if it can't be read."""
    try:
        return read_file(path).data
    except (OSError, ValueError):
        return b""


# The bytes of files as they were when they were first asked for.
known_bytes = functools.lru_cache(maxsize=64)(bytes_of)


@functools.lru_cache(maxsize=64)
def lines_in(source: bytes) -> List[bytes]:
    return source.split(b"\n")


def read(path: str, name: str = "", is_given: bool = False) -> bytes:
    """Returns the bytes of a file of text, which may have another name in what is said of it."""
    name = name or path
    try:
        data = read_file(path, is_given=is_given).data
    except OSError as error:
        raise Unreadable(f"{name}: {error.strerror or error}") from error
    return as_text(name, data)


def as_text(name: str, data: bytes) -> bytes:
    if b"\0" in data:
        raise Unreadable(f"{name}: it is a binary file")
    return data


def files_below(top: str) -> Tuple[Set[str], List[str]]:
    """Returns the names of the sources below a folder, and what is said of folders that can't be read."""
    found: Set[str] = set()
    errors: List[OSError] = []
    for folder, _, names in os.walk(top, onerror=errors.append):
        for name in names:
            path = os.path.join(folder, name)
            if SOURCES.fullmatch(name) and os.path.isfile(path):
                found.add(os.path.relpath(path, top))
    return found, [f"{it.filename}: {it.strerror}" for it in errors]


def is_excluded(name: str, globs: Sequence[str]) -> bool:
    """Returns whether a glob matches the path of a file or of a folder that it is in, or a name in the path."""
    names = name.split(os.sep)
    paths = [os.sep.join(names[: at + 1]) for at in range(len(names))]
    return any(fnmatch.fnmatchcase(it, glob) for glob in globs for it in {*names, *paths})
