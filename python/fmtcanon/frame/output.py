"""Writes lines to standard output and standard error, and notices when they can't be written."""

import os
import sys
from typing import Optional, TextIO

STANDARD = 3


class Unwritable(Exception):
    """A line can't be written: which stream it is for, and why."""


def name_of(stream: Optional[TextIO]) -> str:
    return "standard output" if stream is sys.stdout else "standard error"


def write(stream: Optional[TextIO], data: bytes) -> None:
    """Writes bytes and keeps none back. Raises `Unwritable` if the stream is closed or full."""
    if stream is None:
        raise Unwritable(f"{name_of(stream)} is closed")
    try:
        stream.buffer.write(data)
        stream.flush()
    except BrokenPipeError:
        raise
    except (OSError, ValueError) as error:
        raise Unwritable(f"{name_of(stream)}: {getattr(error, 'strerror', None) or error}") from error


def put(stream: Optional[TextIO], line: str) -> None:
    """Writes a line in UTF-8, in which names of files may have any bytes."""
    write(stream, line.encode("utf-8", "surrogateescape") + b"\n")


def complain(line: str) -> None:
    """Writes a line to standard error, if that takes it. The exit status tells what the line says."""
    try:
        put(sys.stderr, line)
    except (BrokenPipeError, Unwritable):
        drop(sys.stderr)


def drop(stream: Optional[TextIO]) -> None:
    """Lets what is still to be written to a stream go nowhere, so that nothing fails when Python ends."""
    if stream is not None:
        os.dup2(os.open(os.devnull, os.O_WRONLY), stream.fileno())


def occupy() -> None:
    """Opens the standard streams that are closed, so that no other file takes their numbers and gets their lines."""
    for number in range(STANDARD):
        try:
            os.fstat(number)
        except OSError:
            os.open(os.devnull, os.O_RDWR)
