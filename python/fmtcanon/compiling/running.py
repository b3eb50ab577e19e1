"""Runs compilers and git: each for a limited time, and none once the command is to end."""

import os
import signal
import subprocess
import threading
from contextlib import contextmanager
from typing import Any, Dict, Iterator, Mapping, Optional, Sequence, Set

from ..frame.interrupting import CLEANING
from ..frame.processes import RUN, limited_memory
from .left import Left

# The seconds that a run of a compiler may take.
SECONDS = 300
INTERRUPTED = "the command was interrupted"
# Set once the command is to end.
STOPPING = threading.Event()
LOCK = threading.Lock()
RUNNING: Set["subprocess.Popen[bytes]"] = set()
# Names in the environment that have a compiler write a file or change its options.
WRITING = ("DEPENDENCIES_OUTPUT", "SUNPRO_DEPENDENCIES", "CC_PRINT_", "CC_LOG_", "CCC_")
# Clang reads no file of options that its own name, or a target's, would be that of.
OWN = {"CLANG_NO_DEFAULT_CONFIG": "1"}


def run(
    words: Sequence[str],
    folder: str,
    names: Mapping[str, Optional[str]],
    given: bytes = b"",
    seconds: float = SECONDS,
) -> "subprocess.CompletedProcess[bytes]":
    """Runs a compiler in a folder on an input, with other values for these names of its environment, or without them.
    Raises Left if it can't be run, takes too long, or the command is to end.
    """
    values: Dict[str, Optional[str]] = {it: os.environ[it] for it in os.environ if not it.startswith(WRITING)}
    values.update(OWN)
    values.update(names)
    environment = {name: value for name, value in values.items() if value is not None}
    pipe = subprocess.PIPE
    try:
        with started(words, folder, environment, stdin=pipe, stdout=pipe, stderr=pipe) as process:
            output, errors = process.communicate(given, timeout=seconds)
    except subprocess.TimeoutExpired as error:
        raise Left(f"its compiler took more than {seconds} seconds") from error
    except (OSError, ValueError) as error:
        raise Left(f"its compiler can't be run: {error}") from error
    check_stopping()
    return subprocess.CompletedProcess(words, process.returncode, output, errors)


@contextmanager
def started(
    words: Sequence[str], folder: str, environment: Mapping[str, str], **streams: Any
) -> Iterator["subprocess.Popen[bytes]"]:
    """Gives a process in a group of its own, which has a limit of memory and ends with the block."""
    with LOCK, limited_memory():
        check_stopping()
        process = subprocess.Popen(words, cwd=folder, env=environment, start_new_session=True, **streams)
        RUNNING.add(process)
        RUN.add(process.pid)
    try:
        yield process
    finally:
        with LOCK:
            kill(process)
            RUNNING.discard(process)
        process.wait()
        RUN.discard(process.pid)
        for stream in (process.stdin, process.stdout, process.stderr):
            if stream:
                stream.close()


def kill(process: "subprocess.Popen[bytes]") -> None:
    """Ends a process that still runs, with those that it started."""
    if process.poll() is None:
        try:
            os.killpg(process.pid, signal.SIGKILL)
        except ProcessLookupError:
            pass


def check_stopping() -> None:
    if STOPPING.is_set():
        raise Left(INTERRUPTED)


def stop() -> None:
    """Ends all compilers, and lets none start."""
    with LOCK:
        STOPPING.set()
        for process in RUNNING:
            kill(process)


CLEANING.append(stop)
