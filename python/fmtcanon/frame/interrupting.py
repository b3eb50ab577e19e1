"""Has a signal end a command soon, wherever it is, with the processes that work for it and what these run."""

import os
import secrets
import shutil
import signal
import sys
import tempfile
from contextlib import contextmanager
from types import FrameType
from typing import Callable, Iterator, List, NoReturn, Optional

NAMES = ("SIGINT", "SIGTERM", "SIGHUP")
# Windows has the first two alone.
NUMBERS = tuple(getattr(signal, name) for name in NAMES if hasattr(signal, name))
# Whether there are timers, by which a signal is raised again.
HAS_TIMERS = hasattr(signal, "setitimer")
# How often a wait ends, in seconds, to see a signal that came just before it, or to another thread.
LOOK = 0.2
# What is done before a process ends early, whatever its main thread does meanwhile.
CLEANING: List[Callable[[], None]] = []


class Interrupted(BaseException):
    """The command is to end by the signal of this number."""

    def __init__(self, number: int) -> None:
        super().__init__(number)
        self.number = number


class Signals:
    """The first signal raises `Interrupted` in the main thread, within a block that may be interrupted or after the
    part of it that holds signals. It is raised again if it got lost, as each exception in a destructor does.
    """

    def __init__(self) -> None:
        self.number: Optional[int] = None
        self.is_held = True

    def take(self, number: int, frame: Optional[FrameType]) -> None:
        if self.number is None:
            self.number = number
            set_timer(LOOK)
        if not is_destructor(frame):
            self.check()

    def check(self) -> None:
        if self.number is not None and not self.is_held and not is_on_its_way():
            raise Interrupted(self.number)

    @contextmanager
    def raised(self) -> Iterator[None]:
        try:
            self.is_held = False
            self.check()
            yield
        finally:
            self.is_held = True

    @contextmanager
    def held(self) -> Iterator[None]:
        self.is_held = True
        try:
            yield
        finally:
            self.is_held = False
        self.check()


def set_timer(seconds: float) -> None:
    """Sends this process a signal again and again, after this time each; or no more, for 0."""
    if HAS_TIMERS:
        signal.setitimer(signal.ITIMER_REAL, seconds, seconds)


def is_destructor(frame: Optional[FrameType]) -> bool:
    """Returns whether a frame is that of a destructor, or of what one calls."""
    while frame and frame.f_code.co_name != "__del__":
        frame = frame.f_back
    return frame is not None


def is_on_its_way() -> bool:
    """Returns whether `Interrupted` is being handled, perhaps with exceptions that came after it."""
    error = sys.exc_info()[1]
    while error and not isinstance(error, Interrupted):
        error = error.__context__
    return error is not None


@contextmanager
def interruptible() -> Iterator[Signals]:
    """Gives what takes the signals during a block, and holds them at first. One that is ignored stays so, as nohup has
    it.
    """
    signals = Signals()
    numbers = [it for it in NUMBERS if signal.getsignal(it) is not signal.SIG_IGN]
    numbers += [signal.SIGALRM] if HAS_TIMERS else []
    before = [signal.signal(number, signals.take) for number in numbers]
    try:
        yield signals
    finally:
        set_timer(0)
        for number, handler in zip(numbers, before):
            signal.signal(number, handler)


def clean() -> None:
    for one in CLEANING:
        one()


@contextmanager
def temporary_folder(prefix: Optional[str] = None, dir: Optional[str] = None) -> Iterator[str]:
    """Gives a folder that is removed after a block, and when the command ends early within it."""
    folder = os.path.join(dir or tempfile.gettempdir(), (prefix or "fmtcanon-") + secrets.token_hex(8))
    owner = os.getpid()

    def remove() -> None:
        # A process that works for this one isn't to remove it.
        if os.getpid() == owner:
            shutil.rmtree(folder, ignore_errors=True)

    # A signal may come as soon as it is there.
    CLEANING.append(remove)
    try:
        os.mkdir(folder, 0o700)
        yield folder
    finally:
        remove()
        CLEANING.remove(remove)


def end(number: int) -> NoReturn:
    """Ends this process by a signal, with the status that shells give for it."""
    clean()
    # libclang can't be interrupted, and Python would wait for it.
    os._exit(128 + number)
