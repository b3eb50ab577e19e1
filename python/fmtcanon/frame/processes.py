"""Works on many items with several processes, in order. These end as soon as this one does, however it ends."""

from __future__ import annotations

import collections
import contextlib
import ctypes
import glob
import itertools
import os
import queue
import signal
import sys
import threading
import time
import traceback
from typing import TYPE_CHECKING, Any, Callable, Deque, Iterable, Iterator, List, NamedTuple, Optional, Set, Tuple
from typing import TypeVar

from .interrupting import CLEANING, LOOK, NUMBERS, clean

if TYPE_CHECKING:
    from multiprocessing.connection import Connection

# Up to how many items are worked on by one process, and how many results wait for each of several.
FEW, WAITING = 8, 4
# The seconds that a process has to end before it is killed, and those that it has for an item.
GRACE, LONGEST = 1.0, 600.0
# The bytes of memory that a process may have, and each that it starts.
MEMORY = 4 << 30
# The programs that this process runs.
RUN: Set[int] = set()
# As Linux numbers it: a process gets the children of those that it started, once these are gone.
CHILD_SUBREAPER = 36
_Item = TypeVar("_Item")
_Result = TypeVar("_Result")


class Ended(Exception):
    """A process ended before its work was done."""


class Slot:
    """The result of an item, once it is there."""

    def __init__(self, item: Any) -> None:
        self.item, self.is_done, self.late = item, False, 0.0
        self.result: Any = None

    def put(self, result: Any) -> None:
        self.is_done, self.result = True, result


class Worker(NamedTuple):
    """A process, and the connection to it."""

    process: Any
    connection: Connection


def in_order(
    work: Callable[[_Item], _Result],
    items: Iterable[_Item],
    jobs: int,
    few: int = FEW,
    instead: Optional[Callable[[_Item, str], _Result]] = None,
) -> Iterator[_Result]:
    """Yields what the work returns for each item, in order. Several processes share it if there are `few` items.

    With `instead` no work is done in this process: it returns the result of an item whose process ended, and how that
    ended.
    """
    given = iter(items)
    first = list(itertools.islice(given, few))
    if len(first) < few or jobs < 2:
        jobs = 1
    if not first or (jobs == 1 and not instead):
        yield from map(work, itertools.chain(first, given))
        return
    workers = Workers(work, jobs, instead)
    LIVE.append(workers)
    try:
        yield from workers.results(itertools.chain(first, given))
    finally:
        workers.end()
        LIVE.remove(workers)


class Workers:
    """Processes that do one kind of work, each of them on one item at a time."""

    def __init__(
        self, work: Callable[[Any], Any], jobs: int, instead: Optional[Callable[[Any, str], Any]] = None
    ) -> None:
        self.work, self.jobs, self.instead = work, jobs, instead
        self.all: List[Worker] = []
        self.idle: List[Worker] = []
        # What each of the others works on, and all results in order.
        self.busy: List[Tuple[Worker, Slot]] = []
        self.slots: Deque[Slot] = collections.deque()

    def results(self, items: Iterable[Any]) -> Iterator[Any]:
        for item in items:
            self.give(item)
            while len(self.slots) > WAITING * self.jobs and not self.slots[0].is_done:
                self.take()
            while self.slots and self.slots[0].is_done:
                yield self.slots.popleft().result
        while self.slots:
            while not self.slots[0].is_done:
                self.take()
            yield self.slots.popleft().result

    def give(self, item: Any) -> None:
        """Gives an item to a process that is idle, once there is one; or works on it here if none can be started."""
        slot = Slot(item)
        self.slots.append(slot)
        while not self.idle:
            if len(self.all) < self.jobs:
                self.start()
            elif self.busy:
                self.take()
            else:
                slot.put(self.work(item))
                return
        worker, slot.late = self.idle.pop(), time.monotonic() + LONGEST
        self.busy.append((worker, slot))
        try:
            worker.connection.send(item)
        except OSError:
            self.drop(worker, slot)

    def take(self) -> None:
        """Waits until a process has a result, and notes the results that are there."""
        from multiprocessing.connection import wait

        ready: List[Any] = []
        while not ready:
            ready = wait([worker.connection for worker, _ in self.busy], LOOK)
            late = [it for it in self.busy if it[1].late < time.monotonic() and it[0].connection not in ready]
            for worker, slot in late:
                self.drop(worker, slot, f"took more than {LONGEST:.0f} seconds")
            if late:
                return
        for worker, slot in [it for it in self.busy if it[0].connection in ready]:
            try:
                is_done, result = worker.connection.recv()
            except (EOFError, OSError):
                self.drop(worker, slot)
                continue
            if not is_done:
                raise RuntimeError(f"an exception in another process:\n{result}")
            slot.put(result)
            self.busy.remove((worker, slot))
            self.idle.append(worker)

    def drop(self, worker: Worker, slot: Slot, how: str = "") -> None:
        """Takes note that a process ended while it had an item, or takes too long and is ended. Raises Ended if nothing
        is the result of that.
        """
        worker.connection.close()
        wait_or_kill(worker.process, GRACE)
        status = worker.process.exitcode
        how = how or "ended" + (f" by signal {-status}" if status < 0 else "")
        if not self.instead:
            raise Ended(f"one of its processes {how}")
        slot.put(self.instead(slot.item, how))
        self.busy.remove((worker, slot))
        self.all.remove(worker)

    def start(self) -> None:
        """Starts one more process, unless the system has no means for it."""
        try:
            self.all.append(started(self.work, [it.connection for it in self.all]))
        except (ImportError, OSError, ValueError):
            self.jobs = len(self.all)
        else:
            self.idle.append(self.all[-1])

    def end(self) -> None:
        """Ends the processes: each sees that its connection is closed. One that doesn't end in time is killed."""
        for one in self.all:
            one.connection.close()
        limit = time.monotonic() + GRACE
        for one in self.all:
            wait_or_kill(one.process, max(limit - time.monotonic(), 0))


def started(work: Callable[[Any], Any], others: Iterable[Connection] = ()) -> Worker:
    """Starts a process that works on what it gets by its connection, and holds none of the others. Raises
    `ImportError`, `OSError` or `ValueError` if the system has no means for it.
    """
    from multiprocessing import get_context

    if not hasattr(signal, "pthread_sigmask"):
        raise OSError("signals can't be held")
    # What one leaves that is killed is a child of this process then, on Linux.
    if sys.platform == "linux":
        ctypes.CDLL(None).prctl(CHILD_SUBREAPER, 1, 0, 0, 0)
    # Another way to start one runs the command's own file again.
    context = get_context("fork")
    own, other = context.Pipe()
    process = context.Process(target=serve, args=(work, other, [own, *others]), daemon=True)
    # A signal for the new process doesn't find the handlers of this one.
    before = signal.pthread_sigmask(signal.SIG_BLOCK, NUMBERS)
    try:
        process.start()
    except OSError:
        own.close()
        raise
    finally:
        signal.pthread_sigmask(signal.SIG_SETMASK, before)
        other.close()
    return Worker(process, own)


def wait_or_kill(process: Any, seconds: float) -> None:
    """Waits until a process has ended, and kills it after this time."""
    process.join(seconds)
    if process.is_alive():
        process.kill()
        process.join()
    if process.exitcode:
        end_left()


def end_left() -> None:
    """Ends what processes left that are gone: the compilers of one that was killed, with their groups."""
    from multiprocessing import active_children

    known = RUN.union(it.pid for it in active_children())
    for path in glob.glob("/proc/self/task/*/children"):
        with contextlib.suppress(OSError), open(path, encoding="ascii") as stream:
            for left in set(map(int, stream.read().split())) - known:
                group = os.getpgid(left)
                if group != os.getpgrp():
                    os.killpg(group, signal.SIGKILL)
                    os.waitpid(left, 0)


# Those whose processes are there, to be ended when the command ends early.
LIVE: List[Workers] = []


def end_all() -> None:
    for one in LIVE:
        one.end()


CLEANING.append(end_all)


def serve(work: Callable[[Any], Any], own: Connection, others: Iterable[Connection]) -> None:
    """Works on the items that come, in a process of its own, until the other end of its connection is closed."""
    for number in NUMBERS:
        # The process that started it decides. What it runs itself doesn't ignore the signals.
        signal.signal(number, lambda *_: None)
    signal.pthread_sigmask(signal.SIG_UNBLOCK, NUMBERS)
    limit_memory()
    LIVE.clear()
    for it in others:
        it.close()
    given: queue.SimpleQueue[Any] = queue.SimpleQueue()
    receiving = threading.Thread(target=receive, args=(own, given), daemon=True)
    receiving.start()
    while True:
        item = given.get()
        try:
            result = True, work(item)
        except Exception:
            result = False, traceback.format_exc()
        try:
            own.send(result)
        except OSError:
            # Nobody waits for it any more: the process ends once it has cleaned.
            receiving.join()


def limit_memory() -> None:
    """Limits the memory of this process, and of each that it starts."""
    # Windows doesn't have it, and neither starts processes here.
    import resource

    _, most = resource.getrlimit(resource.RLIMIT_AS)
    resource.setrlimit(resource.RLIMIT_AS, (MEMORY if most < 0 else min(MEMORY, most), most))


@contextlib.contextmanager
def limited_memory() -> Iterator[None]:
    """Limits the memory of what is started in a block."""
    import resource

    before = resource.getrlimit(resource.RLIMIT_AS)
    limit_memory()
    try:
        yield
    finally:
        resource.setrlimit(resource.RLIMIT_AS, before)


def receive(own: Connection, given: queue.SimpleQueue[Any]) -> None:
    """Takes the items. Ends this process once no more can come, whatever its main thread does."""
    while True:
        try:
            given.put(own.recv())
        except (EOFError, OSError):
            clean()
            os._exit(0)
