"""Runs tasks side by side, those of the lowest rank first."""

import threading
from concurrent.futures import FIRST_COMPLETED, ThreadPoolExecutor, wait
from dataclasses import dataclass
from typing import Any, Callable

PRINTING = threading.Lock()


def say(text):
    """Prints whole lines, also while other threads print."""
    with PRINTING:
        print(text, flush=True)


@dataclass(frozen=True, eq=False)
class Task:
    """A call that returns tasks to add, and its rank."""

    call: Callable
    rank: Any = 0


def run_all(tasks, jobs):
    """Runs the tasks, and those that they add, `jobs` at a time."""
    waiting, running = list(tasks), {}
    with ThreadPoolExecutor(jobs) as pool:
        while waiting or running:
            waiting.sort(key=lambda it: it.rank)
            while waiting and len(running) < jobs:
                task = waiting.pop(0)
                running[pool.submit(task.call)] = task
            for future in wait(running, return_when=FIRST_COMPLETED).done:
                del running[future]
                waiting += future.result()
