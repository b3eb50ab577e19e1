"""Fixtures: what tests get by the names of their parameters."""

import importlib
import os
import shutil
import subprocess
import sys
import tempfile
import unittest
from functools import lru_cache
from pathlib import Path

from tests.frame.harness import SONAME, TOP

# A Python that Debian makes its modules for.
SYSTEM_PYTHON = "/usr/bin/python3"
PROGRAM = "crates/fmtcanon/out/fmtcanon"
__unittest = True


def built(variable, usual):
    """The path that an environment variable names, or else the usual one. What isn't there fails with a line."""
    path = Path(os.environ.get(variable) or TOP / usual).resolve()
    if not path.is_file():
        raise AssertionError(f"{path} is missing: `make` builds the tree's own, and {variable} names another")
    return path


def program():
    """The path of the program."""
    return str(built("FMTCANON_PROGRAM", PROGRAM))


def folder():
    """The folder of the C library."""
    return built("FMTCANON_LIBRARY", f"out/c/{SONAME}").parent


@lru_cache(maxsize=None)
def module_over(folder):
    os.environ["FMTCANON_LIBRARY"] = str(folder / SONAME)
    # What runs the program finds the tree's own.
    os.environ.setdefault("FMTCANON_PROGRAM", str(TOP / PROGRAM))
    return importlib.import_module("fmtcanon")


def module(folder):
    """The Python module, over the library."""
    return module_over(folder)


def case():
    """The assertions of unittest."""
    yield from prepared(unittest.TestCase)


def prepared(kind):
    """A test case of a kind, with what it sets up for a test, and without tests of its own."""
    one = kind()
    one.setUp()
    try:
        yield one
    finally:
        one.tearDown()
        one.doCleanups()


class InFolder(unittest.TestCase):
    """The assertions of unittest, and a folder, `work`, that is empty and gone after the test."""

    def setUp(self):
        folder = tempfile.TemporaryDirectory()
        self.addCleanup(folder.cleanup)
        self.work = Path(folder.name).resolve()

    def enter(self):
        """Makes the folder the current one."""
        self.addCleanup(os.chdir, os.getcwd())
        os.chdir(self.work)

    def put(self, name, text="old\n"):
        """Writes a file, and returns its path."""
        file = self.work / name
        file.parent.mkdir(parents=True, exist_ok=True)
        file.write_text(text, encoding="utf-8")
        return str(file)


def work():
    """A folder that is empty, and gone after the test."""
    with tempfile.TemporaryDirectory() as name:
        yield Path(name).resolve()


class Tools:
    """Programs that the gate doesn't need: each has to be there."""

    def __init__(self, trials):
        self.trials = trials

    def has(self, tool, package):
        there = shutil.which(tool) is not None
        self.trials.expect(f"{tool} is there: the package {package} has it", there, True)
        return there

    def need(self, tool, package):
        """Ends a test for which a program is missing."""
        if not self.has(tool, package):
            raise AssertionError(f"{tool} is missing: the package {package} has it")


def tools(trials):
    return Tools(trials)


@lru_cache(maxsize=None)
def python_with(module):
    """A Python that has a module, or None: the one that runs this, or that of the system."""
    for python in [sys.executable, SYSTEM_PYTHON]:
        words = [python, "-c", f"import {module}"]
        if os.path.exists(python) and subprocess.run(words, capture_output=True, check=False).returncode == 0:
            return python
    return None


def python(trials):
    """A Python that has libclang."""
    found = python_with("clang.cindex")
    trials.expect("libclang is there", found is not None, True)
    if found is None:
        raise AssertionError("libclang is missing: the package python3-clang has it")
    return found
