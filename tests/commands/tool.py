"""A command in a folder, as the tests run it."""

import json
import os
import re
import shutil
import subprocess
import sys
import unittest
from pathlib import Path

from tests.frame.harness import NO_PROGRAM, PACKAGES, SONAME, TIMEOUT, TOP


class Tool:
    """A command in a folder: the module of the tree, or a script, run by a Python."""

    def __init__(self, command, folder, work, python=sys.executable, script=None):
        self.folder, self.work, self.python = folder, Path(work), python
        self.words = [python, *([str(script)] if script else ["-m", f"fmtcanon.{PACKAGES.get(command, command)}"])]
        self.environment = {
            **os.environ,
            "FMTCANON_LIBRARY": str(folder / SONAME),
            "FMTCANON_PROGRAM": NO_PROGRAM,
            "PYTHONPATH": str(TOP / "python"),
            "PYTHONDONTWRITEBYTECODE": "1",
            "LC_ALL": "C.UTF-8",
            # There is no folder for a cache.
            "XDG_CACHE_HOME": f"{os.devnull}/none",
            "GIT_CONFIG_GLOBAL": os.devnull,
            "GIT_CONFIG_SYSTEM": os.devnull,
            "GIT_CEILING_DIRECTORIES": str(self.work.parent),
            "GIT_AUTHOR_NAME": "a",
            "GIT_AUTHOR_EMAIL": "a@b",
            "GIT_COMMITTER_NAME": "a",
            "GIT_COMMITTER_EMAIL": "a@b",
        }

    def run(self, *words, where=".", **names):
        """The status and the streams of a run."""
        done = subprocess.run(
            [*self.words, *words],
            cwd=self.work / where,
            env={**self.environment, **names},
            timeout=TIMEOUT,
            check=False,
            stdin=subprocess.DEVNULL,
            capture_output=True,
        )
        return (done.returncode, *(it.decode(errors="surrogateescape") for it in (done.stdout, done.stderr)))

    def run_by_lines(self, *words):
        """The same, without the columns of places."""
        status, output, fault = self.run(*words)
        return status, re.sub(r"^(.*?:\d+):\d+: ", r"\1: ", output, flags=re.MULTILINE), fault

    def put(self, name, text):
        """Writes a file, and returns its path."""
        file = self.work / name
        file.parent.mkdir(parents=True, exist_ok=True)
        file.write_bytes(text.encode() if isinstance(text, str) else text)
        return file

    def put_commands(self, *commands):
        """Writes a compile_commands.json of lists of words: the last word is the file."""
        entries = [{"directory": str(self.work), "file": it[-1], "arguments": it} for it in commands]
        self.put("compile_commands.json", json.dumps(entries))

    def git(self, *words):
        if not shutil.which("git"):
            raise unittest.SkipTest("there is no git here")
        return subprocess.run(
            ["git", *words], cwd=self.work, env=self.environment, check=True, timeout=TIMEOUT, stdout=subprocess.PIPE
        ).stdout.decode()

    def printed(self, name, words=()):
        """What a program prints, and its status."""
        compiler = "g++" if name.endswith(".cpp") else "gcc"
        built = subprocess.run(
            [compiler, "-w", "-o", "program", name, *words],
            cwd=self.work,
            check=False,
            timeout=TIMEOUT,
            capture_output=True,
        )
        if built.returncode:
            return "not compiled", built.stderr.decode()
        done = subprocess.run(["./program"], cwd=self.work, check=False, timeout=TIMEOUT, capture_output=True)
        return done.returncode, done.stdout, done.stderr
