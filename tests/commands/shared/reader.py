"""A folder in which the commands of a page are run on a terminal, as its reader types them."""

import os
import re

from tests.commands.shared.terminal import on_terminal
from tests.frame.harness import PACKAGES, SONAME, TOP, examples

COMMANDS = ["check", "diff", "explain", "lsp", "po", "replace"]
BASH = "import os, sys; os.execvp('bash', ['bash', '-c', sys.argv[1]])"
# What long work shows for a moment.
PROGRESS = re.compile(r"\r\x1b\[K(?:\d+ of \d+ files done)?")
# A file that a page shows: the line above names it.
SHOWN = re.compile(r"^[^\n]*`([\w.]+)`:\n\n```\w*\n(.*?)^```", re.DOTALL | re.MULTILINE)


class Reader:
    """A person with the commands on the search path, and a folder."""

    def __init__(self, work, folder, python, program=None):
        self.work, self.python = work / "in", python
        self.work.mkdir()
        binaries = work / "bin"
        binaries.mkdir()
        for name in COMMANDS:
            file = binaries / f"fmtcanon-{name}"
            file.write_text(f'#!/bin/sh\nexec "{python}" -B -m fmtcanon.{PACKAGES.get(name, name)} "$@"\n')
            file.chmod(0o755)
        if program:
            (binaries / "fmtcanon").symlink_to(program)
        self.names = {
            "PATH": os.pathsep.join([str(binaries), os.environ["PATH"]]),
            "FMTCANON_LIBRARY": str(folder / SONAME),
            "PYTHONPATH": str(TOP / "python"),
            "XDG_CACHE_HOME": str(work / "cache"),
            "GIT_CONFIG_GLOBAL": os.devnull,
            "GIT_CONFIG_SYSTEM": os.devnull,
            "GIT_AUTHOR_NAME": "a",
            "GIT_AUTHOR_EMAIL": "a@b",
            "GIT_COMMITTER_NAME": "a",
            "GIT_COMMITTER_EMAIL": "a@b",
        }

    def put(self, name, text):
        (self.work / name).write_text(text, encoding="utf-8")

    def screen(self, command, **names):
        """What a terminal of 80 columns shows of a command, with its colours unless NO_COLOR is among the names."""
        words = ["-c", BASH, command]
        _, text = on_terminal(words, folder=self.work, python=str(self.python), **self.names, **names)
        return PROGRESS.sub("", text)

    def try_page(self, trials, page, heading=None):
        """Runs each command of a page, or of its part below a heading, after putting the files that it shows."""
        for name, text in SHOWN.findall(page.read_text(encoding="utf-8")):
            self.put(name, text)
        found = list(examples(page, heading))
        for command, output in found:
            lines = self.screen(command, NO_COLOR="1").splitlines()
            trials.expect(f"{page.name}: {command}", [it.rstrip() for it in lines], output)
        trials.expect(f"{page.name} has commands", len(found) > 0, True)
