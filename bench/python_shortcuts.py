#!/usr/bin/env python3
"""Times what each shortcut of the commands in Python buys: the seconds of a processor with it and without it.

    bench/python_shortcuts.py TREE..

Each TREE has a compile_commands.json. python_shortcuts.txt has the edits that turn a shortcut off, in a copy of the
module. A command must find the same without it. It needs libclang, and the library that FMTCANON_LIBRARY names; it
writes to out/ alone.
"""

import os
import re
import resource
import shutil
import subprocess
import sys
from pathlib import Path

from shortcut_edits import ROOT, shortcuts

from tests.frame.fixtures import python_with

EDITS = Path(__file__).resolve().parent / "python_shortcuts.txt"
WORK = ROOT / "out" / "bench" / "python"
# How often a command runs: the least time counts.
RUNS = 3
# What a change adds to the format in the middle of each file that has some.
FORMAT = re.compile(rb'printf[^;"]*"[^"\n]*%[dsu][^"\n]*(?=")')


def changed(tree):
    """Returns a folder with the sources of a tree that have formats, and one in which each of them has changed."""
    folders = [WORK / name / tree.name for name in ("old", "new")]
    for path in sorted(tree.rglob("*.c")) if not folders[0].exists() else ():
        data = path.read_bytes()
        found = list(FORMAT.finditer(data))
        if found:
            at = found[len(found) // 2].end()
            for folder, text in zip(folders, (data, data[:at] + b"!" + data[at:])):
                file = folder / path.relative_to(tree)
                file.parent.mkdir(parents=True, exist_ok=True)
                file.write_bytes(text)
    return list(map(str, folders))


def words_of(command, tree):
    """Returns the words of a command over a tree, and the words of what it runs once before, which isn't counted."""
    check = ["checker", "--output", "json", "--jobs", "1", "-p", str(tree)]
    if command == "check":
        return [*check, "--no-cache"], []
    if command == "check, again":
        return check, check
    if command == "diff":
        return ["diff", "--output", "json", "--jobs", "1", *changed(tree)], []
    if command == "po":
        return ["po", "--output", "json", "--jobs", "1", *map(str, sorted(tree.rglob("*.po")))], []
    raise ValueError(f"there is no command {command}")


def seconds(module, words, tree):
    """Returns the seconds of a processor that a command takes, and what it prints."""
    names = {"PYTHONPATH": str(module), "XDG_CACHE_HOME": str(module / "cache"), "PYTHONDONTWRITEBYTECODE": ""}
    before = resource.getrusage(resource.RUSAGE_CHILDREN)
    done = subprocess.run(
        [PYTHON, "-m", f"fmtcanon.{words[0]}", *words[1:]],
        cwd=tree,
        env={**os.environ, **names},
        stdout=subprocess.PIPE,
        stderr=subprocess.DEVNULL,
        check=False,
    )
    after = resource.getrusage(resource.RUSAGE_CHILDREN)
    return after.ru_utime + after.ru_stime - before.ru_utime - before.ru_stime, (done.returncode, done.stdout)


def least(module, command, tree):
    """Returns the least time of some runs, and what all of them print."""
    words, first = words_of(command, tree)
    if first:
        seconds(module, first, tree)
    found = [seconds(module, words, tree) for _ in range(RUNS)]
    return min(time for time, _ in found), found[0][1]


def module_with(name, texts):
    """Returns the folder of a copy of the module in which these files have other texts."""
    folder = WORK / name
    shutil.copytree(ROOT / "python" / "fmtcanon", folder / "fmtcanon")
    for file, text in texts.items():
        (folder / Path(file).relative_to("python")).write_text(text, encoding="utf-8")
    return folder


def main(trees):
    if not trees:
        sys.exit(__doc__)
    shutil.rmtree(WORK, ignore_errors=True)
    trees = [Path(it).resolve() for it in trees]
    print("| Shortcut | Command |" + "".join(f" {it.name} | Without |" for it in trees))
    print("|---|---|" + "---|---|" * len(trees))
    whole, known = module_with("whole", {}), {}
    for number, one in enumerate(shortcuts(EDITS)):
        without = module_with(str(number), one.texts())
        for command in one.calls:
            row = ""
            for tree in trees:
                if (command, tree) not in known:
                    known[command, tree] = least(whole, command, tree)
                (time, found), (more, other) = known[command, tree], least(without, command, tree)
                if found != other:
                    sys.exit(f"{one.name}: {command} finds something else in {tree.name} without it")
                row += f" {time:.2f} | {more:.2f} |"
            print(f"| {one.name} | `{command}` |{row}", flush=True)


PYTHON = python_with("clang.cindex")
main(sys.argv[1:])
