"""Tests of how fmtcanon-diff asks git, and of files that were renamed."""

import os
import random
import shutil
import subprocess
import time
import unittest
from pathlib import Path
from unittest import mock

from fmtcanon.compiling import git as of_git
from fmtcanon.compiling.git import Git
from fmtcanon.source.renames import renamed
from fmtcanon.diff.trees import changes_of
from fmtcanon.source.files import Unreadable

from tests.frame.cases import tests_of
from tests.frame.fixtures import InFolder, prepared

# The seconds that git may take here, and those in which what it runs has ended.
LIMIT, SOON = 0.5, 60
IDENTITY = {f"GIT_{who}_{what}": "a@b" for who in ["AUTHOR", "COMMITTER"] for what in ["NAME", "EMAIL"]}
NO_CONFIGURATION = {f"GIT_CONFIG_{it}": os.devnull for it in ["GLOBAL", "SYSTEM"]}


class WithGit(InFolder):
    def setUp(self):
        super().setUp()
        self.enter()
        environment = mock.patch.dict(os.environ, {**IDENTITY, **NO_CONFIGURATION})
        environment.start()
        self.addCleanup(environment.stop)

    def git(self, *words):
        subprocess.run(["git", *words], check=True, stdout=subprocess.DEVNULL, timeout=60)


def here():
    yield from prepared(WithGit)


@unittest.skipUnless(shutil.which('git'), 'it needs git')
def soon(here):
    """How git is asked for what changed, within a time."""
    began = time.monotonic()
    try:
        with mock.patch.object(of_git, "SECONDS", LIMIT, create=True):
            return [it.name for it in Git().changes(["HEAD"], [])]
    except Unreadable as error:
        return str(error)
    finally:
        here.assertLess(time.monotonic() - began, SOON)


@unittest.skipUnless(shutil.which('git'), 'it needs git')
def test_git_waits(here):
    """As for a filter that a repository names, which runs on if git alone is ended."""
    here.git("init", "-q")
    here.put("a.c", "int a;\n")
    here.git("add", ".")
    here.git("commit", "-qm", "first")
    here.put("a.c", "int b;\n")
    real, path = shutil.which("git"), os.environ["PATH"]
    os.environ["PATH"] = f"{here.work}/bin:{path}"
    for command in ["rev-parse", "diff-index", "cat-file"]:
        script = f'#!/bin/sh\ncase "$*" in *{command}*) sleep 1000 & sleep 1000;; *) exec {real} "$@";; esac\n'
        os.chmod(here.put("bin/git", script), 0o755)
        here.assertEqual(soon(here), f"git took more than {LIMIT} seconds", command)


@unittest.skipUnless(shutil.which('git'), 'it needs git')
def test_hostile_configuration(here):
    """git runs nothing that the configuration or the attributes of a repository name."""
    here.git("init", "-q")
    here.put("a.c", "int a;\n" * 20)
    here.git("add", ".")
    here.git("commit", "-qm", "first")
    os.rename("a.c", "b.c")
    here.put("b.c", "int a;\n" * 20 + "int b;\n")
    here.git("add", "-N", "b.c")
    here.put(".gitattributes", "*.c filter=mine diff=mine merge=mine\n")
    ran = f"touch {here.work}/ran; cat"
    for name in ["filter.mine.clean", "filter.mine.smudge", "filter.mine.process", "diff.mine.textconv"]:
        here.git("config", name, ran)
    here.git("config", "filter.mine.required", "true")
    for name in ["diff.external", "diff.mine.command", "core.fsmonitor", "core.pager", "diff.mine.xfuncname"]:
        here.git("config", name, ran)
    for hook in ["post-index-change", "pre-commit", "fsmonitor-watchman"]:
        os.chmod(here.put(f".git/hooks/{hook}", f"#!/bin/sh\n{ran}\n"), 0o755)
    os.utime("b.c", (1, 1))
    Path("ran").unlink(missing_ok=True)
    for is_cached in (False, True):
        changes = {it.name: it.why_not for it in Git().changes(["HEAD"], [], is_cached=is_cached)}
        here.assertEqual((changes, os.path.exists("ran")), ({"b.c": ""}, False))
    # The filter runs if nothing turns it off.
    subprocess.run(["git", "diff-index", "-M", "HEAD"], check=False, capture_output=True, timeout=60)
    here.assertTrue(os.path.exists("ran"))
    here.git("config", "filter.a=b.clean", ran)
    here.assertEqual([it.name for it in Git().changes(["HEAD"], [])], ["b.c"])


def text_of(chosen, count):
    return "".join(f"int {chosen.choice('abcdefgh')}{chosen.randrange(100_000)};\n" for _ in range(count))


def with_edits(chosen, text, count):
    """A text with some of its lines replaced."""
    lines = text.splitlines(True)
    for at in chosen.sample(range(len(lines)), count):
        lines[at] = text_of(chosen, 1)
    return "".join(lines)


def moved():
    """The files of two folders that differ: the old and the new text of each, by its new name."""
    return {os.path.relpath(it.name, "new"): (it.old, it.new) for it in changes_of("old", "new")}


def test_a_folder_that_moved(here):
    chosen = random.Random(1)
    texts = {f"{number}.c": text_of(chosen, 40) for number in range(30)}
    wanted = {}
    for number, (name, text) in enumerate(texts.items()):
        after = with_edits(chosen, text, number)
        here.put(f"old/{name}", text)
        here.put(f"new/src/{name}", after)
        # Of 40 lines half are enough.
        if 0 < number <= 18:
            wanted[f"src/{name}"] = text.encode(), after.encode()
    found = {name: it for name, it in moved().items() if None not in it}
    here.assertEqual({name: it for name, it in found.items() if int(Path(name).stem) <= 18}, wanted)


def test_as_git_does(here):
    """git finds the same renames."""
    if not shutil.which("git"):
        here.skipTest("it needs git")
    chosen = random.Random(2)
    for number in range(60):
        text = text_of(chosen, chosen.randrange(5, 60))
        here.put(f"old/f{number}.c", text)
        edits = chosen.randrange(0, text.count("\n"))
        if abs(edits - 0.5 * text.count("\n")) > 2:
            here.put(f"new/g{chosen.randrange(10**6)}.c", with_edits(chosen, text, edits))
    words = ["git", "diff", "--no-index", "--raw", "-z", "-M", "-l0", "old", "new"]
    fields = subprocess.run(words, capture_output=True, check=False).stdout.decode().split("\0")
    theirs = {new: old for status, old, new in zip(fields, fields[1:], fields[2:]) if " R" in status}
    here.assertGreater(len(theirs), 15)
    sides = [{f"{it}/{name}": Path(it, name).read_bytes() for name in os.listdir(it)} for it in ["old", "new"]]
    here.assertEqual(renamed(*sides), theirs)


def test_equal_files(here):
    for old, new, wanted in [
        (["a.c"], ["src/a.c"], {"src/a.c": "a.c"}),
        (["a.c", "b.c"], ["src/b.c"], {"src/b.c": "b.c"}),
        (["a.c", "b.c"], ["src/b.c", "src/a.c"], {"src/a.c": "a.c", "src/b.c": "b.c"}),
        (["a.c"], ["src/a.c", "lib/b.c"], {"src/a.c": "a.c"}),
        (["a.c"], ["x.c", "y.c"], {"x.c": "a.c"}),
    ]:
        found = renamed(dict.fromkeys(old, b"int x;\n"), dict.fromkeys(new, b"int x;\n"))
        here.assertEqual(found, wanted, (old, new))
    here.assertEqual(renamed({"a.c": b""}, {"b.c": b""}), {})


def test_time(here):
    """Thousands of files that share many lines take seconds."""
    chosen = random.Random(3)
    shared = "".join(f"#include <h{number}.h>\n" for number in range(100))
    old = {f"{number}.c": (shared + text_of(chosen, 50)).encode() for number in range(2_000)}
    new = {f"src/{name}": text + b"int more;\n" for name, text in old.items()}
    began = time.process_time()
    here.assertEqual(renamed(old, new), {f"src/{name}": name for name in old})
    here.assertLess(time.process_time() - began, 20)


Tests = tests_of(globals())
