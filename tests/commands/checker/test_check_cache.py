"""Tests of what fmtcanon-check keeps of earlier runs, without libclang."""

import gc
import multiprocessing
import os
import random
import time
import unittest
import weakref
import zlib
from collections import Counter
from pathlib import Path
from unittest import mock

from fmtcanon import Model
from fmtcanon.checker import cache as of_cache
from fmtcanon.checker.cache import Cache, cache_folder, digest
from fmtcanon.compiling.compile_commands import CompileCommand
from fmtcanon.compiling.functions import Wrapper
from fmtcanon.fitting.checking import Answer, CallLines, Found, Job, Question
from fmtcanon.fitting.unit import Settings
from fmtcanon.frame.excerpts import Excerpt
from fmtcanon.frame.findings import Finding
from fmtcanon.source.known import Shape

from tests.frame.cases import tests_of
from tests.frame.fixtures import InFolder, prepared

# Files with other texts, or None for one that goes; and whether the answer is still right.
CHANGES = [
    ({}, True),
    ({"src/a.c": "int another;\n"}, False),
    ({"src/a.h": "int another;\n"}, False),
    ({"src/a.h": "int a; // a comment\n"}, False),
    ({"first/b.h": "int earlier;\n"}, False),
    ({"first/c.h": "of no interest\n"}, True),
    ({"first/sys/x.h": "int earlier;\n"}, False),
    ({"missing/b.h": "int in_a_folder_that_was_not_there;\n"}, False),
    ({"src/b.h": "int in_the_folder_of_the_source;\n"}, True),
    ({"first/asked.h": "that __has_include asks for\n"}, False),
    ({"inc/only.h": "#define VALUE 2\n"}, False),
    ({"src/g.y": "int a; // fmtcanon: ok\n"}, False),
    ({"bin/cc": '#!/bin/sh\nexec gcc -DMORE "$@"\n'}, False),
]


def answer_for(file):
    """An answer with all that one may have."""
    details = {"fix": {"start": 1}, "macro": "M"}
    shown = (Excerpt("3", "text", 1, 2, "words"),), "help"
    first = "a.c", 3, 5, "size", "error", "ä \udcff"
    finding = Finding(*first, (3, 8), ("%d",), ("ilp32", "llp64"), details, *shown)
    plain = Finding("b.c", 1, None, "errno", "note", "more")
    found = {
        "first": Found(finding, 7, frozenset([CallLines("/a.c", 3, 4, 0)]), frozenset([("/a.c", 3, 4)])),
        "second": Found(plain),
    }
    fixes = {7: (b"\xff%zu", ""), 9: (None, "why"), 11: (b"", "")}
    return Answer(file, found, Counter(files=1, formats=2), Counter({"log:1": 3}), fixes)


class WithCache(InFolder):
    def setUp(self):
        super().setUp()
        self.enter()
        asked = "#if __has_include(<asked.h>)\nint asked;\n#endif\n"
        self.put(
            "src/a.c",
            f'#include "a.h"\n#include <b.h>\n#include <sys/x.h>\n#include <only.h>\n{asked}#line 1 "g.y"\nint g;\n',
        )
        for name in ("src/a.h", "src/g.y", "inc/b.h", "inc/sys/x.h"):
            self.put(name, "int x;\n")
        self.put("inc/only.h", "#define VALUE 1\n")
        self.put("first/unused.h", "unused\n")
        self.put("bin/cc", '#!/bin/sh\nexec gcc "$@"\n')
        os.chmod("bin/cc", 0o755)
        os.mkdir("kept")
        # How often a file was judged.
        self.judged = 0

    def job(self, **more):
        given = more.pop("functions", {}), more.pop("types", {})
        settings = Settings((), *given, "/tmp/x", found=more.pop("found", {}))
        question = Question(more.pop("models", list(Model)), more.pop("added", []), settings)
        folders = [f"-I{self.work}/{it}" for it in ("first", "missing", "inc")]
        words = (f"{self.work}/bin/cc", *folders, *more.pop("words", ()), "-c", "a.c")
        command = CompileCommand(f"{self.work}/src", f"{self.work}/src/a.c", words)
        return Job(f"{self.work}/src/a.c", [command], question, **more)

    def answer(self, **more):
        """What a run says, and whether it was kept."""

        def judge(job):
            self.judged += 1
            return answer_for(job.file)._replace(is_whole=True)

        before = self.judged
        # What has just been written may still change at the same time.
        time.sleep(2 * of_cache.SETTLED / 1e9)
        with mock.patch.object(of_cache, "answer", judge):
            found = Cache("kept").answer(self.job(**more))
        return found._replace(is_whole=False), self.judged == before


def here():
    yield from prepared(WithCache)


def handing_on(line):
    """What a job has if a function of another file hands its format on in a line of that."""
    return {"found": {"c:@F@log": (Wrapper(2, Shape(0, 1), "printf", "src/log.c", line),)}}


def test_all_of_it(here):
    """What is kept comes back as it was."""
    here.assertFalse(here.answer()[1])
    found, is_kept = here.answer()
    here.assertEqual((found, is_kept), (answer_for(found.file), True))
    [name] = os.listdir("kept")
    here.assertEqual(os.stat(f"kept/{name}").st_mode & 0o777, 0o600)


def test_changes(here):
    """An answer is only taken if all that it is made from is as it was."""
    for files, is_right in CHANGES:
        here.setUp()
        here.answer()
        for name, text in files.items():
            os.unlink(name) if text is None else here.put(name, text)
        here.assertEqual(here.answer()[1], is_right, files)


def test_times(here):
    """Other times don't matter, and the same times don't hide other bytes."""
    here.answer()
    os.utime("src/a.h", (1, 1))
    here.assertTrue(here.answer()[1])
    here.put("src/a.h", "int y;\n")
    os.utime("src/a.h", (1, 1))
    here.assertFalse(here.answer()[1])


def test_questions(here):
    """Each question has an entry of its own."""
    here.answer()
    for more in [
        {"models": [Model.LP64]},
        {"added": ["rank"]},
        {"functions": {"log": Shape(0, 1)}},
        {"types": {"mine": "int"}},
        {"words": ("-DX",)},
        {"source": b"int x;\n"},
        handing_on(3),
    ]:
        here.assertFalse(here.answer(**more)[1], more)
    # That a function hands its format on in another line changes no answer.
    here.assertTrue(here.answer(**handing_on(4))[1])
    with mock.patch.object(of_cache, "__version__", "another"):
        here.assertFalse(here.answer()[1])
    with mock.patch.dict(os.environ, {"HOME": "/other"}):
        here.assertTrue(here.answer()[1])


def test_includes(here):
    """A file that includes none of some others isn't judged."""
    for name, is_judged in [("inc/b.h", True), ("first/unused.h", False)]:
        found, _ = here.answer(among=frozenset([f"{here.work}/{name}"]))
        here.assertEqual((bool(found.found), bool(found.counts)), (is_judged, is_judged))


def test_what_changes_meanwhile(here):
    """An answer isn't kept if a file changes while it is found."""

    def judge(job):
        here.put("src/a.h", "int meanwhile;\n")
        return answer_for(job.file)._replace(is_whole=True)

    with mock.patch.object(of_cache, "answer", judge):
        Cache("kept").answer(here.job())
    here.assertEqual(os.listdir("kept"), [])


def test_what_changes_and_changes_back(here):
    """Neither if it is as it was afterwards, as after a checkout and another one; nor if a header of the system is."""
    for name, words in (
        ("src/a.h", ()),
        ("src/g.y", ()),
        ("sys/s.h", ("-isystem", f"{here.work}/sys", "-include", "s.h")),
    ):
        text = Path(here.put("sys/s.h", "int s;\n") if name == "sys/s.h" else name).read_text()

        def judge(job):
            here.put(name, "int meanwhile;\n")
            here.put(name, text)
            return answer_for(job.file)._replace(is_whole=True)

        time.sleep(2 * of_cache.SETTLED / 1e9)
        with mock.patch.object(of_cache, "answer", judge):
            Cache("kept").answer(here.job(words=words))
        here.assertEqual(os.listdir("kept"), [], name)


def test_what_may_still_change(here):
    """A time of whole seconds may be that of two versions for some seconds, another one for a moment."""
    now = 5_000_000_000_000_000_000
    for before, wanted in [(10_000_000, False), (60_000_001, True), (1_000_000_000, False), (4_000_000_000, True)]:
        here.assertEqual(of_cache.is_settled((now - before,), now), wanted, before)


def test_what_is_left(here):
    """Nothing is kept of a file that isn't read as a whole, or can't be."""
    with mock.patch.object(of_cache, "answer", lambda job: answer_for(job.file)):
        Cache("kept").answer(here.job())
        here.put("src/a.c", "#include <nothing.h>\n")
        Cache("kept").answer(here.job())
    here.assertEqual(os.listdir("kept"), [])


def test_memory(here):
    """What refers to itself, as units do, is gone before the next file is read."""

    class Unit:
        pass

    made = []

    def read(job):
        one = Unit()
        one.itself = one
        made.append(weakref.ref(one))
        return answer_for(job.file)

    gc.disable()
    here.addCleanup(gc.enable)
    with mock.patch.object(of_cache, "answer", read):
        of_cache.answer_and_keep(None, here.job())
    here.assertIsNone(made[0]())


def test_damage(here):
    """An entry that is damaged anywhere counts as none, and is written again."""
    here.answer()
    [name] = os.listdir("kept")
    file, cache = Path("kept", name), Cache("kept")
    data = file.read_bytes()
    chosen = random.Random(4)
    for at in [*range(40), *chosen.sample(range(len(data)), 200)]:
        for damaged in (data[:at], data[:at] + bytes([data[at] ^ 1 << chosen.randrange(8)]) + data[at + 1 :]):
            file.write_bytes(damaged)
            here.assertIsNone(cache.get(str(file)), at)
    for other in ({}, {"libraries": [1]}, {"libraries": [], "answer": 1}, {"libraries": [], "answer": {}}, []):
        file.write_bytes(of_cache.encoded(other))
        here.assertFalse(here.answer()[1], other)
    deep = zlib.compress(b"[" * 100_000)
    for packed in (b"not packed", deep, zlib.compress(b" " * 100_000_000)):
        file.write_bytes(bytes.fromhex(digest(packed)) + packed)
        here.assertIsNone(cache.get(str(file)))
    file.unlink()
    for make in (file.mkdir, lambda: os.mkfifo(file), lambda: file.symlink_to("/dev/zero")):
        make()
        here.assertIsNone(cache.get(str(file)))
        file.rmdir() if file.is_dir() else file.unlink()
    here.answer()
    here.assertEqual(file.read_bytes(), data)


def test_a_full_disk(here):
    with mock.patch("os.replace", side_effect=OSError("No space left on device")):
        here.answer()
    here.assertEqual(os.listdir("kept"), [])
    os.rmdir("kept")
    here.answer()
    Cache("kept").prune()


def test_folder(here):
    for value, wanted in [
        (f"{here.work}/xdg", f"{here.work}/xdg/fmtcanon/check"),
        ("xdg", f"{here.work}/home/.cache/fmtcanon/check"),
        ("", f"{here.work}/home/.cache/fmtcanon/check"),
        (f"{here.work}/src/a.c", None),
        (f"{here.work}/writable", None),
        (f"{here.work}/linked", None),
    ]:
        os.makedirs("writable/fmtcanon/check", exist_ok=True)
        os.chmod("writable/fmtcanon", 0o777)
        os.makedirs("linked/fmtcanon", exist_ok=True)
        if not os.path.lexists("linked/fmtcanon/check"):
            os.symlink(here.work, "linked/fmtcanon/check")
        with mock.patch.dict(os.environ, {"XDG_CACHE_HOME": value, "HOME": f"{here.work}/home"}):
            here.assertEqual(cache_folder(), wanted)
        here.assertTrue(wanted is None or os.stat(wanted).st_mode & 0o777 == 0o700)


def test_most(here):
    """Entries that weren't used for longest are removed, and what runs left that ended; nothing else."""
    now = time.time()
    names = [f"{number:032}" for number in range(20)]
    for number, name in enumerate(names):
        os.utime(here.put(f"kept/{name}", "x" * 100), (now - number, now - number))
    os.utime(here.put("kept/thesis.pdf", "x" * 5_000), (1, 1))
    os.utime(here.put(f"kept/{of_cache.UNFINISHED}old", "x"), (now - 5_000, now - 5_000))
    here.put(f"kept/{of_cache.UNFINISHED}new", "x")
    with mock.patch.multiple(of_cache, MOST=2_002, LEFT=1_200):
        Cache("kept").prune()
        stay = {f"{of_cache.UNFINISHED}new", "thesis.pdf"}
        here.assertEqual(set(os.listdir("kept")), {*stay, *names})
        here.put(f"kept/{'f' * 32}", "x" * 100)
        Cache("kept").prune()
    here.assertEqual(set(os.listdir("kept")), {*stay, "f" * 32, *names[:10]})


def write_and_read(self, number, results):
    """Writes and reads the same entry again and again, and takes some away. Says how often each was found."""
    chosen, found = random.Random(number), Counter()
    cache, job = Cache("kept"), self.job()
    data = of_cache.encoded({"libraries": [], "answer": of_cache.fields_of(answer_for(job.file))})
    until = time.monotonic() + 1
    while time.monotonic() < until:
        action = chosen.randrange(4)
        if action == 0:
            cache.write("kept/" + "a" * 32, data)
        elif action == 1 and number == 0:
            with mock.patch.multiple(of_cache, MOST=0, LEFT=0):
                cache.prune()
        else:
            one = cache.get("kept/" + "a" * 32)
            is_right = one is not None and of_cache.answer_in(job.file, one) == answer_for(job.file)
            found["none" if one is None else "right" if is_right else "wrong"] += 1
    results.put(found)


def test_several_runs(here):
    """Of several runs at a time each finds a whole entry or none."""
    results = multiprocessing.Queue()
    processes = [multiprocessing.Process(target=write_and_read, args=(here, it, results)) for it in range(4)]
    for one in processes:
        one.start()
    found = sum((results.get(timeout=60) for _ in processes), Counter())
    for one in processes:
        one.join()
    here.assertEqual([it.exitcode for it in processes], [0] * 4)
    here.assertGreater(found["right"], 20)
    here.assertEqual(found["wrong"], 0)
    here.assertEqual([it for it in os.listdir("kept") if it.startswith(of_cache.UNFINISHED)], [])


Tests = tests_of(globals())
