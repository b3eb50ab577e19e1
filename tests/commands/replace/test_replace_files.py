"""Tests of how fmtcanon-replace reads, writes and renames files, and how it ends, without libclang."""

import argparse
import os
import signal
import subprocess
import sys
import tempfile
import threading
import time
import unittest
from pathlib import Path

from fmtcanon.compiling import running
from fmtcanon.compiling.left import Left
from fmtcanon.compiling.sources import Files
from fmtcanon.compiling.stand_ins import StandIn, original
from fmtcanon.frame.interrupting import Interrupted, interruptible
from fmtcanon.rewriting.rewritten_files import put_in_place

from tests.frame.cases import tests_of
from tests.frame.fixtures import InFolder, prepared

# The seconds in which the command ends after a signal.
SOON = 60
# A user to whom root gives a file.
ANOTHER = 1000


def state_of(path):
    found = os.stat(path)
    return found.st_mode, found.st_uid, found.st_gid, found.st_mtime_ns


def runs(process):
    """Returns whether a process of this number is there, and not only waits to be noticed."""
    try:
        return Path(f"/proc/{process}/stat").read_text().rpartition(")")[2].split()[0] != "Z"
    except FileNotFoundError:
        return False


def here():
    yield from prepared(InFolder)


def test_a_file(here):
    path = here.put("a.c")
    os.chmod(path, 0o640)
    put_in_place(original(path), b"new\n")
    here.assertEqual((Path(path).read_text(), os.stat(path).st_mode & 0o7777), ("new\n", 0o640))
    here.assertEqual(os.listdir(here.work), ["a.c"])


def test_a_link_in_its_place(here):
    """Somebody who may write to the folder puts a link where the stand-in is: nothing happens to what it names."""
    target = here.put("target", "precious")
    os.chmod(target, 0o600)
    path = here.put("a.c")
    if os.geteuid() == 0:
        os.chown(path, ANOTHER, ANOTHER)
    before = state_of(target)
    for use in [StandIn.checked, StandIn.rename, lambda it: it.take_rights(original(path)), lambda it: None]:
        with StandIn(path) as stand_in:
            os.symlink(target, here.work / "link")
            os.rename(here.work / "link", stand_in.path)
            stand_in.write(b"chosen by another")
            if use in (StandIn.checked, StandIn.rename):
                here.assertRaises(Left, use, stand_in)
            else:
                use(stand_in)
        here.assertEqual((Path(target).read_text(), state_of(target)), ("precious", before))
        here.assertEqual(Path(path).read_text(), "old\n")
        here.assertTrue(os.path.islink(stand_in.path), "it isn't removed, since it is another's")
        os.unlink(stand_in.path)


def test_another_file_in_its_place(here):
    path = here.put("a.c")
    with StandIn(path) as stand_in:
        stand_in.write(b"new\n")
        os.rename(here.put("other", "another's"), stand_in.path)
        here.assertRaises(Left, stand_in.rename)
    here.assertEqual(Path(path).read_text(), "old\n")


def test_another_folder_in_place_of_its_own(here):
    path = here.put("in/a.c")
    with StandIn(path) as stand_in:
        stand_in.write(b"new\n")
        os.rename(here.work / "in", here.work / "moved")
        here.put("in/a.c", "another's")
        Path(stand_in.path).write_text("chosen by another")
        stand_in.rename()
    here.assertEqual(Path(path).read_text(), "another's")
    here.assertEqual((here.work / "moved/a.c").read_text(), "new\n")


def test_endings(here):
    for name, wanted in [("a.c", ".c"), (".c", ".c"), ("a.b.cpp", ".cpp")]:
        with StandIn(here.put(name)) as stand_in:
            here.assertTrue(stand_in.name.endswith(wanted), name)


def test_a_long_name(here):
    path = here.put("x" * 250 + ".c")
    put_in_place(original(path), b"new\n")
    here.assertEqual(Path(path).read_text(), "new\n")


def test_a_change_meanwhile(here):
    path = here.put("a.c")
    read = original(path)
    here.put("a.c", "else")
    here.assertRaises(Left, put_in_place, read, b"new\n")
    here.assertEqual((Path(path).read_text(), os.listdir(here.work)), ("else", ["a.c"]))


def test_no_regular_file(here):
    os.mkfifo(here.work / "fifo.c")
    os.symlink(here.put("a.c"), here.work / "link.c")
    for name in ["fifo.c", "link.c"]:
        here.assertRaises(OSError, original, str(here.work / name))


def names(here, *operands):
    options = argparse.Namespace(database=None, files=[str(here.work / it) for it in operands], flag=[], exclude=[])
    return [os.path.relpath(it.shown, here.work) for it in Files(options).names()]


def test_links_out_of_a_folder(here):
    here.put("outside/a.c")
    here.put("tree/b.c")
    os.symlink("../outside/a.c", here.work / "tree/l.c")
    os.symlink("../outside", here.work / "tree/folder")
    here.assertEqual(names(here, "tree"), ["tree/b.c"])
    here.assertEqual(names(here, "tree/l.c"), ["tree/l.c"])


def test_each_once(here):
    here.put("tree/b.c")
    os.symlink("b.c", here.work / "tree/c.c")
    here.assertEqual(names(here, "tree/b.c", "tree", "tree/b.c"), ["tree/b.c"])


def test_what_a_killed_run_left(here):
    for name in ["tree/.fmtcanon-abc.c", "tree/.fmtcanon-abc-a.c", "tree/b.c"]:
        here.put(name)
    here.assertEqual(names(here, "tree", "tree/.fmtcanon-abc.c"), ["tree/b.c"])


def test_a_line_break(here):
    here.put("tree/a\nb.c")
    here.assertEqual(names(here, "tree"), ["tree/a\nb.c"])


class Runs(unittest.TestCase):
    def tearDown(self):
        running.STOPPING.clear()


def stopping():
    yield from prepared(Runs)


def test_time_limit(stopping):
    began = time.monotonic()
    with tempfile.TemporaryDirectory() as work:
        with stopping.assertRaisesRegex(Left, "its compiler took more than 2 seconds"):
            running.run(["sh", "-c", "sleep 60 & echo $! > child; sleep 60"], work, {}, seconds=2)
        child = (Path(work) / "child").read_text().strip()
    stopping.assertLess(time.monotonic() - began, 30)
    while runs(child):
        stopping.assertLess(time.monotonic() - began, 30, "what the compiler started runs on")
        time.sleep(0.01)


def test_stop(stopping):
    """All that run end, with what they started, and no other runs."""
    found = []

    def run():
        try:
            running.run(["sh", "-c", "sleep 1000; echo"], "/", {})
        except Left as left:
            found.append(str(left))

    threads = [threading.Thread(target=run) for _ in range(3)]
    for thread in threads:
        thread.start()
    while len(running.RUNNING) < len(threads):
        time.sleep(0.01)
    began = time.monotonic()
    running.stop()
    for thread in threads:
        thread.join()
    stopping.assertLess(time.monotonic() - began, SOON)
    stopping.assertEqual(found, [running.INTERRUPTED] * 3)
    stopping.assertRaises(Left, running.run, ["true"], "/", {})
    stopping.assertEqual(running.RUNNING, set())


def test_held(case):
    done = []
    with interruptible() as signals:
        with case.assertRaises(Interrupted) as raised, signals.raised():
            with signals.held():
                os.kill(os.getpid(), signal.SIGTERM)
                os.kill(os.getpid(), signal.SIGINT)
                done.append("the block")
            done.append("more")
        os.kill(os.getpid(), signal.SIGINT)
    case.assertEqual((done, raised.exception.number), (["the block"], signal.SIGTERM))


def test_before_and_after(case):
    """A signal at the edges ends nothing in the middle of a line of code."""
    with interruptible() as signals:
        os.kill(os.getpid(), signal.SIGINT)
        with case.assertRaises(Interrupted), signals.raised():
            case.fail("the block began")
    with interruptible() as signals:
        with signals.raised():
            pass
        os.kill(os.getpid(), signal.SIGINT)


# A run of the command whose files are judged by what is put into it.
SCRIPT = """
import argparse, os, signal, sys, threading, time
from fmtcanon.compiling import running
from fmtcanon.compiling.stand_ins import StandIn, original
from fmtcanon.frame.findings import Finding
from fmtcanon.frame.progress import Progress
from fmtcanon.replace.replacer import Replacer
from fmtcanon.rewriting import writing
from fmtcanon.rewriting.rewriter import Report

names, how = sys.argv[2:], sys.argv[1]

class Fake(Replacer):
    def __init__(self):
        self.progress = Progress()

    def reports(self, _, pool):
        if "hang" in how:
            list(pool.map(self.hang, names))
        notes = {it: Finding(it, 1, 1, "replaced", "note", "replaced") for it in names}
        found = [Report(it, [notes[it]], original(it), b"new\\n") for it in names]
        if how == "edit":
            with open(names[0], "a") as file:
                file.write("more")
        return found

    def left(self, name, why):
        return Report(name, [Finding(name, 0, None, "skipped", "warning", "not judged: " + why)], is_skipped=True)

    def hang(self, name):
        with StandIn(name) as stand_in:
            print("runs", flush=True)
            if "kill" in how:
                time.sleep(0.5)
                signal.pthread_kill(threading.get_ident(), signal.SIGTERM)
            if "parse" in how:
                # As libclang, it can't be interrupted.
                time.sleep(30)
            running.run(["sh", "-c", "sleep 30; exec cc"], "/", {})

def put_in_place(*rest, real=writing.put_in_place):
    real(*rest)
    if how == "signal":
        os.kill(os.getpid(), signal.SIGTERM)

writing.put_in_place = put_in_place
options = argparse.Namespace(jobs=2, output="text", diff=False, dry_run=False, color="auto", fail_on=["skipped"])
from fmtcanon.frame.command_line import status_of
sys.exit(status_of("fmtcanon-replace", lambda: writing.replace(options, Fake(), names)))
"""


class Ends(InFolder):
    """How a run ends, and that it says what it changed."""

    def setUp(self):
        super().setUp()
        self.files = [self.put(it) for it in ["a.c", "b.c", "c.c"]]

    def run_of(self, how, **streams):
        words = [sys.executable, "-B", "-c", SCRIPT, how, *self.files]
        return subprocess.Popen(words, stderr=subprocess.PIPE, **streams)

    def texts(self):
        return [Path(it).read_text() for it in self.files]


def ends():
    yield from prepared(Ends)


def test_all(ends):
    run = ends.run_of("", stdout=subprocess.PIPE)
    output, errors = run.communicate(timeout=60)
    ends.assertEqual((run.returncode, output.count(b"note: replaced"), errors), (0, 3, b""))
    ends.assertEqual(ends.texts(), ["new\n"] * 3)


def test_an_edit_meanwhile(ends):
    run = ends.run_of("edit", stdout=subprocess.PIPE)
    output = run.communicate(timeout=60)[0].decode()
    ends.assertEqual((run.returncode, output.count("note: replaced")), (2, 2))
    ends.assertIn(f"{ends.files[0]}:1: warning: not judged: it was changed meanwhile [skipped]\n", output)
    ends.assertEqual(ends.texts(), ["old\nmore", "new\n", "new\n"])


def test_full_output(ends):
    with open("/dev/full", "wb") as full:
        run = ends.run_of("", stdout=full)
        errors = run.communicate(timeout=60)[1].decode()
    said = "fmtcanon-replace: standard output: No space left on device; no file was changed\n"
    ends.assertEqual((run.returncode, errors, ends.texts()), (2, said, ["old\n"] * 3))


def test_nobody_reads(ends):
    reading, writing = os.pipe()
    os.close(reading)
    run = ends.run_of("", stdout=writing)
    errors = run.communicate(timeout=60)[1]
    os.close(writing)
    ends.assertEqual((run.returncode, errors, ends.texts()), (128 + signal.SIGPIPE, b"", ["old\n"] * 3))


def test_a_signal_while_compilers_run(ends):
    hows = [("hang", signal.SIGINT), ("hang", signal.SIGHUP), ("hang and parse", signal.SIGTERM)]
    for how, number in hows:
        run = ends.run_of(how, stdout=subprocess.PIPE)
        run.stdout.readline()
        began = time.monotonic()
        run.send_signal(number)
        run.send_signal(number)
        errors = run.communicate(timeout=60)[1].decode()
        ends.assertLess(time.monotonic() - began, SOON)
        said = "fmtcanon-replace: interrupted; no file was changed\n"
        ends.assertEqual((run.returncode, errors, ends.texts()), (128 + number, said, ["old\n"] * 3))
        ends.assertEqual(sorted(os.listdir(ends.work)), ["a.c", "b.c", "c.c"])


def test_a_signal_to_another_thread(ends):
    began = time.monotonic()
    run = ends.run_of("hang and kill", stdout=subprocess.PIPE)
    errors = run.communicate(timeout=60)[1].decode()
    ends.assertLess(time.monotonic() - began, SOON)
    ends.assertEqual((run.returncode, errors.count("interrupted")), (128 + signal.SIGTERM, 1))


def test_a_signal_between_files(ends):
    run = ends.run_of("signal", stdout=subprocess.DEVNULL)
    errors = run.communicate(timeout=60)[1].decode()
    said = f"fmtcanon-replace: interrupted; changed: {ends.files[0]}\n"
    ends.assertEqual((run.returncode, errors), (128 + signal.SIGTERM, said))
    ends.assertEqual((ends.texts(), len(os.listdir(ends.work))), (["new\n", "old\n", "old\n"], 3))


def test_a_signal_while_nobody_reads_on(ends):
    """A reader that takes nothing more doesn't keep the command from ending."""
    ends.files = [ends.put(f"{number}.c") for number in range(3000)]
    run = ends.run_of("", stdout=subprocess.PIPE)
    run.stdout.read(1)
    time.sleep(1)
    began = time.monotonic()
    run.send_signal(signal.SIGTERM)
    ends.assertEqual(run.wait(timeout=60), 128 + signal.SIGTERM)
    ends.assertLess(time.monotonic() - began, SOON)
    ends.assertEqual((set(ends.texts()), b"no file was changed" in run.stderr.read()), ({"old\n"}, True))
    run.stdout.close()
    run.stderr.close()


Tests = tests_of(globals())
