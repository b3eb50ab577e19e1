"""Tests of the processes that share work, and of how they end."""

import functools
import os
import signal
import subprocess
import sys
import tempfile
import time
from pathlib import Path

from fmtcanon.frame.processes import Ended, in_order

from tests.frame.cases import tests_of

# The seconds in which a command and its processes end after a signal, and those to wait for something.
SOON, LATE = 60, 120
# A command whose work takes long, and runs a program.
SLOW = """
import signal, subprocess, sys, threading, time
from fmtcanon.compiling import running
from fmtcanon.frame.command_line import status_of
from fmtcanon.frame.processes import in_order

def work(item):
    if sys.argv[1] == "run":
        running.run(["sleep", "1000"], "/", {})
    while True:
        time.sleep(1000)

def kill():
    time.sleep(1)
    signal.pthread_kill(threading.get_ident(), signal.SIGTERM)

if sys.argv[1] == "kill":
    threading.Thread(target=kill, daemon=True).start()
sys.exit(status_of("slow", lambda: print(list(in_order(work, range(9), 2)))))
"""


def children_of(process):
    """The numbers of the processes that one has started and that haven't ended."""
    try:
        return [int(it) for it in Path(f"/proc/{process}/task/{process}/children").read_text().split()]
    except FileNotFoundError:
        return []


def is_there(process):
    """Whether a process runs. One that nobody has waited for doesn't."""
    try:
        return Path(f"/proc/{process}/stat").read_bytes().rpartition(b")")[2].split()[0] != b"Z"
    except (FileNotFoundError, ProcessLookupError):
        return False


def wait_until(is_so, seconds):
    """Waits until something is so, and returns whether it is."""
    limit = time.monotonic() + seconds
    while not is_so() and time.monotonic() < limit:
        time.sleep(0.01)
    return is_so()


def double(number):
    return number, bytes(1000 * (number % 3000))


def fail(number):
    raise ValueError(f"about {number}")


def end_at(ending, number):
    if number in ending:
        end(number)
    return number


def leave(number):
    os._exit(0)


def end(number):
    os.kill(os.getpid(), signal.SIGKILL)


# A command that gets a signal where an exception is lost: in a destructor, or in what Python calls for a lost object.
LOST = """
import os, signal, sys, time, weakref
from fmtcanon.frame.command_line import status_of

def kill(_):
    os.kill(os.getpid(), signal.SIGINT)

class Lost:
    def __del__(self):
        if sys.argv[1] == "destructor":
            kill(self)

def run():
    it = Lost()
    reference = weakref.ref(it, kill if sys.argv[1] == "reference" else None)
    del it
    try:
        time.sleep(1000)
    finally:
        # It is raised once, though this takes longer than until the next try.
        time.sleep(0.5)
        print("cleaned", flush=True)

sys.exit(status_of("lost", run))
"""
# A command that ends early within another block that ends it, and has a folder that a process works in.
FOLDER = """
import os, sys
from fmtcanon.frame.command_line import status_of
from fmtcanon.frame.interrupting import clean, end, temporary_folder

def run():
    with temporary_folder() as folder:
        child = os.fork()
        if not child:
            clean()
            os._exit(0)
        os.waitpid(child, 0)
        print(folder, os.path.isdir(folder), flush=True)
        if sys.argv[1] == "end":
            end(15)
    return 3

sys.exit(status_of("folder", run))
"""


def test_order(case):
    for jobs in [1, 2, 5]:
        for count in [0, 1, 8, 300]:
            case.assertEqual(list(in_order(double, range(count), jobs)), [double(it) for it in range(count)])


def test_large_items(case):
    items = [bytes([it]) * 1_000_000 for it in range(20)]
    case.assertEqual(list(in_order(bytes.upper, items, 2)), [it.upper() for it in items])


def test_an_exception(case):
    with case.assertRaisesRegex(RuntimeError, "ValueError: about [01]\n"):
        list(in_order(fail, range(20), 2))


def test_a_process_that_is_killed(case):
    with case.assertRaisesRegex(Ended, "one of its processes ended by signal 9"):
        list(in_order(end, range(20), 2))


def test_items_that_end_their_processes(case):
    """Each has a result of its own, and new processes work on the others."""
    own = os.getpid()
    # What other tests left.
    before = children_of(own)
    for jobs in [1, 2, 5]:
        for ending in [(), (0,), (7,), (3, 4, 5, 6), range(20)]:
            for count in [1, 20]:
                work = functools.partial(end_at, ending)
                found = list(in_order(work, range(count), jobs, instead=lambda *given: given))
                wanted = [(it, "ended by signal 9") if it in ending else it for it in range(count)]
                left = [it for it in children_of(own) if it not in before]
                case.assertEqual((found, left), (wanted, []), (jobs, ending, count))


def test_a_process_that_ends_by_itself(case):
    case.assertEqual(list(in_order(leave, [1], 1, instead=lambda *given: given)), [(1, "ended")])


def test_results_that_nobody_wants(case):
    """The processes end with the first result that is taken."""
    before = children_of(os.getpid())
    results = in_order(double, range(1000), 2)
    next(results)
    there = [it for it in children_of(os.getpid()) if it not in before]
    results.close()
    case.assertEqual((len(there), [it for it in there if is_there(it)]), (2, []))


# A signal ends a command and all of its processes, whatever they do.
def ends_by(case, words, expected, *signals, each=1):
    """Runs a command until its two processes work, sends it signals, and tries how it ends. A signal is a number,
        whether the group of the command gets it, and the seconds after it.
        """
    running = subprocess.Popen(
        words,
        stdout=subprocess.DEVNULL,
        stderr=subprocess.PIPE,
        start_new_session=True,
    )
    case.addCleanup(running.stderr.close)
    case.addCleanup(running.wait)
    case.addCleanup(running.kill)

    def all_of_it():
        workers = children_of(running.pid)
        return [*workers, *(it for one in workers for it in children_of(one))]

    case.assertTrue(wait_until(lambda: len(all_of_it()) == 2 * each, LATE), "its processes work")
    time.sleep(0.1)
    there = all_of_it()
    began = time.monotonic()
    for number, is_of_group, pause in signals:
        try:
            (os.killpg if is_of_group else os.kill)(running.pid, number)
        except ProcessLookupError:
            pass
        time.sleep(pause)
    try:
        status = running.wait(timeout=SOON)
    except subprocess.TimeoutExpired:
        status = "it runs on"
    left = wait_until(lambda: not any(map(is_there, there)), began + SOON - time.monotonic())
    for one in there:
        if is_there(one):
            os.kill(one, signal.SIGKILL)
    case.assertEqual((status, left), (expected, True), signals)
    if status == expected:
        case.assertEqual(running.stderr.read(), b"", signals)


def all_ends(case, words, each=1):
    for number in [signal.SIGINT, signal.SIGTERM, signal.SIGHUP]:
        for is_of_group in [False, True]:
            ends_by(case, words, 128 + number, (number, is_of_group, 0), each=each)
    for first, pause in [(True, 0.15), (True, 0.01), (False, 0.01)]:
        signals = (signal.SIGINT, first, pause), (signal.SIGINT, True, 0)
        ends_by(case, words, 128 + signal.SIGINT, *signals, each=each)
    ends_by(case, words, -signal.SIGKILL, (signal.SIGKILL, False, 0), each=each)


def test_work(case):
    all_ends(case, [sys.executable, "-B", "-c", SLOW, "wait"])


def test_a_signal_to_another_thread(case):
    ends_by(case, [sys.executable, "-B", "-c", SLOW, "kill"], 128 + signal.SIGTERM)


def test_a_signal_in_a_destructor(case):
    for word in ["destructor", "reference"]:
        words = [sys.executable, "-B", "-c", LOST, word]
        done = subprocess.run(words, capture_output=True, check=False, timeout=LATE)
        case.assertEqual((done.returncode, done.stdout), (128 + signal.SIGINT, b"cleaned\n"), word)
        case.assertTrue(word == "reference" or not done.stderr, done.stderr)


def test_a_folder(case):
    """It is removed however the command ends, by the process that made it alone."""
    for word, status in [("end", 128 + signal.SIGTERM), ("return", 3)]:
        words = [sys.executable, "-B", "-c", FOLDER, word]
        done = subprocess.run(words, stdout=subprocess.PIPE, check=False, timeout=LATE)
        folder, was_there = done.stdout.decode().split()
        case.assertEqual((done.returncode, was_there, os.path.exists(folder)), (status, "True", False), word)


def test_what_work_runs(case):
    all_ends(case, [sys.executable, "-B", "-c", SLOW, "run"], each=2)


def test_catalogs(case):
    """Nobody writes the catalogs that fmtcanon-po reads."""
    with tempfile.TemporaryDirectory() as work:
        names = [os.path.join(work, f"{number}.po") for number in range(9)]
        for it in names:
            os.mkfifo(it)
        all_ends(case, [sys.executable, "-B", "-m", "fmtcanon.po", "-j2", *names])


def test_sources(case):
    """fmtcanon-diff has much to pair."""
    with tempfile.TemporaryDirectory() as work:
        for number in range(9):
            for side in ["old", "new"]:
                os.makedirs(f"{work}/{side}", exist_ok=True)
                lines = [f'printf("{side} %d of {it % 7}", {it}{side});\n' for it in range(20_000)]
                Path(f"{work}/{side}/{number}.c").write_text("".join(lines))
        all_ends(case, [sys.executable, "-B", "-m", "fmtcanon.diff", "-j2", f"{work}/old", f"{work}/new"])


def test_a_signal_that_is_ignored(case):
    """nohup has the command ignore one."""
    script = SLOW.replace("1000", "0.01").replace("while True:", "for _ in range(30):")
    words = [sys.executable, "-B", "-c", f"import signal; signal.signal(signal.SIGHUP, signal.SIG_IGN)\n{script}"]
    running = subprocess.Popen([*words, "wait"], stdout=subprocess.PIPE, start_new_session=True)
    case.assertTrue(wait_until(lambda: len(children_of(running.pid)) == 2, LATE))
    os.killpg(running.pid, signal.SIGHUP)
    output = running.communicate(timeout=LATE)[0]
    case.assertEqual((running.returncode, output), (0, b"[" + b", ".join([b"None"] * 9) + b"]\n"))


Tests = tests_of(globals())
