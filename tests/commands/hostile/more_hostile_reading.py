"""Tries that files of somebody else's names are read only if they are regular, and that nothing runs on for ever.

It needs libclang, gcc and clang.
"""

import json
import os
import signal
import subprocess
import time
from pathlib import Path

from tests.commands.hostile.hostile import FED, WRONG, Folder, held, limit_of, processes_below
from tests.frame.cases import tests_of

SILENT = {name: subprocess.DEVNULL for name in ("stdin", "stdout", "stderr")}

LINE = '#include <stdio.h>\n#line 1 "{}"\nvoid f(long n) {{ printf("%d\\n", n); }}\n'


@held
def test_a_text_that_takes_too_long():
    """The server ends the compilers of a text that takes too long."""
    folder = Folder()
    os.mkfifo(folder.work / "fifo")
    folder.put("a.c", '#include "fifo"\n')
    folder.opened(seconds=2)
    time.sleep(2)
    left = processes_below(folder.work)
    for one in left:
        os.kill(one, signal.SIGKILL)
    return not left or f"{len(left)} processes are left"


@held
def test_memory_of_compilers():
    """A compiler that reads /dev/zero ends for lack of memory, below 6 GB."""
    folder = Folder()
    folder.put("a.c", '#include "/dev/zero"\n')
    process = subprocess.Popen(
        folder.command("check", "a.c"),
        cwd=folder.work,
        env=folder.environment,
        start_new_session=True,
        stdout=subprocess.PIPE,
        stderr=subprocess.STDOUT,
    )
    most, began = 0, time.monotonic()
    while process.poll() is None and time.monotonic() - began < 120:
        for one in processes_below(folder.work):
            try:
                text = Path(f"/proc/{one}/status").read_text()
                most = max(most, int(text.split("VmRSS:")[1].split()[0]) // 1000)
            except (OSError, IndexError):
                continue
        if most > 4600:
            break
        time.sleep(0.1)
    ended = process.poll() is not None
    for one in processes_below(folder.work):
        os.kill(one, signal.SIGKILL)
    if not ended:
        os.killpg(process.pid, signal.SIGKILL)
    said = process.communicate()[0].decode()
    return (ended and most < 4600 and "not judged" in said) or f"{most} MB, ended {ended}: {said}"


@held
def test_files_of_line():
    """#line names a FIFO or /dev/zero."""
    bad = {}
    for name in ("fifo", "/dev/zero", "/proc/kmsg"):
        folder = Folder()
        os.mkfifo(folder.work / "fifo")
        folder.put("a.c", LINE.format(name))
        done = folder.started(
            ["sh", "-c", 'ulimit -v 3000000; exec "$@"', "sh", *folder.command("check", "--no-cache", "a.c")], 30
        )
        if done[0] != 1:
            bad[name] = done
    return not bad or str(bad)


@held
def test_other_names():
    """Headers and sources that are FIFOs, for diff of folders, replace, explain and the server."""
    bad = {}
    for words in (
        ["diff", "old", "new"],
        ["diff", "-p", ".", "old", "new"],
        ["replace", "--dry-run", "%d\\n", "%i\\n", "new"],
        ["check", "new"],
        ["po", "--", "new/b.po"],
    ):
        folder = Folder()
        for name in ("old", "new"):
            folder.put(f"{name}/a.c", '#include <stdio.h>\n#include "h.h"\nvoid f(int n) { printf("%d\\n", n); }\n')
            os.mkfifo(folder.work / name / "b.c")
        folder.put("new/b.po", "")
        folder.put("compile_commands.json", "[]")
        done = folder.run(*words, seconds=20)
        if done[0] is None:
            bad[" ".join(words)] = done
    folder = Folder()
    os.mkfifo(folder.work / "compile_commands.json")
    if folder.run("check", "-p", ".", seconds=20)[0] is None:
        bad["a database that is a FIFO"] = None
    return not bad or str(bad)


@held
def test_response_files():
    """`@fifo` and `@/dev/zero` in compile_commands.json: the file is left, and that is said."""
    bad = {}
    for name in ("@fifo", "@/dev/zero"):
        folder = Folder()
        os.mkfifo(folder.work / "fifo")
        folder.put("a.c", LINE.format("a.c"))
        folder.put(
            "compile_commands.json",
            json.dumps([{"directory": str(folder.work), "file": "a.c", "arguments": ["gcc", name, "-c", "a.c"]}]),
        )
        done = folder.started(
            ["sh", "-c", 'ulimit -v 3000000; exec "$@"', "sh", *folder.command("check", "-p", ".")], 20
        )
        if done[0] != 2 or name not in done[1]:
            bad[name] = done
    return not bad or str(bad)


@held
def test_a_parse_that_never_ends():
    """`#pragma clang __debug overflow_stack`: the process that parses it is ended after its time, here 5 seconds."""
    folder = Folder()
    folder.put("a.c", "#pragma clang __debug overflow_stack\n" + LINE.format("a.c"))
    text = """
import sys
from fmtcanon.checker import command
from fmtcanon.frame import processes
processes.LONGEST = 5.0
sys.exit(command.main(["--no-cache", "a.c"]))
"""
    done = folder.run_python(text, seconds=40)
    return (done[0] == 2 and "not judged" in done[1]) or str(done)


@held
def test_memory_of_compilers_of_replace():
    """Compilers have a limit of memory wherever they are started, as in the main process of replace."""
    folder = Folder()
    folder.put("a.c", WRONG)
    found = limit_of(folder, "cc", folder.command("replace", "--dry-run", "%d\\n", "%i\\n", "a.c"))
    return (found and "unlimited" not in found) or f"the limits of cc: {found}"


def children_of(process):
    """The processes that a process started."""
    try:
        found = [it.read_text() for it in Path(f"/proc/{process}/task").glob("*/children")]
    except OSError:
        return []
    return [int(it) for it in " ".join(found).split()]


@held
def test_a_process_that_is_killed():
    """A process that works for a command, or for the server, leaves no compiler if it is killed by force."""
    for words in (["check", "--no-cache", "a1.c"], ["check", "--no-cache", "-j2", "."], ["lsp"]):
        folder = Folder()
        os.mkfifo(folder.work / "fifo")
        for number in range(1, 10):
            folder.put(f"a{number}.c", '#include "fifo"\n')
        if words == ["lsp"]:
            folder.opened("a1.c", wait=0)
            run = ["sh", "-c", FED, "sh", str(folder.top / "messages"), "30", *folder.command("lsp")]
        else:
            run = folder.command(*words)
        said = is_clean_after_kill(folder, run, words == ["lsp"])
        if said is not True:
            return f"{words}: {said}"
    return True


def is_clean_after_kill(folder, words, is_server):
    """Whether no compiler is left of the processes that work for a command once these are killed."""
    process = subprocess.Popen(words, cwd=folder.work, env=folder.environment, start_new_session=True, **SILENT)
    workers, compilers, began = [], [], time.monotonic()
    while not compilers and time.monotonic() - began < 60:
        time.sleep(0.5)
        mains = [it for it in processes_below(folder.work) if is_python(it)] if is_server else [process.pid]
        workers = [it for one in mains for it in children_of(one) if is_python(it)]
        compilers = [it for one in workers for it in children_of(one) if not is_python(it)]
    for one in workers:
        os.kill(one, signal.SIGKILL)
    time.sleep(4)
    left = [it for it in compilers if Path(f"/proc/{it}").exists()]
    process.terminate()
    process.wait(20)
    time.sleep(1)
    after = processes_below(folder.work)
    for one in after:
        os.kill(one, signal.SIGKILL)
    return bool(workers and compilers and not left and (is_server or not after)) or f"{workers} {left} {after}"


def is_python(process):
    try:
        return Path(f"/proc/{process}/comm").read_text().startswith("python")
    except OSError:
        return False


Tests = tests_of(globals())
