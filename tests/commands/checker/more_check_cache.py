"""Tries what fmtcanon-check keeps of earlier runs: a second run judges nothing again, and says what a first one says.
It asks compilers only for the short text of each file.

It needs libclang and gcc.
"""

import json
import os
import shutil
import signal
import subprocess
import time
from pathlib import Path

from tests.commands.checker.more_check import SAYS
from tests.commands.tool import Tool
from tests.frame.cases import tests_of
from tests.frame.harness import TIMEOUT

COUNT = 12
# A compiler that notes the words of each run, in another folder than those of sources, and has more words of its own.
COMPILER = '#!/bin/sh\necho "$*" >> "{work}/notes/runs"\nexec gcc {more} "$@"\n'
# The runs that ask for the short text of a file, and those that ask what a compiler is.
SHORT, ABOUT = "-fdirectives-only", ("-E -dM ", "-E -v ")
HEADER = "typedef unsigned long count_t;\nvoid out(const char *, ...) __attribute__((format(printf, 1, 2)));\n"


def tool(folder, work, python):
    found = Tool("check", folder, work, python)
    found.environment["XDG_CACHE_HOME"] = str(work / "notes/xdg")
    return found


def start(tool):
    """Sources that include headers, which a compiler finds in two folders."""
    tool.put("cc", COMPILER.format(work=tool.work, more="")).chmod(0o755)
    tool.put("inc/first/.keep", "")
    tool.put("notes/runs", "")
    tool.put("inc/last/count.h", HEADER)
    for number in range(COUNT):
        body = f'void f{number}(size_t n, count_t m) {{ out("%lu {number}", n); out("%lu", m); printf("%m"); }}\n'
        tool.put(f"f{number}.c", f'{SAYS}#include <count.h>\n{body}int x; // fmtcanon: ok\n')
    words = [str(tool.work / "cc"), "-Iinc/first", "-Iinc/missing", "-Iinc/last", "-c"]
    tool.put_commands(*([*words, f"f{number}.c"] for number in range(COUNT)))
    # What has just been written may still change.
    time.sleep(0.2)


def runs(tool):
    """How often the compiler read a file to be judged since this was last asked."""
    listed = (tool.work / "notes/runs").read_text().splitlines()
    tool.put("notes/runs", "")
    return sum(SHORT not in it and not it.startswith(ABOUT) for it in listed)


def entries(tool):
    return sorted((tool.work / "notes/xdg/fmtcanon/check").iterdir())


def said(tool, *words):
    return tool.run("-p", ".", "--output", "json", *words)


def test_second_run(tool, trials):
    """A second run says the same and judges nothing, with each output and option of one kind; others do."""
    start(tool)
    fresh = said(tool, "--no-cache")
    trials.expect("a fresh run", (fresh[0], fresh[1].count("\n"), runs(tool) > COUNT), (1, 3 * COUNT, True))
    trials.expect("nothing is kept", (tool.work / "notes/xdg").exists(), False)
    trials.expect("the first run", said(tool), fresh)
    trials.expect("it keeps", (runs(tool) > COUNT, len(entries(tool))), (True, COUNT))
    trials.expect("the second run", (said(tool), runs(tool)), (fresh, 0))
    for words in (["-j1"], ["--fail-on=rank"], ["--output=text"], ["--output=sarif"], ["--shard=1/3"]):
        found = tool.run("-p", ".", *words)
        trials.expect(f"{words}: nothing is judged", runs(tool), 0)
        trials.expect(f"{words}: the same", found, tool.run("-p", ".", *words, "--no-cache"))
        runs(tool)
    for words in (["--rank"], ["--model=ilp32"], ["--function=none:1"], ["--type=count_t=size_t"]):
        trials.expect(f"{words}: anew", (said(tool, *words)[:2], runs(tool) > 0), (said(tool, *words)[:2], True))
        kept = said(tool, *words)[1], runs(tool)
        trials.expect(f"{words}: and kept", kept, (said(tool, *words, "--no-cache")[1], 0))
        runs(tool)


def test_changes(tool, trials):
    """What changed is seen: a source, a header, one that is found earlier, the commands, and the compiler."""
    start(tool)
    said(tool)
    runs(tool)
    wide = HEADER.replace("unsigned long", "unsigned long long")
    narrow = HEADER.replace("unsigned long", "unsigned int  ")
    changes = [
        ("a source", "f3.c", SAYS + 'void g(size_t n) { printf("%lu", n); }\n', 1),
        ("a header", "inc/last/count.h", wide, COUNT - 1),
        ("a header that is found earlier", "inc/first/count.h", narrow, COUNT - 1),
        ("one in a folder that wasn't there, after that", "inc/missing/count.h", wide, 0),
        ("a header of the C library's name", "inc/first/stdio.h", "#include_next <stdio.h>\n", COUNT),
        ("one that no file asks for", "inc/first/other.h", "int x;\n", 0),
    ]
    for name, file, text, count in changes:
        tool.put(file, text)
        time.sleep(0.2)
        found = said(tool)
        is_read = runs(tool) >= count if count else not runs(tool)
        trials.expect(f"{name}: as many files as have it are read", is_read, True)
        trials.expect(f"{name}: the same as without a cache", found, said(tool, "--no-cache"))
        runs(tool)
        trials.expect(f"{name}: nothing is read again", (said(tool), runs(tool)), (found, 0))
    for name in ("inc/first/count.h", "inc/missing/count.h", "inc/first/stdio.h"):
        (tool.work / name).unlink()
        trials.expect(f"without {name}", said(tool), said(tool, "--no-cache"))
    runs(tool)
    for one in sorted(tool.work.glob("*.c")) + [tool.work / "inc/last/count.h"]:
        one.touch()
    trials.expect("touched files", (said(tool)[0], runs(tool)), (1, 0))
    for more, is_another in [("-w", False), ("-DANOTHER", True)]:
        tool.put("cc", COMPILER.format(work=tool.work, more=more)).chmod(0o755)
        trials.expect(f"a compiler with {more}", (said(tool)[0], runs(tool) >= COUNT), (1, is_another))


def test_damage(tool, trials):
    """Damaged, cut and strange entries count as none, and are replaced."""
    start(tool)
    wanted = said(tool)
    runs(tool)
    files = entries(tool)
    whole = {it: it.read_bytes() for it in files}
    for at, file in enumerate(files):
        data = whole[file]
        damaged = [data[: len(data) // 2], b"", b"\0" * len(data), data[:40] + b"x" + data[41:], data + b"x"]
        file.write_bytes(damaged[at % len(damaged)])
    files[5].unlink()
    files[5].mkdir()
    trials.expect("damaged entries", (said(tool), runs(tool) > COUNT), (wanted, True))
    trials.expect("they are replaced", [it for it in files if it.is_dir() or it.read_bytes() != whole[it]], [files[5]])
    files[5].rmdir()
    said(tool)
    runs(tool)
    trials.expect("and right again", (said(tool), runs(tool), len(entries(tool))), (wanted, 0, COUNT))
    shutil.rmtree(tool.work / "notes/xdg")
    tool.put("notes/xdg", "a file")
    trials.expect("no folder for it", said(tool), wanted)


def test_several_runs(tool, trials):
    """Several runs at a time say the same, also if some are killed; what is left is right."""
    start(tool)
    wanted = said(tool, "--no-cache")
    words = [*tool.words, "-p", ".", "--output", "json", "-j1"]
    streams = {"cwd": tool.work, "env": tool.environment, "stdout": subprocess.PIPE, "stderr": subprocess.DEVNULL}
    for _ in range(3):
        shutil.rmtree(tool.work / "notes/xdg", ignore_errors=True)
        all_of_them = [subprocess.Popen(words, start_new_session=True, **streams) for _ in range(3)]
        time.sleep(0.8)
        os.killpg(all_of_them[0].pid, signal.SIGKILL)
        outputs = [it.communicate(timeout=TIMEOUT)[0].decode() for it in all_of_them]
        trials.expect("runs at a time", outputs[1:], [wanted[1]] * 2)
        trials.expect("a run after them", said(tool), wanted)
    unfinished = [it for it in entries(tool) if it.name.startswith("unfinished-")]
    trials.expect("what is left over is little", len(unfinished) <= 1, True)


def test_entries(tool, trials):
    """Entries are small, only their owner reads them, and they are for one folder."""
    start(tool)
    said(tool)
    states = [it.stat() for it in entries(tool)]
    trials.expect("rights", {it.st_mode & 0o777 for it in states}, {0o600})
    trials.expect("sizes", max(it.st_size for it in states) < 20_000, True)
    trials.expect("the folder", Path(tool.work / "notes/xdg/fmtcanon/check").stat().st_mode & 0o777, 0o700)
    first = json.loads(said(tool)[1].splitlines()[0])
    trials.expect("names are those of the folder", first["file"], "f0.c")
    status, output, _ = tool.run("-p", "..", "--output", "json", where="inc")
    first = json.loads(output.splitlines()[0])
    trials.expect("and of another one", (status, first["file"]), (1, str(tool.work / "f0.c")))


Tests = tests_of(globals())
