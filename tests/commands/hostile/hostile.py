"""Folders of somebody else, in which commands run: what they name must not run, be read for ever, or hide anything."""

import json
import os
import re
import shutil
import signal
import subprocess
import tempfile
import weakref
from pathlib import Path

from tests.frame import fixtures
from tests.frame.harness import NO_PROGRAM, PACKAGES, SONAME, TOP

HEAD = "#include <stdio.h>\n"
# A call that is wrong for a size_t, and one that is right.
WRONG = HEAD + 'void f(size_t n) { printf("%d\\n", n); }\n'
RIGHT = HEAD + 'void f(int n) { printf("%d\\n", n); }\n'
PLUGIN = """#include <stdlib.h>
__attribute__((constructor)) static void evil(void) {{ system("id > {}"); }}
int plugin_is_GPL_compatible;
int plugin_init(void *a, void *b) {{ return 0; }}
"""
# What reads a file of messages to a server, which stays for some seconds.
FED = 'file=$1; seconds=$2; shift 2; (cat "$file"; sleep $seconds) | "$@"'


def held(function):
    """A test of a function that returns True, or what went wrong."""

    def test(trials):
        trials.expect(function.__doc__, function(), True)

    test.__name__, test.__doc__ = function.__name__, function.__doc__
    return test


def all_of(made):
    """True, or what is said of those of these functions that don't return True, by their names."""
    said = {name: one() for name, one in made.items()}
    bad = {name: it for name, it in said.items() if it is not True}
    return not bad or f"{len(bad)} of {len(made)}: {bad}"


class Folder:
    """A folder in which commands run, with a home and a cache of its own."""

    def __init__(self):
        self.top = Path(tempfile.mkdtemp(prefix="hostile-")).resolve()
        self.gone = weakref.finalize(self, shutil.rmtree, self.top, True)
        self.work = self.top / "work"
        self.work.mkdir()
        self.python = fixtures.python_with("clang.cindex") or fixtures.SYSTEM_PYTHON
        self.environment = {
            **os.environ,
            "FMTCANON_LIBRARY": str(fixtures.folder() / SONAME),
            "FMTCANON_PROGRAM": NO_PROGRAM,
            "PYTHONPATH": str(TOP / "python"),
            "PYTHONDONTWRITEBYTECODE": "1",
            "LC_ALL": "C.UTF-8",
            "HOME": str(self.top),
            "XDG_CACHE_HOME": str(self.top / "cache"),
            "GIT_CONFIG_GLOBAL": os.devnull,
            "GIT_CONFIG_SYSTEM": os.devnull,
            **{f"GIT_{who}_{what}": "a@b" for who in ("AUTHOR", "COMMITTER") for what in ("NAME", "EMAIL")},
        }

    def put(self, name, text, mode=None):
        path = self.work / name
        path.parent.mkdir(parents=True, exist_ok=True)
        path.write_bytes(text.encode() if isinstance(text, str) else text)
        if mode:
            path.chmod(mode)
        return path

    def database(self, *words, file="a.c", where=""):
        """A compile_commands.json with a command for each of these files."""
        names = [file] if isinstance(file, str) else file
        words = [it.replace("WORK", str(self.work)) for it in words]
        entries = [{"directory": str(self.work), "file": it, "arguments": [*words, "-c", it]} for it in names]
        self.put(os.path.join(where, "compile_commands.json"), json.dumps(entries))

    def database_of(self, *words, file="a.c"):
        """A compile_commands.json with just these words."""
        entry = {"directory": str(self.work), "file": file, "arguments": [*words]}
        self.put("compile_commands.json", json.dumps([entry]))

    def command(self, name, *words):
        return [self.python, "-m", f"fmtcanon.{PACKAGES.get(name, name)}", *map(str, words)]

    def run(self, name, *words, seconds=60, where=".", **names):
        """The status and the streams of a run. The status is None if it takes too long, and then it is ended."""
        return self.started(self.command(name, *words), seconds, where, **names)

    def run_python(self, text, *words, seconds=60, **names):
        """A run of Python text with the module."""
        return self.started([self.python, "-c", text, *map(str, words)], seconds, **names)

    def started(self, words, seconds=60, where=".", **names):
        process = subprocess.Popen(
            words,
            cwd=self.work / where,
            env={**self.environment, **names},
            start_new_session=True,
            stdin=subprocess.DEVNULL,
            stdout=subprocess.PIPE,
            stderr=subprocess.PIPE,
        )
        try:
            output, errors = process.communicate(timeout=seconds)
        except subprocess.TimeoutExpired:
            os.killpg(process.pid, signal.SIGTERM)
            try:
                process.communicate(timeout=8)
            except subprocess.TimeoutExpired:
                os.killpg(process.pid, signal.SIGKILL)
                process.communicate()
            return None, "", ""
        return process.returncode, output.decode(errors="replace"), errors.decode(errors="replace")

    def programs(self, name, *words, where=".", **names):
        """The programs that a run starts, each with its words, and what the run printed."""
        trace = self.top / "trace"
        strace = ["strace", "-f", "-qq", "-s", "4096", "-e", "trace=execve", "-o", str(trace)]
        done = self.started([*strace, *self.command(name, *words)], 120, where, **names)
        found = set()
        for line in trace.read_text(errors="replace").splitlines():
            one = re.match(r'\d+ +execve\("([^"]*)", \[(.*?)\], .* = 0$', line)
            if one:
                found.add((os.path.basename(one[1]), one[2]))
        return found, done

    def git(self, *words, where="."):
        done = subprocess.run(
            ["git", *map(str, words)], cwd=self.work / where, env=self.environment, check=True, capture_output=True
        )
        return done.stdout.decode().strip()

    def committed(self, where=".", **texts):
        """A repository of what is there, and of these texts, in which `_` in a name is a dot."""
        for name, text in texts.items():
            self.put(f"{where}/{name.replace('_', '.')}", text)
        (self.work / where).mkdir(exist_ok=True)
        self.git("init", "-q", where=where)
        self.git("add", "-A", where=where)
        self.git("commit", "-qm", "first", where=where)

    def plugin(self, name="evil.so"):
        """Makes a library whose constructor leaves a mark, and returns the path of that."""
        mark = self.top / "MARK"
        words = ["gcc", "-shared", "-fPIC", "-w", "-x", "c", "-o", str(self.work / name), "-"]
        subprocess.run(words, input=PLUGIN.format(mark).encode(), check=True)
        return mark

    def opened(self, path="a.c", text=None, wait=6, seconds=40, **options):
        """What the server writes when a source is opened, with its options."""
        text = json.dumps((self.work / path).read_text() if text is None else text)
        given = json.dumps({"processId": None, "rootUri": self.work.as_uri(), "capabilities": {}})
        given = f'{given[:-1]}, "initializationOptions": {options.get("json") or json.dumps(options)}}}'
        document = f'{{"uri": "{(self.work / path).as_uri()}", "languageId": "c", "version": 1, "text": {text}}}'
        messages = [
            f'"id": 1, "method": "initialize", "params": {given}',
            '"method": "initialized", "params": {}',
            f'"method": "textDocument/didOpen", "params": {{"textDocument": {document}}}',
        ]
        bodies = [f'{{"jsonrpc": "2.0", {it}}}'.encode() for it in messages]
        data = b"".join(b"Content-Length: %d\r\n\r\n" % len(it) + it for it in bodies)
        file = self.put("../messages", data)
        return self.started(["sh", "-c", FED, "sh", str(file), str(wait), *self.command("lsp")], seconds)


def limit_of(folder, name, words):
    """What a program that is run has as its limit of memory."""
    real = subprocess.run(["which", name], capture_output=True, text=True).stdout.strip()
    seen = folder.top / "limits"
    folder.put(f"../bin/{name}", f'#!/bin/sh\nulimit -v >> {seen}\nexec {real} "$@"\n', 0o755)
    folder.started(words, PATH=f"{folder.top}/bin:{os.environ['PATH']}")
    return set(seen.read_text().split()) if seen.exists() else set()


def processes_below(folder):
    """The processes whose working folder is below a folder."""
    found = []
    for one in Path("/proc").glob("[0-9]*"):
        try:
            if os.readlink(one / "cwd").startswith(str(folder)) and "zombie" not in (one / "status").read_text():
                found.append(int(one.name))
        except OSError:
            continue
    return found
