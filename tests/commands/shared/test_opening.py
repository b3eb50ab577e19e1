"""Tests that files are opened in one place: what somebody else named is read there, and what is written is the user's.
"""

import ast
import unittest
from pathlib import Path

import fmtcanon

from tests.frame.cases import tests_of

TOP = Path(fmtcanon.__file__).parent
# The calls that open a file by its name, and why: no name in them is that of somebody else.
OPENED = {
    ("source/files.py", "read_file", "os.open"): "the only way to read what somebody else named",
    ("source/files.py", "read_file", "open"): "that, by its descriptor",
    ("checker/cache.py", "libraries", "read_text"): "the system's list of this process",
    ("frame/processes.py", "end_left", "open"): "the system's list of the children of this process",
    ("words.py", "<module>", "read_text"): "a file of the module",
    ("checker/baseline.py", "Baseline.write", "open"): "a new file that the user names",
    ("checker/baseline.py", "Baseline.write", "write_bytes"): "a file in a folder that this made",
    ("lsp/compiler.py", "Compiler.give", "open"): "a file in a folder that this made",
    ("lsp/worker.py", "CompileWorker.judge", "open"): "that file",
    ("compiling/stand_ins.py", "StandIn.__init__", "os.open"): "the folder of a file that the user names",
    ("lsp/worker.py", "CompileWorker.start", "os.open"): "/dev/null",
    ("frame/output.py", "drop", "os.open"): "/dev/null",
    ("frame/output.py", "occupy", "os.open"): "/dev/null",
    ("compiling/retargeting.py", "write_headers", "write_text"): "a file in a folder that this made",
}
METHODS = {"read_text", "read_bytes", "write_text", "write_bytes"}
# Modules that open files by themselves.
OPENING = {"fileinput", "mmap", "gzip", "bz2", "lzma", "zipfile", "tarfile", "configparser", "linecache"}


class Calls(ast.NodeVisitor):
    """The calls of a file that open another one, with the function that each is in."""

    def __init__(self, name):
        self.name, self.inside, self.found, self.imported = name, [], [], set()

    def visit_scope(self, node):
        self.inside.append(node.name)
        self.generic_visit(node)
        self.inside.pop()

    visit_FunctionDef = visit_ClassDef = visit_scope

    def visit_Import(self, node):
        self.imported |= {it.name.partition(".")[0] for it in node.names}

    def visit_ImportFrom(self, node):
        self.imported |= {node.module} if node.module and not node.level else set()

    def visit_Call(self, node):
        called = ast.unparse(node.func)
        last = called.rpartition(".")[2]
        if called in ("open", "os.open", "io.open", "os.fdopen") or last in METHODS or last == "open":
            self.found.append((self.name, ".".join(self.inside) or "<module>", called if "open" in called else last))
        self.generic_visit(node)


def calls_of(path):
    calls = Calls(path.relative_to(TOP).as_posix())
    calls.visit(ast.parse(path.read_text(encoding="utf-8")))
    return calls


def test_calls(case):
    listed = [calls_of(path) for path in sorted(TOP.rglob("*.py"))]
    case.assertEqual(sorted({it for one in listed for it in one.found}), sorted(OPENED))
    case.assertEqual({it for one in listed for it in one.imported & OPENING}, set())


def test_another_one(case):
    """Each way to open a file is found."""
    for text in ("open(name)", "os.open(name, 0)", "Path(name).read_text()", "it.open()", "io.open(name)"):
        calls = Calls("a.py")
        calls.visit(ast.parse(f"def f(name):\n    {text}\n"))
        case.assertEqual([it[:2] for it in calls.found], [("a.py", "f")], text)


Tests = tests_of(globals())
