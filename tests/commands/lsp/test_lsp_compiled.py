"""Tests of what fmtcanon-lsp finds by compiling: here without libclang, and with one that hangs or ends its process."""

import os
import random
import signal
import tempfile
import time
import unittest
from pathlib import Path

from fmtcanon.compiling.compile_commands import CompileCommand
from fmtcanon.compiling.left import Left
from fmtcanon.frame.findings import ERROR, Finding
from fmtcanon.lsp.compiled_findings import (
    CompiledAnswer,
    CompiledPart,
    FindingAt,
    cast_edit,
    change_between,
    diagnosis_of,
    fixes_of,
)
from fmtcanon.lsp.compile_queue import Compiling
from fmtcanon.lsp.databases import check_program, folder_above
from fmtcanon.lsp.documents import UTF_16, Document
from fmtcanon.lsp.including import include_edit
from fmtcanon.lsp.editor_options import Options
from fmtcanon.lsp.views import SourceView
from fmtcanon.models import Model
from fmtcanon.source.written import WrittenSource

from tests.commands.lsp.lsp_client import Client
from tests.frame import TOP
from tests.frame.cases import tests_of
from tests.frame.fixtures import prepared

SOURCE = '#include <stdio.h>\nvoid f(long n)\n{\n    printf("%d\\n", n);\n    printf("%hs", "");\n}\n'
# Instead of libclang: none, one whose parser ends the process, and one whose parser never returns.
MISSING = "raise ImportError\n"
ENDS = "import os, signal\nclass Index:\n    def create(): os.kill(os.getpid(), signal.SIGKILL)\n"
HANGS = "import time\nclass Index:\n    def create(): time.sleep(3600)\n"


class Lives(unittest.TestCase):
    """The server lives on, whatever becomes of the process that compiles."""

    def client(self, libclang, **options):
        folder = tempfile.TemporaryDirectory()
        self.addCleanup(folder.cleanup)
        self.folder = Path(folder.name)
        (self.folder / "clang").mkdir()
        (self.folder / "clang/__init__.py").touch()
        (self.folder / "clang/cindex.py").write_text(libclang, encoding="utf-8")
        (self.folder / "a.c").write_text(SOURCE, encoding="utf-8")
        (self.folder / "temporary").mkdir()
        path = f"{TOP / 'python'}{os.pathsep}{self.folder}"
        environment = {"PYTHONPATH": path, "TMPDIR": str(self.folder / "temporary")}
        client = Client(uri=f"file://{self.folder}/a.c", options=options, environment=environment)
        self.addCleanup(client.end)
        self.addCleanup(client.process.kill)
        return client

    def wait(self, is_so):
        """Waits until something is so, and returns whether it is."""
        end = time.monotonic() + 20
        while not is_so() and time.monotonic() < end:
            time.sleep(0.05)
        return is_so()


def lives():
    yield from prepared(Lives)


def test_missing(lives):
    """Without libclang that is said once, and what the text shows is still said."""
    client = lives.client(MISSING)
    lives.assertEqual([it["code"] for it in client.open(SOURCE)], ["LengthUndefined"])
    said = client.logged()
    lives.assertTrue(said.startswith("fmtcanon-lsp: arguments aren't compared with formats: libclang is missing"))
    client.change({"text": SOURCE + "\n"}, version=2)
    lives.assertEqual(len(client.diagnostics(2)), 1)
    time.sleep(0.5)
    lives.assertIn("argument 1, int", client.hover("%d"))
    lives.assertEqual(client.held, [])
    lives.assertEqual(client.stop(), 0)


def test_ended(lives):
    """After a crash of libclang, the next text gets another process, and no file is left."""
    client = lives.client(ENDS)
    client.open(SOURCE)
    for version in (2, 3):
        said = client.logged()
        lives.assertEqual(
            said, f"fmtcanon-lsp: {lives.folder.resolve()}/a.c: not judged: the process that compiles it ended"
        )
        lives.assertIn("argument 1, int", client.hover("%d"))
        client.change({"text": SOURCE + version * "\n"}, version=version)
        lives.assertEqual(len(client.diagnostics(version)), 1)
    client.logged()
    lives.assertEqual(client.stop(), 0)
    lives.assertEqual(list((lives.folder / "temporary").iterdir()), [])


def test_hanging(lives):
    """A process that takes too long is ended; meanwhile, answers don't wait for it."""
    client = lives.client(HANGS, seconds=5)
    client.open(SOURCE)
    lives.assertIn("argument 1, int", client.hover("%d"))
    lives.assertNotIn("takes too long", str(client.held))
    lives.assertIn("not judged: it takes too long", client.logged())
    client.change({"text": SOURCE + "\n"}, version=2)
    client.diagnostics(2)
    time.sleep(0.5)
    # It ends with the server, also while it hangs.
    lives.assertEqual(client.stop(), 0)
    lives.assertEqual(list((lives.folder / "temporary").iterdir()), [])


def test_killed(lives):
    """If a signal ends the server, the process that compiles ends, too, and what it kept is removed."""
    for number in (signal.SIGKILL, signal.SIGTERM, signal.SIGHUP):
        client = lives.client(HANGS)
        client.open(SOURCE)
        temporary = lives.folder / "temporary"
        lives.wait(lambda folder=temporary: list(folder.glob("*/headers/*")))
        client.process.send_signal(number)
        lives.assertTrue(lives.wait(lambda folder=temporary: not list(folder.iterdir())), number)


def test_never(lives):
    """With the option `compile` nothing is compiled; a file that isn't there, or is a header, isn't either."""
    client = lives.client(ENDS, compile=False)
    client.open(SOURCE)
    client.uri = f"file://{lives.folder}/b.c"
    client.open(SOURCE)
    time.sleep(0.5)
    client.hover("%d")
    lives.assertEqual(client.held, [])
    # Another setting later.
    given = {"fmtcanon": {"compile": True, "colour": 2}, "other": 1}
    client.notify("workspace/didChangeConfiguration", settings=given)
    lives.assertIn("the option colour with the value 2 isn't known", client.logged())
    lives.assertIn("the process that compiles it ended", client.logged())
    for settings in (None, {}, {"fmtcanon": None}, [1]):
        client.notify("workspace/didChangeConfiguration", settings=settings)
    lives.assertEqual(client.stop(), 0)


def test_saved(lives):
    """A source that is saved is compiled again, and so are all others if it is a header."""
    client = lives.client(ENDS)
    client.open(SOURCE)
    client.logged()
    for name in ("a.c", "a.h"):
        client.notify("textDocument/didSave", textDocument={"uri": f"file://{lives.folder}/{name}"})
        lives.assertIn("a.c: not judged: the process that compiles it ended", client.logged())


def finding(start, end, **fix):
    proposed = {"text": None, "cast": None, "include": None, "verified": True, **fix}
    details = {"argument": 1, "format": "%d", "fix": proposed}
    return FindingAt(start, end, Finding("a.c", 1, 1, "size", ERROR, "wrong", details=details))


# Findings move with the text.
def test_changes(case):
    """What changed between two texts, replaced in the first one, gives the second."""
    chosen = random.Random(1)
    for _ in range(3000):
        old = bytes(chosen.choices(b"ab\n", k=chosen.randrange(12)))
        start = chosen.randrange(len(old) + 1)
        end = chosen.randrange(start, len(old) + 1)
        text = old[:start] + bytes(chosen.choices(b"ab", k=chosen.randrange(4))) + old[end:]
        change = change_between(old, text)
        case.assertLessEqual(change.end - change.start, end - start)
        new = text[change.start : change.end + change.growth]
        case.assertEqual(old[: change.start] + new + old[change.end :], text)


def test_moved(case):
    """A finding is at the same text after a change elsewhere, and gone if the change is in it."""
    text = b'one("%d", n); two'
    at = text.index(b"%d")
    rows = [
        (b'one("%d", n); two', b'XX one("%d", n); two', 3),
        (b'one("%d", n); two', b'one("%d", n); ', 0),
        (b'one("%d", n); two', b'n("%d", n); two', -2),
        (b'one("%d", n); two', b'one("x%d", n); two', 1),
        (b'one("%d", n); two', b'one("%dx", n); two', 0),
        (b'one("%d", n); two', b'one("%ld", n); two', None),
        (b'one("%d", n); two', b'one("", n); two', None),
        (b'one("%d", n); two', b"other", None),
    ]
    for old, new, wanted in rows:
        part = CompiledPart(old)
        part.take(CompiledAnswer("u", (finding(at, at + 2),), ""))
        part.changed(new)
        found = [it.start - at for it in part.found]
        case.assertEqual(found, [] if wanted is None else [wanted], new)
        # The same if the answer comes after the change.
        part = CompiledPart(old)
        part.asked()
        part.changed(new)
        part.take(CompiledAnswer("u", (finding(at, at + 2),), ""))
        case.assertEqual([it.start - at for it in part.found], found, new)


def test_left(case):
    """While a text can't be parsed, what was found before stays; what never can be is judged as far as it can."""
    part = CompiledPart(b"%d %d")
    one, two = finding(0, 2), finding(3, 5)
    case.assertEqual(part.take(CompiledAnswer("u", (one, two), "")), "")
    part.take(CompiledAnswer("u", (), "a.c:7: expected ';'"))
    case.assertEqual(part.found, [one, two])
    part.take(CompiledAnswer("u", (two,), ""))
    case.assertEqual(part.found, [two])
    part = CompiledPart(b"%d %d")
    case.assertEqual(part.take(CompiledAnswer("u", (one, two), "a.c:7: unknown type")), "a.c:7: unknown type")
    case.assertEqual(part.take(CompiledAnswer("u", (two,), "a.c:8: unknown type")), "")
    case.assertEqual(part.found, [two])
    part.saved()
    case.assertEqual(part.take(CompiledAnswer("u", (two,), "a.c:8: unknown type")), "a.c:8: unknown type")


def test_text_moves_too(case):
    """Until a text is read again, what it said is where it is now."""
    document = Document("file:///a.c", "c", SOURCE, 1, UTF_16)
    view = SourceView(document, Options())
    while not view.advance(time.monotonic() + 60):
        pass
    [one] = view.shown()
    at = SOURCE.index("%hs")
    case.assertEqual((one.start, one.end), (at, at + 3))
    for text, wanted in [("xx" + SOURCE, at + 2), (SOURCE, at), (SOURCE.replace("%hs", "%hhs"), None), (SOURCE, None)]:
        document.change({"text": text})
        view.changed()
        case.assertEqual([it.start for it in view.shown()], [] if wanted is None else [wanted], text)
    while not view.advance(time.monotonic() + 60):
        pass
    case.assertEqual([it.start for it in view.shown()], [at])
    view.has(Options(beside_clangd=True))
    case.assertEqual(view.shown(), [])


def test_reopened(case):
    """What is found in a text of a document that was closed isn't said of it once it is open again."""
    document = Document("file:///a.c", "c", SOURCE, 1, UTF_16)
    views = {document.uri: SourceView(document, Options())}
    published = []
    compiling = Compiling(views, case.fail, published.append)
    answer = CompiledAnswer(document.uri, (finding(0, 2),), "")
    compiling.view = views[document.uri]
    compiling.take(answer)
    case.assertEqual(len(published), 1)
    views[document.uri] = SourceView(document, Options())
    compiling.take(answer)
    del views[document.uri]
    compiling.take(answer)
    case.assertEqual(len(published), 1)


def test_casts(case):
    rows = [
        ("n", "(T)n"),
        ("*p", "(T)*p"),
        ("a->b[3].c", "(T)a->b[3].c"),
        ("f(x, y)", "(T)f(x, y)"),
        ("(a)", "(T)(a)"),
        ("a + b", "(T)(a + b)"),
        ("(a) + (b)", "(T)((a) + (b))"),
        ("a ? b : c", "(T)(a ? b : c)"),
        ("sizeof x", "(T)(sizeof x)"),
        ("a /* , */", "(T)(a /* , */)"),
        ("42", "(T)42"),
    ]
    for before, after in rows:
        edit = cast_edit(b"f(" + before.encode(), 2, 2 + len(before), "T")
        case.assertEqual(edit.new.decode(), after)


def test_headers(case):
    """A header is included after those of the system, where they always are, and only once."""
    rows = [
        (b"#include <stdio.h>\n", b""),
        (b'#include "own.h"\n#include <a.h>\n', b'#include "b.h"\n'),
        (b'#define X\n#include "own.h"\n', b""),
        (b"", b""),
        (b"#include <a.h>\n", b"#if X\n#include <b.h>\n#endif\n"),
        (b"#include <a.h>\n", b"/*\n#include <b.h>\n*/\n"),
        (b"#include <a.h>\r\n", b'char *s = "\\\n#include <b.h>";\n'),
        (b"#include <a.h> /* why */\n", b""),
    ]
    for front, back in rows:
        data = front + back + b"int x;\n"
        edit = include_edit(data, "inttypes.h", data.index(b"int x"))
        end = b"\r\n" if b"\r" in front else b"\n"
        case.assertEqual((edit.start, edit.end, edit.new), (len(front), len(front), b"#include <inttypes.h>" + end))
    case.assertIsNone(include_edit(b"#include <inttypes.h>\nint x;\n", "inttypes.h", 22))
    # Only what is before counts.
    case.assertIsNotNone(include_edit(b"x\n#include <inttypes.h>\n", "inttypes.h", 1))


def test_fixes(case):
    """The directive, the argument and the header change together, or nothing does."""
    data = b'void f(long n) { printf("%s %ld\\n", "", n + 1); }\n'
    written = WrittenSource(data, Model.LP64)
    start = data.index(b"%ld")
    one = finding(start, start + 3, text="%jd", cast="intmax_t", include="stdint.h")
    one.finding.details["argument"] = 2
    [fix] = fixes_of(one, written, data)
    text = data
    for edit in sorted([(fix.start, fix.end, fix.new), *fix.more], reverse=True):
        text = text[: edit[0]] + edit[2] + text[edit[1] :]
    wanted = b'#include <stdint.h>\nvoid f(long n) { printf("%s %jd\\n", "", (intmax_t)(n + 1)); }\n'
    case.assertEqual((fix.title, text), ("Write %jd and cast to intmax_t", wanted))
    # The text shows another argument.
    one.finding.details["argument"] = 1
    case.assertEqual(list(fixes_of(one, written, data)), [])
    case.assertEqual(diagnosis_of(one).words, "wrong")


def test_databases(case):
    """The next compile_commands.json above a file is its own, or one in a folder build."""
    with tempfile.TemporaryDirectory() as name:
        folder = Path(name).resolve()
        (folder / "a/b").mkdir(parents=True)
        (folder / "build").mkdir()
        file = str(folder / "a/b/x.c")
        case.assertIsNone(folder_above(file))
        for place in ("build", "", "a"):
            (folder / place / "compile_commands.json").write_text("[]", encoding="utf-8")
            case.assertEqual(Path(folder_above(file)), folder / place)


def test_programs(case):
    """What a folder names is run only if it is a compiler of PATH."""
    rows = [
        ("cc", True),
        ("gcc", True),
        ("sh", False),
        ("./cc", False),
        ("/nowhere/cc", False),
        ("x86_64-none-gcc-99", False),
        ("gcc; rm", False),
    ]
    with tempfile.TemporaryDirectory() as folder:
        for name in ("x86_64-linux-gnu-g++-12", "cc", "gcc"):
            Path(folder, name).write_text("", encoding="utf-8")
            Path(folder, name).chmod(0o755)
        before = os.environ["PATH"]
        os.environ["PATH"] = f".{os.pathsep}{folder}"
        try:
            more = [(f"{folder}/x86_64-linux-gnu-g++-12", True), (f"{folder}/other", False)]
            for program, is_run in [*rows, *more]:
                with case.subTest(program=program):
                    command = CompileCommand("/", "/a.c", (program, "-c", "/a.c"))
                    if is_run:
                        check_program(command)
                    else:
                        case.assertRaises(Left, check_program, command)
        finally:
            os.environ["PATH"] = before


Tests = tests_of(globals())
