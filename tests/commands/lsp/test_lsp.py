"""Tests of fmtcanon-lsp: a scripted client over pipes, with what the server says by hand."""

import json
import random
import subprocess
import sys
import tempfile
import time
import unittest
from pathlib import Path

from fmtcanon.lsp.documents import UTF_8, UTF_16
from fmtcanon.lsp.framing import framed

from tests.commands.lsp.lsp_client import PATIENCE, URI, Client
from tests.frame.cases import tests_of
from tests.frame.fixtures import prepared

CASES = """\
#include <stdio.h>
void note(int level, const char *format, ...) __attribute__((format(printf, 2, 3)));
void f(int n, size_t size, const char *name, double x)
{
    printf("%-05d of %5zu: %s\\n", n, size, name);
    printf("é\\t%#d", n);
    note(1, "%*.*f|%" PRIu64 "|%I64d", n, 2, x, size, size);
    puts("%d is no format");
    other("%hs");
    snprintf(buffer, 5, _("%lf" " and %lf"), x, x);
}
"""


def editor(case, *words, **more):
    client = Client(*words, **more)
    case.addCleanup(client.end)
    case.addCleanup(client.process.kill)
    return client


def test_conversations_hover(case):
    client = editor(case)
    client.open(CASES)
    rows = [
        (
            "%-05d",
            "`%-05d` ← `n`: argument 1, int: decimal, left-justified in at least 5 bytes",
            "`-` overrides `0`",
        ),
        ("%5zu", "`%5zu` ← `size`: argument 2, size_t: unsigned long (unsigned int in ILP32", "right-justified"),
        ("%s", "`%s` ← `name`: argument 3, string: the string", "the string"),
        ("%I64d", "`%I`: `I64` is Microsoft's name of `ll`", "Write %lld."),
    ]
    for words, begin, more in rows:
        with case.subTest(words=words):
            found = client.hover(words)
            case.assertTrue(found.startswith(begin), found)
            case.assertIn(more, found)
    case.assertIsNone(client.hover("printf"))
    case.assertIsNone(client.hover("size_t size"))
    # These aren't formats of printf.
    client.change(
        {"text": 'strftime(b, 9, "%d %H", t); scanf("%d %5s", &n, s); puts("%x"); other("%3d", "%hs");'}, version=2
    )
    client.text = 'strftime(b, 9, "%d %H", t); scanf("%d %5s", &n, s); puts("%x"); other("%3d", "%hs");'
    for words in ("%d %H", "%d %5s", "%x", "%hs"):
        case.assertIsNone(client.hover(words))
    # Of a function that isn't known, it is said what a format would do.
    case.assertTrue(client.hover("%3d").startswith("`%3d`: argument 1, int: decimal, right-justified"))
    client.change({"text": CASES}, version=3)
    client.text = CASES
    # Of the whole format between directives: a line for each, and how many bytes are printed.
    lines = client.hover(" of %5").splitlines()
    case.assertEqual(len([it for it in lines if it.startswith("- ")]), 3)
    case.assertTrue(lines[1].startswith("- `%5zu` ← `size`: argument 2"), lines)
    case.assertIn("`key (LP64): %-5d of %5lu: %s\\n`", lines)


def test_macros(case):
    client = editor(case)
    client.open(CASES.replace("|%I64d", ""))
    found = client.ask("hover", '%" PRIu64', 3)
    wanted = "`%lu` ← `size`: argument 4, unsigned long (unsigned long long in ILP32 and LLP64): decimal"
    case.assertEqual(found["contents"]["value"], wanted)
    case.assertEqual(client.spot(found["range"]), '%" PRIu64')
    found = client.hover("%*.*f")
    case.assertIn("`%*.*f` ← `x`: argument 3, double", found)


def test_diagnostics(case):
    client = editor(case)
    found = client.open(CASES)
    rows = [
        ("%-05d", 4, "no-effect", "%-05d: `-` overrides `0`"),
        ("%#d", 2, "AltUndefined", "`#` has no meaning with `d`. Write %d."),
        ("%I", 2, "Unexpected", "`I64` is Microsoft's name of `ll`"),
        ("%lf", 4, "no-effect", "%lf: `l` "),
        ("%lf", 4, "no-effect", "%lf: `l` "),
    ]
    for (words, level, kind, text), one in zip(rows, found):
        case.assertEqual((client.spot(one["range"]), one["severity"], one["code"]), (words, level, kind))
        case.assertTrue(one["message"].startswith(text), one["message"])
    case.assertEqual(len(found), len(rows))
    case.assertEqual([it["range"]["start"]["line"] for it in found], [4, 5, 6, 9, 9])


def test_conversations_fixes(case):
    client = editor(case)
    client.open(CASES)
    rows = [
        ("%-05d", 'printf("%-5d of %5zu: %s\\n", n, size, name);'),
        ("%#d", 'printf("é\\t%d", n);'),
        ("%I64d", 'note(1, "%*.*f|%" PRIu64 "|%lld", n, 2, x, size, size);'),
        ("%lf", 'snprintf(buffer, 5, _("%f" " and %lf"), x, x);'),
    ]
    for words, line in rows:
        with case.subTest(words=words):
            [action] = client.actions(words)
            case.assertEqual((action["kind"], client.fixed(action)), ("quickfix", line))
    case.assertEqual(client.actions("puts"), [])


def test_signature(case):
    client = editor(case)
    text = CASES.replace("x, x);", "x,")
    client.open(text)
    rows = [
        ("n, size, name", 0, 0, "%-05d"),
        ("size, name", 0, 1, "%5zu"),
        ("name);", 4, 2, "%s"),
        ("x,\n", 2, 1, "%lf"),
    ]
    for words, offset, index, directive in rows:
        with case.subTest(words=words):
            found = client.ask("signatureHelp", words, offset)
            [one] = found["signatures"]
            start, end = one["parameters"][index]["label"]
            case.assertEqual((found["activeParameter"], one["label"][start:end]), (index, directive))
            case.assertTrue(one["documentation"]["value"].startswith(f"`{directive}`"))
    # Nothing is said outside of a call, and of a format that is rejected.
    case.assertIsNone(client.ask("signatureHelp", "puts"))
    case.assertIsNone(client.ask("signatureHelp", "2, x, size"))


def test_signature_of_stars(case):
    client = editor(case)
    client.open('int f(void) { printf("%%%*.*f|%d", a, b, c, d, e); }\n')
    wanted = [("a,", 0, "%*.*f"), ("b,", 0, "%*.*f"), ("c,", 0, "%*.*f"), ("d,", 1, "%d")]
    for words, index, directive in wanted:
        found = client.ask("signatureHelp", words)
        [one] = found["signatures"]
        start, end = one["parameters"][index]["label"]
        case.assertEqual((found["activeParameter"], one["label"][start:end]), (index, directive))
    found = client.ask("signatureHelp", "e)")
    case.assertEqual(found["activeParameter"], 2)
    case.assertEqual(found["signatures"][0]["documentation"]["value"], "No directive takes this argument.")


def test_highlight(case):
    client = editor(case)
    client.open(CASES.replace("|%I64d", ""))
    rows = [
        ("%5zu", ["%5zu", "size"]),
        ("size, name", ["%5zu", "size"]),
        ("%*.*f", ["%*.*f", "n", "2", "x"]),
        ("2, x, size", ["%*.*f", "2"]),
        ("puts", []),
    ]
    for words, wanted in rows:
        with case.subTest(words=words):
            found = client.ask("documentHighlight", words)
            case.assertEqual([client.spot(it["range"]) for it in found], wanted)


def test_branches(case):
    """Where an `#if` is between arguments, it isn't said which one a directive takes."""
    client = editor(case)
    client.open(
        'void f(void)\n{\n    printf("%d %s",\n#ifdef A\n        a,\n#else\n        b,\n#endif\n        c);\n}\n'
    )
    case.assertEqual(client.hover("%d"), "`%d`: argument 1, int: decimal")
    case.assertIsNone(client.ask("signatureHelp", "b,"))
    case.assertEqual([client.spot(it["range"]) for it in client.ask("documentHighlight", "%d")], ["%d"])


def test_changes(case):
    """What is said follows the text, also before it is read again."""
    client = editor(case)
    client.open(CASES)
    place = client.at("%-05d")
    end = {"line": place["line"], "character": place["character"] + 5}
    client.change(
        {"range": {"start": place, "end": end}, "text": "%x"},
        {"text": "%.0", "range": {"start": place, "end": {**place, "character": place["character"] + 1}}},
        version=2,
    )
    client.text = CASES.replace("%-05d", "%.0x")
    case.assertIn("hexadecimal with `a` to `f`, no digit for 0", client.hover("%.0x"))
    case.assertEqual([it["code"] for it in client.diagnostics(2)][:1], ["AltUndefined"])
    client.change({"text": 'int f(void) { printf("%hs", "x"); }'}, version=3)
    case.assertEqual([it["code"] for it in client.diagnostics(3)], ["LengthUndefined"])


def test_macros_of_the_file(case):
    """A macro is known that is defined far from the cursor, also right after a change."""
    text = (
        '#define FORM "%5d: "\n'
        + "int x(void)\n{\n}\n" * 10
        + 'int f(void)\n{\n    printf(FORM "%s", 1, name);\n}\n'
    )
    client = editor(case)
    client.open(text)
    client.change({"range": {"start": client.at("%s"), "end": client.at("%s")}, "text": "%i "}, version=2)
    client.text = text.replace('"%s"', '"%i %s"')
    case.assertIn("`%i` ← `name`: argument 2, int", client.hover("%i"))
    case.assertIn("`%5d` ← `1`: argument 1, int", client.hover('FORM "%i', 1))


def test_headers(case):
    """A function is known whose attribute is in a header that is included in quotes, or that is an option."""
    with tempfile.TemporaryDirectory() as folder:
        header = (
            "__attribute__((__format__(__printf__, 2, 3)))\nvoid trace(int level,\n    const char *format, ...);\n"
        )
        Path(folder, "trace.h").write_text(header, encoding="utf-8")
        text = '#include "trace.h"\nvoid f(void) { trace(1, "%hs", "x"); own("%hs"); }\n'
        for functions, count in [([], 1), (["own:1"], 2)]:
            client = editor(case, uri=f"file://{folder}/a.c", options={"functions": functions})
            case.assertEqual(len(client.open(text)), count)
            case.assertEqual(client.stop(), 0)


def test_options(case):
    """Next to clangd, only what clang doesn't say is said; the first data model is named first."""
    client = editor(case, options={"beside_clangd": True, "model": "ilp32", "colour": 1})
    found = client.open(CASES.replace("%5zu", "%5000d").replace("%s\\n", "%+u % +d %+1x"))
    case.assertEqual([it["code"] for it in found], ["WidthTooLarge", "no-effect", "no-effect"])
    client.change({"text": CASES.replace("%s\\n", "%+u % +d %+1x")}, version=9)
    found = client.diagnostics(9)
    client.text = CASES.replace("%s\\n", "%+u % +d %+1x")
    case.assertEqual([client.spot(it["range"]) for it in found], ["%+1x", "%lf", "%lf"])
    client.text = CASES
    # What may be done is offered all the same.
    case.assertEqual(client.fixed(client.actions("%#d")[0]), 'printf("é\\t%d", n);')
    said = client.next(lambda it: it.get("method") == "window/logMessage")["params"]["message"]
    case.assertEqual(said, "fmtcanon-lsp: the option colour with the value 1 isn't known")
    client.change({"text": 'int f(void) { printf("%zu", n); }'}, version=2)
    client.text = 'int f(void) { printf("%zu", n); }'
    case.assertIn("size_t: unsigned int (unsigned long in LP64", client.hover("%zu"))


def test_positions(case):
    """Columns count bytes if the editor says so first, and otherwise what UTF-16 has."""
    for encodings, wanted in [([UTF_8, UTF_16], UTF_8), ([UTF_16, UTF_8], UTF_16), (None, UTF_16)]:
        client = editor(case, encodings=encodings)
        case.assertEqual(client.capabilities["positionEncoding"], wanted)
        [one] = client.open('/* é😀 */ int f(void) { printf("é😀%hs", s); }\n')
        column = len('/* é😀 */ int f(void) { printf("é😀'.encode("utf-8" if wanted == UTF_8 else "utf-16-le"))
        column = column if wanted == UTF_8 else column // 2
        case.assertEqual(one["range"]["start"], {"line": 0, "character": column})
        case.assertEqual(one["range"]["end"], {"line": 0, "character": column + 3})


def test_cancelled(case):
    """A request that is cancelled before it is answered gets an error, and the others their answers."""
    client = editor(case)
    client.open(CASES)
    params = {"textDocument": {"uri": URI}, "position": client.at("%s")}
    ask = [{"id": it, "method": "textDocument/hover", "params": params} for it in (70, 71, 72)]
    cancel = {"method": "$/cancelRequest", "params": {"id": 71}}
    client.write(b"".join(map(framed, [*ask, cancel])))
    found = [client.next(lambda it, number=number: it.get("id") == number) for number in (70, 71, 72)]
    case.assertEqual(["result" in it for it in found], [True, False, True])
    case.assertEqual(found[1]["error"]["code"], -32800)
    # One that was answered can't be cancelled, and its number may come again.
    client.write(framed({**cancel, "params": {"id": 70}}) + framed(ask[0]))
    case.assertIn("result", client.next(lambda it: it.get("id") == 70))


def test_faults(case):
    """No message ends the server, except one without a length."""
    client = editor(case, start=False)
    case.assertEqual(client.request("textDocument/hover", {})["error"]["code"], -32002)
    client.write(b"Content-Length: 3\r\n\r\n{x}")
    case.assertEqual(client.next(lambda it: "error" in it)["error"]["code"], -32700)
    client.write(b"content-length: 2\r\nContent-Type: x\r\n\r\n[]")
    case.assertEqual(client.next(lambda it: "error" in it)["error"]["code"], -32600)
    client.request("initialize", {})
    rows = [
        ("nothing", {}, -32601),
        ("textDocument/hover", {}, -32602),
        ("textDocument/hover", {"textDocument": {"uri": URI}}, -32602),
    ]
    for method, params, number in rows:
        case.assertEqual(client.request(method, params)["error"]["code"], number)
    for params in (
        {},
        {"textDocument": {"uri": 1}},
        {"textDocument": {"uri": URI}, "contentChanges": [{"text": 5}]},
    ):
        for method in ("didOpen", "didChange", "didClose", "didSave"):
            client.notify(f"textDocument/{method}", **params)
    case.assertEqual(client.open(CASES)[0]["code"], "no-effect")
    case.assertIsNone(client.request("shutdown", None)["result"])
    case.assertEqual(client.request("textDocument/hover", {})["error"]["code"], -32600)
    client.write(b"Content-Length: many\r\n\r\n")
    case.assertEqual(client.process.wait(PATIENCE), 0)


def test_ends(case):
    """The status is 0 only after a request to shut down."""
    client = editor(case)
    client.open(CASES)
    case.assertEqual(client.stop(), 0)
    client = editor(case)
    client.notify("exit")
    case.assertEqual(client.end(), 1)
    client = editor(case)
    client.process.stdin.close()
    case.assertEqual(client.process.wait(PATIENCE), 1)
    client = editor(case, start=False, environment={"FMTCANON_LIBRARY": "/nowhere.so"})
    case.assertEqual(client.process.wait(PATIENCE), 2)
    case.assertIn(b"fmtcanon-lsp: the library of fmtcanon isn't there", client.process.stderr.read())


def test_closed(case):
    client = editor(case)
    client.open(CASES)
    client.notify("textDocument/didClose", textDocument={"uri": URI})
    found = client.next(lambda it: it.get("params", {}).get("diagnostics") == [])
    case.assertEqual(found["params"], {"uri": URI, "diagnostics": []})
    case.assertEqual(client.request("textDocument/hover", {"textDocument": {"uri": URI}})["error"]["code"], -32602)


def test_conversations_large(case):
    """Of a file of 8 MB only the beginning is read, and what is around the cursor, so answers don't wait for it."""
    lines = ['void f%d(void)\n{\n    printf("%%hs %%d", "x", %d);\n}\n' % (it, it) for it in range(20)]
    text = "".join(lines) + "int padding;\n" * 600_000 + 'void last(void)\n{\n    printf("%5hd\\n", n);\n}\n'
    client = editor(case)
    case.assertEqual(len(client.open(text)), 20)
    begin = time.monotonic()
    case.assertIn("`%5hd` ← `n`: argument 1, int", client.hover("%5hd"))
    case.assertLess(time.monotonic() - begin, 5)


CATALOG = """\
msgid ""
msgstr "Content-Type: text/plain; charset=UTF-8\\nPlural-Forms: nplurals=2; plural=n != 1;\\n"

#, c-format
msgid "%d of %zu files were copied"
msgstr "%d von %lu Datöien kopiert"

#, c-format
msgid "can't open %s: %d"
msgstr ""
"nicht öffnen: "
"%2$#d %1$s"

#, c-format
msgid "%d file in %zu folders"
msgid_plural "%d files in %zu folders"
msgstr[0] "%d Datei in %zu Ordnern"
msgstr[1] "%d Dateien in %d Ordnern"

#, c-format
msgid "%m: %<PRIu64>"
msgstr "%<PRIu64> %m"
"""


class Catalogs(unittest.TestCase):
    def setUp(self):
        self.client = Client(uri="file:///nowhere/de.po")
        self.addCleanup(self.client.end)
        self.addCleanup(self.client.process.kill)


def opened():
    yield from prepared(Catalogs)


def test_findings(opened):
    """The same faults as fmtcanon-po finds, at the same places."""
    found = opened.client.open(CATALOG, "po")
    opened.assertEqual([opened.client.spot(it["range"]) for it in found], ["%lu", "%2$#d", "%d"])
    opened.assertEqual([it["code"] for it in found], ["types", "format", "types"])
    with tempfile.TemporaryDirectory() as folder:
        Path(folder, "de.po").write_text(CATALOG, encoding="utf-8")
        command = [sys.executable, "-B", "-m", "fmtcanon.po", "--output", "json", "de.po"]
        done = subprocess.run(command, cwd=folder, capture_output=True, check=False)
    listed = [json.loads(it) for it in done.stdout.decode().splitlines()]
    places = [(it["line"], it["column"], it["kind"]) for it in listed]
    starts = [it["range"]["start"] for it in found]
    opened.assertEqual([(it["line"] + 1, it["character"] + 1) for it in starts], [it[:2] for it in places])
    opened.assertTrue(all(one["message"].startswith(it["message"]) for one, it in zip(found, listed)))
    [related] = found[0]["relatedInformation"]
    opened.assertEqual((opened.client.spot(related["location"]["range"]), related["message"]), ("%zu", "unsigned int"))


def test_catalogs_fixes(opened):
    """The message's directive is written in the translation, or one that is accepted, if that helps."""
    opened.client.open(CATALOG, "po")
    [action] = opened.client.actions("%lu")
    opened.assertEqual(opened.client.fixed(action), 'msgstr "%d von %zu Datöien kopiert"')
    [action] = opened.client.actions("%d Ordnern")
    opened.assertEqual(opened.client.fixed(action), 'msgstr[1] "%d Dateien in %zu Ordnern"')
    [action] = opened.client.actions("%2$#d")
    opened.assertEqual(opened.client.fixed(action), '"%2$d %1$s"')
    # The numbers of the translation's arguments make the message's directive wrong there.
    text = CATALOG.replace("%d von %lu Dat", "%1$d von %2$lu Dat")
    opened.client.change({"text": text}, version=2)
    opened.client.text = text
    opened.client.diagnostics(2)
    opened.assertEqual(opened.client.actions("%2$lu"), [])


def test_catalogs_hover(opened):
    opened.client.open(CATALOG, "po")
    rows = [
        ("%lu Dat", "`%lu`: argument 2, unsigned long: decimal"),
        ("von", "- `%d`: argument 1, int: decimal"),
        ("%2$#d", "`%2$#d`: `#` has no meaning with `d`. Write %2$d."),
        ("%<PRIu64> %m", "`%<PRIu64>`: argument 1, unsigned long (unsigned long long in ILP32 and LLP64): decimal"),
        ("%m: ", "`%m`: no argument: the message of errno"),
        ("can't", "- `%s`: argument 1, string: the string"),
    ]
    for words, begin in rows:
        with opened.subTest(words=words):
            opened.assertTrue(opened.client.hover(words).startswith(begin), opened.client.hover(words))
    for words in ("#, c-format", "msgid_plural", "nplurals"):
        opened.assertIsNone(opened.client.hover(words))


def test_catalogs_large(opened):
    """Of a catalog of 3 MB, the messages at its beginning are checked, and what is at the cursor is known."""
    message = '#, c-format\nmsgid "%d file"\nmsgstr "%d Datei"\n\n'
    text = CATALOG + "\n" + message * 60_000 + message.replace('"%d D', '"%5s D')
    found = opened.client.open(text, "po")
    opened.assertEqual([opened.client.spot(it["range"]) for it in found], ["%lu", "%2$#d", "%d"])
    opened.assertTrue(opened.client.hover("%5s D").startswith("`%5s`: argument 1, string"))


def test_charsets(opened):
    """The editor has the text in UTF-8, whatever the header says of the file."""
    text = CATALOG.replace("UTF-8", "ISO-8859-1")
    found = opened.client.open(text, "po")
    opened.assertEqual([opened.client.spot(it["range"]) for it in found], ["%lu", "%2$#d", "%d"])
    opened.client.change({"text": text.replace("ISO-8859-1", "none")}, version=2)
    opened.assertEqual([it["code"] for it in opened.client.diagnostics(2)], ["unreadable"])


PIECES = [
    '"',
    "'",
    "\\",
    "\n",
    "%",
    "%5",
    "%*d",
    "%2$s",
    "/*",
    "*/",
    "//",
    "(",
    ")",
    "printf(",
    '"%d',
    'R"x(',
    ')x"',
    ",",
    ";",
]


PIECES += [
    "}",
    "\n}\n",
    "PRIu64",
    "#define A ",
    "\\\n",
    "\r\n",
    "\r",
    "é",
    "😀",
    "\0",
    "\ud83d",
    "L",
    "u8",
    "_(",
    "%hs",
    '%#d" ',
    "\ufeff",
]


PO = [
    'msgid "',
    'msgstr "',
    "msgstr[0]",
    '"\n',
    "#, c-format\n",
    "\n\n",
    "\\x",
    "\\777",
    "%<PRIu64>",
    "msgctxt",
    "charset=KOI8-R\\n",
]


# Texts that no one writes: the server says something of each, or nothing, and goes on.
def test_texts(case):
    chosen = random.Random(3)
    client = Client()
    case.addCleanup(client.end)
    case.addCleanup(client.process.kill)
    for language, pieces in [("c", PIECES), ("po", PIECES + 3 * PO)]:
        client.uri = f"file:///nowhere/{language}"
        client.open("", language)
        for version in range(2, 152):
            text = "".join(chosen.choices(pieces, k=chosen.randrange(1, 60)))
            client.change({"text": text}, version=version)
            for method in ("hover", "signatureHelp", "documentHighlight"):
                for _ in range(3):
                    place = {"line": chosen.randrange(5), "character": chosen.randrange(30)}
                    params = {"textDocument": {"uri": client.uri}, "position": place}
                    found = client.request(f"textDocument/{method}", params)
                    case.assertIn("result", found, (text, place, found))
            everywhere = {"start": {"line": 0, "character": 0}, "end": {"line": 999, "character": 0}}
            params = {"textDocument": {"uri": client.uri}, "range": everywhere}
            case.assertIn("result", client.request("textDocument/codeAction", params), text)
    logged = [it for it in client.held if it.get("method") == "window/logMessage"]
    case.assertEqual(logged, [])
    case.assertEqual(client.stop(), 0)


Tests = tests_of(globals())
