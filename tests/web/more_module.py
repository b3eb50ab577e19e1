"""Tries the library as a module of WebAssembly: against the library for x86-64, its heap, and how it is made.

It needs what `make page` makes, node, jsc, wasm-opt and the Rattle kit.
"""

import base64
import hashlib
import json
import re
import shutil
import struct
import subprocess

from tests.frame.cases import tests_of
from tests.frame.fixtures import built
from tests.frame.harness import TOP, VERSION
from tests.library.test_library import compile_with
from tests.web import samples, test_page

HERE = TOP / "tests/web"
# How many random formats are tried.
RANDOM = 100_000
SECONDS = 1800


def module():
    return built("FMTCANON_MODULE", "out/web/fmtcanon.wasm")


def node(tools):
    tools.need("node", "nodejs")
    return ["node"]


def output(words, **options):
    """The standard output of a program that succeeds."""
    done = subprocess.run([str(it) for it in words], stdout=subprocess.PIPE, timeout=SECONDS, check=False, **options)
    if done.returncode:
        raise AssertionError(f"{words[0]} ends with {done.returncode}")
    return done.stdout.decode()


def packed(formats):
    """The formats, each with its length before it."""
    texts = [it.encode("latin-1") for it in formats]
    return b"".join(struct.pack("<I", len(it)) + it for it in texts)


def test_answers(node, module, folder, work, trials):
    """The module answers each call as the library for x86-64 does, for formats and pairs of them."""
    formats = samples.formats(RANDOM)
    (work / "formats").write_bytes(packed(formats))
    words = compile_with(["cc"], HERE / "answers.c", work / "answers", folder / "libfmtcanon.a")
    trials.expect("answers.c", words, (0, ""))
    native = output([work / "answers", work / "formats"]).splitlines()
    found = output([*node, HERE / "answers.mjs", module, work / "formats"]).splitlines()
    trials.expect("how many lines", len(found), len(native))
    unlike = [formats[at : at + 2] for at, (one, two) in enumerate(zip(native, found)) if one != two]
    trials.expect(f"formats that are answered differently, of {len(formats)}", unlike[:5], [])
    print(f"the module and the library: {native[-1]}", flush=True)


def test_heap(node, work, trials):
    """The heap keeps blocks apart, and refuses what it hasn't."""
    kept = built("FMTCANON_BITCODE", "out/web/fmtcanon.bc")
    output([TOP / "web/link.sh", kept, work / "heap.wasm", "rattle_alloc", "rattle_realloc", "rattle_dealloc"])
    found = json.loads(output([*node, HERE / "heap.mjs", work / "heap.wasm"]))
    trials.expect("calls were refused, and blocks moved", found["refused"] > 100 and found["moved"] > 100, True)
    print(f"the heap: {found}", flush=True)


def test_memory(node, module, trials):
    """A call that has too little memory fails, and writes nothing."""
    found = json.loads(output([*node, HERE / "memory.mjs", module]))
    trials.expect("calls were refused", found["refused"] > 100, True)
    print(f"with each amount of memory: {found}", flush=True)


def test_made(module, work, tools, trials):
    """The module and the page have the same bytes when they are made again in another folder, and the page in the
    documents is this one.
    """
    tools.need("wasm-opt", "binaryen")
    kept = built("FMTCANON_BITCODE", "out/web/fmtcanon.bc")
    shutil.copytree(TOP / "web", work / "elsewhere/web")
    output([work / "elsewhere/web/link.sh", kept, work / "fmtcanon.wasm"])
    trials.expect("the module once more", (work / "fmtcanon.wasm").read_bytes() == module.read_bytes(), True)
    page = test_page.build().page_of(module.read_bytes())
    trials.expect("the page in the documents", page == (test_page.TRY / "index.html").read_text(encoding="utf-8"), True)
    print(f"sha256 of the module: {hashlib.sha256(module.read_bytes()).hexdigest()}", flush=True)


ENGINES = """
const bytes = Uint8Array.from(decode(MODULE), (it) => it.charCodeAt(0));
const library = new Library(new WebAssembly.Instance(new WebAssembly.Module(bytes), {}).exports);
const explainer = new Explainer(library, TABLE);
const texts = FORMATS, number = (_, it) => (typeof it === "bigint" ? String(it) : it);
let sum = 2166136261, count = 0;
for (let at = 0; at + 1 < texts.length; at++) {
  for (const formats of [texts.slice(at, at + 1), texts.slice(at, at + 2)]) {
    const told = JSON.stringify(explainer.found(formats, at % 3), number);
    for (let byte = 0; byte < told.length; byte++) sum = Math.imul(sum ^ told.charCodeAt(byte), 16777619);
    count++;
  }
}
print(`${library.version()} ${count} ${sum >>> 0}`);
"""
# What an engine without a browser lacks.
DECODE = """
function decode(text) {
  const letters = "ABCDEFGHIJKLMNOPQRSTUVWXYZabcdefghijklmnopqrstuvwxyz0123456789+/";
  let out = "", bits = 0, held = 0;
  for (const letter of text.replace(/=/g, "")) {
    [held, bits] = [((held << 6) | letters.indexOf(letter)) & 0xffff, bits + 6];
    if (bits >= 8) [out, bits] = [out + String.fromCharCode((held >> (bits - 8)) & 255), bits - 8];
  }
  return out;
}
"""


def test_engines(node, module, work, tools, trials):
    """Two engines of JavaScript, of Chromium and of Safari, answer alike, and the module has this version."""
    tools.need("jsc", "libjavascriptcoregtk-4.0-bin")
    made = test_page.build()
    scripts = "\n".join(made.script_of(it) for it in ["library.js", "rejected.js", "words.js", "explain.js"])
    given = {
        "MODULE": base64.b64encode(module.read_bytes()).decode(),
        "TABLE": json.loads(made.TABLE.read_text(encoding="utf-8")),
    }
    given["FORMATS"] = [it for it in samples.formats(2000) if len(it) < 200]
    constants = "".join(f"const {name} = {json.dumps(value)};\n" for name, value in given.items())
    (work / "engines.js").write_text(f"{constants}{DECODE}{scripts}{ENGINES}", encoding="utf-8")
    (work / "node.js").write_text("globalThis.print = console.log; require('./engines.js');", encoding="utf-8")
    (work / "engines.js").write_text(f"{constants}{DECODE}{scripts}{ENGINES}", encoding="utf-8")
    found = [output(words, cwd=work) for words in ([*node, "node.js"], ["jsc", "engines.js"])]
    trials.expect("two engines", found[0], found[1])
    version, count, _ = found[0].split()
    trials.expect("the version of the module", version, VERSION)
    print(f"two engines: {count} answers", flush=True)


def test_exports(module, node, trials):
    """The module has the calls of the header, and imports nothing."""
    script = "const m = new WebAssembly.Module(fs.readFileSync(process.argv[1])); console.log(JSON.stringify("
    script += "[WebAssembly.Module.imports(m), WebAssembly.Module.exports(m).map((it) => it.name)]))"
    imports, exports = json.loads(output([*node, "-e", script, module]))
    wanted = {name for name, _ in test_page.header_calls()} | {"memory", "fmtcanon_room"}
    trials.expect("what the module has and imports", (sorted(exports), imports), (sorted(wanted), []))
    known = re.findall(r"^  (\w+): \"", test_page.source("library.js"), flags=re.MULTILINE)
    trials.expect("the calls of library.js", len(known), len(wanted) - 2)


Tests = tests_of(globals())
