"""Tries the sources of the page, without a browser: its calls, its words, and how it is made."""

import base64
import ctypes
import hashlib
import importlib
import importlib.util
import json
import re
import shutil

from tests.frame.cases import tests_of
from tests.frame.harness import TOP, VERSION
from tests.library.test_library import header_calls
from tests.packages.test_installing import make

WEB, TRY = TOP / "web", TOP / "docs/try"
# What a parameter of the header is in library.js. A pointer to many has a length after it.
LISTED = {"char *": "out", "unsigned char *": "out", "const char *": "text", "const fmtcanon_argument *": "arguments"}
LISTED = {**LISTED, "fmtcanon_directive *": "directives", "fmtcanon_specification *": "specifications"}
SINGLE = {"fmtcanon_error *": "error", "struct fmtcanon_bounds *": "bounds", "fmtcanon_comparison *": "comparison"}
SINGLE = {**SINGLE, "int": "model", "uint32_t": "number", "uint64_t": "long"}
# The structures of library.js in the Python module.
STRUCTURES = {"error": "CError", "bounds": "CBounds", "comparison": "CComparison"}
STRUCTURES = {**STRUCTURES, "directives": "CDirective", "specifications": "CSpecification", "arguments": "CArgument"}
# A module that has only the front of one.
EMPTY = b"\0asm\1\0\0\0"
# What makes a browser ask for something, or run what isn't in the page.
REQUESTS = (
    r"https?:|\bsrc\b|\burl\(|@import|\bimport\b|\bfetch\(|XMLHttpRequest|WebSocket|sendBeacon|<link|<iframe"
)
# Words of the table that are short enough for others to use them.
SHORT = 12


def build():
    """The script that makes the page, as a module."""
    spec = importlib.util.spec_from_file_location("build", WEB / "build.py")
    found = importlib.util.module_from_spec(spec)
    spec.loader.exec_module(found)
    return found


def source(name):
    return (WEB / name).read_text(encoding="utf-8")


def words_of(kinds):
    """The parameters of a call of the header, in the words of library.js."""
    found = []
    for kind, after in zip(kinds, [*kinds[1:], ""]):
        if kind != "size_t":
            found.append((LISTED if after == "size_t" else SINGLE)[kind])
    return " ".join(found)


def test_calls(trials):
    """library.js makes the calls of the header, and its structures have the sizes of those in C."""
    known = dict(re.findall(r'^  (\w+): "([\w ]*)",$', source("library.js"), flags=re.MULTILINE))
    wanted = {name[len("fmtcanon_") :]: words_of(kinds) for name, (_, kinds) in header_calls()}
    trials.expect("the calls of library.js", known, wanted)
    made = set(re.findall(r'(?:call|made|filled)\("(\w+)"|[?:] "(\w+)"', source("library.js")))
    trials.expect(
        "calls that library.js doesn't make", sorted(set(wanted) - {name for pair in made for name in pair}), []
    )
    lists = re.findall(r"(?:RECORDS|SIZES) = \{(.*?)\}", source("library.js"))
    sizes = dict(re.findall(r"(\w+): (\d+)", " ".join(lists)))
    prototypes = importlib.import_module("fmtcanon.prototypes")
    wanted = {name: ctypes.sizeof(getattr(prototypes, structure)) for name, structure in STRUCTURES.items()}
    trials.expect("the sizes of library.js", {name: int(size) for name, size in sizes.items()}, {**wanted, "out": 1})


def phrases(table):
    """The words of the table: texts with a space between letters, in the parts between names in braces."""
    if isinstance(table, str):
        return [it.strip() for it in re.split(r"\{\w+\}", table) if len(it) > SHORT and re.search(r"\w \w", it)]
    inside = table.values() if isinstance(table, dict) else table if isinstance(table, list) else []
    return [it for one in inside for it in phrases(one)]


def test_words(trials):
    """No source of the page has words of the table: both `fmtcanon-explain` and the page read them there."""
    known = sorted(set(phrases(json.loads(build().TABLE.read_text(encoding="utf-8")))))
    trials.expect("the table has phrases", len(known) > 100, True)
    for path in sorted([*WEB.glob("*.js"), *WEB.glob("*.html")]):
        text = " ".join(path.read_text(encoding="utf-8").split())
        trials.expect(f"phrases of the table in {path.name}", [it for it in known if it in text], [])


def test_braces(trials):
    """Each name in braces of the table is one that the scripts fill in."""
    text = build().TABLE.read_text(encoding="utf-8")
    members = re.findall(r"[{,] (\w+)(?=[:,]| \})", source("words.js") + source("explain.js"))
    known = set(json.loads(text)["values"]) | set(members)
    trials.expect("names in braces", sorted(set(re.findall(r"\{(\w+)\}", text)) - known), [])


def allowed(page, kind):
    """The hashes of the scripts or of the styles that the page allows."""
    policy = re.search(r'http-equiv="Content-Security-Policy" content="([^"]*)"', page).group(1)
    return re.findall(r"'sha256-([^']*)'", re.search(rf"{kind}-src ([^;]*)", policy).group(1))


def test_build(trials):
    """The page is one file, has the same bytes each time, asks for nothing, and runs no other script than its own."""
    made = build()
    page = made.page_of(EMPTY)
    trials.expect("the page once more", made.page_of(EMPTY), page)
    trials.expect(
        "what asks for something",
        re.findall(REQUESTS, page.replace("default-src 'none'; script-src", "").replace("style-src", "")),
        [],
    )
    links = re.findall(r'<a href="([^"]*)">', page)
    trials.expect("links that don't lead from docs/try to a page", [it for it in links if not (TRY / it).is_file()], [])
    trials.expect("links, and what has an address", (len(links) > 3, page.count("href=")), (True, len(links)))
    for kind, tag in [("script", '<script type="module">'), ("style", "<style>")]:
        inside = re.search(rf"{tag}(.*?)</{kind}>", page, flags=re.DOTALL).group(1)
        wanted = base64.b64encode(hashlib.sha256(inside.encode()).digest()).decode()
        trials.expect(f"the {kind} that the page allows", allowed(page, kind), [wanted])
    trials.expect("marks that are left", re.findall(r"/\* [A-Z ]+ \*/", page), [])
    names = re.findall(r"^(?:const|let|class|function|async function|function\*) (\w+)", page, flags=re.MULTILINE)
    trials.expect("names that two scripts have", sorted({it for it in names if names.count(it) > 1}), [])
    missing = set(re.findall(r'byId\("(\w+)"\)', page)) - set(re.findall(r'id="(\w+)"', page))
    trials.expect("elements that aren't there", sorted(missing), [])


def test_tools(work, trials):
    """A tool that is missing is named, and so is a module."""
    (work / "make").symlink_to(shutil.which("make"))
    for target, wanted in [
        ("web-tools", "wasm-opt is missing: the package binaryen has it"),
        ("npm", f"{work}/fmtcanon.wasm is missing: make page builds it"),
    ]:
        status, output = make([target, f"WEB={work}"], path=str(work) if target == "web-tools" else None)
        trials.expect(f"make {target}", (status != 0, output.splitlines()[0]), (True, wanted))


def test_published(trials):
    """The page in the documents is the one that the sources make of its module, and its checksum is right."""
    made, page = build(), (TRY / "index.html").read_bytes()
    is_current = made.page_of(made.module_of(TRY / "index.html")).encode() == page
    trials.expect("docs/try/index.html is of these sources: make try-again makes it again", is_current, True)
    trials.expect("its version", f"fmtcanon {VERSION}" in page.decode(), True)
    listed = (TRY / "SHA256SUMS").read_text(encoding="utf-8")
    trials.expect("its checksum", listed, f"{hashlib.sha256(page).hexdigest()}  index.html\n")


Tests = tests_of(globals())
