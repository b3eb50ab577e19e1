#!/usr/bin/env python3
"""Makes the page: one file of HTML with the scripts, the table of words and the module in it.

Usage: build.py MODULE PAGE

MODULE is the WebAssembly module, or a page that has one: then the page is made again with that.
"""

import base64
import hashlib
import json
import re
import sys
from pathlib import Path

HERE = Path(__file__).resolve().parent
VERSION = (HERE.parent / "VERSION").read_text(encoding="utf-8").strip()
TABLE = HERE.parent / "python/fmtcanon/formats/words.json"
SCRIPTS = [
    "library.js", "rejected.js", "words.js", "explain.js", "typed.js", "elements.js", "fixes.js", "answer.js",
    "values.js", "page.js",
]
MODULE = re.compile(r'^const MODULE = "([^"]*)";$', re.MULTILINE)


def script_of(name):
    """Returns a script without its imports and exports: in the page, all are one."""
    text = (HERE / name).read_text(encoding="utf-8")
    return re.sub(r"^import .*\n", "", re.sub(r"^export ", "", text, flags=re.MULTILINE), flags=re.MULTILINE)


def hash_of(text):
    """Returns the hash by which a page allows a script or a style."""
    return "'sha256-" + base64.b64encode(hashlib.sha256(text.encode()).digest()).decode() + "'"


def page_of(module):
    """Returns the page with a module."""
    table = json.dumps(json.loads(TABLE.read_text(encoding="utf-8")), ensure_ascii=False, sort_keys=True)
    parts = [f"const TABLE = {table};", f'const MODULE = "{base64.b64encode(module).decode()}";']
    script = "\n" + "\n".join([*parts, *map(script_of, SCRIPTS)]).replace("</", "<\\/")
    page = (HERE / "page.html").read_text(encoding="utf-8")
    style = re.search(r"<style>(.*?)</style>", page, re.DOTALL).group(1)
    filled = {"/* STYLE HASH */": hash_of(style), "/* SCRIPT HASH */": hash_of(script), "\n/* SCRIPT */\n": script}
    filled["/* VERSION */"] = VERSION
    for mark, text in filled.items():
        page = page.replace(mark, text)
    return page


def module_of(path):
    """Returns the module of a file, or of a page that has one."""
    if path.suffix != ".html":
        return path.read_bytes()
    return base64.b64decode(MODULE.search(path.read_text(encoding="utf-8")).group(1))


def main(module, page):
    text = page_of(module_of(Path(module)))
    Path(page).write_text(text, encoding="utf-8")


if __name__ == "__main__":
    if len(sys.argv) != 3:
        sys.exit(__doc__)
    main(*sys.argv[1:])
