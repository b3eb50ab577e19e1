#!/usr/bin/env python3
"""Makes an npm package of the library as a module of WebAssembly, whose bytes depend only on those of its files.

Usage: make_npm.py PACKAGE MODULE
"""

import gzip
import io
import json
import sys
import tarfile
from pathlib import Path

from make_dist import TIME, member

TOP = Path(__file__).resolve().parent.parent
WEB, TABLE = TOP / "web", TOP / "python/fmtcanon/formats/words.json"
VERSION = (TOP / "VERSION").read_text(encoding="utf-8").strip()
COPIED = [WEB / "library.js", WEB / "words.js", WEB / "explain.js", *sorted((WEB / "npm").iterdir()), TOP / "LICENSE"]
DESCRIPTION = {
    "name": "fmtcanon",
    "version": VERSION,
    "description": "Canonical texts of printf formats, whether two are interchangeable, and what they do",
    "license": "MIT",
    "type": "module",
    "exports": {".": {"types": "./index.d.ts", "default": "./index.js"}, "./fmtcanon.wasm": "./fmtcanon.wasm"},
    "types": "./index.d.ts",
    "engines": {"node": ">=20"},
    "sideEffects": False,
}


def files(module):
    """The files of the package, by their names."""
    table = json.dumps(json.loads(TABLE.read_text(encoding="utf-8")), ensure_ascii=False, sort_keys=True)
    found = {path.name: path.read_bytes() for path in COPIED}
    found["package.json"] = (json.dumps(DESCRIPTION, indent=2) + "\n").encode()
    found["table.js"] = f"// The words of fmtcanon-explain.\nexport const TABLE = {table};\n".encode()
    return {**found, "fmtcanon.wasm": Path(module).read_bytes()}


def main(package, module):
    with open(package, "wb") as raw, gzip.GzipFile("", "wb", 9, raw, TIME) as stream:
        with tarfile.open(fileobj=stream, mode="w", format=tarfile.GNU_FORMAT) as packed:
            for name, data in sorted(files(module).items()):
                packed.addfile(member("package", name, data, ""), io.BytesIO(data))
    print(package)


if __name__ == "__main__":
    if len(sys.argv) != 3:
        sys.exit(__doc__)
    main(*sys.argv[1:])
