#!/usr/bin/env python3
"""Makes a wheel of the Python module with the C library inside, and the program if there is one. It installs without a
compiler or a network.

Usage: make_wheel.py FOLDER PLATFORM LIBRARY [PROGRAM]

LIBRARY is the shared library. The metadata comes from python/pyproject.toml and the file VERSION. PLATFORM is a
processor, for Linux: then the name says which version of the GNU C library the wheel needs, the latest that the library
or the program needs. Otherwise it is the platform tag of another system, as win_amd64 or macosx_11_0_arm64.
"""

import base64
import hashlib
import re
import sys
import zipfile
from pathlib import Path

from needed_glibc import needed_glibc

TOP = Path(__file__).resolve().parent.parent
VERSION = (TOP / "VERSION").read_text(encoding="utf-8").strip()
SONAME = f"libfmtcanon.so.{VERSION.split('.')[0]}"
# The library's file on other systems, by the first part of their tags: the module looks for these names.
OTHER_SYSTEMS = {"macosx": "libfmtcanon.dylib", "win": "fmtcanon.dll"}
PROGRAM = "fmtcanon/program"
# Each file of a wheel has one time, so that the same files make the same wheel.
TIME = (1980, 1, 1, 0, 0, 0)


def project():
    """The tables of python/pyproject.toml that are lines of names and texts, and its lists of texts."""
    text = (TOP / "python/pyproject.toml").read_text(encoding="utf-8")
    texts = dict(re.findall(r'^([\w-]+) = "(.*)"$', text, flags=re.MULTILINE))
    lists = {
        name: re.findall(r'"([^"]*)"', inside)
        for name, inside in re.findall(r"^([\w-]+) = \[(.*?)\]$", text, flags=re.DOTALL | re.MULTILINE)
    }
    return texts, lists


def metadata(texts, lists):
    readme = (TOP / "python/README.md").read_text(encoding="utf-8")
    lines = [
        "Metadata-Version: 2.1",
        f"Name: {texts['name']}",
        f"Version: {VERSION}",
        f"Summary: {texts['description']}",
        "License: MIT",
        "License-File: LICENSE",
        f"Requires-Python: {texts['requires-python']}",
        "Description-Content-Type: text/markdown",
        *(f"Classifier: {one}" for one in lists["classifiers"]),
    ]
    return "\n".join(lines) + "\n\n" + readme


def entry_points(texts, has_program):
    """The commands, each with the function that it calls; `fmtcanon` runs the program."""
    commands = {name: call for name, call in texts.items() if name.startswith("fmtcanon")}
    if not has_program:
        del commands["fmtcanon"]
    return "\n".join(["[console_scripts]", *(f"{name} = {call}" for name, call in commands.items()), ""])


def files_of(binaries, information, tag, texts, lists):
    """The files of the wheel, except their record: names and bytes."""
    for path in sorted((TOP / "python/fmtcanon").rglob("*")):
        if path.suffix in (".py", ".json") or path.name == "py.typed":
            yield str(path.relative_to(TOP / "python")), path.read_bytes()
    yield from ((name, file.read_bytes()) for name, file in binaries.items())
    yield f"{information}/METADATA", metadata(texts, lists).encode()
    yield f"{information}/WHEEL", f"Wheel-Version: 1.0\nGenerator: make_wheel\nRoot-Is-Purelib: false\nTag: {tag}\n".encode()
    yield f"{information}/entry_points.txt", entry_points(texts, PROGRAM in binaries).encode()
    yield f"{information}/LICENSE", (TOP / "LICENSE").read_bytes()


def placed(platform, files):
    """The name of the library's file on a platform, and the wheel's tag."""
    system = platform.partition("_")[0]
    if system in OTHER_SYSTEMS:
        return OTHER_SYSTEMS[system], f"py3-none-{platform}"
    return SONAME, "py3-none-manylinux_{}_{}_{}".format(*needed_glibc(*files), platform)


def main(folder, platform, *files):
    texts, lists = project()
    library, tag = placed(platform, files)
    # Without a program, `zip` ends after the library.
    binaries = dict(zip([f"fmtcanon/{library}", PROGRAM], map(Path, files)))
    name = f"fmtcanon-{VERSION}"
    information, record = f"{name}.dist-info", []
    wheel = Path(folder) / f"{name}-{tag}.whl"
    with zipfile.ZipFile(wheel, "w", zipfile.ZIP_DEFLATED) as archive:
        for path, data in files_of(binaries, information, tag, texts, lists):
            digest = base64.urlsafe_b64encode(hashlib.sha256(data).digest()).rstrip(b"=").decode()
            record.append(f"{path},sha256={digest},{len(data)}")
            add(archive, path, data)
        add(archive, f"{information}/RECORD", "\n".join([*record, f"{information}/RECORD,,", ""]).encode())
    print(wheel)


def add(archive, path, data):
    member = zipfile.ZipInfo(path, TIME)
    member.external_attr = (0o100755 if path == PROGRAM else 0o100644) << 16
    member.compress_type = zipfile.ZIP_DEFLATED
    archive.writestr(member, data)


if __name__ == "__main__":
    if len(sys.argv) not in (4, 5):
        sys.exit(__doc__)
    main(*sys.argv[1:])
