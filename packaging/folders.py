#!/usr/bin/env python3
"""Checks, makes and removes the folders of an installation.

Usage: folders.py check NAME..
       folders.py make DESTDIR LIST FOLDER..
       folders.py remove DESTDIR LIST

`check` reads folders from environment variables, and reports the first that is wrong. A Makefile passes them through
shells, so a folder must be absolute and have no space or special character. `make` makes folders below DESTDIR, and
adds those that weren't there to the file LIST below DESTDIR. `remove` removes the folders of the file LIST that are
empty.
"""

import os
import re
import sys
from pathlib import Path

PLAIN = re.compile(r"/[\w/.,:@%+=~-]*", re.ASCII)
MODE = 0o755


def wrong_folders(names):
    """Yields what is wrong with each variable."""
    for name in names:
        folder = os.environ.get(name, "")
        if folder == "" and name == "DESTDIR":
            continue
        if not folder.startswith("/"):
            yield f"{name}={folder}: the folder must be absolute"
        elif not PLAIN.fullmatch(folder):
            yield f"{name}={folder}: the folder must have no space and no character that is special in a shell"
        elif name != "DESTDIR" and ".." in folder.split("/"):
            yield f"{name}={folder}: the folder must not contain .."


def below(root, folder):
    return Path(root + "/" + folder.lstrip("/")) if root else Path(folder)


def listed(file):
    try:
        return set(file.read_text(encoding="utf-8").splitlines())
    except FileNotFoundError:
        return set()


def make(root, file, folders):
    """Makes folders with their parents, whatever the mask of the user is."""
    made = listed(below(root, file))
    for folder in folders:
        path = Path("/")
        for part in Path(folder).parts[1:]:
            path = path / part
            real = below(root, str(path))
            if not real.is_dir():
                real.parent.mkdir(parents=True, exist_ok=True)
                real.mkdir()
                real.chmod(MODE)
                made.add(str(path))
    real = below(root, file)
    real.write_text("".join(f"{one}\n" for one in sorted(made)), encoding="utf-8")
    real.chmod(0o644)


def remove(root, file):
    made = listed(Path(file))
    # A folder comes after its parent in this order.
    for folder in sorted(made, reverse=True):
        try:
            below(root, folder).rmdir()
        except OSError:
            # Something else is in it, or it is gone.
            pass


def main(words):
    if words[:1] == ["check"]:
        faults = list(wrong_folders(words[1:]))
        if faults:
            # The others are mostly below this one.
            print(faults[0], file=sys.stderr)
        return 1 if faults else 0
    if words[:1] == ["make"]:
        make(words[1], words[2], words[3:])
        return 0
    if words[:1] == ["remove"]:
        remove(words[1], words[2])
        return 0
    sys.exit(__doc__)


if __name__ == "__main__":
    sys.exit(main(sys.argv[1:]))
