#!/usr/bin/env python3
"""Makes an archive of files and folders, whose bytes depend only on the names and bytes of the files.

Usage: make_dist.py ARCHIVE FOLDER PROGRAM FILE..

FOLDER is the one that the archive unpacks to. PROGRAM is the one file that is executable without being a script, or
empty.
"""

import gzip
import io
import os
import sys
import tarfile
from pathlib import Path

# One time for every file, unless the caller's environment has another.
TIME = int(os.environ.get("SOURCE_DATE_EPOCH", "0"))


def files_below(names):
    """The files of these names and below these folders, in the order of their names."""
    found = set()
    for name in names:
        path = Path(name)
        found.update(path.rglob("*") if path.is_dir() else [path])
    return sorted(str(path) for path in found if path.is_file() and "__pycache__" not in path.parts)


def member(folder, name, data, program):
    entry = tarfile.TarInfo(f"{folder}/{name}")
    entry.size, entry.mtime = len(data), TIME
    entry.uname = entry.gname = "root"
    entry.mode = 0o755 if name == program or data.startswith(b"#!") else 0o644
    return entry


def main(archive, folder, program, *names):
    with open(archive, "wb") as raw, gzip.GzipFile("", "wb", 9, raw, TIME) as stream:
        with tarfile.open(fileobj=stream, mode="w", format=tarfile.GNU_FORMAT) as packed:
            for name in files_below(names):
                data = Path(name).read_bytes()
                packed.addfile(member(folder, name, data, program), io.BytesIO(data))
    print(archive)


if __name__ == "__main__":
    if len(sys.argv) < 5:
        sys.exit(__doc__)
    main(*sys.argv[1:])
