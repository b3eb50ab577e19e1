#!/usr/bin/env python3
"""Prints the version of the GNU C library that a library and a program need, as 2.34.

Usage: needed_glibc.py FILE..

The files may be for any processor.
"""

import re
import shutil
import subprocess
import sys

# The oldest that a wheel can be tagged for.
OLDEST = (2, 17)


def needed_glibc(*files):
    """The latest version that one of the files needs, as its numbers."""
    if shutil.which("readelf") is None:
        sys.exit("readelf is missing: the package binutils has it")
    words = ["readelf", "--version-info", "--wide", *files]
    table = subprocess.run(words, check=True, stdout=subprocess.PIPE).stdout.decode()
    found = (tuple(map(int, version.split("."))) for version in re.findall(r"GLIBC_([0-9.]+)", table))
    return max([OLDEST, *(version[:2] for version in found)])


if __name__ == "__main__":
    if len(sys.argv) < 2:
        sys.exit(__doc__)
    print("{}.{}".format(*needed_glibc(*sys.argv[1:])))
