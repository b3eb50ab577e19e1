"""Prints a folder below a prefix in which Python looks for modules; where it looks in none, Debian's name for one.

Usage: python_folder.py PREFIX
"""

import sys

prefix = sys.argv[1].rstrip("/")
found = [folder for folder in sys.path if folder.startswith(prefix + "/") and folder.endswith("-packages")]
# Debian's own folder comes after those that a version of Python has for itself.
found.sort(key=lambda folder: "/python3/" not in folder)
print(found[0] if found else prefix + "/lib/python3/dist-packages")
