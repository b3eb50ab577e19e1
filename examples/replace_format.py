#!/usr/bin/env python3
"""The command fmtcanon-replace, out of the source tree: it needs the module fmtcanon."""

import sys

from fmtcanon.replace.command import main

if __name__ == "__main__":
    sys.exit(main())
