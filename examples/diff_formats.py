#!/usr/bin/env python3
"""Runs fmtcanon-diff from the source tree. It needs the module fmtcanon."""

import sys

from fmtcanon.diff.command import main

if __name__ == "__main__":
    sys.exit(main())
