#!/usr/bin/env python3
"""Runs fmtcanon-po from the source tree. It needs the module fmtcanon."""

import sys

from fmtcanon.po.command import main

if __name__ == "__main__":
    sys.exit(main())
