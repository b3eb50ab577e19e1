"""Tests of the Python module. Without FMTCANON_PROGRAM, those that need the program are skipped."""

import os
import unittest

from tests.frame import package

load_tests = package(__file__)
needs_program = unittest.skipUnless(os.environ.get("FMTCANON_PROGRAM"), "it needs the program, which is for x86-64")
