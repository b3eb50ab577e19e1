"""Tests of the commands in Python, and of the module. Commands that they run in other folders find the module, too."""

import os

from tests.frame import TOP, package

os.environ["PYTHONPATH"] = str(TOP / "python")
load_tests = package(__file__)
