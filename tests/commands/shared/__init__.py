"""Tests of what the commands share: output, terminals, processes."""

from tests.frame import package

load_tests = package(__file__)
