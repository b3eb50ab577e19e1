"""Tests of fmtcanon-diff."""

from tests.frame import package

load_tests = package(__file__)
