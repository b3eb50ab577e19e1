"""Tests of fmtcanon-explain."""

from tests.frame import package

load_tests = package(__file__)
