"""Tests of fmtcanon-check."""

from tests.frame import package

load_tests = package(__file__)
