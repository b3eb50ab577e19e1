"""Tests of fmtcanon-po."""

from tests.frame import package

load_tests = package(__file__)
