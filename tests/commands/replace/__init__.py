"""Tests of fmtcanon-replace."""

from tests.frame import package

load_tests = package(__file__)
