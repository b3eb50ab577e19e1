"""Tests of what somebody else named: words, repositories, files."""

from tests.frame import package

load_tests = package(__file__)
