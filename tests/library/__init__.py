"""Tests of the C library and the Python module."""

from tests.frame import package

load_tests = package(__file__)
