"""Tests of the program."""

from tests.frame import package

load_tests = package(__file__)
