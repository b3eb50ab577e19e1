"""Tests of the mutants' script."""

from tests.frame import package

load_tests = package(__file__)
