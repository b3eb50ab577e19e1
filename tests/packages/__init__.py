"""Tests of what is installed and packed."""

from tests.frame import package

load_tests = package(__file__)
