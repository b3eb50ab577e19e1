"""Tests of manual pages, completions, recipes and documents of the commands."""

from tests.frame import package

load_tests = package(__file__)
