"""Tests of the documents."""

from tests.frame import package

load_tests = package(__file__)
