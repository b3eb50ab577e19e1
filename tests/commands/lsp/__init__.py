"""Tests of fmtcanon-lsp."""

from tests.frame import package

load_tests = package(__file__)
