"""Compares literals with clang, as test_literals.py does with gcc."""

from tests.frame.cases import tests_of
from tests.library.test_literals import test_decoded, test_encoded, test_trigraphs


def compiler(tools):
    tools.need("clang", "clang")
    return ["clang", "-Wno-invalid-source-encoding"]


Tests = tests_of(globals())
