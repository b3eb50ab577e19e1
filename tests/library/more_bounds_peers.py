"""Compares the numbers of bytes with the C library of a 32-bit system."""

from tests.frame.cases import tests_of
from tests.library.test_bounds_peers import test_printed


def compiler():
    return ["gcc", "-m32", "-std=c11"]


def model():
    return "ilp32"


Tests = tests_of(globals())
