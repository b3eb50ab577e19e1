"""Tries the program over each of the streams that fail: each run with each step and each error."""

from tests.frame.cases import tests_of
from tests.program.test_short_streams import (
    narrow,
    test_answers,
    test_formats,
    test_fronts,
    test_grid,
    test_long_answers,
    test_records,
    test_refusals,
    test_two_faults,
)


def tries_each():
    return True


Tests = tests_of(globals())
