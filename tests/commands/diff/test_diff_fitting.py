"""Tests of what compile commands say of a changed place."""


from fmtcanon import Model, Type
from fmtcanon.compiling.sources import NO_COMMAND
from fmtcanon.diff.call_fitting import Compiled, JudgedUse
from fmtcanon.fitting.checking import Question
from fmtcanon.fitting.unit import Settings
from fmtcanon.frame.findings import Finding

from tests.commands.checker.test_check import faults_of

from tests.frame.cases import tests_of

FOUND = Finding("a.c", 3, 10, "types", "error", "wrong", (3, 20), ("%d", "%zu"))
# The types that the old and the new format take.
TYPES = bytes([Type.INT]), bytes([Type.ULONG])


def compiled(uses, places=(), models=tuple(Model)):
    """What is known of a file with these uses of places, and these places that are compiled."""
    found = Compiled("a.c", (), Question(models, (), Settings((), {}, {})))
    found.why_not, found.uses, found.compiled = "", uses, {*uses, *places}
    return found


def test_places(case):
    """A finding is a note if there are literals in its place, and all calls fit."""
    fits, fits_not = [JudgedUse((), True)], [JudgedUse((), True), JudgedUse((), False)]
    for uses, does in [
        ({}, False),
        ({(3, 10): fits}, True),
        ({(3, 10): fits_not}, False),
        ({(3, 12): fits, (3, 18): fits}, True),
        ({(3, 12): fits, (3, 18): fits_not}, False),
        ({(3, 9): fits, (3, 20): fits, (4, 11): fits}, False),
    ]:
        case.assertEqual(compiled(uses).noted(FOUND, *TYPES).level == "note", does, uses)


def test_why_not(case):
    """What is said of a call that isn't known."""
    for found, said in [
        (Compiled("a.c", (), Question((), (), Settings((), {}, {}))), f"; the call isn't judged: {NO_COMMAND}"),
        (compiled({}), "; the call isn't compiled here"),
        (compiled({(3, 9): []}, [(3, 20)]), "; the call isn't compiled here"),
        (compiled({}, [(3, 10)]), "; no call of a known function has it as its format"),
        (compiled({(3, 10): [JudgedUse((), False)]}), ""),
    ]:
        case.assertEqual(found.noted(FOUND, *TYPES).message, "wrong" + said)
        is_format = said != "; no call of a known function has it as its format"
        case.assertEqual(found.is_not_format((3, 10), (3, 20)), not is_format)


def test_signs(case):
    """An argument of another sign fits only if the old format took that sign, of as many arguments."""
    signed, unsigned, int_of = bytes([Type.INT]), bytes([Type.ULONG]), faults_of("%u", "int")
    for faults, before, count, does in [
        (int_of, signed, 1, False),
        (int_of, unsigned, 1, True),
        (int_of, unsigned + signed, 1, False),
        (int_of, unsigned, 2, False),
        (faults_of("%lu", "int"), unsigned, 1, False),
        ([], signed, 1, True),
    ]:
        case.assertEqual(JudgedUse(faults, True).fits(before, count, list(Model)), does, (before, count))


def test_models(case):
    """Only the data models that are asked about count."""
    faults = faults_of("%lu", "size_t")
    for models, does in [([Model.LP64], True), ([Model.ILP32], False), (list(Model), False)]:
        case.assertEqual(JudgedUse(faults, True).fits(bytes([Type.ULONG]), 1, models), does, models)


Tests = tests_of(globals())
