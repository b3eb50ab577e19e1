"""Makes tests of unittest of functions: `test_usage(program, trials)` gets the fixtures that its parameters name.

A fixture is a function with the name of the parameter, in the module of the test or in fixtures.py, and its parameters
are fixtures. Each test gets its own, and what one does after its `yield` is done when the test ends.
"""

import contextlib
import functools
import inspect
import unittest

from tests.frame import fixtures

# The lines of this file aren't shown where a test fails.
__unittest = True


class Trials:
    """Counts what was tried, and prints each failure."""

    def __init__(self):
        self.passed = 0
        self.failed = 0

    def expect(self, name, got, wanted):
        if got == wanted:
            self.passed += 1
            return
        self.failed += 1
        print(f"FAILED {name}\n  wanted {wanted!r}\n  got    {got!r}", flush=True)

    def __str__(self):
        return f"{self.passed} passed, {self.failed} failed"


class Given:
    """The fixtures of one test, each made when it is first asked for."""

    def __init__(self, known, trials, stack):
        self.known, self.stack, self.made = known, stack, {"trials": trials}

    def call(self, function):
        """Calls a function with the fixtures that its parameters name."""
        return function(**{name: self.value(name) for name in inspect.signature(function).parameters})

    def value(self, name):
        if name not in self.made:
            fixture = self.known.get(name) or getattr(fixtures, name)
            if inspect.isgeneratorfunction(fixture):
                self.made[name] = self.stack.enter_context(self.call(contextlib.contextmanager(fixture)))
            else:
                self.made[name] = self.call(fixture)
        return self.made[name]


class Case(unittest.TestCase):
    """The tests of a module; it prints how many checks of theirs passed and failed. Once all have run, they are as many
    as a document says, if `said` returns that.
    """

    said = None

    @classmethod
    def setUpClass(cls):
        cls.trials, cls.left = Trials(), {name for name in vars(cls) if name.startswith("test_")}

    @classmethod
    def tearDownClass(cls):
        tried = cls.trials.passed + cls.trials.failed
        if tried:
            print(f"{cls.__module__}: {cls.trials}", flush=True)
        if cls.said and not cls.left and cls.said() != tried:
            raise AssertionError(f"{cls.__module__} tries {tried}, and a document says {cls.said()}")

    def try_function(self, function, known):
        trials = Trials()
        self.left.discard(self._testMethodName)
        try:
            with contextlib.ExitStack() as stack:
                Given(known, trials, stack).call(function)
        except unittest.SkipTest:
            raise
        except BaseException:
            trials.failed += 1
            raise
        finally:
            self.trials.passed += trials.passed
            self.trials.failed += trials.failed
        is_counted = "trials" in inspect.signature(function).parameters
        if trials.failed or (is_counted and not trials.passed):
            self.fail(str(trials))


def method_of(function, known):
    """Returns a method of a case that calls a function."""
    return functools.wraps(function)(lambda self: self.try_function(function, known))


def tests_of(known, said=None):
    """Returns the class of the tests among the globals of a module: its functions whose names begin with `test_`. A
    document has the number of trials that `said` returns.
    """
    names = [name for name, it in known.items() if name.startswith("test_") and inspect.isfunction(it)]
    methods = {name: method_of(known[name], known) for name in names}
    more = {"said": staticmethod(said)} if said else {}
    return type("Tests", (Case,), {"__module__": known["__name__"], **more, **methods})
