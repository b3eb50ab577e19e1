"""What the tests share."""

from pathlib import Path

TOP = Path(__file__).resolve().parents[2]


def package(file):
    """Returns what unittest calls to find the tests of a package with this `__init__.py`."""

    def load_tests(loader, _, pattern):
        return loader.discover(Path(file).parent, pattern or "test_*.py", TOP)

    return load_tests
