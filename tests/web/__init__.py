"""Tests of the page, and of the library as a module of WebAssembly."""

from tests.frame import package

load_tests = package(__file__)
