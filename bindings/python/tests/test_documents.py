"""The examples of every docstring and of README.md, run."""

import doctest
import importlib
import pkgutil

import bbfmm


def load_tests(_loader, tests, _pattern):
    """A test for each docstring that has examples, and one for README.md."""
    for module in pkgutil.iter_modules(bbfmm.__path__, "bbfmm."):
        tests.addTests(doctest.DocTestSuite(importlib.import_module(module.name)))
    tests.addTests(doctest.DocTestSuite(bbfmm))
    tests.addTests(doctest.DocFileSuite("../README.md"))
    return tests
