"""Runs all tests of the package. The last line is 'Python: N passed, M failed', and the status is 0 where none failed."""

import pathlib
import sys
import unittest


def main():
    folder = pathlib.Path(__file__).resolve().parent
    sys.path.insert(0, str(folder.parent))
    suite = unittest.defaultTestLoader.discover(str(folder))
    result = unittest.TextTestRunner(stream=sys.stdout, verbosity=2).run(suite)
    # A test that fails in several of its parts is one test.
    failed = {getattr(test, "test_case", test).id() for test, _ in result.failures + result.errors}
    failed |= {test.id() for test in result.unexpectedSuccesses}
    passed = result.testsRun - len(failed) - len(result.skipped)
    print(f"Python: {passed} passed, {len(failed)} failed")
    return 0 if passed > 0 and not failed else 1


if __name__ == "__main__":
    sys.exit(main())
