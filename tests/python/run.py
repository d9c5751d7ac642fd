"""Runs the tests of the Python package, a line each as the shell tests print theirs; the last line is 'N passed, M
failed'."""

import os
import sys
import unittest


class Lines(unittest.TestResult):
    """A line for each test: its name in words, and where it failed what was seen."""

    def __init__(self):
        super().__init__()
        self.passed = self.lost = 0

    def said(self, test):
        """A test's name in words."""
        return f"{type(test).__name__.lower()}: {test.id().rsplit('.', 1)[1].replace('test_', '', 1).replace('_', ' ')}"

    def addSuccess(self, test):
        self.passed += 1
        print(f"ok      {self.said(test)}", flush=True)

    def addFailure(self, test, err):
        self.lost += 1
        print(f"FAILED  {self.said(test)}\n{self._exc_info_to_string(err, test)}", flush=True)

    addError = addFailure


def main():
    """Runs the files that are named."""
    result = Lines()
    for name in sys.argv[1:]:
        unittest.defaultTestLoader.loadTestsFromName(name).run(result)
    print(f"{result.passed} passed, {result.lost} failed")
    return 0 if result.passed and not result.lost else 1


if __name__ == "__main__":
    sys.path.insert(0, os.path.dirname(os.path.abspath(__file__)))
    sys.exit(main())
