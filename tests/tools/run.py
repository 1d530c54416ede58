"""Tests the text work of tools/: what they write for a given text. No proof is run.

    python3 -B tests/tools/run.py

The last line is `N tests, M wrong`, and the status is 1 if anything is wrong."""

import os
import sys
import unittest

HERE = os.path.dirname(os.path.abspath(__file__))
sys.path[:0] = [HERE, os.path.join(HERE, "..", "..", "tools")]


def main():
    """Runs every file *_tests.py of this folder."""
    result = unittest.TextTestRunner(sys.stdout).run(unittest.defaultTestLoader.discover(HERE, "*_tests.py"))
    wrong = len(result.failures) + len(result.errors)
    print("%d tests, %d wrong" % (result.testsRun, wrong))
    return 1 if wrong or not result.testsRun else 0


sys.exit(main())
