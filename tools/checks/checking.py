"""What the tests count their checks with."""

import sys


class Checks:
    """Called with whether a check holds and what it is about; the first that
    does not hold ends the run with exit status 1."""

    def __init__(self):
        self.passed = 0

    def __call__(self, holds, *what):
        if not holds:
            print("failed:", *what)
            sys.exit(1)
        self.passed += 1

    def end(self):
        print("%d checks passed" % self.passed)
