"""Counts checks. The last line of a script that checks is 'N passed, M failed'."""

import sys


class Results:
    """How many checks held and how many didn't."""

    def __init__(self):
        self.passed = self.failed = 0

    def check(self, what, holds, why=""):
        """Counts a check, and prints a line where it doesn't hold."""
        if holds:
            self.passed += 1
        else:
            self.failed += 1
            print(f"wrong: {what}{f': {why}' if why else ''}", flush=True)

    def finish(self):
        """Prints the last line, and ends the script."""
        print(f"{self.passed} passed, {self.failed} failed")
        sys.exit(0 if self.passed and not self.failed else 1)
