"""Counts checks, and prints a line for each."""
import sys


class Checks:
    def __init__(self):
        self.count = self.wrong = 0

    def check(self, name, is_good, seen="nothing"):
        """Prints `ok NAME`, or `not ok NAME: SEEN`. What was seen may be a function, which is called only then."""
        self.count += 1
        if is_good:
            print(f"ok {name}", flush=True)
            return
        self.wrong += 1
        print(f"not ok {name}: {' '.join(str(seen() if callable(seen) else seen).split())[:600]}", flush=True)

    def end(self):
        """Prints the sum, and ends the program with status 1 if a check was wrong."""
        print(f"{self.count} checks, {self.wrong} wrong", flush=True)
        sys.exit(1 if self.wrong else 0)
