"""What the tests of the tools share: counting, running a command, and skipping what the machine lacks."""
import pathlib
import re
import subprocess
import sys

TOP = pathlib.Path(__file__).resolve().parent.parent
PROGRAM = TOP / "crates/sercos/out/sercos"


class Tests:
    """The tests of one tool. Each prints a line if it fails; what is missing is skipped by name."""

    def __init__(self, name):
        self.name = name
        self.passed = self.failed = 0

    def check(self, what, good, seen=""):
        if good:
            self.passed += 1
        else:
            self.failed += 1
            print(f"{self.name}: {what} {seen}".rstrip())

    def same(self, what, found, wanted):
        self.check(what, found == wanted, f"is {found!r:.400}, wanted {wanted!r:.400}")

    def skip(self, what):
        print(f"skipped: {what}")

    def end(self):
        """Prints the number of tests that passed, and ends with 0 only if none failed."""
        print(f"{self.name}: {self.passed} passed" + (f", {self.failed} failed" if self.failed else ""))
        sys.exit(1 if self.failed else 0)


def links(text):
    """Where the links of a document lead, but those in blocks of code."""
    return re.findall(r"\]\(([^)\s]+)\)", re.sub(r"(?ms)^```.*?^```$", "", text))


def run(words, source=b"", **options):
    """Runs a command at the top of the repository on an input."""
    return subprocess.run([str(word) for word in words], input=source, capture_output=True, cwd=TOP, **options)


def sercos(words, source=b""):
    """The answer of the program to an input, as text."""
    return run([PROGRAM] + words, source).stdout.decode()
