"""tests [TEST..]: runs the tests of the package debplan and of the commands that stand on it, by unittest; a TEST is named as
`test_image.Images.test_locks`. They ask the program that DEBPLAN names or that the gate builds, and scripts that stand for one. What
is wanted is of docs/FORMATS.md, of Policy, or counted by hand. What can't be tried here is said, and why.

A row of a test counts as one. The last line is `N passed, M failed`. Exit status: 0 where all pass, 1 where one doesn't."""
import collections
import pathlib
import sys
import unittest

sys.dont_write_bytecode = True
HERE = pathlib.Path(__file__).resolve().parent
sys.path[0] = str(HERE.parent)


class Results(unittest.TestResult):
    """What came of tests and their rows, with how many passed."""

    def __init__(self):
        super().__init__()
        self.passed, self.rows = 0, collections.Counter()

    def addSubTest(self, test, subtest, err):
        super().addSubTest(test, subtest, err)
        self.rows[test.id()] += 1
        self.passed += err is None

    def addSkip(self, test, reason):
        super().addSkip(test, reason)
        self.rows[test.id()] += 1

    def addSuccess(self, test):
        super().addSuccess(test)
        self.passed += not self.rows[test.id()]


def tests_of(words):
    """The tests of these names, or all."""
    if words:
        return unittest.defaultTestLoader.loadTestsFromNames([f"tests.{word}" for word in words])
    return unittest.defaultTestLoader.discover(str(HERE), top_level_dir=str(HERE.parent))


def main(words):
    if "--help" in words:
        print(__doc__)
        return 0
    found = Results()
    tests_of(words).run(found)
    wrong = [*found.failures, *found.errors]
    print("".join(f"{test}\n{why}\n" for test, why in wrong), end="")
    for why, count in sorted(collections.Counter(why for _, why in found.skipped).items()):
        print(f"not tried: {count} test{'s' if count > 1 else ''}, for {why}")
    print(f"{found.passed} passed, {len(wrong)} failed")
    return 1 if wrong else 0


if __name__ == "__main__":
    sys.exit(main(sys.argv[1:]))
