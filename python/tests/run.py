"""Runs every test here with the package that is installed, and ends with `N passed, M failed`; what could not be tried is said before it. Fewer than LEAST
passed is one that failed. With FAILFAST set it stops at the first that fails."""
import collections
import os
import sys
import unittest
from pathlib import Path

sys.dont_write_bytecode = True
sys.path.insert(0, str(Path(__file__).parent))
LEAST = 48  # without numpy, the second implementation and a C compiler


class Result(unittest.TestResult):
    """Counts what passed itself: whether testsRun has the skipped ones too differs among the versions of Python."""

    passed = 0

    def addSuccess(self, test: unittest.TestCase) -> None:
        self.passed += 1


def main() -> None:
    result = Result()
    result.failfast = "FAILFAST" in os.environ
    unittest.defaultTestLoader.discover(str(Path(__file__).parent)).run(result)
    wrong = {test.id(): error for test, error in [*result.failures, *result.errors]}
    if not wrong and result.passed < LEAST:
        wrong["run.py"] = f"{result.passed} tests passed, and there are at least {LEAST}"
    for name, error in wrong.items():
        print(f"FAILED: {name}\n{error}")
    for why, count in collections.Counter(why for _, why in result.skipped).items():
        print(f"not tried: {count} tests: {why}")
    print(f"{result.passed} passed, {len(wrong)} failed")
    sys.exit(len(wrong) != 0)


if __name__ == "__main__":
    main()
