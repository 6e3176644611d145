#!/usr/bin/env python3
"""Runs the tests of the Python package with the library that the project makes, or with the one that NYO_LIBRARY names.

The last line is 'N passed, 0 failed'; the exit status is 1 where a test fails.
"""

import os
import subprocess
import sys
import unittest
from pathlib import Path

HERE = Path(__file__).resolve().parent


def main() -> int:
    """Makes the library, runs every test, and answers the status."""
    if not os.environ.get("NYO_LIBRARY"):
        subprocess.run([HERE.parent / "tools" / "shared-lib.sh"], check=True)
    sys.path.insert(0, str(HERE))
    found = unittest.TestLoader().discover(str(HERE / "tests"), top_level_dir=str(HERE))
    result = unittest.TextTestRunner(verbosity=0).run(found)
    failed = len({getattr(test, "test_case", test) for test, _ in result.failures + result.errors})
    print(f"nyo: {result.testsRun - failed - len(result.skipped)} passed, {failed} failed")
    return 1 if failed else 0


if __name__ == "__main__":
    sys.exit(main())
