#!/usr/bin/env python3
"""Runs the tests of the client, each of its modules and whole trees, on stores that the unproved programs keep.

    bench/chunkfs.py [NAME ..]

A name is one of a file of client/tests, as test_trials. The last line is 'N passed, M failed', and the status is 1 where one failed."""

import sys
import unittest
from pathlib import Path

ROOT = Path(__file__).resolve().parent.parent
sys.path.insert(0, str(ROOT))

import launch  # noqa: E402


def main() -> int:
    # They are built before a test waits for one.
    for name in ("chunkkeep", "chunkstore"):
        launch.program_of(name)
    loader = unittest.TestLoader()
    if sys.argv[1:]:
        suite = loader.loadTestsFromNames(f"client.tests.{name}" for name in sys.argv[1:])
    else:
        suite = loader.discover(str(ROOT / "client" / "tests"), top_level_dir=str(ROOT))
    result = unittest.TextTestRunner(stream=sys.stdout, verbosity=2).run(suite)
    failed = len(result.failures) + len(result.errors) + len(result.unexpectedSuccesses)
    print(f"{result.testsRun - failed - len(result.skipped)} passed, {failed} failed", flush=True)
    return 1 if failed else 0


if __name__ == "__main__":
    sys.exit(main())
