#!/usr/bin/env python3
"""Runs tests that stand beside the gate: of each part by its public calls, of the master by itself, and of a whole store whose messages
come again, whose disks fail or stop, or whose journal is cut. They are run unproved, by the kit's trial run, and the status is that run's.

    bench/trials.py

The last line is 'N passed, M failed'; where the tests didn't come to their end, one has failed."""

import re
import subprocess
import sys

import beside
import building

COUNTED = re.compile(r"^test result: .*?(\d+) passed; (\d+) failed;")
RUN = ["rt", "try", "--test", "--seconds", "3600"]


def main():
    passed, failed = 0, 1
    how = {"stdout": subprocess.PIPE, "stderr": subprocess.STDOUT, "text": True, "errors": "replace"}
    with subprocess.Popen(RUN, cwd=beside.placed("gs_trials", ("src",)), **how) as tests:
        building.end_hint(tests)
        for line in tests.stdout:
            print(line, end="", flush=True)
            found = COUNTED.match(line)
            passed, failed = (int(found[1]), int(found[2])) if found else (passed, failed)
    if tests.returncode != 0:
        failed = max(failed, 1)
    print(f"{passed} passed, {failed} failed", flush=True)
    return tests.returncode


if __name__ == "__main__":
    sys.exit(main())
