#!/usr/bin/env python3
"""Puts code beside the others that must not compile, and looks for the error that says why.

    bench/refused_code.py

Each file of bench/refused_code is a small library: a lease is used after it was spent, a file that is open for writing is left open, a
leased chunk is copied, or a copy on write is planned of one. Its first line is the error that is to be met, without the help behind it, and no other may be. They are read by
the kit's trial run, which proves nothing. The last line is 'N passed, M failed', and the status is 1 where one failed or there is none."""

import os
import subprocess
import sys

import beside

PIECES = os.path.join(beside.ROOT, "bench", "refused_code")
# A trial run wants a test.
TEST = "\n#[test]\nfn is_read(rt: HostRuntime) {\n    assert!(rt; true);\n}\n"


def errors_of(crate, text):
    """The errors that a library meets, each without its help."""
    with open(os.path.join(crate, "src", "lib.rt"), "w") as out:
        out.write(text + TEST)
    done = subprocess.run(["rt", "try", "--test"], cwd=crate, stdout=subprocess.PIPE, stderr=subprocess.STDOUT, text=True, errors="replace")
    return [line.split(": help: ")[0] for line in done.stdout.splitlines() if "error" in line or "panicked" in line]


def is_refused(crate, name):
    with open(os.path.join(PIECES, name)) as file:
        text = file.read()
    wanted = text.splitlines()[0].removeprefix("// ")
    errors = errors_of(crate, text)
    print(f"{name.split('.')[0]}: {'refused' if errors == [wanted] else f'wanted {wanted}, met {errors or None}'}", flush=True)
    return errors == [wanted]


def main():
    crate = beside.placed("gs_refused", ("src",))
    are_refused = [is_refused(crate, name) for name in sorted(os.listdir(PIECES))]
    print(f"{sum(are_refused)} passed, {len(are_refused) - sum(are_refused)} failed", flush=True)
    return 0 if are_refused and all(are_refused) else 1


if __name__ == "__main__":
    sys.exit(main())
