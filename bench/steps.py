#!/usr/bin/env python3
"""Counts the instructions of small steps, besides those of `sha2`, by `valgrind --tool=callgrind`.

    bench/steps.py PROGRAM [PROGRAM ..] [--steps N]

A program is `chunkstore` as it is built, or one that takes the same lines. Of each row it tells the instructions of one step: a part of the
difference between a script of N steps (else 21) and one of a single step. Of two programs and more it tells the ratio to the first one, too."""

import argparse
import os
import re
import subprocess
import tempfile

FILE = ["create /a", "write /a 0 616263"]
# The steps of each row, and the lines before the first.
ROWS = {
    "a prepare, a write of 3 bytes and a rollback": (FILE, ["rollingUpgrade prepare", "write /a 0 646566", "rollingUpgrade rollback"]),
    "a snapshot and the write behind it": (FILE, ["snapshot /a /s{:03}", "write /a 0 646566"]),
    "a write of 3 bytes": (FILE, ["write /a 0 646566"]),
    "a file that is made and written": ([], ["create /f{:03}", "write /f{:03} 0 646566"]),
}
COST = re.compile(r"\s*([\d,]+)\s*(?:\([ \d.]+%\))?\s+(\S.*)$")


def instructions(program, lines):
    """The instructions of a run on some lines, without those of functions of sha2."""
    with tempfile.NamedTemporaryFile(prefix="steps-") as told:
        words = ["valgrind", "--tool=callgrind", f"--callgrind-out-file={told.name}", os.path.abspath(program)]
        subprocess.run(words, input="".join(f"{line}\n" for line in lines), text=True, capture_output=True, check=True)
        listed = subprocess.run(["callgrind_annotate", "--threshold=100", told.name], text=True, errors="replace", capture_output=True, check=True)
    costs = [(int(found[1].replace(",", "")), found[2]) for found in map(COST.match, listed.stdout.splitlines()) if found]
    whole = next(cost for cost, name in costs if "PROGRAM TOTALS" in name)
    return whole - sum(cost for cost, name in costs if "sha2" in name)


def of_one_step(program, before, step, many):
    """The instructions of one step."""
    one, all_of_them = (instructions(program, before + [line.format(i) for i in range(steps) for line in step]) for steps in (1, many))
    return (all_of_them - one) / (many - 1)


def main():
    parser = argparse.ArgumentParser(description=__doc__.splitlines()[0])
    parser.add_argument("programs", nargs="+", metavar="PROGRAM")
    parser.add_argument("--steps", type=int, default=21)
    asked = parser.parse_args()
    for row, (before, step) in ROWS.items():
        found = [of_one_step(program, before, step, asked.steps) for program in asked.programs]
        ratios = "".join(f", {one:,.0f} ({one / found[0]:.3f})" for one in found[1:])
        print(f"{row}: {found[0]:,.0f}{ratios}", flush=True)


if __name__ == "__main__":
    main()
