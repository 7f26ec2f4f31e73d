#!/usr/bin/env python3
"""Compares a start from an image with what the digests of the image's bytes take, by `valgrind --tool=callgrind`.

    bench/images.py PROGRAM [--files N ..] [--bytes N]

PROGRAM is `chunkkeep` as it is built. For each number of files, 1,000 in a directory and of so many bytes, it makes a store, takes its image and
counts the instructions of a start that answers one look. It tells the bytes of the image, and the ratio of all instructions to those of `sha2`:
each byte of an image is digested twice. It tells too the seconds of the processor that such a start takes, the least of three."""

import argparse
import os
import re
import resource
import subprocess
import tempfile

FOLDER_FILES = 1_000
COST = re.compile(r"\s*([\d,]+)\s*(?:\([ \d.]+%\))?\s+(\S.*)$")


def lines_of(files, size):
    """Lines that make so many files, each of so many bytes."""
    for number in range(files):
        folder, name = f"/d{number // FOLDER_FILES}", f"f{number % FOLDER_FILES}"
        if not number % FOLDER_FILES:
            yield f"mkdir {folder}\n"
        yield f"create {folder}/{name}\nwrite {folder}/{name} 0 {'61' * size}\n"


def look(words):
    """Runs a program on one look, and answers the seconds of the processor that it took."""
    before = resource.getrusage(resource.RUSAGE_CHILDREN)
    run = subprocess.run(words, input=b"stat /d0/f0\n", capture_output=True, check=True)
    after = resource.getrusage(resource.RUSAGE_CHILDREN)
    if not run.stdout.startswith(b"ok file "):
        raise SystemExit(f"a start answers {run.stdout!r}: {run.stderr!r}")
    return after.ru_utime + after.ru_stime - before.ru_utime - before.ru_stime


def instructions(words, folder):
    """The instructions of a start, all and those of functions of sha2."""
    told = os.path.join(folder, "told")
    look(["valgrind", "--tool=callgrind", f"--callgrind-out-file={told}", *words])
    listed = subprocess.run(["callgrind_annotate", "--threshold=100", told], text=True, errors="replace", capture_output=True, check=True)
    costs = [(int(found[1].replace(",", "")), found[2]) for found in map(COST.match, listed.stdout.splitlines()) if found]
    return next(cost for cost, name in costs if "PROGRAM TOTALS" in name), sum(cost for cost, name in costs if "sha2" in name)


def row(program, files, size):
    with tempfile.TemporaryDirectory(prefix="images-") as folder:
        store = os.path.join(folder, "store")
        script = "".join(lines_of(files, size)).encode()
        subprocess.run([program, store, "--image-at", "0"], input=script, stdout=subprocess.DEVNULL, stderr=subprocess.DEVNULL, check=True)
        subprocess.run([program, store, "--image"], stdin=subprocess.DEVNULL, stderr=subprocess.DEVNULL, check=True)
        words = [program, store, "--read-only"]
        seconds = min(look(words) for _ in range(3))
        whole, digests = instructions(words, folder)
        image = os.path.getsize(f"{store}.image.1")
    print(f"{files} files of {size} bytes: an image of {image:,} bytes, {whole / digests:.2f} of its digests, {seconds:.2f} seconds", flush=True)


def main():
    parser = argparse.ArgumentParser(description=__doc__.splitlines()[0])
    parser.add_argument("program", metavar="PROGRAM")
    parser.add_argument("--files", type=int, nargs="+", default=[1_000, 10_000])
    parser.add_argument("--bytes", type=int, default=100)
    asked = parser.parse_args()
    for files in asked.files:
        row(os.path.abspath(asked.program), files, asked.bytes)


if __name__ == "__main__":
    main()
