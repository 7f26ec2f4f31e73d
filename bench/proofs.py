#!/usr/bin/env python3
"""What each function's proof costs.

    bench/proofs.py CRATE [ROWS]

Of a crate that was checked from nothing with `rt check --jobs 1`: seconds by function and by part of its proof, read off the
times at which the check kept each part in the crate's out/. `Lts` is the part that follows every way through the code with all
that lives there; it grows faster than the number of ways, and with what is dropped on them. Behind a check with more jobs the
seconds say nothing, and the sizes of the parts called `Lts` are a measure instead: they are printed beside."""

import collections
import os
import re
import sys

ROOT = os.path.dirname(os.path.dirname(os.path.abspath(__file__)))
# A longer pause is one between two checks.
LONGEST = 150
PART = re.compile(r"Rattle-(\w+?)[-.](proofs|specs)\.(.*?)(\.decls)?\.oantt$")
PARTS = {"Lts", "Proof", "Tie", "Reads", "Answers", "Goals", "Code", "Statement", "Met", "Given", "Invariants"}


def kept(crate):
    """What a check has kept, in the order of time: when, its name, its bytes."""
    files = []
    for at, _, names in os.walk(os.path.join(ROOT, "crates", crate, "out", "incremental")):
        for name in names:
            stat = os.stat(os.path.join(at, name))
            files.append((stat.st_mtime, name, stat.st_size))
    return sorted(files)


def main():
    if len(sys.argv) not in (2, 3):
        sys.exit(__doc__)
    files = kept(sys.argv[1])
    if not files:
        sys.exit("nothing is kept of this crate: check it first, with --jobs 1")
    seconds, sizes, parts = collections.Counter(), collections.Counter(), collections.Counter()
    before = files[0][0]
    for when, name, size in files:
        took, before = when - before, when
        if took > LONGEST:
            took = 0
        match = PART.match(name)
        words = match.group(3).split(".") if match else [name]
        part = next((w for w in words if w in PARTS), "the rest")
        function = ".".join(words[: words.index(part)] if part in words else words)
        seconds[function] += took
        parts[part] += took
        if part == "Lts":
            sizes[function] += size
    print(f"{sum(parts.values()):.0f} seconds: " + ", ".join(f"{part} {took:.0f}" for part, took in parts.most_common(6)))
    print(f"{'seconds':>8} {'MB of Lts':>10}  function")
    for function, took in seconds.most_common(int(sys.argv[2]) if len(sys.argv) > 2 else 20):
        print(f"{took:8.1f} {sizes[function] / 1e6:10.1f}  {function}")


if __name__ == "__main__":
    main()
