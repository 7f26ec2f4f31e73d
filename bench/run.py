#!/usr/bin/env python3
"""Measures the built program on scripts, beside the digests alone that their lines need.

    bench/run.py [N] [--program PATH] [--digests PATH] [--before PATH] [--repeats R] [--limit SECONDS] [--only WORD]

prints a row for each kind of line, and ends with status 1 where a bound is passed. See bench/README.md for what the columns say."""

import argparse
import itertools
import os
import resource
import signal
import subprocess
import sys
import tempfile

import beside

ROOT = os.path.dirname(os.path.dirname(os.path.abspath(__file__)))
SHELL = os.path.join(ROOT, "chunkstore")
PROGRAM = os.path.join(ROOT, "crates", "chunkstore", "out", "chunkstore")

# Times below this tell nothing.
LEAST_SECONDS = 0.05
# Of less that is stored the peak is mostly the program itself.
LEAST_STORED = 64_000_000
REPLICAS = 3

MOST_GROWTH = 2.2
MOST_MEMORY = 1.6
# What tree commands have to do in a second where the program before nodes did so many.
LEAST_RATE = 150_000
RATE_BEFORE = 200_000

BLOCK = 65_536
RECORD = 100
# So many records fill a block of 64 KB.
RECORDS = BLOCK // RECORD
SHORT_BLOCKS = ["--block", "4096", "--chunk", "4194304"]
# Chunks and blocks so small that a run's time isn't that of its digests.
TINY = ["--block", "4", "--chunk", "16"]

BLOCK_HEX = "61" * BLOCK
RECORD_HEX = "62" * RECORD


class Kind:
    """Lines that prepare, lines that are measured, how many things these do, and what is looked at beside their time."""

    def __init__(self, name, before, lines, count, options=(), digests=None, ratio=None, size=0, stored=0, is_tree=False):
        self.name = name
        self.before = before
        self.lines = lines
        self.count = count
        self.options = list(options)
        # The part of gs_bench that makes the digests of these lines alone, how often, and how many times its time they may take.
        self.digests = digests
        self.ratio = ratio
        # The bytes of a line, and how many a whole run stores once.
        self.size = size
        self.stored = stored
        self.is_tree = is_tree


def part(n, of):
    """So many of the lines of a kind that costs more for each."""
    return max(1, n // of)


def files(n):
    return itertools.chain(["mkdir /a"], (f"create /a/f{i}" for i in range(n)))


def mkdirs(n):
    return Kind("mkdir", [], (f"mkdir /d{i}" for i in range(n)), n, is_tree=True)


def creates(n):
    return Kind("create", ["mkdir /a"], (f"create /a/f{i}" for i in range(n)), n, is_tree=True)


def moves(n):
    return Kind("mv", files(n), (f"mv /a/f{i} /a/g{i}" for i in range(n)), n, is_tree=True)


def deletes(n):
    return Kind("rm", files(n), (f"rm /a/f{i}" for i in range(n)), n, is_tree=True)


def look_ups(n):
    return Kind("ls of a directory", ["mkdir /a/b/c/d"], itertools.repeat("ls /a/b/c", n), n)


def stats(n):
    n = part(n, 2)
    return Kind("stat of a file", ["create /f", "write /f 0 61"], itertools.repeat("stat /f", n), n, TINY)


def lists(n):
    n = part(n, 5)
    return Kind("ls, its names", files(n), ["ls /a"] * 10, 10 * n)


def offsets(n):
    return (i * BLOCK for i in range(n))


def writes(n):
    return (f"write /f {at} {BLOCK_HEX}" for at in offsets(n))


def new_blocks(n):
    n = part(n, 200)
    digests = ("digest", REPLICAS * n)
    return Kind("write, new blocks", ["create /f"], writes(n), n, digests=digests, ratio=1.6, size=BLOCK, stored=n * BLOCK)


def old_blocks(n):
    n = part(n, 200)
    before = itertools.chain(["create /f"], writes(n))
    digests = ("digest", 2 * REPLICAS * n)
    return Kind("write, over old", before, writes(n), n, digests=digests, ratio=1.6, size=BLOCK, stored=n * BLOCK)


def appends(n):
    """So many that whole blocks are filled."""
    n = RECORDS * part(n, 50_000)
    lines = itertools.repeat("append /f " + RECORD_HEX, n)
    return Kind("append, 64 KB blocks", ["create /f"], lines, n, digests=("digest-appends", REPLICAS * n), ratio=2, size=RECORD)


def short_appends(n):
    n = part(n, 10)
    lines = itertools.repeat("append /f " + RECORD_HEX, n)
    digests = ("digest-short-appends", REPLICAS * n)
    return Kind("append, 4 KB blocks", ["create /f"], lines, n, SHORT_BLOCKS, digests, 2, RECORD)


def reads(n):
    """A member alone is asked, and verifies the block."""
    n = part(n, 200)
    before = itertools.chain(["create /f"], writes(n))
    lines = (f"read /f {at} {BLOCK}" for at in offsets(n))
    return Kind("read", before, lines, n, digests=("digest", n), size=BLOCK)


def snapshots(n):
    """Each is followed by a write, which copies the chunk."""
    n = part(n, 25)
    pairs = ((f"snapshot /f /s{i}", "write /f 0 62") for i in range(n))
    return Kind("snapshot and write", ["create /f", "write /f 0 61"], itertools.chain.from_iterable(pairs), n, TINY)


def snapshot_of_files(n):
    n = part(n, 25)
    each = itertools.chain.from_iterable((f"create /a/f{i}", f"write /a/f{i} 0 61") for i in range(n))
    return Kind("snapshot, its files", each, ["snapshot /a /b"], n, TINY)


def upgrades(n):
    n = part(n, 25)
    groups = (
        ("rollingUpgrade prepare", "write /f 0 62", f"rollingUpgrade {'finalize' if i % 2 else 'rollback'}")
        for i in range(n)
    )
    return Kind("upgrade", ["create /f", "write /f 0 61"], itertools.chain.from_iterable(groups), n, TINY)


def upgrade_of_files(n):
    """An upgrade in which each file is written over, and its rollback."""
    n = part(n, 25)
    before = itertools.chain.from_iterable((f"create /f{i}", f"write /f{i} 0 61") for i in range(n))
    lines = itertools.chain(
        ["rollingUpgrade prepare"], (f"write /f{i} 0 62" for i in range(n)), ["rollingUpgrade rollback"]
    )
    return Kind("upgrade, its files", before, lines, n, TINY)


def moves_rolled_back(n):
    n = part(n, 2)
    lines = itertools.chain(
        ["rollingUpgrade prepare"], (f"mv /a/f{i} /a/g{i}" for i in range(n)), ["rollingUpgrade rollback"]
    )
    return Kind("mv, rolled back", files(n), lines, n)


def short_files(n):
    """Files of one chunk each, of which a server has lost its replicas and told that."""
    each = itertools.chain.from_iterable((f"create /f{i}", f"write /f{i} 0 61") for i in range(n))
    return itertools.chain(each, (f"lose 0 {i}" for i in range(1, n + 1)), ["beat 0"])


def replicas(n):
    n = part(n, 5)
    return Kind("replicate", short_files(n), itertools.repeat("replicate", n), n, TINY)


def replicas_among_edits(n):
    """Twenty edits come between them."""
    n = part(n, 5)
    lines = itertools.chain.from_iterable((["replicate"] if i % part(n, 20) else [f"mkdir /d{i}", "replicate"]) for i in range(n))
    return Kind("replicate, edits", short_files(n), lines, n, TINY)


def reports(n):
    """A report from each of sixteen servers."""
    n = part(n, 5)
    each = itertools.chain.from_iterable((f"create /f{i}", f"write /f{i} 0 61") for i in range(n))
    return Kind("beat, its chunks", each, [f"beat {i}" for i in range(16)] * 4, n, [*TINY, "--servers", "16"])


def scans(n):
    """One scan that removes so many deleted files."""
    return Kind("scan, its paths", [*files(n), *(f"rm /a/f{i}" for i in range(n)), "at 300000"], ["scan"], n)


KINDS = [
    mkdirs, creates, moves, deletes, look_ups, stats, lists,
    new_blocks, old_blocks, appends, short_appends, reads,
    snapshots, snapshot_of_files, upgrades, upgrade_of_files, moves_rolled_back,
    replicas, replicas_among_edits, reports, scans,
]  # fmt: skip


class TooLong(Exception):
    """A run takes more processor seconds than it may."""


class Run:
    """The processor seconds and the peak bytes of a run."""

    limit = 0

    def __init__(self, words, source=None, target=None):
        bound = (Run.limit, Run.limit + 1)
        with open(os.devnull, "r+b") as nothing:
            child = subprocess.Popen(
                words,
                stdin=source or nothing,
                stdout=target or nothing,
                stderr=nothing,
                preexec_fn=lambda: resource.setrlimit(resource.RLIMIT_CPU, bound),
            )
        _, status, usage = os.wait4(child.pid, 0)
        child.returncode = os.waitstatus_to_exitcode(status)
        if child.returncode in (-signal.SIGXCPU, -signal.SIGKILL):
            raise TooLong
        if child.returncode != 0:
            sys.exit(f"{' '.join(words)}: status {child.returncode}")
        self.seconds = usage.ru_utime + usage.ru_stime
        self.memory = usage.ru_maxrss * 1024


class Script:
    """Lines in a file, which is never held whole: a child's peak counts what its Python held when it began."""

    def __init__(self, *parts):
        self.source = tempfile.TemporaryFile()
        self.count = 0
        for line in itertools.chain(*parts):
            self.source.write(line.encode() + b"\n")
            self.count += 1

    def run(self, program, options):
        """A run, each line of which has to be accepted."""
        self.source.seek(0)
        with tempfile.TemporaryFile() as target:
            ran = Run([program, *options], self.source, target)
            target.seek(0)
            answers = 0
            for answer in target:
                answers += 1
                if answer.startswith(b"refused"):
                    sys.exit(f"answer {answers} is: {answer.decode().strip()}")
        if answers != self.count:
            sys.exit(f"{answers:,} answers to {self.count:,} lines")
        return ran


class Size:
    """What is measured of a kind at a size: the least of several runs, since whatever else a machine does only adds to them."""

    def __init__(self, make, n):
        self.kind = make(n)
        self.before = Script(make(n).before)
        self.whole = Script(self.kind.before, self.kind.lines)
        self.times = {}
        self.memory = 0

    def keep(self, name, seconds):
        self.times[name] = min(seconds, self.times.get(name, seconds))

    def measure(self, options):
        whole = self.whole.run(options.program, self.kind.options)
        self.keep("whole", whole.seconds)
        self.keep("prepared", self.before.run(options.program, self.kind.options).seconds)
        self.memory = whole.memory
        if self.kind.digests:
            part, count = self.kind.digests
            self.keep("digests", Run([options.digests, part, str(count)]).seconds)
            self.keep("no digests", Run([options.digests, part, "0"]).seconds)
        if self.kind.is_tree and options.before:
            self.keep("before", self.whole.run(options.before, []).seconds)
            self.keep("prepared before", self.before.run(options.before, []).seconds)

    def seconds(self):
        return self.times["whole"] - self.times["prepared"]

    def rate(self):
        return self.kind.count / self.seconds()

    def digests(self):
        """How many times as long as the digests alone, if there are any."""
        if "digests" not in self.times:
            return None
        return self.seconds() / (self.times["digests"] - self.times["no digests"])

    def held(self):
        """The peak for each byte that is stored on a server, if there are enough of these."""
        stored = REPLICAS * self.kind.stored
        return self.memory / stored if stored >= LEAST_STORED else None

    def least_rate(self):
        """How many lines a second there have to be, if that is said."""
        if not self.kind.is_tree:
            return None
        if "before" not in self.times:
            return LEAST_RATE
        before = self.kind.count / (self.times["before"] - self.times["prepared before"])
        return before * LEAST_RATE / RATE_BEFORE


class Row:
    """A kind at a size and at twice that."""

    def __init__(self, make, n):
        self.sizes = [Size(make, n), Size(make, 2 * n)]

    def measure(self, options):
        for size in self.sizes:
            size.measure(options)

    def is_long(self):
        return min(size.seconds() for size in self.sizes) >= LEAST_SECONDS

    def growth(self):
        small, large = self.sizes
        return large.seconds() / small.seconds()

    def passed(self):
        """The bounds that are passed."""
        if not self.is_long():
            return []
        found = [f"growth over {MOST_GROWTH}"] if self.growth() > MOST_GROWTH else []
        sizes = self.sizes
        if any(size.kind.ratio and size.digests() > size.kind.ratio for size in sizes):
            found.append(f"digests over {sizes[0].kind.ratio}")
        if any(size.held() and size.held() > MOST_MEMORY for size in sizes):
            found.append(f"memory over {MOST_MEMORY}")
        least = sizes[-1].least_rate()
        if least and sizes[-1].rate() < least:
            found.append(f"below {least:,.0f} a second")
        return found

    def print(self):
        small, large = self.sizes
        is_long = self.is_long()
        columns = [
            (12, f"{small.rate():,.0f}" if is_long else "-"),
            (12, f"{large.rate():,.0f}" if is_long else "-"),
            (8, f"{large.rate() * large.kind.size / 1e6:,.1f}" if is_long and large.kind.size else ""),
            (7, f"{self.growth():.2f}" if is_long else "-"),
            *((8, f"{size.digests():.2f}" if is_long and size.digests() else "") for size in self.sizes),
            *((8, f"{size.held():.2f}" if size.held() else "") for size in self.sizes),
        ]
        shown = "".join(f"{text:>{width}}" for width, text in columns)
        verdict = ", ".join(self.passed()) or ("well" if is_long else "too short")
        print(f"{small.kind.name:<20}{shown}  {verdict}", flush=True)


def show(make, options):
    """Measures a kind, more often where a bound is passed, and prints its row. Says whether all is well."""
    row = Row(make, options.n)
    try:
        for times in range(3 * options.repeats):
            if times >= options.repeats and not row.passed():
                break
            row.measure(options)
    except TooLong:
        print(f"{make(1).name:<20}  a run takes more than {options.limit} seconds", flush=True)
        return False
    row.print()
    return not row.passed()


def parsed():
    parser = argparse.ArgumentParser()
    parser.add_argument("n", nargs="?", type=int, default=100_000, help="how many tree commands; of what costs more a part of that")
    parser.add_argument("--program", help="the built program, which else is built")
    parser.add_argument("--digests", help="the built gs_bench, which else is built")
    parser.add_argument("--before", help="a program that tree commands are measured against")
    parser.add_argument("--repeats", type=int, default=3)
    parser.add_argument("--limit", type=int, default=120, help="processor seconds that a run may take")
    parser.add_argument("--only", default="", help="kinds with this in their names")
    return parser.parse_args()


def main():
    options = parsed()
    Run.limit = options.limit
    if not options.program:
        subprocess.run([SHELL, "--build"], check=True)
        options.program = PROGRAM
    if not options.digests:
        options.digests = beside.built()
    n = options.n
    head = ["a second, n", "2n", "MB/s", "2n/n", "digests", "2n", "memory", "2n"]
    print(f"{f'n = {n}':<20}" + "".join(f"{word:>{width}}" for width, word in zip([12, 12, 8, 7, 8, 8, 8, 8], head)), flush=True)
    well = [show(make, options) for make in KINDS if options.only in make(1).name]
    return 0 if all(well) else 1


if __name__ == "__main__":
    sys.exit(main())
