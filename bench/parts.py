#!/usr/bin/env python3
"""Measures parts of the store by themselves, by a small program over their crates. No test.

    bench/parts.py [n] [names|journal|blocks|servers|master ..]

It ends with status 1 where a bound is passed that stands beside what is printed."""

import os
import subprocess
import sys

import beside

REPEATS = 3
LEAST_SECONDS = 0.005
# What has passed its bound, as it is printed.
PASSED = []


def judged(what, value, most=None, least=None):
    """A value with its bound beside it, noted where it passes that."""
    said = f"{value:.2f} (at most {most})" if most is not None else f"{value:.2f} (at least {least})"
    if most is not None and value > most or least is not None and value < least:
        PASSED.append(f"{what}: {said}")
    return said


def used(part, count):
    """What a run of the part has used."""
    with subprocess.Popen([beside.PROGRAM, part, str(count)], stderr=subprocess.DEVNULL) as run:
        _, status, used = os.wait4(run.pid, 0)
        run.returncode = os.waitstatus_to_exitcode(status)
    if run.returncode:
        raise SystemExit(f"{part} {count} ended with {run.returncode}")
    return used


def seconds(part, count):
    """Processor seconds, the least of some runs: whatever else runs on the machine only adds to them."""
    runs = [used(part, count) for _ in range(REPEATS)]
    return min(run.ru_utime + run.ru_stime for run in runs)


# A part of the names, and the part whose time is taken off it.
NAMES = [("build", None), ("copy", "build"), ("chunks", "build"), ("remove", "chunks"), ("plant", "remove"), ("snapshot", "chunks")]
# The same of the journal.
JOURNAL = [("record", None), ("open", "record")]
# Parts on blocks of 64 KB, the first of which is the library's digest alone.
BLOCKS = ["digest", "write", "append", "read"]
BLOCK = 65536
# A server's parts, the digests alone beside which each stands, and how many times as long it may take.
SERVER = [("server-store", "digest", 1.2), ("server-write", "digest", 2.4), ("server-append", "digest-appends", 2), ("server-read", "digest", 1.2)]
# A part of the master's journal and of its names, and the part whose time is taken off it.
MASTER = [("calls", None), ("files", None), ("recover", "calls"), ("renew", "calls"), ("recover-renewed", "renew")]
# Parts behind 100 files of one chunk each, and behind 100,000.
SIZED = ["calls", "ticks", "leased-ticks"]


def row(name, times, more=()):
    shown = [f"{1000 * t:,.1f}" if t >= LEAST_SECONDS else "-" for t in times]
    growths = [f"{b / a:.2f}" if min(a, b) >= LEAST_SECONDS else "-" for a, b in zip(times, times[1:])]
    print(f"{name:<14}", *(f"{s:>14}" for s in shown), *(f"{g:>8}" for g in growths), *(f"{m:>10}" for m in more), flush=True)


def head(sizes, more=()):
    print(f"{'milliseconds':<14}", *(f"{'n = ' + str(s):>14}" for s in sizes), f"{'2n/n':>8}", f"{'4n/2n':>8}", *(f"{m:>10}" for m in more), flush=True)


def show_differences(parts, n):
    sizes = [n, 2 * n, 4 * n]
    head(sizes)
    for part, less in parts:
        row(part, [seconds(part, m) - (seconds(less, m) if less else 0) for m in sizes])


def written(part, count):
    """The bytes that the part says it has written to its disks."""
    said = subprocess.run([beside.PROGRAM, part, str(count)], check=True, stderr=subprocess.PIPE, text=True).stderr
    return int(said.split()[0])


def show_journal(n):
    show_differences(JOURNAL, n)
    print(f"records added a second, in memory: {4 * n / (seconds('record', 4 * n) - seconds('record', 0)):,.0f}", flush=True)
    print(f"bytes written for each record of 14 bytes: {(written('record', 2 * n) - written('record', n)) / n:.2f}", flush=True)


def show_blocks(n):
    sizes = [n, 2 * n, 4 * n]
    head(sizes, ["digests"])
    digests = None
    for part in BLOCKS:
        start = seconds(part, 0)
        times = [seconds(part, m) - start for m in sizes]
        digests = digests or times[-1]
        row(part, times, [f"{times[-1] / digests:.2f}"])


def peak(part, count):
    """The most memory that the part holds, in bytes."""
    return 1024 * used(part, count).ru_maxrss


def show_against(part, digests, n, most):
    """A server's part at three sizes, beside the digests that it needs at the last one."""
    sizes = [n, 2 * n, 4 * n]
    start = seconds(part, 0)
    times = [seconds(part, m) - start for m in sizes]
    needs = seconds(digests, 4 * n) - seconds(digests, 0)
    row(part, times, [judged(f"{part}, beside {digests}", times[-1] / needs, most)])


def show_servers(n):
    head([n, 2 * n, 4 * n], ["digests"])
    for part, digests, most in SERVER:
        show_against(part, digests, n, most)
    few, many = 10, 10000
    ticks = [seconds("server-tick", m) - seconds("server-hold", m) for m in (few, many)]
    print(f"100,000 ticks with one edit that waits, of {few} replicas and of {many:,}: {1000 * ticks[0]:,.1f} and {1000 * ticks[1]:,.1f} ms, times {judged('ticks', ticks[1] / ticks[0], 2)}", flush=True)
    report = seconds("server-report", many) - seconds("server-hold", many)
    print(f"100 reports of {many:,} replicas: {1000 * report:,.1f} ms", flush=True)
    blocks = 1000
    print(f"peak memory of {blocks:,} blocks stored in one chunk, beside their bytes: {judged('peak memory', peak('server-store', blocks) / (blocks * BLOCK), 1.6)}", flush=True)


def show_master(n):
    """What calls of the master cost beside the names alone, how that grows, and the memory of files and chunks."""
    show_differences(MASTER, n)
    calls, names = (seconds(part, 4 * n) - seconds(part, 0) for part in ("calls", "build"))
    print(f"calls that make a file, a second: {4 * n / calls:,.0f}; of the names alone: {4 * n / names:,.0f}; ratio {judged('calls beside names', names / calls, least=0.5)}", flush=True)
    for part in SIZED:
        few, many = ((seconds(f"{part}-{size}", 4 * n) - seconds(f"{part}-{size}", 0)) / (4 * n) for size in ("few", "many"))
        print(f"{part}: {1e6 * few:.2f} microseconds behind 100 files of one chunk, {1e6 * many:.2f} behind 100,000; ratio {judged(part, many / few, 2)}", flush=True)
    file, both = ((peak(part, 4 * n) - peak(part, 2 * n)) / (2 * n) for part in ("calls", "files"))
    print(f"bytes in memory, with the journal's: {file:,.0f} for a file, {both - file:,.0f} for its chunk", flush=True)
    growth = peak("forgotten", 10) / peak("forgotten", 2)
    print(f"peak memory of 100,000 chunks made and forgotten ten times, beside twice: {judged('chunks forgotten', growth, 1.1)}", flush=True)


# What can be shown, each with what it is shown for, of n.
SHOWN = {
    "names": lambda n: show_differences(NAMES, n),
    "journal": lambda n: show_journal(40 * n),
    "blocks": lambda n: show_blocks(n // 50),
    "servers": lambda n: show_servers(n // 50),
    "master": show_master,
}


def main():
    words = sys.argv[1:]
    n = int(words.pop(0)) if words and words[0].isdecimal() else 25000
    if not set(words) <= set(SHOWN):
        raise SystemExit(__doc__)
    beside.built()
    for name in words or SHOWN:
        SHOWN[name](n)
    for line in PASSED:
        print(f"passed its bound: {line}", flush=True)
    return 1 if PASSED else 0


if __name__ == "__main__":
    sys.exit(main())
