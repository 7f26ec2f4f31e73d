#!/usr/bin/env python3
"""Runs the built program at sizes a hundred times those of its tests and more, and looks at how it ends.

    bench/sizes.py [PART OF 1 TO 100] [--program PATH] [--only WORD]

prints for each size the lines, the seconds and the greatest memory in use. It ends with status 1 where a run ends by a signal or with
another status than 0, answers fewer or more lines than it was given, refuses more or fewer than it should, or answers something else
than is expected at the end; or where memory grows with a size of which it isn't to: it takes more than 1.1 times that of a tenth of
the size, and 1 MB. A number makes each size that many hundredths of its own; a word leaves those without it in their names out."""

import argparse
import itertools
import os
import subprocess
import sys
import tempfile
import time

ROOT = os.path.dirname(os.path.dirname(os.path.abspath(__file__)))
SHELL = os.path.join(ROOT, "chunkstore")
PROGRAM = os.path.join(ROOT, "crates", "chunkstore", "out", "chunkstore")
MILLION = 1_000_000
DEPTH = 64
MOST_CHUNKS = 4096
LONG_LINE = 50_000_000
LEAST_LONG_LINE = 2_500_000
SHOWN = 60
MEASURE = "--measure"
# Where memory isn't to grow with a size: it may take so many times that of a tenth of it, and so many bytes more.
MOST_GROWTH = 1.1
MOST_MORE = 1_000_000
# How often it is looked at how much memory a run takes, which tells nothing of a shorter run than this.
LOOK_SECONDS = 0.005
LEAST_SECONDS = 0.1


class Size:
    """A script of lines, each answered by one line, what stands at the end of the answers, how many are refusals, the options
    of the run, and whether its memory is to be that of a tenth of it."""

    def __init__(self, name, lines, last, refusals=0, options=(), is_level=False):
        self.name = name
        self.lines = lines
        self.last = last
        self.refusals = refusals
        self.options = list(options)
        self.is_level = is_level


def names(prefix, n):
    """Names that rise by their bytes."""
    width = len(str(n))
    return [f"{prefix}{i:0{width}}" for i in range(n)]


def edits_since_prepare(n):
    files = names("f", n)
    lines = itertools.chain(["rollingUpgrade prepare"], (f"create /{f}" for f in files), ["rollingUpgrade rollback", "ls /"])
    return Size("edits since prepare, rolled back", lines, ["ok 2", "ok"])


def mixed_edits_since_prepare(n):
    """Each group makes a directory and a file, moves it to and fro and deletes it."""
    groups = n // 5

    def group(i):
        return [f"mkdir /a/d{i}", f"create /a/d{i}/f", f"mv /a/d{i} /b/d{i}", f"mv /b/d{i} /a/d{i}", f"rm -r /a/d{i}"]

    lines = itertools.chain(
        ["mkdir /a", "mkdir /b", "create /a/kept", "rollingUpgrade prepare"],
        itertools.chain.from_iterable(map(group, range(groups))),
        ["rollingUpgrade rollback", "ls /a", "ls /b"],
    )
    return Size("mixed edits since prepare, rolled back", lines, ["ok 2", "ok kept", "ok"])


def names_rolled_back(n):
    """Files that stand before a prepare, so that the commit of a rollback copies them."""
    lines = itertools.chain((f"create /{f}" for f in names("f", n)), ["rollingUpgrade prepare", "mkdir /d", "rollingUpgrade rollback", "mkdir /d"])
    return Size("names of before a prepare, rolled back", lines, ["ok 2", "ok"])


def one_directory(n):
    files = names("f", n)
    lines = itertools.chain(["mkdir /a"], (f"create /a/{f}" for f in files), ["ls /a"])
    return Size("entries in one directory, listed", lines, ["ok", "ok " + " ".join(files)])


def deep_paths(n):
    """Every path has as many elements as one may have, and all is moved and rolled back there."""
    top = "/" + "/".join(["d"] * (DEPTH - 2))
    count = n // DEPTH
    lines = itertools.chain(
        ["rollingUpgrade prepare"],
        (f"mkdir {top}/x{i}/y" for i in range(count)),
        (f"mv {top}/x{i}/y {top}/x{i}/z" for i in range(count)),
        (f"ls {top}/x{i}" for i in range(count)),
        [f"ls {top}/x0/z", f"mkdir {top}/x0/z/past", "mv /d /e", "rollingUpgrade rollback", "ls /"],
    )
    return Size(f"paths of {DEPTH} elements", lines, ["ok", "refused 1 BadPath", "ok", "ok 2", "ok"], refusals=1)


def rename_to_and_fro(n):
    files = names("f", n)
    lines = itertools.chain(
        ["mkdir /a", "mkdir /b"],
        (f"create /a/{f}" for f in files),
        ["rollingUpgrade prepare", "mv /a /b", "mv /b/a /c", "mv /c /a", "rm -r /a", "rollingUpgrade rollback", "ls /"],
    )
    return Size("entries renamed to and fro", lines, ["ok 2", "ok a/ b/"])


def long_lines(n):
    """Lines far past the greatest length of one, of one element, of many and of many words."""
    n = max(n, LEAST_LONG_LINE)
    lines = [
        "create /" + "a" * n,
        "mkdir " + "/a" * (n // 2),
        "mv /" + " /" * (n // 2),
        "\x00" * n,
        "ls /",
    ]
    return Size("bytes in a line", iter(lines), ["refused 34 BadLine"] * 4 + ["ok"], refusals=4)


# Chunks and blocks so small that a run's time isn't that of its digests.
SMALL = ["--chunk", "16", "--block", "4"]
BLOCKS = ["--chunk", "1048576", "--block", "4096"]


def chunks_of_a_file(n):
    """One write over so many chunks, and their view."""
    held = "61" * (16 * n)
    lines = ["create /f", f"write /f 0 {held}", f"read /f {16 * n - 2} 9", f"append /f 62", f"read /f {16 * n} 1"]
    past = n >= MOST_CHUNKS
    last = ["ok 6161", "refused 25 Range" if past else f"ok {16 * n}", "ok" if past else "ok 62"]
    return Size("chunks of one file", iter(lines), last, refusals=1 if past else 0, options=SMALL)


def appends(n):
    lines = itertools.chain(["create /f"], itertools.repeat("append /f " + "61" * 100, n), ["append /f 62"])
    per_chunk = 1048576 // 100
    whole, rest = divmod(n, per_chunk)
    return Size("appends of 100 bytes to one file", lines, [f"ok {whole * 1048576 + rest * 100}"], options=BLOCKS)


def snapshots(n):
    """Each snapshot is followed by a write, which copies the chunk."""
    lines = itertools.chain(
        ["create /f", "write /f 0 6161"],
        itertools.chain.from_iterable((f"snapshot /f /s{i}", "write /f 1 62") for i in range(n)),
        ["read /f 0 9", "read /s0 0 9", f"read /s{n - 1} 0 9"],
    )
    return Size("snapshots, each with a copy on write", lines, ["ok 6162", "ok 6161", "ok 6162"], options=SMALL)


def writes_since_prepare(n):
    """Files that are written over after a prepare, so that each server keeps what stood, and rolled back."""
    files = names("f", n)
    lines = itertools.chain(
        itertools.chain.from_iterable((f"create /{f}", f"write /{f} 0 61") for f in files),
        ["rollingUpgrade prepare"],
        (f"write /{f} 0 62" for f in files),
        ["rollingUpgrade rollback", f"read /{files[0]} 0 9", f"read /{files[-1]} 0 9"],
    )
    return Size("files written since prepare, rolled back", lines, ["ok 2", "ok 61", "ok 61"], options=SMALL)


def upgrades(n):
    """Upgrades one after the other, every other one of which is rolled back."""
    def one(i):
        return ["rollingUpgrade prepare", f"write /f 0 {i % 256:02x}", f"rollingUpgrade {'finalize' if i % 2 else 'rollback'}"]

    lines = itertools.chain(["create /f", "write /f 0 ff"], itertools.chain.from_iterable(map(one, range(n))), ["rollingUpgrade query"])
    return Size("upgrades one after the other", lines, [f"ok ordinary {2 * n}"], options=SMALL)


def healed(n):
    """Files of which one server loses its replicas, made anew one after the other."""
    files = names("f", n)
    lines = itertools.chain(
        itertools.chain.from_iterable((f"create /{f}", f"write /{f} 0 61") for f in files),
        (f"lose 0 {i}" for i in range(1, n + 1)),
        ["beat 0"],
        itertools.repeat("replicate", n),
        ["replicate", f"read /{files[0]} 0 9", f"read /{files[-1]} 0 9"],
    )
    return Size("files of which replicas are lost, healed", lines, ["ok none", "ok 61", "ok 61"], options=SMALL)


def requests(n):
    """Requests of one client, after which nothing of them is kept."""
    lines = itertools.chain(["create /f", "write /f 0 61"], itertools.repeat("read /f 0 1", n))
    return Size("reads", lines, ["ok 61"], options=SMALL, is_level=True)


def held_messages(n):
    """Reports that are held back, each answered with the drops that it brought."""
    lines = itertools.chain(["hold on report"], itertools.repeat("beat 0", n), ["hold off", f"deliver {n}", "beat 0"])
    return Size("messages held back", lines, ["ok", "ok", "ok 0"], options=SMALL)


def scanned(n):
    """Deleted files, all of which one scan removes. Before it the names take what they take."""
    files = names("f", n)
    lines = itertools.chain((f"create /{f}" for f in files), (f"rm /{f}" for f in files), ["at 300000", "scan", "scan", "ls /"])
    return Size("deleted files, scanned at once", lines, [f"ok {n} 0", "ok 0 0", "ok"])


SIZES = [
    (edits_since_prepare, MILLION),
    (mixed_edits_since_prepare, MILLION),
    (names_rolled_back, MILLION),
    (one_directory, MILLION),
    (deep_paths, MILLION),
    (rename_to_and_fro, MILLION),
    (long_lines, LONG_LINE),
    (chunks_of_a_file, MOST_CHUNKS),
    (appends, 100_000),
    (snapshots, 1_000),
    (writes_since_prepare, 100_000),
    (upgrades, 1_000),
    (healed, 100_000),
    (scanned, MILLION),
    (requests, MILLION),
    (held_messages, MILLION),
]


def write_script(lines, target):
    count = 0
    for line in lines:
        target.write(line.encode() + b"\n")
        count += 1
    target.seek(0)
    return count


def seen_of(pid):
    """The greatest memory until now of a process that runs, in bytes, where the system tells it, or 0."""
    try:
        with open(f"/proc/{pid}/status") as told:
            return next((int(line.split()[1]) * 1024 for line in told if line.startswith("VmHWM:")), 0)
    except OSError:
        return 0


def measure(words):
    """Runs a program on this process's input and output, and tells on standard error how it ended, its seconds and its
    greatest memory. A process of its own, since a program's memory is counted from that of the process that starts it. Where it
    takes no more than that, what was last seen of its own is told, unless it ran too short."""
    begin = time.perf_counter()
    child = subprocess.Popen(words)
    seen, pid = 0, 0
    while not pid:
        seen = seen_of(child.pid) or seen
        time.sleep(LOOK_SECONDS)
        pid, status, usage = os.wait4(child.pid, os.WNOHANG)
    child.returncode = os.waitstatus_to_exitcode(status)
    seconds = time.perf_counter() - begin
    counted = usage.ru_maxrss * 1024
    is_seen = seen and seconds >= LEAST_SECONDS and counted <= seen_of(os.getpid())
    print(child.returncode, seconds, seen if is_seen else counted, file=sys.stderr)


class Run:
    """The lines of a size, how their run ended (below 0: by that signal), its seconds, its greatest memory in bytes and its answers."""

    def __init__(self, program, size):
        with tempfile.TemporaryFile() as source, tempfile.TemporaryFile() as target:
            self.count = write_script(size.lines, source)
            words = [sys.executable, __file__, MEASURE, program, *size.options]
            ran = subprocess.run(words, stdin=source, stdout=target, stderr=subprocess.PIPE, text=True, check=True)
            status, seconds, memory = ran.stderr.split()[-3:]
            self.status, self.seconds, self.memory = int(status), float(seconds), int(memory)
            target.seek(0)
            self.answers = target.read().decode(errors="replace").splitlines()


def judge(run, size):
    """What is wrong with a run, if anything."""
    if run.status != 0:
        return f"status {run.status}"
    if len(run.answers) != run.count:
        return f"{len(run.answers):,} answers to {run.count:,} lines"
    refusals = sum(answer.startswith("refused") for answer in run.answers)
    if refusals != size.refusals:
        return f"{refusals:,} refusals"
    for answer, wanted in zip(run.answers[len(run.answers) - len(size.last):], size.last):
        if answer != wanted:
            return f"answered {answer[:SHOWN]!r} and not {wanted[:SHOWN]!r}"
    return None


def judge_memory(run, tenth):
    """What is wrong with the memory of a run beside that of a tenth of its size, if anything."""
    if run.memory > MOST_GROWTH * tenth.memory + MOST_MORE:
        return f"a tenth takes {tenth.memory / 1e6:.1f} MB"
    return None


def try_size(program, make, n):
    """Runs one size, prints its row, and tells whether all was well."""
    size = make(n)
    run = Run(program, size)
    wrong = judge(run, size)
    if size.is_level and wrong is None:
        size_below = make(n // 10)
        tenth = Run(program, size_below)
        wrong = judge(tenth, size_below) or judge_memory(run, tenth)
    print(f"{n:>12,} {size.name:<40} {run.count:>10,} {run.seconds:>9.2f} {run.memory / 1e6:>9.1f}  {wrong or 'well'}", flush=True)
    return wrong is None


def hundredths(word):
    number = int(word)
    if not 1 <= number <= 100:
        raise argparse.ArgumentTypeError("it has to be 1 to 100")
    return number


def parsed():
    parser = argparse.ArgumentParser()
    parser.add_argument("part", nargs="?", type=hundredths, metavar="PART", default=100, help="how many hundredths of its own each size has, 1 to 100")
    parser.add_argument("--program", help="the built program, which else is built")
    parser.add_argument("--only", default="", help="sizes with this in their names")
    return parser.parse_args()


def main():
    if sys.argv[1:2] == [MEASURE]:
        return measure(sys.argv[2:])
    options = parsed()
    if not options.program:
        subprocess.run([SHELL, "--build"], check=True)
        options.program = PROGRAM
    print(f"{'n':>12} {'':<40} {'lines':>10} {'seconds':>9} {'MB':>9}", flush=True)
    well = [try_size(options.program, make, n * options.part // 100) for make, n in SIZES if options.only in make(1).name]
    return 0 if all(well) else 1


if __name__ == "__main__":
    sys.exit(main())
