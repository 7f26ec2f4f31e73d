#!/usr/bin/env python3
"""Builds the simulator, bench/chunksim, unproved, and runs it.

    bench/simulate.py [--seed N] [--seeds N] [--steps N] [--clients N] [--servers N] [--racks N] [--replicas N] [--block N] [--chunk N]
                      [--tell] [--go-on]
    bench/simulate.py --landing

draws what happens to a store by its seed alone, and looks behind each event at what a user believes of it. The status is 1 where that
doesn't hold, with the seed, the number of the event and both sides on standard output. What isn't said is drawn, but for 1 seed of 2,000
steps and 4 clients. --tell prints each event and what came of it. Where standard error is a terminal, a line there says once a second how
far it is. --landing runs 100 seeds of 2,000 steps, and ends with the line 'N passed, M failed': a seed passes where all that is believed
holds and the simulator says so at its end, each thing that is counted, a kind of event or what came of them, where there was one over the
seeds, one thing more where four fifths of the steps were run, and each seed that told something once. See bench/README.md."""

import re
import subprocess
import sys

import beside

LANDING_SEEDS = 100
LANDING_STEPS = 2000
# Seeds at which the store was right and a belief too strict: in this one two clients copy both places of a shared chunk at once.
ODD_SEEDS = (7003203,)
# The line with which a run ends that wasn't stopped by a failure.
ENDED = re.compile(r"^(\d+) seeds held, (\d+) events in all$", re.M)
# What has to be counted, beside how often each kind of event came about.
NEEDED = (
    "edits acknowledged",
    "files read back",
    "files written to by the client",
    "prepares accepted",
    "rollbacks accepted",
    "chunks rolled back from a copy with an image",
)


def landing(program):
    """Runs the seeds of a landing and tells how many passed: of the seeds, of what is counted over them, and whether enough events ran."""
    words = ["--seeds", str(LANDING_SEEDS), "--steps", str(LANDING_STEPS), "--go-on"]
    run = subprocess.run([program, *words], stdout=subprocess.PIPE, text=True)
    print(run.stdout, end="")
    ended = ENDED.search(run.stdout)
    held, events = (int(ended[1]), int(ended[2])) if ended else (0, 0)
    counts = {name: 0 for name in NEEDED}
    counts.update((name, int(many)) for name, many in re.findall(r"^(\D+): (\d+)$", run.stdout, re.M))
    missing = [name for name, many in counts.items() if many == 0]
    for name in missing:
        print(f"none: {name}")
    is_short = 5 * events < 4 * LANDING_SEEDS * LANDING_STEPS
    if is_short:
        print(f"{events} events ran, fewer than four fifths of {LANDING_SEEDS * LANDING_STEPS}")
    odd = [subprocess.run([program, "--seed", str(seed), "--steps", str(LANDING_STEPS)]).returncode for seed in ODD_SEEDS]
    failed = LANDING_SEEDS - held + len(missing) + is_short + sum(map(bool, odd))
    if not failed and run.returncode:
        sys.exit(f"the simulator ended with status {run.returncode}")
    print(f"{LANDING_SEEDS + len(counts) + 1 + len(odd) - failed} passed, {failed} failed", flush=True)
    return 1 if failed else 0


def main():
    beside.placed("chunksim", ("src",))
    program = beside.native("chunksim")
    if sys.argv[1:] == ["--landing"]:
        return landing(program)
    return subprocess.run([program, *sys.argv[1:]]).returncode


if __name__ == "__main__":
    sys.exit(main())
