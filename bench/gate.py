#!/usr/bin/env python3
"""What the gate costs, crate by crate.

    bench/gate.py run LOG     runs rt ci from nothing, writes what it says into LOG, and behind it the processor seconds of each crate
    bench/gate.py show LOG    prints the table of such a log

The seconds of a crate are those of the checker's processes, looked at twice a second; those of the whole run are exact."""

import collections
import os
import resource
import subprocess
import sys
import time

ROOT = os.path.dirname(os.path.dirname(os.path.abspath(__file__)))
TICKS = os.sysconf("SC_CLK_TCK")
MARK = "gate:"
KINDS = ("proof", "edits")
OTHER = "everything else"


def anew():
    """The word by which `rt ci` proves all from nothing, where the kit keeps what it has passed."""
    keeps = "--anew" in subprocess.run(["rt", "help"], capture_output=True, text=True).stderr
    return ["--anew"] if keeps else []


def descendants(top):
    """The processes below one, itself not among them."""
    parents = collections.defaultdict(list)
    for name in filter(str.isdigit, os.listdir("/proc")):
        try:
            with open(f"/proc/{name}/stat") as stat:
                parents[int(stat.read().rpartition(")")[2].split()[1])].append(int(name))
        except OSError:
            continue
    found, left = [], [top]
    while left:
        below = parents[left.pop()]
        found += below
        left += below
    return found


def task_of(pid):
    """The crate that a process checks or builds, and what of it; None where it is no process of the checker."""
    with open(f"/proc/{pid}/cmdline", "rb") as line:
        words = line.read().decode(errors="replace").split("\0")
    if "--crate-name" not in words or not words[0].endswith("/rattle"):
        return None
    crate = words[words.index("--crate-name") + 1]
    if "/rt-edit-" in os.readlink(f"/proc/{pid}/cwd"):
        return crate, "edits"
    # The proof of a crate's tests is part of its own.
    return crate, "proof"


def seconds_of(pid):
    with open(f"/proc/{pid}/stat") as stat:
        fields = stat.read().rpartition(")")[2].split()
    return (int(fields[11]) + int(fields[12])) / TICKS


def look(top, spent):
    """Notes the seconds that each process of the checker has taken so far."""
    for pid in descendants(top):
        try:
            task = task_of(pid)
            if task:
                spent[pid, task] = seconds_of(pid)
        except OSError:
            continue


def run(log):
    spent = {}
    begin = time.perf_counter()
    with open(log, "w") as out:
        gate = subprocess.Popen(["rt", "ci", *anew()], cwd=ROOT, stdin=subprocess.DEVNULL, stdout=out, stderr=subprocess.STDOUT)
        while gate.poll() is None:
            look(gate.pid, spent)
            time.sleep(0.5)
    usage = resource.getrusage(resource.RUSAGE_CHILDREN)
    sums = collections.Counter()
    for (_, task), seconds in spent.items():
        sums[task] += seconds
    with open(log, "a") as out:
        for (crate, kind), seconds in sorted(sums.items()):
            print(MARK, crate, kind, round(seconds), file=out)
        print(MARK, "whole", "processor", round(usage.ru_utime + usage.ru_stime), file=out)
        print(MARK, "whole", "elapsed", round(time.perf_counter() - begin), file=out)
    return gate.returncode


def lines_in(folder, ending):
    count = 0
    for at, _, names in os.walk(folder):
        for name in names:
            if name.endswith(ending):
                with open(os.path.join(at, name), encoding="utf-8") as text:
                    count += sum(1 for _ in text)
    return count


def edits_in(folder):
    return len([name for name in os.listdir(folder) if name.endswith(".edit")]) if os.path.isdir(folder) else 0


def read_log(log):
    """The seconds by crate and kind, and what rt ci said last."""
    seconds, said = collections.Counter(), ""
    with open(log, encoding="utf-8", errors="replace") as lines:
        for line in lines:
            words = line.split()
            if words[:1] == [MARK]:
                # In an older log the tests of a crate stand by themselves.
                kind = "proof" if words[2] == "tests" else words[2]
                seconds[words[1], kind] += int(words[3])
            elif " passed, " in line:
                said = line.strip()
    return seconds, said


def show(log):
    seconds, said = read_log(log)
    crates = sorted({crate for crate, _ in seconds if crate != "whole"})
    print("| crate | code | specs | proofs | wrong bodies in the gate, beside it | seconds of its proof | of its wrong bodies |")
    print("|---|---|---|---|---|---|---|")
    totals = collections.Counter()
    for crate in crates:
        folder = os.path.join(ROOT, "crates", crate)
        sizes = [lines_in(f"{folder}/src", ".rt"), lines_in(f"{folder}/specs", ".antt"), lines_in(f"{folder}/proofs", ".antt")]
        sizes += [edits_in(f"{folder}/must-fail"), edits_in(f"{folder}/wrong-bodies")]
        spent = [seconds.get((crate, kind), 0) for kind in KINDS]
        for at, number in enumerate(sizes + spent):
            totals[at] += number
        print(f"| `{crate}` | {sizes[0]} | {sizes[1]} | {sizes[2]} | {sizes[3]}, {sizes[4]} | " + " | ".join(str(s or "") for s in spent) + " |")
    print(f"| all | {totals[0]} | {totals[1]} | {totals[2]} | {totals[3]}, {totals[4]} | {totals[5]} | {totals[6]} |")
    whole = seconds.get(("whole", "processor"), 0)
    rest = whole - totals[5] - totals[6]
    print(f"\n{said}: {whole / 60:.0f} processor minutes, {rest / 60:.0f} of them {OTHER}, in {seconds.get(('whole', 'elapsed'), 0) / 60:.0f} minutes")
    return 0


def main():
    if len(sys.argv) != 3 or sys.argv[1] not in ("run", "show"):
        sys.exit(__doc__)
    return run(sys.argv[2]) if sys.argv[1] == "run" else show(sys.argv[2])


if __name__ == "__main__":
    sys.exit(main())
