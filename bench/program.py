#!/usr/bin/env python3
"""Runs `chunkstore` as it stands, unproved, on one thread and in threads, and looks at what it answers, what it says and how it ends.

    bench/program.py [--program PATH]

The lines of crates/chunkstore/stdin are to be answered as crates/chunkstore/stdout tells, with status 0. Where a read or a write fails, that is
to be said, with status 1. Where the words of the command line are refused, that is to be said, with status 2 and no answer. On one thread and
with little memory it is to say at its end that no memory was left for something within the store. Without a program it is built. The last line is 'N passed, M failed', and the status is 1 where one failed."""

import argparse
import os
import re
import resource
import subprocess
import sys

import explain
import launch
from random_scripts import STRAYS

CRATE = os.path.join(launch.ROOT, "crates", "chunkstore")
# The words that choose how the nodes run.
PLACES = [[], ["--threads"]]
# Words that are none, lack a value, are given twice, or ask for sizes of no store.
BAD = [["--frob"], ["stray"], ["--servers"], ["--servers", "x"], ["--servers", "2"], ["--racks", "1", "--racks", "1"], ["--chunk", "0"]]
SECONDS = 60
# So much memory holds the program and what the first lines store, and not what the last one does.
LITTLE = 60_000_000
LARGE_LINES = b"create /f\nwrite /f 3000000 61\nwrite /f 30000000 61\n"
LARGE_ANSWERS = b"ok\nok\nrefused 29 Unsure\n"
# Lines that are none, each for a reason of its own, and some that are very nearly none.
ODD_LINES = (
    *(line.encode() for line in STRAYS),
    *(b"ls /\r", b"ls /\r\r", b"ls\t/", b" ls /", b"ls / ", b"mv /a", b"scan 1", b"at 7x", b"at 018446744073709551615", b"at 18446744073709551616"),
    *(b"append /f 616", b"append /f 6g", b"append /f", b"hold none", b"hold on calls", b"hold off", b"rollingUpgrade begin", b"rollback", b"\xff", b"ls /\xc3"),
    *(b"read /f 0 end", b"restart 99999999999999999999999", b"beat 1 2", b"lose 1", b"damage 0 1 2 3", b"deliver", b"x" * 1_048_577, b"ls /" + b"x" * 1_048_572),
)
# Words that make no store, and what is to be told of them.
NO_STORES = {
    "--servers 2": "--replicas 3: ",
    "--servers 17": "--servers 17: ",
    "--racks=0": "--racks 0: ",
    "--chunk 10 --block 4": "--chunk 10: ",
    "--chunk 1025 --block 1": "--chunk 1025: ",
    "--block 0": "--block 0: ",
}


def lines_of(name):
    with open(os.path.join(CRATE, name), "rb") as file:
        return file.read()


class Trials:
    """The program, and how many trials have passed and failed."""

    def __init__(self, program):
        self.program, self.passed, self.failed = program, 0, 0

    def judge(self, name, words, status, answers, said, **streams):
        """Runs it with some words. It is to end with this status, to answer this, where that is known, and to say what begins so, or nothing."""
        how = {"stdin": subprocess.DEVNULL, "stdout": subprocess.PIPE, "stderr": subprocess.PIPE, "timeout": SECONDS}
        if "input" in streams:
            del how["stdin"]
        try:
            done = subprocess.run([self.program, *words], **{**how, **streams})
        except subprocess.TimeoutExpired:
            done = None
        met = done is not None and done.returncode == status and done.stdout == answers
        met = met and (done.stderr.startswith(said) if said else done.stderr == b"")
        told = "as meant" if met else f"wanted status {status}, {answers!r} and {said!r}, met {done or 'no end'}"
        print(f"{' '.join([name, *words])}: {told}", flush=True)
        self.passed, self.failed = self.passed + met, self.failed + (not met)


    def look(self, name, met):
        print(f"{name}: {'as meant' if met else 'not as meant'}", flush=True)
        self.passed, self.failed = self.passed + met, self.failed + (not met)


def try_place(trials, place):
    lines, answers = lines_of("stdin"), lines_of("stdout")
    trials.judge("a script", place, 0, answers, b"", input=lines)
    trials.judge("no line", place, 0, b"", b"")
    folder = os.open(CRATE, os.O_RDONLY)
    trials.judge("a read that fails", place, 1, b"", b"chunkstore: ", stdin=folder)
    os.close(folder)
    with open("/dev/full", "wb") as full:
        trials.judge("a write that fails", place, 1, None, b"chunkstore: ", input=lines, stdout=full)
    for words in BAD:
        trials.judge("bad words", [*words, *place], 2, b"", b"error: ", input=lines)


def try_memory(trials):
    def little():
        resource.setrlimit(resource.RLIMIT_AS, (LITTLE, LITTLE))

    said = b"chunkstore: no memory was left for something within the store\n"
    trials.judge("little memory", [], 0, LARGE_ANSWERS, said, input=LARGE_LINES, preexec_fn=little)


def launched(name, words, lines=b""):
    done = subprocess.run([sys.executable, "bench/launch.py", name, *words], cwd=launch.ROOT, input=lines, capture_output=True, timeout=SECONDS)
    return done.returncode, done.stdout.splitlines(), done.stderr.decode()


def explained(place):
    """Which lines are explained, which are refused 34, and whether that is said of just those."""
    status, answers, said = launched("chunkstore", ["--explain", *place], b"\n".join(ODD_LINES))
    told = [int(number) for number in re.findall(r"^chunkstore: line (\d+): ", said, re.MULTILINE)]
    refused = [number for number, answer in enumerate(answers, 1) if answer == explain.BAD_LINE]
    judged = [number for number, line in enumerate(ODD_LINES, 1) if explain.wrong_line(line.removesuffix(b"\r"), bool(place))]
    return status == 0 and len(answers) == len(ODD_LINES) and len(said.splitlines()) == len(told) and told == refused == judged


def try_explaining(trials):
    trials.look("lines that are none are explained", [explained(place) for place in PLACES] == [True, True])
    for words, wanted in NO_STORES.items():
        status, answers, said = launched("chunkstore", ["--explain", *words.split()])
        trials.look(f"{words} is explained", status == 2 and not answers and said.startswith(f"chunkstore: {wanted}"))
    for name in ("chunkstore", "chunktrace"):
        status, answers, said = launched(name, ["--help"])
        is_whole = all(form in said for form in ("mkdir P", "deliver N", "--servers N")) and ("--explain" in said) == (name == "chunkstore")
        trials.look(f"{name} --help", status == 2 and not answers and said.startswith(f"Usage: {name} ") and is_whole)


def main():
    parser = argparse.ArgumentParser(description="Looks at what chunkstore answers, and how it ends.")
    parser.add_argument("--program")
    asked = parser.parse_args()
    trials = Trials(asked.program or launch.unproved_program("chunkstore"))
    for place in PLACES:
        try_place(trials, place)
    try_memory(trials)
    try_explaining(trials)
    print(f"{trials.passed} passed, {trials.failed} failed", flush=True)
    return 1 if trials.failed else 0


if __name__ == "__main__":
    sys.exit(main())
