#!/usr/bin/env python3
"""Judges what `chunkstore` answers to random scripts, by a machine of trees and bytes that is written by itself.

    bench/judge.py [--scripts N] [--lines N] [--turned N] [--seed N] [--program PATH] [--threads]

Each answer has to be explained by a plain machine with debts (bench/plain_lines.py). If nothing is said, 200 scripts of 100 lines are
judged, whose seeds follow one another from one that comes of the day's date. Of 50 more scripts one answer is turned in one sign or one
number, and of these 9 in 10 at least have to be refused. Worked scripts (bench/worked_answers.py) are explained with their right answers,
which the program gives, and refused with a wrong one. With --threads the nodes run in threads, and no worked script is tried. Without a
program it is built. What isn't as meant is told with the seed of its script: `--seed N --scripts 1 --turned 0` judges that one again. The
last line is 'N passed, M failed': each script is one, each worked script two, and the turned ones are one together. The status is 1 where
one failed."""

import argparse
import datetime
import itertools
import random
import subprocess
import sys
from collections.abc import Iterable, Iterator
from concurrent.futures import Executor, ProcessPoolExecutor
from dataclasses import dataclass

import launch
from plain_lines import Judge, Sizes
from plain_machine import TooManyStates
from random_scripts import random_script, turned
from worked_answers import WORKED, Worked

SECONDS = 120
PROCESSES = 2
SEEDS_OF_A_DAY = 1000
# Of so many turned answers so many at least have to be refused.
LEAST_REFUSED, OF_TURNED = 9, 10
# So many of what might have been answered are told.
MOST_TOLD = 8


@dataclass(frozen=True)
class Unexplained:
    """The first line whose answer the machine doesn't explain."""

    number: int
    line: str
    answer: str
    wanted: tuple[str, ...]

    def text(self) -> str:
        wanted = [*self.wanted[:MOST_TOLD], *(["..."] if len(self.wanted) > MOST_TOLD else [])]
        return f"line {self.number}: {self.line} -> {self.answer}, wanted {' or '.join(wanted)}"


@dataclass(frozen=True)
class Run:
    """What is asked of one process: the script of a seed, and whether an answer of it is turned."""

    program: str
    seed: int
    length: int
    in_threads: bool
    is_turned: bool


@dataclass(frozen=True)
class Verdict:
    """What came of it: whether all is explained, what is told of it, how many lines were answered, and how many of these by `Unsure`."""

    is_explained: bool
    told: str
    lines: int
    unsure: int


@dataclass(frozen=True)
class Trial:
    name: str
    is_met: bool
    told: str

    @property
    def is_told(self) -> bool:
        return not self.name.startswith("script")


def built() -> str:
    """The program as its sources stand, unproved."""
    return str(launch.unproved_program("chunkstore"))


def answers_of(program: str, sizes: Sizes, lines: list[str]) -> list[str]:
    """What the program answers to a script; behind a bad end fewer lines than there are."""
    script = "".join(f"{line}\n" for line in lines).encode()
    done = subprocess.run([program, *sizes.words()], input=script, stdout=subprocess.PIPE, timeout=SECONDS)
    return done.stdout.decode(errors="replace").split("\n")[:-1]


def unexplained(sizes: Sizes, lines: Iterable[str], answers: Iterable[str]) -> Unexplained | None:
    """The first answer that isn't explained, if there is one. A script is judged up to a line at which there are too many states to go on."""
    judge = Judge(sizes)
    for number, (line, answer) in enumerate(itertools.zip_longest(lines, answers, fillvalue="nothing"), 1):
        try:
            if not judge.explains(line, answer):
                return Unexplained(number, line, answer, tuple(judge.told.wanted))
        except TooManyStates:
            print(f"judged up to line {number} alone, since too much is owed there: {line}", flush=True)
            return None
    return None


def turn(lines: list[str], answers: list[str], chance: random.Random) -> str:
    """Turns one answer of a script of which the machine says something, and tells what became of it."""
    may_be = {at: other for at, (line, answer) in enumerate(zip(lines, answers)) if (other := turned(line, answer, chance))}
    at = chance.choice(list(may_be))
    told = f"line {at + 1}: {lines[at]} -> {answers[at]}, turned into {may_be[at]}"
    answers[at] = may_be[at]
    return told


def judged(run: Run) -> Verdict:
    """Runs the program on the script of a seed, and judges what it answers."""
    sizes, lines = random_script(run.seed, run.length, run.in_threads)
    answers = answers_of(run.program, sizes, lines)
    unsure = sum(answer.startswith("refused 29") for answer in answers)
    told = f"seed {run.seed}, {turn(lines, answers, random.Random(run.seed))}" if run.is_turned else ""
    found = unexplained(sizes, lines, answers)
    if found and not run.is_turned:
        told = f"{found.text()} ({' '.join(sizes.words())})"
    return Verdict(found is None, told, len(answers), unsure)


def try_worked(program: str, worked: Worked) -> list[Trial]:
    """The right answers are the program's and are explained, and a wrong one to the last line isn't."""
    sizes, lines, answers = Sizes(), [line for line, _ in worked.rows], [answer for _, answer in worked.rows]
    given = answers_of(program, sizes, lines)
    right, wrong = unexplained(sizes, lines, answers), unexplained(sizes, lines, [*answers[:-1], worked.wrong])
    told = f"the program answers {', '.join(given)}" if given != answers else right.text() if right else "as meant"
    is_found = wrong is not None and wrong.number == len(lines)
    return [
        Trial(f"right where {worked.why}", given == answers and right is None, told),
        Trial(f"wrong: {worked.why}", is_found, f"refused: {wrong.text()}" if is_found else "explained"),
    ]


def try_scripts(runs: list[Run], pool: Executor) -> list[Trial]:
    """Each script is explained."""
    trials, lines, unsure = [], 0, 0
    for run, verdict in zip(runs, pool.map(judged, runs)):
        trials.append(Trial(f"script {run.seed}", verdict.is_explained, verdict.told))
        lines, unsure = lines + verdict.lines, unsure + verdict.unsure
    print(f"{len(runs)} scripts with {lines} answered lines, {unsure} of them unsure", flush=True)
    return trials


def try_turned(runs: list[Run], pool: Executor) -> list[Trial]:
    """Nearly all scripts with a turned answer are refused. Those that aren't are told."""
    verdicts = list(pool.map(judged, runs))
    for verdict in verdicts:
        if verdict.is_explained:
            print(f"explained: {verdict.told}", flush=True)
    refused = sum(not verdict.is_explained for verdict in verdicts)
    is_met = OF_TURNED * refused >= LEAST_REFUSED * len(runs)
    return [Trial("turned answers", is_met, f"{refused} of {len(runs)} are refused")] if runs else []


def tried(asked: argparse.Namespace) -> Iterator[Trial]:
    """All trials, in their order."""
    program = asked.program or built()
    for worked in () if asked.threads else WORKED:
        yield from try_worked(program, worked)
    seeds = range(asked.seed, asked.seed + asked.scripts + asked.turned)
    runs = [Run(program, seed, asked.lines, asked.threads, seed >= asked.seed + asked.scripts) for seed in seeds]
    with ProcessPoolExecutor(PROCESSES) as pool:
        yield from try_scripts(runs[: asked.scripts], pool)
        yield from try_turned(runs[asked.scripts :], pool)


def main() -> int:
    words = argparse.ArgumentParser(description="Judges what chunkstore answers to random scripts.")
    words.add_argument("--scripts", type=int, default=200)
    words.add_argument("--lines", type=int, default=100)
    words.add_argument("--turned", type=int, default=50)
    words.add_argument("--seed", type=int, default=SEEDS_OF_A_DAY * int(f"{datetime.date.today():%Y%m%d}"))
    words.add_argument("--program")
    words.add_argument("--threads", action="store_true")
    asked = words.parse_args()
    print(f"the first seed is {asked.seed}", flush=True)
    passed = failed = 0
    for trial in tried(asked):
        if trial.is_told or not trial.is_met:
            print(f"{trial.name}: {trial.told}", flush=True)
        passed, failed = passed + trial.is_met, failed + (not trial.is_met)
    print(f"{passed} passed, {failed} failed", flush=True)
    return 1 if failed else 0


if __name__ == "__main__":
    sys.exit(main())
