#!/usr/bin/env python3
"""Runs README's first command in a fresh clone, with a cache of its own: twice at once, as two people might begin, and then once more.

    bench/first.py

Both first runs and the later one have to answer as README tells. The later one may take a second of the processor at most, and answers each line
before the next one comes. --version has to say what runs, and the name under which a program is kept has to change with a source. The last line is
'N passed, M failed', and the status is 1 where one failed."""

import os
import re
import resource
import subprocess
import sys
import tempfile
from collections.abc import Iterator
from pathlib import Path

ROOT = Path(__file__).resolve().parent.parent
MOST_PROCESSOR_SECONDS = 1.0
PIPES = {"stdin": subprocess.DEVNULL, "stdout": subprocess.PIPE, "stderr": subprocess.PIPE, "text": True}


def first_command() -> str:
    """The first command that README shows."""
    return re.search(r"^    (\./chunkstore < \S+)", (ROOT / "README.md").read_text(), re.MULTILINE)[1]


def told_answers() -> list[str]:
    """The answers that README tells for the lines of that command's script."""
    told = (ROOT / "README.md").read_text()
    lines = (ROOT / first_command().split()[-1]).read_text().splitlines()
    return [re.search(rf"^{re.escape(line)} {{2,}}(ok.*?)(?: {{2,}}.*)?$", told, re.MULTILINE)[1] for line in lines]


def processor_seconds() -> float:
    spent = resource.getrusage(resource.RUSAGE_CHILDREN)
    return spent.ru_utime + spent.ru_stime


class Clone:
    """A fresh clone, and a cache in which nothing is kept yet."""

    def __init__(self, folder: Path):
        self.top, self.cache = folder / "clone", folder / "cache"
        subprocess.run(["git", "clone", "--quiet", ROOT, self.top], check=True)
        self.how = {"cwd": self.top, "env": {**os.environ, "XDG_CACHE_HOME": str(self.cache)}, **PIPES}

    def run(self, command: str) -> subprocess.CompletedProcess:
        return subprocess.run(command, shell=True, **self.how)

    def kept(self) -> list[str]:
        """The folders of programs that are kept, and what builds may have left."""
        return sorted(path.name for path in (self.cache / "chunkstore").iterdir() if path.is_dir())


def wrong_answers(said: str) -> str | None:
    answers = said.splitlines()
    return None if answers == told_answers() else f"the answers are {answers}, and README tells {told_answers()}"


def two_first_runs(clone: Clone) -> Iterator[str | None]:
    runs = [subprocess.Popen(first_command(), shell=True, **clone.how) for _ in range(2)]
    for run in runs:
        said, told = run.communicate()
        yield wrong_answers(said)
        yield None if run.returncode == 0 and "seconds" in told else f"status {run.returncode}, and standard error has: {told}"
    kept = clone.kept()
    yield None if len(kept) == 1 and kept[0].startswith("chunkstore-") else f"in the cache stand {kept}"


def a_later_run(clone: Clone) -> Iterator[str | None]:
    before = processor_seconds()
    done = clone.run(first_command())
    took = processor_seconds() - before
    yield wrong_answers(done.stdout)
    yield None if done.stderr == "" else f"standard error has: {done.stderr}"
    yield None if took <= MOST_PROCESSOR_SECONDS else f"it took {took:.2f} seconds of the processor"


def line_by_line(clone: Clone) -> Iterator[str | None]:
    with subprocess.Popen("./chunkstore", **{**clone.how, "stdin": subprocess.PIPE}) as run:
        for line, wanted in (("mkdir /a", "ok"), ("create /a/f", "ok"), ("ls /a", "ok f")):
            print(line, file=run.stdin, flush=True)
            answer = run.stdout.readline().rstrip("\n")
            yield None if answer == wanted else f"{line} is answered {answer}"


def versions(clone: Clone) -> Iterator[str | None]:
    commit = subprocess.run(["git", "rev-parse", "--short", "HEAD"], cwd=clone.top, capture_output=True, text=True).stdout.strip()
    said = clone.run("./chunkstore --version").stdout
    yield None if said == f"chunkstore: unproved, of commit {commit}\n" else f"--version says {said}"
    with open(clone.top / "crates" / "gs_base" / "src" / "lib.rt", "a") as source:
        source.write("// A source that has changed.\n")
    said = clone.run("./chunkstore --version").stdout
    yield None if "not built yet" in said and "aren't committed" in said else f"--version says {said} of a source that has changed"


def main() -> int:
    passed = failed = 0
    with tempfile.TemporaryDirectory(prefix="chunkstore-first-") as folder:
        clone = Clone(Path(folder))
        for part in (two_first_runs, a_later_run, line_by_line, versions):
            for number, wrong in enumerate(part(clone), 1):
                print(f"{part.__name__} {number}: {wrong or 'as meant'}", flush=True)
                passed, failed = passed + (not wrong), failed + bool(wrong)
    print(f"{passed} passed, {failed} failed", flush=True)
    return 1 if failed else 0


if __name__ == "__main__":
    sys.exit(main())
