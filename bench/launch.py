#!/usr/bin/env python3
"""Runs one of the programs chunkstore, chunktrace and chunkkeep, or builds it.

    ./chunkstore [OPTIONS] < SCRIPT       answers each line of a script
    ./chunktrace [OPTIONS] < SCRIPT       answers each line of a script, and tells what the nodes say to one another
    ./chunkkeep FILE [OPTIONS] < SCRIPT   answers each line of a script, and keeps the store in a file
    ./NAME --build                        proves the program and builds it; from then on the proved one runs
    ./NAME --version                      says whether the proved program runs or an unproved one, and of which commit
    ./NAME --help                         says which options and lines there are
    ./NAME --explain [OPTIONS] < SCRIPT   tells besides, on standard error, what is wrong with each line that is refused 34

Where standard error is a terminal, --explain is meant. It is of chunkstore alone: chunkkeep looks whether its file is one of the standard ones, and
a trace has more than one line for each. Of chunkkeep it is told all the same which sizes make no store.

A proved program runs where one stands and no source is newer. Else an unproved one runs. The first run builds that, and keeps it in the
user's cache under a name that comes of its code and the kit's version. So each later run finds it, until the code is another."""

import contextlib
import fcntl
import hashlib
import os
import shutil
import signal
import subprocess
import sys
import tempfile
import threading
import time
from collections.abc import Iterable, Iterator
from dataclasses import dataclass
from pathlib import Path

import building
import explain

ROOT = Path(__file__).resolve().parent.parent
CACHE = Path(os.environ.get("XDG_CACHE_HOME") or Path.home() / ".cache") / "chunkstore"
# What a build takes, as it is told to those who wait for it.
UNPROVED_TAKES = "some 100 seconds of the processor"
PROVED_TAKES = "some 100 minutes of the processor"
SECONDS_BETWEEN_DOTS = 5
# A program that ran so long ago goes from the cache when a new one comes.
KEPT_SECONDS = 30 * 24 * 3600


@dataclass(frozen=True)
class Program:
    """A program that runs now, and whether it is proved."""

    path: Path
    is_proved: bool


def say(text: str, end: str = "\n") -> None:
    """Tells people something, where there is a standard error."""
    if sys.stderr:
        print(text, end=end, file=sys.stderr, flush=True)


def crates_of(top: Path, name: str) -> dict[str, str]:
    """The lines of crates.txt for a crate and all that it rests on. What isn't listed is the kit's."""
    lines = {line.split(":")[0].split()[0]: line for line in (top / "crates.txt").read_text().splitlines() if ":" in line and line[0] != "#"}
    found: dict[str, str] = {}
    waiting = [name]
    while waiting:
        crate = waiting.pop()
        if crate in lines and crate not in found:
            found[crate] = lines[crate]
            waiting += lines[crate].split(":")[1].split()
    return dict(sorted(found.items()))


def files_of(top: Path, crates: Iterable[str], parts: Iterable[str]) -> Iterator[Path]:
    for crate in crates:
        for part in parts:
            yield from sorted(path for path in (top / "crates" / crate / part).rglob("*") if path.is_file())


def kit_version() -> str:
    """The kit's one-line identity, or nothing where it isn't there."""
    with contextlib.suppress(OSError):
        return (Path(building.KIT) / "KIT-ID").read_text()
    return ""


def need_kit(name: str) -> None:
    if not shutil.which("rt"):
        raise SystemExit(f"{name}: the Rattle kit isn't here: there is no command rt to build the program with")


def digest_of(top: Path, crates: dict[str, str]) -> str:
    """A digest of all that an unproved program is made of: code, the lines of crates.txt, the handles that are allowed, and the kit."""
    summed = hashlib.sha256()
    for text in (kit_version(), (top / "HANDLES").read_text(), *crates.values()):
        summed.update(f"{text}\0".encode())
    for path in files_of(top, crates, ["src"]):
        content = path.read_bytes()
        summed.update(f"{path.relative_to(top)}\0{len(content)}\0".encode() + content)
    return summed.hexdigest()[:32]


def proved_program(name: str) -> Path | None:
    """The proved program, where one stands and no source of it is newer."""
    program = ROOT / "crates" / name / "out" / name
    if not os.access(program, os.X_OK):
        return None
    built = program.stat().st_mtime
    sources = [ROOT / "crates.txt", *files_of(ROOT, crates_of(ROOT, name), ["src", "specs", "proofs"])]
    return program if all(source.stat().st_mtime <= built for source in sources) else None


def kept_at(name: str, digest: str) -> Path:
    return CACHE / f"{name}-{digest}" / name


@contextlib.contextmanager
def dots() -> Iterator[None]:
    """Puts a dot on standard error every few seconds, which shows that it gets on, and tells at the end how long it took."""
    is_over, begun = threading.Event(), time.monotonic()

    def tell() -> None:
        while not is_over.wait(SECONDS_BETWEEN_DOTS):
            say(".", end="")

    teller = threading.Thread(target=tell)
    teller.start()
    try:
        yield
    finally:
        is_over.set()
        teller.join()
        say(f" {time.monotonic() - begun:.0f} seconds")


@contextlib.contextmanager
def one_at_a_time(name: str) -> Iterator[None]:
    """Waits until nobody else builds the program."""
    CACHE.mkdir(parents=True, exist_ok=True)
    with open(CACHE / f"{name}.lock", "w") as held:
        fcntl.flock(held, fcntl.LOCK_EX)
        yield


def forget_old(name: str) -> None:
    """Removes what builds that were killed have left, and the programs of a name that didn't run for long."""
    old = [program.parent for program in CACHE.glob(f"{name}-*/{name}") if time.time() - program.stat().st_mtime > KEPT_SECONDS]
    for folder in [*old, *CACHE.glob(f"building-{name}-*")]:
        shutil.rmtree(folder, ignore_errors=True)


def build_unproved(name: str) -> Path:
    """Builds a program of a copy of its code in a folder aside, which is put in its place once it is whole."""
    forget_old(name)
    with tempfile.TemporaryDirectory(dir=CACHE, prefix=f"building-{name}-") as folder:
        copy, made, place = (Path(folder) / part for part in ("copy", "made", "place"))
        crates = crates_of(ROOT, name)
        for crate in crates:
            shutil.copytree(ROOT / "crates" / crate / "src", copy / "crates" / crate / "src")
        (copy / "crates.txt").write_text("".join(f"{line}\n" for line in crates.values()))
        shutil.copy(ROOT / "HANDLES", copy)
        made.mkdir()
        place.mkdir()
        building.build(str(copy / "crates" / name), str(place / name), str(made))
        kept = kept_at(name, digest_of(copy, crates))
        with contextlib.suppress(FileExistsError):
            place.rename(kept.parent)
    return kept


def unproved_program(name: str) -> Path:
    """The unproved program of the code as it stands, which is built where it isn't kept yet."""
    kept = kept_at(name, digest_of(ROOT, crates_of(ROOT, name)))
    if kept.exists():
        # It runs from a cache that can't be written too.
        with contextlib.suppress(OSError):
            os.utime(kept)
        return kept
    need_kit(name)
    say(f"{name}: building it unproved, once for this code, which takes {UNPROVED_TAKES} ", end="")
    try:
        with dots(), one_at_a_time(name):
            if not kept.exists():
                kept = build_unproved(name)
    except (OSError, subprocess.CalledProcessError) as failed:
        raise SystemExit(f"{name}: the program can't be built in {CACHE}, which XDG_CACHE_HOME can move: {failed}") from None
    say(f"{name}: what runs isn't proved; ./{name} --build proves it, in {PROVED_TAKES}")
    return kept


def program_of(name: str) -> Program:
    """The program that runs now: the proved one if it is up to date, else the unproved one."""
    proved = proved_program(name)
    return Program(proved, True) if proved else Program(unproved_program(name), False)


def run_at_kit(name: str, crate: Path, log: Path) -> int:
    """Proves, builds and runs a program by the kit, and tells each crate that is checked. It runs on no input, and on a file that goes again."""
    kept = crate / "out" / "kept.build"
    words = ["rt", "run", *(["--", str(kept)] if name == "chunkkeep" else [])]
    how = {"stdin": subprocess.DEVNULL, "stdout": subprocess.PIPE, "stderr": subprocess.STDOUT, "text": True, "errors": "replace"}
    with open(log, "w") as out, subprocess.Popen(words, cwd=crate, **how) as run:
        for line in run.stdout:
            out.write(line)
            out.flush()
            if line.startswith("crate "):
                say(f"{name}: checked {line.split()[1].rstrip(':')}")
    kept.unlink(missing_ok=True)
    return run.returncode


def build_proved(name: str) -> int:
    """Proves the program and builds it, where that isn't done yet."""
    if proved_program(name):
        return 0
    need_kit(name)
    crate = ROOT / "crates" / name
    program, log = crate / "out" / name, crate / "out" / "build.log"
    log.parent.mkdir(exist_ok=True)
    begun = time.time()
    say(f"{name}: proving and building, which takes {PROVED_TAKES} from nothing; see {log}")
    status = run_at_kit(name, crate, log)
    if status or not program.exists():
        said = log.read_text(errors="replace").splitlines()[-20:]
        say("\n".join([f"{name}: the program isn't built; the last lines of {log} are:", *said]))
        return 1
    # A source that changed since the build began is newer than the program.
    os.utime(program, (begun, begun))
    say(f"{name}: built")
    return 0


def asked_of_git(*words: str) -> str:
    with contextlib.suppress(OSError):
        return subprocess.run(["git", "-C", str(ROOT), *words], capture_output=True, text=True).stdout.strip()
    return ""


def version(name: str) -> str:
    """Which program runs, and of which commit its sources are. Nothing is built for that."""
    commit = asked_of_git("rev-parse", "--short", "HEAD") or "none, as this is no clone"
    changed = " with changes that aren't committed" if asked_of_git("status", "--porcelain", "--", "crates", "crates.txt", "HANDLES") else ""
    if proved_program(name):
        kind = "proved"
    elif kept_at(name, digest_of(ROOT, crates_of(ROOT, name))).exists():
        kind = "unproved"
    else:
        kind = "not built yet: its first run builds it unproved"
    return f"{name}: {kind}, of commit {commit}{changed}"


def is_explained(name: str, words: list[str]) -> bool:
    """Whether it is to be told what is wrong with lines."""
    streams = (sys.stdin, sys.stdout, sys.stderr)
    return name == "chunkstore" and None not in streams and ("--explain" in words or sys.stderr.isatty())


def main(name: str, words: list[str]) -> int:
    for number in (signal.SIGTERM, signal.SIGHUP):
        signal.signal(number, lambda number, _: sys.exit(128 + number))
    if words == ["--build"]:
        return build_proved(name)
    if words == ["--version"]:
        print(version(name))
        return 0
    # The program tells its own options, and only those: nothing on standard output, status 2.
    if name != "chunkkeep" and {"--help", "-h"} & set(words):
        say(explain.usage(name))
        return 2
    program = program_of(name)
    if is_explained(name, words):
        return explain.run_explaining(program.path, name, [word for word in words if word != "--explain"])
    # A store that stands has sizes of its own.
    if name == "chunkkeep" and sys.stderr and not any(map(os.path.exists, words)):
        explain.tell_sizes(name, words)
    # Python ignores these, and a program that it becomes would too.
    for number in (signal.SIGPIPE, signal.SIGXFSZ):
        signal.signal(number, signal.SIG_DFL)
    os.execv(program.path, [name, *words])


if __name__ == "__main__":
    try:
        sys.exit(main(sys.argv[1], sys.argv[2:]))
    except KeyboardInterrupt:
        sys.exit(130)
