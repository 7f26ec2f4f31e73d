#!/usr/bin/env python3
"""Refuses growths of memory to parts of the store, one at a time.

    bench/growths.py                                   # an unproved build of a small program, gs_growths
    bench/growths.py --proved [--program PATH] [PART ..]   # the proved gs_bench, by hand, since it takes long

The program is run once for each growth, with a small library of C that is loaded before it, lets one call of malloc or realloc fail, and
tells whether it was reached.

Each growth of two scripts is refused in turn: a file that is written to, moved, deleted and removed within an upgrade, and servers
that miss an edit of an upgrade. A script must end with an answer to each line, of which the first that differs is a refusal or tells
which servers have a chunk. Where the lines up to the prepare and the rollback are answered as ever, what is looked up after it is
right or refused. An upgrade after 1,000 files is begun where its 201st growth is refused, and each growth that it does make is refused
in turn: it is begun then, or no memory was left for it. The last line is 'N passed, M failed'.

With --proved it runs parts of the built gs_bench, as bench/README.md names them, and ends with status 1 where a run ends badly, hangs, or
says that something was wrong. The part prepare is another. It counts the growths of an upgrade that is begun after 10, 100 and 1,000
files, which have to be as many and 200 at most, so that to refuse a later one refuses nothing of it. And it refuses each of them in turn
after 10 files: the upgrade is begun then, or no memory was left for it, and nothing else."""

import argparse
import os
import re
import subprocess
import sys
import tempfile
from concurrent.futures import ThreadPoolExecutor

import beside

FILES = 1_000
# The growth of an upgrade that it doesn't reach, however many files there are.
UNREACHED = 201
SECONDS = 60
PARTS = ["script", "replica", "records", "serving", "removed", "copied"]
PREPARE = "prepare"
COUNTED_FILES = (10, 100, 1000)
# The most growths that an upgrade may make that is begun, however many files there are.
MOST = 200
# What the part says where no memory was left for its upgrade.
LACKED = "upgrades not begun"
PROVED_SECONDS = 20
# With REFUSED_FROM each later growth is refused too. At the end, however the program ends, it says whether the growth was reached, and how many
# there were.
LIBRARY = """
extern void *dlsym(void *, const char *);
extern int *__errno_location(void);
extern char *getenv(const char *);
extern long atol(const char *);
extern int snprintf(char *, unsigned long, const char *, ...);
extern long write(int, const void *, unsigned long);
void _exit(int);
static long calls, refused = -1, stays;
static int is_refused(void) {
    if (refused < 0) {
        stays = getenv("REFUSED_FROM") != 0;
        refused = getenv("REFUSED") ? atol(getenv("REFUSED")) : 0;
    }
    long call = __sync_add_and_fetch(&calls, 1);
    if (call != refused && !(stays && refused && call > refused)) return 0;
    *__errno_location() = 12;
    return 1;
}
static void *behind(const char *name) { return dlsym((void *)-1L, name); }
void *malloc(unsigned long size) {
    static void *(*next)(unsigned long);
    if (!next) next = behind("malloc");
    return is_refused() ? 0 : next(size);
}
void *realloc(void *old, unsigned long size) {
    static void *(*next)(void *, unsigned long);
    if (!next) next = behind("realloc");
    return is_refused() ? 0 : next(old, size);
}
static void tell(void) {
    static int has_told;
    char text[64];
    if (__sync_lock_test_and_set(&has_told, 1)) return;
    int length = snprintf(text, sizeof text, "%sgrowths %ld\\n", calls < refused ? "not reached\\n" : "", calls);
    if (write(2, text, length) < 0) _exit(99);
}
__attribute__((destructor)) static void tell_at_the_end(void) { tell(); }
void _exit(int status) {
    static void (*next)(int);
    tell();
    if (!next) next = behind("_exit");
    next(status);
    for (;;);
}
"""


def library(folder):
    """Compiles the library by the kit's own tools, which have no headers."""
    source, compiled, made = (os.path.join(folder, name) for name in ("refuse.c", "refuse.o", "refuse.so"))
    tools = os.path.join(beside.KIT, "toolchain", "bin")
    with open(source, "w") as out:
        out.write(LIBRARY)
    words = [f"--target={beside.TARGET}", "--no-default-config", "-O2", "-fPIC", "-c", source, "-o", compiled]
    subprocess.run([os.path.join(tools, "clang"), *words], check=True)
    subprocess.run([os.path.join(tools, "ld.lld"), "-shared", "-o", made, compiled], check=True)
    return made


class Wrong(Exception):
    """What is counted doesn't fit."""


class Trials:
    """The built program, and the library that refuses a growth to it."""

    def __init__(self, folder):
        beside.placed("gs_growths", ("src",))
        self.program = beside.native("gs_growths")
        self.library = library(folder)

    def run(self, part, refused):
        """What a part comes to where one growth is refused, whether that was reached, and how many growths there were. 0 is no growth."""
        settings = {"LD_PRELOAD": self.library, "REFUSED": str(refused)}
        how = {"input": f"{part} {FILES}", "env": settings, "capture_output": True, "text": True, "errors": "replace", "timeout": SECONDS}
        try:
            done = subprocess.run([self.program], **how)
        except subprocess.TimeoutExpired:
            return "hung", True, 0
        counted = re.search(r"^growths (\d+)$", done.stderr, re.MULTILINE)
        word = done.stdout.strip() if done.returncode == 0 else f"ended with {done.returncode}"
        return word, "not reached" not in done.stderr, int(counted[1]) if counted else 0

    def made(self, part):
        """How many growths a part makes of which none is refused."""
        word, _, many = self.run(part, 0)
        if word != "right" or many == 0:
            raise Wrong(f"{part} is {word}, with {many} growths")
        return many

    def are_right(self, part, growths):
        """Whether none of some growths does harm, each of which is reached."""
        with ThreadPoolExecutor(os.cpu_count()) as beside_each_other:
            runs = list(beside_each_other.map(lambda growth: self.run(part, growth), growths))
        wrong = [growth for growth, (word, reached, _) in zip(growths, runs) if word not in ("right", "lacked") or not reached]
        lacked = sum(word == "lacked" for word, _, _ in runs)
        print(f"{part}: {len(runs)} growths refused in turn, {lacked} times all of it lacked memory, wrong at {wrong or 'none'}", flush=True)
        return bool(runs) and not wrong

    def script(self, part):
        """Whether a script may lack each of its growths."""
        yield self.are_right(part, range(1, self.made(part) + 1))

    def upgrade(self, part):
        """Whether an upgrade after many files may lack each of its growths, and needs none after the 200th."""
        files = self.made("files")
        many = self.made(part) - files
        word, is_reached, _ = self.run(part, files + UNREACHED)
        print(f"{part}: {many} growths after {FILES} files, which make {files}; with growth {UNREACHED} refused it is {word}", flush=True)
        yield self.are_right(part, range(files + 1, files + many + 1))
        yield 0 < many < UNREACHED and word == "right" and not is_reached


# ---- of the proved program


def run(program, made, part, growth, count=1):
    """The status of a run, or none where it hangs, and what it says."""
    settings = {"LD_PRELOAD": made, "REFUSED": str(growth)}
    try:
        done = subprocess.run([program, part, str(count)], env=settings, stdout=subprocess.DEVNULL, stderr=subprocess.PIPE, timeout=PROVED_SECONDS)
    except subprocess.TimeoutExpired:
        return None, ""
    return done.returncode, done.stderr.decode("utf-8", "replace")


def wrong_runs(program, made, part):
    """Runs the part for each growth. How many growths there are, and those at which something is wrong."""
    growth, wrong = 1, []
    while True:
        status, said = run(program, made, part, growth)
        if "not reached" in said:
            return growth - 1, wrong
        # 1 is a part that gave up since no memory was left, or a wrong one, which says BadLine; 2 that its words weren't read.
        if status not in (0, 1, 2) or "BadLine" in said:
            wrong.append(growth)
        growth += 1


def growths_of(program, made, part, count):
    """How many growths a run makes of which none is refused."""
    status, said = run(program, made, part, 0, count)
    found = re.search(r"^growths (\d+)$", said, re.MULTILINE)
    if status != 0 or not found:
        sys.exit(f"{part} of {count} ended with {status}: {said}")
    return int(found.group(1))


def is_prepare_well(program, made):
    """Whether an upgrade is begun with as many growths after few files as after many, and each of them may be refused."""
    before = {count: growths_of(program, made, "files", count) for count in COUNTED_FILES}
    many = {count: growths_of(program, made, PREPARE, count) - before[count] for count in COUNTED_FILES}
    print(f"{PREPARE}: growths of an upgrade after so many files: {many}", flush=True)
    few = COUNTED_FILES[0]
    wrong, lacked = [], 0
    for growth in range(1, many[few] + 1):
        status, said = run(program, made, PREPARE, before[few] + growth, few)
        lacked += LACKED in said
        if status != 0 or "not reached" in said:
            wrong.append(growth)
    print(f"{PREPARE}: after {few} files each growth refused in turn, {lacked} times not begun, wrong at {wrong or 'none'}", flush=True)
    return not wrong and len(set(many.values())) == 1 and 0 < many[few] <= MOST


def try_unproved():
    with tempfile.TemporaryDirectory() as folder:
        trials = Trials(folder)
        passed = failed = 0
        for results, part in ((trials.script, "removed"), (trials.script, "copied"), (trials.upgrade, "prepare")):
            try:
                judged = list(results(part))
            except Wrong as why:
                print(f"growths: {why}", flush=True)
                judged = [False]
            passed, failed = passed + sum(judged), failed + len(judged) - sum(judged)
    print(f"{passed} passed, {failed} failed", flush=True)
    return 1 if failed else 0


def try_proved(asked):
    program = asked.program or beside.built()
    any_wrong = False
    with tempfile.TemporaryDirectory() as folder:
        made = library(folder)
        for part in (asked.parts or [*PARTS, PREPARE]):
            if part == PREPARE:
                any_wrong = not is_prepare_well(program, made) or any_wrong
                continue
            growths, wrong = wrong_runs(program, made, part)
            print(f"{part}: {growths} growths refused in turn, wrong at {wrong or 'none'}", flush=True)
            any_wrong = any_wrong or bool(wrong)
    return 1 if any_wrong else 0


def main():
    parser = argparse.ArgumentParser(description=__doc__, formatter_class=argparse.RawDescriptionHelpFormatter)
    parser.add_argument("--proved", action="store_true", help="parts of the proved gs_bench")
    parser.add_argument("--program", help="the built gs_bench, which else is built")
    parser.add_argument("parts", nargs="*")
    asked = parser.parse_args()
    return try_proved(asked) if asked.proved else try_unproved()


if __name__ == "__main__":
    sys.exit(main())
