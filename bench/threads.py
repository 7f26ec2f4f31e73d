#!/usr/bin/env python3
"""A store whose nodes run in threads: how fast it is, at size, with growths refused, and many times over.

    bench/threads.py speed [--times N] [--repeats R]
    bench/threads.py size [--writes N] [--callers N]
    bench/threads.py growths [--runs N] [--limit SECONDS] [--seed N]
    bench/threads.py memory [--limit SECONDS]
    bench/threads.py soak [--runs N] [--limit SECONDS] [--seed N]
    bench/threads.py rollbacks [--runs N] [--limit SECONDS]
    bench/threads.py held [--limit SECONDS]
    bench/threads.py faults [--limit SECONDS]

Without programs each builds what it runs as it stands, unproved: `--program PATH` names a built chunkstore, `--callers-program PATH` a
built gs_callers. Each ends with status 1 where something is wrong.

speed    For writes of 64 KB and for appends of 100 bytes, with one, two and four callers: what the callers make in a second, how many times
         that is what one thread makes of as many writes, how many processors were busy, and the peak of memory beside that of one thread,
         by turns in one run. Wrong is a write that isn't accepted.
size     Four callers write 50 bytes each, one by one, and in another run a hundred times as many. The nodes keep notes, and both runs end by
         `finish_whole`. It prints the seconds by the clock, the peak of memory, the events and the messages, and how many times as much of
         each the second run takes. Wrong is a run that ends badly, or a write that isn't accepted. No time is judged.
growths  A script of names, writes and an upgrade that is rolled back runs on `chunkstore --threads`. In each run one call of malloc or
         realloc fails, at places that are spread over all that a run makes; and in another run each later call too. Which call that is
         differs from run to run, since threads take turns as they like. A run has to end within its limit: with status 0 and an answer to
         each line; with status 1 where the store couldn't be begun or ended; or with 2 where the words couldn't be read. The first answer
         that differs from those on one thread has to be a refusal. The last line is 'N passed, M failed'.
memory   Three lines, one of which writes 500 KB, run on `chunkstore --threads` within so little address space that some growths are
         refused for good. A run has to end so too, within five times the limit, and each answer has to be one that one thread may give there.
soak     Many runs, on one processor and on all, with `nice` and without: by turns such a script with 3, 8 or 16 servers, whose answers have
         to be those of one thread, and four callers that write 50 blocks each at once, all of which have to be accepted. Wrong is a run that
         differs, ends badly or isn't over by its limit. The last line is 'N passed, M failed'.
rollbacks  An upgrade is rolled back, with 3, 8 and 16 servers by turns. Of each number at least 19 rollbacks in 20 have to leave
         each server as a member that was one at the prepare.
held     A step of a node is held for longer than it takes until a clock ticks, in each run another one (gs_held). The answers have to be
         those of one thread: no server that is slow is taken for one that doesn't answer.
faults   A program with wrong bodies, one of which a run has (as those of bench/simulated.py): each has to be found by one of the above, and
         without any of them nothing may be found."""

import argparse
import os
import random
import re
import statistics
import subprocess
import sys
import tempfile
import time

from concurrent.futures import ThreadPoolExecutor

import beside
import growths
import launch
import simulated

KINDS = [("write", "writes of 64 KB"), ("append", "appends of 100 bytes")]
CALLERS = [1, 2, 4]
SIZES = ["--servers", "3", "--racks", "2", "--block", "4", "--chunk", "16"]
# How a run's processes are disturbed: on one processor, on all, and each of them put after all else.
DISTURBED = [[], ["nice", "-n", "19"], ["taskset", "-c", "0"], ["taskset", "-c", "0", "nice", "-n", "19"]]
SOAKED_WRITES, SOAKED_CALLERS = 50, 4
FEW = 50
# So many runs go on beside each other that mostly rest.
BESIDE_EACH_OTHER = 16
# With how many servers scripts run by turns.
SERVERS = [3, 8, 16]
PARTS = [("seconds", "{:.2f}"), ("busy", "{:.2f}"), ("peak", "{:,}"), ("events", "{:,}"), ("sent", "{:,}")]


def program_of(asked, name):
    """The program that is named, or one that is built."""
    given = asked.program if name == "chunkstore" else asked.callers_program
    if given:
        return given
    if name == "chunkstore":
        return launch.unproved_program(name)
    beside.placed(name, ("src",))
    return beside.native(name)


# ---- speed


class Ran:
    """A run: its seconds by the clock, those of all processors, its peak of memory in bytes, and how many writes were accepted."""

    def __init__(self, words):
        begun = time.monotonic()
        with subprocess.Popen(words, stdout=subprocess.PIPE) as process:
            told = process.stdout.read()
            _, status, spent = os.wait4(process.pid, 0)
            process.returncode = os.waitstatus_to_exitcode(status)
        if process.returncode:
            raise SystemExit(f"{' '.join(words)}: status {process.returncode}")
        self.seconds = time.monotonic() - begun
        self.busy = spent.ru_utime + spent.ru_stime
        self.peak = spent.ru_maxrss * 1024
        self.tell(told)

    def tell(self, told):
        self.accepted = int(told)


def middle(runs, part):
    return statistics.median(getattr(run, part) for run in runs)


def row(program, kind, callers, asked):
    """Runs the same on one thread and in threads by turns, and tells one line of the table, and whether all was accepted."""
    times = max(1, asked.times // callers)
    words = [kind, str(callers), str(times)]
    alone, threads = [], []
    for _ in range(asked.repeats):
        alone.append(Ran([program, "alone", *words]))
        threads.append(Ran([program, "threads", *words]))
    many = callers * times
    faster = middle(alone, "seconds") / middle(threads, "seconds")
    memory = middle(threads, "peak") / middle(alone, "peak")
    busy = middle(threads, "busy") / middle(threads, "seconds")
    rate = many / middle(threads, "seconds")
    print(f"{callers:7} callers: {rate:8.0f} a second, {faster:5.2f} times one thread, {busy:4.1f} processors busy, memory {memory:4.2f} times", flush=True)
    return all(run.accepted == many for run in alone + threads)


def speed(asked):
    program = program_of(asked, "gs_callers")
    well = True
    for kind, name in KINDS:
        print(f"{name}, {asked.times} in all:", flush=True)
        for callers in CALLERS:
            well = row(program, kind, callers, asked) and well
    return well


# ---- size


class Whole(Ran):
    """A run that tells how many writes were accepted, how many events there were, and how many messages."""

    def tell(self, told):
        self.accepted, self.events, self.sent = map(int, told.split())


def size(asked):
    program = program_of(asked, "gs_callers")
    few, many = (Whole([program, "whole", "byte", str(asked.callers), str(writes)]) for writes in (FEW, asked.writes))
    print(f"{asked.callers} callers, {FEW} and {asked.writes:,} writes each ({asked.writes / FEW:.0f} times):", flush=True)
    for part, form in PARTS:
        one, other = getattr(few, part), getattr(many, part)
        print(f"{part:>8}: {form.format(one):>14} {form.format(other):>16} {other / one:8.1f} times", flush=True)
    return (few.accepted, many.accepted) == (asked.callers * FEW, asked.callers * asked.writes)


# ---- scripts, many times over


def one_line(chance):
    """A line of names or bytes over a few paths."""
    path = f"/{chance.choice('abc')}/{chance.choice('fg')}"
    kind = chance.randrange(8)
    return [
        f"mkdir /{chance.choice('abc')}",
        f"create {path}",
        f"write {path} {chance.randrange(24)} {chance.randrange(256):02x}{chance.randrange(256):02x}",
        f"append {path} {chance.randrange(256):02x}",
        f"read {path} 0 64",
        f"mv {path} /{chance.choice('abc')}",
        f"rm {path}",
        f"snapshot {path} /{chance.choice('abc')}/{chance.choice('hi')}",
    ][kind]


def script_of(chance):
    """Lines before a prepare, after it, and after its rollback."""
    lines = [one_line(chance) for _ in range(30)] + ["rollingUpgrade prepare"]
    lines += [one_line(chance) for _ in range(20)] + ["rollingUpgrade rollback", "ls /", "ls /a", "ls /b", "ls /c"]
    return "".join(f"{line}\n" for line in lines).encode()


def ended(words, limit, data=b""):
    """What a run writes, or why it is none."""
    try:
        done = subprocess.run(words, input=data, stdout=subprocess.PIPE, stderr=subprocess.PIPE, timeout=limit)
    except subprocess.TimeoutExpired:
        return None, f"not at its end within {limit} seconds"
    return (done.stdout, None) if done.returncode == 0 else (None, f"status {done.returncode}: {done.stderr[-200:]!r}")


def sizes_of(servers):
    return ["--servers", str(servers), *SIZES[2:]]


def script_run(program, before, servers, seed, limit):
    data = script_of(random.Random(seed))
    wanted, why = ended([program, *sizes_of(servers)], limit, data)
    if why:
        return f"on one thread: {why}"
    told, why = ended([*before, program, *sizes_of(servers), "--threads"], limit, data)
    if why or told == wanted:
        return why
    lines = zip(data.splitlines(), wanted.splitlines(), told.splitlines())
    return next((f"{line!r}: {got!r}, not {right!r}" for line, right, got in lines if right != got), "answers are missing")


def callers_run(program, before, limit):
    told, why = ended([*before, program, "threads", "write", str(SOAKED_CALLERS), str(SOAKED_WRITES)], limit)
    if why:
        return why
    return None if told.split() == [str(SOAKED_CALLERS * SOAKED_WRITES).encode()] else f"accepted {told!r} of {SOAKED_CALLERS * SOAKED_WRITES}"


def soak(asked):
    program, callers = program_of(asked, "chunkstore"), program_of(asked, "gs_callers")
    failed, begun = 0, time.monotonic()
    for number in range(asked.runs):
        before = DISTURBED[number // 2 % len(DISTURBED)]
        servers = SERVERS[number // 2 % len(SERVERS)]
        is_script = number % 2 == 0
        why = script_run(program, before, servers, asked.seed + number, asked.limit) if is_script else callers_run(callers, before, asked.limit)
        if why:
            failed += 1
            what = f"script with {servers} servers" if is_script else "callers"
            print(f"run {number} ({what}, {' '.join(before) or 'as it is'}): {why}", flush=True)
    print(f"{asked.runs - failed} passed, {failed} failed, in {time.monotonic() - begun:.0f} seconds", flush=True)
    return not failed


# ---- growths that are refused


class Run:
    """How a run ended, its answers, how many growths it made, and its seconds."""

    def __init__(self, program, library, refused, data, limit, stays=False):
        settings = {"LD_PRELOAD": library, "REFUSED": str(refused), **({"REFUSED_FROM": "1"} if stays else {})}
        begun = time.monotonic()
        self.status, self.answers, said = None, [], ""
        try:
            done = subprocess.run([program, *SIZES, "--threads"], input=data, env={**os.environ, **settings}, capture_output=True, timeout=limit)
            self.status, self.answers, said = done.returncode, done.stdout.decode().splitlines(), done.stderr.decode()
        except subprocess.TimeoutExpired:
            pass
        self.seconds = time.monotonic() - begun
        counted = re.search(r"^growths (\d+)$", said, re.MULTILINE)
        self.growths = int(counted[1]) if counted else 0
        self.was_reached = "not reached" not in said
        self.said = said


def wrong_with(run, wanted):
    """What is wrong with a run, if anything."""
    if run.status is None:
        return "not at its end within its limit"
    if run.status not in (0, 1, 2):
        return f"status {run.status}: {run.said[-200:]!r}"
    if len(run.answers) != len(wanted) and (run.status == 0 or run.answers):
        return f"{len(run.answers)} answers to {len(wanted)} lines"
    other = next((answer for answer, right in zip(run.answers, wanted) if answer != right), None)
    return None if other is None or other.startswith("refused") else f"{other!r} is the first other answer"


def tell_of(runs, wanted):
    """Tells what became of runs, each with the growth that was refused in it, and how many are wrong."""
    seen, failed = {}, 0
    for refused, run in runs:
        other = next((answer for answer, right in zip(run.answers, wanted) if answer != right), "as ever")
        word = f"status {run.status}" if run.status else " ".join(other.split()[:3])
        seen[word] = seen.get(word, 0) + 1
        why = wrong_with(run, wanted)
        if why:
            failed += 1
            print(f"growth {refused}: {why}", flush=True)
    for word, many in sorted(seen.items()):
        print(f"{many:5} {word}")
    reached, slowest = sum(run.was_reached for _, run in runs), max(run.seconds for _, run in runs)
    print(f"{reached} reached the growth; the slowest took {slowest:.1f} seconds", flush=True)
    return failed


def refused_growths(asked):
    program = program_of(asked, "chunkstore")
    data = script_of(random.Random(asked.seed))
    wanted = subprocess.run([program, *SIZES], input=data, capture_output=True, check=True).stdout.decode().splitlines()
    failed = 0
    with tempfile.TemporaryDirectory() as folder:
        library = growths.library(folder)
        whole = Run(program, library, 0, data, asked.limit)
        if whole.status != 0 or whole.answers != wanted or not whole.growths:
            sys.exit(f"without a refusal: status {whole.status}, {whole.growths} growths")
        print(f"{whole.growths} growths of {len(wanted)} lines, in {whole.seconds:.1f} seconds", flush=True)
        numbers = [1 + number * whole.growths // asked.runs for number in range(asked.runs)]
        for stays, words in ((False, "one is refused"), (True, "one is refused, and each later one")):
            print(f"{words}:", flush=True)
            with ThreadPoolExecutor(BESIDE_EACH_OTHER) as beside_each_other:
                runs = beside_each_other.map(lambda refused: Run(program, library, refused, data, asked.limit, stays), numbers)
                failed += tell_of(list(zip(numbers, runs)), wanted)
    print(f"{2 * asked.runs - failed} passed, {failed} failed", flush=True)
    return not failed


# ---- little memory

WRITTEN = 500_000
LINES = f"create /f\nwrite /f 0 {'61' * WRITTEN}\nread /f 0 1\n".encode()
# Within so many MiB of address space, one after the other.
SPACES = range(36, 92, 4)
# What each of the lines may be answered where there is no memory. A call for which the master lacked some may wait on, and hold its path.
MAY_SAY = re.compile(r"ok( .*)?|refused (3 NotFound|10 Locked|28 NoReplica|29 Unsure|33 Memory)")


def within(program, mebibytes, limit):
    """How a run within so much address space ends, its answers, and its seconds."""
    words = ["sh", "-c", 'ulimit -v "$1"; shift; exec "$@"', "sh", str(mebibytes * 1024), program, "--servers", "3", "--racks", "2", "--threads"]
    begun = time.monotonic()
    try:
        done = subprocess.run(words, input=LINES, capture_output=True, timeout=limit)
    except subprocess.TimeoutExpired:
        return None, [], time.monotonic() - begun
    return done.returncode, done.stdout.decode().splitlines(), time.monotonic() - begun


def wrong_within(status, answers):
    if status is None:
        return "not at its end within its limit"
    if status not in (0, 1, 2) or (len(answers) != 3 and (status == 0 or answers)):
        return f"status {status}, {len(answers)} answers"
    other = next((answer for answer in answers if not MAY_SAY.fullmatch(answer)), None)
    return other and f"it says {other[:80]!r}"


def memory(asked):
    program, failed, lacked, whole = program_of(asked, "chunkstore"), 0, 0, 0
    with ThreadPoolExecutor(len(SPACES)) as beside_each_other:
        runs = list(beside_each_other.map(lambda mebibytes: within(program, mebibytes, 5 * asked.limit), SPACES))
    for mebibytes, (status, answers, seconds) in zip(SPACES, runs):
        why = wrong_within(status, answers)
        said = "; ".join(answer[:40] for answer in answers) or "no store"
        print(f"{mebibytes} MiB: {said}, status {status}, {seconds:.0f} seconds{f': {why}' if why else ''}", flush=True)
        failed += bool(why)
        lacked += any(answer.startswith("refused") for answer in answers)
        whole += answers[1:] == ["ok", "ok 61"]
    if not lacked or not whole:
        print("there is no run that lacks memory, or none that has enough", flush=True)
        failed += 1
    print(f"{len(SPACES) - failed} passed, {failed} failed", flush=True)
    return not failed


# ---- upgrades that are rolled back

ROLLED_BACK = b"create /f\nwrite /f 0 6162\nrollingUpgrade prepare\nwrite /f 0 63\nrollingUpgrade rollback\nread /f 0 3\nstat /f\n"
# So many rollbacks in a hundred have to leave all members.
WHOLE = 95


def members_left(words, limit):
    """How many members a rollback leaves, or why it is none."""
    told, why = ended(words, limit, ROLLED_BACK)
    if why:
        return 0, why
    read, stat = told.decode().splitlines()[-2:]
    return (len(stat.split("/")[-1].split(",")), None) if read == "ok 6162" else (0, f"it reads {read}")


def rolled_back(words, servers, runs, limit):
    """In how many of some runs all members were left, and why one was none."""
    left = [members_left(words, limit) for _ in range(runs)]
    return sum(many == servers for many, _ in left), next((why for _, why in left if why), None)


def rollbacks(asked):
    program = program_of(asked, "chunkstore")
    passed = 0
    for servers in SERVERS:
        words = [program, *sizes_of(servers), "--replicas", str(servers), "--threads"]
        whole, why = rolled_back(words, servers, asked.runs, asked.limit)
        print(f"{servers} servers: {whole} of {asked.runs} rollbacks left each as a member{f'; {why}' if why else ''}", flush=True)
        passed += whole * 100 >= asked.runs * WHOLE and not why
    print(f"{passed} passed, {len(SERVERS) - passed} failed", flush=True)
    return passed == len(SERVERS)


# ---- steps that are held

SNAPSHOT = b"create /f\nwrite /f 0 61\nsnapshot /f /g\nwrite /f 0 62\nread /g 0 3\nread /f 0 3\nstat /f\n" + ROLLED_BACK.replace(b"/f", b"/h")
# A step is held so long, and a clock ticks some two seconds behind the last step.
HELD_MILLIS = 8_000
# The servers of a store, which of its nodes is held, and how many of that one's first steps are, each in a run of its own.
HELD = [(1, "server 0", 1, 20), (3, "server 1", 2, 20), (3, "the master", 0, 32)]


def held_program():
    beside.placed("gs_held", ("src",))
    return beside.native("gs_held")


def held_wrong(words, steps, wanted, limit, settings):
    """The steps at which the answers are others where they are held."""

    def answers(step):
        try:
            how = {"input": SNAPSHOT, "capture_output": True, "timeout": limit, "env": {**os.environ, **settings}}
            return subprocess.run([*words, str(step), str(HELD_MILLIS)], **how).stdout
        except subprocess.TimeoutExpired:
            return None

    with ThreadPoolExecutor(BESIDE_EACH_OTHER) as runs:
        return [step for step, told in enumerate(runs.map(answers, range(steps))) if told != wanted]


def answers_on_one_thread(asked, servers):
    words = [program_of(asked, "chunkstore"), "--servers", str(servers), "--racks", "2", "--replicas", str(servers)]
    return subprocess.run(words, input=SNAPSHOT, capture_output=True, check=True).stdout


def held(asked):
    program, passed, failed = held_program(), 0, 0
    for servers, name, node, steps in HELD:
        wanted = answers_on_one_thread(asked, servers)
        wrong = held_wrong([program, str(servers), str(node)], steps, wanted, asked.limit, {})
        print(f"{servers} servers, {name} held at each of its first {steps} steps in turn: wrong at {wrong or 'none'}", flush=True)
        passed, failed = passed + steps - len(wrong), failed + len(wrong)
    print(f"{passed} passed, {failed} failed", flush=True)
    return not failed


# ---- wrong bodies

WRONG = {
    "a message to a node behind the eighth is dropped": (
        "gs_cluster_node",
        "src/posting.rt",
        "let way = &mut ways[at];",
        "if at > 8 { return None; }; let way = &mut ways[at];",
    ),
    "a clock never ticks": ("gs_cluster_threads", "src/work.rt", "if !node.core().is_waiting() {", "if true {"),
    "a caller asks nothing again": ("gs_cluster", "src/caller.rt", "node.again(rt, alloc)", "node.let_go(alloc)"),
    "a clock ticks while a node is at work": (
        "gs_cluster_threads",
        "src/work.rt",
        "let may_tick = looks >= QUIET && watch.rounds.are_behind(since);",
        "let may_tick = looks >= QUIET;",
    ),
    "a commit is asked for at once": ("gs_shell_threads", "src/desk.rt", "self.link.settle(SETTLING)", "self.link.pause(0)"),
    "a caller gives up while a node is at work": (
        "gs_cluster",
        "src/patience.rt",
        "if rounds.are_behind(self.since) {",
        "self.vain = self.vain.saturating_add(8); if rounds.are_behind(self.since) {",
    ),
    "a caller never gives up": ("gs_cluster", "src/caller.rt", "if patience.is_over() {", "if patience.is_over() && patience.looks > 7_000 {"),
}
# How many rollbacks are made with each number of servers, in how many runs a growth is refused, and in how many each later one too.
FEW_ROLLBACKS, FEW_GROWTHS, FEW_LASTING = 12, 96, 32
# A run is over sooner, also where what was asked has to be asked once more. Only a request that is given up takes longer.
SLOW_SECONDS = 60
# So is one in which a request is given up.
HUNG_SECONDS = 180


def by_rollbacks(asked, program, settings):
    for servers in (SERVERS[0], SERVERS[-1]):
        words = ["env", *(f"{name}={value}" for name, value in settings.items()), program, str(servers), "0", "0", "0"]
        whole, why = 0, None
        for _ in range(FEW_ROLLBACKS):
            many, why = members_left(words, HUNG_SECONDS)
            whole += many == servers
            if why:
                break
        if why or whole * 100 < FEW_ROLLBACKS * WHOLE:
            return f"{servers} servers: {why or f'{whole} of {FEW_ROLLBACKS} rollbacks left each as a member'}"
    return None


def by_held_steps(asked, program, settings):
    servers, name, node, steps = HELD[0]
    wrong = held_wrong([program, str(servers), str(node)], steps, answers_on_one_thread(asked, servers), asked.limit, settings)
    return f"{name} held at step {wrong[0]}" if wrong else None


def refused_in(words, settings, refused, limit):
    """What a run says in which a growth is refused, or nothing where it isn't over by then."""
    try:
        return subprocess.run(words, input=SNAPSHOT, capture_output=True, timeout=limit, env={**settings, "REFUSED": str(refused)}).stderr.decode()
    except subprocess.TimeoutExpired:
        return None


def by_growths(asked, program, settings):
    """A run that isn't over soon where one growth is refused, or isn't over at all where each later one is too."""
    words = [program, str(SERVERS[0]), "0", "0", "0"]
    with tempfile.TemporaryDirectory() as folder, ThreadPoolExecutor(BESIDE_EACH_OTHER) as runs:
        once = {**os.environ, **settings, "LD_PRELOAD": growths.library(folder)}
        many = int(re.search(r"^growths (\d+)$", refused_in(words, once, 0, HUNG_SECONDS) or "growths 0", re.MULTILINE)[1])
        for number, limit, how in ((FEW_GROWTHS, SLOW_SECONDS, once), (FEW_LASTING, HUNG_SECONDS, {**once, "REFUSED_FROM": "1"})):
            refused = [1 + place * many // number for place in range(number)]
            over = runs.map(lambda growth, how=how, limit=limit: refused_in(words, how, growth, limit), refused)
            late = [growth for growth, told in zip(refused, over) if told is None]
            if late:
                return f"not over in {limit} seconds where growth {late[0]} of {many} is refused, and {len(late) - 1} times more"
    return None


FINDERS = [by_rollbacks, by_held_steps, by_growths]


def faults(asked):
    program, passed = simulated.built("gs_held", WRONG), 0
    for number, name in enumerate(("what stands", *WRONG)):
        found = next(filter(None, (find(asked, program, {"WRONG_BODY": str(number)}) for find in FINDERS)), None)
        print(f"{name}: {found or 'nothing found'}", flush=True)
        passed += bool(found) == (number > 0)
    print(f"{passed} passed, {len(WRONG) + 1 - passed} failed", flush=True)
    return passed == len(WRONG) + 1


# Each part, with the runs that it makes where none is said.
ASKED = {
    "speed": (speed, None),
    "size": (size, None),
    "growths": (refused_growths, 100),
    "memory": (memory, None),
    "soak": (soak, 1_000),
    "rollbacks": (rollbacks, 20),
    "held": (held, None),
    "faults": (faults, None),
}


def main():
    parser = argparse.ArgumentParser(description=__doc__, formatter_class=argparse.RawDescriptionHelpFormatter)
    parser.add_argument("part", choices=ASKED)
    parser.add_argument("--times", type=int, default=4_000)
    parser.add_argument("--repeats", type=int, default=3)
    parser.add_argument("--writes", type=int, default=100 * FEW)
    parser.add_argument("--callers", type=int, default=4)
    parser.add_argument("--runs", type=int)
    parser.add_argument("--limit", type=float, default=120)
    parser.add_argument("--seed", type=int, default=1)
    parser.add_argument("--program")
    parser.add_argument("--callers-program")
    asked = parser.parse_args()
    call, runs = ASKED[asked.part]
    asked.runs = asked.runs or runs
    return 0 if call(asked) else 1


if __name__ == "__main__":
    sys.exit(main())
