#!/usr/bin/env python3
"""Kills the program that keeps its store in a file, starts it again, and looks whether all that was answered is there.

    bench/crash.py [--runs N] [--cuts N] [--limits N] [--images N] [--refusals N] [--breaks N] [--landing] [--seed N] [--program PATH] [--plain PATH] [--folder PATH]
    bench/crash.py --speed [LINES] [--again LINES] [--times N] ..

Without programs it builds chunkkeep and chunkstore as they stand, unproved. In a run the program answers a script of writes, upgrades and
rollbacks, is killed at a random moment or behind a random count of answers, and is started again on what it hasn't logged. Its answers before
and behind the kill have to be those of chunkstore to the whole script. In a cut a beginning of the next lines stands behind those that were
answered, as a crash may leave it of a batch that wasn't synced. With a limit the file can't grow behind a random length, so that a write
fails: the status has to be 1, and all that was answered in the file. With images the store is written down between parts of a script, and is
begun from its images, which are damaged at times: all answers have to be those of chunkstore to the script with the restarts that an image makes. A refusal is a file that isn't the program's, or isn't any more, another
store's sizes, or a second process: the status has to be the one that is promised, and no byte changed. A break is what an operator or a
system does to it: standard files that are closed or are the file, a file that is taken away or changed below a running store, calls of the
system that fail, a crash while the file is made, and their like. --landing tries a part of all that, for the landing. It ends with status 1
where something differs. With --speed it measures."""

import argparse
import atexit
import fcntl
import functools
import hashlib
import os
import random
import re
import resource
import shutil
import signal
import subprocess
import sys
import tempfile
import threading
import time

import beside
import launch

SIZES = ["--block", "4", "--chunk", "16"]
# Lines of a script harm the store too, as restarts do.
LAB = [*SIZES, "--lab"]
# The most seconds before a kill; a start takes a few thousandths.
MOST_SECONDS = 0.1
LINES = 400
# The bytes of a mark with its end.
MARK_BYTES = 153
# Behind so many bytes of lines the store has its nodes tick by itself, and each line counts so many more.
TICK_BYTES, TICK_LINE = 67_108_864, 256
# The name in the first line of a file, which is another one in each.
NAME = re.compile(rb"\A([^\n]*) name [0-9a-f]{32}\n")
F_SETPIPE_SZ = 1031
PIPE_BYTES = 1_048_576


def one_line(chance):
    """A line of a script over a few paths, so that later lines meet earlier ones."""
    path = f"/{chance.choice('abc')}/{chance.choice('fgh')}{chance.choice('12')}"
    folder = f"/{chance.choice('abc')}"
    some_bytes = "".join(chance.choice("0123456789abcdef") for _ in range(2 * chance.randint(1, 12)))
    lines = {
        f"mkdir {folder}": 4,
        f"create {path}": 12,
        f"write {path} {chance.randint(0, 20)} {some_bytes}": 30,
        f"append {path} {some_bytes}": 20,
        f"read {path} 0 40": 9,
        "tick": 1,
        f"mv {path} {path}x": 3,
        f"mv {path}x {path}": 2,
        f"rm {path}": 3,
        f"undelete {path}": 1,
        f"snapshot {folder} {folder}s": 1,
        f"rm -r {folder}s": 1,
        "rollingUpgrade prepare": 3,
        "rollingUpgrade rollback": 2,
        "rollingUpgrade finalize": 1,
        "rollingUpgrade query": 1,
        "restart master": 1,
        f"beat {chance.randint(0, 2)}": 1,
        f"restart {chance.randint(0, 2)}": 1,
        "scan": 1,
        "replicate": 1,
    }
    return chance.choices(list(lines), list(lines.values()))[0]


def probes():
    """Lines that tell what a store holds."""
    lines = ["rollingUpgrade query", "ls /"]
    for folder in "abc":
        lines.append(f"ls /{folder}")
        for name in ("f1", "f2", "g1", "g2", "h1", "h2"):
            lines += [f"stat /{folder}/{name}", f"read /{folder}/{name} 0 64"]
    return lines


def text_of(lines):
    return "".join(f"{line}\n" for line in lines).encode()


def answers_of(program, words, lines):
    run = subprocess.run([program, *words], input=text_of(lines), stdout=subprocess.PIPE, stderr=subprocess.PIPE)
    if run.returncode:
        raise SystemExit(f"{program} ended with status {run.returncode}: {run.stderr.decode(errors='replace')}")
    return run.stdout.decode().splitlines()


class Answered:
    """How many lines a program has answered so far, and whether it is gone."""

    def __init__(self):
        self.lines = 0
        self.is_over = threading.Event()


def feed(pipe, lines, chance, answered):
    """Writes lines in parts of random lengths, with waits between, not too far before their answers, until the reader is gone."""
    text, at, sent = text_of(lines), 0, 0
    ahead = chance.choice((1, 4, 20, 100, LINES))
    try:
        while at < len(text):
            part = text[at : at + chance.choice((1, 5, 20, 100, 400))]
            pipe.write(part)
            pipe.flush()
            at += len(part)
            sent += part.count(b"\n")
            time.sleep(chance.choice((0, 0, 0.0005, 0.003)))
            while sent - answered.lines > ahead and not answered.is_over.is_set():
                time.sleep(0.0002)
        # The end of the input would end the run by itself.
        answered.is_over.wait()
    except OSError:
        pass


def heard(run, said, answered, most):
    """Reads what a program answers, to its end, and kills it once it has answered so many lines."""
    while part := os.read(run.stdout.fileno(), PIPE_BYTES):
        said.append(part)
        answered.lines += part.count(b"\n")
        if answered.lines >= most:
            run.kill()


def talked(run, lines, chance, most, seconds=None):
    """Gives a program lines, kills it behind that many answers or seconds, and gives what it answered in whole lines, once it has ended."""
    said, answered = [], Answered()
    feeder = threading.Thread(target=feed, args=(run.stdin, lines, random.Random(chance.random()), answered))
    reader = threading.Thread(target=heard, args=(run, said, answered, most))
    feeder.start()
    reader.start()
    if seconds is not None:
        time.sleep(seconds)
        run.kill()
    reader.join()
    run.wait()
    answered.is_over.set()
    feeder.join()
    text = b"".join(said).decode()
    return text[: text.rfind("\n") + 1].splitlines()


def killed(program, path, lines, chance):
    """Starts the program on lines, and kills it at a moment or behind some answers. Gives what it answered."""
    run = subprocess.Popen([program, path, *LAB], stdin=subprocess.PIPE, stdout=subprocess.PIPE, stderr=subprocess.DEVNULL)
    if lines and chance.random() < 0.75:
        return talked(run, lines, chance, chance.randint(1, len(lines)))
    return talked(run, lines, chance, LINES + 1, chance.random() * MOST_SECONDS)


def mark(text, count, answers):
    """The mark behind a text of so many lines, which were answered so."""
    return f"# {count:020} {hashlib.sha256(text).hexdigest()} {hashlib.sha256(answers).hexdigest()}\n".encode()


def marked(batches, head=None):
    """The file of a store that has answered lines in batches, each a list of a line and its answer, without their ends."""
    text, count, answers = (HEAD if head is None else head) + b"\n", 0, b""
    for batch in batches:
        text += b"".join(line + b"\n" for line, _ in batch)
        answers += b"".join(answer + b"\n" for _, answer in batch)
        count += len(batch)
        text += mark(text, count, answers)
    return text


def is_mark(line):
    return line.startswith(b"#") and len(line) == MARK_BYTES and line.endswith(b"\n")


def unmarked(text):
    """A file without its marks."""
    return b"".join(line for line in text.splitlines(keepends=True) if not is_mark(line))


def unnamed(text):
    """A file without the name in its first line, if it has one."""
    return NAME.sub(rb"\1\n", text)


def logged(path):
    """The lines of a file up to its last mark, but for its first line and the marks, and the bytes behind."""
    if not os.path.exists(path):
        return [], b""
    lines = bytes_of(path).splitlines(keepends=True)[1:]
    last = max((number for number, line in enumerate(lines) if is_mark(line)), default=-1)
    return unmarked(b"".join(lines[: last + 1])).decode().splitlines(), b"".join(lines[last + 1 :])


def first_difference(program, path, plain, lines, answered, asked):
    """Looks at a file that was left behind so many answers, and goes on with it."""
    wanted = plain[: len(answered)]
    if answered != wanted:
        return "an answer before the kill isn't that of a store that goes on"
    kept, rest = logged(path)
    if len(kept) < len(answered):
        return f"{len(answered)} lines were answered, and {len(kept)} are kept"
    if kept != lines[: len(kept)]:
        return "what is kept isn't what was asked"
    if b"#" not in rest and not text_of(lines[len(kept) :]).startswith(rest):
        return "what stands behind the last mark is no beginning of the next lines"
    if answers_of(program, [path, *LAB], asked[len(kept) :]) != plain[len(kept) :]:
        return "an answer behind the kill isn't that of a store that went on"
    return None


def crash(program, plain_program, path, chance):
    """One run with one to three kills. Answers what is wrong, if anything, and how many lines stood when it was killed last."""
    lines = [one_line(chance) for _ in range(LINES)]
    asked = lines + probes()
    plain = answers_of(plain_program, SIZES, asked)
    for _ in range(chance.randint(0, 2)):
        kept = len(logged(path)[0])
        answered = killed(program, path, lines[kept:], chance)
        if answered != plain[kept : kept + len(answered)]:
            return "an answer between two kills isn't that of a store that goes on", 0
        if len(logged(path)[0]) < kept + len(answered):
            return "a line that was answered between two kills isn't kept", 0
    kept = len(logged(path)[0])
    answered = plain[:kept] + killed(program, path, lines[kept:], chance)
    stood = len(logged(path)[0])
    return first_difference(program, path, plain, lines, answered, asked), stood


def cut(program, plain_program, path, chance):
    """Answers a part of a script, puts a beginning of what comes next behind it, and goes on. Some of its bytes may be others or missing."""
    lines = [one_line(chance) for _ in range(LINES)]
    asked = lines + probes()
    plain = answers_of(plain_program, SIZES, asked)
    count = chance.randint(0, LINES - 1)
    answered = answers_of(program, [path, *LAB], lines[:count])
    more = lines[count : count + chance.choice((1, 10, 100))]
    text, before = bytes_of(path) + text_of(more), bytes_of(path)
    behind = text_of(more) + mark(text, count + len(more), text_of(plain[: count + len(more)]))
    behind = bytearray(behind[: chance.randint(0, len(behind) - 1)])
    if behind and chance.random() < 0.5:
        at = chance.randrange(len(behind))
        hole = behind[at : at + chance.choice((1, 40, 512))]
        # A line end within a mark would leave a part of one before the end, which is refused.
        behind[at : at + len(hole)] = chance.choice((bytes(len(hole)), chance.randbytes(len(hole)).replace(b"\n", b"\0")))
    with open(path, "ab") as file:
        file.write(behind)
    status, said = ended(program, [path, *SIZES])[::2]
    if status or (behind and f"{len(behind)} bytes after what was answered are cut off" not in said):
        return f"a start has status {status}: {said}", count
    if bytes_of(path) != before:
        return "what was answered was changed by a start", count
    if behind and bytes_of(f"{path}.cut") != behind:
        return "what was cut off isn't what was put aside", count
    return first_difference(program, path, plain, lines, answered, asked), count


def limited(program, plain_program, path, chance):
    """Answers a script into a file that can't grow behind some length, and goes on without that."""
    lines = [one_line(chance) for _ in range(LINES)]
    asked = lines + probes()
    plain = answers_of(plain_program, SIZES, asked)
    answers_of(program, [path, *LAB], [])
    most = os.path.getsize(path) + chance.randint(0, len(text_of(lines)) - 1)

    def limit():
        # Without this the system ends the program where it writes behind the limit.
        signal.signal(signal.SIGXFSZ, signal.SIG_IGN)
        resource.setrlimit(resource.RLIMIT_FSIZE, (most, most))

    # The limit is one of every file that the program writes: standard error goes through a pipe.
    run = subprocess.Popen([program, path, *LAB], stdin=subprocess.PIPE, stdout=subprocess.PIPE, stderr=subprocess.PIPE, preexec_fn=limit)
    told = talked(run, lines, chance, LINES + 1)
    said, status = run.stderr.read().decode(), run.wait()
    run.stderr.close()
    stood = len(logged(path)[0])
    if status != 1 or "it can't be written" not in said:
        return f"a write fails, and the status is {status}: {said}", stood
    if os.path.getsize(path) > most:
        return "the file is longer than it may be", stood
    return first_difference(program, path, plain, lines, told, asked), stood


# ---- images


# The lines that an image makes: each server is restarted before it, and the master behind.
RESTARTS = [*(f"restart {server}" for server in range(3)), "restart master"]


def image_names(path, number):
    """What stands beside a file that begins from an image, by the image and the log before."""
    return f"{path}.image.{number}", f"{path}.before.{number}"


def image_number(path):
    """The number of the image that a file begins from, or 0."""
    found = re.match(rb"chunkkeep 3 .* image (\d+) [0-9a-f]{64} lines \d+ [0-9a-f]{64} [0-9a-f]{64}\n", bytes_of(path))
    return int(found[1]) if found else 0


def take_image(program, path, number):
    """What is wrong with an image that is taken, and has to have this number."""
    status, answered, said = ended(program, [path, "--image"])
    if status or answered or f"image {number} is taken" not in said:
        return f"image {number}: the status is {status}: {answered!r} {said}"
    if image_number(path) != number:
        return f"the file doesn't begin from image {number}"
    left = [name for name in os.listdir(os.path.dirname(path)) if name.startswith(f"{os.path.basename(path)}.") and name.endswith(".new")]
    return f"{left} stay" if left else None


def damage(path, number, chance):
    """Damages an image or takes it away, and says how its reading fails."""
    image, _ = image_names(path, number)
    text = bytearray(bytes_of(image))
    how = chance.randint(0, 3)
    if how == 0:
        os.remove(image)
        return
    if how == 1:
        text[chance.randrange(len(text))] ^= 1 << chance.randint(0, 7)
    elif how == 2:
        text = text[: chance.randrange(len(text))]
    else:
        text += b"0"
    with open(image, "wb") as file:
        file.write(text)


def imaged(program, plain_program, path, chance):
    """A script in parts, with an image behind each. Some images are damaged before the store begins from them, and some runs are killed."""
    asked, told, parts = [], [], chance.randint(2, 4)
    lines, count, is_damaged = [one_line(chance) for _ in range(LINES)], LINES // parts, False
    for part in range(parts):
        more = lines[part * count : (part + 1) * count]
        if chance.random() < 0.5:
            answered = killed(program, path, more, chance)
            # A log behind an image has the lines of this part alone.
            more = more[: len(logged(path)[0])]
        else:
            answered = answers_of(program, [path, *LAB], more)
        told += [(len(asked) + at, answer) for at, answer in enumerate(answered)]
        asked += more
        wrong = take_image(program, path, part + 1)
        if wrong:
            return wrong, len(asked)
        asked += RESTARTS
        # The log before begins from the image before, so that has to stand where this one doesn't.
        is_damaged = not is_damaged and chance.random() < 0.5
        if is_damaged:
            damage(path, part + 1, chance)
    told += [(len(asked) + at, answer) for at, answer in enumerate(answers_of(program, [path, *LAB], probes()))]
    plain = answers_of(plain_program, SIZES, asked + probes())
    for at, answer in told:
        if plain[at] != answer:
            return f"line {at + 1} is answered {answer!r} where {plain[at]!r} is meant", len(asked)
    for name in (*image_names(path, parts), f"{path}.image.{parts - 1}"):
        if os.path.exists(name):
            os.remove(name)
    return None, len(asked)


# ---- refusals


def ended(program, words, text=b""):
    run = subprocess.run([program, *words], input=text, stdout=subprocess.PIPE, stderr=subprocess.PIPE)
    return run.returncode, run.stdout, run.stderr.decode(errors="replace")


def wrong_end(program, words, path, status, pattern):
    """What is wrong with a run that has to be refused with a status and a text, and to change nothing."""
    before = open(path, "rb").read() if os.path.exists(path) else None
    got, answered, said = ended(program, words, b"mkdir /z\n")
    after = open(path, "rb").read() if os.path.exists(path) else None
    if before != after:
        return f"the file was changed by a run with {words}"
    if got != status or answered:
        return f"the status is {got} where {status} is meant, and {len(answered)} bytes were answered: {said}"
    if not re.search(pattern, said):
        return f"standard error isn't as it should be: {said}"
    return None


def foreign(program, path, chance):
    """A file that isn't the program's."""
    count = chance.choice((1, 10, 1_000, 600_000))
    kind = chance.randint(0, 4)
    if kind == 0:
        text = b"#" + chance.randbytes(count)
    elif kind == 1:
        text = b"mkdir /a\ncreate /a/f\n" * count
    elif kind == 2:
        text = b"chunkkeep 2 --servers 3 --racks 1 --replicas 3 --chunk 67108864 --block  65536\n" + b"mkdir /a\n"
    elif kind == 3:
        # A name has 32 digits, and none in upper case.
        name = chance.choice((b"", b" name", b" name ", b" name " + b"ab" * 15, b" name " + b"AB" * 16, b" name " + b"ab" * 17, b" named " + b"ab" * 16))
        text = HEAD + (name or b" ") + b"\nmkdir /a\n"
    else:
        text = b"chunkkeep %d --servers 3 --racks 1 --replicas 3 --chunk 67108864 --block 0\n" % chance.choice((1, 2))
    with open(path, "wb") as file:
        file.write(text)
    return wrong_end(program, [path], path, 1, "line 1 isn't that of a store")


def other_version(program, path, chance):
    with open(path, "wb") as file:
        file.write(f"chunkkeep {chance.randint(3, 99)} --servers 3 --whatever\nmkdir /a\n".encode())
    return wrong_end(program, [path], path, 1, "another version")


def broken_line(program, path, chance):
    """A line in the midst of a file is none, or another one."""
    lines = [one_line(chance) for _ in range(LINES)]
    answers_of(program, [path, *LAB], lines)
    stands = bytes_of(path).splitlines(keepends=True)
    number = chance.choice([number for number, line in enumerate(stands) if number and not is_mark(line)])
    stands[number] = chance.choice((b"", b" ", b"mkdir", b"ls  /", b"\x00" * 40, b"create /a/f ", b"write /a/f 0 6")) + b"\n"
    if chance.random() < 0.5:
        # As the first form has it.
        stands = [b"chunkkeep 1" + stands[0][11:], *(line for line in stands[1:] if not is_mark(line))]
        number = next(at for at, line in enumerate(stands) if at and line.decode(errors="replace")[:-1] not in lines)
    kept_file(path, b"".join(stands))
    return wrong_end(program, [path], path, 1, f"line {number + 1} is none of a script")


def other_sizes(program, path, chance):
    answers_of(program, [path, *LAB], [one_line(chance) for _ in range(20)])
    name, given, size = chance.choice(
        (("servers", 4, 3), ("racks", 2, 1), ("replicas", 2, 3), ("chunk", 32, 16), ("block", 8, 4), ("block", 0, 4))
    )
    return wrong_end(program, [path, f"--{name}", str(given)], path, 2, f"has --{name} {size}\n")


def no_store(program, path, chance):
    """There are no such sizes, and no file is made."""
    words = chance.choice((["--servers", "2"], ["--chunk", "10", "--block", "4"], ["--block", "0"]))
    return wrong_end(program, [path, *words], path, 2, "no store of these sizes")


def second_process(program, path, chance):
    """A second process is refused while the first one has the file, which goes on."""
    first = subprocess.Popen([program, path, *SIZES], stdin=subprocess.PIPE, stdout=subprocess.PIPE, stderr=subprocess.DEVNULL)
    for number in range(3):
        first.stdin.write(f"mkdir /{number}\n".encode())
        first.stdin.flush()
        if first.stdout.readline() != b"ok\n":
            return "the first process doesn't answer"
        wrong = wrong_end(program, [path, *chance.choice(([], SIZES))], path, 1, "another process has it")
        if wrong:
            return wrong
    first.stdin.close()
    if first.wait():
        return f"the first process ended with status {first.returncode}"
    status, answered, said = ended(program, [path], b"ls /\n")
    return None if (status, answered) == (0, b"ok 0/ 1/ 2/\n") else f"behind two processes: {status} {answered} {said}"


REFUSALS = (foreign, other_version, broken_line, other_sizes, no_store, second_process)


def refusal(program, _plain_program, path, chance):
    return chance.choice(REFUSALS)(program, path, chance), 0


def tried(name, how, count, programs, folder, seed):
    """Runs that many, and answers how many were as they should be."""
    passed, stood = 0, []
    for number in range(count):
        path = os.path.join(folder, f"{name}-{number}")
        wrong, lines = how(*programs, path, random.Random(f"{seed} {name} {number}"))
        stood.append(lines)
        if wrong:
            print(f"{name} {number} of seed {seed}: {wrong}; see {path}", flush=True)
        else:
            passed += 1
            if os.path.exists(path):
                os.remove(path)
    if how is refusal:
        print(f"{name}: {passed} of {count} passed", flush=True)
        return passed
    between = sum(0 < lines < LINES for lines in stood)
    print(f"{name}: {passed} of {count} passed; in {between} the store had some of the {LINES} lines and not all", flush=True)
    return passed


# ---- what an operator breaks


# The first line of the stores here, without its end and the name that is drawn for a store, and that of the first form.
HEAD = b"chunkkeep 2 --servers 3 --racks 1 --replicas 3 --chunk 16 --block 4"
FIRST_HEAD = b"chunkkeep 1" + HEAD[11:]
NAMED_HEAD = HEAD + b" name 0123456789abcdeffedcba9876543210"
KEPT = marked([[(b"mkdir /a", b"ok")], [(b"mkdir /b", b"ok")]])
MORE = b"mkdir /c\nmkdir /d\n"
STANDARD = ("standard input", "standard output", "standard error")
# Errors of the system, as numbers.
EIO, ENOSPC, ENOLCK = 5, 28, 37


def kept_file(path, text=KEPT):
    with open(path, "wb") as file:
        file.write(text)


def bytes_of(path):
    if not os.path.exists(path):
        return None
    with open(path, "rb") as file:
        return file.read()


def unlike(path, text):
    """Says how a file differs from what it is meant to hold."""
    found = bytes_of(path)
    return None if found == text else f"the file holds {found!r} where {text!r} is meant"


def lines_unlike(path, text):
    """Says how the lines of a file differ from those that it is meant to hold, the marks aside."""
    found = bytes_of(path)
    return None if found is not None and unmarked(unnamed(found)) == unmarked(text) else f"the file holds {found!r} where the lines of {text!r} are meant"


def goes_on(program, path, names, *words):
    """What is wrong with a start on a file behind which these directories stand."""
    status, answered, said = ended(program, [path, *words], b"ls /\n")
    wanted = f"ok {' '.join(f'{name}/' for name in names)}\n".encode()
    return None if (status, answered) == (0, wanted) else f"the next start has status {status} and answers {answered!r}: {said}"


def refused_at(program, words, path, status, pattern, given=b"mkdir /z\n", **how):
    """What is wrong with a run that has to be refused with a status and a text, and to change neither the file nor the folder."""
    folder = os.path.dirname(path)
    before, names = bytes_of(path), sorted(os.listdir(folder))
    run = subprocess.run([program, *words], input=given, stdout=subprocess.PIPE, stderr=subprocess.PIPE, timeout=60, **how)
    said = run.stderr.decode(errors="replace")
    if bytes_of(path) != before or sorted(os.listdir(folder)) != names:
        return f"a run with {words} that is refused changed the folder: {sorted(os.listdir(folder))}"
    if run.returncode != status or run.stdout:
        return f"the status is {run.returncode} where {status} is meant, and {run.stdout!r} was answered: {said}"
    return None if re.search(pattern, said) else f"standard error isn't as it should be: {said}"


def is_closed(*numbers):
    """A run with some of the three standard files closed neither writes what isn't a line into the file nor leaves one out."""

    def tries(program, path, chance):
        rest = chance.choice((b"", b"mkd"))
        kept_file(path, KEPT + rest)

        def close():
            for number in numbers:
                os.close(number)

        given = None if 0 in numbers else MORE
        pipe = subprocess.PIPE
        run = subprocess.run([program, path], input=given, stdout=pipe, stderr=pipe, timeout=60, preexec_fn=close)
        if run.returncode:
            return f"the status is {run.returncode}: {run.stderr!r}"
        if 0 not in numbers and 1 not in numbers and run.stdout != b"ok\nok\n":
            return f"it answers {run.stdout!r}"
        names = "ab" if 0 in numbers else "abcd"
        return lines_unlike(path, KEPT if 0 in numbers else KEPT + MORE) or goes_on(program, path, names)

    return tries


def is_standard(number):
    """The file is one of the three standard files too."""

    def tries(program, path, chance):
        kept_file(path)
        streams = [subprocess.DEVNULL, subprocess.PIPE, subprocess.PIPE]
        with open(path, "rb" if number == 0 else "ab") as file:
            streams[number] = file
            run = subprocess.Popen([program, path], stdin=streams[0], stdout=streams[1], stderr=streams[2])
            try:
                answered, said = run.communicate(timeout=10)
            except subprocess.TimeoutExpired:
                run.kill()
                run.communicate()
                return "it goes on and on"
        if run.returncode != 2 or answered:
            return f"the status is {run.returncode}, and it answers {answered!r}: {said!r}"
        if number < 2 and f"it is {STANDARD[number]} too".encode() not in said:
            return f"standard error isn't as it should be: {said!r}"
        return unlike(path, KEPT) or goes_on(program, path, "ab")

    return tries


def taken_away(path):
    os.remove(path)


def renamed(path):
    os.rename(path, f"{path}.old")


def replaced(path):
    kept_file(f"{path}.other")
    os.rename(f"{path}.other", path)


def truncated(path):
    os.truncate(path, 0)


def cut_by_a_line(path):
    os.truncate(path, os.path.getsize(path) - 9)


def appended_to(path):
    with open(path, "ab") as file:
        file.write(b"mkdir /x\n")


def is_changed_below(how, pattern):
    """Another program does something to the file below a running store: the next line isn't answered, and the run says what happened."""

    def tries(program, path, chance):
        kept_file(path)
        pipe = subprocess.PIPE
        with subprocess.Popen([program, path], stdin=pipe, stdout=pipe, stderr=pipe) as run:
            run.stdin.write(b"mkdir /c\n")
            run.stdin.flush()
            if run.stdout.readline() != b"ok\n":
                return "the first line isn't answered"
            how(path)
            left = {name: bytes_of(name) for name in (path, f"{path}.old")}
            answered, said = run.communicate(b"mkdir /d\n", timeout=60)
        if run.returncode != 1 or answered:
            return f"the status is {run.returncode}, and it answers {answered!r}: {said!r}"
        if not re.search(pattern, said.decode()):
            return f"standard error isn't as it should be: {said!r}"
        for name, text in left.items():
            wrong = unlike(name, text)
            if wrong:
                return wrong
        return None

    return tries


def empty_file(program, path, chance):
    """An empty file is none of a store, and no new one is made of it."""
    kept_file(path, b"")
    return refused_at(program, [path, *SIZES], path, 1, "it is empty, and no store")


def part_of_a_head(program, path, chance):
    """So is a part of a first line."""
    kept_file(path, HEAD[: chance.randint(1, len(HEAD))])
    return refused_at(program, [path, *SIZES], path, 1, "it has a part of a first line")


def linked_to_nothing(program, path, chance):
    """No store is made through a symbolic link to nothing."""
    os.symlink(f"{path}.away", path)
    wrong = refused_at(program, [path, *SIZES], path, 1, "a symbolic link")
    os.remove(path)
    return wrong


def not_there(program, path, chance):
    """With --existing no store is made, and one that is there is taken."""
    wrong = refused_at(program, [path, "--existing"], path, 1, "nothing stands there")
    if wrong:
        return wrong
    kept_file(path)
    status, answered, said = ended(program, [path, "--existing"], b"ls /\n")
    return None if (status, answered) == (0, b"ok a/ b/\n") else f"the status is {status}: {answered!r} {said}"


def not_ordinary(program, path, chance):
    """What is no ordinary file is refused at once."""
    kind = chance.randint(0, 2)
    if kind == 0:
        os.mkfifo(path)
    elif kind == 1:
        os.mkdir(path)
    named = path if kind < 2 else "/dev/full"
    run = subprocess.run([program, named], input=b"ls /\n", stdout=subprocess.PIPE, stderr=subprocess.PIPE, timeout=10)
    if kind == 0:
        os.remove(path)
    elif kind == 1:
        os.rmdir(path)
    if run.returncode != 1 or run.stdout or b"no ordinary file" not in run.stderr:
        return f"the status is {run.returncode}: {run.stdout!r} {run.stderr!r}"
    return None


def is_new(text):
    """Whether a file is that of a new store, with a name."""
    return bool(NAME.match(text)) and unnamed(text) == HEAD + b"\n"


def left_beside(program, path, chance):
    """What a crash left beside the name while the file was made is gone on from; what isn't that is refused, and stays."""
    beside = f"{path}.new"
    head = NAMED_HEAD + b"\n"
    kept_file(beside, head[: chance.randint(0, len(head))])
    status, answered, said = ended(program, [path, *SIZES], b"mkdir /a\nmkdir /b\n")
    if (status, answered) != (0, b"ok\nok\n"):
        return f"the status is {status}: {answered!r} {said}"
    if os.path.exists(beside):
        return "the file beside the name stays"
    wrong = lines_unlike(path, KEPT)
    if wrong:
        return wrong
    # A crash between the two names of the file leaves both.
    os.link(path, beside)
    wrong = goes_on(program, path, "ab") or (os.path.exists(beside) and "the second name stays")
    if wrong:
        return wrong
    os.remove(path)
    kept_file(beside, chance.choice((b"my own\n", HEAD + b"\nmkdir /a\n", HEAD + b"0", NAMED_HEAD + b"\nmkdir /a\n")))
    text = bytes_of(beside)
    wrong = refused_at(program, [path, *SIZES], path, 1, "stands there and isn't a beginning of it") or unlike(beside, text)
    os.remove(beside)
    return wrong


def killed_while_made(program, path, chance):
    """The program is killed while it makes a store: the whole first line stands there or no file, and the next start goes on."""
    run = subprocess.Popen([program, path, *SIZES], stdin=subprocess.PIPE, stdout=subprocess.DEVNULL, stderr=subprocess.DEVNULL)
    time.sleep(chance.random() * 0.02)
    run.kill()
    run.communicate()
    if os.path.exists(path) and not is_new(bytes_of(path)):
        return f"the file holds {bytes_of(path)!r}"
    status, answered, said = ended(program, [path, *SIZES], b"mkdir /a\nmkdir /b\n")
    if (status, answered) != (0, b"ok\nok\n"):
        return f"the next start has status {status}: {answered!r} {said}"
    return lines_unlike(path, KEPT) or (os.path.exists(f"{path}.new") and "the file beside the name stays")


def is_shown(word, pattern):
    """Words that ask for help or the version get it on standard output, with status 0."""

    def tries(program, path, chance):
        status, shown, said = ended(program, [word])
        if status or said or not re.search(pattern, shown.decode()):
            return f"the status is {status}: {shown!r} {said}"
        return None

    return tries


def calls_of(asked):
    """The environment of a program of which calls are told or fail."""
    return {**os.environ, "LD_PRELOAD": calls(), **asked}


def is_failed_once(name, error, makes_part=False):
    """A call of the system fails once, each one of that name in turn: no line that was answered is lost, nothing else is kept of those that
    come with the failed call, and the next start goes on."""

    def tries(program, path, chance):
        for number in range(1, 20):
            kept_file(path)
            asked = {"CALLS_FAIL": name, "CALLS_NUMBER": str(number), "CALLS_ERROR": str(error)}
            if makes_part:
                asked["CALLS_PART"] = "1"
            pipe = subprocess.PIPE
            run = subprocess.Popen([program, path], stdin=pipe, stdout=pipe, stderr=pipe, env=calls_of(asked))
            answers = 0
            try:
                for line in MORE.splitlines(keepends=True):
                    run.stdin.write(line)
                    run.stdin.flush()
                    if run.stdout.readline() != b"ok\n":
                        break
                    answers += 1
                _, said = run.communicate(timeout=60)
            except BrokenPipeError:
                run.stdin = None
                _, said = run.communicate(timeout=60)
            if run.returncode == 0 and answers == 2:
                return None if number > 1 else f"no {name} was made"
            if run.returncode != 1 or not re.search("it can't be (written|opened|made|read)", said.decode()):
                return f"{name} {number} fails, and the status is {run.returncode}: {said!r}"
            stands = KEPT + b"".join(MORE.splitlines(keepends=True)[:answers])
            wrong = lines_unlike(path, stands) or goes_on(program, path, "abcd"[: 2 + answers])
            if wrong:
                return f"{name} {number} fails: {wrong}"
        return f"{name} fails again and again"

    return tries


def is_killed_at(name):
    """The program is killed at each call of a name in turn, while it makes a store and answers: no line that was answered is lost, and the next
    start goes on."""

    def tries(program, path, chance):
        for number in range(1, 20):
            asked = {"CALLS_FAIL": name, "CALLS_NUMBER": str(number), "CALLS_ERROR": "0"}
            pipe = subprocess.PIPE
            run = subprocess.run([program, path, *SIZES], input=b"mkdir /a\nmkdir /b\n", stdout=pipe, stderr=pipe, env=calls_of(asked), timeout=60)
            if run.returncode == 0:
                return None if number > 1 else f"no {name} was made"
            stands = bytes_of(path)
            if stands is not None and not (NAME.match(stands) and unmarked(KEPT).startswith(unmarked(unnamed(stands)))):
                return f"killed at {name} {number}: the file holds {stands!r}"
            kept = len(logged(path)[0])
            if kept < run.stdout.count(b"\n"):
                return f"killed at {name} {number}: a line that was answered isn't kept"
            status, answered, said = ended(program, [path, *SIZES], b"ls /\n")
            wanted = " ".join(["ok", "a/", "b/"][: kept + 1]) + "\n"
            if (status, answered.decode()) != (0, wanted):
                return f"killed at {name} {number}: the next start has status {status}: {answered!r} {said}"
            if os.path.exists(f"{path}.new"):
                return f"killed at {name} {number}: the file beside the name stays"
            os.remove(path)
        return f"killed at {name} again and again"

    return tries


def many_at_once(program, path, chance):
    """Of many that make a store at once, one goes on."""
    pipe = subprocess.PIPE
    runs = [subprocess.Popen([program, path, *SIZES], stdin=pipe, stdout=pipe, stderr=pipe) for _ in range(8)]
    try:
        begun, going = time.monotonic(), runs
        while len(going) > 1 and time.monotonic() - begun < 20:
            time.sleep(0.05)
            going = [run for run in runs if run.poll() is None]
        if len(going) != 1:
            return f"{len(going)} of {len(runs)} go on"
        answered, _ = going[0].communicate(b"mkdir /a\nmkdir /b\n", timeout=60)
        if answered != b"ok\nok\n" or any(run.returncode != 1 for run in runs if run is not going[0]):
            return f"they end with {[run.returncode for run in runs]}, and one answers {answered!r}"
    finally:
        for run in runs:
            run.kill()
            run.communicate()
    return lines_unlike(path, KEPT) or (os.path.exists(f"{path}.new") and "the file beside the name stays")


def late_answer(program, path, asked):
    """What is answered before it is on the disk, if anything is."""
    told = f"{path}.calls"
    kept_file(path)
    run = subprocess.run([program, path], input=MORE, stdout=subprocess.PIPE, stderr=subprocess.PIPE, env=calls_of({"CALLS_TOLD": told, **asked}), timeout=60)
    lines = [line.split() for line in bytes_of(told).decode().splitlines()]
    os.remove(told)
    if run.returncode or run.stdout != b"ok\nok\n":
        return f"the status is {run.returncode}: {run.stdout!r} {run.stderr!r}"
    unsynced, answers = set(), 0
    for name, file, _ in lines:
        if name == "sync":
            unsynced.discard(file)
        elif name in ("write", "cut") and int(file) > 2:
            unsynced.add(file)
        elif file == "1":
            answers += 1
            if unsynced:
                return "a line is answered before it is on the disk"
    return None if answers else "no answer was told"


def answers_behind_a_sync(program, path, chance):
    """Each answer comes behind the sync of its line. A sync that does nothing is found, so the trial sees one."""
    wrong = late_answer(program, path, {})
    if wrong:
        return wrong
    if late_answer(program, path, {"CALLS_SKIP": "fdatasync"}) is None:
        return "a sync that does nothing isn't found"
    return None


def slow_input(program, path, chance):
    """A standard input that would block is waited for."""
    kept_file(path)
    read, write = os.pipe()
    os.set_blocking(read, False)
    pipe = subprocess.PIPE
    with subprocess.Popen([program, path], stdin=read, stdout=pipe, stderr=pipe) as run:
        os.close(read)
        for line in MORE.splitlines(keepends=True):
            time.sleep(0.2)
            if run.poll() is not None:
                os.close(write)
                return f"it ended with status {run.returncode}: {run.stderr.read()!r}"
            os.write(write, line)
            if run.stdout.readline() != b"ok\n":
                os.close(write)
                return "a line isn't answered"
        os.close(write)
        run.wait(timeout=60)
    return f"the status is {run.returncode}" if run.returncode else lines_unlike(path, KEPT + MORE)


def goes_unchanged(program, path, answers):
    """What is wrong with a start that has to serve what stands in a file."""
    text = bytes_of(path)
    run = subprocess.run([program, path], input=b"", stdout=subprocess.PIPE, stderr=subprocess.PIPE, timeout=60)
    if run.returncode or bytes_of(path) != text:
        return f"the status is {run.returncode}: {run.stderr!r}"
    return answers and goes_on(program, path, answers)


def is_refused(program, path, text):
    """What is wrong with a start on a file that has to be refused, of which no byte may be changed."""
    kept_file(path, text)
    run = subprocess.run([program, path], input=b"ls /\n", stdout=subprocess.PIPE, stderr=subprocess.PIPE, timeout=60)
    if run.returncode not in (1, 2) or run.stdout or not run.stderr:
        return f"the status is {run.returncode}, and it answers {run.stdout!r}: {run.stderr!r}, of {text!r}"
    return unlike(path, text)


def small_log():
    """A log of some batches, as the definition of its form has it."""
    made = [[(b"mkdir /a", b"ok"), (b"create /a/f", b"ok")], [(b"append /a/f 3030", b"ok 0")], [(b"append /a/f 3131", b"ok 2"), (b"read /a/f 0 9", b"ok 30303131")]]
    return marked(made, NAMED_HEAD)


def a_bit_is_flipped(program, path, chance):
    """A log of which one bit is another is refused, whichever it is. Of each byte one is tried."""
    text = small_log()
    kept_file(path, text)
    wrong = goes_unchanged(program, path, "")
    for at in range(len(text)):
        if wrong:
            return wrong
        flipped = bytearray(text)
        flipped[at] ^= 1 << chance.randint(0, 7)
        wrong = is_refused(program, path, bytes(flipped))
    return wrong


def lines_are_moved(program, path, chance):
    """A log that lacks a line, has one twice or two in each other's place is refused. Marks are lines too."""
    lines = small_log().splitlines(keepends=True)
    for at in range(1, len(lines)):
        lost = lines[:at] + lines[at + 1 :]
        doubled = lines[:at] + lines[at : at + 1] + lines[at:]
        swapped = lines[:at] + lines[at + 1 : at + 2] + lines[at : at + 1] + lines[at + 2 :]
        # Without its last mark a batch was never answered.
        for changed in [doubled] if at == len(lines) - 1 else [lost, doubled, swapped]:
            wrong = is_refused(program, path, b"".join(changed))
            if wrong:
                return wrong
    return None


def first_form(program, path, chance):
    """A log of the first form is taken up: its lines are run, and it goes on with marks, from whatever a crash leaves of the first of them."""
    text = FIRST_HEAD + b"\nmkdir /a\nmkdir /b\n"
    kept_file(path, text + chance.choice((b"", b"mkd")))
    wrong = goes_on(program, path, "ab")
    if wrong:
        return wrong
    answers = b"ok\nok\n"
    wanted = text + mark(text, 2, answers) + b"ls /\n"
    wanted += mark(wanted, 3, answers + b"ok a/ b/\n")
    wrong = unlike(path, wanted) or goes_on(program, path, "ab")
    if wrong:
        return wrong
    torn = text + mark(text, 2, answers)[: chance.randint(1, MARK_BYTES - 1)]
    kept_file(path, torn)
    return goes_on(program, path, "ab")


def torn_line(program, path, chance):
    """A last line of the input that lacks its end isn't run, and the run says so."""
    kept_file(path)
    status, answered, said = ended(program, [path], b"mkdir /c\nmkdir /d")
    if status != 1 or answered != b"ok\n" or "lacks its end" not in said:
        return f"the status is {status}, and it answers {answered!r}: {said}"
    return lines_unlike(path, KEPT + b"mkdir /c\n") or goes_on(program, path, "abc")


def less_memory(program, path, chance):
    """A start that lacks memory for what was answered is refused."""
    lines = b"create /f\nwrite /f 30000000 21\nappend /f 2e\nstat /f\n"
    status, answered, said = ended(program, [path, "--chunk", "67108864", "--block", "65536"], lines)
    if status or b"refused" in answered:
        return f"the status is {status}, and it answers {answered!r}: {said}"
    text = bytes_of(path)

    def limit():
        resource.setrlimit(resource.RLIMIT_AS, (60_000 << 10, 60_000 << 10))

    run = subprocess.run([program, path], input=b"stat /f\n", stdout=subprocess.PIPE, stderr=subprocess.PIPE, preexec_fn=limit, timeout=60)
    if run.returncode == 0 or run.stdout:
        return f"the status is {run.returncode}, and it answers {run.stdout!r}"
    return unlike(path, text)


def marks_are_lost(program, path, chance):
    """A log that has more behind its last mark than a crash may leave is refused."""
    return is_refused(program, path, KEPT + b"mkdir /c\n" * 600_000)


# ---- what stands after the last mark


def refused_so(program, path, text, pattern):
    """What is wrong with a start on a file that has to be refused with status 1 and a text."""
    kept_file(path, text)
    return refused_at(program, [path], path, 1, pattern)


def is_put_aside(program, path, text, stands, names):
    """What is wrong with a start that has to put aside what it cuts off a file, and then to serve these directories."""
    aside = [f"{path}.cut", f"{path}.cut.2"]
    for name in aside:
        if os.path.exists(name):
            os.remove(name)
    for name in aside:
        kept_file(path, text)
        status, answered, said = ended(program, [path], b"ls /\n")
        wanted = f"{' '.join(['ok', *(f'{one}/' for one in names)])}\n".encode()
        if (status, answered) != (0, wanted) or f"are put aside in {name}\n" not in said:
            return f"the status is {status}, and it answers {answered!r}: {said}"
        if not bytes_of(path).startswith(stands):
            return f"the file holds {bytes_of(path)!r}"
        wrong = unlike(name, text[len(stands) :])
        if wrong:
            return wrong
    return None


def line_ends_are_others(program, path, chance):
    """A log of which the lines end with a carriage return too is refused, whether that is so of its first line or not."""
    head, rest = KEPT.split(b"\n", 1)
    rest = rest.replace(b"\n", b"\r\n")
    pattern = "its lines end with .r.n, marks too"
    return refused_so(program, path, head + b"\r\n" + rest, pattern) or refused_so(program, path, head + b"\n" + rest, pattern)


def marks_are_taken_out(program, path, chance):
    """What stands in a log without its marks is put aside, since it may be a batch that waited."""
    return is_put_aside(program, path, unmarked(KEPT), HEAD + b"\n", "")


def end_is_gone(program, path, chance):
    """A log that lacks its last byte, or has zeros at its end or behind it."""
    batch = KEPT.index(b"mkdir /b")
    wrong = is_put_aside(program, path, KEPT[:-1], KEPT[:batch], "a")
    wrong = wrong or is_put_aside(program, path, KEPT[:-20] + bytes(20), KEPT[:batch], "a")
    return wrong or is_put_aside(program, path, KEPT + bytes(4096), KEPT, "ab")


def mark_is_too_early(program, path, chance):
    """A mark that isn't whole with lines after it is none that a crash leaves."""
    torn = KEPT[: -chance.randint(2, MARK_BYTES - 4)] + b"\n"
    return refused_so(program, path, torn + b"mkdir /c\n", "line 5 begins as a mark") or refused_so(program, path, torn + b"mkdir", "line 5 begins as a mark")


def first_form_with_zeros(program, path, chance):
    """Zeros behind the lines of a log of the first form are what a crash left. A line there that is too long is none of a log."""
    text = FIRST_HEAD + b"\nmkdir /a\nmkdir /b\n"
    wrong = is_put_aside(program, path, text + bytes(3_000_000), text, "ab")
    return wrong or refused_so(program, path, text + bytes(1_100_000) + b"\nmkdir /c\n", "line 4 is longer than a line may be")


def cant_be_put_aside(program, path, chance):
    """Where what is cut off can't be put aside it isn't cut off, and nothing of it is left beside."""

    def limit():
        signal.signal(signal.SIGXFSZ, signal.SIG_IGN)
        resource.setrlimit(resource.RLIMIT_FSIZE, (10, 10))

    kept_file(path, KEPT + b"mkdir /somewhere")
    return refused_at(program, [path], path, 1, "can't be put aside, so it isn't cut off", preexec_fn=limit)


# ---- what is looked at


def checked(program, path, text, status, pattern):
    """What is wrong with a look at a file, which changes nothing."""
    kept_file(path, text)
    before = sorted(os.listdir(os.path.dirname(path)))
    got, shown, said = ended(program, [path, "--check"])
    if got != status or not re.search(pattern, shown.decode() if status == 0 else said):
        return f"the status is {got}: {shown!r} {said}"
    if sorted(os.listdir(os.path.dirname(path))) != before:
        return "a look changed the folder"
    return unlike(path, text)


def is_checked(program, path, chance):
    """--check says what a file holds and what a start would do, and changes nothing; also while another process has the file."""
    wrong = checked(program, path, KEPT, 0, "2 lines and 2 marks.*\n.*nothing stands after")
    wrong = wrong or checked(program, path, KEPT + b"mkd", 0, "3 bytes stand after what was answered; a start puts them aside")
    wrong = wrong or checked(program, path, FIRST_HEAD + b"\nmkdir /a\n", 0, "form 1.*\n.*1 lines and 0 marks.*\n.*a start puts a mark after")
    wrong = wrong or checked(program, path, KEPT.replace(b"/b", b"/c"), 1, "line 5 is a mark that says otherwise of the text")
    if wrong:
        return wrong
    kept_file(path)
    with subprocess.Popen([program, path], stdin=subprocess.PIPE, stdout=subprocess.PIPE, stderr=subprocess.DEVNULL) as run:
        run.stdin.write(b"mkdir /c\n")
        run.stdin.flush()
        run.stdout.readline()
        status, shown, said = ended(program, [path, "--check"])
        run.communicate()
    if status or b"3 lines and 3 marks" not in shown:
        return f"the status of a look at a file that is in use is {status}: {shown!r} {said}"
    os.remove(path)
    return refused_at(program, [path, "--check"], path, 1, "nothing stands there") or is_named(program, path)


def is_named(program, path):
    """A store gets a name when it is made, and --check tells it. Another one gets another."""
    names = set()
    for _ in range(2):
        ended(program, [path, *SIZES], b"mkdir /a\n")
        head = bytes_of(path).split(b"\n")[0]
        status, shown, said = ended(program, [path, "--check"])
        if status or b" --block 4, name " + head.split()[-1] + b"\n" not in shown:
            return f"the status of a look at a file that has the first line {head} is {status}: {shown!r} {said}"
        names.add(head)
        os.remove(path)
    return None if len(names) == 2 and all(NAME.match(name + b"\n") for name in names) else f"the first lines of two stores are {names}"


def is_read_only(program, path, chance):
    """--read-only answers what looks, and changes neither the store nor its folder, also where nothing can be written."""

    def limit():
        signal.signal(signal.SIGXFSZ, signal.SIG_IGN)
        resource.setrlimit(resource.RLIMIT_FSIZE, (0, 0))

    text = KEPT + b"mkd"
    kept_file(path, text)
    before = sorted(os.listdir(os.path.dirname(path)))
    script = b"ls /\nmkdir /c\nrollingUpgrade query\nwhat\nrestart master\ntick\nls /\n"
    wanted = [b"ok a/ b/", b"refused 40 ReadOnly", b"ok", b"refused 34 BadLine", *[b"refused 40 ReadOnly"] * 2, b"ok a/ b/"]
    pipe = subprocess.PIPE
    run = subprocess.run([program, path, "--read-only"], input=script, stdout=pipe, stderr=pipe, timeout=60, preexec_fn=limit)
    answers = run.stdout.splitlines()
    if run.returncode or len(answers) != len(wanted) or any(not answer.startswith(one) for answer, one in zip(answers, wanted)):
        return f"the status is {run.returncode}: {run.stdout!r} {run.stderr!r}"
    if sorted(os.listdir(os.path.dirname(path))) != before:
        return "a look changed the folder"
    return unlike(path, text) or readers_and_a_writer(program, path)


def readers_and_a_writer(program, path):
    """Two may read a store at once, and nobody reads one that another process writes or the other way round."""
    pipe = subprocess.PIPE
    with subprocess.Popen([program, path, "--read-only"], stdin=pipe, stdout=pipe, stderr=subprocess.DEVNULL) as first:
        first.stdin.write(b"ls /\n")
        first.stdin.flush()
        if first.stdout.readline() != b"ok a/ b/\n":
            return "a reader doesn't answer"
        second = ended(program, [path, "--read-only"], b"ls /\n")
        writer = ended(program, [path], b"ls /\n")
        first.communicate()
    if second[:2] != (0, b"ok a/ b/\n") or writer[0] != 1 or "another process has it" not in writer[2]:
        return f"beside a reader: {second} {writer}"
    with subprocess.Popen([program, path], stdin=pipe, stdout=pipe, stderr=subprocess.DEVNULL) as first:
        first.stdin.write(b"ls /\n")
        first.stdin.flush()
        first.stdout.readline()
        second = ended(program, [path, "--read-only"], b"ls /\n")
        first.communicate()
    return None if second[0] == 1 and "another process has it" in second[2] else f"beside a writer: {second}"


def is_upto(program, path, chance):
    """--upto gives a store as it stood after a line of the file, its first line and marks counted too."""
    kept_file(path)
    for line, names in ((1, ""), (2, "a"), (3, "a"), (4, "ab"), (5, "ab")):
        wanted = f"{' '.join(['ok', *(f'{one}/' for one in names)])}\nrefused 40 ReadOnly\n".encode()
        status, answered, said = ended(program, [path, "--upto", str(line)], b"ls /\nmkdir /z\n")
        if (status, answered) != (0, wanted):
            return f"up to line {line} the status is {status}: {answered!r} {said}"
    for line in (0, 6):
        wrong = refused_at(program, [path, "--upto", str(line)], path, 1, f"it has 5 lines, and no line {line}")
        if wrong:
            return wrong
    return unlike(path, KEPT)


def needs_a_lab(program, path, chance):
    """A line that harms a store is refused without --lab and isn't kept. What was kept of such lines is run again."""
    kept_file(path)
    harm = b"restart master\nhold on reply\nhold off\nlose 0 1\ndamage 0 1 0\ndeliver 1\n"
    status, answered, said = ended(program, [path], harm)
    if status or answered != b"refused 39 NeedsLab\n" * 6:
        return f"the status is {status}: {answered!r} {said}"
    wrong = unlike(path, KEPT)
    if wrong:
        return wrong
    status, answered, said = ended(program, [path], b"tick\n")
    if status or answered != b"ok\n":
        return f"of a line that harms nothing the status is {status}: {answered!r} {said}"
    status, answered, said = ended(program, [path, "--lab"], b"restart master\n")
    if status or b"NeedsLab" in answered:
        return f"with --lab the status is {status}: {answered!r} {said}"
    return lines_unlike(path, KEPT + b"tick\nrestart master\n") or goes_on(program, path, "ab")


def no_memory_for_a_line(program, path, chance):
    """A line for which a node lacks memory ends the run and isn't kept, and a start with more memory takes the log."""

    def limit():
        resource.setrlimit(resource.RLIMIT_AS, (60_000 << 10, 60_000 << 10))

    kept_file(path, marked([[(b"create /f", b"ok")]], FIRST_HEAD[:9] + b" 2 --servers 3 --racks 1 --replicas 3 --chunk 67108864 --block 65536"))
    pipe = subprocess.PIPE
    run = subprocess.run([program, path], input=b"write /f 30000000 21\nappend /f 2e\n", stdout=pipe, stderr=pipe, preexec_fn=limit, timeout=60)
    if run.returncode != 1 or run.stdout or b"memory is lacking" not in run.stderr:
        return f"the status is {run.returncode}: {run.stdout!r} {run.stderr!r}"
    status, answered, said = ended(program, [path], b"write /f 30000000 21\nstat /f\n")
    return None if status == 0 and b"refused" not in answered else f"the next start has status {status}: {answered!r} {said}"


# ---- images


# The calls of the system that are made while an image is taken.
IMAGE_CALLS = ("open", "flock", "ftruncate", "write", "fdatasync", "fsync", "link", "rename", "unlink")
# An image of a store with two directories, as each try begins from it.
LOOK = b"ls /\n"


def stands_whole(program, path):
    """What is wrong with a store with two directories, behind whatever was done to it while an image was taken. Another image is taken then."""
    wrong = goes_on(program, path, "ab")
    if wrong:
        return wrong
    number = image_number(path) + 1
    wrong = take_image(program, path, number) or goes_on(program, path, "ab")
    if wrong:
        return f"behind that: {wrong}"
    names = {"kept", *(f"kept.image.{at}" for at in (number - 1, number) if at), f"kept.before.{number}"}
    found = set(os.listdir(os.path.dirname(path)))
    return None if found <= names else f"behind that {found - names} stay"


def begun_anew(program, path, is_second):
    """A store with two directories, which begins from an image or not, alone in its folder."""
    for name in os.listdir(os.path.dirname(path)):
        os.remove(os.path.join(os.path.dirname(path), name))
    kept_file(path)
    return take_image(program, path, 1) if is_second else None


def is_killed_while_imaged(name):
    """The program is killed at each call of a name in turn, while it takes an image: the store stands whole, and the next image is taken."""

    def tries(program, path, chance):
        for is_second in (False, True):
            for number in range(1, 60):
                wrong = begun_anew(program, path, is_second)
                if wrong:
                    return wrong
                asked = {"CALLS_FAIL": name, "CALLS_NUMBER": str(number), "CALLS_ERROR": "0"}
                run = subprocess.run([program, path, "--image"], stdin=subprocess.DEVNULL, capture_output=True, env=calls_of(asked), timeout=60)
                if run.returncode == 0:
                    if number == 1:
                        return f"no {name} was made"
                    break
                wrong = stands_whole(program, path)
                if wrong:
                    return f"killed at {name} {number}: {wrong}"
            else:
                return f"killed at {name} again and again"
        return None

    return tries


def is_failed_while_imaged(name):
    """Each call of a name fails in turn while an image is taken: that is told, the status is 1, or nothing comes of it, and the store stands
    whole."""

    def tries(program, path, chance):
        for is_second in (False, True):
            # A call that may fail stops nothing: behind some of these none is left.
            number = passed = 0
            while number < 8 or passed < 4:
                number += 1
                wrong = begun_anew(program, path, is_second)
                if wrong:
                    return wrong
                asked = {"CALLS_FAIL": name, "CALLS_NUMBER": str(number), "CALLS_ERROR": str(chance.choice((EIO, ENOSPC)))}
                run = subprocess.run([program, path, "--image"], stdin=subprocess.DEVNULL, capture_output=True, env=calls_of(asked), timeout=60)
                said = run.stderr.decode(errors="replace")
                if run.returncode not in (0, 1) or (run.returncode == 1 and not re.search("no image is taken|it can't be (written|opened|read)|can't be synced", said)):
                    return f"{name} {number} fails, and the status is {run.returncode}: {said}"
                if run.returncode == 0 and "is taken" not in said:
                    return f"{name} {number} fails, and no image is taken: {said}"
                passed = passed + 1 if run.returncode == 0 else 0
                wrong = stands_whole(program, path)
                if wrong:
                    return f"{name} {number} fails: {wrong}"
        return None

    return tries


def a_bit_of_an_image_is_flipped(program, path, chance):
    """One bit of each 23rd byte of an image is flipped: the store goes on with the log before, and says so."""
    kept_file(path)
    wrong = take_image(program, path, 1)
    if wrong:
        return wrong
    image, _ = image_names(path, 1)
    whole = bytes_of(image)
    for at in range(chance.randrange(23), len(whole), 23):
        text = bytearray(whole)
        text[at] ^= 1 << chance.randint(0, 7)
        kept_file(image, bytes(text))
        status, answered, said = ended(program, [path, "--read-only"], LOOK)
        if (status, answered) != (0, b"ok a/ b/\n") or "isn't read" not in said:
            return f"byte {at} is another: the status is {status}: {answered!r} {said}"
    kept_file(image, whole)
    status, answered, said = ended(program, [path, "--read-only"], LOOK)
    return None if status == 0 and "isn't read" not in said else f"the whole image isn't read: {status} {said}"


def nothing_to_begin_from(program, path, chance):
    """Neither the image nor the log before can be read: the start is refused for both, and nothing changes."""
    kept_file(path)
    wrong = take_image(program, path, 1)
    if wrong:
        return wrong
    image, before = image_names(path, 1)
    kept = bytes_of(image), bytes_of(before)
    os.remove(image)
    os.remove(before)
    for words in ([], ["--check"], ["--read-only"], ["--image"]):
        wrong = refused_at(program, [path, *words], path, 1, r"image .*\.image\.1, which isn't read: .*No such file.*\.before\.1: .*No such file.*Nothing is changed")
        if wrong:
            return wrong
    kept_file(image, kept[0][:-1])
    kept_file(before, kept[1])
    wrong = goes_on(program, path, "ab")
    if wrong:
        return wrong
    # That one looks was logged: the log before is as it was.
    return unlike(before, kept[1])


def another_log_before(program, path, chance):
    """The log before isn't the one that the first line tells of: it isn't run in place of the image."""
    kept_file(path)
    wrong = take_image(program, path, 1)
    if wrong:
        return wrong
    image, before = image_names(path, 1)
    text = bytes_of(before)
    os.remove(image)
    lines = text.splitlines(keepends=True)
    others = (
        (text + b"mkdir /c\n", "doesn't end where that was taken"),
        (KEPT, "isn't the log whose image it is"),
        (text.replace(b"mkdir /a", b"mkdir /x"), "is a mark that says otherwise of the text"),
        (b"".join(lines[:-1]), "doesn't end where|bytes stand after|isn't the log"),
    )
    for other, pattern in others:
        kept_file(before, other)
        wrong = refused_at(program, [path], path, 1, pattern)
        if wrong:
            return wrong
    kept_file(before, text)
    return goes_on(program, path, "ab")


def image_by_itself(program, path, chance):
    """An image is taken at the end of the input once the log is long, and at a start that finds it so; with 0 never."""
    line = b"append /f " + b"61" * 65_536 + b"\n"
    text = b"create /f\n" + line * 9
    for words, number in ((["--image-at", "0"], 0), (["--image-at", "1"], 1)):
        status, answered, said = ended(program, [path, *words], text)
        if status or image_number(path) != number:
            return f"with {words} the status is {status}, and the image has number {image_number(path)}: {said}"
    status, answered, said = ended(program, [path], b"stat /f\n")
    if status or not answered.startswith(b"ok file 1179648 ") or "is taken" in said:
        return f"from the image the status is {status}: {answered!r} {said}"
    # Killed behind its answers, so that the next start finds a long log.
    run = subprocess.Popen([program, path, "--image-at", "1"], stdin=subprocess.PIPE, stdout=subprocess.PIPE, stderr=subprocess.DEVNULL)
    for _ in range(20):
        run.stdin.write(line)
        run.stdin.flush()
        if not run.stdout.readline().startswith(b"ok"):
            return "a line isn't answered"
    run.kill()
    run.communicate()
    status, answered, said = ended(program, [path, "--image-at", "1"], b"stat /f\n")
    if status or not answered.startswith(b"ok file 2490368 ") or image_number(path) != 2 or "image 2 is taken" not in said:
        return f"behind a kill the status is {status}, and the image has number {image_number(path)}: {answered!r} {said}"
    return None


def image_of_what_is_held(program, path, chance):
    """No image is taken while messages are held back: that is told, and the log isn't changed."""
    status, answered, said = ended(program, [path, *LAB], b"mkdir /a\nmkdir /b\nhold on edit\n")
    if status or answered != b"ok\nok\nok\n":
        return f"the status is {status}: {answered!r} {said}"
    wrong = refused_at(program, [path, "--image"], path, 1, "no image is taken: messages are held back")
    if wrong:
        return wrong
    status, answered, said = ended(program, [path, *LAB], b"hold off\n")
    return take_image(program, path, 1) or goes_on(program, path, "ab")


def image_in_the_way(program, path, chance):
    """What stands under the name that the log is to keep, and isn't the log, stays, and no image is taken."""
    kept_file(path)
    _, before = image_names(path, 1)
    kept_file(before, b"my own\n")
    wrong = refused_at(program, [path, "--image"], path, 1, r"no image is taken: .*\.before\.1 stands there and isn't this log") or unlike(before, b"my own\n")
    if wrong:
        return wrong
    os.remove(before)
    kept_file(f"{path}.new", b"my own\n")
    status, answered, said = ended(program, [path, "--image"])
    if status != 1 or "stands there and isn't a beginning of it" not in said or bytes_of(f"{path}.new") != b"my own\n":
        return f"beside another file the status is {status}: {said}"
    os.remove(f"{path}.new")
    return stands_whole(program, path)


def image_of_a_store_in_use(program, path, chance):
    """An image is taken of a store that no other process keeps."""
    with subprocess.Popen([program, path, *SIZES], stdin=subprocess.PIPE, stdout=subprocess.PIPE, stderr=subprocess.DEVNULL) as first:
        first.stdin.write(b"mkdir /a\n")
        first.stdin.flush()
        first.stdout.readline()
        wrong = refused_at(program, [path, "--image"], path, 1, "another process has it")
        first.communicate(b"mkdir /b\n")
    return wrong or stands_whole(program, path)


def image_of_no_store(program, path, chance):
    return refused_at(program, [path, "--image"], path, 1, "nothing stands there")


def image_of_the_first_form(program, path, chance):
    """A log that an older program has kept, without a name, is followed by one that begins from its image."""
    kept_file(path, FIRST_HEAD + b"\nmkdir /a\nmkdir /b\n")
    return stands_whole(program, path) or stands_whole(program, path)


def image_with_rights(program, path, chance):
    """What an image writes has the rights of the log."""
    kept_file(path)
    os.chmod(path, 0o640)
    wrong = take_image(program, path, 1)
    rights = {name: os.stat(name).st_mode & 0o777 for name in (path, *image_names(path, 1))}
    return wrong or (None if set(rights.values()) == {0o640} else f"the rights are {rights}")


def image_behind_a_link(program, path, chance):
    """The name of a file that is a symbolic link stays one: no image is taken by it, and one is by the file's own name."""
    own = f"{path}-own"
    kept_file(own)
    os.symlink(own, path)
    wrong = refused_at(program, [path, "--image"], path, 1, "no image is taken: it is a symbolic link")
    if wrong or not os.path.islink(path):
        return wrong or "the link is one no more"
    os.remove(path)
    os.rename(own, path)
    return stands_whole(program, path)


def image_behind_a_sync(program, path, chance):
    """Nothing gets a name that isn't on the disk, and what has got one is synced. A sync that does nothing is found."""
    told, wrong = f"{path}.calls", []
    for asked in ({}, {"CALLS_SKIP": "fsync"}):
        kept_file(path)
        run = subprocess.run([program, path, "--image"], stdin=subprocess.DEVNULL, capture_output=True, env=calls_of({"CALLS_TOLD": told, **asked}), timeout=60)
        lines = [line.split() for line in bytes_of(told).decode().splitlines()]
        os.remove(told)
        for name in (*image_names(path, 1), path):
            os.remove(name)
        if run.returncode:
            return f"the status is {run.returncode}: {run.stderr!r}"
        unsynced, renames, is_early = set(), 0, False
        for name, file, _ in lines:
            if name == "sync":
                unsynced.discard(file)
                is_last_synced = True
            elif name in ("write", "cut") and int(file) > 2:
                unsynced.add(file)
            elif name == "rename":
                renames += 1
                is_early = is_early or bool(unsynced)
                is_last_synced = False
        if renames != 2:
            return f"{renames} names were given"
        wrong.append(is_early or not is_last_synced)
    return None if wrong == [False, True] else f"a name comes before what has it is on the disk: {wrong}"


def is_looked_at_from_an_image(program, path, chance):
    """A file that begins from an image is checked and looked at, whole or as it stood after a line, which is counted as its marks count."""
    kept_file(path)
    wrong = take_image(program, path, 1)
    if wrong:
        return wrong
    status, answered, said = ended(program, [path], b"mkdir /c\nmkdir /d\n")
    text = bytes_of(path)
    status, answered, said = ended(program, [path, "--check"])
    if status or b"form 3" not in answered or b"from image 1 behind 7 lines" not in answered or b"2 lines and 1 marks" not in answered:
        return f"--check has status {status}: {answered!r} {said}"
    for line, names in ((7, "a/ b/"), (8, "a/ b/ c/"), (9, "a/ b/ c/ d/")):
        status, answered, said = ended(program, [path, "--upto", str(line)], LOOK)
        if (status, answered.decode()) != (0, f"ok {names}\n"):
            return f"up to line {line} the status is {status}: {answered!r} {said}"
    for line, pattern in ((0, r"look in .*\.before\.1"), (6, r"line 6 stands before the image .*\.before\.1"), (10, "it has 9 lines, and no line 10")):
        wrong = refused_at(program, [path, "--upto", str(line)], path, 1, pattern)
        if wrong:
            return wrong
    return unlike(path, text)


def own_ticks(path, least, most):
    """What is wrong with the ticks of a file: there is to be one, of the store's own. It stands behind so many lines, as the last of its batch."""
    lines = bytes_of(path).splitlines()[1:]
    ticks = [at for at, line in enumerate(lines) if line == b"tick"]
    if len(ticks) != 1:
        return f"the file has {len(ticks)} ticks, in {len(lines)} lines and marks"
    before = sum(not is_mark(line + b"\n") for line in lines[: ticks[0]])
    if not least <= before <= most or not is_mark(lines[ticks[0] + 1] + b"\n"):
        return f"the tick stands behind {before} lines, and the line behind it is {lines[ticks[0] + 1]!r}"
    return None


def ticks_by_itself(program, path, chance):
    """Behind 64 MiB of lines the nodes tick by a line of the store's own, which isn't answered. A start counts the lines that it runs again."""
    line = b"ls" + b" /" + b"/".join([b"n" * 199] * chance.randint(30, 40))
    least = -(-TICK_BYTES // (len(line) + TICK_LINE))
    kept_file(path)
    never = ("--image-at", "0")
    status, answered, said = ended(program, [path, *never], (line + b"\n") * least)
    if status or answered != b"refused 3 NotFound\n" * least:
        return f"the status is {status}, and {len(answered)} bytes are answered: {said}"
    wrong = own_ticks(path, least, least + 2) or goes_on(program, path, "ab", *never) or own_ticks(path, least, least + 2)
    if wrong:
        return wrong
    # a log of a program that had no ticks of its own
    kept_file(path, marked([[(b"mkdir /a", b"ok")], [(line, b"refused 3 NotFound")] * least]))
    return goes_on(program, path, "a", *never) or own_ticks(path, least + 2, least + 2)


BREAKS = {
    "standard input is closed": is_closed(0),
    "standard output is closed": is_closed(1),
    "standard error is closed": is_closed(2),
    "standard output and error are closed": is_closed(1, 2),
    "all three are closed": is_closed(0, 1, 2),
    "the file is standard input": is_standard(0),
    "the file is standard output": is_standard(1),
    "the file is standard error": is_standard(2),
    "the file is taken away": is_changed_below(taken_away, "no file has its name any more"),
    "the file is renamed": is_changed_below(renamed, "no file has its name any more"),
    "the file is replaced": is_changed_below(replaced, "another file has its name"),
    "the file is truncated": is_changed_below(truncated, "it has 0 bytes where this run knows of"),
    "the file loses a line": is_changed_below(cut_by_a_line, "another program has changed it"),
    "the file is appended to": is_changed_below(appended_to, "another program has changed it"),
    "an empty file": empty_file,
    "a part of a first line": part_of_a_head,
    "a link to nothing": linked_to_nothing,
    "no file, and --existing": not_there,
    "no ordinary file": not_ordinary,
    "what is left beside the name": left_beside,
    "killed while it is made": killed_while_made,
    "--help": is_shown("--help", "Usage: chunkkeep.*--existing|--existing"),
    "--version": is_shown("--version", "^chunkkeep, of form"),
    "a write fails": is_failed_once("write", EIO),
    "the disk is full": is_failed_once("write", ENOSPC, True),
    "a sync fails": is_failed_once("fdatasync", EIO),
    "a sync of all fails": is_failed_once("fsync", EIO),
    "a cut fails": is_failed_once("ftruncate", EIO),
    "no lock": is_failed_once("flock", ENOLCK),
    "killed at an open": is_killed_at("open"),
    "killed at a lock": is_killed_at("flock"),
    "killed at a cut": is_killed_at("ftruncate"),
    "killed at a write": is_killed_at("write"),
    "killed at a sync": is_killed_at("fdatasync"),
    "killed at a sync of all": is_killed_at("fsync"),
    "killed at a link": is_killed_at("link"),
    "killed at the end of a name": is_killed_at("unlink"),
    "many at once": many_at_once,
    "answers come behind the sync": answers_behind_a_sync,
    "an input that would block": slow_input,
    "a bit is flipped": a_bit_is_flipped,
    "lines are lost, doubled or swapped": lines_are_moved,
    "a log of the first form": first_form,
    "a last line without its end": torn_line,
    "less memory at a start": less_memory,
    "more behind the last mark than a crash leaves": marks_are_lost,
    "line ends are others": line_ends_are_others,
    "marks are taken out": marks_are_taken_out,
    "the end is gone": end_is_gone,
    "a mark that isn't whole before the end": mark_is_too_early,
    "zeros behind a log of the first form": first_form_with_zeros,
    "what is cut off can't be put aside": cant_be_put_aside,
    "--check": is_checked,
    "--read-only": is_read_only,
    "--upto": is_upto,
    "without --lab": needs_a_lab,
    "no memory for a line": no_memory_for_a_line,
    "a bit of an image is flipped": a_bit_of_an_image_is_flipped,
    "no image and no log before": nothing_to_begin_from,
    "another log before": another_log_before,
    "an image by itself": image_by_itself,
    "an image where messages are held back": image_of_what_is_held,
    "an image where a file is in the way": image_in_the_way,
    "an image of a store that is in use": image_of_a_store_in_use,
    "an image where no store is": image_of_no_store,
    "an image of a log of the first form": image_of_the_first_form,
    "an image of a log with rights of its own": image_with_rights,
    "an image of a log behind a link": image_behind_a_link,
    "an image is on the disk before it has its name": image_behind_a_sync,
    "--check and its like from an image": is_looked_at_from_an_image,
    **{f"killed at {name} while an image is taken": is_killed_while_imaged(name) for name in IMAGE_CALLS},
    **{f"{name} fails while an image is taken": is_failed_while_imaged(name) for name in IMAGE_CALLS},
    "ticks of the store's own": ticks_by_itself,
}


def broken(program, folder, seed, times):
    """Tries each of them so often, and answers how many were as they should be and how many weren't."""
    passed, failed = 0, 0
    for number in range(times):
        for name, how in BREAKS.items():
            path = os.path.join(tempfile.mkdtemp(prefix="break-", dir=folder), "kept")
            try:
                wrong = how(program, path, random.Random(f"{seed} {name} {number}"))
            except subprocess.TimeoutExpired:
                wrong = "it doesn't end"
            if wrong:
                print(f"{name}: {number} of seed {seed}: {wrong}; see {path}", flush=True)
                failed += 1
            else:
                passed += 1
                shutil.rmtree(os.path.dirname(path))
    print(f"break: {passed} of {passed + failed} passed", flush=True)
    return passed, failed


@functools.cache
def calls():
    """Compiles the calls that stand before those of the C library, by the kit's compiler, and answers the path of the library."""
    folder = tempfile.mkdtemp(prefix="chunkkeep-calls-")
    atexit.register(shutil.rmtree, folder, True)
    compiled, library = os.path.join(folder, "calls.o"), os.path.join(folder, "calls.so")
    source = os.path.join(beside.ROOT, "bench", "faults", "calls.c")
    words = [f"--target={beside.TARGET}", "--no-default-config", "-O2", "-fPIC", "-c", source, "-o", compiled]
    subprocess.run([f"{beside.KIT}/toolchain/bin/clang", *words], check=True)
    subprocess.run([f"{beside.KIT}/toolchain/bin/ld.lld", "-shared", "-o", library, compiled], check=True)
    return library


# ---- speed


class Talk:
    """A program that is asked in batches, and answers each line."""

    def __init__(self, words):
        self.run = subprocess.Popen(words, stdin=subprocess.PIPE, stdout=subprocess.PIPE, stderr=subprocess.DEVNULL, bufsize=0)
        for pipe in (self.run.stdin, self.run.stdout):
            fcntl.fcntl(pipe, F_SETPIPE_SZ, PIPE_BYTES)

    def ask(self, text, count):
        at, seen = 0, 0
        while at < len(text):
            at += self.run.stdin.write(text[at:])
        while seen < count:
            part = self.run.stdout.read(PIPE_BYTES)
            if not part:
                raise SystemExit("the program ended")
            seen += part.count(b"\n")

    def end(self):
        self.run.stdin.close()
        self.run.wait()


def rate_of(words, batches):
    """How many lines a second are answered, batch behind batch."""
    talk = Talk(words)
    talk.ask(b"ls /\n", 1)
    begun = time.monotonic()
    for text, count in batches:
        talk.ask(text, count)
    took = time.monotonic() - begun
    talk.end()
    return sum(count for _, count in batches) / took


def bare_rate(path, batches):
    file = os.open(path, os.O_WRONLY | os.O_CREAT | os.O_APPEND)
    begun = time.monotonic()
    for text, _ in batches:
        os.write(file, text)
        os.fdatasync(file)
    took = time.monotonic() - begun
    os.close(file)
    return sum(count for _, count in batches) / took


def speed_lines(count):
    """Files that are made, a thousand in a directory."""
    return [f"create /{number // 1_000}/{number}" if number % 1_000 else f"mkdir /{number // 1_000}" for number in range(count)]


def timed(words, given=os.devnull):
    """Runs a program, and tells the seconds that it took, by the clock and of the processor."""
    with open(given, "rb") as stdin:
        begun = time.monotonic()
        run = subprocess.Popen(words, stdin=stdin, stdout=subprocess.DEVNULL, stderr=subprocess.DEVNULL)
        _, status, used = os.wait4(run.pid, 0)
    if status:
        raise SystemExit(f"{words[0]} ended with status {status}")
    return time.monotonic() - begun, used.ru_utime + used.ru_stime


def run_again(program, plain_program, folder, count, times):
    """A log of so many lines is run again, and its lines are answered by the plain program, by turns."""
    path, script, lines = os.path.join(folder, "again"), os.path.join(folder, "script"), speed_lines(count)
    timed([program, path])
    kept_file(script, text_of(lines))
    text = bytes_of(path) + text_of(lines)
    kept_file(path, text + mark(text, len(lines), b"ok\n" * len(lines)))
    kept, plain = [], []
    for _ in range(times):
        kept.append(timed([program, path]))
        plain.append(timed([plain_program], script))
    print(f"\n{count:,} lines are run again, and answered by chunkstore, by turns; seconds by the clock, and of the processor:")
    for name, taken in (("chunkkeep", kept), ("chunkstore", plain)):
        clock, used = min(taken)[0], min(cpu for _, cpu in taken)
        each = ", ".join(f"{clock:.2f} ({cpu:.2f})" for clock, cpu in taken)
        print(f"{name}: {each}; least {clock:.2f} ({used:.2f}), {count / clock:,.0f} lines a second")


def speed(program, plain_program, folder, count):
    print("| lines that come together | chunkkeep | chunkstore | write and fdatasync alone |\n|---|---|---|---|")
    for batch in (1, 64, 4096):
        lines = speed_lines(max(min(count, batch * 2_000), 2_000))
        batches = [(text_of(lines[at : at + batch]), len(lines[at : at + batch])) for at in range(0, len(lines), batch)]
        kept = rate_of([program, os.path.join(folder, f"speed-{batch}")], batches)
        plain = rate_of([plain_program], batches)
        bare = bare_rate(os.path.join(folder, f"bare-{batch}"), batches)
        print(f"| {batch} | {kept:,.0f} | {plain:,.0f} | {bare:,.0f} |", flush=True)


def built(name):
    return str(launch.unproved_program(name))


def main():
    words = argparse.ArgumentParser()
    words.add_argument("--runs", type=int, default=200)
    words.add_argument("--cuts", type=int, default=20)
    words.add_argument("--limits", type=int, default=20)
    words.add_argument("--images", type=int, default=30)
    words.add_argument("--refusals", type=int, default=40)
    words.add_argument("--breaks", type=int, default=5, help="how often each way to break it is tried")
    words.add_argument("--landing", action="store_true", help="a part of all that")
    words.add_argument("--seed", type=int, default=1)
    words.add_argument("--program")
    words.add_argument("--plain")
    words.add_argument("--folder", help="where the files stand; it should be on a disk")
    words.add_argument("--speed", type=int, nargs="?", const=200_000)
    words.add_argument("--again", type=int, default=1_000_000, help="the lines of a log that is run again")
    words.add_argument("--times", type=int, default=5, help="how often it is, by turns with chunkstore")
    asked = words.parse_args()
    if asked.landing:
        asked.runs, asked.cuts, asked.limits, asked.images, asked.refusals, asked.breaks = 20, 5, 5, 5, 12, 1
    programs = (asked.program or built("chunkkeep"), asked.plain or built("chunkstore"))
    folder = tempfile.mkdtemp(prefix="chunkkeep-", dir=asked.folder)
    if asked.speed:
        speed(*programs, folder, asked.speed)
        run_again(*programs, folder, asked.again, asked.times)
        return 0
    passed = tried("run", crash, asked.runs, programs, folder, asked.seed)
    passed += tried("cut", cut, asked.cuts, programs, folder, asked.seed)
    passed += tried("limit", limited, asked.limits, programs, folder, asked.seed)
    passed += tried("image", imaged, asked.images, programs, folder, asked.seed)
    passed += tried("refusal", refusal, asked.refusals, programs, folder, asked.seed)
    failed = asked.runs + asked.cuts + asked.limits + asked.images + asked.refusals - passed
    others = broken(programs[0], folder, asked.seed, asked.breaks)
    passed, failed = passed + others[0], failed + others[1]
    if not failed:
        shutil.rmtree(folder)
    print(f"{passed} passed, {failed} failed")
    return 1 if failed else 0


if __name__ == "__main__":
    sys.exit(main())
