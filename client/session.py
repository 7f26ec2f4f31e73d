"""A store that runs, and is asked lines."""

import contextlib
import hashlib
import os
import re
import select
import subprocess
import sys
import tempfile
import time
from collections import deque
from collections.abc import Iterable, Iterator
from pathlib import Path
from queue import SimpleQueue
from threading import Thread
from typing import NamedTuple

import launch

from client.names import bytes_of, shown
from client.telling import Failed, Refused, local, warn

# What comes together is put into the log by one write and synced once, up to so much.
PIPE_BYTES = 1_048_576
# So much is sent before its answers are waited for, of lines that cost so much each beside their bytes and those that they read.
AHEAD_BYTES = 4 * PIPE_BYTES
LINE_COST = 1_024
SAID_BYTES = 2_000
READ = re.compile(r"read \S+ \d+ (\d{1,9})")
SIZE = re.compile(r"--(servers|racks|replicas|chunk|block) (\d+)")
# What the first line of a log tells that begins from an image: the image's number, and the digest of the log before.
BEGINS = re.compile(r"chunkkeep 3 .* image (\d+) [0-9a-f]{64} lines \d+ ([0-9a-f]{64}) [0-9a-f]{64}\n")
# How the commands of this client call what lines ask for.
CALLED = {"rollingUpgrade": "upgrade", "rollback-commit": "upgrade rollback", "scan": "expunge"}


class Ended(Exception):
    """The store's program has ended where an answer was meant."""


class Answer(NamedTuple):
    line: str
    text: str

    @property
    def is_ok(self) -> bool:
        return self.text.split(" ", 1)[0] == "ok"

    @property
    def value(self) -> str:
        """What an accepted line gives. A refused one raises."""
        if self.is_ok:
            return self.text[3:]
        raise self.refusal

    @property
    def refusal(self) -> Refused:
        """Why the line is refused, told of its paths, or of what it asks for where it has none."""
        words = self.line.split(" ")
        paths = [shown(word) for word in words[1:] if word.startswith("/")]
        return Refused(self.text, " to ".join(paths) or " ".join(CALLED.get(word, word) for word in words[:2]))


class Sizes(NamedTuple):
    """What a store was made with."""

    servers: int = 3
    racks: int = 1
    replicas: int = 3
    chunk: int = 67_108_864
    block: int = 65_536


def sizes_of(file: Path | None, given: dict[str, int]) -> Sizes:
    """Those of the first line of a store's file, or those of a new store."""
    if file is None or not file.exists() or file.is_fifo():
        return Sizes(**given)
    with local(file), open(file, errors="replace") as log:
        return Sizes(**{name: int(size) for name, size in SIZE.findall(log.readline(1_000))})


def cost_of(line: str) -> int:
    """What a line and its answer take, where many wait."""
    read = READ.fullmatch(line)
    return LINE_COST + len(line) + (2 * int(read[1]) if read else 0)


def image_of(log: Path) -> tuple[int, str] | None:
    """The number of the image that a log begins from, if it does, and the digest of the log before."""
    with local(log), open(log, newline="\n", errors="replace") as file:
        found = BEGINS.fullmatch(file.readline(1_000))
    return (int(found[1]), found[2]) if found else None


def log_before(file: Path, number: int, digest: str) -> Path:
    """The log before the one that begins from an image. It has to be the one that this tells of."""
    log = Path(f"{file}.before.{number}")
    why = f"{file} begins from an image, and this needs all lines that the store was ever asked"
    if not log.exists():
        raise Failed(f"{why}. Those before stand in {log}, which isn't there")
    with local(log), open(log, "rb") as before:
        summed = hashlib.sha256()
        while part := before.read(PIPE_BYTES):
            summed.update(part)
    if summed.hexdigest() != digest:
        raise Failed(f"{why}. {log} isn't the log with those before")
    return log


class Session(contextlib.AbstractContextManager["Session"]):
    """A program that is asked lines, many of them before their answers come, so that its log is synced seldom."""

    def __init__(self, file: Path | None, given: dict[str, int], flags: Iterable[str] = (), is_recorded: bool = True):
        """Starts the program that keeps a store in a file, with such options of its own, or the one that needs no file. The sizes are those that are
        given for a new store."""
        self.file, self.sizes = file, sizes_of(file, given)
        # The lines of a store that has no file, by which it can be run again.
        self.recorded: deque[str] = deque(maxlen=None if is_recorded and not file else 0)
        self.said = tempfile.TemporaryFile()
        words = [launch.program_of("chunkkeep").path, file, *flags] if file else [launch.program_of("chunkstore").path]
        words += [str(word) for name, size in given.items() for word in (f"--{name}", size)]
        how = {"stdin": subprocess.PIPE, "stdout": subprocess.PIPE, "stderr": self.said, "pipesize": PIPE_BYTES}
        # What is typed at a terminal is for the client, which ends the program itself.
        self.program = subprocess.Popen(words, start_new_session=True, **how)
        # Lines that aren't answered yet, each with the place for its answer.
        self.asked: deque[tuple[str, deque[Answer]]] = deque()
        self.unsent: SimpleQueue[bytes] = SimpleQueue()
        self.sender, self.is_heard = Thread(target=self.send, daemon=True), False
        self.sender.start()

    def __exit__(self, kind: type | None, *_: object) -> None:
        self.unsent.put(b"")
        is_left = kind or self.asked
        if is_left:
            # Nobody reads its answers any more, for which it may wait.
            self.program.stdout.close()
        self.sender.join()
        with self.said, contextlib.closing(self.program.stdout):
            if self.program.wait() and not is_left:
                raise self.ended()

    def send(self) -> None:
        """Sends lines as they come, from a thread of its own, since a program takes none while its answers aren't read. Where it has ended, its
        answers end too. Where the client is killed, a line may be cut, and such a one isn't run."""
        with contextlib.suppress(BrokenPipeError), self.program.stdin as stdin:
            for line in iter(self.unsent.get, b""):
                stdin.write(line)
                if self.unsent.empty():
                    stdin.flush()

    def ask(self, *words: object) -> str:
        """What one line gives."""
        return self.told(" ".join(map(str, words))).value

    def told(self, line: str, *may_be: int) -> Answer:
        """The answer to one line, which may be refused: with any number, or with these alone."""
        (answer,) = self.ask_all([line])
        if not answer.is_ok and may_be and answer.refusal.number not in may_be:
            raise answer.refusal
        return answer

    def try_all(self, lines: Iterable[str]) -> list[str]:
        """What lines give, each of which has to be accepted."""
        return [answer.value for answer in self.ask_all(lines)]

    def ask_all(self, lines: Iterable[str]) -> Iterator[Answer]:
        """The answers to lines, in their order. Some lines are sent before their answers are waited for. Where somebody leaves off, or asks other
        lines meanwhile, each line is met by its own answer all the same."""
        own: deque[Answer] = deque()
        ahead = 0
        for line in lines:
            if "\n" in line:
                raise Failed(f"{line!r}: a line can't have an end of a line within it")
            self.asked.append((line, own))
            self.recorded.append(line)
            self.unsent.put(bytes_of(f"{line}\n"))
            ahead += cost_of(line)
            while ahead > AHEAD_BYTES:
                ahead -= cost_of(self.hear(own).line)
                yield own.popleft()
        while ahead:
            ahead -= cost_of(self.hear(own).line)
            yield own.popleft()

    def hear(self, own: deque[Answer]) -> Answer:
        """The first answer of a place. What is told before it is put into places of its own."""
        try:
            self.wait_for_start()
            while not own:
                told = self.program.stdout.readline()
                if not told.endswith(b"\n"):
                    raise self.ended()
                line, place = self.asked.popleft()
                place.append(Answer(line, told[:-1].decode()))
            return own[0]
        except KeyboardInterrupt:
            # Nobody waits for what was asked. The store goes on from wherever its program is killed.
            self.program.kill()
            raise

    def wait_for_start(self) -> None:
        """Waits for the first answer. Shows how far a start is that takes long, and tells what one has put aside and cut off its log."""
        while not self.is_heard:
            self.is_heard = any(select.select([self.program.stdout], [], [], 1))
            if sys.stderr.isatty():
                print(f"\r{'' if self.is_heard else self.last_said()[-1]}\x1b[K\r", end="", file=sys.stderr, flush=True)
            for line in self.last_said() if self.is_heard else ():
                if line.endswith(" cut off") or " put aside in " in line:
                    warn(line)

    def last_said(self) -> list[str]:
        """The last lines that the program has said on standard error."""
        size = os.fstat(self.said.fileno()).st_size
        return os.pread(self.said.fileno(), SAID_BYTES, max(0, size - SAID_BYTES)).decode(errors="replace").strip().split("\n")

    def ended(self) -> Ended:
        return Ended(f"the store's program has ended, with status {self.program.wait()}: {self.last_said()[-1] or 'it said nothing'}")

    def logs(self) -> list[Path]:
        """The store's file, behind the logs before it, as far as it begins from images. Each of them has to stand."""
        logs = [self.file]
        while image := image_of(logs[0]):
            logs.insert(0, log_before(self.file, *image))
        return logs

    @property
    def has_history(self) -> bool:
        """Whether all lines that the store was ever asked are there. Where it begins from an image, those before it may not be."""
        try:
            return self.file is None or bool(self.logs())
        except Failed:
            return False

    def names(self) -> list[str]:
        """Each path but the root at which something stands in the store's file, hidden ones too."""
        words = [launch.program_of("chunkkeep").path, self.file, "--names"]
        told = subprocess.run(words, stdin=subprocess.DEVNULL, stdout=subprocess.PIPE, stderr=subprocess.PIPE)
        if told.returncode:
            raise Failed(told.stderr.decode(errors="replace").strip().split("\n")[-1])
        return [line.split(" ", 1)[1] for line in told.stdout.decode(errors="surrogateescape").split("\n")[:-1]]

    def history(self) -> Iterator[str]:
        """All lines that the store was ever asked, where they are there."""
        if self.file is None:
            yield from list(self.recorded)
            return
        for file in self.logs():
            with open(file, newline="\n", encoding="utf-8", errors="surrogateescape") as log:
                next(log)
                # A line that begins with # is a mark. One may end with \r\n.
                yield from (line.removesuffix("\n").removesuffix("\r") for line in log if not line.startswith("#"))

    def again(self) -> "Session":
        """A store without a file, that is asked nothing yet, for the lines of this one to be run again."""
        return Session(None, self.sizes._asdict(), is_recorded=False)

    def tried(self) -> "Session":
        """The store of this one's file, of which all lines are answered and nothing is kept."""
        return Session(self.file, {}, ["--try"])

    def set_moment(self) -> None:
        """From now on the store's moment is that of the clock."""
        self.ask("at", int(time.time()))
