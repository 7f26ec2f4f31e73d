"""What people are told: what commands print, and why something can't be done. What the store refuses is told by docs/REFUSALS.md."""

import errno
import functools
import os
import re
import sys
from collections import defaultdict
from collections.abc import Iterator
from contextlib import contextmanager

from client import ROOT
from client.names import bytes_of

NOT_FOUND = 3
# The statuses with which commands end.
WELL, WRONG, MISUSED = 0, 1, 2
LINK = re.compile(r"\[([^]]*)\]\([^)]*\)")


class Failed(Exception):
    """What was asked for can't be done, with the reason."""


class NoSpace(Failed):
    """A disk of this machine is full, so nothing else fits there either."""


@functools.cache
def told() -> dict[int, dict[str, str]]:
    """What the tables say of each refusal, by its number and the head of the column."""
    rows: dict[int, dict[str, str]] = defaultdict(dict)
    heads: list[str] = []
    for line in (ROOT / "docs" / "REFUSALS.md").read_text().splitlines():
        cells = [LINK.sub(r"\1", cell).strip() for cell in line.strip("|").split(" | ")]
        if line.startswith("| |"):
            heads = cells
        elif line.startswith("|") and cells[0].isdigit():
            rows[int(cells[0])] |= zip(heads, cells)
    return rows


class Refused(Failed):
    """A line was refused that is about something."""

    def __init__(self, answer: str, about: str):
        _, number, _, *detail = answer.split(" ")
        self.number, self.detail = int(number), " ".join(detail)
        row = told()[self.number]
        self.says = f"{row['what it says']} ({answer.removeprefix('refused ')})"
        # What to do is told by the commands of this client, where the words for lines wouldn't do.
        to_do = row.get("what to do with chunkfs") or row.get("what to do", "")
        super().__init__(f"{about}: {self.says} {to_do}".strip())


@contextmanager
def local(name: object) -> Iterator[None]:
    """What this machine refuses is told with a name. Where who reads the output has gone, that isn't told."""
    try:
        yield
    except BrokenPipeError:
        raise
    except OSError as error:
        said = error.strerror or str(error)
        kind = NoSpace if error.errno in (errno.ENOSPC, errno.EDQUOT) else Failed
        raise kind(f"{name or error.filename or 'this machine'}: {said[:1].lower()}{said[1:]}") from None


def write(part: bytes) -> None:
    """Bytes on standard output. Where they can't be written, what is left of them goes nowhere, so that the end isn't refused them again."""
    with local("standard output"):
        try:
            sys.stdout.flush()
            sys.stdout.buffer.write(part)
            sys.stdout.buffer.flush()
        except OSError:
            os.dup2(os.open(os.devnull, os.O_WRONLY), sys.stdout.fileno())
            raise


def say(text: str) -> None:
    """A line on standard output, in which a name has its bytes."""
    write(bytes_of(f"{text}\n"))


def warn(text: str) -> None:
    sys.stdout.flush()
    sys.stderr.buffer.write(bytes_of(f"chunkfs: {text}\n"))
    sys.stderr.buffer.flush()
