"""What stands in a store: its names, files and chunks, by the lines that tell of them."""

import hashlib
import itertools
from collections import defaultdict
from collections.abc import Iterable, Iterator
from typing import NamedTuple

from client.names import child, shown
from client.session import Session
from client.telling import NOT_FOUND, Failed, Refused

# The bytes of a line that writes or reads: whole blocks of the greatest size, which fit into a line as hexadecimal digits.
LINE_BYTES = 7 * 65_536
NO_REPLICA = 28


class Chunk(NamedTuple):
    handle: int
    references: int
    servers: tuple[int, ...]


class Entry(NamedTuple):
    """A directory, or a file with its size and chunks, by its path in lines."""

    path: str
    is_directory: bool
    size: int = 0
    chunks: tuple[Chunk, ...] = ()


def read_chunk(text: str) -> Chunk:
    handle, references, servers = text.split("/")
    return Chunk(int(handle), int(references), () if servers == "-" else tuple(map(int, servers.split(","))))


def read_entry(path: str, told: str) -> Entry:
    """What `stat` tells of a path."""
    kind, *words = told.split(" ")
    return Entry(path, True) if kind == "dir" else Entry(path, False, int(words[0]), tuple(map(read_chunk, words[1:])))


def stat(session: Session, path: str) -> Entry:
    return read_entry(path, session.ask("stat", path))


def stats(session: Session, paths: Iterable[str]) -> Iterator[Entry | Refused]:
    """What stands at paths, in their order, or what refuses to tell it."""
    paths = list(paths)
    for path, answer in zip(paths, session.ask_all(f"stat {path}" for path in paths)):
        yield read_entry(path, answer.value) if answer.is_ok else answer.refusal


def need(told: Entry | Refused) -> Entry:
    if isinstance(told, Refused):
        raise told
    return told


def read_names(told: str) -> dict[str, bool]:
    """The names of an answer to `ls`, and whether each is a directory: such a one ends with a slash."""
    return {name.rstrip("/"): name.endswith("/") for name in told.split(" ") if name}


def children(session: Session, folder: str) -> dict[str, bool]:
    """The names in a directory, and whether each is a directory."""
    return read_names(session.ask("ls", folder))


def walk_names(session: Session, top: str) -> Iterator[tuple[str, bool]]:
    """The path of what stands at a path and of all below it, a level at a time, and whether it is a directory. A file may be one of which no
    more can be told."""
    level = {top: session.told(f"stat {top}", NO_REPLICA).text == "ok dir"}
    while level:
        yield from level.items()
        folders = [path for path, is_folder in level.items() if is_folder]
        below = zip(folders, session.try_all(f"ls {folder}" for folder in folders))
        level = {child(folder, name): is_folder for folder, told in below for name, is_folder in read_names(told).items()}


def told_below(session: Session, top: str) -> Iterator[tuple[str, Entry | Refused]]:
    """The paths of what stands at a path and of all below it, directories first, with what stands there, or what refuses to tell it."""
    paths = list(walk_names(session, top))
    yield from ((path, Entry(path, True)) for path, is_folder in paths if is_folder)
    files = [path for path, is_folder in paths if not is_folder]
    yield from zip(files, stats(session, files))


def walk(session: Session, top: str) -> Iterator[Entry]:
    """What stands at a path and all below it. Where it can't be told of a file, that is refused."""
    return (need(told) for _, told in told_below(session, top))


def paths_of(entries: Iterable[Entry]) -> dict[int, list[str]]:
    """Of each chunk the paths of the files that have it."""
    paths: dict[int, list[str]] = defaultdict(list)
    for entry in entries:
        for chunk in entry.chunks:
            paths[chunk.handle].append(entry.path)
    return paths


def is_directory(session: Session, path: str) -> bool:
    return session.told(f"stat {path}", NOT_FOUND).text == "ok dir"


def read_bytes(session: Session, path: str, start: int, size: int) -> Iterator[bytes]:
    """The bytes of a file from a place on, up to its size, all of which have to come."""
    lines = (f"read {path} {at} {min(LINE_BYTES, size - at)}" for at in range(start, size, LINE_BYTES))
    for answer in session.ask_all(lines):
        part = bytes.fromhex(answer.value)
        if len(part) != int(answer.line.split(" ")[3]):
            raise Failed(f"{shown(path)}: fewer bytes come than its size says")
        yield part


def sha256_of(parts: Iterable[bytes]) -> str:
    summed = hashlib.sha256()
    for part in parts:
        summed.update(part)
    return summed.hexdigest()


def file_sha256(session: Session, path: str) -> str:
    """The SHA-256 of what is read of a file."""
    return sha256_of(read_bytes(session, path, 0, stat(session, path).size))


def phase(session: Session) -> tuple[str, int]:
    """`ordinary`, `preparing`, `upgrade` or `rolling`, and the epoch."""
    name, epoch = session.ask("rollingUpgrade", "query").split(" ")
    return name, int(epoch)


def report_all(session: Session) -> None:
    """Each server reports what it has, so that the master hears of what is lost or damaged."""
    session.try_all(f"beat {server}" for server in range(session.sizes.servers))


def heal(session: Session) -> tuple[int, str | None]:
    """Copies chunks until none lacks a replica, and tells how many copies came, and what refused the last one, if anything did."""
    report_all(session)
    for made in itertools.count():
        answer = session.told("replicate")
        if not answer.is_ok or answer.value == "none":
            return made, None if answer.is_ok else answer.refusal.says
