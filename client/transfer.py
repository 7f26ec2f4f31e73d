"""Files and directories into the store and out of it."""

import itertools
import os
import re
import sys
from argparse import Namespace
from collections.abc import Iterable, Iterator
from contextlib import closing, contextmanager
from pathlib import Path
from typing import BinaryIO, NamedTuple

from client.attempts import each_path, for_each, targets
from client.names import bytes_of, child, escaped, last, line_path, parent, shown
from client.progress import Progress
from client.session import Session
from client.store import LINE_BYTES, Entry, file_sha256, need, read_bytes, read_names, sha256_of, stat, told_below
from client.telling import NOT_FOUND, Failed, Refused, local, warn, write

# So many files are on their way at once before they are given their names.
FILES_AT_ONCE = 256
# A file stands under such a name until all of it is there.
COMING = "._COPYING_"
MOST_NAME_BYTES = 200
MOST_ELEMENTS = 64
TOO_LONG = f"a name has {MOST_NAME_BYTES} bytes at most as it stands in lines, and a path {MOST_ELEMENTS} elements"
# What follows the name of a store's file in the names of others that are made beside it.
OWN = re.compile(r"(\.new|\.cut(\.\d+)?|\.image\.\d+(\.new)?|\.before\.\d+)?")


class Local(NamedTuple):
    """A directory of this machine, or a file with its size, and the path in the store that it is for."""

    file: Path
    path: str
    size: int | None = None

    @property
    def coming(self) -> str:
        """The path that it has while it comes."""
        name = last(self.path)
        coming = name if is_short(name + COMING) else sha256_of([bytes_of(name)])
        return child(parent(self.path), coming + COMING)


@contextmanager
def opened(file: Path) -> Iterator[BinaryIO]:
    with local(file), open(file, "rb") as source:
        yield source


def file_pieces(file: Path) -> Iterator[bytes]:
    with opened(file) as source:
        yield from iter(lambda: source.read(LINE_BYTES), b"")


def is_own(session: Session, file: Path) -> bool:
    """Whether a file is one of those in which the store itself is kept, by any of its names."""
    own, real = os.path.realpath(session.file or os.devnull), os.path.realpath(file)
    return bool(real.startswith(own) and OWN.fullmatch(real, len(own))) or os.path.exists(real) and os.path.samefile(own, real)


@contextmanager
def arriving(session: Session, file: Path, is_forced: bool) -> Iterator[BinaryIO]:
    """A file of this machine that comes, and has its name once all of it is there."""
    if is_own(session, file):
        raise Failed(f"{file}: the store itself is kept there")
    with local(file):
        if os.path.lexists(file) and not is_forced:
            raise Failed(f"{file}: something stands there already; -f puts a file in its place")
        coming = file.parent / f"{sha256_of([os.fsencode(file.name)])[:32]}{COMING}"
        try:
            with open(coming, "wb") as target:
                yield target
            coming.replace(file)
        finally:
            coming.unlink(missing_ok=True)


def write_lines(path: str, start: int, parts: Iterable[bytes]) -> Iterator[str]:
    for part in parts:
        yield f"write {path} {start} {part.hex()}"
        start += len(part)


def is_short(path: str) -> bool:
    return path.count("/") <= MOST_ELEMENTS and len(bytes_of(last(path))) <= MOST_NAME_BYTES


def local_tree(name: str) -> list[Local]:
    """What stands at a place of this machine and below it, by paths that are relative to where it goes. All of it can be put into a store."""
    with local(name):
        os.stat(name)
    return list(walk_local(Path(name), ""))


def walk_local(file: Path, path: str) -> Iterator[Local]:
    if file.name.endswith(COMING):
        raise Failed(f"{file}: names that end in {COMING} are those of files that come")
    if not is_short(path):
        raise Failed(f"{file}: {TOO_LONG}")
    if file.is_dir():
        yield Local(file, path)
        with local(file):
            inners = sorted(file.iterdir())
        for inner in inners:
            if inner.is_symlink() and inner.is_dir():
                warn(f"{inner}: a link to a directory is passed over")
            else:
                yield from walk_local(inner, f"{path}/{escaped(inner.name)}")
    elif file.is_file():
        with opened(file) as source:
            yield Local(file, path, os.fstat(source.fileno()).st_size)
    else:
        raise Failed(f"{file}: neither a file nor a directory stands there")


def standing_at(session: Session, files: list[Local], folders: list[str], is_forced: bool) -> set[str]:
    """What stands already where files are to come. Only where that is meant they may be in the place of other files."""
    parents = sorted({parent(one.path) for one in files})
    standing: dict[str, bool] = {}
    for folder, answer in zip(parents, session.ask_all(f"ls {folder}" for folder in parents)):
        if answer.is_ok or folder not in folders:
            standing |= {child(folder, name): is_folder for name, is_folder in read_names(answer.value).items()}
    for one in files:
        if one.path in standing and (standing[one.path] or not is_forced):
            raise Failed(f"{shown(one.path)}: something stands there already" + ("" if is_forced else "; -f puts a file in its place"))
    return set(standing)


def put_files(session: Session, files: list[Local], standing: set[str], asked: Namespace, progress: Progress) -> None:
    """Brings files in under names of their coming. Then each gets its own name, and what stood there is deleted."""
    session.try_all(f"rm {one.coming}" for one in files if one.coming in standing)
    session.try_all(f"create {one.coming}" for one in files)
    session.try_all(line for one in files for line in write_lines(one.coming, 0, progress.counted(file_pieces(one.file))))
    for one in files if asked.verify else ():
        if sha256_of(file_pieces(one.file)) != file_sha256(session, one.coming):
            raise Failed(f"{one.file}: what came into the store isn't what stands here")
    renames = ([f"rm {one.path}"] * (one.path in standing) + [f"mv {one.coming} {one.path}"] for one in files)
    session.try_all(itertools.chain.from_iterable(renames))


def put(session: Session, asked: Namespace) -> None:
    names = (escaped(os.path.basename(os.path.abspath(tree[0].file))) for tree in asked.sources)
    coming: dict[str, Local] = {}
    for tree, top in zip(asked.sources, targets(session, asked, names)):
        if top in coming:
            raise Failed(f"{shown(top)}: more than one would come there")
        coming |= {top + one.path: one._replace(path=top + one.path) for one in tree}
    if too_long := [path for path in coming if not is_short(path)]:
        raise Failed(f"{shown(too_long[0])}: {TOO_LONG}")
    folders = [path for path, one in coming.items() if one.size is None]
    files = [one for one in coming.values() if one.size is not None and not is_own(session, one.file)]
    if len(folders) + len(files) < len(coming):
        warn(f"{session.file}: the store isn't put into itself")
    standing = standing_at(session, files, folders, asked.force)
    session.try_all(f"mkdir {folder}" for folder in folders)
    with closing(Progress(sum(one.size for one in files))) as progress:
        for at in range(0, len(files), FILES_AT_ONCE):
            put_files(session, files[at : at + FILES_AT_ONCE], standing, asked, progress)


def get(session: Session, asked: Namespace) -> int:
    """Brings out all that can be: where a file can't be read, the others come all the same."""
    target = Path(asked.target)
    if len(asked.sources) > 1 and not target.is_dir():
        raise Failed(f"{target}: several paths need a directory that is there")
    coming: list[tuple[Entry | Refused, Path]] = []

    def look_at(source: str) -> None:
        top = line_path(source, asked.folder)
        base = target / shown(last(top)) if target.is_dir() else target
        coming.extend((told, base / shown(path.removeprefix(top).strip("/"))) for path, told in told_below(session, top))

    def save(one: tuple[Entry | Refused, Path]) -> None:
        entry, file = need(one[0]), one[1]
        if entry.is_directory:
            with local(file):
                file.mkdir(exist_ok=True)
            return
        with arriving(session, file, asked.force) as out:
            out.writelines(progress.counted(read_bytes(session, entry.path, 0, entry.size)))

    looked = for_each(asked.sources, look_at)
    with closing(Progress(sum(told.size for told, _ in coming if isinstance(told, Entry)))) as progress:
        return max(looked, for_each(coming, save))


def file_size(session: Session, path: str) -> int:
    if (entry := stat(session, path)).is_directory:
        raise Failed(f"{shown(path)}: a directory stands there")
    return entry.size


@each_path
def cat(session: Session, asked: Namespace, path: str) -> None:
    """Writes a file, or so many bytes of its end as are asked for."""
    size = file_size(session, path)
    for part in read_bytes(session, path, max(0, size - abs(asked.bytes)) if "bytes" in asked else 0, size):
        write(part)


def append(session: Session, asked: Namespace) -> None:
    """Puts bytes of files, or of standard input, at the end of a file. One line is answered before the next is asked, so that no gap is left where
    one is refused."""
    path = line_path(asked.path, asked.folder)
    if any(is_own(session, file) for file in asked.files or [Path("/dev/stdin")]):
        raise Failed(f"{session.file}: the store isn't put into itself")
    if not session.told(f"stat {path}", NOT_FOUND).is_ok:
        session.ask("create", path)
    parts = itertools.chain.from_iterable(map(file_pieces, asked.files)) if asked.files else iter(lambda: sys.stdin.buffer.read(LINE_BYTES), b"")
    with local("standard input"), closing(Progress(sum(file.stat().st_size for file in asked.files))) as progress:
        for line in write_lines(path, file_size(session, path), progress.counted(parts)):
            session.ask(line)
