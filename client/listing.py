"""Commands that look at names and sizes, and those that change names."""

from argparse import Namespace
from collections import defaultdict
from fnmatch import fnmatchcase

from client.attempts import each_path, for_each, targets
from client.names import child, last, line_path, named, shown
from client.progress import human
from client.session import Session
from client.store import Chunk, Entry, children, is_directory, stat, stats, told_below, walk, walk_names
from client.telling import Failed, Refused, say


def size_text(size: int, asked: Namespace) -> str:
    return human(size) if asked.human else str(size)


def entry_line(told: Entry | Refused, asked: Namespace, name: str) -> str:
    """A line of `ls`: with -l what stands there, the least replicas of a chunk, and the size. The refusal where that can't be told."""
    if isinstance(told, Refused):
        return f"? {shown(name)}: {told.says}" if asked.long else shown(name)
    name = shown(name).removesuffix("/") + "/" * told.is_directory
    replicas = min((len(chunk.servers) for chunk in told.chunks), default="-")
    size = "-" if told.is_directory else size_text(told.size, asked)
    return f"{'d' if told.is_directory else '-'} {replicas:>2} {size:>12} {name}" if asked.long else name


@each_path
def ls(session: Session, asked: Namespace, top: str) -> None:
    if not is_directory(session, top):
        found = [(top, stat(session, top))]
    elif asked.recursive:
        # What stands in a directory follows it.
        found = sorted(((path, told) for path, told in told_below(session, top) if path != top), key=lambda one: one[0].split("/"))
    else:
        names = children(session, top)
        found = zip(names, stats(session, (child(top, name) for name in names)))
    for name, told in found:
        say(entry_line(told, asked, name))


@each_path
def du(session: Session, asked: Namespace, top: str) -> None:
    """The bytes of what stands in a directory, and those that all replicas of it take."""
    parts: dict[str, list[Entry]] = defaultdict(list)
    for entry in walk(session, top):
        below = entry.path.removeprefix(top).strip("/").split("/")[0]
        parts[top if asked.summary or not below else child(top, below)].append(entry)
    if len(parts) > 1:
        parts.pop(top)
    for part, entries in sorted(parts.items()):
        whole = sum(entry.size for entry in entries)
        stored = sum(size * len(chunk.servers) for entry in entries for chunk, size in sized_chunks(entry, session))
        say(f"{size_text(whole, asked):>12} {size_text(stored, asked):>12} {shown(part)}")


def sized_chunks(entry: Entry, session: Session) -> list[tuple[Chunk, int]]:
    """The chunks of a file with their bytes: all but the last are full."""
    return [(chunk, min(session.sizes.chunk, entry.size - at * session.sizes.chunk)) for at, chunk in enumerate(entry.chunks)]


@each_path
def count(session: Session, asked: Namespace, top: str) -> None:
    """Directories, files and bytes."""
    entries = list(walk(session, top))
    folders = sum(entry.is_directory for entry in entries)
    whole = size_text(sum(entry.size for entry in entries), asked)
    say(f"{folders:>12} {len(entries) - folders:>12} {whole:>12} {shown(top)}")


def tree(session: Session, asked: Namespace) -> None:
    """A picture of what stands below a path."""
    top = line_path(asked.path or ".", asked.folder)

    def draw(folder: str, before: str) -> None:
        names = children(session, folder)
        final = max(names, default="")
        for name, is_folder in names.items():
            say(f"{before}{'└── ' if name == final else '├── '}{shown(name)}{'/' * is_folder}")
            if is_folder:
                draw(child(folder, name), before + ("    " if name == final else "│   "))

    is_folder = stat(session, top).is_directory
    say(shown(top))
    if is_folder:
        draw(top, "")


def find(session: Session, asked: Namespace) -> None:
    top = line_path(asked.path, asked.folder)
    for path, _ in sorted(walk_names(session, top), key=lambda one: one[0].split("/")):
        if asked.name is None or fnmatchcase(shown(last(path)), asked.name):
            say(shown(path))


@each_path
def mkdir(session: Session, asked: Namespace, path: str) -> None:
    session.ask("mkdir", path)


def mv(session: Session, asked: Namespace, word: str = "mv") -> int:
    """Asks a line for each path, with its target."""
    sources = [line_path(path, asked.folder) for path in asked.sources]
    if "/" in sources:
        raise Refused("refused 9 IsRoot", "/")
    lines = [(word, *ends) for ends in zip(sources, targets(session, asked, map(last, sources)))]
    return for_each(lines, lambda line: session.ask(*line))


def cp(session: Session, asked: Namespace) -> int:
    """Copies by a snapshot, which shares the chunks until one side is written to."""
    return mv(session, asked, "snapshot")


@each_path
def rm(session: Session, asked: Namespace, path: str) -> None:
    hidden = session.ask("rm", "-r", path) if asked.recursive else session.ask("rm", path)
    if hidden != "false":
        say(f"{shown(path)} is in the trash as {named(hidden)}")
    elif not asked.force:
        raise Failed(f"{shown(path)}: nothing stands there")
