"""How what a command does is tried, and how it is told where it can't be done."""

import functools
from argparse import Namespace
from collections.abc import Callable, Iterable

from client.names import child, line_path, shown
from client.session import Session
from client.store import is_directory
from client.telling import WELL, WRONG, Failed, NoSpace, local, warn

# What a command does. It ends with a status, or with none where all is well.
Run = Callable[[Session, Namespace], int | None]


def attempt(act: Callable[[], int | None], but: type[Failed] | tuple = ()) -> int:
    """Does something, or tells why it can't be done, but for what is passed on. The status says which."""
    try:
        with local(None):
            return act() or WELL
    except but:
        raise
    except Failed as failed:
        warn(str(failed))
        return WRONG


def for_each(items: Iterable, act: Callable[..., object]) -> int:
    """Does the same with each, and goes on where it can't be done with one, unless a disk is full. The status says whether it was done with all."""
    return max([attempt(functools.partial(act, item), NoSpace) for item in items], default=WELL)


def each_path(act: Callable[[Session, Namespace, str], None]) -> Run:
    """A command that does the same with each path that is given, or with the folder in which one is."""

    def run(session: Session, asked: Namespace) -> int:
        return for_each([line_path(path, asked.folder) for path in asked.paths or ["."]], functools.partial(act, session, asked))

    return functools.wraps(act)(run)


def targets(session: Session, asked: Namespace, names: Iterable[str]) -> list[str]:
    """Where things of such names go: into the directory that stands at a target, or to the target itself, which several can't."""
    target = line_path(asked.target, asked.folder)
    if is_directory(session, target):
        return [child(target, name) for name in names]
    if len(asked.sources) > 1:
        raise Failed(f"{shown(target)}: several need a directory that is there")
    return [target]
