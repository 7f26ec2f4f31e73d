"""What was deleted and may come back.

No line lists hidden names. So the program that keeps the store is asked for all names. In a store without a file, and of a store as it was, the lines
are run again in another one without a file, whose answers tell where each thing went that was deleted, and the store itself is asked which of
them stand."""

from argparse import Namespace
from bisect import bisect_left
from collections.abc import Iterable, Iterator
from datetime import datetime

from client.attempts import each_path
from client.names import child, hidden_parts, last, named, old_path, parent, shown
from client.session import Answer, Session
from client.store import NO_REPLICA, Entry, report_all, stats
from client.telling import NOT_FOUND, Failed, Refused, say

# What was deleted longer ago than this is removed for good by a scan.
KEPT_SECONDS = 259_200
# The year 9999 begins here. A moment after it is shown as a number of seconds.
LAST_DATE = 253_370_764_800


def with_looks(lines: Iterable[str]) -> Iterator[str]:
    """The same lines. Before each `mv` stands one that asks whether it leads into a directory."""
    for line in lines:
        if line.startswith("mv "):
            yield f"stat {line.split(' ')[-1]}"
        yield line


def moves(answers: Iterable[Answer]) -> Iterator[tuple[str, str]]:
    """From where to where each accepted line has moved something, of lines with such looks."""
    is_into = False
    for answer in answers:
        word, *paths = answer.line.split(" ")
        if answer.is_ok and word == "mv":
            yield paths[0], child(paths[1], last(paths[0])) if is_into else paths[1]
        elif answer.is_ok and word in ("undelete", "rm") and answer.value != "false":
            yield paths[-1], answer.value
        is_into = answer.text == "ok dir"


def hidden_paths(session: Session) -> list[str]:
    """Each place where something deleted may stand now, in the order in which it was deleted."""
    if session.file is None:
        return past_hidden_paths(session)
    return in_order(path for path in session.names() if hidden_parts(path))


def in_order(paths: Iterable[str]) -> list[str]:
    """Hidden paths in the order in which they were deleted."""
    return sorted(paths, key=lambda path: hidden_parts(path)[1])


def past_hidden_paths(session: Session) -> list[str]:
    """Each place where something deleted may stand, or stood. It stays one after a move away from it, since a rollback may bring that back."""
    places: list[str] = []
    with session.again() as again:
        for before, after in moves(again.ask_all(with_looks(session.history()))):
            # What stands below a path stands together in the order of texts.
            below = places[bisect_left(places, f"{before}/") : bisect_left(places, f"{before}0")]
            for place in [after + place.removeprefix(before) for place in below] + [after] * bool(hidden_parts(after)):
                at = bisect_left(places, place)
                if places[at : at + 1] != [place]:
                    places.insert(at, place)
    return in_order(places)


def removed(session: Session, then: Session | None = None) -> dict[str, Entry | Refused]:
    """What stands in the trash, or stood there in a store that has run a beginning of the lines, by its hidden paths, in the order in which it was
    deleted. Of a file of which no server has a chunk any more that refusal stands there, and any other is raised."""
    paths = past_hidden_paths(session) if then else hidden_paths(session)
    found = {path: told for path, told in zip(paths, stats(then or session, paths)) if isinstance(told, Entry) or told.number != NOT_FOUND}
    for told in found.values():
        if isinstance(told, Refused) and told.number != NO_REPLICA:
            raise told
    return found


def trash(session: Session, asked: Namespace) -> None:
    """When it was deleted, where it stood, and its hidden name."""
    for path, told in removed(session).items():
        size = "?" if isinstance(told, Refused) else "dir" if told.is_directory else told.size
        moment, _, _ = hidden_parts(path)
        date = f"{datetime.fromtimestamp(moment):%Y-%m-%d %H:%M:%S}" if moment < LAST_DATE else moment
        say(f"{date:>19} {size:>12} {shown(old_path(path))} {named(path)}")


@each_path
def undelete(session: Session, asked: Namespace, path: str) -> None:
    """Brings back what was deleted last of that name, or what stands at a hidden path."""
    if not hidden_parts(path):
        # What it stood in may have been deleted too, and has to come back first.
        fitting = {old_path(hidden): hidden for hidden in removed(session) if parent(hidden) == old_path(parent(hidden))}
        if path not in fitting:
            raise Failed(f"{shown(path)}: nothing of that name is in the trash; `trash` lists what is")
        path = fitting[path]
    say(f"{shown(session.ask('undelete', path))} is back")


def expunge(session: Session, asked: Namespace) -> None:
    """Removes for good what was deleted three days ago, or all that was, and has the servers drop what no file has any more."""
    try:
        if asked.all:
            newest = max((hidden_parts(path)[0] for path in removed(session)), default=0)
            session.ask("at", newest + KEPT_SECONDS + 1)
        entries, chunks = session.ask("scan").split(" ")
    finally:
        session.set_moment()
    report_all(session)
    say(f"removed for good: {entries} of the trash, and {chunks} chunks")
