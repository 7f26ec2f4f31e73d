"""An upgrade: its beginning, how it stands, and its end."""

import itertools
import shlex
from argparse import Namespace
from collections import Counter, deque
from collections.abc import Iterable
from typing import NamedTuple

from client.check import place
from client.session import Session, image_of
from client.store import Entry, heal, paths_of, phase, report_all, stats, walk
from client.telling import WELL, WRONG, Failed, Refused, say
from client.transfer import opened
from client.trash import hidden_paths, removed

UNRESTORED = 16
PREPARES = ("rollingUpgrade prepare", "prepare-commit")
ROLLBACKS = ("rollingUpgrade rollback", "rollback-commit")


class Found(NamedTuple):
    """What a rollback would find."""

    # A line for each chunk of the prepare, with how many servers have it as it was.
    told: list[str]
    # A line for each that none has.
    lost: list[str]
    # As which line of the store, without marks, a rollback was begun last, or 0 where that isn't known.
    begun: int = 0


def what_a_rollback_finds(session: Session) -> Found:
    """A store in memory is rolled back, and its servers are asked. The store itself isn't touched."""
    return rerun_rollback(session) if session.has_history else tried_rollback(session)


def rerun_rollback(session: Session) -> Found:
    """The lines of the store are run again. While it rolls back its epoch is already the next."""
    name, epoch = phase(session)
    begins = f"ok {epoch - (name == 'rolling')}"
    prepared = begun = 0
    with session.again() as before, session.again() as again:
        for at, answer in enumerate(again.ask_all(session.history()), 1):
            prepared = at if answer.line in PREPARES and answer.text == begins else prepared
            # One may have been refused at its commit.
            if answer.line in (ROLLBACKS[0], "rollback-begin") and (answer.is_ok or answer.refusal.number == UNRESTORED):
                begun = at
        if not prepared:
            raise Failed(f"the lines of the store have no prepare that was answered {begins}")
        deque(before.ask_all(itertools.islice(session.history(), prepared)), maxlen=0)
        # What was in the trash at the prepare comes back too.
        chunks = chunks_below(before, ("/", *removed(session, before)))
        refusal = rolled_back(again, name)
        servers = servers_with(again, chunks)
    if refusal:
        # It is told in each case, also where nobody finds the file that has it.
        chunks.setdefault(int(refusal.detail), "of no file that is found")
        servers[int(refusal.detail)] = 0
    return found(chunks, servers, session.sizes.servers)._replace(begun=begun)


def tried_rollback(session: Session) -> Found:
    """So of a store from an image, where the lines before that aren't there. A store that goes on from its file in memory is rolled back, and what
    stands then stood at the prepare. Where that is refused, the lowest chunk that nobody has is told alone."""
    name, _ = phase(session)
    hidden = hidden_paths(session)
    with session.tried() as again:
        if refusal := rolled_back(again, name):
            return found({int(refusal.detail): "its files can't be told, since the store begins from an image"}, Counter(), session.sizes.servers)
        chunks = chunks_below(again, ("/", *(path for path, told in zip(hidden, stats(again, hidden)) if isinstance(told, Entry))))
        return found(chunks, servers_with(again, chunks), session.sizes.servers)


def chunks_below(session: Session, tops: Iterable[str]) -> dict[int, str]:
    """The chunks of all files below some paths, ascending, each with the paths of its files."""
    entries = itertools.chain.from_iterable(walk(session, top) for top in tops)
    return {handle: ", ".join(map(place, paths)) for handle, paths in sorted(paths_of(entries).items())}


def servers_with(session: Session, chunks: Iterable[int]) -> Counter[int]:
    """On how many servers each chunk is. A loss is accepted where the server has the chunk."""
    report_all(session)
    servers: Counter[int] = Counter()
    for answer in session.ask_all(f"lose {server} {handle}" for handle in chunks for server in range(session.sizes.servers)):
        servers[int(answer.line.split(" ")[2])] += answer.is_ok
    return servers


def found(chunks: dict[int, str], servers: Counter[int], of: int) -> Found:
    told = [f"chunk {handle}, on {servers[handle]} of {of} servers as it was at the prepare: {paths}" for handle, paths in chunks.items()]
    return Found(told, [f"chunk {handle} has no sound replica of the prepare: {paths}" for handle, paths in chunks.items() if not servers[handle]])


def rolled_back(session: Session, name: str) -> Refused | None:
    """Rolls a store back that is in such a phase, or answers that nobody has a chunk as it was."""
    for line in ROLLBACKS[name == "rolling" :]:
        report_all(session)
        answer = session.told(line, UNRESTORED)
        if answer.is_ok:
            return None
    return answer.refusal


def make_whole(session: Session) -> None:
    copies, refused = heal(session)
    if copies:
        say(f"{copies} copies made of what was short")
    if refused:
        raise Failed(f"a chunk is still short: {refused}")


def prepare(session: Session, asked: Namespace) -> None:
    # What servers report settles what wasn't quiet.
    report_all(session)
    say(f"an upgrade stands, epoch {session.ask(PREPARES[0])}: all that changes from now on can be taken back")


def status(session: Session, asked: Namespace) -> int | None:
    name, epoch = phase(session)
    say(f"phase {name}, epoch {epoch}" + (": until the rollback is done the store answers nothing else" if name == "rolling" else ""))
    if name not in ("upgrade", "rolling"):
        return None
    told, lost, begun = what_a_rollback_finds(session)
    say("\n".join(told) or "no file had a chunk at the prepare")
    if not lost:
        say("a rollback would give all back")
        return WELL
    say("a rollback would be refused" + ("; `upgrade finalize` keeps what stands now" if name == "upgrade" else ""))
    if name == "rolling" and session.file:
        # A copy that ends at the mark before that line's batch is the store before it. A file of form 1 may have no mark there, and needs none.
        with opened(session.file) as lines:
            is_first = next(lines).startswith(b"chunkkeep 1 ")
            marks = [at for at, line in enumerate(lines, 2) if line.startswith(b"#") and int(line.split()[1]) < begun]
        if last := max(marks, default=begun * is_first):
            image, file = image_of(session.file), shlex.quote(str(session.file))
            # The copy begins from the same image, under a name of its own.
            beside = f", with `cp {file}.image.{image[0]} COPY.image.{image[0]}`," if image else ""
            say(f"`head -n {last} {file} > COPY`{beside} makes the store before it. An upgrade that stands there can be finalized")
    return WRONG


def rollback(session: Session, asked: Namespace) -> None:
    name, _ = phase(session)
    lost = what_a_rollback_finds(session).lost if name == "upgrade" and not asked.anyway else []
    if lost:
        way = "Begun by --anyway, the store would answer nothing else, for good. `upgrade finalize` keeps what stands now."
        raise Failed("\n".join([f"a rollback can't be done. {way}", *lost]))
    refusal = rolled_back(session, name)
    if refusal:
        raise refusal
    say(f"rolled back to the prepare, epoch {phase(session)[1]}")
    make_whole(session)


def finalize(session: Session, asked: Namespace) -> None:
    say(f"finalized, epoch {session.ask('rollingUpgrade', 'finalize')}")
    make_whole(session)
