"""Whether all is sound, and how the store stands."""

from argparse import Namespace
from collections.abc import Iterable, Iterator
from typing import NamedTuple

from client.listing import sized_chunks
from client.names import line_path, old_path, shown
from client.progress import human
from client.session import Session
from client.store import Chunk, Entry, heal, paths_of, phase, report_all, told_below
from client.telling import WELL, WRONG, Failed, Refused, say, warn
from client.trash import removed

# So often all is healed and looked at anew, since a look finds damage that a copy has to follow.
MOST_ROUNDS = 8


class Found(NamedTuple):
    """What a look at files has found."""

    entries: list[Entry]
    # Paths, and what is wrong there.
    wrong: list[tuple[str, str]]
    # How many blocks were asked for.
    blocks: int

    @property
    def chunks(self) -> dict[int, Chunk]:
        return {chunk.handle: chunk for entry in self.entries for chunk in entry.chunks}

    def short(self, wanted: int) -> list[Chunk]:
        return [chunk for chunk in self.chunks.values() if len(chunk.servers) < wanted]


def place(path: str) -> str:
    """A path as people see it. What is in the trash stands where it comes back to."""
    return shown(path) if path == old_path(path) else f"{shown(old_path(path))} (in the trash)"


def looked_at(session: Session, tops: list[str], wrong: Iterable[tuple[str, str]] = (), blocks: int = 0) -> Found:
    """What stands at each file below some paths, as the master knows it, with what is wrong besides."""
    told = [one for top in tops for one in told_below(session, top)]
    entries = [entry for _, entry in told if isinstance(entry, Entry) and not entry.is_directory]
    untold = [(path, f"its size can't be told: {refused.says}") for path, refused in told if isinstance(refused, Refused)]
    return Found(entries, [*untold, *wrong], blocks)


def digest_lines(session: Session, entries: list[Entry]) -> Iterator[str]:
    """A line for each block of each file."""
    for entry in entries:
        for index, (_, size) in enumerate(sized_chunks(entry, session)):
            yield from (f"digest {entry.path} {index} {block}" for block in range(-(-size // session.sizes.block)))


def checked(session: Session, tops: list[str]) -> Found:
    """Has each server report, asks for the digest of each block, and looks at what is known then."""
    report_all(session)
    answers = list(session.ask_all(digest_lines(session, looked_at(session, tops).entries)))
    refused = [(answer.line.split(" "), answer.refusal.says) for answer in answers if not answer.is_ok]
    wrong = [(path, f"block {block} of its chunk at {chunk} isn't there: {says}") for (_, path, chunk, block), says in refused]
    return looked_at(session, tops, wrong, len(answers))


def repaired(session: Session, tops: list[str]) -> tuple[Found, int, str | None]:
    """Looks and heals until no copy is made any more. Tells how many were made too, and what refused the last one, if anything did."""
    made = 0
    for _ in range(MOST_ROUNDS):
        found, (copies, refused) = checked(session, tops), heal(session)
        made += copies
        if not copies:
            break
    return found, made, refused


def fsck(session: Session, asked: Namespace) -> int:
    tops = [line_path(path, asked.folder) for path in asked.paths or ["/"]]
    # What was deleted below may come back, so it has to be as sound as what stands.
    tops += [path for path in removed(session) if path.startswith(tuple(f"{top.rstrip('/')}/" for top in tops))]
    if asked.handle is not None:
        found = looked_at(session, tops)
        paths, untold = paths_of(found.entries)[asked.handle], [path for path, _ in found.wrong]
        if not paths + untold:
            raise Failed(f"no file has chunk {asked.handle}")
        if not paths:
            warn(f"chunk {asked.handle} is of none but these, whose chunks can't be told")
        say("\n".join(map(place, paths or untold)))
        return WELL
    found, made, refused = repaired(session, tops) if asked.repair else (checked(session, tops), 0, None)
    wanted, paths, short = session.sizes.replicas, paths_of(found.entries), found.short(session.sizes.replicas)
    for entry in found.entries if asked.verbose else ():
        say(f"{place(entry.path)} {entry.size} bytes: {', '.join(map(chunk_text, entry.chunks)) or 'no chunk'}")
    for chunk in short:
        say(f"{chunk_text(chunk)}, where {wanted} are wanted: {', '.join(map(place, paths[chunk.handle]))}")
    for path, what in found.wrong:
        say(f"{place(path)}: {what}")
    trash = sum(old_path(entry.path) != entry.path for entry in found.entries)
    counts = f"{len(found.chunks)} chunks, {found.blocks} blocks asked, {len(short)} chunks short, {made} copies made"
    say(f"{len(found.entries)} files, {trash} of them in the trash, {counts}")
    if refused:
        # The store takes the chunk first that lacks the most, also where nothing can be copied of it.
        blocked = "\nWhat can't be read keeps other chunks from being copied, until its files are deleted and no longer in the trash."
        warn(f"no more copies: {refused}{blocked if found.wrong else ''}")
    is_sound = not short and not found.wrong
    say("all is sound" if is_sound else "not all is sound" + ("" if asked.repair else "; fsck --repair heals what can be healed"))
    if phase(session)[0] != "ordinary":
        say("an upgrade stands, of which this says nothing: upgrade status tells what a rollback would find")
    return WELL if is_sound else WRONG


def chunk_text(chunk: Chunk) -> str:
    servers = f"on server{'s' if len(chunk.servers) > 1 else ''} {', '.join(map(str, chunk.servers))}" if chunk.servers else "on no server"
    return f"chunk {chunk.handle} {servers}"


def report(session: Session, asked: Namespace) -> None:
    """Servers with what is on each, what is short, the upgrade's phase, and the file in which the store is kept."""
    name, epoch = phase(session)
    say(f"phase {name}, epoch {epoch}")
    found, sizes = looked_at(session, ["/"]), session.sizes
    chunk_bytes = {chunk.handle: size for entry in found.entries for chunk, size in sized_chunks(entry, session)}
    say(f"{len(found.entries)} files, {len(found.chunks)} chunks, {len(found.short(sizes.replicas))} short of {sizes.replicas} replicas")
    for server in range(sizes.servers):
        handles = [chunk.handle for chunk in found.chunks.values() if server in chunk.servers]
        say(f"server {server}, rack {server % sizes.racks}: {len(handles)} chunks, {human(sum(chunk_bytes[handle] for handle in handles))}")
    for path, what in found.wrong:
        say(f"{shown(path)}: {what}")
    if log := session.file:
        say(f"log {log}: {human(log.stat().st_size)}")
