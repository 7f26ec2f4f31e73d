"""A script that makes what stands now in a new store, and a store that is made of one.

It has the lines of the store itself. Its last line is the SHA-256 of all lines before. That is no line of the grammar, so a store answers it
`refused 34 BadLine` and changes nothing."""

import hashlib
import itertools
import os
from argparse import Namespace
from collections import defaultdict, deque
from collections.abc import Iterator
from pathlib import Path

from client.names import bytes_of, child, hidden_parts, last, old_path, parent, shown
from client.session import Session
from client.store import Entry, children, file_sha256, phase, read_bytes, stat
from client.telling import Failed, Refused, say, write
from client.transfer import arriving, opened, write_lines
from client.trash import removed

SUM = "# sha256 "


def made_again(session: Session, entry: Entry, path: str, hidden: dict[str, dict[str, Entry | Refused]]) -> Iterator[str]:
    """Lines that make what stands at a place, at another path. What was deleted in a directory is made before what stands there, and deleted at
    its moment."""
    if not entry.is_directory:
        yield f"create {path}"
        yield from write_lines(path, 0, read_bytes(session, entry.path, 0, entry.size))
        return
    if path != "/":
        yield f"mkdir {path}"
    for place, told in hidden[entry.path].items():
        if isinstance(told, Refused):
            raise Failed(f"{shown(old_path(place))}, which is in the trash, can't be read; expunge --all removes it for good")
        old = child(path, last(old_path(place)))
        yield from made_again(session, told, old, hidden)
        yield f"at {hidden_parts(place)[0]}"
        yield f"rm -r {old}"
    for name in children(session, entry.path):
        yield from made_again(session, stat(session, child(entry.path, name)), child(path, name), hidden)


def script(session: Session) -> Iterator[str]:
    """The lines of a script, with its digest at its end."""
    if (name := phase(session)[0]) != "ordinary":
        raise Failed(f"an upgrade stands (phase {name}), which a script can't take along: `upgrade status` says how it can end")
    hidden: dict[str, dict[str, Entry | Refused]] = defaultdict(dict)
    for place, told in removed(session).items():
        hidden[parent(place)][place] = told
    summed = hashlib.sha256()
    for line in made_again(session, Entry("/", True), "/", hidden):
        summed.update(f"{line}\n".encode())
        yield line
    yield SUM + summed.hexdigest()


def export(session: Session, asked: Namespace) -> None:
    lines = (bytes_of(f"{line}\n") for line in script(session))
    if asked.to is None:
        deque(map(write, lines), maxlen=0)
    else:
        with arriving(session, asked.to, asked.force) as out:
            out.writelines(lines)
            out.flush()
            os.fsync(out.fileno())


def checked_lines(file: Path) -> Iterator[str]:
    """The lines of a script, the last of which has to be the digest of the others."""
    summed, waiting = hashlib.sha256(), b""
    with opened(file) as lines:
        for line in lines:
            if waiting:
                summed.update(waiting)
                yield waiting.decode(errors="surrogateescape").removesuffix("\n")
            waiting = line
    if waiting.strip() != f"{SUM}{summed.hexdigest()}".encode():
        raise Failed(f"{file}: its last line isn't the digest of the others: it isn't whole, or was changed")


class Files(dict[str, "hashlib._Hash"]):
    """The digests of the files that lines of a script make, under the paths at which they stand in the end."""

    def passed(self, line: str, told: str) -> None:
        words = line.split(" ")
        if words[0] == "create":
            self[words[1]] = hashlib.sha256()
        elif words[0] == "write":
            self[words[1]].update(bytes.fromhex(words[3]))
        elif words[0] == "rm":
            # What is deleted was made last.
            for path in list(itertools.takewhile(lambda path: f"{path}/".startswith(f"{words[-1]}/"), reversed(self))):
                self[told + path.removeprefix(words[-1])] = self.pop(path)


def import_script(session: Session, asked: Namespace) -> None:
    """Makes what a script says in a store in which nothing stands, and compares each file after it."""
    if children(session, "/"):
        raise Failed("a script is for a new store, and something stands in this one")
    # The whole script is looked at before a line of it is asked.
    deque(checked_lines(asked.file), maxlen=0)
    files = Files()
    for answer in session.ask_all(checked_lines(asked.file)):
        files.passed(answer.line, answer.value)
    session.set_moment()
    for path, wanted in files.items():
        if file_sha256(session, path) != wanted.hexdigest():
            raise Failed(f"{shown(path)}: it isn't what the script says")
    say(f"{len(files)} files made and compared")
