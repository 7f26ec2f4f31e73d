"""A plain machine: a tree of texts, perhaps a kept one, and debts. It knows no handle, replica, server, stamp, lease, journal or message.

A text is bytes, and the edits that are owed to it: of these nobody was sure. Each may be made at any later line, once, or never. One that
is made overtakes those that were asked before it. Calls are owed too. A late one may come to the master when something that was held back
is delivered. One that waits there may be done at any later line. A state never changes, and what may be is a list of states. Failing
disks, and want of memory, of room and of counters, aren't in it."""

import functools
from collections.abc import Iterable, Iterator
from dataclasses import dataclass, field, replace

from plain_tree import Path, Refused, Tree, need, text_of

ORDINARY, PREPARING, UPGRADE, ROLLING = "ordinary", "preparing", "upgrade", "rolling"
# Calls that a prepare under way keeps out, and those that are taken while a rollback is begun.
WORK = ("mkdir", "create", "mv", "rm", "undelete", "snapshot", "extend", "find", "scan", "replicate")
TAKEN_WHILE_ROLLING = ("query", "rollback-commit")
# Changes of the tree: the master keeps their numbers, so that what was asked before one is old behind it.
CHANGES = ("mkdir", "create", "mv", "rm", "undelete", "snapshot", "extend")
# Calls that may wait at the master for chunks.
WAITING = ("snapshot", "extend")
# Calls that only look.
LOOKS = ("ls", "query")
MOST_CHUNKS = 4096
MOST_STATES = 6000


class TooManyStates(Exception):
    """So much is owed that the states can't be kept any more."""


def few(states: Iterable["State"]) -> list["State"]:
    """Each state once."""
    found: dict[State, None] = {}
    for state in states:
        found[state] = None
        if len(found) > MOST_STATES:
            raise TooManyStates
    return list(found)


# ---- texts


@dataclass(frozen=True)
class Edit:
    """Bytes that are written at an offset of a text, or behind all others where no offset is."""

    content: bytes
    offset: int | None = None

    def fits(self, text: bytes, size: int) -> bool:
        return len(text) + len(self.content) <= size

    def made(self, text: bytes, size: int) -> bytes:
        """What it makes of a text. Bytes that don't fit behind the text fill it up with zeros instead."""
        if self.offset is None:
            return text + self.content if self.fits(text, size) else text.ljust(size, b"\0")
        return text[: self.offset].ljust(self.offset, b"\0") + self.content + text[self.offset + len(self.content) :]


@dataclass(frozen=True)
class Text:
    """The bytes of a chunk, and the edits that are owed to it, in the order in which they were asked."""

    content: bytes = b""
    owed: tuple[Edit, ...] = ()

    def with_edit(self, edit: Edit, owed: tuple[Edit, ...], size: int) -> "Text":
        """An edit is made, behind which these are owed. A record passes a text that is full."""
        passes = edit.offset is None and len(self.content) == size
        return self if passes else Text(edit.made(self.content, size), owed)


@functools.lru_cache(maxsize=100_000)
def settlings(text: Text, size: int) -> tuple[Text, ...]:
    """What a text may be once some of what is owed to it is made."""
    found, left = {text: None}, [text]
    while left:
        now = left.pop()
        for place, edit in enumerate(now.owed):
            behind = now.with_edit(edit, now.owed[place + 1 :], size)
            if behind not in found:
                found[behind] = None
                left.append(behind)
    return tuple(found)


def contents(text: Text, size: int) -> list[bytes]:
    """The bytes that may be seen of a text."""
    return list(dict.fromkeys(settled.content for settled in settlings(text, size)))


def with_text(tree: Tree, path: Path, place: int, text: Text) -> Tree:
    texts = tree.file(path)
    return tree.with_entries([(path, (*texts[:place], text, *texts[place + 1 :]))])


def settled_trees(tree: Tree, paths: Iterable[Path], size: int) -> list[Tree]:
    """Some of what is owed to the texts at these paths is made, or none, and nothing is owed to them any more."""
    trees = [tree]
    for path in paths:
        for place, text in enumerate(tree.entries[path] or ()):
            if text.owed:
                trees = [with_text(each, path, place, Text(content)) for each in trees for content in contents(text, size)]
            if len(trees) > MOST_STATES:
                raise TooManyStates
    return trees


# ---- states


@dataclass(frozen=True)
class Call:
    """What is asked of the master: its name, which mostly is that of its line, and what it is asked with."""

    name: str
    arguments: tuple = ()


@dataclass(frozen=True)
class State:
    tree: Tree = field(default_factory=Tree)
    kept: Tree | None = None
    phase: str = ORDINARY
    epoch: int = 0
    next_deletion: int = 1
    moment: int = 0
    late: tuple[Call, ...] = ()
    waiting: tuple[Call, ...] = ()


# What is said after `ok`, and the state behind it.
Outcome = tuple[str, State]


def refusal_of_phase(state: State, name: str) -> str | None:
    """By which name the phase refuses a call, if it does."""
    if state.phase == ROLLING and name not in TAKEN_WHILE_ROLLING:
        return "RollingBack"
    return "Preparing" if state.phase == PREPARING and name in WORK else None


def called(state: State, call: Call, size: int) -> list[Outcome]:
    """What a call may be answered, and the states behind it, or the refusal is raised. Of a scan it isn't known how many chunks it forgets."""
    by_phase = refusal_of_phase(state, call.name)
    need(by_phase is None, by_phase or "")
    if call.name in ("mkdir", "create", "mv", "undelete", "extend", "ls", "rm", "scan"):
        return [names_called(state, call)]
    if call.name == "snapshot":
        return snapshots(state, *call.arguments, size)
    return upgrade_called(state, call.name, size)


def names_called(state: State, call: Call) -> Outcome:
    tree = state.tree
    match call:
        case Call("mkdir", (path,)):
            return "", replace(state, tree=tree.with_directory(path))
        case Call("create", (path,)):
            return "", replace(state, tree=tree.with_file(path))
        case Call("mv", (source, to)):
            return "", replace(state, tree=tree.renamed(source, to))
        case Call("undelete", (path,)):
            back, behind = tree.undeleted(path)
            return text_of(back), replace(state, tree=behind)
        case Call("extend", (path, index)):
            return "", replace(state, tree=extended(tree, path, index))
        case Call("ls", (path,)):
            return " ".join(tree.listed(path)), state
        case Call("rm", (path, is_recursive)):
            return removed(state, path, is_recursive)
    count, behind = tree.scanned(state.moment)
    return str(count), replace(state, tree=behind)


def removed(state: State, path: Path, is_recursive: bool) -> Outcome:
    """A deletion takes a number, unless nothing stands there."""
    hidden, behind = state.tree.deleted(path, is_recursive, state.moment, state.next_deletion)
    if hidden is None:
        return "false", state
    return text_of(hidden), replace(state, tree=behind, next_deletion=state.next_deletion + 1)


def extended(tree: Tree, path: Path, index: int) -> Tree:
    """A file gets a chunk more, if it is the next one of this place."""
    texts = tree.file(path)
    is_next = len(texts) == index < MOST_CHUNKS
    return tree.with_entries([(path, (*texts, Text()))]) if is_next else tree


def snapshots(state: State, source: Path, target: Path, size: int) -> list[Outcome]:
    """To what a snapshot copies nothing is owed any more, on neither side."""
    state.tree.need_snapshot(source, target)
    trees = settled_trees(state.tree, state.tree.copied(source), size)
    return [("", replace(state, tree=tree.with_snapshot(source, target))) for tree in trees]


def upgrade_called(state: State, name: str, size: int) -> list[Outcome]:
    following = state.epoch + 1
    match name, state.phase:
        case "query", phase:
            return [(f"{phase} {state.epoch}", state)]
        case "prepare-begin", "ordinary":
            # It is refused while a call waits, so one that may have waited waits no more.
            return [(str(state.epoch), replace(state, phase=PREPARING, waiting=()))]
        case "prepare-commit", "preparing":
            trees = settled_trees(state.tree, state.tree.entries, size)
            return [(str(following), replace(state, tree=tree, kept=tree, phase=UPGRADE, epoch=following)) for tree in trees]
        case "finalize", "upgrade":
            return [(str(following), replace(state, kept=None, phase=ORDINARY, epoch=following))]
        case "rollback-begin", "upgrade":
            # It refuses all calls that wait.
            return [(str(following), replace(state, phase=ROLLING, epoch=following, waiting=()))]
        case "rollback-commit", "rolling":
            return [(str(state.epoch), replace(state, tree=state.kept, kept=None, phase=ORDINARY))]
    is_begun = name == "prepare-begin" or (name == "prepare-commit" and state.phase == UPGRADE)
    raise Refused("AlreadyUpgrading" if is_begun else "NotUpgrading")


# ---- what is owed


def overtaking(state: State, call: Call, late: tuple[Call, ...], size: int) -> list[Outcome]:
    """A call is done. Behind an accepted change of the tree no calls are late but these."""
    is_change = call.name in CHANGES
    return [(said, replace(behind, late=late) if is_change and said != "false" else behind) for said, behind in called(state, call, size)]


def overtaken(state: State, call: Call, late: tuple[Call, ...], size: int) -> list[State]:
    """The same where it doesn't matter what is answered: one that is refused changes nothing."""
    try:
        return [behind for _, behind in overtaking(state, call, late, size)]
    except Refused:
        return [state]


def unsure(state: State, call: Call, size: int) -> Iterator[State]:
    """A call of which nobody is sure is late, or it is done, or it waits. One that only looks has done nothing."""
    if call.name in LOOKS:
        yield state
        return
    yield replace(state, late=(*state.late, call))
    yield from overtaken(state, call, (), size)
    if call.name in WAITING:
        yield replace(state, waiting=(*state.waiting, call))


def without(calls: tuple[Call, ...], place: int) -> tuple[Call, ...]:
    return calls[:place] + calls[place + 1 :]


def payments(state: State, is_delivered: bool, size: int) -> Iterator[State]:
    """A call that waits ends. Where something is delivered a late one comes and is done, or waits."""
    for place, call in enumerate(state.waiting):
        ending = replace(state, waiting=without(state.waiting, place))
        try:
            yield from (behind for _, behind in called(ending, call, size))
        except Refused:
            yield ending
    for place, call in enumerate(state.late if is_delivered else ()):
        yield from overtaken(state, call, state.late[place + 1 :], size)
        if call.name in WAITING:
            yield replace(state, late=without(state.late, place), waiting=(*state.waiting, call))


def paid(states: Iterable[State], is_delivered: bool, size: int) -> list[State]:
    """The states behind any payments of calls. Edits are paid where their texts are looked at, edited or copied."""
    found = dict.fromkeys(states)
    left = list(found)
    while left:
        for behind in payments(left.pop(), is_delivered, size):
            if behind not in found:
                found[behind] = None
                left.append(behind)
        if len(found) > MOST_STATES:
            raise TooManyStates
    return list(found)
