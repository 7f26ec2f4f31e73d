"""What a line may be answered where a plain machine stands (plain_machine.py), and where that leads.

`Judge.explains` takes a line with its answer, one after the other, and says whether the machine explains it. It is exact where docs/LINES.md
is: what the store may refuse a line by depends on the line, on the phase, and on what has gone wrong before: messages that were held back,
replicas that were lost, blocks that were damaged. What the machine doesn't know (handles, members, how many chunks a scan forgets) has to be
of its form."""

import hashlib
import re
from collections.abc import Callable, Iterable, Iterator
from dataclasses import dataclass, replace

from plain_machine import (
    MOST_CHUNKS,
    ORDINARY,
    PREPARING,
    ROLLING,
    Call,
    Edit,
    Outcome,
    State,
    Text,
    called,
    contents,
    few,
    overtaken,
    overtaking,
    paid,
    refusal_of_phase,
    settlings,
    unsure,
    with_text,
)
from plain_tree import GREATEST, NAMES, NUMBERS, Path, Refused, looked_at, need, path_of

# ---- the grammar

KINDS = (
    "call reply create advance promised unpromised grant renew renewed push edit forward ack nack done fetch bytes copyout copyin makecopy "
    "report drop bad epoch learned behind"
).split()
UPGRADES = ("query", "prepare", "finalize", "rollback")
STEPS = ("prepare-begin", "prepare-commit", "rollback-begin", "rollback-commit")
# Lines about nodes and messages, which a store in threads doesn't take.
OF_NODES = ("beat", "tick", "restart", "lose", "damage", "hold", "deliver")


@dataclass(frozen=True)
class Question:
    """What a line asks: its first word, of an upgrade its second too, and what the others say."""

    word: str
    arguments: tuple = ()


def number_of(word: str) -> int:
    need(re.fullmatch("[0-9]+", word) is not None and int(word.lstrip("0")[:21] or "0") <= GREATEST, "BadLine")
    return int(word)


def bytes_of(word: str) -> bytes:
    need(re.fullmatch("([0-9a-fA-F]{2})+", word) is not None, "BadLine")
    return bytes.fromhex(word)


# What stands behind the first word. Paths are judged once all else is.
ARGUMENTS: dict[str, tuple[Callable, ...]] = {
    "mkdir": (path_of,),
    "create": (path_of,),
    "ls": (looked_at,),
    "mv": (path_of, path_of),
    "undelete": (looked_at,),
    "snapshot": (path_of, path_of),
    "stat": (looked_at,),
    "write": (path_of, number_of, bytes_of),
    "append": (path_of, bytes_of),
    "read": (looked_at, number_of, number_of),
    "digest": (looked_at, number_of, number_of),
    "at": (number_of,),
    "scan": (),
    "beat": (number_of,),
    "tick": (),
    "replicate": (),
    "lose": (number_of, number_of),
    "damage": (number_of, number_of, number_of),
    "deliver": (number_of,),
    **{step: () for step in STEPS},
}


def question_of(line: str) -> Question:
    """What a line asks, or the refusal of a line that is none, or of its paths."""
    first, *rest = line.split(" ")
    need("" not in rest, "BadLine")
    match first, rest:
        case "rm", ["-r", path]:
            return Question("rm", (path_of(path), True))
        case "rm", [path]:
            return Question("rm", (path_of(path), False))
        case "rollingUpgrade", [upgrade] if upgrade in UPGRADES:
            return Question(f"{first} {upgrade}")
        case "restart", ["master"]:
            return Question(first, (None,))
        case "restart", [server]:
            return Question(first, (number_of(server),))
        case ("hold", ["off"]) | ("hold", ["on", _]):
            need(rest == ["off"] or rest[1] in KINDS, "BadLine")
            return Question(first, (rest == ["off"],))
    kinds = ARGUMENTS.get(first)
    need(kinds is not None and len(kinds) == len(rest), "BadLine")
    are_paths = [kind in (path_of, looked_at) for kind in kinds]
    words = [word if is_path else kind(word) for kind, word, is_path in zip(kinds, rest, are_paths)]
    return Question(first, tuple(kind(word) if is_path else word for kind, word, is_path in zip(kinds, words, are_paths)))


# ---- answers

A_NUMBER = "(?:0|[1-9][0-9]*)"
A_CHUNK = f"{A_NUMBER}/{A_NUMBER}/(?:-|{A_NUMBER}(?:,{A_NUMBER})*)"
DETAILS = {
    "NotQuiet": A_NUMBER,
    "Unrestored": A_NUMBER,
    "Epoch": A_NUMBER,
    "Stamp": rf"{A_NUMBER}\.{A_NUMBER}",
    "Gap": A_NUMBER,
    "Damaged": A_NUMBER,
    "Pending": "/[^ ]+",
}


class Told:
    """What a line was answered, and what it might have been answered by all that was asked of it."""

    def __init__(self, text: str) -> None:
        self.text, self.wanted = text, dict[str, None]()

    def is_like(self, pattern: str) -> bool:
        self.wanted[pattern] = None
        return re.fullmatch(pattern, self.text) is not None

    def is_text(self, text: str) -> bool:
        self.wanted[text] = None
        return text == self.text

    def is_ok(self, said: str = "") -> bool:
        return self.is_text(f"ok {said}" if said else "ok")

    def is_bytes(self, pieces: Iterable[Iterable[bytes]]) -> bool:
        """Bytes, of each piece one of several, or nothing where they are none."""
        pattern = "".join(f"({'|'.join(dict.fromkeys(piece.hex() for piece in several))})" for several in pieces)
        self.wanted[f"ok {pattern}"] = None
        given = "" if self.text == "ok" else self.text.removeprefix("ok ") or None
        return given is not None and re.fullmatch(pattern, given) is not None

    def is_refused(self, name: str) -> bool:
        text = f"refused {NUMBERS[name]} {name}"
        return self.is_like(f"{text} {DETAILS[name]}") if name in DETAILS else self.is_text(text)


# ---- what the store may refuse by

# Lines by which something goes wrong, and which of them has to have been accepted before. No line is refused by a name that isn't here,
# as long as memory, room and counters are enough.
HELD, LOST, DAMAGED = TROUBLES = ("hold", "lose", "damage")
CAUSES = {
    "Locked": {HELD},
    "NotQuiet": set(TROUBLES),
    "Unrestored": set(TROUBLES),
    "Epoch": {HELD},
    "NotPrimary": {HELD},
    "NoData": {HELD},
    "Damaged": {DAMAGED},
    "NoReplica": set(TROUBLES),
    "Unsure": set(TROUBLES),
    "Pending": {HELD},
}
# What each call may be refused by besides. `find` looks a chunk up for writing.
OF_CALLS = {
    "mkdir": ("Locked", "Unsure"),
    "create": ("Locked", "Unsure"),
    "mv": ("Locked", "Unsure"),
    "rm": ("Locked", "Unsure"),
    "undelete": ("Locked", "Unsure"),
    "snapshot": ("Locked", "NoReplica", "Unsure"),
    "ls": ("Locked", "NoReplica", "Unsure"),
    "extend": ("Locked", "NoReplica", "Unsure"),
    "find": ("Locked", "NoReplica"),
    "scan": ("Unsure",),
    "replicate": ("Locked", "NoReplica", "Unsure"),
    "query": ("NoReplica", "Unsure"),
    "prepare-begin": ("Pending", "Unsure"),
    "prepare-commit": ("NotQuiet", "Unsure"),
    "finalize": ("Unsure",),
    "rollback-begin": ("Unsure",),
    "rollback-commit": ("Unrestored", "Unsure"),
}
# What stands in the place of any refusal: nobody answered.
UNANSWERED = ("NoReplica", "Unsure")
# By what the members of a chunk refuse, where it is read, and where it is edited.
OF_READS = ("Epoch", "Damaged", "NoReplica")
OF_SIZES = ("Epoch", "NoReplica")
OF_EDITS = ("NotPrimary", "NoData", "Damaged", "NoReplica")


@dataclass(frozen=True)
class Sizes:
    """The options of the program."""

    servers: int = 3
    racks: int = 2
    replicas: int = 3
    chunk: int = 16
    block: int = 4
    in_threads: bool = False

    def words(self) -> list[str]:
        named = (("servers", self.servers), ("racks", self.racks), ("replicas", self.replicas), ("chunk", self.chunk), ("block", self.block))
        return [word for name, value in named for word in (f"--{name}", str(value))] + ["--threads"] * self.in_threads


class Judge:
    """Takes lines with their answers, and keeps every state that may be behind them."""

    def __init__(self, sizes: Sizes) -> None:
        self.sizes, self.states, self.troubles = sizes, [State()], set[str]()
        self.told = Told("")

    def explains(self, line: str, answer: str) -> bool:
        self.told = Told(answer)
        try:
            question = question_of(line)
            need(not (self.sizes.in_threads and question.word in OF_NODES), "BadLine")
        except Refused as refused:
            return self.told.is_refused(refused.name)
        # Nothing is delivered by a number that no message has.
        is_delivered = question.word == "deliver" and answer != "refused 25 Range"
        before = paid(self.states, is_delivered, self.sizes.chunk)
        self.states = few(behind for state in before for behind in self.behind(question, state))
        if question.word in TROUBLES and question.arguments != (True,) and answer == "ok":
            self.troubles.add(question.word)
        return bool(self.states)

    def behind(self, question: Question, state: State) -> Iterator[State]:
        """The states to which the answer leads from one."""
        arguments = question.arguments
        match question.word:
            case "mkdir" | "create" | "mv" | "rm" | "undelete" | "snapshot" | "ls":
                return self.asks(state, Call(question.word, arguments))
            case "stat" | "read" | "digest":
                return self.looks(state, question)
            case "write":
                return self.at_file(state, arguments[0], lambda texts: self.at_write(state, texts, *arguments))
            case "append":
                return self.at_file(state, arguments[0], lambda texts: self.at_append(state, texts, *arguments))
            case "scan":
                return self.asks(state, Call("scan"))
            case "rollingUpgrade prepare":
                return self.asks_both(state, "prepare-begin", "prepare-commit")
            case "rollingUpgrade rollback":
                return self.asks_both(state, "rollback-begin", "rollback-commit")
            case "rollingUpgrade query" | "rollingUpgrade finalize":
                return self.asks(state, Call(question.word.split(" ")[1]))
            case "prepare-begin" | "prepare-commit" | "rollback-begin" | "rollback-commit":
                return self.asks(state, Call(question.word))
        return self.at_nodes(state, question)

    # ---- one call

    def is_put_off(self, names: Iterable[str]) -> bool:
        """The answer is a refusal by the store, of one of these names, and what has gone wrong before may bring it."""
        return any([self.told.is_refused(name) for name in names if CAUSES[name] & self.troubles])

    def asks(self, state: State, call: Call) -> Iterator[State]:
        """A call is done as the machine does it, or refused by the store, or nobody is sure of it."""
        try:
            for said, behind in overtaking(state, call, (), self.sizes.chunk):
                if self.told.is_like(f"ok {said} {A_NUMBER}") if call.name == "scan" else self.told.is_ok(said):
                    yield behind
        except Refused as refused:
            if self.told.is_refused(refused.name):
                yield state
        yield from self.puts_off(state, call)

    def puts_off(self, state: State, call: Call) -> Iterator[State]:
        names = OF_CALLS[call.name]
        if refusal_of_phase(state, call.name) or state.phase in (PREPARING, ROLLING):
            # The phase comes before locks, and no call waits in it.
            names = tuple(name for name in names if name != "Locked")
        if refusal_of_phase(state, call.name):
            names = tuple(name for name in names if name in UNANSWERED)
        if self.is_put_off(name for name in names if name != "Unsure"):
            yield state
        if self.is_put_off(name for name in names if name == "Unsure"):
            yield from unsure(state, call, self.sizes.chunk)

    def asks_both(self, state: State, begin: str, commit: str) -> Iterator[State]:
        """Two calls, of which the second is asked if the first is accepted. A prepare that finds a chunk that isn't quiet is given up."""
        try:
            begun: list[Outcome] = called(state, Call(begin), self.sizes.chunk)
        except Refused as refused:
            begun = []
            if self.told.is_refused(refused.name):
                yield state
        yield from self.puts_off(state, Call(begin))
        for _, between in begun:
            is_given_up = commit == "prepare-commit" and self.is_put_off(["NotQuiet"])
            for behind in self.asks(between, Call(commit)):
                yield replace(behind, phase=ORDINARY) if is_given_up else behind

    # ---- files

    def is_missing(self, state: State) -> bool:
        """The look-up of a path is refused: by the phase, by a lock, or since nobody answers."""
        if state.phase == ROLLING:
            return self.told.is_refused("RollingBack") or self.is_put_off(["NoReplica"])
        return self.is_put_off(["NoReplica"] if state.phase == PREPARING else ["Locked", "NoReplica"])

    def at_file(self, state: State, path: Path, does: Callable[[tuple[Text, ...]], Iterator[State]]) -> Iterator[State]:
        """Something is done with the texts of a file, if it stands there."""
        if self.is_missing(state):
            yield state
        if state.phase == ROLLING:
            return
        try:
            texts = state.tree.file(path)
        except Refused as refused:
            if self.told.is_refused(refused.name):
                yield state
        else:
            yield from does(texts)

    def looks(self, state: State, question: Question) -> Iterator[State]:
        """A file is looked at. Where nobody is sure of that, nothing was done."""
        path, *numbers = question.arguments
        if self.is_put_off(["Unsure"]):
            yield state
        match question.word:
            case "stat":
                yield from self.at_stat(state, path)
            case "read":
                yield from self.at_file(state, path, lambda texts: self.at_read(state, texts, *numbers))
            case _:
                yield from self.at_file(state, path, lambda texts: self.at_digest(state, texts, *numbers))

    def lengths(self, texts: tuple[Text, ...]) -> list[int]:
        """How many bytes a file may be seen to have: each chunk but the last is full."""
        full = (len(texts) - 1) * self.sizes.chunk
        return sorted({full + len(content) for content in contents(texts[-1], self.sizes.chunk)}) if texts else [0]

    def at_stat(self, state: State, path: Path) -> Iterator[State]:
        if state.phase != ROLLING and state.tree.is_directory(path):
            if self.is_missing(state) or self.told.is_ok("dir"):
                yield state
            return

        def tells(texts: tuple[Text, ...]) -> Iterator[State]:
            told = [self.told.is_like(f"ok file {length}" + f" {A_CHUNK}" * len(texts)) for length in self.lengths(texts)]
            if any(told) or (texts and self.is_put_off(OF_SIZES)):
                yield state

        yield from self.at_file(state, path, tells)

    def pieces(self, texts: tuple[Text, ...], offset: int, end: int) -> Iterator[list[bytes]]:
        """The bytes that may be read of each chunk. Behind what is stored of one that isn't the last stand zeros."""
        size = self.sizes.chunk
        while offset < end:
            index, inner = divmod(offset, size)
            many = min(size - inner, end - offset)
            seen = contents(texts[index], size)
            filled = [content.ljust(size, b"\0") for content in seen] if index < len(texts) - 1 else seen
            yield [content[inner : inner + many] for content in filled]
            offset += many

    def at_read(self, state: State, texts: tuple[Text, ...], offset: int, many: int) -> Iterator[State]:
        """Where the file ends is looked up first, and it may be seen otherwise then. Where less is seen later, fewer bytes come."""
        if texts and self.is_put_off(OF_READS):
            yield state
        for length in self.lengths(texts):
            if offset > length:
                is_met = self.told.is_refused("Range")
            else:
                is_met = self.told.is_bytes(self.pieces(texts, offset, min(offset + many, length)))
            if is_met:
                yield state

    def at_digest(self, state: State, texts: tuple[Text, ...], index: int, block: int) -> Iterator[State]:
        if index >= len(texts):
            if self.told.is_refused("Range"):
                yield state
            return
        if self.is_put_off(OF_READS):
            yield state
        for content in contents(texts[index], self.sizes.chunk):
            part = content[block * self.sizes.block :][: self.sizes.block]
            if self.told.is_ok(hashlib.sha256(part).hexdigest()) if part else self.told.is_refused("Range"):
                yield state

    # ---- what is written

    def adds(self, state: State, path: Path, index: int) -> tuple[list[State], list[State]]:
        """A file gets its next chunk: the states behind it, and those in which the line ends at it."""
        call = Call("extend", (path, index))
        by_phase = refusal_of_phase(state, "extend")
        ends = list(self.puts_off(state, call))
        if by_phase:
            return [], [*ends, state] if self.told.is_refused(by_phase) else ends
        return overtaken(state, call, (), self.sizes.chunk), ends

    def edits(self, state: State, path: Path, index: int, edit: Edit) -> tuple[list[tuple[Text, State]], list[State]]:
        """A text is edited behind some of what was owed to it: what it was then, and the state behind it; and the states in which the line ends."""
        by_phase = refusal_of_phase(state, "find")
        ends = list(self.puts_off(state, Call("find")))
        if by_phase:
            return [], [*ends, state] if self.told.is_refused(by_phase) else ends
        size, text = self.sizes.chunk, state.tree.file(path)[index]
        if self.is_put_off(OF_EDITS):
            ends.append(state)
        if self.is_put_off(["Unsure"]):
            # A record that is too long is owed nowhere.
            owed = text.owed if self.is_too_long(edit) else (*text.owed, edit)
            ends.append(replace(state, tree=with_text(state.tree, path, index, Text(text.content, owed))))
        if self.is_too_long(edit):
            return [], [*ends, state] if self.told.is_refused("TooLong") else ends
        done = [(before, before.with_edit(edit, (), size)) for before in settlings(text, size)]
        if edit.offset is None:
            # Where the text of whoever leads the chunk is full a record passes, and no other member is asked. So what fills it up may be owed still.
            done += [(before, left) for left in settlings(text, size) for before in settlings(left, size) if len(before.content) == size]
        return [(before, replace(state, tree=with_text(state.tree, path, index, behind))) for before, behind in done], ends

    def is_too_long(self, edit: Edit) -> bool:
        """A record has at most a quarter of a chunk."""
        return edit.offset is None and len(edit.content) > self.sizes.chunk // 4

    def at_write(self, state: State, texts: tuple[Text, ...], path: Path, offset: int, content: bytes) -> Iterator[State]:
        """Chunks that are missing are added, then one text after the other is edited, up to a part that is refused."""
        size, end = self.sizes.chunk, offset + len(content)
        if end > MOST_CHUNKS * size:
            if self.told.is_refused("Range"):
                yield state
            return
        states = [state]
        for index in range(len(texts), (end - 1) // size + 1):
            stepped = [self.adds(each, path, index) for each in states]
            yield from (each for _, ends in stepped for each in ends)
            states = few(each for behind, _ in stepped for each in behind)
        while content:
            index, inner = divmod(offset, size)
            part, content = content[: size - inner], content[size - inner :]
            edited = [self.edits(each, path, index, Edit(part, inner)) for each in states]
            yield from (each for _, ends in edited for each in ends)
            states = few(each for behind, _ in edited for _, each in behind)
            offset += len(part)
        if self.told.is_ok():
            yield from states

    def at_append(self, state: State, texts: tuple[Text, ...], path: Path, content: bytes) -> Iterator[State]:
        """A record goes to the last chunk, or, where that is filled up, to a new one. It is answered where in the file it stands."""
        size, edit, states = self.sizes.chunk, Edit(content), [state]
        for index in range(max(len(texts) - 1, 0), MOST_CHUNKS):
            if index >= len(texts):
                added = [self.adds(each, path, index) for each in states]
                yield from (each for _, ends in added for each in ends)
                states = few(each for behind, _ in added for each in behind)
            edited = [self.edits(each, path, index, edit) for each in states]
            yield from (each for _, ends in edited for each in ends)
            landed = [pair for behind, _ in edited for pair in behind]
            at = index * size
            yield from (each for before, each in landed if edit.fits(before.content, size) and self.told.is_ok(str(at + len(before.content))))
            states = few(each for before, each in landed if not edit.fits(before.content, size))
            if not states:
                return
        if self.told.is_refused("Range"):
            yield from states

    # ---- all other lines

    def at_nodes(self, state: State, question: Question) -> Iterator[State]:
        """Lines about nodes and messages change nothing, but that a master which begins again has no prepare under way, and no call waits."""
        if not self.is_nodes_answer(state, question):
            return
        match question:
            case Question("at", (moment,)):
                yield replace(state, moment=moment)
            case Question("restart", (None,)):
                yield replace(state, phase=ORDINARY if state.phase == PREPARING else state.phase, waiting=())
            case _:
                yield state

    def is_nodes_answer(self, state: State, question: Question) -> bool:
        told, arguments = self.told, question.arguments
        if question.word in ("beat", "restart", "lose", "damage") and arguments[0] is not None and arguments[0] >= self.sizes.servers:
            return told.is_refused("Range")
        match question.word:
            case "beat":
                return told.is_like(f"ok {A_NUMBER}")
            case "lose":
                return told.is_ok() or told.is_refused("NoReplica")
            case "damage":
                return told.is_ok() or told.is_refused("NoReplica") or told.is_refused("Range")
            case "deliver":
                is_any = HELD in self.troubles and arguments[0] > 0
                return told.is_refused("Range") or (is_any and (told.is_ok() or any(map(told.is_refused, NAMES))))
            case "replicate":
                return self.is_replicate_answer(state)
        return told.is_ok()

    def is_replicate_answer(self, state: State) -> bool:
        by_phase = refusal_of_phase(state, "replicate")
        if by_phase:
            return self.told.is_refused(by_phase) or self.is_put_off(["Unsure"])
        return self.told.is_ok("none") or self.told.is_like(f"ok {A_NUMBER} {A_NUMBER}") or self.is_put_off(OF_CALLS["replicate"])
