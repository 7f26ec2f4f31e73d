"""Paths, refusals, and a tree of directories and files by itself: what a line asks of the names, as docs/LINES.md says it.

A tree never changes. Each change answers another tree, or raises the refusal that is looked for first. What a file holds is a tuple, of
which nothing is known here."""

from collections.abc import Callable, Iterable
from dataclasses import dataclass, field

# A path is its elements, and the root has none.
Path = tuple[str, ...]

GREATEST = 2**64 - 1
MOST_ELEMENTS = 64
MOST_BYTES = 200
HIDDEN = ".deleted."
DIGITS = 20
# What was deleted goes at a scan so many seconds later.
SECONDS_HIDDEN = 259_200

NAMES = (
    "BadPath HiddenName NotFound Exists NotADirectory IsADirectory NotEmpty IntoItself IsRoot Locked Preparing RollingBack NotUpgrading "
    "AlreadyUpgrading NotQuiet Unrestored NoServer Epoch Old NotPrimary LeaseOver Stamp Gap NoData Range TooLong Damaged NoReplica Unsure "
    "Full Exhausted Device Memory BadLine Config Pending Stray NotHidden"
).split()
NUMBERS = {name: number for number, name in enumerate(NAMES, 1)}


class Refused(Exception):
    """What is asked for is refused, by a name of docs/REFUSALS.md."""

    def __init__(self, name: str) -> None:
        super().__init__(name)
        self.name = name


def need(is_met: bool, name: str) -> None:
    """Refuses what doesn't meet a rule."""
    if not is_met:
        raise Refused(name)


# ---- paths


def is_element(name: str) -> bool:
    return name not in ("", ".", "..") and len(name.encode()) <= MOST_BYTES and all(sign not in "/:" and ord(sign) >= 32 for sign in name)


def is_hidden(name: str) -> bool:
    return name.startswith(HIDDEN)


def is_long_number(text: str) -> bool:
    """Twenty digits of a number of 64 bits."""
    return len(text) == DIGITS and text.isascii() and text.isdigit() and int(text) <= GREATEST


def hidden_name(moment: int, number: int, name: str) -> str:
    return f"{HIDDEN}{moment:0{DIGITS}}.{number:0{DIGITS}}.{name}"


def hidden_parts(name: str) -> tuple[int, str] | None:
    """The moment of a deletion and the old name, of a hidden name."""
    moment, _, rest = name.removeprefix(HIDDEN).partition(".")
    number, _, old = rest.partition(".")
    is_one = is_hidden(name) and is_long_number(moment) and is_long_number(number) and is_element(old)
    return (int(moment), old) if is_one else None


def elements_of(text: str) -> Path:
    if text == "/":
        return ()
    path = tuple(text[1:].split("/"))
    need(text.startswith("/") and len(path) <= MOST_ELEMENTS, "BadPath")
    return path


def path_of(text: str) -> Path:
    """A path of which no element is hidden."""
    path = elements_of(text)
    need(all(map(is_element, path)), "BadPath")
    need(not any(map(is_hidden, path)), "HiddenName")
    return path


def looked_at(text: str) -> Path:
    """A path that may have hidden names, as those take that look."""
    path = elements_of(text)
    need(all(hidden_parts(name) is not None if is_hidden(name) else is_element(name) for name in path), "BadPath")
    return path


def text_of(path: Path) -> str:
    return "/" + "/".join(path)


def begins(front: Path, path: Path) -> bool:
    """The path is that one, or lies under it."""
    return path[: len(front)] == front


# ---- trees


@dataclass(frozen=True, eq=False)
class Tree:
    """What stands at each path: nothing more of a directory, and of a file what it holds."""

    entries: dict[Path, tuple | None] = field(default_factory=lambda: {(): None})

    def __post_init__(self) -> None:
        object.__setattr__(self, "sum", hash(frozenset(self.entries.items())))

    def __eq__(self, other: object) -> bool:
        return isinstance(other, Tree) and self.sum == other.sum and self.entries == other.entries

    def __hash__(self) -> int:
        return self.sum

    # ---- what is looked at

    def is_directory(self, path: Path) -> bool:
        return path in self.entries and self.entries[path] is None

    def is_file(self, path: Path) -> bool:
        return self.entries.get(path) is not None

    def under(self, path: Path) -> list[Path]:
        """The path and all that lies under it."""
        return [other for other in self.entries if begins(path, other)]

    def children(self, path: Path) -> list[str]:
        return [other[-1] for other in self.entries if other and other[:-1] == path]

    def file(self, path: Path) -> tuple:
        need(path in self.entries, "NotFound")
        need(self.is_file(path), "IsADirectory")
        return self.entries[path]

    def listed(self, path: Path) -> list[str]:
        """The names that `ls` answers."""
        need(path in self.entries, "NotFound")
        if self.is_file(path):
            return [path[-1]]
        names = sorted((name for name in self.children(path) if not is_hidden(name)), key=str.encode)
        return [f"{name}/" if self.is_directory((*path, name)) else name for name in names]

    # ---- what is changed

    def with_entries(self, entries: Iterable[tuple[Path, tuple | None]]) -> "Tree":
        return Tree({**self.entries, **dict(entries)})

    def without(self, gone: Iterable[Path]) -> "Tree":
        left = set(gone)
        return Tree({path: held for path, held in self.entries.items() if path not in left})

    def mapped(self, change: Callable[[Path, tuple], tuple]) -> "Tree":
        """Each file with what becomes of that which it holds."""
        return Tree({path: held if held is None else change(path, held) for path, held in self.entries.items()})

    def moved(self, source: Path, target: Path) -> "Tree":
        moving = self.under(source)
        return self.without(moving).with_entries((target + path[len(source) :], self.entries[path]) for path in moving)

    def with_missing(self, path: Path) -> "Tree":
        """With the directories of a path that are missing."""
        above = [path[:length] for length in range(len(path) + 1)]
        need(not any(map(self.is_file, above[:-1])), "NotADirectory")
        return self.with_entries((other, None) for other in above if other not in self.entries)

    def with_directory(self, path: Path) -> "Tree":
        need(not self.is_file(path), "Exists")
        return self.with_missing(path)

    def with_file(self, path: Path) -> "Tree":
        need(path not in self.entries, "Exists")
        return self.with_missing(path).with_entries([(path, ())])

    def need_place(self, source: Path, target: Path) -> None:
        """A target can be had by a source: it isn't the source nor under it, nothing stands there, and a directory stands above it."""
        need(target != source, "Exists")
        need(not begins(source, target), "IntoItself")
        need(target not in self.entries, "Exists")
        need(target[:-1] in self.entries, "NotFound")
        need(self.is_directory(target[:-1]), "NotADirectory")

    def renamed(self, source: Path, to: Path) -> "Tree":
        need(source != (), "IsRoot")
        need(source in self.entries, "NotFound")
        target = (*to, source[-1]) if self.is_directory(to) else to
        self.need_place(source, target)
        need(all(len(target) + len(path) - len(source) <= MOST_ELEMENTS for path in self.under(source)), "BadPath")
        return self.moved(source, target)

    def copied(self, source: Path) -> list[Path]:
        """What a snapshot copies: what stands at a path and under it, without what is hidden there."""
        return [path for path in self.under(source) if not any(map(is_hidden, path[len(source) :]))]

    def need_snapshot(self, source: Path, target: Path) -> None:
        need(source != (), "IsRoot")
        need(source in self.entries, "NotFound")
        self.need_place(source, target)
        need(all(len(target) + len(path) - len(source) <= MOST_ELEMENTS for path in self.copied(source)), "BadPath")

    def with_snapshot(self, source: Path, target: Path) -> "Tree":
        self.need_snapshot(source, target)
        return self.with_entries((target + path[len(source) :], self.entries[path]) for path in self.copied(source))

    def deleted(self, path: Path, is_recursive: bool, moment: int, number: int) -> tuple[Path | None, "Tree"]:
        """The hidden path and the tree behind a deletion, or no path where nothing stands there."""
        need(path != (), "IsRoot")
        if path not in self.entries:
            return None, self
        need(is_recursive or all(map(is_hidden, self.children(path))), "NotEmpty")
        hidden = (*path[:-1], hidden_name(moment, number, path[-1]))
        return hidden, self.moved(path, hidden)

    def undeleted(self, path: Path) -> tuple[Path, "Tree"]:
        parts = hidden_parts(path[-1]) if path else None
        if parts is None:
            raise Refused("NotHidden")
        need(path in self.entries, "NotFound")
        back = (*path[:-1], parts[1])
        need(back not in self.entries, "Exists")
        return back, self.moved(path, back)

    def over(self, moment: int) -> list[Path]:
        """The hidden paths that a scan removes at a moment, none of them under another."""
        parts = ((path, hidden_parts(path[-1])) for path in self.entries if path)
        found = {path for path, deletion in parts if deletion and min(deletion[0] + SECONDS_HIDDEN, GREATEST) < moment}
        return [path for path in found if not any(path[:length] in found for length in range(1, len(path)))]

    def scanned(self, moment: int) -> tuple[int, "Tree"]:
        """How many go at a scan, and the tree behind it."""
        gone = self.over(moment)
        return len(gone), self.without(path for top in gone for path in self.under(top))
