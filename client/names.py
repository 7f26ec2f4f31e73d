"""How names stand in lines, and how they are shown.

A byte that a name in a line can't have stands there as `%` and two hexadecimal digits in capital letters, and so does `%` itself. Those are a
space, a colon, each byte below 32, each byte that isn't of a character in UTF-8, and the first point of a name that begins with `.deleted.`."""

import posixpath
import re

UNFIT = re.compile("[\x00-\x20:%\udc80-\udcff]|^\\.(?=deleted\\.)")
ESCAPE = re.compile(rb"%([0-9A-F]{2})")
HIDDEN = re.compile(r"^\.deleted\.(?P<moment>\d{20})\.(?P<number>\d{20})\.(?P<name>.+)$")
# A path after this word is taken as it stands in lines, as a hidden one has to be.
AS_IT_STANDS = "lines:"
# The path of a name in a directory, and the two parts of a path.
child, parent, last = posixpath.join, posixpath.dirname, posixpath.basename


def bytes_of(name: str) -> bytes:
    return name.encode("utf-8", "surrogateescape")


def escaped(name: str) -> str:
    """A name as it stands in lines."""
    return UNFIT.sub(lambda found: f"%{bytes_of(found[0])[0]:02X}", name)


def shown(path: str) -> str:
    """A path of lines as people see it. An element to which no name of a file is escaped is shown as it stands."""
    return "/".join(shown_element(element) for element in path.split("/"))


def named(path: str) -> str:
    """A path of lines as people name it."""
    return AS_IT_STANDS + path if any(map(HIDDEN.fullmatch, path.split("/"))) else shown(path)


def shown_element(element: str) -> str:
    name = ESCAPE.sub(lambda found: bytes.fromhex(found[1].decode()), bytes_of(element)).decode("utf-8", "surrogateescape")
    return name if escaped(name) == element and "\0" not in name else element


def line_path(text: str, folder: str = "/") -> str:
    """The path in lines of what somebody has typed, which may be relative to a folder of the store."""
    if text.startswith(AS_IT_STANDS):
        return re.sub(r"\s", lambda found: escaped(found[0]), text.removeprefix(AS_IT_STANDS))
    below = "/".join(map(escaped, text.split("/")))
    return posixpath.normpath("/" + posixpath.join(folder, below).lstrip("/"))


def hidden_parts(path: str) -> tuple[int, int, str] | None:
    """The moment, the number and the old name of a path whose last element is hidden."""
    hidden = HIDDEN.fullmatch(last(path))
    return (int(hidden["moment"]), int(hidden["number"]), hidden["name"]) if hidden else None


def old_path(path: str) -> str:
    """A path with the names that its elements had before they were hidden."""
    return "/".join(HIDDEN.sub(r"\g<name>", element) for element in path.split("/"))
