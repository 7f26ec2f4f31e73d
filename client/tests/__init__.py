"""Tests of the client, each on a store of its own that the unproved program keeps."""

import io
import os
import subprocess
import sys
import tempfile
import unittest
from contextlib import redirect_stderr, redirect_stdout
from pathlib import Path
from unittest.mock import patch

import launch

from client import ROOT
from client.main import main
from client.session import Session

# So small that a file of some bytes has several chunks.
TINY = {"chunk": 16, "block": 4}


class StoreCase(unittest.TestCase):
    """A folder, and a store in a file there."""

    sizes: dict[str, int] = {}
    # Whether the commands are those of a lab, whose lines may harm the store.
    is_lab = False

    def setUp(self) -> None:
        room = tempfile.TemporaryDirectory(prefix="chunkfs-")
        self.addCleanup(room.cleanup)
        self.folder = Path(room.name)
        self.store = self.folder / "store"
        self.addCleanup(os.chdir, os.getcwd())
        os.chdir(self.folder)

    def words(self, *words: object) -> list[str]:
        """The words of a command over the store, with its sizes where it is a new one."""
        given = [word for name, size in self.sizes.items() for word in (f"--{name}", size)] if not self.store.exists() else []
        return list(map(str, [*given, *(["--lab"] if self.is_lab else []), self.store, *words]))

    def command(self, *words: object) -> list[str]:
        """A command as a process of its own."""
        return [sys.executable, str(ROOT / "chunkfs"), *self.words(*words)]

    def fs(self, *words: object, status: int = 0, said: bytes = b"") -> str:
        """What a command prints, on standard output and after it on standard error. Its status has to be the one that is meant."""
        streams = [io.TextIOWrapper(io.BytesIO(content)) for content in (said, b"", b"")]
        with patch("sys.stdin", streams[0]), redirect_stdout(streams[1]), redirect_stderr(streams[2]):
            try:
                ended = main(self.words(*words))
            except SystemExit as left:
                ended = left.code
        for stream in streams[1:]:
            stream.flush()
        told = b"".join(stream.buffer.getvalue() for stream in streams[1:]).decode("utf-8", "surrogateescape")
        self.assertEqual(ended, status, f"{words}: {told}")
        return told

    def lines(self, *lines: str) -> None:
        """Has the store answer lines of its own, each of which has to be accepted, also those that harm it."""
        with self.session() as session:
            session.try_all(lines)

    def session(self) -> Session:
        return Session(self.store, {} if self.store.exists() else self.sizes, ["--lab"])

    def take_image(self) -> None:
        """Has the store begin anew from an image."""
        subprocess.run([launch.program_of("chunkkeep").path, self.store, "--image"], check=True, capture_output=True)

    def local(self, name: str, content: bytes) -> Path:
        """A file of this machine."""
        file = self.folder / name
        file.parent.mkdir(parents=True, exist_ok=True)
        file.write_bytes(content)
        return file


def tree_of(folder: Path) -> dict[str, bytes | None]:
    """All that stands in a directory of this machine: a file's bytes, and nothing of a directory."""
    return {os.path.relpath(path, folder): path.read_bytes() if path.is_file() else None for path in folder.rglob("*")}
