import io
import shlex
import subprocess
import sys
from contextlib import redirect_stderr
from pathlib import Path
from unittest.mock import patch

import explain
import launch

from client import ROOT
from client.commands import COMMANDS, STEPS
from client.main import SHELL, open_missing, words_of
from client.tests import TINY, StoreCase


class Words(StoreCase):
    sizes = TINY

    def test_each_command_has_help_with_an_example_that_is_one(self) -> None:
        for name in ("notes.txt", "photos", "more.txt", "backup.txt", "commands.txt"):
            self.local(name, b"")
        for command in (*COMMANDS, *STEPS, SHELL):
            words = shlex.split(command.example)
            asked = words_of().parse_args(["store", *words])
            self.assertIn(command.run, (asked.run, None))
            self.assertEqual(asked.makes, command.makes)
            step = words[: 2 if command in STEPS else 1]
            self.assertIn(f"./chunkfs STORE {command.example}", self.fs(*step, "--help"))

    def test_statuses(self) -> None:
        self.assertIn("no store stands there", self.fs("ls", status=1))
        self.assertFalse(self.store.exists())
        self.fs("mkdir", "/a")
        for words in ([], ["ls", "--frob"], ["upgrade"], ["put"], ["tail", "-c", "x", "/a"]):
            self.assertIn("usage: ", self.fs(*words, status=2))
        self.fs("ls", "/a")

    def test_what_a_command_doesnt_take(self) -> None:
        self.fs("mkdir", "/a")
        for words in (("ls", "--lon"), ("upgrade", "rollback", "--any"), ("fsck", "--rep"), ("upgrade", "status", "more")):
            self.assertIn("unrecognized arguments: ", self.fs(*words, status=2))
        for wrong in ("1.5", "x", ""):
            self.assertIn(f"invalid int value: '{wrong}'", self.fs("tail", "-c", wrong, "/a", status=2))
        self.assertIn("unrecognized arguments: --frob", self.fs("shell", said=b"ls --frob\n", status=2))

    def test_what_is_no_command_is_told_with_those_that_are(self) -> None:
        self.assertIn("invalid choice: 'upgade' (choose from 'put', 'get',", self.fs("upgade", status=2))
        self.assertIn("invalid choice: 'stauts' (choose from 'prepare', 'status',", self.fs("upgrade", "stauts", status=2))
        self.assertIn("invalid choice: 'hlep'", self.fs("shell", said=b"hlep\n", status=2))

    def test_sizes_of_a_store_that_stands(self) -> None:
        self.sizes = {"servers": 5, "replicas": 5, "chunk": 16, "block": 4}
        self.fs("mkdir", "/a")
        words = [sys.executable, ROOT / "chunkfs", "--replicas", "5", self.store, "ls"]
        self.assertEqual(subprocess.run(words, capture_output=True, check=True).stdout, b"a/\n")
        self.store = self.folder / "new"
        self.sizes = {"replicas": 5}
        self.assertIn("1 to as many as servers, which are 3", self.fs("mkdir", "/a", status=2))

    def test_a_store_that_cant_be_one(self) -> None:
        self.store = self.folder
        self.assertEqual(self.fs("ls", status=1), f"chunkfs: {self.folder}: is a directory\n")
        self.store = self.local("f", b"") / "store"
        self.assertIn("chunkfs: ", self.fs("mkdir", "/a", status=1))
        self.store = self.folder / "nothing" / "store"
        self.assertIn("chunkfs: the store's program has ended, with status", self.fs("mkdir", "/a", status=1))

    def test_no_store_is_made_for_what_isnt_there(self) -> None:
        for words in (("put", "nothing", "/"), ("append", "/f", "nothing"), ("import", "nothing"), ("shell", "-f", "nothing")):
            self.assertEqual(self.fs(*words, status=1), "chunkfs: nothing: no such file or directory\n")
        self.assertFalse(self.store.exists())

    def test_sizes_are_those_of_a_new_store(self) -> None:
        self.fs("mkdir", "/a")
        head = "chunkkeep 2 --servers 3 --racks 1 --replicas 3 --chunk 16 --block 4 name [0-9a-f]{32}"
        self.assertRegex(self.store.read_text().splitlines()[0], f"^{head}$")

    def test_sizes_that_make_no_store(self) -> None:
        for name, size, told in (
            ("servers", 0, "--servers 0: there are 1 to 16\n--replicas 3: there are 1 to as many as servers, which are 0"),
            ("servers", -1, "--servers -1: there are 1 to 16\n"),
            ("replicas", 4, "--replicas 4: there are 1 to as many as servers, which are 3"),
            ("chunk", 65_537, "--chunk 65537: that is no whole number of blocks of 65536 bytes"),
        ):
            self.sizes = {name: size}
            self.assertTrue(self.fs("mkdir", "/a", status=2).startswith(f"chunkfs: {told}"))
            self.assertFalse(self.store.exists())
        self.sizes = TINY

    def test_sizes_that_chunkkeep_makes_no_store_of(self) -> None:
        told = io.StringIO()
        with patch("os.execv") as run, patch("signal.signal"), redirect_stderr(told):
            launch.main("chunkkeep", ["--servers", "0", str(self.store)])
        run.assert_called_once()
        self.assertTrue(told.getvalue().startswith("chunkkeep: --servers 0: there are 1 to 16\n"))

    def test_what_the_programs_take_is_what_their_help_tells(self) -> None:
        self.assertIn("--explain", explain.usage("chunkstore"))
        for name in ("chunktrace", "chunkkeep"):
            self.assertNotIn("--explain", explain.usage(name))

    def test_standard_files_that_are_closed(self) -> None:
        for name in ("stdin", "stdout", "stderr"):
            with patch(f"sys.{name}", None), patch("os.dup2") as put, patch("client.main.open", create=True) as opened:
                open_missing()
                self.assertEqual(put.call_args.args[1], opened.call_args.args[0])
                self.assertIs(getattr(sys, name), opened.return_value)

    def test_a_store_in_memory(self) -> None:
        script = self.local("commands", b"append /f commands\ncat /f\nrm /f\ntrash\n")
        self.store = Path("--memory")
        self.assertRegex(self.fs("shell", "-f", script), r"append /f commands\n(.|\n)* /f lines:/\.deleted\.")
        self.assertEqual(self.fs("mkdir", "/a"), "chunkfs: --memory: the store ends with this command, and nothing is kept\n")
        self.assertEqual(list(self.folder.iterdir()), [script])
