import itertools
import os
import pty
import select
import signal
import time
from unittest.mock import patch

from client.shell import split
from client.tests import TINY, StoreCase

SECONDS = 300
# Python's prompt misses an interrupt that comes right before it waits. A person types it again.
SECONDS_BETWEEN = 15


class Terminal:
    """A shell in a pseudo-terminal."""

    def __init__(self, words: list[str], state: str):
        self.child, self.end = pty.fork()
        if not self.child:
            # (whoever runs the tests in the background has interrupts ignored, and a child would go on so)
            signal.signal(signal.SIGINT, signal.SIG_DFL)
            os.execve(words[0], words, {**os.environ, "XDG_STATE_HOME": state, "TERM": "dumb", "INPUTRC": os.devnull})
        self.told = ""

    def await_text(self, text: str, typed: str = "") -> str:
        """What stands there up to a text, once that comes. Where nothing comes for some time, something is typed again."""
        limit = time.monotonic() + SECONDS
        while text not in self.told:
            if time.monotonic() > limit:
                raise AssertionError(f"{text!r} doesn't come after {self.told!r}")
            if select.select([self.end], [], [], SECONDS_BETWEEN)[0]:
                self.told += os.read(self.end, 4_096).decode()
            else:
                self.type(typed)
        before, self.told = self.told.split(text, 1)
        return before

    def type(self, text: str) -> None:
        os.write(self.end, text.encode())

    def status(self, typed: str) -> int:
        """How it ends, which it has to within some time, after something is typed."""
        begun = asked = time.monotonic()
        self.type(typed)
        while time.monotonic() < begun + SECONDS:
            child, status = os.waitpid(self.child, os.WNOHANG)
            if child:
                return os.waitstatus_to_exitcode(status)
            if time.monotonic() > asked + SECONDS_BETWEEN:
                asked = time.monotonic()
                self.type(typed)
            time.sleep(0.05)
        os.kill(self.child, signal.SIGKILL)
        os.waitpid(self.child, 0)
        raise AssertionError(f"it doesn't end after {self.told!r}")


class Shells(StoreCase):
    sizes = TINY

    def test_a_terminal(self) -> None:
        self.lines("mkdir /photos/2024", "create /photos/two%20words")
        terminal = Terminal(self.command("shell"), str(self.folder))
        terminal.await_text("/> ")
        terminal.type("ls /pho\t\n")
        self.assertIn("two words", terminal.await_text("/> "))
        terminal.type("ls -l /photos/tw\t\n")
        self.assertIn("/photos/two words\r\n", terminal.await_text("/> "))
        terminal.type("ls -l /photos/two\\ w\t\n")
        self.assertIn("/photos/two words\r\n", terminal.await_text("/> "))
        terminal.type("undel\t/nothing\n")
        self.assertIn("nothing of that name", terminal.await_text("/> "))
        terminal.type("cd photos\n")
        terminal.await_text("/photos> ")
        terminal.type("lines\n")
        terminal.await_text("lines> ")
        terminal.type("ls /photos\n")
        self.assertIn("ok 2024/ two%20words", terminal.await_text("lines> "))
        terminal.type("\n")
        terminal.await_text("/photos> ")
        self.local("big", bytes(3_000))
        terminal.type("put big /photos\n")
        shown = terminal.await_text("/photos> ")
        self.assertRegex(shown, r"\[#{30}\] 2\.9 K of 2\.9 K, [0-9.]+ [BKMG]/s")
        terminal.type("help ls\n")
        self.assertIn("what stands in a directory", terminal.await_text("/photos> "))
        terminal.type("frob\n")
        self.assertIn("invalid choice: 'frob'", terminal.await_text("/photos> "))
        self.assertEqual(terminal.status("\x04"), 0)
        self.assertIn("cd photos\n", (self.folder / "chunkfs" / "history").read_text())

    def test_a_script_ends_where_something_is_wrong(self) -> None:
        script = self.local("commands", b"# a comment\nmkdir /a /b\n\ncd /a\nmkdir c # and another\nlines create /a/f\nls\nrm /b/nothing\nmkdir /d\n")
        told = self.fs("shell", "-f", script, status=1)
        self.assertEqual(told.splitlines()[:3], ["ok", "c/", "f"])
        self.assertIn("line 8: rm /b/nothing", told)
        self.assertEqual(self.fs("ls"), "a/\nb/\n")

    def test_standard_input(self) -> None:
        self.assertEqual(self.fs("shell", said=b"mkdir '/two words'\nls\nlines\nls /\n\ncd\nexit\nmkdir /never\n"), "two words/\nok two%20words/\n")
        self.assertIn("line 1: lines ls /nothing", self.fs("shell", said=b"lines ls /nothing\n", status=1))
        self.assertIn("line 1: frob", self.fs("shell", said=b"frob\n", status=2))
        self.assertEqual(self.fs("ls"), "two words/\n")

    def test_its_moment_goes_on(self) -> None:
        self.lines("create /f")
        with patch("client.session.time.time", side_effect=itertools.count(1_000_000, 300_000)):
            told = self.fs("shell", said=b"rm /f\ncd /\nexpunge\n")
        self.assertIn("removed for good: 1 of the trash", told)

    def test_a_folder_whose_name_is_escaped(self) -> None:
        typed = ["mkdir '/two words/a b'", "cd 'two words'", "ls", "cd 'a b'", "mkdir c:d", "ls", "tree", "cd", "ls", ""]
        told = self.fs("shell", said="\n".join(typed).encode())
        self.assertEqual(told, "a b/\nc:d/\n/two words/a b\n└── c:d/\ntwo words/\n")

    def test_words_of_a_line(self) -> None:
        for typed, words in (
            ("", []),
            ("# a comment", []),
            ("ls /a # and another", ["ls", "/a"]),
            ("rm /a#1 b#", ["rm", "/a#1", "b#"]),
            ("rm '#1' \\#2 \"a # b\"#c", ["rm", "#1", "#2", "a # b#c"]),
            ("ls two\\ words 'it''s'\t'' #", ["ls", "two words", "its", ""]),
        ):
            self.assertEqual(split(typed), words)
        self.fs("shell", said=b"mkdir /a /a#1\nrm -r /a#1\n")
        self.assertEqual(self.fs("ls"), "a/\n")

    def test_what_no_shell_reads(self) -> None:
        self.assertIn("No closing quotation", self.fs("shell", said=b"ls '/a\n", status=2))
        self.assertEqual(self.fs("shell", said=b"exit\nls /nothing\n"), "")

    def test_help(self) -> None:
        told = self.fs("shell", said=b"help\nhelp cd\nhelp upgrade status\nhelp lines\nlines --help\ncd --help\n")
        for words in ("brings files and directories", "lines [--help] [LINE]", "paths that don't begin with a slash", "upgrade status"):
            self.assertIn(words, told)
        self.assertNotIn("chunkfs STORE", told)

    def test_odd_bytes(self) -> None:
        script = self.local("script", b"mkdir /\xff\nls\n")
        self.assertEqual(self.fs("shell", "-f", script), "\udcff/\n")
        self.assertEqual(self.fs("shell", said=b"find / -name \xff\n"), "/\udcff\n")

    def test_an_interrupt_gives_the_line_up(self) -> None:
        terminal = Terminal(self.command("shell"), str(self.folder))
        terminal.await_text("/> ")
        terminal.type("mkdir /a\n")
        terminal.await_text("/> ")
        terminal.type("mkdir /never")
        terminal.await_text("mkdir /never")
        terminal.type("\x03")
        terminal.await_text("/> ", "\x03")
        self.assertEqual(terminal.status("\x04"), 0)
        self.assertEqual(self.fs("ls"), "a/\n")
