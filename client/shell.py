"""A prompt for commands over one running store."""

import atexit
import contextlib
import os
import re
import readline
import shlex
import sys
from argparse import ArgumentParser, Namespace
from collections.abc import Iterator
from pathlib import Path

from client.attempts import attempt
from client.commands import COMMANDS, LOOKS, Command, add_commands, word
from client.names import line_path, shown
from client.session import Session
from client.store import children, is_directory
from client.telling import MISUSED, WELL, WRONG, Failed, local, say, warn

# What has a meaning of its own in a typed line.
SPECIAL = re.compile(r"[\s\\'\"#]")
# The word that is typed last: its spaces stand after backslashes.
WORD = re.compile(r"(?:\\.|[^\s\\])*$")
HISTORY = Path(os.environ.get("XDG_STATE_HOME") or Path.home() / ".local" / "state") / "chunkfs" / "history"


def split(typed: str) -> list[str]:
    """The words of a typed line, up to one that begins with #."""
    lexer = shlex.shlex(typed, posix=True)
    lexer.whitespace_split, lexer.commenters = True, ""
    return list(iter(lambda: None if typed[lexer.instream.tell() :].lstrip().startswith("#") else lexer.get_token(), None))


class Shell:
    """The folder in which one is, and what each typed line does."""

    def __init__(self, session: Session):
        self.session, self.folder, self.is_in_lines = session, "/", False
        self.parser = ArgumentParser(prog="", allow_abbrev=False)
        own = (
            Command("cd", self.cd, "leads to a directory: paths that don't begin with a slash are below it", "cd /photos", (
                word("path", nargs="?", default="/", metavar="PATH"),)),
            Command("help", self.help, "what a command does", "help put", (word("names", nargs="*", metavar="COMMAND"),)),
            Command("lines", self.lines, "asks the store a line, or all that follow, up to an empty one", "lines stat /notes.txt", (
                word("line", nargs="?", metavar="LINE"),)),
            Command("exit", self.exit, "ends, as the end of the input does", "exit"),
        )  # fmt: skip
        self.commands = add_commands(self.parser, (*COMMANDS, *own), "")

    def do(self, typed: str) -> int | None:
        """Does what a line says, and answers the status of that."""
        name, _, line = typed.lstrip().partition(" ")
        if self.is_in_lines or name == "lines" and line != "--help":
            # What stands in a line of the store is taken as it stands.
            return self.lines(self.session, Namespace(line=typed if self.is_in_lines else line))
        if words := split(typed):
            asked = self.parser.parse_args(words, Namespace(folder=self.folder))
            if words[0] not in (*LOOKS, "cd", "help", "exit"):
                self.session.set_moment()
            return asked.run(self.session, asked)

    def lines(self, session: Session, asked: Namespace) -> int | None:
        self.is_in_lines = bool(asked.line) if self.is_in_lines else not asked.line
        if asked.line:
            answer = session.told(asked.line)
            say(answer.text)
            return WELL if answer.is_ok else WRONG

    def cd(self, session: Session, asked: Namespace) -> None:
        path = line_path(asked.path, self.folder)
        if not is_directory(session, path):
            raise Failed(f"{shown(path)}: a directory is needed there")
        self.folder = path

    def help(self, session: Session, asked: Namespace) -> None:
        self.parser.parse_args([*asked.names, "--help"])

    def exit(self, session: Session, asked: Namespace) -> None:
        raise EOFError

    def run_line(self, typed: str) -> int:
        """As do, with words on standard error where something is wrong."""
        try:
            return attempt(lambda: self.do(typed))
        except ValueError as wrong:
            warn(f"{typed}: {wrong}")
            return MISUSED
        except SystemExit as ended:
            # The parser has said what is wrong with the words, or has helped.
            return MISUSED if ended.code else WELL

    def complete(self, text: str, state: int) -> str | None:
        """The word with which a typed one may go on: a command, or a path in the store."""
        if state == 0:
            typed = readline.get_line_buffer()[: readline.get_endidx()]
            word, self.fitting = WORD.search(typed)[0], []
            # Nothing is told of what stands in quotes that are open.
            with contextlib.suppress(Failed, ValueError):
                split(typed)
                self.fitting = sorted(name[len(word) - len(text) :] for name in self.words(typed, word) if name.startswith(word))
        return self.fitting[state] if state < len(self.fitting) else None

    def words(self, typed: str, word: str) -> list[str]:
        if word == typed.lstrip():
            return [f"{name} " for name in self.commands]
        before = word[: word.rfind("/") + 1]
        names = children(self.session, line_path("".join(split(before)), self.folder))
        return [before + SPECIAL.sub(r"\\\g<0>", shown(name)) + "/" * is_directory for name, is_directory in names.items()]


def typed_lines(shell: Shell) -> Iterator[str]:
    """The lines that somebody types at a prompt."""
    with contextlib.suppress(OSError):
        HISTORY.parent.mkdir(parents=True, exist_ok=True)
        atexit.register(attempt, lambda: readline.write_history_file(HISTORY))
        readline.set_history_length(1_000)
        readline.read_history_file(HISTORY)
    readline.set_completer(shell.complete)
    readline.set_completer_delims(" ")
    readline.parse_and_bind("tab: complete")
    with contextlib.suppress(EOFError):
        while True:
            try:
                yield input("lines> " if shell.is_in_lines else f"{shown(shell.folder)}> ")
            except KeyboardInterrupt:
                # The line that was begun is given up.
                print()
    print()


def run(session: Session, asked: Namespace) -> int | None:
    """At a terminal it goes on where something is wrong. A script ends there, and its line's number is told."""
    shell = Shell(session)
    is_script = bool(asked.file) or not sys.stdin.isatty()
    with local(asked.file), open(asked.file) if asked.file else contextlib.nullcontext(sys.stdin) as source, contextlib.suppress(EOFError):
        source.reconfigure(encoding="utf-8", errors="surrogateescape")
        for number, typed in enumerate((line.rstrip("\n") for line in source) if is_script else typed_lines(shell), 1):
            if (status := shell.run_line(typed)) and is_script:
                warn(f"line {number}: {typed}")
                return status
