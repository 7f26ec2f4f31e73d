"""What the words of the command line do."""

import os
import sys
from argparse import ArgumentParser, Namespace
from pathlib import Path

import explain

from client import shell
from client.attempts import attempt
from client.commands import COMMANDS, Command, add_commands, there, word
from client.session import Ended, Session, Sizes, sizes_of
from client.telling import MISUSED, WRONG, Failed, local, warn

SHELL = Command("shell", shell.run, "a prompt for these commands", "shell -f commands.txt", (
    word("-f", dest="file", type=there, metavar="FILE", help="takes the commands of a file"),), True)  # fmt: skip

# No word of a command line is this.
MEMORY = Path("\0")


def open_missing() -> None:
    """Where a standard file is closed, the null device stands in its place, so that nothing else gets there."""
    for number, (name, how) in enumerate({"stdin": "r", "stdout": "w", "stderr": "w"}.items()):
        if getattr(sys, name) is None:
            os.dup2(os.open(os.devnull, os.O_RDWR), number)
            setattr(sys, name, open(number, how))


def words_of() -> ArgumentParser:
    """The words of the command line: a store, the sizes of a new one, and a command."""
    parser = ArgumentParser(prog="chunkfs", allow_abbrev=False, description="A client of a store that is kept in a file.", epilog="docs/CHUNKFS.md is its page.")
    for name, size in Sizes()._asdict().items():
        parser.add_argument(f"--{name}", type=int, metavar="N", help=f"of a new store, {size} where it isn't given")
    parser.add_argument("--lab", action="store_true", help="a shell's lines may harm the store too")
    parser.add_argument("store", type=Path, metavar="STORE", help="the file in which the store is kept; --memory for a new one without a file")
    add_commands(parser, (*COMMANDS, SHELL), "./chunkfs STORE ")
    return parser


def main(words: list[str]) -> int:
    """0 where all was done, 1 where something wasn't, and 2 where the words are no command."""
    open_missing()
    try:
        # This word stands in the place of a file, so it isn't read as an option.
        asked = words_of().parse_args([str(MEMORY) if word == "--memory" else word for word in words], Namespace(folder="/"))
        file = None if asked.store == MEMORY else asked.store
        given = {name: getattr(asked, name) for name in Sizes._fields if getattr(asked, name) is not None}
        with local(None):
            if wrong := explain.wrong_sizes(sizes_of(file, given)._asdict()):
                warn("\n".join(wrong))
                return MISUSED
            if file and not asked.makes and not file.exists():
                raise Failed(f"{file}: no store stands there; put, append, mkdir, import and shell make one")
            if not file and asked.makes and asked.run != shell.run:
                warn("--memory: the store ends with this command, and nothing is kept")
            with Session(file, given, ["--read-only"] * asked.looks + ["--lab"] * asked.lab) as session:
                if not asked.looks:
                    session.set_moment()
                return attempt(lambda: asked.run(session, asked))
    except BrokenPipeError:
        # Whoever read the output has gone.
        return WRONG
    except (Failed, Ended) as failed:
        warn(str(failed))
        return WRONG
