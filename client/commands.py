"""The commands, with their words, and what runs each."""

from argparse import ArgumentParser, RawDescriptionHelpFormatter
from collections.abc import Iterable
from pathlib import Path
from typing import NamedTuple

from client import check, listing, script, transfer, trash, upgrade
from client.attempts import Run
from client.telling import Failed, local


def there(name: str) -> Path:
    """A file of this machine under a name that is given. It has to be there before a store is made for it."""
    with local(name):
        Path(name).stat()
    if Path(name).is_dir():
        raise Failed(f"{name}: is a directory")
    return Path(name)


def word(*names: str, **how: object) -> tuple[tuple[str, ...], dict[str, object]]:
    return names, how


def flag(short: str, long: str, help: str) -> tuple[tuple[str, ...], dict[str, object]]:
    return word(short, long, action="store_true", help=help)


SOME = word("paths", nargs="+", metavar="PATH")
ANY = word("paths", nargs="*", metavar="PATH")
SOURCES = word("sources", nargs="+", metavar="PATH")
TARGET = word("target", metavar="TARGET", help="a directory that is there, or the new place itself")
ONE = word("path", metavar="PATH")
HUMAN = flag("-h", "--human", "sizes with units")
# Commands that only look, of which nothing is kept.
LOOKS = ("get", "cat", "tail", "ls", "du", "count", "tree", "find", "trash", "report", "export")
FORCE = flag("-f", "--force", "puts files in the place of others")


class Command(NamedTuple):
    name: str
    run: Run | None
    what: str
    example: str
    words: tuple = ()
    # Whether it makes a store where none is.
    makes: bool = False
    steps: "tuple[Command, ...]" = ()


STEPS = (
    Command("prepare", upgrade.prepare, "begins an upgrade", "upgrade prepare"),
    Command("status", upgrade.status, "how it stands, and what a rollback would find", "upgrade status"),
    Command("rollback", upgrade.rollback, "takes back all that changed since the prepare", "upgrade rollback", (
        word("--anyway", action="store_true", help="begins it also where it can't be done, which closes the store for good"),)),
    Command("finalize", upgrade.finalize, "keeps all that changed", "upgrade finalize"),
)
COMMANDS = (
    Command("put", transfer.put, "brings files and directories into the store", "put notes.txt photos /", (
        word("sources", nargs="+", type=transfer.local_tree, metavar="LOCAL"), TARGET, FORCE,
        word("--verify", action="store_true", help="reads back what came in and compares its SHA-256")), True),
    Command("get", transfer.get, "brings files and directories out of the store", "get /photos .", (SOURCES, TARGET, FORCE)),
    Command("cat", transfer.cat, "writes files to standard output", "cat /notes.txt", (SOME,)),
    Command("tail", transfer.cat, "writes the ends of files to standard output", "tail -c 100 /notes.txt", (
        SOME, word("-c", dest="bytes", type=int, default=1_024, help="how many bytes"))),
    Command("append", transfer.append, "puts files, or standard input, at the end of a file", "append /notes.txt more.txt", (
        ONE, word("files", nargs="*", type=there, metavar="LOCAL")), True),
    Command("ls", listing.ls, "what stands in a directory", "ls -l -h /photos", (
        ANY, flag("-l", "--long", "with the least replicas of a chunk, and the size"), flag("-R", "--recursive", "all below too"), HUMAN)),
    Command("du", listing.du, "bytes, and the bytes of all replicas", "du -h /photos", (ANY, flag("-s", "--summary", "a line for each path"), HUMAN)),
    Command("count", listing.count, "directories, files and bytes", "count /photos", (ANY, HUMAN)),
    Command("tree", listing.tree, "a picture of what stands below", "tree /photos", (word("path", nargs="?", metavar="PATH"),)),
    Command("find", listing.find, "paths by their names", "find / -name '*.txt'", (ONE, word("-name", metavar="PATTERN", help="as a shell's"))),
    Command("mkdir", listing.mkdir, "makes directories, with those above them", "mkdir /photos/2024", (SOME,), True),
    Command("mv", listing.mv, "moves", "mv /notes.txt /photos", (SOURCES, TARGET)),
    Command("cp", listing.cp, "copies, which copies no byte until one side is written to", "cp /photos /photos.old", (SOURCES, TARGET)),
    Command("rm", listing.rm, "deletes, into the trash", "rm -r /photos", (
        SOME, flag("-r", "--recursive", "directories with all in them"), flag("-f", "--force", "says nothing of what isn't there"))),
    Command("trash", trash.trash, "what was deleted, when, where it stood, and under which hidden name", "trash"),
    Command("undelete", trash.undelete, "brings back what was deleted last of a name", "undelete /photos", (SOME,)),
    Command("expunge", trash.expunge, "removes for good what was deleted three days ago", "expunge", (
        word("--all", action="store_true", help="all that is in the trash"),)),
    Command("fsck", check.fsck, "whether all is sound: each chunk's servers, and each block's digest", "fsck --repair /", (
        ANY, flag("-v", "--verbose", "each file with its chunks"),
        word("--repair", action="store_true", help="copies what is short until nothing is"),
        word("--chunk", dest="handle", type=int, metavar="NUMBER", help="the paths of a chunk"))),
    Command("report", check.report, "servers, chunks, the upgrade's phase and the file of the store", "report"),
    Command("export", script.export, "a script that makes what stands now in a new store", "export --to backup.txt", (
        word("--to", type=Path, metavar="FILE", help="where it goes, in place of standard output"), FORCE)),
    Command("import", script.import_script, "makes what such a script says in a new store", "import backup.txt", (
        word("file", type=there, metavar="FILE"),), True),
    Command("upgrade", None, "prepare, status, rollback, finalize: changes that can be taken back", "upgrade status", steps=STEPS),
)  # fmt: skip


def add_commands(parser: ArgumentParser, commands: Iterable[Command], before: str, metavar: str = "COMMAND") -> dict[str, ArgumentParser]:
    """A parser of its own for each command, by its name, with what stands before it in its example. In it -h stands for sizes where it has them."""
    added = parser.add_subparsers(metavar=metavar, required=True)
    for command in commands:
        how = {"description": command.what, "epilog": f"example:\n  {before}{command.example}", "formatter_class": RawDescriptionHelpFormatter}
        one = added.add_parser(command.name, help=command.what, add_help=False, allow_abbrev=False, **how)
        one.add_argument("--help", action="help", help="says this")
        for names, how in command.words:
            one.add_argument(*names, **how)
        one.set_defaults(run=command.run, makes=command.makes, looks=command.name in LOOKS)
        if command.steps:
            add_commands(one, command.steps, before, "STEP")
    return added.choices
