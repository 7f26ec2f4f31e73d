import unittest
from argparse import ArgumentParser
from pathlib import Path

from client.commands import COMMANDS, LOOKS, STEPS, add_commands, there
from client.telling import Failed
from client.tests import TINY, StoreCase


class Commands(unittest.TestCase):
    def test_names_are_of_one_command_each(self) -> None:
        names = [command.name for command in COMMANDS]
        self.assertEqual(len(names), len(set(names)))
        self.assertEqual([command.name for command in COMMANDS if command.run is None], ["upgrade"])
        self.assertEqual([step.name for step in STEPS], ["prepare", "status", "rollback", "finalize"])

    def test_what_only_looks_makes_no_store(self) -> None:
        by_name = {command.name: command for command in COMMANDS}
        for name in LOOKS:
            self.assertFalse(by_name[name].makes, name)
        self.assertEqual({"put", "append", "mkdir", "import"}, {command.name for command in COMMANDS if command.makes})

    def test_words_of_a_command(self) -> None:
        parser = ArgumentParser()
        added = add_commands(parser, COMMANDS, "")
        self.assertEqual(list(added), [command.name for command in COMMANDS])
        asked = parser.parse_args(["ls", "-l", "-h", "/a", "/b"])
        self.assertEqual((asked.long, asked.human, asked.recursive, asked.paths, asked.looks), (True, True, False, ["/a", "/b"], True))
        self.assertFalse(parser.parse_args(["upgrade", "status"]).looks)
        self.assertEqual(parser.parse_args(["tail", "-c", "5", "/a"]).bytes, 5)

    def test_a_file_that_has_to_be_there(self) -> None:
        self.assertEqual(there(__file__), Path(__file__))
        for wrong in ("nothing", "."):
            self.assertRaises(Failed, there, wrong)


class Looks(StoreCase):
    sizes = TINY

    def test_what_looks_starts_a_program_that_only_looks(self) -> None:
        self.fs("append", "/f", said=b"f")
        before = self.store.read_bytes()
        for name in LOOKS:
            self.fs(name, *{"get": ["/f", "out"], "cat": ["/f"], "tail": ["/f"], "find": ["/"]}.get(name, []))
        self.assertEqual(self.store.read_bytes(), before)
