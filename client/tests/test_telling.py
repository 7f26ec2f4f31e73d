import os
import re
import shlex
import subprocess
import unittest

from client.commands import COMMANDS
from client.main import words_of
from client.telling import Failed, Refused, local, told
from client.tests import StoreCase

QUOTED = re.compile("`([^`]+)`")
OF_THE_SHELL = ("lines", "help", "shell")


def refused(number: int) -> Refused:
    detail = {15: " 7", 16: " 7", 18: " 3", 22: " 0.3", 23: " 2", 27: " 1", 36: " /f"}.get(number, "")
    return Refused(f"refused {number} {told()[number]['name']}{detail}", "/f")


class Refusals(unittest.TestCase):
    def test_each_has_a_meaning_and_what_to_do(self) -> None:
        self.assertEqual(sorted(told()), list(range(1, 41)))
        for number, row in told().items():
            self.assertTrue(row["what it says"].endswith("."), number)
            # This one is met at the start alone, and the program says then what is wrong.
            if number != 35:
                self.assertGreater(len(str(refused(number)).removeprefix(f"/f: {refused(number).says}")), 8, number)

    def test_what_to_do_is_said_in_commands_of_this_client(self) -> None:
        names = {*OF_THE_SHELL, *(command.name for command in COMMANDS)}
        for number in told():
            for quoted in QUOTED.findall(str(refused(number)).removeprefix(f"/f: {refused(number).says}")):
                self.assertIn(quoted.split(" ")[0], names, f"{number}: {quoted}")

    def test_commands_of_the_column_are_ones(self) -> None:
        rows = [row["what to do with chunkfs"] for row in told().values() if "what to do with chunkfs" in row]
        self.assertGreater(len(rows), 20)
        for quoted in QUOTED.findall(" ".join(rows)):
            words = quoted.replace("NUMBER", "7").split(" ")
            if len(words) > 1 and words[0] not in OF_THE_SHELL:
                self.assertTrue(words_of().parse_args(["store", *words]).run, quoted)

    def test_words_of_a_refusal(self) -> None:
        one = refused(16)
        self.assertEqual((one.number, one.detail), (16, "7"))
        self.assertTrue(str(one).startswith("/f: A rollback can't be done while"))
        self.assertIn("(16 Unrestored 7) `upgrade status` says", str(one))


class Machine(StoreCase):
    def test_what_the_machine_refuses_is_told_as_all_else(self) -> None:
        self.local("d/f", b"")
        wrong = {
            "nothing": "no such file or directory",
            "d": "is a directory",
            "d/f/g": "not a directory",
            "x" * 300: "file name too long",
        }
        for name, reason in wrong.items():
            with self.assertRaisesRegex(Failed, f"^{name}: {reason}$"), local(name):
                open(name, "rb")
        for error in (PermissionError(13, os.strerror(13)), OSError(28, os.strerror(28))):
            with self.assertRaisesRegex(Failed, "^f: (permission denied|no space left on device)$"), local("f"):
                raise error
        with self.assertRaises(BrokenPipeError), local("f"):
            raise BrokenPipeError

    def test_a_full_standard_output_is_told_once(self) -> None:
        self.local("f", b"f" * 100_000)
        self.fs("put", "f", "/")
        for words in (("cat", "/f", "/f"), ("ls",), ("export",)):
            with open("/dev/full", "wb") as full:
                done = subprocess.run(self.command(*words), stdout=full, stderr=subprocess.PIPE, text=True)
            self.assertEqual((done.returncode, done.stderr), (1, "chunkfs: standard output: no space left on device\n"))

    def test_who_reads_no_more_ends_it_quietly(self) -> None:
        self.local("f", b"line\n" * 1_000_000)
        self.fs("put", "f", "/")
        for words in ("cat /f /f", "export", "shell"):
            typed = self.local("typed", b"cat /f\n" * 5)
            piped = f"{shlex.join(self.command(*words.split()))} < {typed} | head -1"
            done = subprocess.run(piped, shell=True, capture_output=True)
            self.assertEqual(done.stderr, b"", words)
            self.assertEqual(done.stdout.count(b"\n"), 1)
