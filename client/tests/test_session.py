import signal
from collections.abc import Iterator
from unittest.mock import Mock, patch

from client.session import Answer, Ended, Session, Sizes, sizes_of
from client.store import walk
from client.telling import Failed, Refused
from client.tests import TINY, StoreCase


class Sessions(StoreCase):
    sizes = TINY

    def test_each_line_has_its_own_answer(self) -> None:
        with self.session() as session:
            answers = list(session.ask_all(f"append /f{number % 7} 61" if number > 6 else f"create /f{number}" for number in range(20_000)))
            self.assertTrue(all(answer.is_ok for answer in answers))
            self.assertEqual(session.ask("stat", "/f0").split(" ")[1], str(sum(number % 7 == 0 for number in range(7, 20_000))))

    def test_who_leaves_off_meets_no_answer_of_before(self) -> None:
        with self.session() as session:
            for answer in session.ask_all(f"mkdir /{number}" for number in range(1_000)):
                break
            self.assertEqual(session.ask("ls", "/0"), "")
            with self.assertRaises(Refused):
                session.try_all(["mkdir /a", "ls /nothing", "mkdir /b"])
            self.assertEqual(session.ask("rollingUpgrade", "query"), "ordinary 0")

    def test_a_failing_source_of_lines_leaves_no_answer(self) -> None:
        def lines() -> Iterator[str]:
            yield from ("mkdir /a", "ls /nothing")
            raise Failed("no more lines")

        with self.session() as session:
            with self.assertRaisesRegex(Failed, "no more lines"):
                session.try_all(lines())
            self.assertEqual(session.ask("ls", "/"), "a/")

    def test_lines_that_are_asked_meanwhile_meet_their_own_answers(self) -> None:
        with self.session() as session:
            session.try_all(f"create /f{number}" for number in range(20))
            begun = session.ask_all(f"stat /f{number}" for number in range(20))
            self.assertEqual(next(begun).line, "stat /f0")
            self.assertEqual(session.ask("rollingUpgrade", "query"), "ordinary 0")
            self.assertEqual([answer.line for answer in begun], [f"stat /f{number}" for number in range(1, 20)])

    def test_who_is_refused_and_still_held_meets_no_answer_of_before(self) -> None:
        self.lines(*(f"create /{number}" for number in range(300)), "create /x", "write /x 0 61", *(f"lose {server} 1" for server in range(3)))
        told = self.fs("shell", said=b"lines beat 0\nlines beat 1\nlines beat 2\n")
        with self.session() as session:
            with self.assertRaises(Refused) as caught:
                list(walk(session, "/"))
            self.assertEqual(session.ask("rollingUpgrade", "query"), "ordinary 0", told)
            del caught

    def test_a_line_has_no_end_within_it(self) -> None:
        with self.session() as session:
            session.ask("mkdir", "/a")
            with self.assertRaisesRegex(Failed, "can't have an end of a line"):
                session.told("ls /a\nrm -r /a")
            self.assertEqual(session.ask("ls", "/"), "a/")
        self.assertIn("3 NotFound", self.fs("ls", "lines:/a\nrm -r /a", status=1))
        self.assertEqual(self.fs("ls"), "a/\n")

    def test_an_interrupt_while_an_answer_is_awaited_kills_the_program(self) -> None:
        with self.assertRaises(KeyboardInterrupt):
            with self.session() as session:
                session.ask("mkdir", "/a")
                with patch.object(session.program, "stdout", Mock(readline=Mock(side_effect=KeyboardInterrupt))):
                    session.ask("ls", "/")
        self.assertEqual(session.program.returncode, -signal.SIGKILL)

    def test_who_only_looks_leaves_the_file_as_it_is(self) -> None:
        self.lines("create /f", "write /f 0 616263", "rm /f", "create /g")
        before = self.store.read_bytes()
        for words in (["ls", "-l", "/"], ["cat", "/g"], ["get", "/g", "out"], ["du"], ["count"], ["tree"], ["find", "/"], ["trash"], ["report"], ["export"]):
            self.fs(*words)
            self.assertEqual(self.store.read_bytes(), before, words)

    def test_long_answers(self) -> None:
        with Session(self.store, {}) as session:
            session.try_all(["create /f", f"write /f 0 {'61' * 400_000}"])
            for told in session.try_all(["read /f 0 400000"] * 50):
                self.assertEqual(told, "61" * 400_000)

    def test_history_is_all_lines(self) -> None:
        for file in (self.store, None):
            with Session(file, TINY) as session:
                session.try_all(["mkdir /a", "create /a/f"])
                self.assertEqual(list(session.history()), ["mkdir /a", "create /a/f"])
                with session.again() as again:
                    again.try_all(session.history())
                    self.assertEqual(again.ask("ls", "/a"), "f")

    def test_history_goes_on_over_an_image(self) -> None:
        self.lines("create /f", "rm /f")
        self.take_image()
        self.lines("create /g")
        with self.session() as session:
            self.assertEqual([line for line in session.history() if line.split(" ")[0] not in ("restart", "tick")], ["create /f", "rm /f", "create /g"])
        self.assertIn(" /f ", self.fs("trash"))
        before = self.store.with_name(f"{self.store.name}.before.1")
        before.write_bytes(before.read_bytes().replace(b"rm /f", b"rm /g"))
        with self.session() as session, self.assertRaisesRegex(Failed, "before.1 isn't the log with those before"):
            list(session.history())
        self.assertIn(" /f ", self.fs("trash"))

    def test_history_without_the_logs_before_is_none(self) -> None:
        self.lines("create /f", "rm /f")
        for _ in range(2):
            self.take_image()
        with self.session() as session:
            self.assertFalse(session.has_history)
            with self.assertRaisesRegex(Failed, "begins from an image, and this needs all lines that the store was ever asked.*before.1, which isn't there"):
                list(session.history())
        self.assertIn(" /f ", self.fs("trash"))

    def test_sizes_are_those_of_the_file(self) -> None:
        self.session().__exit__(None)
        self.assertEqual(sizes_of(self.store, {}), Sizes(**TINY))

    def test_a_program_that_ends_is_told(self) -> None:
        self.store.write_text("no store\n")
        with self.assertRaisesRegex(Ended, "line 1 isn't that of a store"):
            with Session(self.store, {}) as session:
                session.ask("ls", "/")

    def test_a_killed_program_is_told(self) -> None:
        with self.assertRaises(Ended):
            with self.session() as session:
                session.ask("mkdir", "/a")
                session.program.kill()
                session.try_all(["ls /"] * 1_000)

    def test_what_a_refusal_is_about(self) -> None:
        for line, about in (
            ("mv /a%20b /c", "/a b to /c: "),
            ("scan", "expunge: "),
            ("rollingUpgrade finalize", "upgrade finalize: "),
            ("rm -r /d", "/d: "),
        ):
            with self.assertRaises(Refused) as caught:
                Answer(line, "refused 3 NotFound").value
            self.assertTrue(str(caught.exception).startswith(about))
