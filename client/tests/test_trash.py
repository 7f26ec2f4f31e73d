import re
import subprocess

import launch

from client.session import Answer
from client.tests import TINY, StoreCase
from client.trash import hidden_paths, moves, past_hidden_paths, with_looks

LISTED = re.compile(r"^(\S+ \S+) +(\S+) (\S+) (\S+)$", re.MULTILINE)


class Trash(StoreCase):
    sizes = TINY

    def listed(self) -> list[tuple[str, str]]:
        """What stands in the trash, by its size and its path of before."""
        return [found[1:3] for found in LISTED.findall(self.fs("trash"))]

    def test_what_is_deleted_comes_back(self) -> None:
        self.lines("mkdir /a/b", "create /a/b/f", "write /a/b/f 0 616263", "create /g", "at 86400")
        self.fs("rm", "-r", "/a/b", "/g")
        self.assertEqual(self.listed(), [("dir", "/a/b"), ("0", "/g")])
        self.assertIn("/a/b is back", self.fs("undelete", "/a/b"))
        self.assertEqual(self.fs("cat", "/a/b/f"), "abc")
        self.assertEqual(self.listed(), [("0", "/g")])
        hidden = LISTED.search(self.fs("trash"))[4]
        self.assertRegex(hidden, r"^lines:/\.deleted\.")
        self.assertEqual(self.fs("cat", hidden), "")
        self.assertIn("/g is back", self.fs("undelete", hidden))
        self.assertIn("/g: nothing of that name is in the trash; `trash` lists what is", self.fs("undelete", "/g", status=1))

    def test_a_moment_that_no_calendar_has_is_shown_as_a_number(self) -> None:
        for moment in (99_999_999_999_999, 10_000_000_000_000_000_000):
            self.lines(f"at {moment}", "create /f", "rm /f")
            self.assertIn(f"{moment}            0 /f lines:/.deleted.", self.fs("trash"))

    def test_the_last_of_a_name_comes_back(self) -> None:
        for text in (b"first", b"second"):
            self.fs("append", "/f", said=text)
            self.fs("rm", "/f")
        self.fs("undelete", "/f")
        self.assertEqual(self.fs("cat", "/f"), "second")
        self.assertEqual(self.listed(), [("5", "/f")])

    def test_where_it_is_follows_what_it_stood_in(self) -> None:
        self.lines("create /a/f", "create /a/g", "rm /a/f", "mkdir /b", "mv /a /b", "rm /b/a/g", "mv /b /c", "rm -r /c", "rm /nothing")
        self.assertEqual(self.listed(), [("0", "/c/a/f"), ("0", "/c/a/g"), ("dir", "/c")])
        self.assertIn("nothing of that name", self.fs("undelete", "/c/a/f", status=1))
        self.fs("undelete", "/c")
        self.fs("undelete", "/c/a/f")
        self.assertEqual(self.fs("ls", "/c/a"), "f\n")

    def test_a_rollback_takes_back_what_the_trash_has(self) -> None:
        self.lines("create /f", "create /g", "rm /f", "rollingUpgrade prepare", "rm /g")
        self.assertEqual(self.listed(), [("0", "/f"), ("0", "/g")])
        self.lines("rollingUpgrade rollback")
        self.assertEqual(self.listed(), [("0", "/f")])

    def test_what_no_server_has_is_told_from_what_isnt_told_now(self) -> None:
        self.lines("create /f", "write /f 0 61", "create /g", "rollingUpgrade prepare", "rm /f", "rm /g", *(f"lose {server} 1" for server in range(3)))
        self.assertEqual(self.listed(), [("?", "/f"), ("0", "/g")])
        self.lines("rollback-begin")
        told = self.fs("trash", status=1)
        self.assertIn("The master is rolling back. (12 RollingBack)", told)
        self.assertNotIn("?", told)

    def test_expunge(self) -> None:
        self.lines("create /f", "write /f 0 61", "rm /f")
        self.assertIn("removed for good: 1 of the trash, and 1 chunks", self.fs("expunge"))
        self.fs("mkdir", "/new")
        self.fs("rm", "-r", "/new")
        self.assertIn("0 of the trash", self.fs("expunge"))
        self.assertEqual(self.listed(), [("dir", "/new")])
        self.assertIn("1 of the trash", self.fs("expunge", "--all"))
        self.assertEqual(self.listed(), [])

    def test_which_lines_move(self) -> None:
        self.assertEqual(list(with_looks(["mkdir /b", "mv /a /b"])), ["mkdir /b", "stat /b", "mv /a /b"])
        told = (("stat /b", "ok dir"), ("mv /a /b", "ok"), ("stat /c", "refused 3 NotFound"), ("mv /a /c", "ok"), ("mv /a /d", "refused 3 NotFound"))
        self.assertEqual(list(moves(Answer(*one) for one in told)), [("/a", "/b/a"), ("/a", "/c")])
        told = (("rm -r /a", "ok /.deleted.x"), ("undelete /x", "ok /a"), ("rm /a", "ok false"), ("mkdir /a", "ok"), ("ls /a", "ok b"))
        self.assertEqual(list(moves(Answer(*one) for one in told)), [("/a", "/.deleted.x"), ("/x", "/a")])

    def test_places_dont_grow_with_renames(self) -> None:
        self.lines("create /a/f", "rm /a/f", *(["mv /a /b", "mv /b /a"] * 40))
        self.assertEqual(self.listed(), [("0", "/a/f")])
        with self.session() as session:
            self.assertEqual(len(past_hidden_paths(session)), 2)
            self.assertEqual(len(hidden_paths(session)), 1)

    def test_a_move_of_a_path_that_is_nearly_too_deep(self) -> None:
        deep = "/a" + "".join(f"/{number}" for number in range(62))
        self.lines(f"create {deep}/f", f"rm {deep}/f", "mv /a /b")
        self.assertEqual(len(self.listed()), 1)

    def test_lines_that_end_as_in_dos(self) -> None:
        lines = b"mkdir /a\r\ncreate /a/x\r\nrm /a/x\r\nmv /a /b\r\n"
        words = [launch.program_of("chunkkeep").path, self.store, "--chunk", "16", "--block", "4"]
        subprocess.run(words, input=lines, stdout=subprocess.DEVNULL, stderr=subprocess.DEVNULL, check=True)
        self.assertEqual(self.listed(), [("0", "/b/x")])
        self.assertIn("/b/x is back", self.fs("undelete", "/b/x"))
