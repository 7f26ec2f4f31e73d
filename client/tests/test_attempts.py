from argparse import Namespace

from client.attempts import attempt, each_path, for_each
from client.telling import Failed, local
from client.tests import TINY, StoreCase


class Attempts(StoreCase):
    sizes = TINY

    def test_the_others_are_done_where_one_cant_be(self) -> None:
        done = []

        def act(item: int) -> None:
            if item == 2:
                raise Failed("not this one")
            done.append(item)

        self.assertEqual((for_each([1, 2, 3], act), done), (1, [1, 3]))
        self.assertEqual(for_each([1, 3], act), 0)
        self.assertEqual(for_each([], act), 0)

    def test_a_full_disk_ends_it(self) -> None:
        done = []

        def act(item: int) -> None:
            done.append(item)
            with local("f"):
                raise OSError(28, "No space left on device")

        self.assertEqual(attempt(lambda: for_each([1, 2], act)), 1)
        self.assertEqual(done, [1])

    def test_a_status_is_passed_on(self) -> None:
        for status, ended in ((None, 0), (0, 0), (1, 1)):
            self.assertEqual(attempt(lambda: status), ended)

    def test_paths_are_those_of_lines(self) -> None:
        paths = []
        command = each_path(lambda session, asked, path: paths.append(path))
        with self.session() as session:
            command(session, Namespace(folder="/a%20b", paths=["c d", "/e"]))
            command(session, Namespace(folder="/a%20b", paths=[]))
        self.assertEqual(paths, ["/a%20b/c%20d", "/e", "/a%20b"])
