from client.store import Chunk, Entry, children, file_sha256, heal, is_directory, phase, read_bytes, read_entry, sha256_of, stat, stats, walk
from client.telling import Refused
from client.tests import TINY, StoreCase


class Stores(StoreCase):
    sizes = TINY

    def test_what_stat_tells(self) -> None:
        entry = read_entry("/f", "file 17 1/2/0,1,2 5/1/-")
        self.assertEqual(entry, Entry("/f", False, 17, (Chunk(1, 2, (0, 1, 2)), Chunk(5, 1, ()))))
        self.assertEqual(read_entry("/d", "dir"), Entry("/d", True))
        self.assertEqual(read_entry("/e", "file 0"), Entry("/e", False))

    def test_names_and_files(self) -> None:
        with self.session() as session:
            session.try_all(["mkdir /a/b", "create /a/f", "write /a/f 0 " + "61" * 20, "create /a/b/g", "create /h"])
            self.assertEqual(children(session, "/a"), {"b": True, "f": False})
            self.assertEqual([(entry.path, entry.size) for entry in walk(session, "/a")], [("/a", 0), ("/a/b", 0), ("/a/f", 20), ("/a/b/g", 0)])
            self.assertEqual(b"".join(read_bytes(session, "/a/f", 3, 20)), b"a" * 17)
            self.assertEqual([is_directory(session, path) for path in ("/a", "/a/f", "/nothing")], [True, False, False])
            with self.assertRaises(Refused):
                list(walk(session, "/nothing"))
            one, other = stats(session, ["/h", "/nothing"])
            self.assertEqual((one.path, other.number), ("/h", 3))
            self.assertEqual(file_sha256(session, "/a/f"), sha256_of([b"a" * 11, b"a" * 9]))
            self.assertNotEqual(file_sha256(session, "/a/f"), sha256_of([b"a" * 19]))
            self.assertEqual(phase(session), ("ordinary", 0))

    def test_healing(self) -> None:
        with self.session() as session:
            session.try_all(["create /f", "write /f 0 " + "61" * 40, "lose 0 1", "lose 1 2", "lose 2 3"])
            self.assertEqual(heal(session), (3, None))
            self.assertEqual({len(chunk.servers) for chunk in stat(session, "/f").chunks}, {3})
            session.try_all(["lose 0 1", "lose 1 1", "lose 2 1"])
            self.assertEqual(heal(session), (0, None))
