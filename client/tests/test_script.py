import hashlib

from client.script import SUM
from client.tests import TINY, StoreCase, tree_of


class Scripts(StoreCase):
    sizes = TINY

    def setUp(self) -> None:
        super().setUp()
        self.local("tree/a/two words", bytes(range(256)))
        self.local("tree/a/b/empty", b"")
        self.local("tree/f", b"f" * 1_000)
        self.fs("put", "tree", "/")
        self.lines("at 100", "rm /tree/f", "at 200", "rm -r /tree/a/b", "create /tree/f", "append /tree/f 6e6577", "at 300", "rm -r /tree/a")

    def made(self) -> None:
        """From now on the store is one that was made of the other's script."""
        self.fs("export", "--to", "script")
        self.store = self.folder / "other"

    def test_what_stood_stands_again(self) -> None:
        trash = self.fs("trash")
        self.fs("undelete", "/tree/a")
        self.fs("get", "/tree", "before")
        self.lines("at 300", "rm -r /tree/a")
        self.made()
        self.assertIn("4 files made and compared", self.fs("import", "script"))
        self.assertEqual([line.split(" ")[:-1] for line in self.fs("trash").splitlines()], [line.split(" ")[:-1] for line in trash.splitlines()])
        self.fs("export", "--to", "again")
        self.assertEqual((self.folder / "again").read_bytes(), (self.folder / "script").read_bytes())
        self.fs("undelete", "/tree/a")
        self.fs("get", "/tree", "after")
        self.assertEqual(tree_of(self.folder / "after"), tree_of(self.folder / "before"))
        self.fs("undelete", "/tree/a/b")
        self.assertEqual(self.fs("ls", "/tree/a/b"), "empty\n")

    def test_a_changed_script_is_refused(self) -> None:
        self.made()
        script = self.folder / "script"
        text = script.read_bytes()
        self.assertEqual(self.fs("import", self.folder, status=1), f"chunkfs: {self.folder}: is a directory\n")
        for wrong in (text.replace(b"create", b"mkdir ", 1), text.rsplit(b"\n", 2)[0] + b"\n", text[:-5], b"", text + b"mkdir /more\n"):
            script.write_bytes(wrong)
            self.assertIn("its last line isn't the digest of the others", self.fs("import", "script", status=1))
        script.write_bytes(b"\xff\xfe\n" + text)
        self.assertIn("its last line isn't the digest of the others", self.fs("import", "script", status=1))
        script.write_bytes(text)
        self.fs("import", "script")
        self.assertIn("something stands in this one", self.fs("import", "script", status=1))

    def test_a_line_that_harms_is_refused(self) -> None:
        self.store = self.folder / "new"
        text = b"create /f\nlose 0 1\n"
        self.local("script", text + f"{SUM}{hashlib.sha256(text).hexdigest()}\n".encode())
        self.assertIn("lose 0: The line harms a store, or is one of a trial of faults", self.fs("import", "script", status=1))

    def test_what_is_refused(self) -> None:
        self.fs("export", "--to", "script")
        self.assertIn("something stands there already", self.fs("export", "--to", "script", status=1))
        self.local("script", b"other")
        self.fs("export", "-f", "--to", "script")
        self.assertEqual((self.folder / "script").read_text(), self.fs("export"))
        self.fs("upgrade", "prepare")
        self.assertIn("an upgrade stands", self.fs("export", status=1))
        self.assertIn("an upgrade stands", self.fs("export", "--to", "third", status=1))
        self.assertFalse((self.folder / "third").exists())
