import os
import subprocess
from pathlib import Path
from unittest.mock import patch

from client.store import LINE_BYTES
from client.tests import TINY, StoreCase, tree_of
from client.transfer import COMING

NAMES = ["two words", "a:b", "100%", "%20", "line\nend", ".deleted.x", "x" * 200, "\udcff"]


class Transfers(StoreCase):
    def test_names_and_bytes_come_out_as_they_went_in(self) -> None:
        for at, name in enumerate(NAMES):
            self.local(f"tree/{name}/{name}", name.encode("utf-8", "surrogateescape") * at)
        for name, size in (("empty", 0), ("one", LINE_BYTES), ("more", 2 * LINE_BYTES + 1)):
            self.local(f"tree/{name}", bytes(at * at % 251 for at in range(size)))
        self.fs("put", "--verify", "tree", "/")
        self.fs("get", "/tree", "out")
        self.assertEqual(tree_of(self.folder / "out"), tree_of(self.folder / "tree"))
        self.fs("mkdir", "/two words")
        self.fs("get", "/tree/100%", "/tree/one", self.folder)
        self.assertEqual((self.folder / "one").read_bytes(), (self.folder / "tree" / "one").read_bytes())
        self.assertEqual(tree_of(self.folder / "100%"), tree_of(self.folder / "tree" / "100%"))

    def test_what_stands_stays_unless_it_is_forced(self) -> None:
        self.local("f", b"old")
        self.fs("put", "f", "/")
        self.local("f", b"new")
        self.assertIn("/f: something stands there already", self.fs("put", "f", "/", status=1))
        self.assertEqual(self.fs("cat", "/f"), "old")
        self.fs("put", "-f", "f", "/")
        self.assertEqual(self.fs("cat", "/f"), "new")
        self.local("g", b"mine")
        self.assertIn("something stands there already", self.fs("get", "/f", "g", status=1))
        self.assertEqual((self.folder / "g").read_bytes(), b"mine")
        self.fs("get", "-f", "/f", "g")
        self.assertEqual((self.folder / "g").read_bytes(), b"new")
        self.fs("mkdir", "/d/f")
        self.assertIn("/d/f: something stands there already", self.fs("put", "-f", "f", "/d", status=1))

    def test_where_it_goes(self) -> None:
        self.local("d/f", b"f")
        self.fs("put", "d", "/e")
        self.fs("put", "d", "/e")
        self.assertEqual(self.fs("find", "/"), "/\n/e\n/e/d\n/e/d/f\n/e/f\n")
        self.assertIn("/no: Nothing stands at the path.", self.fs("put", "d/f", "/no/f", status=1))
        self.assertIn("5 NotADirectory", self.fs("put", "d/f", "/e/f/g", status=1))
        self.assertIn("several need a directory", self.fs("put", "d/f", "d", "/e/f", status=1))
        self.assertEqual("chunkfs: nothing: no such file or directory\n", self.fs("put", "d", "nothing", "/", status=1))
        self.assertIn(COMING, self.fs("put", self.local(f"f{COMING}", b""), "/", status=1))

    def test_a_target_is_needed(self) -> None:
        self.local("f", b"")
        for words in (("put", "f"), ("get", "/f"), ("mv", "/f"), ("cp", "/f")):
            self.assertIn("the following arguments are required", self.fs(*words, status=2))

    def test_what_has_no_place_is_refused_before_a_byte_comes(self) -> None:
        self.local("a/f", b"a")
        self.local("b/f", b"b")
        self.assertIn("/f: more than one would come there", self.fs("put", "a/f", "b/f", "/", status=1))
        self.local(f"a/{'x' * 199} ", b"")
        self.assertIn("a name has 200 bytes at most", self.fs("put", "a", "/", status=1))
        self.assertEqual(self.fs("ls"), "")

    def test_no_store_is_made_for_a_folder_that_cant_be_read_whole(self) -> None:
        self.local("a/f", b"a")
        (self.folder / "a" / "dangling").symlink_to("nothing")
        self.assertEqual("chunkfs: a/dangling: neither a file nor a directory stands there\n", self.fs("put", "a", "/", status=1))
        self.assertFalse(self.store.exists())

    def test_the_store_isnt_put_into_itself(self) -> None:
        self.local("f", b"f")
        self.local("store.cut", b"cut")
        self.local("store.cut.2", b"cut")
        self.local("store.txt", b"no part of it")
        self.local("d/linked", b"").unlink()
        (self.folder / "d" / "linked").symlink_to(self.store)
        self.fs("mkdir", "/a")
        (self.folder / "d" / "hard").hardlink_to(self.store)
        self.fs("put", ".", "/all")
        self.assertEqual(self.fs("find", "/all").split(), ["/all", "/all/d", "/all/f", "/all/store.txt"])
        self.assertIn("the store isn't put into itself", self.fs("put", self.store, "/", status=0))
        self.assertEqual(self.fs("ls"), "a/\nall/\n")

    def test_nothing_comes_in_the_place_of_the_store(self) -> None:
        self.fs("append", "/f", said=b"f")
        before = self.store.read_bytes()
        for words in (["get", "-f", "/f", self.store], ["export", "-f", "--to", self.store], ["export", "-f", "--to", f"{self.store}.cut"]):
            self.assertIn("the store itself is kept there", self.fs(*words, status=1))
        self.assertEqual(self.store.read_bytes(), before)
        (self.folder / "dangling").symlink_to("nothing")
        self.assertIn("something stands there already", self.fs("get", "/f", "dangling", status=1))
        self.assertTrue((self.folder / "dangling").is_symlink())

    def test_a_path_that_is_too_long(self) -> None:
        deep = "/".join(["d"] * 63)
        self.local(f"{deep}/f", b"")
        self.fs("mkdir", "/a/b")
        self.assertIn("a path 64 elements", self.fs("put", "d", "/a/b", status=1))
        self.assertEqual(self.fs("find", "/"), "/\n/a\n/a/b\n")
        (self.folder / deep / deep).mkdir(parents=True)
        self.assertIn("a path 64 elements", self.fs("put", "d", "/", status=1))
        self.assertEqual(self.fs("ls", "/"), "a/\n")

    def test_a_name_that_looks_hidden(self) -> None:
        name = f".deleted.{7:020}.{2:020}.x"
        self.local(name, b"bytes")
        self.fs("put", name, "/")
        self.assertEqual(self.fs("ls"), f"{name}\n")
        self.assertEqual(self.fs("cat", f"/{name}"), "bytes")
        self.fs("get", f"/{name}", "out")
        self.assertEqual((self.folder / "out").read_bytes(), b"bytes")

    def test_what_can_be_read_comes_out(self) -> None:
        self.lines("mkdir /d", "create /d/a", "write /d/a 0 61", "create /d/b", "write /d/b 0 62", *(f"damage {server} 1 0" for server in range(3)))
        self.assertIn("27 Damaged", self.fs("get", "/d", "/nothing", ".", status=1))
        self.assertEqual(tree_of(self.folder / "d"), {"b": b"b"})

    def test_what_a_killed_put_left_is_replaced(self) -> None:
        self.local("f", b"bytes")
        self.lines(f"create /f{COMING}", f"write /f{COMING} 0 {'00' * 9}")
        self.fs("put", "f", "/")
        self.assertEqual(self.fs("cat", "/f"), "bytes")
        self.assertEqual(self.fs("ls"), "f\n")

    def test_what_the_machine_refuses_is_told_by_name(self) -> None:
        self.local("f", b"f")
        self.fs("put", "f", "/")
        self.fs("mkdir", "/d/f")
        self.assertEqual("chunkfs: no/such/g: no such file or directory\n", self.fs("get", "/f", "no/such/g", status=1))
        self.assertEqual("chunkfs: f/g: not a directory\n", self.fs("get", "/f", "f/g", status=1))
        self.assertEqual("chunkfs: no/d: no such file or directory\n", self.fs("get", "/d", "no/d", status=1).splitlines(True)[0])
        self.local("g/f", b"")
        self.assertEqual("chunkfs: g/f: file exists\n", self.fs("get", "/d/f", "g", status=1))
        (self.folder / "h" / "f" / "x").mkdir(parents=True)
        self.assertEqual("chunkfs: h/f: is a directory\n", self.fs("get", "-f", "/f", "h", status=1))
        self.assertEqual([path.name for path in (self.folder / "h").iterdir()], ["f"])
        (self.folder / "dangling").symlink_to("nothing")
        os.mkfifo(self.folder / "pipe")
        self.assertEqual("chunkfs: dangling: no such file or directory\n", self.fs("put", "dangling", "/", status=1))
        self.assertEqual("chunkfs: pipe: neither a file nor a directory stands there\n", self.fs("put", "pipe", "/", status=1))
        for words in (("export", "--to", "no/script"), ("export", "--to", "f/script")):
            self.assertRegex(self.fs(*words, status=1), r"^chunkfs: \w+/script: (no such file or|not a) directory\n$")

    def test_what_may_not_be_read_is_told_before_a_byte_comes(self) -> None:
        self.local("d/a", b"a")
        self.local("d/b", b"b")

        def refuse(file: Path, how: str) -> object:
            if file.name == "b":
                raise PermissionError(13, "Permission denied")
            return open(file, how)

        # (whoever runs the tests may read all)
        with patch("client.transfer.open", refuse, create=True):
            self.assertEqual("chunkfs: d/b: permission denied\n", self.fs("put", "d", "/", status=1))
        self.assertFalse(self.store.exists())

    def test_a_disk_of_this_machine_that_is_full(self) -> None:
        """On a file system in memory, where one can be mounted."""
        disk = self.folder / "disk"
        disk.mkdir()
        if subprocess.run(["mount", "-t", "tmpfs", "-o", "size=64k", "none", disk], capture_output=True).returncode:
            self.skipTest("no file system can be mounted")
        self.addCleanup(subprocess.run, ["umount", disk], check=True)
        self.local("f", bytes(200_000))
        self.fs("put", "f", "/")
        for words, name in ((("get", "/f", disk), "f"), (("export", "--to", disk / "script"), "script")):
            self.assertEqual(f"chunkfs: {disk / name}: no space left on device\n", self.fs(*words, status=1))
            self.assertEqual(list(disk.iterdir()), [])

    def test_who_cant_write_what_comes_leaves_the_store(self) -> None:
        self.sizes = {}
        self.local("big", bytes(12_000_000))
        self.fs("put", "big", "/")
        with open("/dev/full", "wb") as full:
            done = subprocess.run(self.command("cat", "/big"), stdout=full, stderr=subprocess.PIPE, timeout=300)
        self.assertEqual(done.returncode, 1)
        self.assertIn(b"chunkfs: standard output: no space left on device\n", done.stderr)
        limited = ["prlimit", "--fsize=2000000", *self.command("get", "/big", "out")]
        done = subprocess.run(limited, stdout=subprocess.DEVNULL, stderr=subprocess.PIPE, timeout=300)
        self.assertEqual(done.returncode, 1)
        self.assertIn(b": file too large\n", done.stderr)
        self.assertEqual(self.fs("ls"), "big\n")

    def test_the_store_isnt_appended_to_itself(self) -> None:
        self.fs("mkdir", "/a")
        self.assertIn("the store isn't put into itself", self.fs("append", "/f", self.store, status=1))
        with open(self.store, "rb") as own:
            done = subprocess.run(self.command("append", "/f"), stdin=own, stderr=subprocess.PIPE, timeout=300)
        self.assertIn(b"the store isn't put into itself", done.stderr)
        self.assertEqual(self.fs("ls"), "a/\n")

    def test_what_came_otherwise_is_told_and_gets_no_name(self) -> None:
        self.local("f", b"f")
        with patch("client.transfer.file_sha256", return_value="another"):
            self.assertIn("f: what came into the store isn't what stands here", self.fs("put", "--verify", "f", "/", status=1))
        self.assertEqual(self.fs("ls"), f"f{COMING}\n")
        self.fs("put", "--verify", "f", "/")
        self.assertEqual(self.fs("ls"), "f\n")

    def test_links_and_odd_files(self) -> None:
        self.local("d/f", b"f")
        (self.folder / "d" / "link").symlink_to("f")
        (self.folder / "d" / "folder").symlink_to(".")
        self.assertIn("a link to a directory is passed over", self.fs("put", "d", "/"))
        self.assertEqual(self.fs("cat", "/d/link"), "f")
        self.assertEqual(self.fs("ls", "/d"), "f\nlink\n")


class Ends(StoreCase):
    sizes = TINY

    def test_ends_of_files(self) -> None:
        self.fs("append", "/f", said=b"0123456789" * 200)
        self.fs("append", "/f", self.local("more", b"end"))
        self.assertEqual(self.fs("tail", "-c", "5", "/f"), "89end")
        self.assertEqual(len(self.fs("tail", "/f")), 1_024)
        self.assertEqual(self.fs("cat", "/f", "/f"), ("0123456789" * 200 + "end") * 2)
        self.assertEqual(self.fs("tail", "-c", "1", "/f", "/f"), "dd")
        self.assertIn("a directory stands there", self.fs("cat", "/", status=1))

    def test_a_refused_append_leaves_no_gap(self) -> None:
        self.fs("mkdir", "/d")
        self.assertEqual("chunkfs: nothing: no such file or directory\n", self.fs("append", "/new", "nothing", status=1))
        self.assertEqual(f"chunkfs: {self.folder}: is a directory\n", self.fs("append", "/new", self.local("more", b""), self.folder, status=1))
        self.assertIn("a directory stands there", self.fs("append", "/d", said=b"more", status=1))
        self.assertEqual(self.fs("ls"), "d/\n")
        self.lines("create /f", "write /f 0 61", *(f"damage {server} 1 0" for server in range(3)))
        self.fs("append", "/f", self.local("more", bytes(2 * LINE_BYTES)), status=1)
        self.assertEqual(self.fs("shell", said=b"lines stat /f\n").split(" ")[2], "1")
