from client.tests import TINY, StoreCase


class Checks(StoreCase):
    sizes = TINY

    def setUp(self) -> None:
        super().setUp()
        self.lines("mkdir /a", "create /a/f", "write /a/f 0 " + "61" * 20, "snapshot /a/f /g", "create /h", "write /h 0 62")

    def test_a_sound_store(self) -> None:
        told = self.fs("fsck", "-v")
        self.assertIn("/a/f 20 bytes: chunk 1 on servers 0, 1, 2, chunk 2 on servers 0, 1, 2\n", told)
        self.assertIn("3 files, 0 of them in the trash, 3 chunks, 11 blocks asked, 0 chunks short, 0 copies made\nall is sound\n", told)

    def test_a_lost_replica_is_found_and_copied(self) -> None:
        self.lines("lose 1 2")
        told = self.fs("fsck", status=1)
        self.assertIn("chunk 2 on servers 0, 2, where 3 are wanted: /g, /a/f\n", told)
        self.assertIn("1 chunks short", told)
        self.assertIn("0 chunks short, 1 copies made\nall is sound", self.fs("fsck", "--repair"))
        self.fs("fsck")

    def test_damage_is_found_and_repaired(self) -> None:
        self.lines("damage 0 1 2", "damage 1 1 0", "damage 0 3 0")
        self.assertIn("all is sound", self.fs("fsck", "--repair"))
        self.assertEqual(self.fs("cat", "/a/f", "/h"), "a" * 20 + "b")
        self.assertIn("0 copies made\nall is sound", self.fs("fsck", "--repair"))

    def test_what_cant_be_repaired_is_told(self) -> None:
        self.lines(*(f"lose {server} 3" for server in range(3)))
        self.assertIn("/h: its size can't be told: There is no live replica", self.fs("fsck", "/h", status=1))
        told = self.fs("fsck", "--repair", status=1)
        self.assertIn("/h: ", told)
        self.assertIn("not all is sound", told)
        self.assertIn("all is sound", self.fs("fsck", "/a"))

    def test_why_no_more_is_copied_is_told(self) -> None:
        self.lines("lose 1 3", "lose 2 3", "beat 1", "beat 2", "damage 0 3 0", "lose 1 1", "beat 1")
        told = self.fs("fsck", "--repair", status=1)
        self.assertIn("no more copies: There is no live replica", told)
        self.assertIn("keeps other chunks from being copied", told)
        self.lines("rm /h")
        self.fs("expunge", "--all")
        self.assertIn("1 copies made\nall is sound", self.fs("fsck", "--repair"))

    def test_what_may_come_back_is_looked_at_too(self) -> None:
        self.lines("mkdir /d/e", "create /d/e/k", "write /d/e/k 0 6b", "rm /d/e/k", "rm -r /d", "rm /h", "damage 0 3 0", "lose 1 4")
        told = self.fs("fsck", status=1)
        self.assertIn("chunk 4 on servers 0, 2, where 3 are wanted: /d/e/k (in the trash)\n", told)
        self.assertIn("4 files, 2 of them in the trash, 4 chunks", told)
        self.assertIn("2 files, 0 of them in the trash", self.fs("fsck", "/a", "/g"))
        self.assertEqual(self.fs("fsck", "--chunk", "4"), "/d/e/k (in the trash)\n")
        self.assertIn("all is sound", self.fs("fsck", "--repair"))
        self.lines(*(f"lose {server} 3" for server in range(3)))
        self.assertIn("/h (in the trash): its size can't be told", self.fs("fsck", status=1))
        self.fs("expunge", "--all")
        self.assertIn("2 files, 0 of them in the trash", self.fs("fsck"))

    def test_paths_of_a_chunk(self) -> None:
        self.assertEqual(self.fs("fsck", "--chunk", "1"), "/g\n/a/f\n")
        self.assertEqual(self.fs("fsck", "--chunk", "9", status=1), "chunkfs: no file has chunk 9\n")
        self.lines(*(f"lose {server} 3" for server in range(3)))
        self.assertEqual(self.fs("fsck", "--chunk", "1"), "/g\n/a/f\n")
        # Of a file whose last chunk no server has nobody tells the chunks.
        self.assertEqual(self.fs("fsck", "--chunk", "3"), "/h\nchunkfs: chunk 3 is of none but these, whose chunks can't be told\n")

    def test_a_report(self) -> None:
        self.lines("lose 1 2", "beat 1", "rollingUpgrade prepare")
        told = self.fs("report")
        self.assertIn("phase upgrade, epoch 1\n3 files, 3 chunks, 1 short of 3 replicas\nserver 0, rack 0: 3 chunks, 21 B\n", told)
        self.assertIn("server 1, rack 0: 2 chunks, 17 B\n", told)
        self.assertRegex(told, rf"\nlog {self.store}: \S+ [BK]\n\Z")
