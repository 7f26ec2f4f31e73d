import re
import subprocess

import launch

from client.tests import TINY, StoreCase


class Upgrades(StoreCase):
    sizes = TINY

    def setUp(self) -> None:
        super().setUp()
        self.lines("create /f", "write /f 0 " + "61" * 20, "create /g", "write /g 0 62")

    def test_all_comes_back(self) -> None:
        self.assertEqual(self.fs("upgrade", "status"), "phase ordinary, epoch 0\n")
        self.assertIn("epoch 1", self.fs("upgrade", "prepare"))
        self.fs("rm", "/f")
        self.fs("append", "/g", said=b"more")
        told = self.fs("upgrade", "status")
        self.assertIn("chunk 1, on 3 of 3 servers as it was at the prepare: /f\n", told)
        self.assertTrue(told.endswith("a rollback would give all back\n"))
        self.assertIn("an upgrade stands, of which this says nothing: upgrade status tells", self.fs("fsck"))
        self.assertIn("rolled back to the prepare, epoch 2", self.fs("upgrade", "rollback"))
        self.assertEqual(self.fs("cat", "/f", "/g"), "a" * 20 + "b")

    def test_all_is_kept(self) -> None:
        self.fs("upgrade", "prepare")
        self.fs("rm", "/f")
        self.lines("lose 1 3")
        self.assertIn("finalized, epoch 2\n1 copies made", self.fs("upgrade", "finalize"))
        self.assertEqual(self.fs("ls"), "g\n")
        self.assertIn("13 NotUpgrading", self.fs("upgrade", "finalize", status=1))
        self.assertIn("13 NotUpgrading", self.fs("upgrade", "rollback", status=1))

    def test_what_is_lost_is_told_before_it_is_too_late(self) -> None:
        self.fs("upgrade", "prepare")
        self.lines("lose 0 2", "lose 1 2", "damage 0 1 0", "append /g 63")
        told = self.fs("upgrade", "status")
        self.assertIn("chunk 1, on 2 of 3 servers as it was at the prepare: /f\nchunk 2, on 1 of 3 servers", told)
        self.lines("lose 2 2", "mv /f /k")
        self.assertIn("chunk 2 has no sound replica of the prepare: /f", self.fs("upgrade", "rollback", status=1))
        self.assertIn("a rollback would be refused", self.fs("upgrade", "status", status=1))
        # The store isn't closed by that.
        self.assertEqual(self.fs("cat", "/g"), "bc")
        for words in (("rollback", "--anyway"), ("rollback",)):
            told = self.fs("upgrade", *words, status=1)
            self.assertTrue(told.startswith("chunkfs: upgrade rollback: A rollback can't be done while"), told)
            self.assertIn("(16 Unrestored 2) `upgrade status` says of which chunks", told)
            self.assertIn("12 RollingBack", self.fs("ls", status=1))
        self.assertIn("12 RollingBack", self.fs("upgrade", "finalize", status=1))
        told = self.fs("export", status=1)
        self.assertEqual(told, "chunkfs: an upgrade stands (phase rolling), which a script can't take along: `upgrade status` says how it can end\n")
        self.assertTrue(self.fs("report", status=1).startswith("phase rolling, epoch 2\n"))
        told = self.fs("upgrade", "status", status=1)
        self.assertIn("phase rolling, epoch 2: until the rollback is done the store answers nothing else\nchunk 1, on 2 of 3 servers as it was at the prepare: /f\nchunk 2, on 0 of 3", told)
        self.assertNotIn("keeps what stands now", told)
        self.cut_copy(told)
        self.assertEqual(self.fs("cat", "/g"), "bc")
        self.assertIn("finalized, epoch 2", self.fs("upgrade", "finalize"))
        self.assertEqual(self.fs("cat", "/g"), "bc")

    def test_a_store_from_images_tries_the_rollback(self) -> None:
        self.fs("upgrade", "prepare")
        self.fs("rm", "/f")
        for _ in range(2):
            self.take_image()
        told = self.fs("upgrade", "status")
        self.assertIn("chunk 1, on 3 of 3 servers as it was at the prepare: /f\n", told)
        self.assertTrue(told.endswith("a rollback would give all back\n"), told)
        self.lines("damage 0 1 0", "lose 1 1", "lose 2 1")
        told = self.fs("upgrade", "status", status=1)
        self.assertIn("chunk 1, on 0 of 3 servers as it was at the prepare: its files can't be told, since the store begins from an image\n", told)
        self.assertIn("chunk 1 has no sound replica", self.fs("upgrade", "rollback", status=1))
        self.assertIn("finalized, epoch 2", self.fs("upgrade", "finalize", status=1))

    def test_what_was_in_the_trash_counts(self) -> None:
        self.lines("create /h", "write /h 0 63", "rm -r /h", "create /i")
        self.fs("upgrade", "prepare")
        self.assertIn("chunk 4, on 3 of 3 servers as it was at the prepare: /h (in the trash)\n", self.fs("upgrade", "status"))
        self.lines("damage 0 4 0", "lose 1 4", "lose 2 4")
        lost = "chunk 4 has no sound replica of the prepare: /h (in the trash)"
        self.assertIn(lost, self.fs("upgrade", "rollback", status=1))
        self.assertTrue(self.fs("upgrade", "status", status=1).endswith("a rollback would be refused; `upgrade finalize` keeps what stands now\n"))
        self.assertIn("16 Unrestored 4", self.fs("upgrade", "rollback", "--anyway", status=1))
        told = self.fs("upgrade", "status", status=1)
        self.assertIn("chunk 4, on 0 of 3 servers as it was at the prepare: /h (in the trash)\n", told)
        self.cut_copy(told)
        # What nobody has can't be copied.
        self.assertIn("finalized, epoch 2", self.fs("upgrade", "finalize", status=1))

    def test_nothing_has_a_chunk(self) -> None:
        self.store.unlink()
        self.lines("mkdir /d", "rollingUpgrade prepare")
        self.assertIn("no file had a chunk at the prepare\na rollback would give all back\n", self.fs("upgrade", "status"))

    def cut_copy(self, told: str) -> None:
        """From now on the store is the copy that the status tells how to make."""
        subprocess.run(re.search("`(head .*) > COPY`", told)[1] + " > 'a copy'", shell=True, check=True)
        self.store = self.folder / "a copy"

    def test_where_a_copy_is_cut(self) -> None:
        self.lines("append /g 63")
        with self.session() as session:
            self.assertEqual([session.told(line).refusal.number for line in ("rollingUpgrade rollback", "rollback-begin")], [13, 13])
        self.lines("rollingUpgrade prepare")
        self.lines("mkdir /d", "lose 0 1", "lose 1 1", "lose 2 1")
        self.lines("rollback-begin")
        with self.session() as session:
            for line, number in (("rollback-commit", 16), ("rollingUpgrade rollback", 12), ("rollback-begin", 12), ("rollback-commit", 16)):
                self.assertEqual(session.told(line).refusal.number, number)
        self.cut_copy(self.fs("upgrade", "status", status=1))
        self.assertEqual(self.fs("ls"), "d/\nf\ng\n")
        self.assertIn("phase upgrade, epoch 1", self.fs("upgrade", "status", status=1))
        self.assertIn("finalized, epoch 2", self.fs("upgrade", "finalize"))

    def test_no_copy_is_told_where_no_mark_stands_before_the_rollback(self) -> None:
        self.store.unlink()
        words = [launch.program_of("chunkkeep").path, self.store, "--chunk", "16", "--block", "4", "--lab"]
        lost = "".join(f"lose {server} 1\n" for server in range(3))
        lines = f"create /f\r\nwrite /f 0 61\r\nrollingUpgrade prepare\r\n{lost}rollingUpgrade rollback\n"
        told = subprocess.run(words, input=lines.encode(), capture_output=True, check=True).stdout
        self.assertTrue(told.endswith(b"refused 16 Unrestored 1\n"), told)
        told = self.fs("upgrade", "status", status=1)
        self.assertIn("chunk 1, on 0 of 3", told)
        self.assertNotIn("COPY", told)

    def test_where_a_file_of_form_1_is_cut(self) -> None:
        self.lines("rollingUpgrade prepare", "mkdir /d", "lose 0 1", "lose 1 1", "lose 2 1", "rollback-begin")
        self.assertIn("16 Unrestored", self.fs("upgrade", "rollback", status=1))
        lines = [line for line in self.store.read_bytes().splitlines(True) if not line.startswith(b"#")]
        self.store.write_bytes(b"".join(lines).replace(b"chunkkeep 2", b"chunkkeep 1", 1))
        self.cut_copy(self.fs("upgrade", "status", status=1))
        self.assertEqual(self.fs("ls"), "d/\nf\ng\n")
        self.assertIn("finalized, epoch 2", self.fs("upgrade", "finalize"))

    def test_a_copy_within_the_upgrade_counts(self) -> None:
        self.fs("upgrade", "prepare")
        self.lines("append /g 63", "lose 0 3", "beat 0", "replicate", "lose 1 3", "lose 2 3")
        self.assertIn("chunk 3, on 1 of 3 servers as it was at the prepare: /g\n", self.fs("upgrade", "status"))
        self.assertIn("2 copies made", self.fs("upgrade", "rollback"))
        self.assertEqual(self.fs("cat", "/g"), "b")

    def test_a_rollback_that_is_begun_goes_on(self) -> None:
        self.fs("upgrade", "prepare")
        self.lines("rm /f", "rollback-begin")
        self.assertIn("a rollback would give all back", self.fs("upgrade", "status"))
        self.assertIn("rolled back to the prepare, epoch 2", self.fs("upgrade", "rollback"))
        self.assertEqual(self.fs("ls"), "f\ng\n")
