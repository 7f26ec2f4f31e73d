"""Whole trees through the client: an upgrade, kills, a full disk and two at once."""

import os
import random
import resource
import shutil
import signal
import subprocess
import time
from contextlib import suppress
from pathlib import Path

from client import ROOT
from client.tests import StoreCase, tree_of

FILES = 300
KILLS = 12
# A put of so many files is killed, before its end as a rule.
KILLED_FILES = 40
SEED = 66
# So long it is waited for a program that has to end, on a machine that has much else to do.
SECONDS = 300
QUIET = {"stdin": subprocess.DEVNULL, "stdout": subprocess.DEVNULL, "stderr": subprocess.PIPE}


def real_files(count: int) -> list[Path]:
    """So many files of the repository, of all sizes: by their sizes, at even distances."""
    listed = subprocess.run(["git", "ls-files"], cwd=ROOT, capture_output=True, text=True, check=True).stdout.splitlines()
    files = sorted((ROOT / name for name in listed if (ROOT / name).is_file()), key=lambda file: (file.stat().st_size, file))
    return [files[at * (len(files) - 1) // (count - 1)] for at in range(count)]


class Trials(StoreCase):
    is_lab = True

    def tree(self, count: int) -> Path:
        """A directory with files of the repository."""
        top = self.folder / "tree"
        for file in real_files(count):
            place = top / file.relative_to(ROOT)
            place.parent.mkdir(parents=True, exist_ok=True)
            shutil.copyfile(file, place)
        return top

    def assert_out(self, path: str, tree: dict[str, bytes | None]) -> None:
        """What comes out of the store is this, byte for byte."""
        shutil.rmtree(self.folder / "out", ignore_errors=True)
        self.fs("get", path, "out")
        self.assertEqual(tree_of(self.folder / "out"), tree)

    def test_a_tree_through_an_upgrade(self) -> None:
        top = self.tree(FILES)
        before = tree_of(top)
        self.assertEqual(sum(content is not None for content in before.values()), FILES)
        self.fs("put", "--verify", top, "/")
        self.assert_out("/tree", before)
        self.fs("upgrade", "prepare")
        chance = random.Random(SEED)
        names = sorted(name for name, content in before.items() if content)
        for name in chance.sample(names, 20):
            self.fs("append", f"/tree/{name}", said=b"changed within the upgrade")
        self.fs("mv", "/tree/docs", "/moved")
        self.fs("rm", "-r", "/tree/bench")
        faults = [f"lose {chance.randrange(3)} {chunk}" for chunk in range(1, 60, 2)]
        faults += [f"damage {chance.randrange(3)} {chunk} 0" for chunk in range(2, 60, 2)]
        script = ["restart 1", *faults, "beat 0", "beat 1", "beat 2", "restart master", "restart 2", *["replicate"] * 8]
        self.local("faults", "".join(f"lines {line}\n" for line in script).encode())
        self.fs("shell", "-f", "faults")
        self.assertIn("a rollback would give all back", self.fs("upgrade", "status"))
        self.fs("upgrade", "rollback")
        self.assert_out("/tree", before)
        self.assertIn("all is sound", self.fs("fsck", "--repair"))
        self.assert_out("/tree", before)

    def test_kills(self) -> None:
        top = self.tree(KILLED_FILES)
        tree = tree_of(top)
        self.fs("put", top, "/")
        begun = time.monotonic()
        self.fs("put", "-f", top, "/")
        whole = time.monotonic() - begun
        chance = random.Random(SEED)
        for _ in range(KILLS):
            self.killed(chance.uniform(0, 1.5 * whole), chance.choice((True, False)))
            self.whole_files(tree)
        self.fs("put", "-f", top, "/")
        self.assert_out("/tree", tree)
        self.assertIn("all is sound", self.fs("fsck"))

    def killed(self, seconds: float, is_alone: bool) -> None:
        """A put that is killed after some time, alone or with the store's program."""
        run = subprocess.Popen(self.command("put", "-f", "tree", "/"), start_new_session=True, **{**QUIET, "stderr": subprocess.DEVNULL})
        time.sleep(seconds)
        programs = [] if is_alone else Path(f"/proc/{run.pid}/task/{run.pid}/children").read_text().split()
        for pid in (run.pid, *map(int, programs)):
            with suppress(ProcessLookupError):
                os.kill(pid, signal.SIGKILL)
        run.wait()
        self.await_free()

    def await_free(self) -> None:
        """Waits until a program whose client was killed has ended: it has the file to its end."""
        limit = time.monotonic() + SECONDS
        while subprocess.run(self.command("ls", "/"), **QUIET).returncode:
            self.assertLess(time.monotonic(), limit)

    def whole_files(self, tree: dict[str, bytes | None]) -> None:
        """Each file that has its name has all its bytes. One whose old bytes had gone already is in the trash."""
        shutil.rmtree(self.folder / "out", ignore_errors=True)
        self.fs("get", "/tree", "out")
        for name, content in tree_of(self.folder / "out").items():
            if not name.endswith("._COPYING_"):
                self.assertEqual(content, tree[name], name)

    def test_a_full_disk(self) -> None:
        """On a file system in memory, where one can be mounted."""
        top, disk = self.tree(KILLED_FILES), self.folder / "disk"
        disk.mkdir()
        # The log has each byte twice.
        size = sum(file.stat().st_size for file in top.rglob("*") if file.is_file())
        mount = ["mount", "-t", "tmpfs", "-o", f"size={size}", "none", disk]
        if subprocess.run(mount, **QUIET).returncode:
            self.skipTest("no file system can be mounted")
        self.addCleanup(subprocess.run, ["umount", disk], check=True)
        self.store = disk / "store"
        self.fs("mkdir", "/before")
        self.assertIn("it can't be written", self.fs("put", top, "/", status=1))
        subprocess.run(["mount", "-o", f"remount,size={100 * size}", disk], check=True)
        self.assertIn("before/\n", self.fs("ls"))
        self.fs("put", "-f", top, "/")
        self.assert_out("/tree", tree_of(top))

    def test_a_file_that_cant_grow(self) -> None:
        top = self.tree(KILLED_FILES)
        tree = tree_of(top)
        self.fs("mkdir", "/before")
        room = self.store.stat().st_size + sum(len(content) for content in tree.values() if content)

        def limit() -> None:
            resource.setrlimit(resource.RLIMIT_FSIZE, (room, room))

        done = subprocess.run(self.command("put", top, "/"), preexec_fn=limit, **QUIET)
        self.assertEqual(done.returncode, 1)
        self.assertIn(b"the store's program has ended", done.stderr)
        self.assertLessEqual(self.store.stat().st_size, room)
        self.assertIn("before/\n", self.fs("ls"))
        self.fs("put", "-f", top, "/")
        self.assert_out("/tree", tree)

    def test_two_at_once(self) -> None:
        self.fs("mkdir", "/a")
        with subprocess.Popen(self.command("shell"), stdin=subprocess.PIPE, stdout=subprocess.PIPE, text=True) as first:
            print("ls", file=first.stdin, flush=True)
            self.assertEqual(first.stdout.readline(), "a/\n")
            before = self.store.read_bytes()
            self.assertIn("another process has it", self.fs("mkdir", "/b", status=1))
            self.assertEqual(self.store.read_bytes(), before)
            print("mkdir /c", file=first.stdin, flush=True)
        self.assertEqual(first.returncode, 0)
        self.assertEqual(self.fs("ls"), "a/\nc/\n")
