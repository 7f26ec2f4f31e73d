import io
import unittest
from contextlib import redirect_stderr

from client.progress import Progress, human


class Shown(unittest.TestCase):
    def test_sizes(self) -> None:
        sizes = {0: "0 B", 1_023: "1023 B", 1_024: "1.0 K", 1_536: "1.5 K", 3 * 1_024**3: "3.0 G", 5_000 * 1_024**4: "5000.0 T"}
        for size, text in sizes.items():
            self.assertEqual(human(size), text)

    def test_a_bar_grows_with_what_is_done(self) -> None:
        progress = Progress(100)
        self.assertEqual(list(progress.counted([b"a" * 20, b"b" * 30])), [b"a" * 20, b"b" * 30])
        told = io.StringIO()
        with redirect_stderr(told):
            progress.show("")
            progress.done += 60
            progress.show("")
        self.assertIn(f"[{'#' * 15}{' ' * 15}] 50 B of 100 B, ", told.getvalue())
        self.assertIn(f"[{'#' * 30}] 110 B of 100 B, ", told.getvalue())
