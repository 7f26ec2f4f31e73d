from client.tests import TINY, StoreCase


class Listing(StoreCase):
    sizes = TINY

    def setUp(self) -> None:
        super().setUp()
        self.lines("mkdir /a/b", "create /a/f", "write /a/f 0 " + "61" * 20, "create /a/b/two%20words", "create /h")
        self.lines("lose 1 2", "beat 1")

    def test_ls(self) -> None:
        self.assertEqual(self.fs("ls", "/a"), "b/\nf\n")
        self.assertEqual(self.fs("ls", "-l", "/a"), "d  -            - b/\n-  2           20 f\n")
        self.assertEqual(self.fs("ls", "-l", "-h", "/a/f"), "-  2         20 B /a/f\n")
        self.assertEqual(self.fs("ls", "-R", "/h"), "/h\n")
        self.assertEqual(self.fs("ls", "-R"), "/a/\n/a/b/\n/a/b/two words\n/a/f\n/h\n")
        self.assertIn("Nothing stands at the path.", self.fs("ls", "/nothing", "/h", status=1))

    def test_a_lost_file_hides_no_other(self) -> None:
        self.lines("lose 0 2", "lose 2 2")
        self.assertIn("? f: There is no live replica", self.fs("ls", "-l", "/a"))
        for words in (("ls", "/a/f"), ("ls", "-l", "/a/f"), ("du", "/a/f"), ("cat", "/a/f"), ("get", "/a/f", ".")):
            self.assertIn("/a/f: There is no live replica", self.fs(*words, status=1))
        self.assertEqual(self.fs("find", "/a/f"), "/a/f\n")
        self.assertEqual(self.fs("ls", "-R", "/a"), "/a/b/\n/a/b/two words\n/a/f\n")
        self.assertEqual(self.fs("find", "/a", "-name", "f"), "/a/f\n")
        self.assertIn("28 NoReplica", self.fs("count", "/a", status=1))

    def test_the_root_stays(self) -> None:
        for words in (("mv", "/", "/a"), ("cp", "/", "/new"), ("mv", "/h", "/", "/a")):
            self.assertIn("The root can't be moved, deleted or copied. (9 IsRoot)", self.fs(*words, status=1))

    def test_sums(self) -> None:
        self.assertEqual(self.fs("du", "/").split(), ["20", "56", "/a", "0", "0", "/h"])
        self.assertEqual(self.fs("du", "-s", "-h", "/").split(), ["20", "B", "56", "B", "/"])
        self.assertEqual(self.fs("count", "/", "/a").split(), ["3", "3", "20", "/", "2", "2", "20", "/a"])

    def test_tree_and_find(self) -> None:
        self.assertIn("/nothing", self.fs("tree", "/nothing", status=1))
        self.assertEqual(self.fs("tree", "/"), "/\n├── a/\n│   ├── b/\n│   │   └── two words\n│   └── f\n└── h\n")
        self.assertEqual(self.fs("find", "/", "-name", "*w*"), "/a/b/two words\n")
        self.assertEqual(self.fs("find", "/a"), "/a\n/a/b\n/a/b/two words\n/a/f\n")

    def test_changes_of_names(self) -> None:
        self.fs("mkdir", "/c/d", "/e")
        self.fs("mv", "/h", "/a/f", "/c")
        self.assertEqual(self.fs("ls", "/c"), "d/\nf\nh\n")
        self.fs("cp", "/c", "/e")
        self.fs("append", "/c/f", said=b"more")
        self.assertEqual(self.fs("cat", "/e/c/f"), "a" * 20)
        self.assertEqual(self.fs("cat", "/c/f"), "a" * 20 + "more")
        self.assertIn("a directory that is there", self.fs("mv", "/a", "/c", "/nothing", status=1))
        self.assertIn("Something stands at the path already.", self.fs("cp", "/c", "/e", status=1))

    def test_rm(self) -> None:
        self.assertIn("7 NotEmpty", self.fs("rm", "/a", "/h", status=1))
        self.assertIn("nothing stands there", self.fs("rm", "/h", status=1))
        self.assertEqual(self.fs("rm", "-f", "/h"), "")
        self.assertRegex(self.fs("rm", "-r", "/a"), r"/a is in the trash as lines:/\.deleted\.\d{20}\.\d{20}\.a\n")
