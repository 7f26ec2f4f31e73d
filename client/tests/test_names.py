import unittest

from client.names import escaped, hidden_parts, line_path, named, old_path, shown

NAMES = ["notes", "two words", "a:b", "100%", "%20", "tab\there", "line\nend", "\udcff\udc80", "é", "é\udcc3", ".deleted.x", ".deleted", "."]
HIDDEN = ".deleted.00000000000000000007.00000000000000000002.old name"


class Names(unittest.TestCase):
    def test_what_is_escaped_is_shown_as_it_was(self) -> None:
        for name in NAMES:
            self.assertEqual(shown(f"/a/{escaped(name)}"), f"/a/{name}")

    def test_no_escaped_name_has_what_a_line_cant_have(self) -> None:
        for name in NAMES:
            self.assertRegex(escaped(name), r"\A[^\x00-\x20:\udc80-\udcff]+\Z")
            self.assertFalse(escaped(name).startswith(".deleted."))

    def test_names_that_differ_are_escaped_to_names_that_differ(self) -> None:
        self.assertEqual(len(set(map(escaped, NAMES))), len(NAMES))

    def test_what_no_name_is_escaped_to_is_shown_as_it_stands(self) -> None:
        for element in ("100%", "%41", "%2F", "%00", "%C3%A9"):
            self.assertEqual(shown(element), element)

    def test_typed_paths(self) -> None:
        for typed, path in (("a b", "/x/a%20b"), ("/a/../b/", "/b"), ("//a", "/a"), ("..", "/"), (".", "/x"), ("lines:/100%", "/100%")):
            self.assertEqual(line_path(typed, "/x"), path)

    def test_a_hidden_path_is_named_as_it_stands(self) -> None:
        hidden = f"/a/{escaped('b c')}/{HIDDEN.replace(' ', '%20')}"
        self.assertEqual(line_path(named(hidden)), hidden)
        self.assertEqual(named("/a/b%20c"), "/a/b c")
        # A file of this machine may have a name of that form. It isn't hidden in the store.
        self.assertEqual(line_path(f"/a/{HIDDEN}"), f"/a/{escaped(HIDDEN)}")
        self.assertEqual(named(line_path(f"/a/{HIDDEN}")), f"/a/{HIDDEN}")
        self.assertEqual(line_path("lines:/a b\nc"), "/a%20b%0Ac")
        self.assertEqual(line_path("b c", "/a%20b/" + HIDDEN.replace(" ", "")), f"/a%20b/{HIDDEN.replace(' ', '')}/b%20c")

    def test_hidden_names(self) -> None:
        self.assertEqual(hidden_parts(f"/a/{HIDDEN}"), (7, 2, "old name"))
        self.assertIsNone(hidden_parts("/a/.deleted.7.2.old"))
        self.assertEqual(old_path(f"/a/{HIDDEN}/b"), "/a/old name/b")
        self.assertEqual(old_path(f"/a/x{HIDDEN}"), f"/a/x{HIDDEN}")
