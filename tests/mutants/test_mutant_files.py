"""Tries what is read of the files of mutants, where a trial of this repository's own mutants would show no fault."""

import unittest

from tests.mutants import toy_crates
from tests.mutants.mutant_files import Pair, functions_at, mutants_of, read_pairs
from tests.mutants.toy_crates import in_folder
from tests.mutants.twins import twin_of_copy, twin_of_edit

SOURCE = """
impl<'a> Reader<'a> {
    /// A brace in a comment: {
    pub fn new(text: &'a [u8; 2]) -> Reader<'a>
        requires { IsShort text.now }
        ensures { result ≡ reader "}" }
    {
        Reader { text, mark: b'{' }
    }
}

const LIMIT: u16 = 1;

fn front(n: u16) -> u16 {
    n.min(LIMIT)
}
"""
HOMES = {"Reader": ["readers"]}


class Files(unittest.TestCase):
    """What the files of mutants say, and where that is."""

    TEXT = "fn a() { 1 }\nfn b() { 1 }\n"

    def at(self, part):
        start = SOURCE.index(part)
        return functions_at(SOURCE, "src/lib.rt", HOMES, start, start + len(part))

    def test_places(self):
        self.assertEqual(self.at("b'{'"), {"readers::Reader::new"})
        self.assertEqual(self.at("n.min"), {"front"})
        self.assertEqual(self.at("u16 = 1"), set())
        self.assertEqual(self.at("text: &'a [u8; 2]"), set())
        self.assertEqual(functions_at(SOURCE, "specs/Lib.antt", HOMES, 0, 1), set())
        with self.assertRaises(ValueError):
            self.at("IsShort")

    def test_not_readable(self):
        head = "mutant: m\nfile: src/a.rt\nold: 1\nnew: 2\n"
        for text in [
            f"{head}3\n",
            f"{head}what: 3\n",
            f"{head}{head}",
            "mutant: m\nnew: 2\n",
            "file: src/a.rt\nold: 1\nnew: 2\n",
            f"{head}new: 3\n",
            "mutant: m\nfile: src/a.rt\nold: 1\nsame: 2\n",
            f"{head}same: 2\nsame: 2\n",
            f"{head}old: 2\nsame: 2\n",
            "twin: m\nsame: 2\n",
        ]:
            with self.assertRaises(ValueError):
                read_pairs(text)

    def test_not_there_once(self):
        for pair in [Pair("", "1", "2"), Pair("", "1", "2", "fn"), Pair("", "a", "c", "fn b"), Pair("", "3", "4")]:
            with self.assertRaises(ValueError):
                pair.applied(self.TEXT)

    @in_folder
    def test_broken_twins(self, folder):
        toy_crates.write(folder, {"src/lib.rt": "fn a() { 1 }\nfn b() { 3 }\n"})
        for pairs, is_broken in [
            ("old: 1\nnew: 2\nsame: (1)\n", False),
            ("old: 1\nnew: 2\nsame: 2\n", True),
            ("old: 1\nnew: 2\nold: 2\nnew: 4\nsame: 1\n", True),
        ]:
            toy_crates.write(folder, {"mutants.txt": f"mutant: m\nfile: src/lib.rt\n{pairs}"})
            [mutant] = mutants_of(folder)
            self.assertEqual((mutant.is_broken(), mutant.twin.is_broken()), (False, is_broken), pairs)

    def test_twins_by_rule(self):
        for make, text, wanted in [
            (twin_of_copy, "if n == 7 { return 3; } f(n)", "if n == 7 { return f(n); } f(n)"),
            (twin_of_copy, "f(n) + 1", None),
            (twin_of_edit, "Flag::Alt => self.alt,", "Flag::Alt => { let it = self.alt; it },"),
            (twin_of_edit, "width: 2", "width: { let it = 2; it }"),
            (twin_of_edit, "n + 1", None),
        ]:
            self.assertEqual(make(text), wanted)

    @in_folder
    def test_must_fail(self, folder):
        edit = "file: src/lib.rt\nold: 1\nnew: 2\n"
        twin = "twin: m\nfile: src/lib.rt\nold: 1\nsame: (1)\n"
        toy_crates.write(folder, {"src/lib.rt": "fn a() { 1 }\nfn b() { 3 }\n", "must-fail/m.edit": edit})
        for text, mutant, same in [(twin, "2", "(1)"), (twin.replace("same:", "new: 4\nsame:"), "4", "(1)")]:
            toy_crates.write(folder, {"mutants.txt": text})
            [found] = mutants_of(folder)
            self.assertEqual((found.pairs[0].new, found.twin.pairs[0].new, found.functions), (mutant, same, {"a"}))
        toy_crates.write(folder, {"mutants.txt": twin.replace("old: 1", "old: 3")})
        self.assertTrue(mutants_of(folder)[0].twin.is_broken())
        for text in [twin.replace("twin: m", "twin: n"), f"mutant: m\n{edit}"]:
            toy_crates.write(folder, {"mutants.txt": text})
            with self.assertRaises(ValueError):
                mutants_of(folder)


if __name__ == "__main__":
    unittest.main()
