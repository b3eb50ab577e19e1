"""Tries which clauses of a crate are counted."""

from pathlib import Path

from tests.frame.cases import tests_of
from tests.mutants.clauses import clauses_of_traits, is_broken, public_clauses

SOURCE = """
pub trait Shape {
    ghost size: { Self → ℕ };

    /// The area.
    fn area(&self) -> u64
        requires { size self.now ≤ 9 }
        ensures { result ≡ size self.now };

    fn name(&self) -> &str
        ensures short { length result.now ≤ 9 }
        ensures whole { result.now ≢ [] };
}

pub struct Square(u64);

impl Shape for Square {
    ghost size = { λ it. it.0 };

    fn area(&self) -> u64 {
        self.0
    }

    fn name(&self) -> &str {
        NAME
    }
}

impl Default for Square {
    ghost is_default = { λ it. it ≡ Square 0 };

    fn default() -> Square {
        Square(0)
    }
}

impl Drop for Square {
    fn drop(&mut self) {
        let _ = self;
    }
}

impl Square {
    pub fn side(&self) -> u64
        ensures side { result ≡ self.now.0 }
    {
        self.0
    }
}
"""
WANTED = [
    ("SquareShape::area", ""),
    ("SquareShape::name", "short"),
    ("SquareShape::name", "whole"),
    ("SquareDefault::default", ""),
    ("Square::side", "side"),
]


class OneCrate:
    """A crate in a folder."""

    def __init__(self, folder):
        self.of_name = folder

    def names(self):
        return ["shapes"]

    def folder(self, _):
        return self.of_name


def test_clauses_of_traits(trials, work):
    crate = Path(work)
    source = crate / "src/main.rt"
    source.parent.mkdir()
    source.write_text(SOURCE, encoding="utf-8")
    found = list(public_clauses(crate, clauses_of_traits(OneCrate(crate))))
    trials.expect("clauses, also those of traits", [it[:2] for it in found], WANTED)
    trials.expect("what a clause says", found[0][2].strip(), "{ result ≡ size self.now }")


def test_broken_clauses(trials):
    refused = [("SquareShape::name", ["returns-in-Ok-clause-short"]), ("SquareDefault::default", ["returns"])]
    wanted = [("SquareShape::name", "short"), ("SquareDefault::default", "")]
    trials.expect("clauses that a mutant breaks", [it for it in WANTED if is_broken(*it, refused)], wanted)


Tests = tests_of(globals())
