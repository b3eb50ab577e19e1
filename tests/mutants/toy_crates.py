"""Three small crates, each above the one before, and mutants of the lowest with the verdict that each must get."""

import tempfile
from pathlib import Path

from tests.mutants.reports import Verdict

FILES = {
    "crates.txt": "low:\nmiddle: low\nfmtcanon_c: low middle\n",
    "HANDLES": "Handles allowed: none.\n",
    "crates/low/specs/Lib.antt": "pub mod Doubles\npub mod Signs\n",
    "crates/low/specs/Doubles.antt": """-- Twice a number.
use Rattle.std.specs.Prelude.{ℕ, ◌+◌}

unfoldable pub doubled : ℕ → ℕ
doubled n = n + n

abbrev pub tripled : ℕ → ℕ
tripled n = n + n + n
""",
    "crates/low/specs/Signs.antt": """-- A sign between two numbers.
use Rattle.std.specs.Prelude.{ℕ, ◌+◌}

infixl 20 ◌⊕◌
abbrev pub ◌⊕◌ : ℕ → ℕ → ℕ
n ⊕ m = n + m
""",
    "crates/low/src/lib.rt": """//! Functions whose mutants are tried.
#![tactic(auto)]

ghost use Rattle.std.specs.Prelude.{◌≡◌, ◌%◌};
ghost use Rattle.low.specs.Doubles.{doubled};

const LIMIT: u32 = 100;

/// Returns twice the number.
pub fn twice(n: u8) -> u32
    ensures { result ≡ doubled n }
{
    let wide = u32::from(n);
    wide + wide
}

/// Returns the same number.
pub fn same(n: u32) -> u32
    ensures { result ≡ n }
{
    let kept = n;
    kept
}

/// Returns the low bits, which has an answer that no other wording fits.
pub fn low_bits(n: u32) -> u32
    ensures { result ≡ n % 65536 }
{
    n % 65536
}

/// Returns twice the number, which is even; one of the two clauses has an answer.
pub fn even(n: u8) -> u32
    ensures twice { result ≡ doubled n }
    ensures even { result % 2 ≡ 0 }
{
    let wide = u32::from(n);
    wide + wide
}

/// Returns the limit.
pub fn limit() -> u32
    ensures { result ≡ 100 }
{
    LIMIT
}
""",
    # It names the step `wide`.
    "crates/low/proofs/twice/Answers.antt": """use Rattle.std.proofs.Common.{ap, ◌+◌}
use Rattle.low.specs.Doubles.{doubled}
use Rattle.low.proofs.twice.Goals as goal

pub returns : goal.returns
unfolding doubled
returns c = ap (λ n. n + n) c.from-wide.ensures
""",
    "crates/low/proofs/even/Answers.antt": """use Rattle.std.proofs.Common.{ap, ◌+◌}
use Rattle.low.specs.Doubles.{doubled}
use Rattle.low.proofs.even.Goals as goal

pub returns-clause-twice : goal.returns-clause-twice
unfolding doubled
returns-clause-twice c = ap (λ n. n + n) c.from-wide.ensures
""",
    "crates/low/proofs/low_bits/Answers.antt": """use Rattle.std.proofs.Common.{refl}
use Rattle.low.proofs.low_bits.Goals as goal

pub returns : goal.returns
returns c = refl
""",
    "crates/middle/src/lib.rt": """//! A crate above it.
#![tactic(auto)]

ghost use Rattle.std.specs.Prelude.{◌≡◌};
ghost use Rattle.low.specs.Doubles.{doubled};

use low::twice;

/// Returns twice the number.
pub fn by_two(n: u8) -> u32
    ensures { result ≡ doubled n }
{
    twice(n)
}
""",
    "crates/fmtcanon_c/src/lib.rt": """//! A crate above both.
#![tactic(auto)]

use low::same;
use middle::by_two;

/// Returns twice the number.
pub fn again(n: u8) -> u32 {
    same(by_two(n))
}
""",
}
# Those with what the key of a mutant of `made` depends on: a definition, an operator, a module and types. Another
# type of the lowest crate has the name of a variant.
KEYED = {
    **FILES,
    "crates/low/specs/Names.antt": """use Rattle.low.specs.Signs.{◌⊕◌}
pub use Rattle.low.specs.Parts.{part}

abbrev pub named : ℕ
named = part ⊕ 1

abbrev pub unnamed : ℕ
unnamed = 2
""",
    "crates/low/specs/Parts.antt": "abbrev pub part : ℕ\npart = 3\n",
    "crates/low/src/sizes.rt": """pub struct Size { size: u32 }

pub const SIZES: [Size; 2] = [Size { size: 1 }, Size { size: 2 }];

impl<'a> From<&'a u32> for Size {
    ghost from_gives = { λ n size. size ≡ n };

    fn from(n: &u32) -> Size {
        Size { size: *n }
    }
}

impl Model for Size {
    ghost Value = { ℕ };
}
""",
    "crates/low/src/others.rt": "pub struct First { size: u32 }\n",
    "crates/middle/src/made.rt": """
ghost use Rattle.low.specs.Doubles.{
    doubled,
};
ghost use Rattle.low.specs.Signs.{◌⊕◌};
ghost use Rattle.low.specs.Names as names;

use low::{SIZES, Size};

enum Side {
    First,
}

/// Returns something.
pub fn made(n: Size) -> u32
    ensures { result ≡ doubled n ⊕ names.named }
{
    called(n) + SIZES[Side::First as usize]
}

fn called(n: Size) -> u32
    ensures { result ≡ n }
{
    n
}
""",
    "crates/middle/proofs/made/made/Answers.antt": "pub returns : goal.returns\nreturns c = refl\n",
}
WIDE = "file: src/lib.rt\nafter: pub fn twice\nold: let wide = u32::from(n);\nnew: "
EVEN = "file: src/lib.rt\nafter: pub fn even\nold: wide + wide\nnew: "
SEVEN = f"{WIDE}let wide = u32::from(n); if n == 7 {{ return"
COPY = "file: src/lib.rt\ncopy: twice\nnew: if n == 7 { return"
# Mutants of low, and what becomes of each.
MUTANTS = {
    "no-search": ("file: src/lib.rt\nold: let kept = n;\nnew: let kept = 1;", Verdict.REFUSED),
    "another-goal": (f"{WIDE}let wide = u32::from(n); if n == 7 {{ return 3; }}", Verdict.REFUSED),
    "constant": ("file: src/lib.rt\nold: u32 = 100\nnew: u32 = 101", Verdict.REFUSED),
    # Its answer fails, too, and hides the other clause until it is set aside.
    "beside-an-answer": (f"{EVEN}wide + wide + 1", Verdict.REFUSED),
    # Wrong, but only an answer fails; and then three that mean the same.
    "answer-alone": ("file: src/lib.rt\nafter: pub fn twice\nold: wide + wide\nnew: wide + 1", Verdict.LET_THROUGH),
    "harmless": ("file: src/lib.rt\nold:     n % 65536\nnew:     n % 65536 % 65536", Verdict.LET_THROUGH),
    "renamed": (f"{WIDE}let broad = u32::from(n); let wide = broad;", Verdict.LET_THROUGH),
    "same-meaning": ("file: src/lib.rt\nold: let kept = n;\nnew: let kept = (n);", Verdict.LET_THROUGH),
    # The twin means the same, and has an open goal, too: its branch would need an answer. In a copy it needs none.
    "twin-like-it": (
        f"{SEVEN} 3; }}\nsame: let wide = u32::from(n); if n == 7 {{ return wide + wide; }}", Verdict.TWIN_REFUSED
    ),
    "copy": (f"{COPY} 3; }} twice(n)\nsame: if n == 7 {{ return twice(n); }} twice(n)", Verdict.REFUSED),
    "twin": ("file: src/lib.rt\nold: let kept = n;\nnew: let kept = 1;\nsame: let kept = n + 0;", Verdict.REFUSED),
    "wrong-twin": (
        "file: src/lib.rt\nold: let kept = n;\nnew: let kept = 1;\nsame: let kept = 2;", Verdict.TWIN_REFUSED
    ),
    "broken-twin": (
        "file: src/lib.rt\nold: let kept = n;\nnew: let kept = 1;\nsame: let kept = true;", Verdict.TWIN_BROKEN
    ),
    "not-there": ("file: src/lib.rt\nold: let lost = n;\nnew: let kept = n;", Verdict.BROKEN),
    "contract": ("file: src/lib.rt\nold: result ≡ 100\nnew: 100 ≡ 100", Verdict.BROKEN),
    "another-type": ("file: src/lib.rt\nold: let kept = n;\nnew: let kept = true;", Verdict.BROKEN),
}


# A mutant of middle, whose check needs the library of low.
OF_MIDDLE = {"by-two": ("file: src/lib.rt\nold: twice(n)\nnew: twice(n) + 1\nsame: twice((n))", Verdict.REFUSED)}


def mutants_text(names):
    """Returns the text of a `mutants.txt` with these mutants."""
    return "".join(
        f"mutant: {name}\n{(MUTANTS[name] if name in MUTANTS else OF_MIDDLE[name])[0]}\n\n" for name in names
    )


def in_folder(test):
    """Gives a test a folder of its own."""

    def run(self):
        with tempfile.TemporaryDirectory(prefix="fmtcanon-test-") as folder:
            test(self, Path(folder))

    return run


def write(folder, files):
    """Writes files, by their path below the folder."""
    for path, text in files.items():
        (folder / path).parent.mkdir(parents=True, exist_ok=True)
        (folder / path).write_text(text, encoding="utf-8")
