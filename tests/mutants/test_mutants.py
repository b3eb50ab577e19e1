"""Tries the script of the mutants: each kind of mutant gets its verdict, and a line of a record holds as long as it
should.

Its crates are those of toy_crates.py, which the prover checks in seconds. `make mutants` runs it, and not the gate,
which tries mutants that must be refused with twins that must get through.
"""

import os
import re
import shutil
import subprocess
import sys
import tempfile
import unittest
import unittest.mock
from pathlib import Path

from tests.mutants import mutant_keys, toy_crates
from tests.mutants.crates import TOP, Crates
from tests.mutants.definitions import bare, definitions_in, without_comments
from tests.mutants.mutant_files import Mutant, Pair, mutants_of
from tests.mutants.mutant_keys import Keys
from tests.mutants.mutants import Mutants
from tests.mutants.refused import Record
from tests.mutants.reports import Report, Verdict, verdict_of, verdict_with_twin
from tests.mutants.schedule import Task, run_all
from tests.mutants.toy_crates import in_folder

REFUSED, LET_THROUGH, BROKEN = Verdict.REFUSED, Verdict.LET_THROUGH, Verdict.BROKEN


class Reports(unittest.TestCase):
    """What is read from the prover's report."""

    TEXT = """fn pf_x::a::Left::new: no proof: expected answers in ./proofs/a/Left/new/Answers.antt; \
`search` did not prove `returns`, `f-requires`
fn pf_x::a::Right::new: no proof: it calls `pf_x::a::Left::new`, which is not proved
fn pf_x::a::fn::Right::has::any: no proof: expected answers in ./proofs/x; `search` did not prove `returns-2`
fn pf_x::a::Right::has: no proof: it calls `pf_x::a::fn::Right::has::any`, which is not proved
only=3 holes=0
"""
    FITS_NOT = (
        "./proofs/a/Left/new/Answers.antt:5:1 error: `returns`: the two types differ\n"
        "fn pf_x::a::Left::new: not proved\nonly=1 holes=0\n"
    )

    def verdict(self, text, path, answers=(), **more):
        mutant = Mutant("m", functions=frozenset([path] if path else []), **more)
        return verdict_of(Report(text, "pf_x", answers), mutant)

    def test_open_goals(self):
        for path, wanted in [
            ("a::Left::new", (REFUSED, "returns f-requires of a::Left::new")),
            ("a::Right::new", (LET_THROUGH, "no goal without an answer is open in a::Right::new")),
            ("b::Left::new", (BROKEN, "the check does not list b::Left::new")),
            ("a::Right::has", (REFUSED, "returns-2 of a::fn::Right::has::any")),
        ]:
            self.assertEqual(self.verdict(self.TEXT, path), wanted)

    def test_answers(self):
        file = "proofs/a/Left/new/Answers.antt"
        for answered, wanted in [({"returns"}, REFUSED), ({"returns", "f-requires"}, LET_THROUGH)]:
            self.assertIs(self.verdict(self.TEXT, "a::Left::new", {file: answered})[0], wanted)
        for path in ["a::Left::new", None]:
            self.assertIs(self.verdict(self.FITS_NOT, path)[0], LET_THROUGH)

    def test_no_verdict(self):
        for text in ["antt gave no verdict: it ran out of memory\n", "no verdict\nonly=1"]:
            self.assertIs(self.verdict(text, "a::Left::new")[0], Verdict.NOT_JUDGED)
        for text in ["", "Killed", "error: expected `;`"]:
            self.assertIs(self.verdict(text, "a::Left::new")[0], BROKEN)

    def test_twins(self):
        for mutant, twin, wanted in [
            (REFUSED, LET_THROUGH, REFUSED),
            (REFUSED, REFUSED, Verdict.TWIN_REFUSED),
            (REFUSED, BROKEN, Verdict.TWIN_BROKEN),
            (REFUSED, Verdict.NOT_JUDGED, Verdict.TWIN_BROKEN),
            (LET_THROUGH, REFUSED, LET_THROUGH),
            (BROKEN, LET_THROUGH, BROKEN),
        ]:
            self.assertIs(verdict_with_twin((mutant, "why"), (twin, "why"))[0], wanted)


class KeysOfMutants(unittest.TestCase):
    """What the key of a mutant depends on: all that decides whether it is refused, and nothing else."""

    MUTANT = Mutant("m", [Pair("src/made.rt", "called(n)", "called(n) + 1")], frozenset(["made::made"]))
    # Edits of one file each that change the key, and that don't.
    CHANGES = [
        ("crates/middle/src/made.rt", "doubled n ⊕", "doubled n + n ⊕"),
        ("crates/middle/src/made.rt", "    called(n)", "    called(n) + 0 + 0"),
        ("crates/low/specs/Doubles.antt", "doubled n = n + n", "doubled n = n"),
        ("crates/low/specs/Signs.antt", "n ⊕ m = n + m", "n ⊕ m = n"),
        ("crates/low/specs/Names.antt", "unnamed = 2", "unnamed = 4"),
        ("crates/low/specs/Parts.antt", "part = 3", "part = 4"),
        ("crates/low/src/sizes.rt", "size: u32", "size: u64"),
        ("crates/middle/src/made.rt", "    First,", "    Second, First,"),
        ("crates/low/src/sizes.rt", "{ ℕ }", "{ ℤ }"),
        ("crates/low/src/sizes.rt", "size ≡ n", "n ≡ n"),
        ("crates/low/src/sizes.rt", "size: 2", "size: 3"),
        ("crates/middle/src/made.rt", "result ≡ n }", "result ≡ n + n }"),
        ("crates/middle/src/made.rt", "/// Returns something.", "#[tactic(auto, using(lemma))]"),
        ("crates/middle/src/lib.rt", "#![tactic(auto)]", "#![tactic(none)]"),
        ("crates/middle/proofs/made/made/Answers.antt", "returns", "returns-else"),
    ]
    NO_CHANGES = [
        ("crates/middle/src/made.rt", "Returns something", "Returns nothing"),
        ("crates/middle/proofs/made/made/Answers.antt", "refl", "sym"),
        ("crates/low/specs/Doubles.antt", "-- Twice", "-- Two times"),
        ("crates/low/specs/Doubles.antt", "tripled n = n + n + n", "tripled n = n"),
        ("crates/low/proofs/twice/Answers.antt", "ap (", "(ap) ("),
        ("crates/low/src/lib.rt", "let kept = n;", "let other = n;"),
        ("crates/low/src/sizes.rt", "size: *n", "size: 1"),
        ("crates/low/src/others.rt", "size: u32", "size: u64"),
    ]

    def key(self, folder, edit=None, mutant=MUTANT, crate="middle", goals="returns of made::made"):
        """Returns the key of a mutant, with one edit of a file."""
        shutil.rmtree(folder, ignore_errors=True)
        files = dict(toy_crates.KEYED)
        if edit:
            path, old, new = edit
            self.assertIn(old, files[path])
            files[path] = files[path].replace(old, new, 1)
        toy_crates.write(folder, files)
        return Keys(Crates(folder)).key(crate, mutant, goals)

    @in_folder
    def test_edits(self, folder):
        before = self.key(folder / "a")
        for edit in self.CHANGES:
            self.assertNotEqual(self.key(folder / "a", edit), before, edit)
        for edit in self.NO_CHANGES:
            self.assertEqual(self.key(folder / "a", edit), before, edit)

    @in_folder
    def test_mutants(self, folder):
        functions = self.MUTANT.functions
        others = [
            Mutant("m", [Pair("src/made.rt", "called(n)", "called(n) + 2")], functions),
            Mutant("m", [Pair("src/made.rt", "called(n)", "called(n) + 1", "made")], functions),
            Mutant("m", self.MUTANT.pairs, frozenset(["made::called"])),
            Mutant(
                "m", self.MUTANT.pairs, functions, twin=Mutant("m", [Pair("src/made.rt", "called(n)", "(called(n))")])
            ),
        ]
        found = {self.key(folder / "a", mutant=it) for it in [self.MUTANT, *others]}
        self.assertEqual(len(found | {self.key(folder / "a", goals="returns of another")}), 6)

    @in_folder
    def test_a_constant(self, folder):
        mutant = Mutant("m", [Pair("src/lib.rt", "100", "101")])
        before = self.key(folder / "a", None, mutant, "low")
        for edit, changes in [
            (("crates/low/src/lib.rt", "u32 = 100", "u32 = 102"), True),
            (("crates/low/src/lib.rt", "kept", "other"), True),
            (("crates/low/specs/Doubles.antt", "tripled n = n + n + n", "tripled n = n"), True),
            (("crates/low/src/lib.rt", "/// Returns twice", "/// A line\n/// more: twice"), False),
            (("crates/middle/src/lib.rt", "Returns", "Gives"), False),
        ]:
            self.assertEqual(self.key(folder / "a", edit, mutant, "low") != before, changes, edit)

    def test_comments(self):
        for file, text, wanted in [
            ("src/a.rt", "f(\"//a\") // a\n\n/* b\n */ '/';\n", "f(\"//a\")\n '/';"),
            ("specs/A.antt", 'a = codes "--b\\"--" -- c\n-- d\n  e\n', 'a = codes "--b\\"--"\n  e'),
        ]:
            self.assertEqual(without_comments(file, text), wanted)
        text = 'pub a : Text\na = codes "--b" -- c\n'
        self.assertEqual(definitions_in("low", "specs/A.antt", text)["a"].text, 'pub a : Text a = codes "--b" ')
        self.assertEqual(bare('f("//a"); // b\n'), 'f("//a");')

    @in_folder
    def test_kit_and_judges(self, folder):
        before = self.key(folder / "a")
        for name in ["kit", "judges_sum"]:
            with unittest.mock.patch.object(mutant_keys, name, return_value="another"):
                self.assertNotEqual(self.key(folder / "a"), before, name)
        (folder / "WHAT").write_text("archive a1\ncompiler c1\n")
        for version, wanted in [("kit-1b logic f0", "f0"), ("kit-1f logic f0", "f0"), ("kit-1b logic f1", "f1")]:
            says = {"doc": str(folder / "START-HERE.md"), "version": version}
            with unittest.mock.patch.object(mutant_keys, "said_by_rt", says.get):
                self.assertEqual(mutant_keys.kit.__wrapped__(), f"archive a1 logic {wanted}")


class Scheduling(unittest.TestCase):
    """The order in which tasks run, one after the other."""

    def test_order(self):
        ran = []
        task = lambda name, rank, more=(): Task(lambda: (ran.append(name), more)[1], rank)  # noqa: E731
        run_all([task("c", 2), task("a", 1, [task("b", 0)]), task("d", 3)], 1)
        self.assertEqual(ran, ["a", "b", "c", "d"])

    def test_an_exception(self):
        with self.assertRaises(ZeroDivisionError):
            run_all([Task(lambda: 1 // 0)], 1)


class Whole(unittest.TestCase):
    """The script itself, with the prover."""

    def setUp(self):
        self.folder = Path(tempfile.mkdtemp(prefix="fmtcanon-test-"))
        self.addCleanup(shutil.rmtree, self.folder, ignore_errors=True)
        toy_crates.write(self.folder, toy_crates.FILES)
        for script in [
            *TOP.glob("tests/__init__.py"), *TOP.glob("tests/frame/__init__.py"), *TOP.glob("tests/mutants/*.py")
        ]:
            toy_crates.write(self.folder, {str(script.relative_to(TOP)): script.read_text(encoding="utf-8")})

    def has_mutants(self, names, crate="low"):
        toy_crates.write(self.folder, {f"crates/{crate}/mutants.txt": toy_crates.mutants_text(names)})

    def run_module(self, module, *words):
        """Returns the status of a run, and keeps what it says."""
        streams = {"stdout": subprocess.PIPE, "stderr": subprocess.STDOUT, "encoding": "utf-8"}
        done = subprocess.run([sys.executable, "-m", module, *words], cwd=self.folder, check=False, **streams)
        self.said = done.stdout
        return done.returncode

    def run_script(self, *words):
        """Returns the verdict that a run prints of each mutant, its last line, and its status."""
        status = self.run_module("tests.mutants", *words)
        found = dict(re.findall(r"^\w+/([\w-]+): ([^:]+): ", self.said, re.MULTILINE))
        return {name: Verdict(it) for name, it in found.items()}, self.said.splitlines()[-1], status

    def test_each_kind(self):
        self.has_mutants(toy_crates.MUTANTS)
        wanted = {name: verdict for name, (_, verdict) in toy_crates.MUTANTS.items()}
        bad = {name: verdict for name, verdict in wanted.items() if verdict is not REFUSED}
        good = len(wanted) - len(bad)
        self.assertEqual(self.run_script("--jobs", "2"), (wanted, f"{good} passed, {len(bad)} failed", 1))
        # Only those that were refused are recorded.
        self.assertEqual(self.run_script(), (bad, f"0 passed, {len(bad)} failed", 1))

    def test_the_record(self):
        self.has_mutants(["twin", "copy"])
        self.assertEqual(self.run_script("--recorded"), ({}, "0 passed, 5 failed", 1))
        self.assertIn("`python3 -m tests.mutants low twin` tries it", self.said)
        self.assertEqual(self.run_script("low"), ({"twin": REFUSED, "copy": REFUSED}, "2 passed, 0 failed", 0))
        for name in ["middle", "fmtcanon_c"]:
            toy_crates.write(self.folder, {f"crates/{name}/refused.txt": f"kit {mutant_keys.kit()}\n"})
        self.assertEqual(self.run_script("--recorded"), ({}, "2 passed, 0 failed", 0))
        # A line with other goals is not current.
        file = self.folder / "crates/low/refused.txt"
        file.write_text(
            file.read_text(encoding="utf-8").replace(" returns of same", " returns of limit"), encoding="utf-8"
        )
        self.assertEqual(self.run_script("--recorded"), ({}, "1 passed, 1 failed", 1))
        self.forge("twin", "returns of limit", ({"twin": REFUSED}, "0 passed, 1 failed", 1))
        self.assertIn("low/twin is recorded with other goals: returns of limit", self.said)
        self.forge("same-meaning", "returns of same", ({"same-meaning": LET_THROUGH}, "0 passed, 1 failed", 1))

    def forge(self, name, goals, wanted):
        """A line as the script writes it, of a mutant that nobody tried, passes only where the mutant isn't tried."""
        self.has_mutants([name])
        [mutant], record = mutants_of(self.folder / "crates/low"), Record(self.folder / "crates/low", mutant_keys.kit())
        record.put(mutant.name, Keys(Crates(self.folder)).key("low", mutant, goals), goals)
        record.keep_only({mutant.name})
        self.run_script("--recorded")
        self.assertIn("1 mutants of 3 crates are recorded", self.said)
        self.assertEqual(self.run_script("--gate"), wanted)

    def test_libraries(self):
        """The gate uses the libraries that rt ci has proved of the sources, and no others."""
        self.has_mutants(["by-two"], "middle")
        wanted = {"by-two": REFUSED}, "1 passed, 0 failed", 0
        self.assertEqual(self.run_script("middle"), wanted)
        self.assertEqual(self.run_script("--gate")[2], 1)
        self.assertIn("low.rlib isn't what rt ci proved of these sources: make gate", self.said)
        for library in self.folder.glob("crates/*/out/rlib"):
            shutil.rmtree(library)
        self.assertEqual(
            subprocess.run(["rt", "ci"], cwd=self.folder, stdout=subprocess.PIPE, check=False).returncode, 0
        )
        self.assertEqual(self.run_script("--gate")[2], 1)
        self.assertEqual(self.run_module("tests.mutants.built", "--mark"), 0, self.folder)
        self.assertEqual(self.run_script("--gate"), wanted)
        for path in ["crates/low/out/rlib/low.rlib/format", "crates/low/specs/Doubles.antt"]:
            before = (self.folder / path).read_bytes()
            (self.folder / path).write_bytes(before + b"\n")
            self.assertEqual(self.run_script("--gate")[2], 1, path)
            (self.folder / path).write_bytes(before)
        self.assertEqual(self.run_script("--gate"), wanted)


class Sampling(unittest.TestCase):
    """The sample that the gate tries."""

    @in_folder
    def test_how_many(self, folder):
        names, pairs = ["a", "b", "c", "d"], "file: src/lib.rt\nold: 1\nnew: 2\n"
        toy_crates.write(folder, {"crates.txt": "".join(f"{it}:\n" for it in names)})
        for name in names:
            text = "".join(f"mutant: {name}{it}\n{pairs}" for it in range(21))
            toy_crates.write(
                folder, {f"crates/{name}/src/lib.rt": "fn a() { 1 }\n", f"crates/{name}/mutants.txt": text}
            )
        mutants = Mutants(Crates(folder))
        samples = [mutants.sample(seed) for seed in map(str, range(30))]
        self.assertEqual({tuple(it) for it in samples}, {("a", "d"), ("b",), ("c",)})
        self.assertEqual({len(found) for it in samples for found in it.values()}, {4})
        self.assertGreater(len({it["b"][0].name for it in samples if "b" in it}), 3)


if __name__ == "__main__":
    unittest.main()
