"""Tries mutants: the prover must refuse each, at the very function that it changes.

Usage: python3 -m tests.mutants [--jobs N] [--all] [CRATE ..] [NAME ..]
       python3 -m tests.mutants --recorded
       python3 -m tests.mutants --gate [--jobs N]

A mutant is an edit of a crate's `mutants.txt`, or of its `must-fail/` (mutant_files.py has the format). It is
tried on a copy of the sources, over the proved libraries below the crate. Mutants of different functions share a check.
Names of crates or of mutants select those to try.

A mutant is refused if a goal that has no answer is open in a function whose body it changes; or in any function, if it
changes a constant, a table or a file of specs/; and if its twin, an edit of the same shape that means what the code
means, opens no such goal. So the twin shows that the goal is open because of what the mutant means. An answer that no
longer proves its goal shows nothing, since it may only not fit the wording.

Each refusal is a line of the record `crates/NAME/refused.txt`, with a key of the mutant and of what its
functions promise (mutant_keys.py). Mutants with a current line are not tried again, unless --all is given.

--recorded tries nothing: it fails if a mutant has no current line, or if no mutant breaks a clause of a public function
(clauses.py). --gate tries a sample of the mutants, which the
commit decides, over the libraries that `rt ci` has just left. It compares the goals with the recorded ones, and
writes no record.

Its last line is 'N passed, M failed', and it exits with 1 if M isn't 0.
"""

import argparse
import hashlib
import subprocess

from tests.mutants.built import Built
from tests.mutants.clauses import unbroken
from tests.mutants.crates import TOP, Crates
from tests.mutants.mutant_files import mutants_of
from tests.mutants.mutant_keys import Keys, checksum
from tests.mutants.mutant_trials import Trial
from tests.mutants.refused import Record
from tests.mutants.schedule import run_all, say

# The gate tries one mutant in 20, all of them of one crate in 3: what the mutants of a crate share costs most of a
# trial.
ONE_IN, CRATES_ONE_IN = 20, 3


class Mutants:
    """The mutants of all crates, with the records of those that were refused, by the kit that is here or another one.
    """

    def __init__(self, crates, of_kit=None):
        self.crates, self.keys = crates, Keys(crates, of_kit)
        self.of_crate = {name: mutants_of(crates.folder(name)) for name in crates.names()}
        self.records = {name: Record(crates.folder(name), self.keys.kit) for name in crates.names()}

    def key(self, name, mutant, goals):
        """Returns the key of a mutant that these goals refused; one that is broken, or whose twin is, has none."""
        is_broken = mutant.is_broken() or (mutant.twin is not None and mutant.twin.is_broken())
        return None if is_broken else self.keys.key(name, mutant, goals)

    def is_current(self, name, mutant):
        """Returns whether the record of a crate has a current line of a mutant."""
        goals = self.records[name].goals(mutant.name)
        return goals is not None and self.records[name].is_current(mutant.name, self.key(name, mutant, goals))

    def current(self, name):
        """Returns the goals of each mutant of a crate that has a current line."""
        return [self.records[name].goals(it.name) for it in self.of_crate[name] if self.is_current(name, it)]

    def faults_of_record(self, name):
        """Yields what is wrong with the record of a crate."""
        for mutant in self.of_crate[name]:
            if mutant.twin is None:
                yield f"{name}/{mutant.name} has no twin"
            elif not self.is_current(name, mutant):
                yield (
                    f"{name}/{mutant.name} has no current line: `python3 -m tests.mutants {name} {mutant.name}` tries "
                    f"it"
                )
        record, names = self.records[name], {it.name for it in self.of_crate[name]}
        for mutant in sorted(record.lines.keys() - names):
            yield f"{name}/{mutant} has a line and is no mutant: `python3 -m tests.mutants {name}` drops it"
        there = record.file.read_text(encoding="utf-8") if record.file.is_file() else ""
        if there != record.text():
            yield f"{record.file.relative_to(TOP)} is not as the script writes it"

    def put(self, name, mutant, goals):
        """Records that a mutant was refused."""
        self.records[name].put(mutant.name, self.key(name, mutant, goals), goals)

    def compare(self, name, mutant, goals):
        """Returns what is wrong where a mutant is refused by goals that are not those of its line."""
        recorded = self.records[name].goals(mutant.name)
        return "" if goals == recorded else f"{name}/{mutant.name} is recorded with other goals: {recorded}"

    def sample(self, seed):
        """Returns the mutants that the gate tries, by their crates."""
        crates = sorted(filter(self.of_crate.get, self.of_crate), key=lambda it: -len(self.of_crate[it]))
        crates = crates[int(checksum(seed), 16) % min(CRATES_ONE_IN, len(crates)) :: CRATES_ONE_IN]
        every = {name: in_order(f"{seed}{name}/", self.of_crate[name]) for name in crates}
        return {name: mutants[: -(-len(mutants) * CRATES_ONE_IN // ONE_IN)] for name, mutants in every.items()}


def in_order(seed, mutants):
    """Returns mutants in an order that a seed decides."""
    return sorted(mutants, key=lambda it: hashlib.sha256(f"{seed}{it.name}".encode()).hexdigest())


def seed_of(top):
    """Returns what a sample depends on: the commit, which nobody can choose, or the lists of mutants if git has none.
    """
    how = {"cwd": top, "stdout": subprocess.PIPE, "stderr": subprocess.DEVNULL, "check": True}
    try:
        return subprocess.run(["git", "rev-parse", "HEAD"], **how).stdout.decode().strip()
    except (OSError, subprocess.CalledProcessError):
        return checksum([it.read_bytes() for it in sorted((top / "crates").glob("*/mutants.txt"))])


def try_all(built, wanted, jobs, refused):
    """Tries the chosen mutants of each crate. Returns how many were refused and how many not."""
    trials = [
        Trial(name, mutants, built, lambda mutant, goals, it=name: refused(it, mutant, goals))
        for name, mutants in wanted.items()
    ]
    run_all([task for trial in trials for task in trial.tasks(jobs)], jobs)
    counts = [trial.end() for trial in trials]
    for trial in trials:
        trial.name_what_is_not_refused()
    return sum(good for good, _ in counts), sum(bad for _, bad in counts)


def compare_records(mutants):
    """Compares the record of each crate with its mutants and clauses, and returns how many mutants are recorded, and
    how many faults there are.
    """
    faults = [fault for name in mutants.of_crate for fault in mutants.faults_of_record(name)]
    count, missing, needless = unbroken(mutants)
    faults += [f"no mutant breaks {it}" for it in missing]
    faults += [f"a mutant breaks {it}, which is an exception" for it in needless]
    for fault in faults:
        say(fault)
    recorded = sum(mutants.is_current(name, it) for name, every in mutants.of_crate.items() for it in every)
    say(f"{recorded} mutants of {len(mutants.of_crate)} crates are recorded as refused, and break {count} clauses")
    return recorded, len(faults)


def try_sample(mutants, jobs):
    """Tries a sample over what `rt ci` has proved. Returns how many passed and how many failed."""
    wanted = mutants.sample(seed_of(TOP))
    names = [f"{name}/{it.name}" for name, every in wanted.items() for it in every]
    say(f"a sample of {len(names)} mutants: {' '.join(names)}")
    faults = []
    refused = lambda *found: faults.append(mutants.compare(*found))  # noqa: E731
    passed, failed = try_all(Built(mutants.crates), wanted, jobs, refused)
    faults = [it for it in faults if it]
    for fault in faults:
        say(fault)
    return passed - len(faults), failed + len(faults)


def try_wanted(mutants, options):
    """Tries the mutants that the options name and that have no current line, or all, and records those refused."""
    every = list(mutants.of_crate)
    names = [it for it in options.words if it in every] or every
    only = [it for it in options.words if it not in every]
    wanted = {}
    for name in names:
        mutants.records[name].keep_only({it.name for it in mutants.of_crate[name]})
        found = [it for it in mutants.of_crate[name] if not only or it.name in only]
        wanted[name] = [it for it in found if options.all or not mutants.is_current(name, it)]
    wanted, built = {name: found for name, found in wanted.items() if found}, Built(mutants.crates, of_ci=False)
    built.prove_below(wanted, options.jobs)
    return try_all(built, wanted, options.jobs, mutants.put)


def main():
    parser = argparse.ArgumentParser(
        "python3 -m tests.mutants", description="Tries mutants: the prover must refuse each."
    )
    parser.add_argument("--jobs", type=int, default=1, help="how many checks run side by side")
    how = parser.add_mutually_exclusive_group()
    how.add_argument("--all", action="store_true", help="try those with a current line, too")
    how.add_argument("--recorded", action="store_true", help="compare the records, and try nothing")
    how.add_argument("--gate", action="store_true", help="try a sample over the libraries of rt ci")
    parser.add_argument(
        "words", nargs="*", metavar="CRATE | NAME", help="the crates and the mutants to try; all if none is named"
    )
    options = parser.parse_args()
    mutants = Mutants(Crates())
    if options.recorded:
        passed, failed = compare_records(mutants)
    elif options.gate:
        passed, failed = try_sample(mutants, options.jobs)
    else:
        passed, failed = try_wanted(mutants, options)
    say(f"{passed} passed, {failed} failed")
    return 1 if failed else 0
